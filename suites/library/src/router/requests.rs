//! Requests to the controller of generic netlink, and its answers.

use super::script::{Step, Told, kind_once};
use super::steps::Asker;
use super::support::assert_is_at;
use neli::consts::genl::{CtrlAttr, CtrlCmd};
use neli::consts::nl::GenlId;
use neli::err::RouterError;
use neli::genl::Genlmsghdr;
use neli::nl::NlPayload;
use neli::router::synchronous::{
    CtrlError, CtrlItem, Deliveries, HandleState, Log, NlRouter, NlRouterReceiverHandle, Queues,
    Reply, find_genl_family, resolve_genl_family,
};
use std::alloc::Global;
use std::process::Abort;

/// A request to the controller, and its answer.
type Ctrl = Genlmsghdr<CtrlCmd, CtrlAttr>;

/// A handle for the controller's answers.
type Handle = NlRouterReceiverHandle<GenlId, Ctrl>;

/// The first request of a router with port 0 for the family `nlctrl`.
const FAMILY: [u8; 32] = [
    0x20, 0, 0, 0, 0x10, 0, 5, 0, 0, 0, 0, 0, 0, 0, 0, 0, // type 16, REQUEST and ACK
    3, 2, 0, 0, // CTRL_CMD_GETFAMILY, version 2
    0x0b, 0, 2, 0, 0x6e, 0x6c, 0x63, 0x74, 0x72, 0x6c, 0, 0, // CTRL_ATTR_FAMILY_NAME
];

/// The first request of a router with port 0 for all families.
const FAMILIES: [u8; 20] = [
    0x14, 0, 0, 0, 0x10, 0, 1, 3, 0, 0, 0, 0, 0, 0, 0, 0, // type 16, REQUEST and DUMP
    3, 2, 0, 0,
];

/// The front of the first request for a family whose name has 65530 bytes.
const LONG: [u8; 26] = [
    0x14, 0, 1, 0, 0x10, 0, 5, 0, 0, 0, 0, 0, 0, 0, 0, 0, 3, 2, 0, 0, 0xff, 0xff, 2, 0, 0x61, 0x61,
];

/// The last bytes of that request: of the name, its zero byte and one of padding.
const LONG_END: [u8; 4] = [0x61, 0x61, 0, 0];

/// The first request of a router with port 0 that has type 16 and no body.
const EMPTY: [u8; 16] = [0x10, 0, 0, 0, 0x10, 0, 1, 0, 0, 0, 0, 0, 0, 0, 0, 0];

/// The number of the family `nlctrl` in an answer of the controller.
const NUMBER: &str = "1c000000100000000000000000000000010200000600010010000000";

/// The acknowledgement of the request.
const ACK: &str = "240000000200000100000000000000000000000020000000100005000000000000000000";

/// Both, one after the other.
const BOTH: &str = "1c000000100000000000000000000000010200000600010010000000\
    240000000200000100000000000000000000000020000000100005000000000000000000";

/// The families 16 and 17, and the end of the dump.
const DUMP: &str = "1c000000100002000000000000000000010200000600010010000000\
    1c000000100002000000000000000000010200000600010011000000\
    1400000003000200000000000000000000000000";

/// The subject of a request to the controller.
#[derive(Clone, Copy)]
enum Asked<'a> {
    /// A family, by its name.
    Family(&'a str),
    /// All families.
    Families,
}

/// A request and its answers.
struct Exchange {
    name: &'static str,
    /// The subject of the request. None: answers read as bytes, and the handle is retyped.
    asked: Option<Asked<'static>>,
    /// The request, and whether it requests an acknowledgement.
    bytes: &'static [u8],
    needs_ack: bool,
    datagrams: &'static [&'static str],
    /// The number of items in the answers, whether the last has a body, and whether it is an acknowledgement. The first
    /// has a body.
    count: usize,
    last: (bool, bool),
    /// A family, and the number that is found for it.
    family: &'static str,
    number: u16,
}

/// Requests to a new router.
const EXCHANGES: [Exchange; 4] = [
    Exchange {
        name: "a family is found by its name",
        asked: Some(Asked::Family("nlctrl")),
        bytes: &FAMILY,
        needs_ack: true,
        datagrams: &[NUMBER, ACK],
        count: 2,
        last: (false, true),
        family: "nlctrl",
        number: 16,
    },
    Exchange {
        name: "a family is found in one datagram",
        asked: Some(Asked::Family("nlctrl")),
        bytes: &FAMILY,
        needs_ack: true,
        datagrams: &[BOTH],
        count: 2,
        last: (false, true),
        family: "nlctrl",
        number: 16,
    },
    Exchange {
        name: "a retyped handle reads its answers typed",
        asked: None,
        bytes: &EMPTY,
        needs_ack: false,
        datagrams: &[NUMBER],
        count: 1,
        last: (true, false),
        family: "nlctrl",
        number: 16,
    },
    Exchange {
        name: "all families come as a dump",
        asked: Some(Asked::Families),
        bytes: &FAMILIES,
        needs_ack: false,
        datagrams: &[DUMP],
        count: 3,
        last: (false, false),
        family: "the last",
        number: 17,
    },
];

/// Sends a request.
fn ask<D: Deliveries>(
    alloc: Global,
    asker: &mut Asker<D>,
    asked: Asked<'_>,
) -> Result<(Vec<u8>, Handle), CtrlError> {
    match asked {
        Asked::Family(name) => asker.router.request_genl_family(alloc, name),
        Asked::Families => asker.router.request_families(alloc),
    }
}

/// Sends a request, and returns its bytes and its handle.
fn request<D: Deliveries>(
    rt: &impl Abort,
    alloc: Global,
    asker: &mut Asker<D>,
    asked: Asked<'_>,
) -> (Vec<u8>, Handle) {
    ask(alloc, asker, asked).expect(rt, "bytes to be sent")
}

/// Sends an empty request of type 16, and returns its bytes and its handle, which is retyped.
fn request_bytes<D: Deliveries>(
    rt: &impl Abort,
    alloc: Global,
    asker: &mut Asker<D>,
) -> (Vec<u8>, Handle) {
    let (bytes, handle) = asker
        .request(alloc, 16, 0, "")
        .expect(rt, "bytes to be sent");
    (bytes, handle.retyped())
}

/// Reads the next item of a handle.
fn next<D: Deliveries, RT, RP>(
    rt: &impl Abort,
    alloc: Global,
    router: &mut NlRouter<D>,
    handle: &mut NlRouterReceiverHandle<RT, RP>,
) -> Reply<GenlId, Ctrl> {
    router.next_typed(alloc, handle).expect(rt, "memory")
}

/// The items of a handle, which has to end after at most seven.
fn items<D: Deliveries>(
    rt: &impl Abort,
    alloc: Global,
    router: &mut NlRouter<D>,
    handle: &mut Handle,
) -> Vec<CtrlItem> {
    let mut list = Vec::new(alloc);
    for _ in 0..8 {
        match next(rt, alloc, router, handle) {
            Reply::Item(item) => list.push(item).expect(rt, "memory"),
            Reply::End => return list,
            Reply::Waits => rt.panic("an item is missing"),
        }
    }
    rt.panic("too many items")
}

/// Whether an item is a message with a body, and whether it is an acknowledgement.
fn kind(item: Option<&CtrlItem>) -> (bool, bool) {
    match item {
        Some(Ok(message)) => (
            message.get_payload().is_some(),
            matches!(message.nl_payload(), NlPayload::Ack(_)),
        ),
        _ => (false, false),
    }
}

/// Asserts that these are the items of an exchange, and that its number is found in them.
fn assert_found(rt: &impl Abort, alloc: Global, row: &Exchange, list: Vec<CtrlItem>) {
    assert_is_at(rt, row.name, list.len(), row.count);
    assert_is_at(rt, row.name, kind(list.first()), (true, false));
    assert_is_at(rt, row.name, kind(list.last()), row.last);
    let found = resolve_genl_family(alloc, row.family, list).expect(rt, "a number");
    assert_is_at(rt, row.name, found, row.number);
}

/// Sends the request of an exchange.
fn start<D: Deliveries>(
    rt: &impl Abort,
    alloc: Global,
    asker: &mut Asker<D>,
    row: &Exchange,
) -> Handle {
    let (bytes, handle) = match row.asked {
        Some(asked) => request(rt, alloc, asker, asked),
        None => request_bytes(rt, alloc, asker),
    };
    assert_is_at(rt, row.name, bytes.as_slice(), row.bytes);
    let state = HandleState {
        number: Some(0),
        needs_ack: row.needs_ack,
        single_given: false,
        ended: false,
    };
    assert_is_at(rt, row.name, handle.state(), state);
    handle
}

/// Sends a request to a new router, hands in the datagrams that answer it, and reads these.
fn play<D: Deliveries>(rt: &impl Abort, alloc: Global, row: &Exchange) {
    let mut asker = Asker::<D>::new(rt, alloc, 0);
    let mut handle = start(rt, alloc, &mut asker, row);
    for text in row.datagrams {
        let came = asker.come(alloc, text, 0).expect(rt, "memory");
        assert_is_at(rt, row.name, kind_once(came), Told::Done);
    }
    let list = items(rt, alloc, &mut asker.router, &mut handle);
    assert_found(rt, alloc, row, list);
}

#[test]
fn requests_are_answered(rt: HostRuntime) {
    for row in &EXCHANGES {
        play::<Queues>(&rt, rt.alloc(), row);
        play::<Log>(&rt, rt.alloc(), row);
    }
}

/// Whether a handle waits.
fn waits(reply: Reply<GenlId, Ctrl>) -> bool {
    matches!(&reply, Reply::Waits)
}

/// Reads multicast as it is given, which waits, and closes it.
fn read_multicast<D: Deliveries>(rt: &impl Abort, alloc: Global) {
    let (mut router, mut multicast) = NlRouter::<D>::new(alloc, 7);
    let reply = next(rt, alloc, &mut router, &mut multicast);
    assert_is_at(rt, "multicast", waits(reply), true);
    router.close(multicast);
}

#[test]
fn multicast_is_read_as_it_is_given(rt: HostRuntime) {
    read_multicast::<Queues>(&rt, rt.alloc());
    read_multicast::<Log>(&rt, rt.alloc());
}

/// The bytes from one place to another; none where they are not all there.
fn part(bytes: &[u8], from: usize, to: usize) -> &[u8] {
    bytes.get(from..to).unwrap_or(&[])
}

/// A name of so many bytes.
fn name_of(rt: &impl Abort, alloc: Global, count: usize) -> String {
    let mut name = String::new(alloc);
    for _ in 0..count {
        name.push_str("a").expect(rt, "memory");
    }
    name
}

/// Asserts that an error has this text.
fn assert_text(rt: &impl Abort, alloc: Global, error: &CtrlError, want: &str) {
    let text = error.to_string(alloc).expect(rt, "memory");
    assert_is_at(rt, want, text.as_str(), want);
}

/// Asserts that a request is refused with this text.
fn assert_refused(
    rt: &impl Abort,
    alloc: Global,
    asker: &mut Asker<Queues>,
    asked: Asked<'_>,
    want: &str,
) {
    match ask(alloc, asker, asked) {
        Ok(_) => rt.panic("no refusal"),
        Err(error) => assert_text(rt, alloc, &error, want),
    }
}

#[test]
fn a_name_that_does_not_fit_its_attribute_is_refused(rt: HostRuntime) {
    let alloc = rt.alloc();
    let mut asker = Asker::<Queues>::new(&rt, alloc, 0);
    let name = name_of(&rt, alloc, 65531);
    let asked = Asked::Family(&name);
    assert_refused(
        &rt,
        alloc,
        &mut asker,
        asked,
        "Length does not fit its field",
    );
    let name = name_of(&rt, alloc, 65530);
    let (bytes, handle) = request(&rt, alloc, &mut asker, Asked::Family(&name));
    assert_is_at(&rt, "number", handle.state().number, Some(0));
    assert_is_at(&rt, "length", bytes.len(), 65556);
    assert_is_at(&rt, "front", part(&bytes, 0, 26), LONG.as_slice());
    assert_is_at(&rt, "end", part(&bytes, 65552, 65556), LONG_END.as_slice());
}

#[test]
fn a_number_in_use_is_refused_before_a_name(rt: HostRuntime) {
    let alloc = rt.alloc();
    let mut asker = Asker::<Queues>::new(&rt, alloc, 0);
    let (_bytes, handle) = request(&rt, alloc, &mut asker, Asked::Families);
    asker.router.set_next_seq(0);
    let name = name_of(&rt, alloc, 65531);
    for asked in [
        Asked::Family("nlctrl"),
        Asked::Family(&name),
        Asked::Families,
    ] {
        assert_refused(&rt, alloc, &mut asker, asked, "Sequence number 0 is in use");
    }
    asker.router.close(handle);
    let (bytes, _handle) = request(&rt, alloc, &mut asker, Asked::Family("nlctrl"));
    assert_is_at(&rt, "family", bytes.as_slice(), FAMILY.as_slice());
}

/// Sends a request, once more if memory ran out.
fn ask_again<D: Deliveries>(
    rt: &impl Abort,
    alloc: Global,
    asker: &mut Asker<D>,
    asked: Asked<'_>,
) -> (Vec<u8>, Handle) {
    match ask(alloc, asker, asked) {
        Err(RouterError::Memory) => ask(alloc, asker, asked).expect(rt, "memory"),
        other => other.expect(rt, "bytes to be sent"),
    }
}

/// Sends a new router's request, and asserts that it has the first number.
fn request_again<D: Deliveries>(rt: &impl Abort, alloc: Global, asked: Asked<'_>, want: &[u8]) {
    let mut asker = Asker::<D>::new(rt, alloc, 0);
    let (bytes, handle) = ask_again(rt, alloc, &mut asker, asked);
    assert_is_at(rt, "number", handle.state().number, Some(0));
    assert_is_at(rt, "request", bytes.as_slice(), want);
}

/// Any one allocation may be refused in this test: then the number is not used up.
#[test]
fn a_family_is_asked_for_again_after_out_of_memory(rt: HostRuntime) {
    let asked = Asked::Family("nlctrl");
    request_again::<Queues>(&rt, rt.alloc(), asked, &FAMILY);
    request_again::<Log>(&rt, rt.alloc(), asked, &FAMILY);
}

/// The same of all families.
#[test]
fn all_families_are_asked_for_again_after_out_of_memory(rt: HostRuntime) {
    request_again::<Queues>(&rt, rt.alloc(), Asked::Families, &FAMILIES);
    request_again::<Log>(&rt, rt.alloc(), Asked::Families, &FAMILIES);
}

/// Reads the next item of a handle, once more if memory ran out.
fn next_again<D: Deliveries>(
    rt: &impl Abort,
    alloc: Global,
    router: &mut NlRouter<D>,
    handle: &mut Handle,
) -> Reply<GenlId, Ctrl> {
    match router.next_typed(alloc, handle) {
        Ok(reply) => reply,
        Err(_) => next(rt, alloc, router, handle),
    }
}

/// The items of a handle, which are two and then the end.
fn two_items_again<D: Deliveries>(
    rt: &impl Abort,
    alloc: Global,
    router: &mut NlRouter<D>,
    handle: &mut Handle,
) -> Vec<CtrlItem> {
    let mut list = Vec::new(alloc);
    if list.reserve(2).is_err() {
        list.reserve(2).expect(rt, "memory");
    }
    for _ in 0..2 {
        match next_again(rt, alloc, router, handle) {
            Reply::Item(item) => list.push(item).expect(rt, "memory"),
            _ => rt.panic("an item is missing"),
        }
    }
    let is_end = matches!(&next_again(rt, alloc, router, handle), Reply::End);
    assert_is_at(rt, "the end", is_end, true);
    list
}

/// The number of the family `nlctrl` in these items, looked up once more if memory ran out.
fn number_again(rt: &impl Abort, alloc: Global, list: &[CtrlItem]) -> u16 {
    match find_genl_family(alloc, "nlctrl", list) {
        Err(RouterError::Memory) => { find_genl_family(alloc, "nlctrl", list).expect(rt, "memory") }
        other => other.expect(rt, "a number"),
    }
}

/// Requests the family `nlctrl`, hands in the reply and its acknowledgement, reads both, and looks the number up.
fn resolve_again<D: Deliveries>(rt: &impl Abort, alloc: Global) {
    let mut asker = Asker::<D>::new(rt, alloc, 0);
    let (bytes, mut handle) = ask_again(rt, alloc, &mut asker, Asked::Family("nlctrl"));
    assert_is_at(rt, "request", bytes.as_slice(), FAMILY.as_slice());
    for text in [NUMBER, ACK] {
        let came = asker.step_again(rt, alloc, Step::Come(text, 0));
        assert_is_at(rt, text, kind_once(came), Told::Done);
    }
    let list = two_items_again(rt, alloc, &mut asker.router, &mut handle);
    assert_is_at(rt, "the reply", kind(list.first()), (true, false));
    assert_is_at(rt, "the answer", kind(list.last()), (false, true));
    assert_is_at(rt, "nlctrl", number_again(rt, alloc, &list), 16);
}

/// Any one allocation may be refused in this test: each call is then repeated, and returns what it would have.
#[test]
fn a_family_is_resolved_after_out_of_memory(rt: HostRuntime) {
    resolve_again::<Queues>(&rt, rt.alloc());
    resolve_again::<Log>(&rt, rt.alloc());
}
