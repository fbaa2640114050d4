//! How answers stand, by their handles and by lists of their items, and requests that are given up, over both stores.
//!
//! The marks of a dump are those of `linux/netlink.h`: 0x10 is `NLM_F_DUMP_INTR`, 0x20 is `NLM_F_DUMP_FILTERED`.

use super::entries::ONE;
use super::script::bytes_of;
use super::support::assert_is_at;
use neli::consts::nl::NlmF;
use neli::consts::socket::NlFamily;
use neli::err::{RouterError, SocketError};
use neli::genl::Genlmsghdr;
use neli::nl::{NlPayload, Nlmsghdr};
use neli::router::synchronous::laws::{
    complete_answers_are_whole, complete_dumps_have_ended, given_items_stand_alike,
    verdicts_follow_reads, verdicts_stay,
};
use neli::router::synchronous::{
    Answering, Deliveries, Log, Loss, Missed, NlRouter, NlRouterReceiverHandle, Notice, Queues,
    Reply, Verdict, filtered_of, verdict_of,
};
use neli::types::Buffer;
use neli::utils::Groups;
use std::alloc::Global;
use std::io::ErrorKind;
use std::process::Abort;

pub type Handle = NlRouterReceiverHandle<u16, Buffer>;

pub type Item = Result<Nlmsghdr<u16, Buffer>, RouterError<u16, Buffer>>;

/// A part of a dump with number 0 and port 7, and the same with the marks.
pub const PART: &str = "10000000100002000000000007000000";

pub const TWO_PARTS: &str = "10000000100002000000000007000000\
    10000000100002000000000007000000";

const MARKED: &str = "10000000100012000000000007000000";

const FILTERED: &str = "10000000100022000000000007000000";

/// The end of that dump, with code 0; marked; with the code -19.
pub const END: &str = "1400000003000200000000000700000000000000";

const MARKED_END: &str = "1400000003001200000000000700000000000000";

pub const FAILED_END: &str = "14000000030002000000000007000000edffffff";

/// The error -1 to a request of type 16 with number 0; an acknowledgement of it, and one of that with number 1.
pub const REFUSED: &str =
    "24000000020000000000000007000000ffffffff10000000100005030000000007000000";

pub const ACK: &str = "240000000200000100000000070000000000000014000000100005000000000007000000";

pub const ACK_OF_1: &str =
    "240000000200000101000000070000000000000014000000100005000100000007000000";

/// The same end without MULTI.
const PLAIN_END: &str = "1400000003000000000000000700000000000000";

/// A message without MULTI.
pub const SINGLE: &str = "10000000100000000000000007000000";

/// A dump; a request with an acknowledgement.
pub const DUMP: u16 = 0x300;

pub const WITH_ACK: u16 = 4;

/// A request's flags, the datagrams that come, and how its answer stands when they are read; whether it was filtered.
pub const ROWS: [(&str, u16, &[&str], Verdict, bool); 18] = [
    ("nothing came", DUMP, &[], Verdict::Pending, false),
    ("no end", DUMP, &[PART, PART], Verdict::Pending, false),
    ("a dump", DUMP, &[PART, PART, END], Verdict::Complete, false),
    ("filtered", DUMP, &[FILTERED, END], Verdict::Complete, true),
    (
        "an end without MULTI",
        DUMP,
        &[PART, PLAIN_END],
        Verdict::Complete,
        false,
    ),
    (
        "a dump without MULTI",
        DUMP,
        &[SINGLE, END],
        Verdict::Lost(Loss::Unended),
        false,
    ),
    ("one reply", 0, &[SINGLE], Verdict::Complete, false),
    (
        "the first is marked",
        DUMP,
        &[MARKED, PART, END],
        Verdict::Interrupted,
        false,
    ),
    (
        "the end is marked",
        DUMP,
        &[PART, MARKED_END],
        Verdict::Interrupted,
        false,
    ),
    (
        "marked, and no end",
        DUMP,
        &[PART, MARKED],
        Verdict::Interrupted,
        false,
    ),
    (
        "marked, and failed",
        DUMP,
        &[MARKED, FAILED_END],
        Verdict::Interrupted,
        false,
    ),
    (
        "a failed end",
        DUMP,
        &[PART, FAILED_END],
        Verdict::Failed(-19),
        false,
    ),
    ("refused", DUMP, &[REFUSED], Verdict::Failed(-1), false),
    (
        "a stray",
        DUMP,
        &[PART, ONE],
        Verdict::Lost(Loss::Stray),
        false,
    ),
    (
        "a datagram that ends early",
        DUMP,
        &[PART, "10"],
        Verdict::Lost(Loss::Datagram),
        false,
    ),
    (
        "acknowledged",
        WITH_ACK,
        &[SINGLE, ACK],
        Verdict::Complete,
        false,
    ),
    (
        "a second reply",
        WITH_ACK,
        &[SINGLE, SINGLE],
        Verdict::Lost(Loss::NoAck),
        false,
    ),
    (
        "not asked for",
        0,
        &[ACK],
        Verdict::Lost(Loss::UnexpectedAck),
        false,
    ),
];

pub fn request<D: Deliveries>(
    rt: &impl Abort,
    alloc: Global,
    router: &mut NlRouter<D>,
    flags: u16,
) -> Handle {
    let body = NlPayload::Payload(Buffer::new(alloc));
    let sent = router.send::<u16, Buffer, u16, Buffer>(alloc, 16, NlmF::from(flags), body);
    sent.expect(rt, "a number and memory").1
}

pub fn come<D: Deliveries>(rt: &impl Abort, alloc: Global, router: &mut NlRouter<D>, text: &str) {
    let bytes = bytes_of(alloc, text).expect(rt, "memory");
    router
        .receive(&bytes, &Groups::empty(alloc))
        .expect(rt, "memory");
}

/// Reads a handle until it waits or ends, and keeps what it is given.
pub fn read<D: Deliveries>(
    rt: &impl Abort,
    alloc: Global,
    router: &mut NlRouter<D>,
    handle: &mut Handle,
) -> Vec<Item> {
    let mut items = Vec::new(alloc);
    loop {
        let reply = router.next_typed::<u16, Buffer, _, _>(alloc, handle);
        match reply.expect(rt, "memory") {
            Reply::Item(item) => items.push(item).expect(rt, "memory"),
            _ => return items,
        }
    }
}

fn stands<D: Deliveries>(rt: &impl Abort, alloc: Global) {
    for (row, flags, datagrams, verdict, filtered) in &ROWS {
        let (mut router, multicast) = NlRouter::<D>::new(alloc, 7);
        let mut handle = request(rt, alloc, &mut router, *flags);
        for text in *datagrams {
            come(rt, alloc, &mut router, text);
        }
        assert_is_at(rt, *row, router.verdict(&handle), Verdict::Pending);
        let items = read(rt, alloc, &mut router, &mut handle);
        assert_is_at(rt, *row, router.verdict(&handle), *verdict);
        assert_is_at(rt, *row, verdict_of(NlmF::from(*flags), &items), *verdict);
        let heard = router.heard(&handle).expect(rt, "an open handle");
        assert_is_at(rt, *row, heard.filtered, *filtered);
        assert_is_at(rt, *row, filtered_of(NlmF::from(*flags), &items), *filtered);
        assert_is_at(rt, *row, router.verdict(&multicast), Verdict::Pending);
    }
}

#[test]
fn answers_stand_as_they_end(rt: HostRuntime) {
    stands::<Queues>(&rt, rt.alloc());
    stands::<Log>(&rt, rt.alloc());
}

/// Whether the next request has a number that is in use.
fn is_in_use<D: Deliveries>(alloc: Global, router: &mut NlRouter<D>, number: u32) -> bool {
    router.set_next_seq(number);
    let body = NlPayload::Payload(Buffer::new(alloc));
    let sent = router.send::<u16, Buffer, u16, Buffer>(alloc, 16, NlmF::empty(), body);
    matches!(sent, Err(RouterError::SeqInUse(_)))
}

/// A dump that is given up half read is no stray to another request, and its number is in use until its end.
fn gives_up<D: Deliveries>(rt: &impl Abort, alloc: Global, row: &str) {
    let (mut router, _multicast) = NlRouter::<D>::new(alloc, 7);
    let dump = request(rt, alloc, &mut router, DUMP);
    let mut other = request(rt, alloc, &mut router, WITH_ACK);
    come(rt, alloc, &mut router, PART);
    router.give_up(alloc, dump).expect(rt, "memory");
    come(rt, alloc, &mut router, PART);
    router
        .link_failed(SocketError::Io(ErrorKind::WouldBlock))
        .expect(rt, "memory");
    assert_is_at(rt, row, is_in_use(alloc, &mut router, 0), true);
    come(rt, alloc, &mut router, END);
    assert_is_at(rt, row, is_in_use(alloc, &mut router, 0), false);
    come(rt, alloc, &mut router, ACK_OF_1);
    assert_is_at(rt, row, read(rt, alloc, &mut router, &mut other).len(), 1);
    assert_is_at(rt, row, router.verdict(&other), Verdict::Complete);
}

#[test]
fn what_was_given_up_is_no_stray(rt: HostRuntime) {
    gives_up::<Queues>(&rt, rt.alloc(), "lists");
    gives_up::<Log>(&rt, rt.alloc(), "the log");
}

/// One whose end waits already, or was read, is closed at once; after a fault of the link it is not.
fn ends_at_once<D: Deliveries>(rt: &impl Abort, alloc: Global, row: &str) {
    let (mut router, _multicast) = NlRouter::<D>::new(alloc, 7);
    let handle = request(rt, alloc, &mut router, DUMP);
    come(rt, alloc, &mut router, PART);
    come(rt, alloc, &mut router, END);
    router.give_up(alloc, handle).expect(rt, "memory");
    assert_is_at(rt, row, is_in_use(alloc, &mut router, 0), false);

    let (mut router, _multicast) = NlRouter::<D>::new(alloc, 7);
    let mut handle = request(rt, alloc, &mut router, DUMP);
    router
        .link_failed(SocketError::Io(ErrorKind::Other))
        .expect(rt, "memory");
    read(rt, alloc, &mut router, &mut handle);
    assert_is_at(rt, row, router.verdict(&handle), Verdict::Lost(Loss::Link));
    router.give_up(alloc, handle).expect(rt, "memory");
    assert_is_at(rt, row, is_in_use(alloc, &mut router, 0), true);
    come(rt, alloc, &mut router, END);
    assert_is_at(rt, row, is_in_use(alloc, &mut router, 0), false);
}

#[test]
fn an_answer_that_has_ended_is_closed(rt: HostRuntime) {
    ends_at_once::<Queues>(&rt, rt.alloc(), "lists");
    ends_at_once::<Log>(&rt, rt.alloc(), "the log");
}

#[test]
fn nothing_is_kept_of_what_was_given_up(rt: HostRuntime) {
    let alloc = rt.alloc();
    let (mut router, _multicast) = NlRouter::<Log>::new(alloc, 7);
    let dump = request(&rt, alloc, &mut router, DUMP);
    come(&rt, alloc, &mut router, PART);
    assert_is_at(&rt, "before", router.deliveries().kept(), 1);
    router.give_up(alloc, dump).expect(&rt, "memory");
    assert_is_at(&rt, "given up", router.deliveries().kept(), 0);
    come(&rt, alloc, &mut router, TWO_PARTS);
    assert_is_at(&rt, "two parts", router.deliveries().kept(), 0);
    come(&rt, alloc, &mut router, ONE);
    assert_is_at(&rt, "a stray", router.deliveries().kept_bytes(), 0);
}

/// A part of a dump whose body has two bytes, and its padding.
const SHORT_PART: &str = "12000000100002000000000007000000aabb0000";

/// A request's flags, a message that can't be read as a generic one, and whether its answer goes on after it.
const UNREAD: [(&str, u16, &str, bool); 2] = [
    ("an error", WITH_ACK, REFUSED, false),
    ("a part of a dump", DUMP, SHORT_PART, true),
];

/// A message that can't be read is the last of its answer by its header, as any other is.
fn gives_up_unread<D: Deliveries>(rt: &impl Abort, alloc: Global) {
    for (row, flags, text, goes_on) in &UNREAD {
        let (mut router, _multicast) = NlRouter::<D>::new(alloc, 7);
        let mut handle = request(rt, alloc, &mut router, *flags);
        come(rt, alloc, &mut router, text);
        let reply = router.next_typed::<u16, Genlmsghdr<u8, u16>, _, _>(alloc, &mut handle);
        let is_refused = matches!(reply.expect(rt, "memory"), Reply::Item(Err(_)));
        assert_is_at(rt, *row, is_refused, true);
        let unread = Verdict::Lost(Loss::Unreadable);
        assert_is_at(rt, *row, router.verdict(&handle), unread);
        router.give_up(alloc, handle).expect(rt, "memory");
        assert_is_at(rt, *row, is_in_use(alloc, &mut router, 0), *goes_on);
        if *goes_on {
            come(rt, alloc, &mut router, END);
            assert_is_at(rt, *row, is_in_use(alloc, &mut router, 0), false);
        }
    }
}

#[test]
fn what_is_unread_ends_an_answer_by_its_header(rt: HostRuntime) {
    gives_up_unread::<Queues>(&rt, rt.alloc());
    gives_up_unread::<Log>(&rt, rt.alloc());
}

/// `RTM_GETLINK` with ROOT and ACK: Linux answers by a dump, and sends no acknowledgement (`rtnetlink_rcv_msg`).
fn expects<D: Deliveries>(rt: &impl Abort, alloc: Global, row: &str) {
    let flags = NlmF::from(0x104);
    let (mut router, _multicast) = NlRouter::<D>::new(alloc, 7);
    let body = NlPayload::Payload(Buffer::new(alloc));
    let answering = Answering::of(NlFamily::Route, 18, flags, 16);
    let sent = router.send_expecting::<u16, Buffer, u16, Buffer>(alloc, answering, 18, flags, body);
    let mut dump = sent.expect(rt, "a number and memory").1;
    come(rt, alloc, &mut router, PART);
    come(rt, alloc, &mut router, END);
    assert_is_at(rt, row, read(rt, alloc, &mut router, &mut dump).len(), 2);
    assert_is_at(rt, row, router.verdict(&dump), Verdict::Complete);

    let (mut router, _multicast) = NlRouter::<D>::new(alloc, 7);
    let mut waits = request(rt, alloc, &mut router, 0x104);
    come(rt, alloc, &mut router, PART);
    come(rt, alloc, &mut router, END);
    assert_is_at(rt, row, read(rt, alloc, &mut router, &mut waits).len(), 2);
    assert_is_at(rt, row, router.verdict(&waits), Verdict::Pending);
}

#[test]
fn a_dump_that_is_expected_waits_for_no_acknowledgement(rt: HostRuntime) {
    expects::<Queues>(&rt, rt.alloc(), "lists");
    expects::<Log>(&rt, rt.alloc(), "the log");
}

/// A dump of the devices of the family `netdev`, whose messages lack MULTI: recording 0863.
const DEVICES: &str =
    "400000001400000017040000494300000101000008000100010000000c00030000000000000000000c00050000000000\
    000000000c0006000000000000000000400000001400000017040000494300000101000008000100020000000c000300\
    23000000000000000c00050007000000000000000c000600000000000000000040000000140000001704000049430000\
    0101000008000100030000000c00030023000000000000000c00050007000000000000000c0006000000000000000000\
    1400000003000200170400004943000000000000";

#[test]
fn a_recorded_dump_without_multi_is_not_complete_at_its_first_message(rt: HostRuntime) {
    let alloc = rt.alloc();
    let (mut router, _multicast) = NlRouter::<Log>::new(alloc, 17225);
    router.set_next_seq(1047);
    let mut handle = request(&rt, alloc, &mut router, DUMP);
    come(&rt, alloc, &mut router, DEVICES);
    let items = read(&rt, alloc, &mut router, &mut handle);
    assert_is_at(&rt, "items", items.len(), 1);
    let unended = Verdict::Lost(Loss::Unended);
    assert_is_at(&rt, "its verdict", router.verdict(&handle), unended);
    let heard = router.heard(&handle).expect(&rt, "an open handle");
    assert_is_at(&rt, "what is heard", heard.verdict, unended);
    router.give_up(alloc, handle).expect(&rt, "memory");
    assert_is_at(&rt, "given up", is_in_use(alloc, &mut router, 1047), false);
}

/// The answer of a kernel to a dump of a table that is not there, recording 0372: an end with the code -2 (`ENOENT`), and
/// with the mark that it did filter.
const NO_TABLE: &str =
    "3800000003002202a7040000ebd2b981feffffff23000100697076343a20464942207461626c6520\
    646f6573206e6f742065786973740000";

#[test]
fn a_recorded_dump_of_no_such_table_has_failed(rt: HostRuntime) {
    let alloc = rt.alloc();
    let (mut router, _multicast) = NlRouter::<Log>::new(alloc, 2176439019);
    router.set_next_seq(1191);
    let mut handle = request(&rt, alloc, &mut router, DUMP);
    come(&rt, alloc, &mut router, NO_TABLE);
    assert_is_at(
        &rt,
        "one item",
        read(&rt, alloc, &mut router, &mut handle).len(),
        1,
    );
    assert_is_at(&rt, "its end", router.verdict(&handle), Verdict::Failed(-2));
    let heard = router.heard(&handle).expect(&rt, "an open handle");
    assert_is_at(&rt, "filtered", heard.filtered, true);
}

/// A message of type 16 whose body has two bytes, and its padding.
const SHORT: &str = "12000000100000000000000000000000aabb0000";

/// What was given of multicast, in a word.
fn notice<D: Deliveries>(rt: &impl Abort, alloc: Global, router: &mut NlRouter<D>) -> &'static str {
    match router
        .listen::<u16, Genlmsghdr<u8, u16>>(alloc)
        .expect(rt, "memory")
    {
        Notice::Message(_) => "a message",
        Notice::Untyped(Ok(_)) => "as it came",
        Notice::Untyped(Err(_)) => "refused",
        Notice::Missed(Missed::Overrun) => "overrun",
        Notice::Missed(Missed::Fault(_)) => "a fault",
        Notice::Waits => "nothing",
        Notice::Closed => "closed",
    }
}

/// One notification has no room for a generic header, and those after it come all the same.
fn listens<D: Deliveries>(rt: &impl Abort, alloc: Global) {
    let (mut router, multicast) = NlRouter::<D>::new(alloc, 7);
    let groups = Groups::new_groups(alloc, &[1]).expect(rt, "memory");
    for text in [END, SHORT, END] {
        let bytes = bytes_of(alloc, text).expect(rt, "memory");
        router.receive(&bytes, &groups).expect(rt, "memory");
    }
    router
        .link_failed(SocketError::Io(ErrorKind::WouldBlock))
        .expect(rt, "memory");
    assert_is_at(rt, 0, notice(rt, alloc, &mut router), "a message");
    router.link_overran().expect(rt, "memory");
    router
        .link_failed(SocketError::Io(ErrorKind::Other))
        .expect(rt, "memory");
    assert_is_at(rt, 1, notice(rt, alloc, &mut router), "overrun");
    assert_is_at(rt, 2, notice(rt, alloc, &mut router), "as it came");
    assert_is_at(rt, 3, notice(rt, alloc, &mut router), "a message");
    router
        .link_failed(SocketError::Io(ErrorKind::ConnectionReset))
        .expect(rt, "memory");
    assert_is_at(rt, 4, notice(rt, alloc, &mut router), "a fault");
    assert_is_at(rt, 5, notice(rt, alloc, &mut router), "nothing");
    router.close(multicast);
    assert_is_at(rt, 6, notice(rt, alloc, &mut router), "closed");
}

#[test]
fn who_listens_goes_on(rt: HostRuntime) {
    listens::<Queues>(&rt, rt.alloc());
    listens::<Log>(&rt, rt.alloc());
}

/// The calls do nothing when they run.
#[test]
fn laws_of_verdicts_are_called() {
    verdicts_follow_reads::<u16, Buffer>();
    verdicts_stay::<u16, Buffer>();
    given_items_stand_alike::<u16, Buffer>();
    complete_answers_are_whole::<u16, Buffer>();
    complete_dumps_have_ended::<u16, Buffer>();
}
