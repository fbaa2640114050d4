//! Requests that are given up, over both stores: when the number of each is free again, what is kept of its answer, and
//! what other requests read.

use super::script::bytes_of;
use super::support::assert_is_at;
use super::verdicts::{
    ACK, ACK_OF_1, DUMP, END, FAILED_END, Handle, PART, REFUSED, SINGLE, TWO_PARTS, WITH_ACK, come,
    read, request,
};
use neli::consts::nl::NlmF;
use neli::err::RouterError;
use neli::nl::NlPayload;
use neli::router::synchronous::{Deliveries, LentReply, Log, NlRouter, Queues, Verdict};
use neli::types::Buffer;
use neli::utils::Groups;
use std::alloc::Global;
use std::fmt::Debug;
use std::process::Abort;

/// Sends a request with this number, which one reply answers. Nothing if the number is in use.
fn send_with<D: Deliveries>(
    rt: &impl Abort,
    alloc: Global,
    router: &mut NlRouter<D>,
    number: u32,
) -> Option<Handle> {
    router.set_next_seq(number);
    let body = NlPayload::Payload(Buffer::new(alloc));
    match router.send::<u16, Buffer, u16, Buffer>(alloc, 16, NlmF::empty(), body) {
        Err(RouterError::SeqInUse(_)) => None,
        sent => Some(sent.expect(rt, "memory").1),
    }
}

/// Asserts that a handle reads so many items, all of its answer.
fn assert_complete<D: Deliveries, R: Copy + Debug>(
    rt: &impl Abort,
    alloc: Global,
    row: R,
    router: &mut NlRouter<D>,
    mut handle: Handle,
    count: usize,
) {
    let items = read(rt, alloc, router, &mut handle).len();
    let verdict = router.verdict(&handle);
    assert_is_at(rt, row, (items, verdict), (count, Verdict::Complete));
    router.close(handle);
}

/// A request that is given up. Its number is in use until the last of what comes after that.
#[derive(Clone, Copy, Debug)]
struct Row {
    name: &'static str,
    flags: u16,
    /// What came of its answer and was read.
    read: &'static [&'static str],
    /// What came and was not read.
    waits: &'static [&'static str],
    /// What comes after it was given up, and for the groups of which mask.
    comes: &'static [(&'static str, u32)],
}

/// A part of a dump and its end in one datagram; the end of the dump with number 2.
const PART_AND_END: &str = "10000000100002000000000007000000\
    1400000003000200000000000700000000000000";

const END_OF_2: &str = "1400000003000200020000000700000000000000";

const ROWS: [Row; 18] = [
    Row {
        name: "nothing of a dump came",
        flags: DUMP,
        read: &[],
        waits: &[],
        comes: &[(PART, 0), (TWO_PARTS, 0), (END, 0)],
    },
    Row {
        name: "a part was read",
        flags: DUMP,
        read: &[PART],
        waits: &[],
        comes: &[(PART, 0), (END, 0)],
    },
    Row {
        name: "parts wait",
        flags: DUMP,
        read: &[],
        waits: &[PART, TWO_PARTS],
        comes: &[(PART_AND_END, 0)],
    },
    Row {
        name: "the end was read",
        flags: DUMP,
        read: &[TWO_PARTS, END],
        waits: &[],
        comes: &[],
    },
    Row {
        name: "the end waits",
        flags: DUMP,
        read: &[],
        waits: &[PART, END],
        comes: &[],
    },
    Row {
        name: "a part was read and the end waits",
        flags: DUMP,
        read: &[PART],
        waits: &[PART_AND_END],
        comes: &[],
    },
    Row {
        name: "the end waits, with an error",
        flags: DUMP,
        read: &[],
        waits: &[FAILED_END],
        comes: &[],
    },
    Row {
        name: "the end comes, with an error",
        flags: DUMP,
        read: &[],
        waits: &[],
        comes: &[(FAILED_END, 0)],
    },
    Row {
        name: "an end comes to another dump",
        flags: DUMP,
        read: &[],
        waits: &[],
        comes: &[(END_OF_2, 0), (END, 0)],
    },
    Row {
        name: "an end comes to a group",
        flags: DUMP,
        read: &[],
        waits: &[],
        comes: &[(END, 1), (END, 0)],
    },
    Row {
        name: "nothing came to a request with an acknowledgement",
        flags: WITH_ACK,
        read: &[],
        waits: &[],
        comes: &[(SINGLE, 0), (ACK, 0)],
    },
    Row {
        name: "a reply was read before an acknowledgement",
        flags: WITH_ACK,
        read: &[SINGLE],
        waits: &[],
        comes: &[(ACK, 0)],
    },
    Row {
        name: "a reply waits before an acknowledgement",
        flags: WITH_ACK,
        read: &[],
        waits: &[SINGLE],
        comes: &[(ACK, 0)],
    },
    Row {
        name: "an acknowledgement was read",
        flags: WITH_ACK,
        read: &[SINGLE, ACK],
        waits: &[],
        comes: &[],
    },
    Row {
        name: "an error waits in its place",
        flags: WITH_ACK,
        read: &[],
        waits: &[REFUSED],
        comes: &[],
    },
    Row {
        name: "no reply came",
        flags: 0,
        read: &[],
        waits: &[],
        comes: &[(SINGLE, 0)],
    },
    Row {
        name: "the reply was read",
        flags: 0,
        read: &[SINGLE],
        waits: &[],
        comes: &[],
    },
    Row {
        name: "the reply waits",
        flags: 0,
        read: &[],
        waits: &[SINGLE],
        comes: &[],
    },
];

/// A router with a row's request, one with number 1 and an acknowledgement, and a dump with number 2; and what comes
/// first of the row's answer.
fn begin<D: Deliveries>(rt: &impl Abort, alloc: Global, row: Row) -> (NlRouter<D>, Handle, Handle) {
    let (mut router, _multicast) = NlRouter::<D>::new(alloc, 7);
    let handle = request(rt, alloc, &mut router, row.flags);
    let other = request(rt, alloc, &mut router, WITH_ACK);
    request(rt, alloc, &mut router, DUMP);
    for text in row.read {
        come(rt, alloc, &mut router, text);
    }
    (router, handle, other)
}

/// The number of a request that is given up is in use as its row has it; who uses it then reads its own reply, and the
/// request with number 1 its acknowledgement alone.
fn give_up<D: Deliveries>(
    rt: &impl Abort,
    alloc: Global,
    row: Row,
    router: &mut NlRouter<D>,
    handle: Handle,
    other: Handle,
) {
    for text in row.waits {
        come(rt, alloc, router, text);
    }
    router.give_up(alloc, handle).expect(rt, "memory");
    for (text, mask) in row.comes {
        let early = send_with(rt, alloc, router, 0);
        assert_is_at(rt, (row.name, *text), early.is_some(), false);
        let bytes = bytes_of(alloc, text).expect(rt, "memory");
        let groups = Groups::new_bitmask(alloc, *mask).expect(rt, "memory");
        router.receive(&bytes, &groups).expect(rt, "memory");
    }
    let again = send_with(rt, alloc, router, 0).expect(rt, row.name);
    come(rt, alloc, router, SINGLE);
    assert_complete(rt, alloc, row.name, router, again, 1);
    come(rt, alloc, router, ACK_OF_1);
    assert_complete(rt, alloc, row.name, router, other, 1);
}

/// Reads all that waits, owned.
fn owned<D: Deliveries>(rt: &impl Abort, alloc: Global, row: Row) {
    let (mut router, mut handle, other) = begin::<D>(rt, alloc, row);
    read(rt, alloc, &mut router, &mut handle);
    give_up(rt, alloc, row, &mut router, handle, other);
}

/// Reads all that waits, lent.
fn lent(rt: &impl Abort, alloc: Global, row: Row) {
    let (mut router, mut handle, other) = begin::<Log>(rt, alloc, row);
    while let LentReply::Item(_) = router.lend_next(&handle) {
        router.pass(&mut handle);
    }
    give_up(rt, alloc, row, &mut router, handle, other);
}

#[test]
fn a_number_is_free_once_the_answer_has_ended(rt: HostRuntime) {
    let alloc = rt.alloc();
    for row in ROWS {
        owned::<Queues>(&rt, alloc, row);
        owned::<Log>(&rt, alloc, row);
        lent(&rt, alloc, row);
    }
}

/// How many dumps are sent, with the numbers from 0 on; each hundredth is not given up.
const COUNT: u32 = 300;

/// The kinds of messages that come to hundreds of requests, to port 7.
#[derive(Clone, Copy, Debug)]
enum Comes {
    /// A part of a dump.
    Part,
    /// The end of one.
    End,
    /// A reply.
    Reply,
    /// An acknowledgement of a request of 20 bytes.
    Ack,
}

/// Adds a message with this number to a datagram.
fn add(rt: &impl Abort, out: &mut Vec<u8>, comes: Comes, number: u32) {
    let [a, b, c, d] = number.to_le_bytes();
    let (length, nl_type, flags): (u8, u8, [u8; 2]) = match comes {
        Comes::Part => (16, 16, [2, 0]),
        Comes::End => (20, 3, [2, 0]),
        Comes::Reply => (16, 16, [0, 0]),
        Comes::Ack => (36, 2, [0, 1]),
    };
    let header = [
        length, 0, 0, 0, nl_type, 0, flags[0], flags[1], a, b, c, d, 7, 0, 0, 0,
    ];
    let echo = [20, 0, 0, 0, 16, 0, 5, 0, a, b, c, d, 7, 0, 0, 0];
    let rest: &[u8] = match comes {
        Comes::Part | Comes::Reply => &[],
        Comes::End | Comes::Ack => &[0; 4],
    };
    let echoed: &[u8] = match comes {
        Comes::Ack => &echo,
        _ => &[],
    };
    for bytes in [&header[..], rest, echoed] {
        out.extend_from_slice(bytes).expect(rt, "memory");
    }
}

/// Hands in a datagram with a message for each `step`th number of these, from the first on.
fn come_each<D: Deliveries>(
    rt: &impl Abort,
    alloc: Global,
    router: &mut NlRouter<D>,
    comes: Comes,
    numbers: (u32, u32, u32),
) {
    let (first, end, step) = numbers;
    let mut bytes = Vec::new(alloc);
    let mut number = first;
    while number < end {
        add(rt, &mut bytes, comes, number);
        number += step;
    }
    let groups = Groups::empty(alloc);
    router.receive(&bytes, &groups).expect(rt, "memory");
}

/// A router with hundreds of dumps, of each of which a part has come; all are given up, the last first, but each
/// hundredth, whose handles are returned.
fn given_up<D: Deliveries>(rt: &impl Abort, alloc: Global) -> (NlRouter<D>, Vec<Handle>) {
    let (mut router, _multicast) = NlRouter::<D>::new(alloc, 7);
    let mut handles = Vec::new(alloc);
    for _ in 0..COUNT {
        let handle = request(rt, alloc, &mut router, DUMP);
        handles.push(handle).expect(rt, "memory");
    }
    come_each(rt, alloc, &mut router, Comes::Part, (0, COUNT, 1));
    let mut stay = Vec::new(alloc);
    while let Some(handle) = handles.pop() {
        if handle
            .state()
            .number
            .is_some_and(|number| number % 100 == 0)
        {
            stay.push(handle).expect(rt, "memory");
        } else {
            router.give_up(alloc, handle).expect(rt, "memory");
        }
    }
    (router, stay)
}

/// Asserts that of the numbers of the dumps those that are given up are free if `is_free` says so, and none of the
/// others; who uses one again reads its own reply.
fn assert_free<D: Deliveries>(
    rt: &impl Abort,
    alloc: Global,
    router: &mut NlRouter<D>,
    is_free: [bool; 2],
) {
    for number in 0..COUNT {
        let want = number % 100 != 0 && is_free[(number % 2) as usize];
        let again = send_with(rt, alloc, router, number);
        assert_is_at(rt, (number, is_free), again.is_some(), want);
        if let Some(handle) = again {
            come_each(rt, alloc, router, Comes::Reply, (number, number + 1, 1));
            assert_complete(rt, alloc, number, router, handle, 1);
        }
    }
}

/// More of each dump comes, then the ends of those with even numbers, and then the others. Those that were not given up
/// read all of theirs, and later requests their acknowledgement alone.
fn give_up_hundreds<D: Deliveries>(rt: &impl Abort, alloc: Global) {
    let (mut router, stay) = given_up::<D>(rt, alloc);
    assert_free(rt, alloc, &mut router, [false, false]);
    router.set_next_seq(COUNT);
    let mut later = Vec::new(alloc);
    for _ in 0..100 {
        let handle = request(rt, alloc, &mut router, WITH_ACK);
        later.push(handle).expect(rt, "memory");
    }
    come_each(rt, alloc, &mut router, Comes::Part, (0, COUNT, 1));
    assert_free(rt, alloc, &mut router, [false, false]);
    come_each(rt, alloc, &mut router, Comes::End, (0, COUNT, 2));
    assert_free(rt, alloc, &mut router, [true, false]);
    come_each(rt, alloc, &mut router, Comes::End, (1, COUNT, 2));
    assert_free(rt, alloc, &mut router, [true, true]);
    for handle in stay {
        assert_complete(rt, alloc, "not given up", &mut router, handle, 3);
    }
    come_each(rt, alloc, &mut router, Comes::Ack, (COUNT, COUNT + 100, 1));
    for handle in later {
        assert_complete(rt, alloc, "later", &mut router, handle, 1);
    }
}

#[test]
fn hundreds_are_given_up(rt: HostRuntime) {
    give_up_hundreds::<Queues>(&rt, rt.alloc());
    give_up_hundreds::<Log>(&rt, rt.alloc());
}

/// How many entries a router keeps, and how many bytes.
fn kept(router: &NlRouter<Log>) -> [usize; 2] {
    let log = router.deliveries();
    [log.kept(), log.kept_bytes()]
}

/// Of messages of 16 bytes in one datagram: a handle that is not read holds what it waits for, all entries after that,
/// and the whole datagram (docs/ROUTER.md). What only requests that were given up got is not kept.
#[test]
fn nothing_is_kept_of_hundreds(rt: HostRuntime) {
    let alloc = rt.alloc();
    let (mut router, mut stay) = given_up::<Log>(&rt, alloc);
    assert_is_at(&rt, "the first is not read", kept(&router), [300, 4800]);
    for want in [[200, 4800], [100, 4800], [0, 0]] {
        let mut handle = stay.pop().expect(&rt, "a handle");
        assert_is_at(
            &rt,
            want,
            handle.state().number,
            Some(300 - want[0] as u32 - 100),
        );
        read(&rt, alloc, &mut router, &mut handle);
        assert_is_at(&rt, handle.state().number, kept(&router), want);
    }
    for numbers in [(1, 100, 1), (101, 200, 1), (1, COUNT, 2)] {
        come_each(&rt, alloc, &mut router, Comes::Part, numbers);
        assert_is_at(&rt, numbers, kept(&router), [0, 0]);
    }
    come_each(&rt, alloc, &mut router, Comes::End, (1, COUNT, 2));
    assert_is_at(&rt, "ends of odd numbers", kept(&router), [0, 0]);
    come_each(&rt, alloc, &mut router, Comes::Part, (0, 200, 50));
    assert_is_at(&rt, "parts to 0, 50, 100, 150", kept(&router), [4, 64]);
}
