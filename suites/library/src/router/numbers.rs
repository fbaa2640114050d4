//! Requests as bytes, and their numbers.

use super::script::Step::{Close, Come, Next, Read, Send};
use super::script::Told::{Done, End, InUse, Message, NoHandle, Sent, Stray, Waits};
use super::script::{Came, Raw, Script, Step, Told, bytes_of, message, outcomes, sent_at};
use super::steps::called;
use super::support::assert_is_at;
use neli::router::synchronous::{Log, Queues};
use neli::{Cursor, FromBytes};
use std::alloc::Global;
use std::process::Abort;

/// A request and its reply.
const REQUEST_AND_REPLY: [(Step, Told); 6] = [
    (Send(1024, 0, "6162636465"), Sent(0, 0)),
    (Read(1), Waits),
    (Come("10000000000400000000000000000000", 0), Done),
    (Read(1), Message(1024, 0, 0)),
    (Read(1), End),
    (Read(2), NoHandle),
];

/// Numbers and handles: the name, and the script with its port.
pub const SCRIPTS: [Script; 3] = [
    ("a request and its reply", 0, &REQUEST_AND_REPLY),
    (
        "numbers wrap, and one in use is refused",
        0,
        &[
            (Next(4294967295), Done),
            (Send(16, 0, ""), Sent(4294967295, 0)),
            (Send(16, 0, ""), Sent(0, 0)),
            (Send(16, 0, ""), Sent(1, 0)),
            (Next(0), Done),
            (Send(16, 0, ""), InUse(0)),
            (Read(1), Waits),
            (Read(2), Waits),
            (Read(3), Waits),
            (Read(4), NoHandle),
            (Send(16, 0, ""), InUse(0)),
            (Close(2), Done),
            (Send(16, 0, ""), Sent(0, 0)),
        ],
    ),
    (
        "a handle is closed, and its number used again",
        7,
        &[
            (Send(16, 0, ""), Sent(0, 7)),
            (Send(16, 0, ""), Sent(1, 7)),
            (
                Come(
                    "1000000010000200000000000700000010000000100000000100000000000000",
                    0,
                ),
                Done,
            ),
            (Read(1), Message(16, 0, 0)),
            (Close(1), Done),
            (Read(2), Stray(1, 0)),
            (Read(2), End),
            (Read(1), NoHandle),
            (Next(0), Done),
            (Send(16, 0, ""), Sent(0, 7)),
            (Read(3), Waits),
            (Send(16, 0, ""), InUse(1)),
        ],
    ),
];

/// A request: a script, at which place of it which bytes are to be sent, and what these are as a message.
type Written = (
    &'static str,
    &'static [(Step, Told)],
    usize,
    &'static str,
    Told,
);

/// Requests, in routers of port 0.
const WRITTEN: [Written; 5] = [
    (
        // Type 1024, REQUEST, the body `61 62 63 64 65` and three bytes of padding. The length states the padding too.
        "a request is padded, and its length states that",
        &REQUEST_AND_REPLY,
        0,
        "180000000004010000000000000000006162636465000000",
        Message(1024, 0, 8),
    ),
    // The others were recorded: a program built them byte by byte.
    (
        "IPv4 addresses of a link",
        &[
            (Next(1179), Done),
            (Send(22, 0x300, "0200000003000000"), Sent(1179, 0)),
        ],
        1,
        "18000000160001039b040000000000000200000003000000",
        Message(22, 1179, 8),
    ),
    (
        "a link set up",
        &[
            (Next(1054), Done),
            (
                Send(19, 4, "00000000030000000100000001000000"),
                Sent(1054, 0),
            ),
        ],
        1,
        "20000000130005001e0400000000000000000000030000000100000001000000",
        Message(19, 1054, 16),
    ),
    (
        "an unknown type",
        &[
            (Next(1001), Done),
            (Send(100, 4, "00000000"), Sent(1001, 0)),
        ],
        1,
        "1400000064000500e90300000000000000000000",
        Message(100, 1001, 4),
    ),
    (
        "no operation",
        &[(Next(1109), Done), (Send(1, 4, ""), Sent(1109, 0))],
        1,
        "10000000010005005504000000000000",
        Message(1, 1109, 0),
    ),
];

/// Asserts that these bytes are to be sent by the outcome at a place.
fn assert_sent(rt: &impl Abort, row: &str, came: &[Came], at: usize, want: &[u8]) {
    assert_is_at(rt, row, sent_at(came, at), want);
}

/// Asserts that these bytes are this message.
fn assert_reads(rt: &impl Abort, alloc: Global, row: &str, bytes: &[u8], want: Told) {
    let read = Raw::from_bytes(alloc, &mut Cursor::new(bytes)).expect(rt, "a message");
    assert_is_at(rt, row, message(&read), want);
}

/// Sends a request by a run over the log, and by calls over plain lists.
fn write(rt: &impl Abort, alloc: Global, written: &Written) {
    let (row, steps, at, text, told) = *written;
    let want = bytes_of(alloc, text).expect(rt, "memory");
    let of_run = outcomes::<Log>(alloc, 0, steps).expect(rt, "memory");
    assert_sent(rt, row, &of_run, at, &want);
    assert_sent(rt, row, &called::<Queues>(rt, alloc, 0, steps), at, &want);
    assert_reads(rt, alloc, row, &want, told);
}

#[test]
fn requests_are_written_as_they_were_recorded(rt: HostRuntime) {
    for written in &WRITTEN {
        write(&rt, rt.alloc(), written);
    }
}
