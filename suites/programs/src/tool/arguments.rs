//! The requests in the arguments, and their results.

use super::readers::{Drip, Trickle};
use super::support::{assert_is, assert_is_at};
use super::writers::{Kept, Narrow};
use neli_program::run::{Request, requested, run};
use neli_program::status::Status;
use neli_queues::Queues;
use std::alloc::Global;
use std::io;
use std::io::{ErrorKind, Read};
use std::process::Abort;

const USAGE: &str = "usage: neli_tool list [zero] | replay\n";

/// A datagram, or a script, of one byte.
const SHORT: [u8; 1] = [0];

/// The words of a command line.
fn words(rt: &impl Abort, alloc: Global, given: &[&str]) -> io::Result<Vec<String>> {
    let mut words = Vec::new(alloc);
    for word in given {
        let word = String::from_str(alloc, *word).expect(rt, "memory");
        words.push(word).expect(rt, "memory");
    }
    Ok(words)
}

/// Words, the end of the run, its exit status, its output, and its complaint.
type Answer = (Request, Status, u8, &'static str, &'static str);

const WRONG_USE: Answer = (Request::Usage, Status::Usage, 2, "", USAGE);

/// A message of type 1024 with the payload `61` and three padding bytes.
const PADDED: &[u8] = b"\x11\0\0\0\0\x04\0\0\0\0\0\0\0\0\0\0a\xff\xff\xff";

/// That message, and a byte of a next one.
const CUT: &[u8] = b"\x11\0\0\0\0\x04\0\0\0\0\0\0\0\0\0\0a\xff\xff\xff\0";

/// Words, the input, and the result.
const RUNS: [(&[&str], &[u8], Answer); 20] = [
    (
        &["list"],
        &SHORT,
        (Request::List, Status::Fault, 1, "fault: short\n", ""),
    ),
    (
        &["list"],
        PADDED,
        (
            Request::List,
            Status::Whole,
            0,
            "type 1024 flags 0x0000 number 0 port 0 payload 1\n",
            "",
        ),
    ),
    (
        &["list"],
        CUT,
        (
            Request::List,
            Status::Fault,
            1,
            "type 1024 flags 0x0000 number 0 port 0 payload 1\nfault: short\n",
            "",
        ),
    ),
    (&[], &SHORT, WRONG_USE),
    (&[""], &SHORT, WRONG_USE),
    (&["lists"], &SHORT, WRONG_USE),
    (&["List"], &SHORT, WRONG_USE),
    (&["list", "list"], &SHORT, WRONG_USE),
    (
        &["list", "zero"],
        &SHORT,
        (Request::Zero, Status::Fault, 1, "fault: short\n", ""),
    ),
    (
        &["list", "zero"],
        PADDED,
        (
            Request::Zero,
            Status::Whole,
            0,
            "\x11\0\0\0\0\x04\0\0\0\0\0\0\0\0\0\0a\0\0\0",
            "",
        ),
    ),
    (
        &["list", "zero"],
        CUT,
        (Request::Zero, Status::Fault, 1, "fault: short\n", ""),
    ),
    (&["list", "zeros"], &SHORT, WRONG_USE),
    (&["list", "zero", "zero"], &SHORT, WRONG_USE),
    (
        &["replay"],
        &SHORT,
        (Request::Replay, Status::BadLine, 2, "bad line 1\n", ""),
    ),
    (
        &["replay"],
        b"seq 1\nread 0\nread 1",
        (
            Request::Replay,
            Status::Whole,
            0,
            "ok\nwaits\nno handle\n",
            "",
        ),
    ),
    (
        &["replay"],
        b"seq 1\nread 0\nread x",
        (Request::Replay, Status::BadLine, 2, "bad line 3\n", ""),
    ),
    (&["replays"], &SHORT, WRONG_USE),
    (&["replay", "zero"], &SHORT, WRONG_USE),
    (&["list", "replay"], &SHORT, WRONG_USE),
    (&["zero", "list"], &SHORT, WRONG_USE),
];

/// Asserts the request in these words, and its result. The output must be flushed at the end.
fn assert_answer<R: Read>(
    rt: &impl Abort,
    alloc: Global,
    words: &io::Result<Vec<String>>,
    input: &mut R,
    want: Answer,
) {
    let mut output = Kept::new();
    let mut complaints = Kept::new();
    let status = run::<Queues, _, _, _>(alloc, words, input, &mut output, &mut complaints);
    let ended = (requested(words), status, status.code());
    assert_is(rt, ended, (want.0, want.1, want.2));
    let printed = (output.text(), complaints.text());
    assert_is(rt, printed, (want.3.as_bytes(), want.4.as_bytes()));
}

// The input is read whole, and then a byte at each call.
#[test]
fn words_ask_for_a_listing_or_a_script_or_are_wrong_use(rt: HostRuntime) {
    for (given, input, want) in RUNS {
        let words = words(&rt, rt.alloc(), given);
        let mut whole = input;
        assert_answer(&rt, rt.alloc(), &words, &mut whole, want);
        let mut pieces = Drip {
            rest: input,
            fails: false,
        };
        assert_answer(&rt, rt.alloc(), &words, &mut pieces, want);
        let left = if want.0 == Request::Usage {
            input.len()
        } else {
            0
        };
        assert_is_at(&rt, given, (whole.len(), pieces.rest.len()), (left, left));
    }
}

// It fails at the third call, or does not end.
#[test]
fn an_input_that_fails_or_does_not_end_is_no_input(rt: HostRuntime) {
    let asked: [(&[&str], Request); 3] = [
        (&["list"], Request::List),
        (&["list", "zero"], Request::Zero),
        (&["replay"], Request::Replay),
    ];
    for (given, request) in asked {
        let words = words(&rt, rt.alloc(), given);
        for (last, fails) in [(3, true), (1000001, false)] {
            let mut input = Trickle {
                calls: 0,
                last,
                fails,
            };
            let want = (request, Status::NoInput, 1, "", "");
            assert_answer(&rt, rt.alloc(), &words, &mut input, want);
        }
    }
}

#[test]
fn words_that_are_not_read(rt: HostRuntime) {
    let memory = (Request::Memory, Status::Memory, 1, "fault: memory\n", "");
    for (kind, want) in [
        (ErrorKind::OutOfMemory, memory),
        (ErrorKind::InvalidData, WRONG_USE),
    ] {
        let words = Err(io::Error::from(kind));
        let mut input = SHORT.as_slice();
        assert_answer(&rt, rt.alloc(), &words, &mut input, want);
        assert_is(&rt, input.len(), 1);
    }
}

/// Asserts how wrong use ends if the complaint has so much room.
fn assert_complained(rt: &impl Abort, alloc: Global, room: usize, flushes: bool, want: Status) {
    let words = words(rt, alloc, &[]);
    let mut input = SHORT.as_slice();
    let mut output = Vec::new(alloc);
    let mut complaints = Narrow { room, flushes };
    let status = run::<Queues, _, _, _>(alloc, &words, &mut input, &mut output, &mut complaints);
    let ended = (status, status.code(), output.len());
    assert_is_at(rt, (room, flushes), ended, (want, 2, 0));
}

// No room, room for a part, a flush that fails, and room for all.
#[test]
fn complaints_that_fail_are_still_wrong_use(rt: HostRuntime) {
    let whole = USAGE.len();
    let rows = [
        (0, true, Status::NoUsage),
        (whole - 1, true, Status::NoUsage),
        (whole, false, Status::NoUsage),
        (whole, true, Status::Usage),
    ];
    for (room, flushes, want) in rows {
        assert_complained(&rt, rt.alloc(), room, flushes, want);
    }
}

#[test]
fn each_end_has_its_exit_status(rt: HostRuntime) {
    let rows = [
        (Status::Whole, 0),
        (Status::Fault, 1),
        (Status::Memory, 1),
        (Status::NoInput, 1),
        (Status::NoOutput, 1),
        (Status::BadLine, 2),
        (Status::Usage, 2),
        (Status::NoUsage, 2),
    ];
    for (status, code) in rows {
        assert_is_at(&rt, status, status.code(), code);
    }
}
