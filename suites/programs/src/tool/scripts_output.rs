//! Outputs and inputs that fail.

use super::readers::Drip;
use super::support::assert_is_at;
use super::writers::Narrow;
use neli_program::replay::replay;
use neli_program::status::Status;
use neli_queues::Queues;

const REPORT: usize = "ok\nwaits\n".len();

const BAD: usize = "bad line 2\n".len();

/// Scripts, the room for what is written, whether a flush succeeds, and how it ends.
const ROOMS: [(&str, &str, usize, bool, Status); 9] = [
    ("no room", "seq 1\nread 0\n", 0, true, Status::NoOutput),
    (
        "room for a line",
        "seq 1\nread 0\n",
        3,
        true,
        Status::NoOutput,
    ),
    (
        "room for all but a byte",
        "seq 1\nread 0\n",
        REPORT - 1,
        true,
        Status::NoOutput,
    ),
    (
        "a flush that fails",
        "seq 1\nread 0\n",
        REPORT,
        false,
        Status::NoOutput,
    ),
    (
        "room for all",
        "seq 1\nread 0\n",
        REPORT,
        true,
        Status::Whole,
    ),
    (
        "a bad line, no room",
        "seq 1\nread\n",
        0,
        true,
        Status::NoOutput,
    ),
    (
        "a bad line, but a byte",
        "seq 1\nread\n",
        BAD - 1,
        true,
        Status::NoOutput,
    ),
    (
        "a bad line, no flush",
        "seq 1\nread\n",
        BAD,
        false,
        Status::NoOutput,
    ),
    (
        "a bad line, room for it",
        "seq 1\nread\n",
        BAD,
        true,
        Status::BadLine,
    ),
];

#[test]
fn a_report_that_is_not_written_is_no_output(rt: HostRuntime) {
    for (row, script, room, flushes, want) in ROOMS {
        let mut output = Narrow { room, flushes };
        let mut input = script.as_bytes();
        let status = replay::<Queues, _, _>(rt.alloc(), &mut input, &mut output);
        assert_is_at(&rt, row, (status, output.room), (want, 0));
    }
}

#[test]
fn nothing_is_written_of_an_input_that_fails(rt: HostRuntime) {
    let alloc = rt.alloc();
    for script in ["", "seq 1\n", "read x\n", "seq 1\nread"] {
        let mut input = Drip {
            rest: script.as_bytes(),
            fails: true,
        };
        let mut output = Vec::new(alloc);
        let status = replay::<Queues, _, _>(alloc, &mut input, &mut output);
        assert_is_at(&rt, script, (status, output.len()), (Status::NoInput, 0));
    }
}
