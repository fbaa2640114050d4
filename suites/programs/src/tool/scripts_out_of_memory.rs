//! Any one allocation may be refused in these tests: `suites/run` refuses each in turn. The output of a script is then
//! the whole report, or that memory ran out, and the status tells which; when repeated, it is the whole report.

use super::answers::{ONE_REQUEST, WORKED};
use super::conversations::{ENDS, RECEIVERS};
use super::scripts::Row;
use super::support::assert_is_at;
use super::writers::Kept;
use neli_log::Log;
use neli_program::replay::replay;
use neli_program::status::Status;
use neli_queues::Queues;
use neli_runs::Deliveries;
use std::alloc::Global;
use std::process::Abort;

/// Plays a script over deliveries in a `D`. Asserts that it has its output, or that memory ran out, and returns which.
fn is_answered<D: Deliveries>(rt: &impl Abort, alloc: Global, row: Row) -> bool {
    let mut output = Kept::new();
    let status = replay::<D, _, _>(alloc, &mut row.1.as_bytes(), &mut output);
    let is_answered = status != Status::Memory;
    let want = if is_answered {
        (row.2.as_bytes(), Status::Whole)
    } else {
        (b"memory\n".as_slice(), Status::Memory)
    };
    assert_is_at(rt, row.0, (output.text(), status), want);
    is_answered
}

/// Plays a script, once more if memory ran out, and asserts that it has its output.
fn answers_again<D: Deliveries>(rt: &impl Abort, alloc: Global, row: Row) {
    let is_answered = is_answered::<D>(rt, alloc, row) || is_answered::<D>(rt, alloc, row);
    assert_is_at(rt, row.0, is_answered, true);
}

/// Plays scripts over a store.
fn answers_all<D: Deliveries>(rt: &impl Abort, alloc: Global) {
    for row in WORKED {
        answers_again::<D>(rt, alloc, row);
    }
    for row in ONE_REQUEST {
        answers_again::<D>(rt, alloc, row);
    }
    for row in ENDS {
        answers_again::<D>(rt, alloc, row);
    }
    for row in RECEIVERS {
        answers_again::<D>(rt, alloc, row);
    }
}

#[test]
fn over_the_shared_store(rt: HostRuntime) {
    answers_all::<Log>(&rt, rt.alloc());
}

#[test]
fn over_plain_lists(rt: HostRuntime) {
    answers_all::<Queues>(&rt, rt.alloc());
}
