//! Shared parts of the tests of scripts: plays a script over both stores of deliveries.

use super::support::assert_is_at;
use neli_log::Log;
use neli_program::replay::replay;
use neli_program::status::Status;
use neli_queues::Queues;
use neli_runs::Deliveries;
use std::alloc::Global;
use std::process::Abort;

/// A script with its name, and its output.
pub type Row = (&'static str, &'static str, &'static str);

/// Asserts that this script has these output lines, over deliveries in a `D`.
fn answers_over<D: Deliveries, R: Abort>(rt: &R, alloc: Global, row: Row) {
    let mut output = Vec::new(alloc);
    let status = replay::<D, _, _>(alloc, &mut row.1.as_bytes(), &mut output);
    let answered = (output.as_slice(), status);
    assert_is_at(rt, row.0, answered, (row.2.as_bytes(), Status::Whole));
}

/// Asserts that this script has these output lines, over each store.
pub fn answers<R: Abort>(rt: &R, alloc: Global, row: Row) {
    answers_over::<Log, R>(rt, alloc, row);
    answers_over::<Queues, R>(rt, alloc, row);
}
