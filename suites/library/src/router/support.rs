//! Shared parts of the tests.

use std::fmt::Debug;
use std::process::Abort;

/// Asserts that this is the expected value, in the row of a table that has this name or input.
pub fn assert_is_at<R: Copy + Debug, T: Copy + PartialEq + Debug>(
    rt: &impl Abort,
    row: R,
    got: T,
    want: T,
) {
    assert_eq!(rt; got, want, "at {row:?}");
}
