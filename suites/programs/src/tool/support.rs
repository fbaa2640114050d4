//! Shared parts of the tests: the one comparison, read digits, and printed texts.

use std::alloc::Global;
use std::fmt::{Debug, Display};
use std::process::Abort;

/// Asserts that this is the expected value.
pub fn assert_is<T: Copy + PartialEq + Debug>(rt: &impl Abort, got: T, want: T) {
    assert_eq!(rt; got, want);
}

/// Asserts that this is the expected value, in the row of a table that has this name or input.
pub fn assert_is_at<R: Copy + PartialEq + Debug, T: Copy + PartialEq + Debug>(
    rt: &impl Abort,
    row: R,
    got: T,
    want: T,
) {
    assert_is(rt, (row, got), (row, want));
}

/// The bytes of these hexadecimal digits. Any one allocation may be refused here.
pub fn decoded(rt: &impl Abort, alloc: Global, digits: &str) -> Vec<u8> {
    match hex::decode(alloc, digits) {
        Ok(bytes) => bytes,
        Err(_) => hex::decode(alloc, digits).expect(rt, "digits"),
    }
}

/// Asserts that the value prints this text.
pub fn assert_prints<D: Display>(rt: &impl Abort, alloc: Global, value: &D, text: &str) {
    let printed = value.to_string(alloc).expect(rt, "memory");
    assert_is(rt, printed.as_str(), text);
}
