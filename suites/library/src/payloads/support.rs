//! Shared parts of the tests.

use neli_wire::{Cursor, DeError, FromBytes, FromBytesWithInput, ToBytes};
use std::alloc::Global;
use std::fmt::Debug;
use std::process::Abort;

/// Asserts that this is the expected value.
pub fn assert_is<T: Copy + PartialEq + Debug>(rt: &impl Abort, got: T, want: T) {
    assert_eq!(rt; got, want);
}

/// Asserts that this is the expected value, in the row of a table that has this name or input.
pub fn assert_is_at<R: Copy + PartialEq + Debug, T: Copy + PartialEq + Debug>(
    rt: &impl Abort,
    row: R,
    got: T,
    want: T,
) {
    assert_is(rt, (row, got), (row, want));
}

/// The bytes in hexadecimal digits.
pub fn bytes_of(rt: &impl Abort, alloc: Global, digits: &str) -> Vec<u8> {
    hex::decode(alloc, digits).expect(rt, "digits")
}

/// The value in all of the bytes.
pub fn read_whole<R: FromBytesWithInput>(alloc: Global, bytes: &[u8]) -> Result<R, DeError> {
    R::from_bytes_with_input(alloc, &mut Cursor::new(bytes), bytes.len())
}

/// The value at the front of the bytes.
pub fn read_first<R: FromBytes>(alloc: Global, bytes: &[u8]) -> Result<R, DeError> {
    R::from_bytes(alloc, &mut Cursor::new(bytes))
}

/// The bytes of a value.
pub fn written<T: ToBytes>(rt: &impl Abort, alloc: Global, value: &T) -> Vec<u8> {
    let mut buffer = Vec::new(alloc);
    value.to_bytes(&mut buffer).expect(rt, "room");
    buffer
}
