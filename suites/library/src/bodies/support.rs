//! Shared parts of the tests: comparison, recorded bodies, and written bytes.

use neli::err::DeError;
use neli::{Cursor, FromBytesWithInput, ToBytes};
use std::alloc::Global;
use std::fmt::Debug;
use std::process::Abort;

/// Asserts that this is the expected value, in the row of a table that has this name or input.
pub fn assert_is_at<R: Copy + Debug, T: Copy + PartialEq + Debug>(
    rt: &impl Abort,
    row: R,
    got: T,
    want: T,
) {
    assert_eq!(rt; got, want, "at {row:?}");
}

/// The bytes in hexadecimal digits.
pub fn bytes_of(rt: &impl Abort, alloc: Global, label: &str, digits: &str) -> Vec<u8> {
    hex::decode(alloc, digits).expect(rt, label)
}

/// A recorded body: where it stands, its bytes as hexadecimal digits, its fields, and how many attributes it has.
pub type Row<F> = (&'static str, &'static str, F, usize);

/// The body in all of the bytes.
pub fn read_whole<B: FromBytesWithInput>(
    rt: &impl Abort,
    alloc: Global,
    label: &str,
    bytes: &[u8],
) -> B {
    let mut cursor = Cursor::new(bytes);
    let read = B::from_bytes_with_input(alloc, &mut cursor, bytes.len());
    assert_is_at(rt, label, cursor.position(), bytes.len());
    read.expect(rt, label)
}

/// The body in the digits. It is read to their end, and written again unchanged.
pub fn recorded<B: FromBytesWithInput + ToBytes>(
    rt: &impl Abort,
    alloc: Global,
    label: &str,
    digits: &str,
) -> B {
    let bytes = bytes_of(rt, alloc, label, digits);
    let body = read_whole(rt, alloc, label, &bytes);
    assert_written(rt, alloc, label, &body, &bytes);
    body
}

/// The value that was made. It is written as these bytes.
pub fn made<V: ToBytes, E: Debug + Drop>(
    rt: &impl Abort,
    alloc: Global,
    label: &str,
    value: Result<V, E>,
    want: &[u8],
) -> V {
    let value = value.expect(rt, label);
    assert_written(rt, alloc, label, &value, want);
    value
}

/// The bytes that the value is written as.
pub fn written<V: ToBytes>(rt: &impl Abort, alloc: Global, label: &str, value: &V) -> Vec<u8> {
    let mut bytes = Vec::new(alloc);
    value.to_bytes(&mut bytes).expect(rt, label);
    assert_is_at(rt, label, value.written_size(), bytes.len());
    bytes
}

/// Asserts that the value is written as these bytes.
pub fn assert_written<V: ToBytes>(
    rt: &impl Abort,
    alloc: Global,
    label: &str,
    value: &V,
    want: &[u8],
) {
    let bytes = written(rt, alloc, label, value);
    assert_is_at(rt, label, bytes.as_slice(), want);
}

/// The count in a refusal of bytes.
pub fn count_of(error: DeError) -> Option<usize> {
    match error {
        DeError::InvalidInput(count) => Some(count),
        _ => None,
    }
}
