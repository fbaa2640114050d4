//! Shared parts of the tests: refusals, as far as the tables compare them, the one comparison, and reads and writes
//! that are compared.

use neli::err::{DeError, SerError, Utf8};
use neli::{Cursor, FromBytes, FromBytesWithInputBorrowed, Size, ToBytes};
use std::alloc::Global;
use std::fmt::Debug;
use std::io::ErrorKind;
use std::process::Abort;

/// Asserts that this is the expected value.
pub fn assert_is<T: Copy + PartialEq + Debug>(rt: &impl Abort, got: T, want: T) {
    assert_eq!(rt; got, want);
}

/// Asserts that this is the expected value, in the row of a table that has this name or input.
pub fn assert_is_at<R: Copy + PartialEq + Debug, T: Copy + PartialEq + Debug>(
    rt: &impl Abort,
    row: R,
    got: T,
    want: T,
) {
    assert_is(rt, (row, got), (row, want));
}

/// A refusal to read or to write.
#[derive(Clone, Copy, Debug, PartialEq, Eq)]
pub enum Refusal {
    /// Words with the reason.
    Words,
    /// A failure of a reader or a writer.
    Io(ErrorKind),
    /// A borrowed text, which is UTF-8 up to this place.
    Lent(usize),
    /// An owned text, which is UTF-8 up to this place.
    Owned(usize),
    /// A count of bytes that does not fit.
    Input(usize),
    /// Memory ran out.
    Memory,
}

/// The refusal where the bytes end too early.
pub const SHORT: Refusal = Refusal::Io(ErrorKind::UnexpectedEof);

fn refusal_of_text(text: &Utf8) -> Refusal {
    match text {
        Utf8::Str(error) => Refusal::Lent(error.valid_up_to()),
        Utf8::String(error) => Refusal::Owned(error.valid_up_to()),
    }
}

/// The compared part of a refusal to read.
pub fn refusal_of(error: &DeError) -> Refusal {
    match error {
        DeError::Msg(_) => Refusal::Words,
        DeError::Io(kind) => Refusal::Io(*kind),
        DeError::Utf8(text) => refusal_of_text(text),
        DeError::InvalidInput(count) => Refusal::Input(*count),
        DeError::Memory => Refusal::Memory,
    }
}

/// The compared part of a refusal to write.
pub fn refusal_to_write(error: &SerError) -> Refusal {
    match error {
        SerError::Msg(_) => Refusal::Words,
        SerError::Io(kind) => Refusal::Io(*kind),
        SerError::Utf8(text) => refusal_of_text(text),
        SerError::Memory => Refusal::Memory,
    }
}

/// The value read, or the compared part of the refusal.
pub fn outcome_of<T: Copy>(read: Result<T, DeError>) -> Result<T, Refusal> {
    match read {
        Ok(value) => Ok(value),
        Err(error) => Err(refusal_of(&error)),
    }
}

/// Asserts that this list was read, or that this refusal was returned.
pub fn assert_list<T: Copy + PartialEq + Debug>(
    rt: &impl Abort,
    read: &Result<Vec<T>, DeError>,
    want: Result<&[T], Refusal>,
) {
    let got = match read {
        Ok(list) => Ok(list.as_slice()),
        Err(error) => Err(refusal_of(error)),
    };
    assert_is(rt, got, want);
}

/// Asserts that this text was read, or that this refusal was returned.
pub fn assert_text(rt: &impl Abort, read: &Result<String, DeError>, want: Result<&str, Refusal>) {
    let got = match read {
        Ok(text) => Ok(text.as_str()),
        Err(error) => Err(refusal_of(error)),
    };
    assert_is(rt, got, want);
}

/// Asserts the value at the front of the bytes, and the cursor's position then.
pub fn assert_read<T: FromBytes + Copy + PartialEq>(
    rt: &impl Abort,
    alloc: Global,
    bytes: &[u8],
    want: Result<T, Refusal>,
    place: usize,
) {
    let mut cursor = Cursor::new(bytes);
    let read = outcome_of(T::from_bytes(alloc, &mut cursor));
    assert_is_at(rt, bytes, (read, cursor.position()), (want, place));
}

/// Asserts the bytes lent with this input. The cursor stays.
pub fn assert_lent<'a, T: FromBytesWithInputBorrowed<'a> + Copy + PartialEq>(
    rt: &impl Abort,
    bytes: &'a [u8],
    input: usize,
    want: Result<T, Refusal>,
) {
    let mut cursor = Cursor::new(bytes);
    let read = outcome_of(T::from_bytes_with_input(&mut cursor, input));
    assert_is_at(rt, input, (read, cursor.position()), (want, 0));
}

/// A cursor at this place of the bytes.
pub fn cursor_at<'b>(rt: &impl Abort, bytes: &'b [u8], place: usize) -> Cursor<'b> {
    let mut cursor = Cursor::new(bytes);
    assert!(rt; place <= bytes.len());
    cursor.set_position(place);
    cursor
}

/// The bytes `..`, behind which values are written.
pub fn dots(rt: &impl Abort, alloc: Global) -> Vec<u8> {
    Vec::from_slice(alloc, b"..").expect(rt, "memory")
}

/// Asserts that these bytes stand after the dots.
pub fn assert_behind_dots(rt: &impl Abort, buffer: &[u8], want: &[u8]) {
    let parts = (buffer.get(..2), buffer.get(2..));
    assert_is(rt, parts, (Some(b"..".as_slice()), Some(want)));
}

/// Asserts that the value is written as these bytes, after those that stand there.
pub fn assert_written<T: ToBytes>(rt: &impl Abort, alloc: Global, value: &T, want: &[u8]) {
    let mut buffer = dots(rt, alloc);
    value.to_bytes(&mut buffer).expect(rt, "memory");
    assert_behind_dots(rt, &buffer, want);
}

/// Asserts the unpadded, the padded and the written size.
pub fn assert_sizes<T: Size>(rt: &impl Abort, value: &T, want: (usize, usize, usize)) {
    let sizes = (
        value.unpadded_size(),
        value.padded_size(),
        value.written_size(),
    );
    assert_is(rt, sizes, want);
}
