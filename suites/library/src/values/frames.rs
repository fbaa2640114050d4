//! The bytes after a header that states the length of the whole: the payload and its padding.

use super::support::{Refusal, SHORT, assert_is, assert_list, refusal_of};
use neli::Cursor;
use neli::err::DeError;
use neli::implementing::{read_padded_payload, within_input};
use std::alloc::Global;
use std::io::ErrorKind;
use std::process::Abort;

// After a header of 4 bytes.
fn check_payload(
    rt: &impl Abort,
    alloc: Global,
    bytes: &[u8],
    length: u8,
    want: Result<&[u8], Refusal>,
    place: usize,
) {
    let mut cursor = Cursor::new(bytes);
    let length = usize::from(length);
    let read: Result<Vec<u8>, DeError> = read_padded_payload(alloc, &mut cursor, 4, length);
    assert_list(rt, &read, want);
    assert_is(rt, cursor.position(), place);
}

// Padding holds bytes of any value.
#[test]
fn payloads_of_frames(rt: HostRuntime) {
    let rows: [(&[u8], u8, Result<&[u8], Refusal>, usize); 6] = [
        (b"123\xff9", 7, Ok(b"123"), 4),
        (b"123\xff9", 8, Ok(b"123\xff"), 4),
        (b"123\xff9", 4, Ok(b""), 0),
        (b"123\xff9", 3, Err(Refusal::Input(3)), 0),
        (b"123\xff9", 12, Err(Refusal::Input(8)), 0),
        (b"123", 7, Err(SHORT), 0),
    ];
    for (bytes, length, want, place) in rows {
        check_payload(&rt, rt.alloc(), bytes, length, want, place);
    }
}

// A refusal inside an input of nine bytes.
fn check_within(rt: &impl Abort, error: DeError, want: Refusal) {
    assert_is(rt, refusal_of(&within_input(error, 9)), want);
}

#[test]
fn missing_bytes_inside_an_input(rt: HostRuntime) {
    let short = DeError::Io(ErrorKind::UnexpectedEof);
    check_within(&rt, short, Refusal::Input(9));
    check_within(&rt, DeError::InvalidInput(2), Refusal::Input(2));
    let broken = ErrorKind::BrokenPipe;
    check_within(&rt, DeError::Io(broken), Refusal::Io(broken));
}
