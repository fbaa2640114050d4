//! Bytes that a value owns.

use super::support::{assert_is, assert_written};
use neli::types::Buffer;
use neli::{Cursor, FromBytesWithInput, Size};
use std::alloc::Global;
use std::process::Abort;

/// Bytes to read.
const BYTES: [u8; 8] = [8, 0, 1, 0, 7, 1, 9, 9];

/// The bytes `xxx`, made of `abc`.
fn three_bytes(rt: &impl Abort, alloc: Global) -> Buffer {
    let mut buffer = Buffer::new(alloc);
    assert!(rt; buffer.is_empty());
    buffer.extend_from_slice(b"abc").expect(rt, "memory");
    for byte in buffer.as_mut() {
        *byte = b'x';
    }
    buffer
}

// The bytes of a buffer.
#[test]
fn buffers(rt: HostRuntime) {
    let alloc = rt.alloc();
    let buffer = three_bytes(&rt, alloc);
    assert_is(&rt, buffer.as_ref(), b"xxx".as_slice());
    assert_is(&rt, (buffer.len(), buffer.written_size()), (3, 3));
    let text = format!(in alloc; "{buffer:?}").expect(&rt, "memory");
    assert_is(&rt, text.as_str(), "Buffer");
    let bytes: Vec<u8> = buffer.into();
    assert_is(&rt, bytes.as_slice(), b"xxx".as_slice());
}

#[test]
fn copies_of_buffers(rt: HostRuntime) {
    let alloc = rt.alloc();
    let buffer = three_bytes(&rt, alloc);
    assert!(rt; buffer.try_clone().expect(&rt, "memory") == buffer);
    assert!(rt; Buffer::from_slice(alloc, b"xx").expect(&rt, "memory") != buffer);
    assert_written(&rt, alloc, &buffer, b"xxx");
}

#[test]
fn bytes_of_a_buffer(rt: HostRuntime) {
    let alloc = rt.alloc();
    let mut cursor = Cursor::new(&BYTES);
    let buffer = Buffer::from_bytes_with_input(alloc, &mut cursor, 4).expect(&rt, "bytes");
    assert_is(&rt, buffer.as_ref(), [8u8, 0, 1, 0].as_slice());
    let sizes = (
        buffer.unpadded_size(),
        buffer.written_size(),
        cursor.position(),
    );
    assert_is(&rt, sizes, (4, 4, 4));
    let copy = Buffer::from_slice(alloc, &BYTES[..4]).expect(&rt, "memory");
    assert!(rt; copy == buffer);
}

#[test]
fn a_buffer_of_a_list(rt: HostRuntime) {
    let bytes = Vec::from_slice(rt.alloc(), b"ab").expect(&rt, "memory");
    assert_is(&rt, Buffer::from(bytes).as_ref(), b"ab".as_slice());
}
