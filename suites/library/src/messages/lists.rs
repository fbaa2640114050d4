//! Lists of messages.

use super::support::{Raw, assert_is, assert_written, numbers_of, raw_message};
use neli::types::{Buffer, NlBuffer};
use neli::{Cursor, FromBytesWithInput};
use std::process::Abort;

/// A message of type 16 without a payload, with the number 5 and the port 7, and one of type 1024 with the
/// payload `61`, and three padding bytes of any value.
const TWO: [u8; 36] = [
    0x10, 0, 0, 0, 0x10, 0, 2, 0xf0, 5, 0, 0, 0, 7, 0, 0, 0, //
    0x11, 0, 0, 0, 0, 4, 0, 0, 0, 0, 0, 0, 0, 0, 0, 0, 0x61, 0xff, 0xff, 0xff,
];

/// A message of type 1024 with the payload `abcde` and three zeros.
const MORE: [u8; 24] = [
    0x18, 0, 0, 0, 0, 4, 1, 0, 0, 0, 0, 0, 0, 0, 0, 0, 0x61, 0x62, 0x63, 0x64, 0x65, 0, 0, 0,
];

/// [`TWO`] with zeros for padding, and then [`MORE`].
const THREE: [u8; 60] = [
    0x10, 0, 0, 0, 0x10, 0, 2, 0xf0, 5, 0, 0, 0, 7, 0, 0, 0, //
    0x11, 0, 0, 0, 0, 4, 0, 0, 0, 0, 0, 0, 0, 0, 0, 0, 0x61, 0, 0, 0, //
    0x18, 0, 0, 0, 0, 4, 1, 0, 0, 0, 0, 0, 0, 0, 0, 0, 0x61, 0x62, 0x63, 0x64, 0x65, 0, 0, 0,
];

/// Asserts the type, the numbers in the header and the count of bytes in the payload of the next message.
fn assert_next(rt: &impl Abort, next: Option<&Raw>, kind: u16, numbers: [u32; 4], count: usize) {
    let message = next.expect(rt, "a message");
    assert_is(rt, *message.nl_type(), kind);
    assert_is(rt, numbers_of(message), numbers);
    let body = message.get_payload().expect(rt, "a payload");
    assert_is(rt, body.len(), count);
}

#[test]
fn a_list_has_its_messages_in_their_order_and_takes_one_more(rt: HostRuntime) {
    let read = NlBuffer::from_bytes_with_input(rt.alloc(), &mut Cursor::new(&TWO), 36);
    let mut list: NlBuffer<u16, Buffer> = read.expect(&rt, "two messages");
    assert_is(&rt, list.len(), 2);
    let mut messages = list.iter();
    assert_next(&rt, messages.next(), 16, [16, 0xf002, 5, 7], 0);
    assert_next(&rt, messages.next(), 1024, [17, 0, 0, 0], 1);
    assert!(rt; messages.next().is_none());
    list.push(raw_message(&rt, rt.alloc(), &MORE))
        .expect(&rt, "memory");
    assert_written(&rt, rt.alloc(), &list, &THREE);
}
