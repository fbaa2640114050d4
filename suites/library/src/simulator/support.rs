//! Shared parts of the tests.

use neli::consts::genl::NlAttrType;
use neli::genl::{AttrType, NlattrBuilder};
use neli::lent::LentMessage;
use neli::simulator::{ExtAck, Request};
use neli::types::{Buffer, GenlBuffer};
use neli::{Cursor, ToBytes};
use std::alloc::Global;
use std::process::Abort;

/// The bytes of these digits.
pub fn decoded(rt: &impl Abort, alloc: Global, digits: &str) -> Vec<u8> {
    hex::decode(alloc, digits).expect(rt, "digits")
}

/// The request at the front of these bytes, from the socket of this port.
pub fn request<'b>(rt: &impl Abort, port: u32, bytes: &'b [u8]) -> Request<'b> {
    let message = LentMessage::lend(&mut Cursor::new(bytes)).expect(rt, "a message");
    Request::new(port, &message)
}

/// Appends an attribute.
pub fn push<T: NlAttrType + Drop, P: ToBytes + Drop>(
    rt: &impl Abort,
    alloc: Global,
    list: &mut GenlBuffer<T, Buffer>,
    kind: u16,
    value: P,
) {
    let attr = NlattrBuilder::default()
        .nla_type(AttrType::from(kind))
        .nla_payload(value)
        .build(alloc);
    list.push(attr.expect(rt, "an attribute"))
        .expect(rt, "memory");
}

/// The values of a row's attributes.
#[derive(Clone, Copy, Debug)]
pub struct Attrs {
    pub text: Option<&'static str>,
    pub offset: Option<u32>,
    pub missing: Option<u32>,
}

/// No attribute.
pub const NOTHING: Attrs = Attrs {
    text: None,
    offset: None,
    missing: None,
};

/// The attributes with these values, in the kernel's order: 1 is the text, 2 the offset, 5 the missing type.
pub fn ext_ack(rt: &impl Abort, alloc: Global, attrs: Attrs) -> ExtAck {
    let mut list = GenlBuffer::new(alloc);
    if let Some(text) = attrs.text {
        push(rt, alloc, &mut list, 1, text);
    }
    if let Some(offset) = attrs.offset {
        push(rt, alloc, &mut list, 2, offset);
    }
    if let Some(missing) = attrs.missing {
        push(rt, alloc, &mut list, 5, missing);
    }
    list
}

/// Asserts that a call of this row made these bytes.
pub fn assert_bytes(rt: &impl Abort, row: &str, got: &[u8], want: &[u8]) {
    assert_eq!(rt; got, want, "at {row}");
}
