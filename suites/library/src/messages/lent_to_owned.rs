//! Lent values that become owned ones. Each allocation may be refused in these tests: then the call reports that memory
//! ran out, and the lent value still exists.

use super::support::{
    Raw, Refusal, assert_is_at, lent_attr, lent_message, numbers_of, refusal_in, refusal_of,
};
use neli::FromBytesWithInput;
use neli::consts::rtnl::Rta;
use neli::err::DeError;
use neli::lent::LentAttr;
use neli::nl::{NlPayload, Nlmsghdr};
use neli::rtnl::Ifinfomsg;
use neli::types::Buffer;
use std::alloc::Global;
use std::process::Abort;

/// A link with index 3, without attributes.
const LINK: [u8; 32] = [
    32, 0, 0, 0, 16, 0, 2, 0, 5, 0, 0, 0, 7, 0, 0, 0, 0, 0, 1, 0, 3, 0, 0, 0, 0, 0, 0, 0, 0, 0, 0,
    0,
];

/// The message of these bytes, lent and then owned.
fn owned<P: FromBytesWithInput>(
    rt: &impl Abort,
    alloc: Global,
    bytes: &[u8],
) -> Result<Nlmsghdr<u16, P>, DeError> {
    lent_message::<u16>(rt, bytes).to_nlmsghdr(alloc)
}

/// Asserts the fields and the payload of [`LINK`].
fn assert_link(rt: &impl Abort, owned: &Raw) {
    assert_is_at(rt, "the type", *owned.nl_type(), 16);
    assert_is_at(rt, "numbers", numbers_of(owned), [32, 2, 5, 7]);
    let payload = owned.get_payload().expect(rt, "a payload");
    assert_is_at(rt, "payload", payload.as_ref(), &LINK[16..]);
}

#[test]
fn a_message_with_a_payload_of_bytes_or_out_of_memory(rt: HostRuntime) {
    let message = lent_message::<u16>(&rt, &LINK);
    let owned: Result<Raw, DeError> = message.to_nlmsghdr(rt.alloc());
    match &owned {
        Ok(owned) => assert_link(&rt, owned),
        Err(error) => assert_is_at(&rt, "refused", refusal_of(error), Refusal::Memory),
    }
    assert_is_at(&rt, "payload", message.nl_payload(), &LINK[16..]);
}

/// An error of code -22, which echoes nothing.
const ERROR: [u8; 20] = [
    20, 0, 0, 0, 2, 0, 0, 0, 5, 0, 0, 0, 7, 0, 0, 0, 0xea, 0xff, 0xff, 0xff,
];

/// An acknowledgement of a message of 32 bytes.
const ACK: [u8; 36] = [
    36, 0, 0, 0, 2, 0, 0, 1, 0, 0, 0, 0, 0, 0, 0, 0, 0, 0, 0, 0, 32, 0, 0, 0, 0, 0, 0, 0, 0, 0, 0,
    0, 0, 0, 0, 0,
];

// A link without attributes takes no memory.
#[test]
fn a_message_with_a_body(rt: HostRuntime) {
    let message = owned::<Ifinfomsg>(&rt, rt.alloc(), &LINK).expect(&rt, "a message");
    let link = message.get_payload().expect(&rt, "a payload");
    assert_is_at(&rt, "an index", *link.ifi_index(), 3);
    assert_is_at(&rt, "attributes", link.rtattrs().len(), 0);
}

// An error is lent whatever its payload is, and is refused only as an owned message.
#[test]
fn a_message_of_another_kind_or_refused(rt: HostRuntime) {
    let payload = lent_message::<u16>(&rt, &ERROR).nl_payload();
    assert_is_at(&rt, "payload", payload, &ERROR[16..]);
    let refused = refusal_in(owned::<Buffer>(&rt, rt.alloc(), &ERROR));
    assert_is_at(&rt, "refused", refused, Some(Refusal::Input(4)));
    let answer = owned::<Buffer>(&rt, rt.alloc(), &ACK).expect(&rt, "a message");
    assert!(rt; matches!(answer.nl_payload(), NlPayload::Ack(_)));
}

#[test]
fn a_text_or_out_of_memory(rt: HostRuntime) {
    let attr: LentAttr<'_, Rta> = lent_attr(&rt, &[7, 0, 3, 0, 0x6c, 0x6f, 0, 0xff]);
    let text: Result<String, DeError> = attr.get_payload_as_with_len(rt.alloc());
    match &text {
        Ok(text) => assert_is_at(&rt, "a text", text.as_str(), "lo"),
        Err(error) => assert_is_at(&rt, "refused", refusal_of(error), Refusal::Memory),
    }
    assert_is_at(&rt, "payload", attr.attr_payload(), b"lo\0");
}
