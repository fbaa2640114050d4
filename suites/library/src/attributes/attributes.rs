//! Single attributes on the wire: the frames of `struct nlattr` and `struct rtattr` of the kernel's
//! linux/netlink.h and linux/rtnetlink.h, worked out by hand.

use super::support::{
    Refusal, assert_is, assert_is_at, assert_refused, assert_written, generic, refusal_of, routing,
    zeros,
};
use neli::attr::Attribute;
use neli::consts::genl::CtrlAttr;
use neli::consts::rtnl::Rta;
use neli::err::{BuildError, DeError};
use neli::genl::{AttrType, Nlattr, NlattrBuilder};
use neli::rtnl::Rtattr;
use neli::types::Buffer;
use neli::{Cursor, FromBytes, Header, Size};
use std::alloc::Global;
use std::process::Abort;

/// An attribute of type 1 with the payload `07 01 09 09`.
const BYTES: [u8; 8] = [8, 0, 1, 0, 7, 1, 9, 9];

/// The attribute, read.
fn read<A: FromBytes>(rt: &impl Abort, alloc: Global) -> A {
    A::from_bytes(alloc, &mut Cursor::new(&BYTES)).expect(rt, "an attribute")
}

// The frame of `struct rtattr` (the kernel's linux/rtnetlink.h).
#[test]
fn an_empty_routing_attribute(rt: HostRuntime) {
    assert_is(&rt, Rtattr::<Rta, Buffer>::header_size(), 4);
    let mut cursor = Cursor::new(&[4, 0, 0, 0]);
    let empty: Rtattr<Rta, Buffer> = Rtattr::from_bytes(rt.alloc(), &mut cursor).expect(
        &rt,
        "an attribute",
    );
    let fields = (*empty.rta_len(), *empty.rta_type(), cursor.position());
    assert_is(&rt, fields, (4, Rta::Unspec, 4));
    assert!(rt; empty.rta_payload().is_empty());
}

#[test]
fn a_routing_attribute_of_five_bytes(rt: HostRuntime) {
    let alloc = rt.alloc();
    let built = routing(&rt, alloc, Rta::Unspec, 0u8);
    assert_is(&rt, (built.unpadded_size(), built.padded_size()), (5, 8));
    let bytes = [5, 0, 0, 0, 0, 0, 0, 0];
    assert_written(&rt, alloc, &built, &bytes);
    let copy = built.try_clone().expect(&rt, "memory");
    assert_written(&rt, alloc, &copy, &bytes);
}

/// Bytes of an attribute, and the first fault that holds of them, where several do.
const FAULTS: [(&[u8], Refusal); 7] = [
    (&[], Refusal::Short),
    (&[8, 0, 1], Refusal::Short),
    (&[0, 0, 1, 0], Refusal::Input(0)),
    (&[3, 0, 1, 0, 9, 9, 9, 9], Refusal::Input(3)),
    (&[9, 0, 1, 0, 9, 9, 9, 9], Refusal::Input(5)),
    (&[255, 255, 1, 0], Refusal::Input(65531)),
    (&[5, 0, 1, 0, 9], Refusal::Short),
];

/// Asserts that this is the fault of the bytes, and that the cursor stays.
fn check_fault<A: FromBytes>(rt: &impl Abort, alloc: Global, bytes: &[u8], want: Refusal) {
    let mut cursor = Cursor::new(bytes);
    let read: Result<A, DeError> = A::from_bytes(alloc, &mut cursor);
    let fault = (refusal_of(read), cursor.position());
    assert_is_at(rt, bytes, fault, (Some(want), 0));
}

// The last is of a length below the header.
#[test]
fn faults_of_one_attribute(rt: HostRuntime) {
    let alloc = rt.alloc();
    for (bytes, want) in FAULTS {
        check_fault::<Nlattr<u16, Buffer>>(&rt, alloc, bytes, want);
    }
    check_fault::<Rtattr<Rta, Buffer>>(&rt, alloc, &[3, 0, 0, 0], Refusal::Input(3));
}

// A length of 65535 is the last that its field of 16 bits holds.
#[test]
fn the_longest_attribute(rt: HostRuntime) {
    let alloc = rt.alloc();
    let longest = generic(&rt, alloc, 1u16, zeros(&rt, alloc, 65531));
    assert_is(
        &rt,
        (*longest.nla_len(), longest.padded_size()),
        (65535, 65536),
    );
}

#[test]
fn an_attribute_that_is_too_long(rt: HostRuntime) {
    let alloc = rt.alloc();
    let too_long = NlattrBuilder::default()
        .nla_type(AttrType::<u16>::from(1))
        .nla_payload(zeros(&rt, alloc, 65532))
        .build(alloc);
    assert!(rt;
        matches!(
            too_long,
            Err(BuildError::ValidationError("Length does not fit its field"))
        )
    );
}

// A nested attribute that brings the length past 65535.
#[test]
fn nesting_at_the_limit(rt: HostRuntime) {
    let alloc = rt.alloc();
    let four = generic(&rt, alloc, 2u16, 4u32);
    let full = generic(&rt, alloc, 1u16, zeros(&rt, alloc, 65528));
    let too_long = full.nest(&four);
    assert_refused(&rt, alloc, too_long, "Length does not fit its field");
}

// A payload that is refused, and one that is not.
#[test]
fn payloads_that_are_set(rt: HostRuntime) {
    let alloc = rt.alloc();
    let mut attr = generic(&rt, alloc, 1u16, 7u32);
    let refused = attr.set_payload(alloc, &zeros(&rt, alloc, 65532));
    assert_refused(&rt, alloc, refused, "Length does not fit its field");
    assert_written(&rt, alloc, &attr, &[8, 0, 1, 0, 7, 0, 0, 0]);
    attr.set_payload(alloc, &9u8)
        .expect(&rt, "a payload that fits");
    assert_written(&rt, alloc, &attr, &[5, 0, 1, 0, 9, 0, 0, 0]);
}

/// Asserts the sizes and the payload of the attribute of [`BYTES`], and the readings of the payload.
fn assert_payload<T, A: Attribute<T> + Size>(rt: &impl Abort, alloc: Global, attr: &A) {
    assert_is(rt, (attr.unpadded_size(), attr.written_size()), (8, 8));
    assert_is(rt, attr.payload().as_ref(), [7u8, 1, 9, 9].as_slice());
    let first: u16 = attr.get_payload_as(alloc).expect(rt, "a number");
    let whole: Vec<u8> = attr.get_payload_as_with_len(alloc).expect(rt, "bytes");
    let payload = (first, whole.as_slice());
    assert_is(rt, payload, (0x0107, [7u8, 1, 9, 9].as_slice()));
}

#[test]
fn payloads_of_generic_attributes(rt: HostRuntime) {
    let attr: Nlattr<CtrlAttr, Buffer> = read(&rt, rt.alloc());
    assert_is(&rt, Nlattr::<CtrlAttr, Buffer>::header_size(), 4);
    assert_payload(&rt, rt.alloc(), &attr);
    let lent: &[u8] = attr.get_payload_as_with_len_borrowed().expect(&rt, "bytes");
    assert_is(&rt, lent, [7u8, 1, 9, 9].as_slice());
}

#[test]
fn copies_of_generic_attributes(rt: HostRuntime) {
    let alloc = rt.alloc();
    let attr: Nlattr<CtrlAttr, Buffer> = read(&rt, alloc);
    let mut other = attr.try_clone().expect(&rt, "memory");
    assert!(rt; other == attr);
    other
        .set_payload(alloc, &0x0907_0107u32)
        .expect(&rt, "a payload that fits");
    assert!(rt; other != attr);
}

#[test]
fn payloads_of_routing_attributes(rt: HostRuntime) {
    let attr: Rtattr<Rta, Buffer> = read(&rt, rt.alloc());
    assert_payload(&rt, rt.alloc(), &attr);
    let lent: &[u8] = attr.get_payload_as_with_len_borrowed().expect(&rt, "bytes");
    assert_is(&rt, lent, [7u8, 1, 9, 9].as_slice());
    let copy = attr.try_clone().expect(&rt, "memory");
    assert_is(&rt, (*copy.rta_len(), *copy.rta_type()), (8, Rta::Dst));
}
