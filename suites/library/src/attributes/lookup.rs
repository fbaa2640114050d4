//! Looking attributes up in a handle.

use super::support::{Handle, assert_is_at, assert_lent, assert_number, assert_refused, read_list};
use neli::BeU16;
use neli::attr::AttrHandle;
use neli::consts::genl::{CtrlAttr, Index};
use neli::consts::linux::IflaVxlan;
use neli::consts::rtnl::{Frattr, Ifla, RtaType};
use neli::err::DeError;
use neli::genl::{GenlAttrHandle, Nlattr};
use neli::rtnl::Rtattr;
use neli::types::{Buffer, GenlBuffer, RtBuffer};
use std::alloc::Global;
use std::process::Abort;

/// An attribute of type 1 with the number 5, which is the `FamilyId` of a generic family.
const FAMILY_ID: [u8; 8] = [8, 0, 1, 0, 5, 0, 0, 0];

/// The printed refusal of a look-up that finds nothing.
const NOT_FOUND: &str = "Failed to find specified attribute";

/// Asserts the result for a missing attribute, and for one in the list.
fn check_missing(rt: &impl Abort, alloc: Global, handle: &Handle<'_, Nlattr<CtrlAttr, Buffer>>) {
    assert!(rt; handle.get_attribute(CtrlAttr::FamilyId).is_some());
    assert!(rt; handle.get_attribute(CtrlAttr::FamilyName).is_none());
    let nested = handle.get_nested_attributes::<Index>(alloc, CtrlAttr::McastGroups);
    assert_refused(rt, alloc, nested, "Couldn't find specified attribute");
}

/// The same of the payloads of attributes.
fn check_missing_payloads(
    rt: &impl Abort,
    alloc: Global,
    handle: &Handle<'_, Nlattr<CtrlAttr, Buffer>>,
) {
    let number: Result<u32, DeError> = handle.get_attr_payload_as(alloc, CtrlAttr::Version);
    assert_refused(rt, alloc, number, NOT_FOUND);
    let name: Result<String, DeError> = handle.get_attr_payload_as_with_len(
        alloc,
        CtrlAttr::Version,
    );
    assert_refused(rt, alloc, name, NOT_FOUND);
    let lent = handle.get_attr_payload_as_with_len_borrowed::<&[u8]>(CtrlAttr::Version);
    assert_refused(rt, alloc, lent, NOT_FOUND);
}

#[test]
fn missing_attributes(rt: HostRuntime) {
    let alloc = rt.alloc();
    let list: GenlBuffer<u16, Buffer> = read_list(&rt, alloc, &FAMILY_ID);
    let handle = list
        .get_typed_attr_handle::<CtrlAttr>(alloc)
        .expect(&rt, "attributes");
    check_missing(&rt, alloc, &handle);
    check_missing_payloads(&rt, alloc, &handle);
}

/// Two attributes of type 3, with the numbers 1 and 2.
const TWICE: [u8; 16] = [8, 0, 3, 0, 1, 0, 0, 0, 8, 0, 3, 0, 2, 0, 0, 0];

/// Asserts that the payload of the first of two attributes is read whole as these bytes.
fn assert_whole(
    rt: &impl Abort,
    alloc: Global,
    handle: &Handle<'_, Rtattr<Frattr, Buffer>>,
    want: &[u8],
) {
    let whole: Buffer = handle
        .get_attr_payload_as_with_len(alloc, Frattr::Iifname)
        .expect(rt, "bytes");
    assert!(rt; whole.as_ref() == want);
}

// Two names of one number: a type that was read is the first of them. The payloads are of the first attribute too.
#[test]
fn lookup_goes_by_equality(rt: HostRuntime) {
    let alloc = rt.alloc();
    let list: RtBuffer<Frattr, Buffer> = read_list(&rt, alloc, &TWICE);
    let handle = list.get_attr_handle();
    assert_number(&rt, alloc, &handle, Frattr::Iifname, 1u32);
    assert!(rt; handle.get_attribute(Frattr::Ifname).is_none());
    assert_whole(&rt, alloc, &handle, &[1, 0, 0, 0]);
    assert_lent(&rt, &handle, Frattr::Iifname, &[1, 0, 0, 0]);
}

/// Attributes of a tunnel: `IFLA_VXLAN_ID` (1), the network 42; `IFLA_VXLAN_PORT` (15), the port 4789 in network order.
const TUNNEL: [u8; 16] = [8, 0, 1, 0, 42, 0, 0, 0, 6, 0, 15, 0, 0x12, 0xb5, 0, 0];

#[test]
fn attributes_of_a_tunnel(rt: HostRuntime) {
    let alloc = rt.alloc();
    let list: RtBuffer<IflaVxlan, Buffer> = read_list(&rt, alloc, &TUNNEL);
    let handle = list.get_attr_handle();
    assert_number(&rt, alloc, &handle, IflaVxlan::Id, 42u32);
    assert_number(&rt, alloc, &handle, IflaVxlan::Port, BeU16::new(4789));
    assert!(rt; handle.get_attribute(IflaVxlan::Gbp).is_none());
}

/// Attributes of one byte: type 12 with both flags, then 12 without, 3 in network byte order, and 16384.
const FLAGGED: [u8; 32] = [
    5, 0, 12, 0xc0, 1, 0, 0, 0, 5, 0, 12, 0, 2, 0, 0, 0, 5, 0, 3, 0x40, 3, 0, 0, 0, 5, 0, 0, 0x40,
    4, 0, 0, 0,
];

/// The first byte of an attribute that is found.
fn byte_of<T>(found: Option<&Rtattr<T, Buffer>>) -> Option<u8> {
    found?.rta_payload().as_ref().first().copied()
}

/// The result of looking a type up in [`FLAGGED`], as it is and ignoring the flags.
fn found_of<T: RtaType>(rt: &impl Abort, alloc: Global, kind: T) -> (Option<u8>, Option<u8>) {
    let list: RtBuffer<T, Buffer> = read_list(rt, alloc, &FLAGGED);
    let handle = list.get_attr_handle();
    let masked = byte_of(handle.get_attribute_masked(kind));
    (byte_of(handle.get_attribute(kind)), masked)
}

// `NLA_F_NESTED` is bit 15, `NLA_F_NET_BYTEORDER` bit 14 (linux/netlink.h). Types are compared by their numbers.
#[test]
fn flags_are_passed_over(rt: HostRuntime) {
    let alloc = rt.alloc();
    let rows = [
        (
            "with and without",
            found_of(&rt, alloc, Ifla::Protinfo),
            (Some(2), Some(1)),
        ),
        (
            "with one",
            found_of(&rt, alloc, Ifla::Ifname),
            (None, Some(3)),
        ),
        ("not there", found_of(&rt, alloc, Ifla::Mtu), (None, None)),
        (
            "no type",
            found_of(&rt, alloc, Ifla::Unspec),
            (None, Some(4)),
        ),
        ("a flag", found_of(&rt, alloc, 0x400cu16), (None, None)),
        (
            "a number of the flags",
            found_of(&rt, alloc, 0x4000u16),
            (Some(4), None),
        ),
        (
            "an older name",
            found_of(&rt, alloc, Frattr::Ifname),
            (None, Some(3)),
        ),
    ];
    for (row, found, want) in rows {
        assert_is_at(&rt, row, found, want);
    }
}

// A handle made from a borrowed list lends it; one made from an owned list owns it.
#[test]
fn handles_own_or_borrow(rt: HostRuntime) {
    let alloc = rt.alloc();
    let list: GenlBuffer<CtrlAttr, Buffer> = read_list(&rt, alloc, &FAMILY_ID);
    assert!(rt; matches!(&list.get_attr_handle(), AttrHandle::Borrowed(_)));
    let lent: GenlAttrHandle<'_, CtrlAttr> = AttrHandle::new_borrowed(list.as_ref());
    assert!(rt; matches!(&lent, AttrHandle::Borrowed(_)));
    let empty: GenlBuffer<CtrlAttr, Buffer> = GenlBuffer::new(alloc);
    let owner: GenlAttrHandle<'_, CtrlAttr> = AttrHandle::new(empty);
    assert!(rt; matches!(&owner, AttrHandle::Owned(_)));
}
