//! Looking up attributes in the rest of a walk.

use super::support::{Refusal, assert_is_at, refusal_in, refusal_of};
use neli::consts::genl::CtrlAttr;
use neli::consts::rtnl::Rta;
use neli::genl::AttrType;
use neli::lent::{AttrSelector, LentNlattrs, LentRtattrs};
use std::process::Abort;

/// Attributes of type 5, 1 and 5, and then a length that no attribute has.
const ROUTE: [u8; 28] = [
    8, 0, 5, 0, 192, 0, 2, 1, 8, 0, 1, 0, 10, 0, 0, 0, 8, 0, 5, 0, 192, 0, 2, 2, 3, 0, 4, 0,
];

/// The payload of the attribute found, or the fault.
fn looked_up<'b>(attrs: &LentRtattrs<'b, Rta>, kind: Rta) -> Result<Option<&'b [u8]>, Refusal> {
    match attrs.get_attribute(kind) {
        Ok(None) => Ok(None),
        Ok(Some(attr)) => Ok(Some(attr.attr_payload())),
        Err(error) => Err(refusal_of(&error)),
    }
}

/// Attributes, a type, and the payload of the first of that type, or the fault before it.
type Row = (
    &'static str,
    &'static [u8],
    Rta,
    Result<Option<&'static [u8]>, Refusal>,
);

#[test]
fn the_first_of_its_type_is_found_or_the_fault_before_it(rt: HostRuntime) {
    let rows: [Row; 6] = [
        (
            "a gateway",
            &ROUTE[..24],
            Rta::Gateway,
            Ok(Some(&[192, 0, 2, 1])),
        ),
        ("no link", &ROUTE[..24], Rta::Oif, Ok(None)),
        ("a destination", &ROUTE, Rta::Dst, Ok(Some(&[10, 0, 0, 0]))),
        ("a link", &ROUTE, Rta::Oif, Err(Refusal::Input(3))),
        // A routing attribute has no flags.
        ("without flags", &[4, 0, 1, 0x80], Rta::Dst, Ok(None)),
        (
            "with flags",
            &[4, 0, 1, 0x80],
            Rta::UnrecognizedConst(0x8001),
            Ok(Some(&[])),
        ),
    ];
    for (row, bytes, kind, want) in rows {
        let attrs = LentRtattrs::<'_, Rta>::new(bytes);
        assert_is_at(&rt, row, looked_up(&attrs, kind), want);
    }
}

/// The same, ignoring the flags.
fn looked_up_masked<'b>(
    attrs: &LentRtattrs<'b, Rta>,
    kind: Rta,
) -> Result<Option<&'b [u8]>, Refusal> {
    match attrs.get_attribute_masked(kind) {
        Ok(None) => Ok(None),
        Ok(Some(attr)) => Ok(Some(attr.attr_payload())),
        Err(error) => Err(refusal_of(&error)),
    }
}

/// Attributes of type 5 with both flags, 1 without, and 5 without, and then a length that no attribute has.
const FLAGGED: [u8; 28] = [
    8, 0, 5, 0xc0, 192, 0, 2, 1, 8, 0, 1, 0, 10, 0, 0, 0, 8, 0, 5, 0, 192, 0, 2, 2, 3, 0, 4, 0,
];

// `NLA_F_NESTED` is bit 15, `NLA_F_NET_BYTEORDER` bit 14 (linux/netlink.h).
#[test]
fn the_flags_of_a_routing_attribute_are_passed_over(rt: HostRuntime) {
    let rows: [Row; 6] = [
        (
            "with flags",
            &FLAGGED,
            Rta::Gateway,
            Ok(Some(&[192, 0, 2, 1])),
        ),
        (
            "without flags",
            &FLAGGED,
            Rta::Dst,
            Ok(Some(&[10, 0, 0, 0])),
        ),
        ("no link", &FLAGGED[..24], Rta::Oif, Ok(None)),
        (
            "a fault before a link",
            &FLAGGED,
            Rta::Oif,
            Err(Refusal::Input(3)),
        ),
        ("one flag", &[4, 0, 1, 0x40], Rta::Dst, Ok(Some(&[]))),
        (
            "a number of the flags",
            &[4, 0, 1, 0x80],
            Rta::UnrecognizedConst(0x8001),
            Ok(None),
        ),
    ];
    for (row, bytes, kind, want) in rows {
        let attrs = LentRtattrs::<'_, Rta>::new(bytes);
        assert_is_at(&rt, row, looked_up_masked(&attrs, kind), want);
    }
}

#[test]
fn what_is_left_of_a_walk_is_looked_up(rt: HostRuntime) {
    let mut attrs = LentRtattrs::<'_, Rta>::new(&ROUTE);
    let refused = refusal_in(attrs.try_count());
    assert_is_at(&rt, "a count", refused, Some(Refusal::Input(3)));
    let found = looked_up(&attrs, Rta::Gateway);
    assert_is_at(&rt, "a gateway", found, Ok(Some(&[192, 0, 2, 1])));
    let stayed = attrs.next().expect(&rt, "the first attribute");
    let stayed = stayed.expect(&rt, "the first attribute");
    assert_is_at(&rt, "the first", stayed.attr_payload(), &[192, 0, 2, 1]);
    let left = looked_up(&attrs, Rta::Gateway);
    assert_is_at(&rt, "what is left", left, Ok(Some(&[192, 0, 2, 2])));
}

/// Whether the bytes have a generic attribute of this type.
fn has(rt: &impl Abort, bytes: &[u8], kind: CtrlAttr) -> bool {
    let attrs = LentNlattrs::<'_, CtrlAttr>::new(bytes);
    let found = attrs.get_attribute(kind).expect(rt, "no fault");
    found.is_some()
}

// Bit 15 says that the payload is nested, bit 14 that it is in network order.
#[test]
fn the_flags_of_a_generic_attribute_are_passed_over(rt: HostRuntime) {
    for flags in [0u8, 0x40, 0x80, 0xc0] {
        let bytes = [4, 0, 2, flags];
        let found = [
            has(&rt, &bytes, CtrlAttr::FamilyName),
            has(&rt, &bytes, CtrlAttr::FamilyId),
        ];
        assert_is_at(&rt, flags, found, [true, false]);
    }
}

#[test]
fn a_type_selects_its_field(rt: HostRuntime) {
    let nested = AttrType::<CtrlAttr>::from(0x8002);
    assert!(rt; CtrlAttr::FamilyName.selects(&nested));
    assert!(rt; !CtrlAttr::FamilyId.selects(&nested));
    assert!(rt; Rta::Gateway.selects(&Rta::Gateway));
    assert!(rt; !Rta::Gateway.selects(&Rta::Via));
}
