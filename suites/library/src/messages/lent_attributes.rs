//! The calls of lent attributes and of walks over them.

use super::support::{Refusal, assert_is_at, lent_attr, refusal_in};
use neli::Cursor;
use neli::consts::genl::{CtrlAttr, CtrlAttrMcastGrp, Index, NlAttrType};
use neli::consts::rtnl::Rta;
use neli::err::DeError;
use neli::genl::AttrType;
use neli::lent::{LentAttr, LentAttrs, LentNlattr, LentNlattrs, LentRtattrs};
use std::process::Abort;

/// An attribute of type 1 with the payload `07 01 09 09`, and one of type 4 with `05` and padding of any value.
const BYTES: [u8; 16] = [8, 0, 1, 0, 7, 1, 9, 9, 5, 0, 4, 0, 5, 0xff, 0xff, 0xff];

/// The attribute of the multicast groups of the generic family `nlctrl`: group 1 is `notify`, with the number 5.
const GROUPS: [u8; 28] = [
    0x1c, 0, 7, 0x80, 0x18, 0, 1, 0x80, 0x0b, 0, 1, 0, 0x6e, 0x6f, 0x74, 0x69, 0x66, 0x79, 0, 0, 8,
    0, 2, 0, 5, 0, 0, 0,
];

#[test]
fn an_attribute_has_a_length_a_type_and_a_payload(rt: HostRuntime) {
    let mut cursor = Cursor::new(&BYTES);
    let first = LentAttr::<'_, Rta>::lend(&mut cursor).expect(&rt, "an attribute");
    assert_is_at(&rt, "the length", *first.attr_len(), 8);
    assert_is_at(&rt, "the type", *first.attr_type(), Rta::Dst);
    assert_is_at(&rt, "the place", cursor.position(), 8);
    assert_is_at(&rt, "a payload", first.attr_payload(), &BYTES[4..8]);
    // And then a generic one.
    let second = LentNlattr::<'_, CtrlAttr>::lend(&mut cursor).expect(&rt, "an attribute");
    let kind = *second.attr_type().nla_type();
    assert_is_at(&rt, "the length", *second.attr_len(), 5);
    assert_is_at(&rt, "the type", kind, CtrlAttr::Hdrsize);
    assert_is_at(&rt, "the place", cursor.position(), 16);
    assert_is_at(&rt, "a payload", second.attr_payload(), &BYTES[12..13]);
}

#[test]
fn a_refused_attribute_leaves_the_cursor(rt: HostRuntime) {
    let rows: [(&str, &[u8], Refusal); 4] = [
        ("no header", &BYTES[..3], Refusal::Short),
        ("length 3", &[3, 0, 1, 0], Refusal::Input(3)),
        ("a byte missing", &BYTES[..7], Refusal::Input(4)),
        ("padding missing", &BYTES[8..15], Refusal::Short),
    ];
    for (row, bytes, want) in rows {
        let mut cursor = Cursor::new(bytes);
        let refused = refusal_in(LentAttr::<'_, u16>::lend(&mut cursor));
        assert_is_at(&rt, row, refused, Some(want));
        assert_is_at(&rt, row, cursor.position(), 0);
    }
}

/// The type of the next attribute of a walk, if there is one.
fn next_type(rt: &impl Abort, attrs: &mut LentRtattrs<'_, Rta>) -> Option<Rta> {
    let next = attrs.next()?;
    Some(*next.expect(rt, "an attribute").attr_type())
}

/// The number of attributes that remain in a walk.
fn count(rt: &impl Abort, attrs: &LentRtattrs<'_, Rta>) -> usize {
    attrs.try_count().expect(rt, "attributes")
}

// Counting, and walking ahead, leave a walk unchanged.
#[test]
fn a_walk_is_taken_step_by_step(rt: HostRuntime) {
    let mut attrs = LentRtattrs::<'_, Rta>::new(&BYTES);
    assert_is_at(&rt, "counted", count(&rt, &attrs), 2);
    assert_is_at(&rt, "the first", next_type(&rt, &mut attrs), Some(Rta::Dst));
    let mut ahead = attrs.ahead();
    assert_is_at(&rt, "ahead", next_type(&rt, &mut ahead), Some(Rta::Oif));
    assert_is_at(&rt, "ahead", next_type(&rt, &mut ahead), None);
    assert_is_at(&rt, "counted", count(&rt, &attrs), 1);
    assert_is_at(
        &rt,
        "the second",
        next_type(&rt, &mut attrs),
        Some(Rta::Oif),
    );
    assert_is_at(&rt, "the end", next_type(&rt, &mut attrs), None);
    assert_is_at(&rt, "counted", count(&rt, &attrs), 0);
}

#[test]
fn a_walk_is_a_loop(rt: HostRuntime) {
    let mut last = 0;
    let mut payload = BYTES.as_slice();
    for attr in LentAttrs::<'_, u16>::new(&BYTES) {
        let attr = attr.expect(&rt, "an attribute");
        let kind = *attr.attr_type();
        assert!(rt; last < kind, "in their order");
        last = kind;
        payload = attr.attr_payload();
    }
    assert_is_at(&rt, "the last", last, 4);
    assert_is_at(&rt, "a payload", payload, &[5]);
}

/// The attribute of this type.
fn found<'b, T: NlAttrType + PartialEq>(
    rt: &impl Abort,
    attrs: &LentNlattrs<'b, T>,
    kind: T,
) -> LentNlattr<'b, T> {
    let found = attrs.get_attribute(kind).expect(rt, "attributes");
    found.expect(rt, "an attribute of this type")
}

/// The attributes of group 1 of [`GROUPS`].
fn group(rt: &impl Abort) -> LentNlattrs<'static, CtrlAttrMcastGrp> {
    let attrs = LentNlattrs::new(&GROUPS);
    let groups = found(rt, &attrs, CtrlAttr::McastGroups).get_attrs::<AttrType<Index>>();
    found(rt, &groups, Index::from(1)).get_attrs()
}

#[test]
fn attributes_inside_attributes(rt: HostRuntime) {
    let group = group(&rt);
    let name = found(&rt, &group, CtrlAttrMcastGrp::Name);
    assert_is_at(&rt, "a name", name.attr_payload(), b"notify\0");
    let id = found(&rt, &group, CtrlAttrMcastGrp::Id);
    let number: u32 = id.get_payload_as(rt.alloc()).expect(&rt, "a number");
    assert_is_at(&rt, "a number", number, 5);
}

#[test]
fn a_payload_is_read_as_a_value_or_refused(rt: HostRuntime) {
    let attr: LentAttr<'_, Rta> = lent_attr(&rt, &BYTES);
    let number: u16 = attr.get_payload_as(rt.alloc()).expect(&rt, "a number");
    assert_is_at(&rt, "what the payload begins with", number, 0x0107);
    let bytes: &[u8] = attr.get_payload_as_with_len_borrowed().expect(&rt, "bytes");
    assert_is_at(&rt, "bytes", bytes, &[7, 1, 9, 9]);
    let number: Result<u64, DeError> = attr.get_payload_as(rt.alloc());
    assert_is_at(&rt, "a number", refusal_in(number), Some(Refusal::Short));
    let nothing: Result<(), DeError> = attr.get_payload_as_with_len(rt.alloc());
    assert_is_at(&rt, "nothing", refusal_in(nothing), Some(Refusal::Input(4)));
}

#[test]
fn a_payload_is_lent_as_a_text_or_refused(rt: HostRuntime) {
    let name: LentAttr<'_, u16> = lent_attr(&rt, &GROUPS[8..]);
    let text: Result<&str, DeError> = name.get_payload_as_with_len_borrowed();
    assert_is_at(&rt, "its zero too", text.ok(), Some("notify\0"));
    let bad: LentAttr<'_, u16> = lent_attr(&rt, &[5, 0, 1, 0, 0x80, 0, 0, 0]);
    let refused: Result<&str, DeError> = bad.get_payload_as_with_len_borrowed();
    assert!(rt; matches!(refused, Err(DeError::Utf8(_))));
}
