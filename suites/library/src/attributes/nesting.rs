//! Attributes inside attributes.

use super::support::{
    assert_is, assert_lent, assert_number, assert_text, assert_written, generic, read_list, routing,
};
use neli::attr::AttrHandle;
use neli::consts::genl::{CtrlAttr, CtrlAttrMcastGrp, Index, NlAttrType};
use neli::consts::rtnl::{Frattr, Rta, RtaType};
use neli::genl::Nlattr;
use neli::rtnl::{RtAttrHandle, Rtattr};
use neli::types::{Buffer, GenlBuffer, RtBuffer};
use std::alloc::Global;
use std::process::Abort;

/// A generic attribute with another one nested in it, after its other contents.
fn with_generic<T: NlAttrType, S: NlAttrType>(
    rt: &impl Abort,
    outer: Nlattr<T, Buffer>,
    inner: Nlattr<S, Buffer>,
) -> Nlattr<T, Buffer> {
    outer.nest(&inner).expect(rt, "a nested attribute")
}

/// A routing attribute with a number nested in it.
fn with_number<T: RtaType, S: RtaType>(
    rt: &impl Abort,
    alloc: Global,
    outer: T,
    inner: S,
    number: u32,
) -> Rtattr<T, Buffer> {
    let inner = routing(rt, alloc, inner, number);
    routing(rt, alloc, outer, ())
        .nest(&inner)
        .expect(rt, "a nested attribute")
}

/// The groups of a generic family, made from the inside out.
fn groups(rt: &impl Abort, alloc: Global) -> Nlattr<CtrlAttr, Buffer> {
    let group = generic(rt, alloc, Index::from(1), ());
    let name = generic(rt, alloc, CtrlAttrMcastGrp::Name, "notify");
    let group = with_generic(rt, group, name);
    let id = generic(rt, alloc, CtrlAttrMcastGrp::Id, 5u32);
    let group = with_generic(rt, group, id);
    with_generic(rt, generic(rt, alloc, CtrlAttr::McastGroups, ()), group)
}

#[test]
fn nested_groups_written(rt: HostRuntime) {
    let bytes = [
        0x1c, 0, 7, 0x80, 0x18, 0, 1, 0x80, 0x0b, 0, 1, 0, 0x6e, 0x6f, 0x74, 0x69, 0x66, 0x79, 0,
        0, 8, 0, 2, 0, 5, 0, 0, 0,
    ];
    assert_written(&rt, rt.alloc(), &groups(&rt, rt.alloc()), &bytes);
}

/// Asserts the name and the number of a group.
fn assert_group(rt: &impl Abort, alloc: Global, group: &Nlattr<Index, Buffer>) {
    let handle = group
        .get_attr_handle::<CtrlAttrMcastGrp>(alloc)
        .expect(rt, "attributes");
    assert_text(rt, alloc, &handle, CtrlAttrMcastGrp::Name, "notify");
    assert_lent(rt, &handle, CtrlAttrMcastGrp::Name, b"notify\0");
    assert_number(rt, alloc, &handle, CtrlAttrMcastGrp::Id, 5u32);
}

#[test]
fn nested_groups_looked_up(rt: HostRuntime) {
    let alloc = rt.alloc();
    let mut list = GenlBuffer::new(alloc);
    list.push(groups(&rt, alloc)).expect(&rt, "memory");
    let handle = list.get_attr_handle();
    let indexed = handle
        .get_nested_attributes::<Index>(alloc, CtrlAttr::McastGroups)
        .expect(&rt, "groups");
    assert_is(&rt, indexed.iter().count(), 1);
    let group = indexed.get_attribute(Index::from(1)).expect(&rt, "a group");
    assert_group(&rt, alloc, group);
}

// Nested routing attributes, lent.
#[test]
fn nested_routing_attributes(rt: HostRuntime) {
    let nested = with_number(&rt, rt.alloc(), Frattr::Dst, Rta::Oif, 4);
    let inner = nested
        .get_attr_handle::<Rta>(rt.alloc())
        .expect(&rt, "attributes");
    assert_is(&rt, inner.get_attrs().len(), 1);
}

// A copy of them, owned.
#[test]
fn nested_routing_attributes_of_an_owner(rt: HostRuntime) {
    let alloc = rt.alloc();
    let nested = with_number(&rt, alloc, Frattr::Dst, Rta::Oif, 4)
        .try_clone()
        .expect(&rt, "memory");
    let mut list = RtBuffer::new(alloc);
    list.push(nested).expect(&rt, "memory");
    let owned: RtAttrHandle<'_, Frattr> = AttrHandle::new(list);
    let found = owned
        .get_nested_attributes::<Rta>(alloc, Frattr::Dst)
        .expect(&rt, "attributes");
    assert_number(&rt, alloc, &found, Rta::Oif, 4u32);
}

/// The attribute of type 1 inside another.
fn inner_of(rt: &impl Abort, alloc: Global, attr: Nlattr<u16, Buffer>) -> Nlattr<u16, Buffer> {
    attr.get_attr_handle::<u16>(alloc)
        .expect(rt, "attributes")
        .get_attribute(1)
        .expect(rt, "a level")
        .try_clone()
        .expect(rt, "memory")
}

// Each level is read by a call of its own, so the depth of the input is no depth of the stack.
#[test]
fn a_thousand_levels(rt: HostRuntime) {
    let alloc = rt.alloc();
    let mut attr = generic(&rt, alloc, 1u16, ());
    for _ in 0..1000 {
        attr = with_generic(&rt, generic(&rt, alloc, 1u16, ()), attr);
    }
    assert_is(&rt, *attr.nla_len(), 4004);
    for _ in 0..1000 {
        attr = inner_of(&rt, alloc, attr);
    }
    assert_is(&rt, *attr.nla_len(), 4);
    assert!(rt; attr.nla_payload().is_empty());
}

/// A route's gateway, and its metrics: the MTU of 1500.
const ROUTE: [u8; 20] = [
    8, 0, 5, 0, 192, 0, 2, 1, 12, 0, 8, 0, 8, 0, 2, 0, 0xdc, 5, 0, 0,
];

// A list with a nested list in it, built and written.
#[test]
fn a_list_that_is_made(rt: HostRuntime) {
    let alloc = rt.alloc();
    let mut attrs = RtBuffer::new(alloc);
    attrs
        .push(routing(&rt, alloc, Rta::Gateway, [192u8, 0, 2, 1]))
        .expect(&rt, "memory");
    attrs
        .push(with_number(&rt, alloc, Rta::Metrics, 2u16, 1500))
        .expect(&rt, "memory");
    assert_written(&rt, alloc, &attrs, &ROUTE);
}

// The same, read and looked up.
#[test]
fn a_list_that_is_looked_up(rt: HostRuntime) {
    let alloc = rt.alloc();
    let read: RtBuffer<Rta, Buffer> = read_list(&rt, alloc, &ROUTE);
    let handle = read.get_attr_handle();
    assert_number(&rt, alloc, &handle, Rta::Gateway, [192u8, 0, 2, 1]);
    let metrics = handle
        .get_nested_attributes::<u16>(alloc, Rta::Metrics)
        .expect(&rt, "metrics");
    assert_number(&rt, alloc, &metrics, 2, 1500u32);
}
