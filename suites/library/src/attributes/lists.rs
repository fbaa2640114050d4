//! Lists of attributes: their calls, their bytes and their readings. Functions over both kinds test the common facts of
//! generic and routing ones.

use super::support::{
    Handle, Refusal, assert_is, assert_is_at, assert_written, generic, read_list, refusal_of,
    routing,
};
use neli::attr::{AttrHandle, AttrSlice, Attribute, TypedPayload};
use neli::consts::genl::{CtrlAttr, Index};
use neli::consts::rtnl::{Ifa, Rta};
use neli::err::DeError;
use neli::genl::Nlattr;
use neli::rtnl::Rtattr;
use neli::types::{Buffer, FrameList, GenlBuffer, RtBuffer, TryClone};
use neli::{Cursor, FromBytes, FromBytesWithInput, Size, ToBytes};
use std::alloc::Global;
use std::process::Abort;

/// Three attributes of a byte each, of the types 0, 1 and 2.
const THREE: [u8; 24] = [
    5, 0, 0, 0, 0, 0, 0, 0, 5, 0, 1, 0, 1, 0, 0, 0, 5, 0, 2, 0, 2, 0, 0, 0,
];

/// Asserts that the list of these attributes is written as [`THREE`].
fn check_three<I: ToBytes + Drop>(rt: &impl Abort, alloc: Global, attrs: (I, I, I)) {
    let mut list = FrameList::new(alloc);
    list.push(attrs.0).expect(rt, "memory");
    list.push(attrs.1).expect(rt, "memory");
    list.push(attrs.2).expect(rt, "memory");
    assert_is(rt, list.unpadded_size(), 24);
    assert_written(rt, alloc, &list, &THREE);
}

// Sizes of lists, as in neli's own tests of them.
#[test]
fn sizes_of_generic_lists(rt: HostRuntime) {
    let alloc = rt.alloc();
    let first = generic(&rt, alloc, Index::from(0), 0u8);
    let second = generic(&rt, alloc, Index::from(1), 1u8);
    let third = generic(&rt, alloc, Index::from(2), 2u8);
    check_three(&rt, alloc, (first, second, third));
}

#[test]
fn sizes_of_routing_lists(rt: HostRuntime) {
    let alloc = rt.alloc();
    let first = routing(&rt, alloc, Ifa::Unspec, 0u8);
    let second = routing(&rt, alloc, Ifa::Address, 1u8);
    let third = routing(&rt, alloc, Ifa::Local, 2u8);
    check_three(&rt, alloc, (first, second, third));
}

/// An attribute of type 1 with the payload `09`, and an empty one of type 2.
const TWO: [u8; 12] = [5, 0, 1, 0, 9, 7, 7, 7, 4, 0, 2, 0];

/// The list of [`TWO`] with other payloads: a byte each, and then this.
fn changed<T, I: FromBytes + Attribute<T>, P: ToBytes>(
    rt: &impl Abort,
    alloc: Global,
    payload: &P,
) -> FrameList<I> {
    let mut list: FrameList<I> = read_list(rt, alloc, &TWO);
    for attr in list.iter_mut() {
        attr.set_payload(alloc, &3u8).expect(rt, "it fits");
    }
    for attr in list.as_mut() {
        attr.set_payload(alloc, payload).expect(rt, "it fits");
    }
    list
}

/// Asserts that a list of two has lost its last, and what it is.
fn check_emptied<I: TypedPayload + Size + Drop>(
    rt: &impl Abort,
    mut list: FrameList<I>,
    last: I::Kind,
    size: usize,
) {
    let lengths = (list.len(), list.as_ref().len(), list.iter().count());
    assert_is(rt, (lengths, list.is_empty()), ((2, 2, 2), false));
    let popped = list.pop().expect(rt, "two attributes");
    assert!(rt; *popped.own_type() == last);
    for attr in list {
        assert_is(rt, attr.unpadded_size(), size);
    }
}

#[test]
fn generic_lists_that_are_changed(rt: HostRuntime) {
    let alloc = rt.alloc();
    let list: GenlBuffer<u16, Buffer> = changed(&rt, alloc, &4u16);
    let bytes = [6, 0, 1, 0, 4, 0, 0, 0, 6, 0, 2, 0, 4, 0, 0, 0];
    assert_written(&rt, alloc, &list, &bytes);
    check_emptied(&rt, list, 2, 6);
}

#[test]
fn routing_lists_that_are_changed(rt: HostRuntime) {
    let alloc = rt.alloc();
    let list: RtBuffer<Rta, Buffer> = changed(&rt, alloc, &6u8);
    let bytes = [5, 0, 1, 0, 6, 0, 0, 0, 5, 0, 2, 0, 6, 0, 0, 0];
    assert_written(&rt, alloc, &list, &bytes);
    check_emptied(&rt, list, Rta::Src, 5);
}

/// A copy of the list of [`TWO`], which is written as the list is.
fn copied<I: FromBytes + ToBytes + TryClone>(rt: &impl Abort, alloc: Global) -> FrameList<I> {
    let list: FrameList<I> = read_list(rt, alloc, &TWO);
    let copy = list.try_clone().expect(rt, "memory");
    let bytes = [5, 0, 1, 0, 9, 0, 0, 0, 4, 0, 2, 0];
    assert_written(rt, alloc, &copy, &bytes);
    copy
}

#[test]
fn copies_of_lists(rt: HostRuntime) {
    let alloc = rt.alloc();
    let copy: GenlBuffer<u16, Buffer> = copied(&rt, alloc);
    assert!(rt; copy == read_list(&rt, alloc, &TWO));
    let routes: RtBuffer<Rta, Buffer> = copied(&rt, alloc);
    assert!(rt; routes == read_list(&rt, alloc, &TWO));
    assert!(rt; routes != RtBuffer::new(alloc));
}

/// A copy that is made through the trait.
fn generic_copy<V: TryClone>(rt: &impl Abort, value: &V) -> V {
    value.try_clone().expect(rt, "memory")
}

#[test]
fn copies_through_the_trait(rt: HostRuntime) {
    let alloc = rt.alloc();
    let list: RtBuffer<Rta, Buffer> = read_list(&rt, alloc, &TWO);
    assert!(rt; generic_copy(&rt, &list) == list);
    let bytes = Buffer::from_slice(alloc, &TWO).expect(&rt, "memory");
    assert!(rt; generic_copy(&rt, &bytes) == bytes);
    assert_is(&rt, generic_copy(&rt, &()), ());
}

#[test]
fn routing_attributes_are_compared(rt: HostRuntime) {
    let alloc = rt.alloc();
    let attr = routing(&rt, alloc, Rta::Oif, 1u32);
    assert!(rt; attr == routing(&rt, alloc, Rta::Oif, 1u32));
    assert!(rt; attr != routing(&rt, alloc, Rta::Iif, 1u32));
    assert!(rt; attr != routing(&rt, alloc, Rta::Oif, 2u32));
}

#[test]
fn a_list_of_one_that_is_made(rt: HostRuntime) {
    let alloc = rt.alloc();
    let attr = routing(&rt, alloc, Rta::Oif, 1u32);
    let attrs = vec![in alloc; attr].expect(&rt, "memory");
    assert_is(&rt, RtBuffer::from_list(attrs).as_ref().len(), 1);
}

// Faults inside a list are faults of the whole list's bytes.
const FAULTS: [(&[u8], usize); 4] = [
    (&[8, 0], 2),
    (&[3, 0, 1, 0], 3),
    (&[8, 0, 1, 0, 0x61], 4),
    (&[5, 0, 1, 0, 0x61], 5),
];

#[test]
fn faults_of_lists(rt: HostRuntime) {
    for (bytes, want) in FAULTS {
        let mut cursor = Cursor::new(bytes);
        let read: Result<GenlBuffer<u16, Buffer>, DeError> = FrameList::from_bytes_with_input(
            rt.alloc(),
            &mut cursor,
            bytes.len(),
        );
        assert_is_at(&rt, bytes, refusal_of(read), Some(Refusal::Input(want)));
    }
}

/// Asserts the types, the lengths and the payloads of attributes, of which there are as many as rows.
fn assert_attrs<I: TypedPayload + Size>(
    rt: &impl Abort,
    attrs: &[I],
    rows: &[(I::Kind, usize, &[u8])],
) {
    assert_is(rt, attrs.len(), rows.len());
    for (place, row) in rows.iter().enumerate() {
        let attr = attrs.get(place).expect(rt, "an attribute");
        assert!(rt; *attr.own_type() == row.0);
        assert_is(
            rt,
            (attr.unpadded_size(), attr.own_payload()),
            (row.1, row.2),
        );
    }
}

#[test]
fn lists_of_none_and_of_one(rt: HostRuntime) {
    let none: GenlBuffer<u16, Buffer> = read_list(&rt, rt.alloc(), &[]);
    assert!(rt; none.is_empty());
    let bytes = [5, 0, 1, 0, 0x61, 0xff, 0xff, 0xff];
    let one: GenlBuffer<u16, Buffer> = read_list(&rt, rt.alloc(), &bytes);
    assert_attrs(&rt, one.as_ref(), &[(1, 5, b"a".as_slice())]);
}

/// An attribute of type 1 with the payload `07 01 09 09`, and one of type 4 with `05`.
const BYTES: [u8; 16] = [8, 0, 1, 0, 7, 1, 9, 9, 5, 0, 4, 0, 5, 0, 0, 0];

/// Asserts that this handle is of the attributes of [`BYTES`].
fn assert_handle<I: TypedPayload + Size>(
    rt: &impl Abort,
    handle: &Handle<'_, I>,
    rows: &[(I::Kind, usize, &[u8])],
) {
    assert_attrs(rt, handle.get_attrs(), rows);
    assert_is(rt, handle.iter().count(), 2);
}

/// Asserts that this list is of the attributes of [`BYTES`], and so is what it becomes.
fn check_parts<I: TypedPayload + Size + Drop>(
    rt: &impl Abort,
    alloc: Global,
    list: FrameList<I>,
    rows: &[(I::Kind, usize, &[u8])],
) {
    assert_attrs(rt, list.attr_slice(), rows);
    assert_handle(rt, &AttrHandle::new_borrowed(list.as_ref()), rows);
    let mut attrs = Vec::new(alloc);
    for attr in list {
        attrs.push(attr).expect(rt, "memory");
    }
    let again = FrameList::from(Vec::from(FrameList::from(attrs)));
    assert_attrs(rt, again.as_ref(), rows);
    assert_is(rt, (again.unpadded_size(), again.written_size()), (16, 16));
    assert_handle(rt, &AttrHandle::new(again), rows);
}

/// The attributes of [`BYTES`], read as a plain list of values.
fn read_plain<I: FromBytes>(rt: &impl Abort, alloc: Global) -> FrameList<I> {
    let read: Vec<I> = Vec::from_bytes_with_input(alloc, &mut Cursor::new(&BYTES), 16).expect(
        rt, "a value",
    );
    FrameList::from_list(read)
}

#[test]
fn parts_of_lists(rt: HostRuntime) {
    let alloc = rt.alloc();
    let generic: GenlBuffer<CtrlAttr, Buffer> = read_plain(&rt, alloc);
    let rows: [(CtrlAttr, usize, &[u8]); 2] = [
        (CtrlAttr::FamilyId, 8, &[7, 1, 9, 9]),
        (CtrlAttr::Hdrsize, 5, &[5]),
    ];
    check_parts(&rt, alloc, generic, &rows);
    let routing: RtBuffer<Rta, Buffer> = read_plain(&rt, alloc);
    let rows: [(Rta, usize, &[u8]); 2] = [(Rta::Dst, 8, &[7, 1, 9, 9]), (Rta::Oif, 5, &[5])];
    check_parts(&rt, alloc, routing, &rows);
}
