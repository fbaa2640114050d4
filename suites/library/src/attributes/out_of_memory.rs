//! Each allocation may be refused in these tests: then the call reports that memory ran out, and nothing has changed.
//! They run with each allocation refused in turn.

use super::support::assert_is;
use neli::attr::Attribute;
use neli::consts::rtnl::Rta;
use neli::err::{DeError, SerError};
use neli::genl::{AttrType, Nlattr, NlattrBuilder, NlattrBuilderError};
use neli::rtnl::{Rtattr, RtattrBuilder, RtattrBuilderError};
use neli::types::{Buffer, RtBuffer};
use neli::{Cursor, FromBytesWithInput, ToBytes};
use std::alloc::Global;
use std::process::Abort;

/// An attribute with this payload, or None where memory ran out; any other refusal fails the test.
fn built<P: ToBytes + Drop>(
    rt: &impl Abort,
    alloc: Global,
    kind: Rta,
    payload: P,
) -> Option<Rtattr<Rta, Buffer>> {
    let outcome = RtattrBuilder::default()
        .rta_type(kind)
        .rta_payload(payload)
        .build(alloc);
    match outcome {
        Ok(attr) => Some(attr),
        Err(error) => {
            assert!(rt; matches!(error, RtattrBuilderError::Memory));
            None
        }
    }
}

#[test]
fn built_and_nested_or_out_of_memory(rt: HostRuntime) {
    let alloc = rt.alloc();
    let Some(inner) = built(&rt, alloc, Rta::Dst, 7u32) else {
        return;
    };
    let Some(outer) = built(&rt, alloc, Rta::Metrics, ()) else {
        return;
    };
    match outer.nest(&inner) {
        Ok(nested) => {
            assert_is(&rt, *nested.rta_len(), 12);
            let bytes = [8u8, 0, 1, 0, 7, 0, 0, 0];
            assert_is(&rt, nested.rta_payload().as_ref(), bytes.as_slice());
        }
        Err(error) => assert!(rt; matches!(error, SerError::Memory)),
    }
}

#[test]
fn payload_set_or_out_of_memory(rt: HostRuntime) {
    let alloc = rt.alloc();
    let Some(mut attr) = built(&rt, alloc, Rta::Priority, 7u8) else {
        return;
    };
    match attr.set_payload(alloc, &0x0201u16) {
        Ok(()) => {
            assert_is(&rt, *attr.rta_len(), 6);
            assert_is(&rt, attr.rta_payload().as_ref(), [1u8, 2].as_slice());
        }
        Err(error) => {
            assert!(rt; matches!(error, SerError::Memory));
            assert_is(&rt, *attr.rta_len(), 5);
            assert_is(&rt, attr.rta_payload().as_ref(), [7u8].as_slice());
        }
    }
}

/// A generic attribute of this type and payload, or None where memory ran out; any other refusal fails the test.
fn built_generic<P: ToBytes + Drop>(
    rt: &impl Abort,
    alloc: Global,
    kind: u16,
    payload: P,
) -> Option<Nlattr<u16, Buffer>> {
    let outcome = NlattrBuilder::default()
        .nla_type(AttrType::from(kind))
        .nla_payload(payload)
        .build(alloc);
    match outcome {
        Ok(attr) => Some(attr),
        Err(error) => {
            assert!(rt; matches!(error, NlattrBuilderError::Memory));
            None
        }
    }
}

#[test]
fn generic_built_and_nested_or_out_of_memory(rt: HostRuntime) {
    let alloc = rt.alloc();
    let Some(inner) = built_generic(&rt, alloc, 1, 7u32) else {
        return;
    };
    let Some(outer) = built_generic(&rt, alloc, 2, ()) else {
        return;
    };
    match outer.nest(&inner) {
        Ok(nested) => {
            assert_is(&rt, *nested.nla_len(), 12);
            assert_is(&rt, *nested.nla_type().nla_nested(), true);
            let bytes = [8u8, 0, 1, 0, 7, 0, 0, 0];
            assert_is(&rt, nested.nla_payload().as_ref(), bytes.as_slice());
        }
        Err(error) => assert!(rt; matches!(error, SerError::Memory)),
    }
}

#[test]
fn generic_payload_set_or_out_of_memory(rt: HostRuntime) {
    let alloc = rt.alloc();
    let Some(mut attr) = built_generic(&rt, alloc, 1, 7u8) else {
        return;
    };
    match attr.set_payload(alloc, &0x0201u16) {
        Ok(()) => {
            assert_is(&rt, *attr.nla_len(), 6);
            assert_is(&rt, attr.nla_payload().as_ref(), [1u8, 2].as_slice());
        }
        Err(error) => {
            assert!(rt; matches!(error, SerError::Memory));
            assert_is(&rt, *attr.nla_len(), 5);
            assert_is(&rt, attr.nla_payload().as_ref(), [7u8].as_slice());
        }
    }
}

/// A list of the number 7 and of one byte, or None where memory ran out.
fn read_list(rt: &impl Abort, alloc: Global) -> Option<RtBuffer<Rta, Buffer>> {
    let bytes = [8u8, 0, 1, 0, 7, 0, 0, 0, 5, 0, 2, 0, 9, 0, 0, 0];
    let mut cursor = Cursor::new(&bytes);
    match RtBuffer::from_bytes_with_input(alloc, &mut cursor, 16) {
        Ok(attrs) => Some(attrs),
        Err(error) => {
            assert!(rt; matches!(error, DeError::Memory));
            assert_is(rt, cursor.position(), 0);
            None
        }
    }
}

#[test]
fn list_read_or_out_of_memory(rt: HostRuntime) {
    let Some(attrs) = read_list(&rt, rt.alloc()) else {
        return;
    };
    assert_is(&rt, attrs.len(), 2);
    let number: Result<u32, DeError> = attrs
        .get_attr_handle()
        .get_attr_payload_as(rt.alloc(), Rta::Dst);
    assert!(rt; matches!(number, Ok(7)), "a number takes no memory");
}

#[test]
fn payload_read_or_out_of_memory(rt: HostRuntime) {
    let Some(attrs) = read_list(&rt, rt.alloc()) else {
        return;
    };
    let list: Result<Vec<u8>, DeError> = attrs
        .get_attr_handle()
        .get_attr_payload_as_with_len(rt.alloc(), Rta::Src);
    match list {
        Ok(list) => assert_is(&rt, list.as_slice(), [9u8].as_slice()),
        Err(error) => assert!(rt; matches!(error, DeError::Memory)),
    }
}
