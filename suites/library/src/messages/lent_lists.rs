//! Attributes, good and bad, each list read lent and as an owned one: the same attributes, or the same fault.

use super::support::{Refusal, assert_is_at, refusal_of};
use neli::lent::LentAttrs;
use neli::types::{Buffer, RtBuffer};
use neli::{Cursor, FromBytesWithInput};
use std::alloc::Global;
use std::process::Abort;

/// Attributes in hexadecimal digits, their number, and the fault after them. If bytes are missing at the end, the fault
/// names the count of the whole list.
type Row = (&'static str, &'static str, usize, Option<Refusal>);

const ROWS: [Row; 11] = [
    ("nothing", "", 0, None),
    ("one", "0800010007010909", 1, None),
    ("two", "080001000701090905000400050000ff", 2, None),
    (
        "three, of the types 1, 0x8004 and 1",
        "080001000701090905000480050000ff04000100",
        3,
        None,
    ),
    ("length 3", "03000100", 0, Some(Refusal::Input(3))),
    ("length 0", "00000000", 0, Some(Refusal::Input(0))),
    (
        "a length past the bytes",
        "0900010007010909",
        0,
        Some(Refusal::Input(5)),
    ),
    ("padding missing", "0500010061", 0, Some(Refusal::Input(5))),
    ("one byte", "08", 0, Some(Refusal::Input(1))),
    (
        "one byte left",
        "080001000701090908",
        1,
        Some(Refusal::Input(9)),
    ),
    (
        "length 2 after two",
        "08000100070109090500040005000000020001006162",
        2,
        Some(Refusal::Input(2)),
    ),
];

type Raw = RtBuffer<u16, Buffer>;

#[test]
fn lent_and_owned_attributes_are_the_same(rt: HostRuntime) {
    for (row, text, count, fault) in ROWS {
        let bytes = hex::decode(rt.alloc(), text).expect(&rt, row);
        let (given_count, given_fault) = given(&bytes);
        assert_is_at(&rt, row, given_count, count);
        assert_is_at(&rt, row, given_fault, fault);
        let lent = lent_count(&bytes);
        let owned = owned_count(&rt, rt.alloc(), row, &bytes);
        let want = match fault {
            None => Ok(count),
            Some(fault) => Err(fault),
        };
        assert_is_at(&rt, row, [lent, owned], [want, want]);
    }
}

/// The number of attributes in a walk, and the fault after them.
fn given(bytes: &[u8]) -> (usize, Option<Refusal>) {
    let mut count = 0usize;
    for item in LentAttrs::<'_, u16>::new(bytes) {
        match item {
            Ok(_attr) => count = count.saturating_add(1),
            Err(error) => return (count, Some(refusal_of(&error))),
        }
    }
    (count, None)
}

/// The number of lent attributes in the bytes, or the fault.
fn lent_count(bytes: &[u8]) -> Result<usize, Refusal> {
    match LentAttrs::<'_, u16>::new(bytes).try_count() {
        Ok(count) => Ok(count),
        Err(error) => Err(refusal_of(&error)),
    }
}

/// The number of owned attributes in the bytes, or the fault. Asserts that lent ones have the same.
fn owned_count(rt: &impl Abort, alloc: Global, row: &str, bytes: &[u8]) -> Result<usize, Refusal> {
    match Raw::from_bytes_with_input(alloc, &mut Cursor::new(bytes), bytes.len()) {
        Ok(list) => {
            assert_all_same(rt, row, bytes, &list);
            Ok(list.len())
        }
        Err(error) => Err(refusal_of(&error)),
    }
}

/// Asserts that a walk of the bytes returns the attributes of the list, and nothing more.
fn assert_all_same(rt: &impl Abort, row: &str, bytes: &[u8], list: &Raw) {
    let mut attrs = LentAttrs::<'_, u16>::new(bytes);
    for owned in list.iter() {
        let lent = attrs.next().expect(rt, "an attribute less");
        let lent = lent.expect(rt, row);
        let header = [*lent.attr_len(), *lent.attr_type()];
        assert_is_at(rt, row, header, [*owned.rta_len(), *owned.rta_type()]);
        let payload = owned.rta_payload().as_ref();
        assert_is_at(rt, row, lent.attr_payload(), payload);
    }
    assert!(rt; attrs.next().is_none(), "{row}: an attribute more");
}

/// An attribute of type 1 with the payload `07 01 09 09`, an empty one of type 2, and one of which a byte is missing.
const FAULTY: [u8; 17] = [8, 0, 1, 0, 7, 1, 9, 9, 4, 0, 2, 0, 6, 0, 3, 0, 5];

/// The payload of the next attribute of a walk, or the fault; nothing at its end.
fn next_payload<'b>(attrs: &mut LentAttrs<'b, u16>) -> Option<Result<&'b [u8], Refusal>> {
    match attrs.next()? {
        Ok(attr) => Some(Ok(attr.attr_payload())),
        Err(error) => Some(Err(refusal_of(&error))),
    }
}

#[test]
fn a_fault_comes_once_after_the_attributes(rt: HostRuntime) {
    let mut attrs = LentAttrs::<'_, u16>::new(&FAULTY);
    let rows: [Option<Result<&[u8], Refusal>>; 4] = [
        Some(Ok(&[7, 1, 9, 9])),
        Some(Ok(&[])),
        Some(Err(Refusal::Input(2))),
        None,
    ];
    for want in rows {
        assert_is_at(&rt, "an item", next_payload(&mut attrs), want);
    }
    let left = attrs.try_count().expect(&rt, "no fault");
    assert_is_at(&rt, "the end", left, 0);
}
