//! Shared parts of the tests: built attributes, read lists, and written values.

use neli::attr::{AttrHandle, TypedPayload};
use neli::consts::genl::NlAttrType;
use neli::consts::rtnl::RtaType;
use neli::err::DeError;
use neli::genl::{AttrType, Nlattr, NlattrBuilder};
use neli::rtnl::{Rtattr, RtattrBuilder};
use neli::types::{Buffer, FrameList};
use neli::{Cursor, FromBytes, FromBytesWithInput, ToBytes};
use std::alloc::Global;
use std::fmt::{Debug, Display};
use std::io::ErrorKind;
use std::process::Abort;

/// A list of attributes in which they are looked up.
pub type Handle<'a, I> = AttrHandle<'a, FrameList<I>, I>;

/// Asserts that this is the expected value.
pub fn assert_is<T: Copy + PartialEq + Debug>(rt: &impl Abort, got: T, want: T) {
    assert_eq!(rt; got, want);
}

/// Asserts that this is the expected value, in the row of a table that has this name or input.
pub fn assert_is_at<R: Copy + PartialEq + Debug, T: Copy + PartialEq + Debug>(
    rt: &impl Abort,
    row: R,
    got: T,
    want: T,
) {
    assert_is(rt, (row, got), (row, want));
}

/// A generic attribute without flags.
pub fn generic<T: NlAttrType, P: ToBytes + Drop>(
    rt: &impl Abort,
    alloc: Global,
    kind: T,
    payload: P,
) -> Nlattr<T, Buffer> {
    NlattrBuilder::default()
        .nla_type(AttrType::from(kind.to_number()))
        .nla_payload(payload)
        .build(alloc)
        .expect(rt, "a generic attribute")
}

/// A routing attribute.
pub fn routing<T: RtaType, P: ToBytes + Drop>(
    rt: &impl Abort,
    alloc: Global,
    kind: T,
    payload: P,
) -> Rtattr<T, Buffer> {
    RtattrBuilder::default()
        .rta_type(kind)
        .rta_payload(payload)
        .build(alloc)
        .expect(rt, "a routing attribute")
}

/// Asserts that the value is written as these bytes.
pub fn assert_written<T: ToBytes>(rt: &impl Abort, alloc: Global, value: &T, bytes: &[u8]) {
    let mut buffer = Vec::from_slice(alloc, b"..").expect(rt, "memory");
    value.to_bytes(&mut buffer).expect(rt, "memory");
    let written = (buffer.get(2..), value.written_size());
    assert_is(rt, written, (Some(bytes), bytes.len()));
}

/// Asserts that the value prints this text.
pub fn assert_prints<D: Display>(rt: &impl Abort, alloc: Global, value: &D, text: &str) {
    let printed = value.to_string(alloc).expect(rt, "memory");
    assert_is(rt, printed.as_str(), text);
}

/// Asserts that this was refused, and that the refusal prints this text.
pub fn assert_refused<T: Drop, E: Display + Drop>(
    rt: &impl Abort,
    alloc: Global,
    tried: Result<T, E>,
    text: &str,
) {
    let error = tried.err().expect(rt, "it is not refused");
    assert_prints(rt, alloc, &error, text);
}

/// The list of attributes in all of the bytes.
pub fn read_list<I: FromBytes>(rt: &impl Abort, alloc: Global, bytes: &[u8]) -> FrameList<I> {
    FrameList::from_bytes_with_input(alloc, &mut Cursor::new(bytes), bytes.len()).expect(
        rt, "a list",
    )
}

/// Asserts that the first attribute of this type has this number.
pub fn assert_number<I: TypedPayload, R: FromBytes + Copy + PartialEq>(
    rt: &impl Abort,
    alloc: Global,
    handle: &Handle<'_, I>,
    kind: I::Kind,
    want: R,
) {
    let number: R = handle
        .get_attr_payload_as(alloc, kind)
        .expect(rt, "a number");
    assert_is(rt, number, want);
}

/// Asserts that the first attribute of this type has this text, which ends with a zero there.
pub fn assert_text<I: TypedPayload>(
    rt: &impl Abort,
    alloc: Global,
    handle: &Handle<'_, I>,
    kind: I::Kind,
    want: &str,
) {
    let text: String = handle
        .get_attr_payload_as_with_len(alloc, kind)
        .expect(rt, "a text");
    assert_is(rt, text.as_str(), want);
}

/// Asserts that the first attribute of this type lends these bytes.
pub fn assert_lent<I: TypedPayload>(
    rt: &impl Abort,
    handle: &Handle<'_, I>,
    kind: I::Kind,
    want: &[u8],
) {
    let lent: &[u8] = handle
        .get_attr_payload_as_with_len_borrowed(kind)
        .expect(rt, "bytes");
    assert_is(rt, lent, want);
}

/// Why a value is not read, by what the tables compare of it.
#[derive(Clone, Copy, Debug, PartialEq, Eq)]
pub enum Refusal {
    /// The bytes end too early.
    Short,
    /// A count of bytes that does not fit.
    Input(usize),
    /// Any other, which no row expects.
    Other,
}

/// The refusal of a read, or None if there is a value.
pub fn refusal_of<T: Drop>(read: Result<T, DeError>) -> Option<Refusal> {
    match read {
        Ok(_) => None,
        Err(DeError::InvalidInput(count)) => Some(Refusal::Input(count)),
        Err(DeError::Io(ErrorKind::UnexpectedEof)) => Some(Refusal::Short),
        Err(_) => Some(Refusal::Other),
    }
}

/// Zeros, as many as this.
pub fn zeros(rt: &impl Abort, alloc: Global, count: usize) -> Buffer {
    Buffer::from(vec![in alloc; 0u8; count].expect(rt, "memory"))
}
