//! Shared parts of the tests: refusals that can be compared, one comparison for all, and values read from bytes.

use neli::consts::Constant;
use neli::consts::nl::NlType;
use neli::err::{DeError, Nlmsgerr, NlmsghdrErr, RouterError};
use neli::lent::{LentAttr, LentMessage};
use neli::nl::{NlPayload, Nlmsghdr};
use neli::types::Buffer;
use neli::{Cursor, FromBytes, ToBytes};
use std::alloc::Global;
use std::fmt::{Debug, Display};
use std::io::ErrorKind;
use std::process::Abort;

/// Asserts that this is the expected value.
pub fn assert_is<T: Copy + PartialEq + Debug>(rt: &impl Abort, got: T, want: T) {
    assert_eq!(rt; got, want);
}

/// Asserts that this is the expected value, in the row of a table that has this name or input.
pub fn assert_is_at<R: Copy + Debug, T: Copy + PartialEq + Debug>(
    rt: &impl Abort,
    row: R,
    got: T,
    want: T,
) {
    assert_eq!(rt; got, want, "at {row:?}");
}

/// The refusal of a call.
#[derive(Clone, Copy, Debug, PartialEq, Eq)]
pub enum Refusal {
    /// The bytes end too early.
    Short,
    /// A count of bytes that does not fit.
    Input(usize),
    /// Memory ran out.
    Memory,
    Other,
}

/// The refusal of a read.
pub fn refusal_of(error: &DeError) -> Refusal {
    match error {
        DeError::Io(ErrorKind::UnexpectedEof) => Refusal::Short,
        DeError::InvalidInput(n) => Refusal::Input(*n),
        DeError::Memory => Refusal::Memory,
        _ => Refusal::Other,
    }
}

/// The refusal of a read, or None if there is a value.
pub fn refusal_in<T: Drop>(read: Result<T, DeError>) -> Option<Refusal> {
    match read {
        Ok(_) => None,
        Err(error) => Some(refusal_of(&error)),
    }
}

/// The refusal in a router's error.
pub fn router_refusal<T, P>(error: &RouterError<T, P>) -> Refusal {
    match error {
        RouterError::Memory => Refusal::Memory,
        RouterError::De(DeError::InvalidInput(n)) => Refusal::Input(*n),
        _ => Refusal::Other,
    }
}

/// The attribute of these bytes.
pub fn lent_attr<'b, K: Constant<Number = u16>>(
    rt: &impl Abort,
    bytes: &'b [u8],
) -> LentAttr<'b, K> {
    LentAttr::lend(&mut Cursor::new(bytes)).expect(rt, "an attribute")
}

/// The first message of these bytes.
pub fn lent_message<'b, T: NlType>(rt: &impl Abort, bytes: &'b [u8]) -> LentMessage<'b, T> {
    LentMessage::lend(&mut Cursor::new(bytes)).expect(rt, "a message")
}

/// A message with untyped payload.
pub type Raw = Nlmsghdr<u16, Buffer>;

/// An error with the message that it echoes.
pub type RawError = Nlmsgerr<NlmsghdrErr<u16, Buffer>>;

/// The first message of these bytes.
pub fn raw_message(rt: &impl Abort, alloc: Global, bytes: &[u8]) -> Raw {
    Raw::from_bytes(alloc, &mut Cursor::new(bytes)).expect(rt, "a message")
}

/// The numbers in a header but its type: length, flags, number and port.
pub fn numbers_of<T, P>(message: &Nlmsghdr<T, P>) -> [u32; 4] {
    let flags = u32::from(u16::from(*message.nl_flags()));
    [
        *message.nl_len(),
        flags,
        *message.nl_seq(),
        *message.nl_pid(),
    ]
}

/// The same of a lent message.
pub fn lent_numbers<T>(message: &LentMessage<'_, T>) -> [u32; 4] {
    let flags = u32::from(u16::from(*message.nl_flags()));
    [
        *message.nl_len(),
        flags,
        *message.nl_seq(),
        *message.nl_pid(),
    ]
}

/// The error in the message.
pub fn error_in<'a, T, P>(
    rt: &impl Abort,
    message: &'a Nlmsghdr<T, P>,
) -> &'a Nlmsgerr<NlmsghdrErr<T, P>> {
    match message.nl_payload() {
        NlPayload::Err(answer) => answer,
        _ => rt.panic("no error"),
    }
}

/// Asserts that the value is written as these bytes.
pub fn assert_written<V: ToBytes>(rt: &impl Abort, alloc: Global, value: &V, want: &[u8]) {
    let mut bytes = Vec::new(alloc);
    value.to_bytes(&mut bytes).expect(rt, "memory");
    assert_is(rt, bytes.as_slice(), want);
    assert_is(rt, value.written_size(), want.len());
}

/// Asserts that the value prints this text.
pub fn assert_prints<D: Display>(rt: &impl Abort, alloc: Global, value: &D, want: &str) {
    let text = value.to_string(alloc).expect(rt, "memory");
    assert_is(rt, text.as_str(), want);
}
