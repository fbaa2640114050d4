//! Messages and attributes where the library keeps them: a header, and a payload whose bytes are borrowed.

use crate::consts::nl::NlmF;
use crate::err::{DeError, RouterError, refused};
use crate::ffi;
use crate::nl::{NlType, Nlmsghdr};
use crate::types::Buffer;
use crate::{FromBytes, attr::AttrNumber};
use std::ffi::CStr;

/// The flag of a type field for a payload that lists attributes.
const NESTED: u16 = 0x8000;

/// A message whose payload is borrowed, whatever its kind: of an error these are the bytes of its code, of the echoed
/// request and of its attributes.
#[derive(Clone, Copy, Debug)]
pub struct LentMessage<'b> {
    pub(crate) head: ffi::Message,
    payload: &'b [u8],
}

impl<'b> LentMessage<'b> {
    /// The message with this header, whose payload is all of the bytes.
    pub(crate) fn new(head: &ffi::Message, payload: &'b [u8]) -> Self {
        LentMessage { head: *head, payload }
    }

    /// The length that the header states, in bytes, padding left out.
    pub fn nl_len(&self) -> u32 {
        self.head.length
    }

    /// The type of the message.
    pub fn nl_type(&self) -> u16 {
        self.head.kind
    }

    /// Its flags.
    pub fn nl_flags(&self) -> NlmF {
        NlmF::from_bits_retain(self.head.flags)
    }

    /// Its sequence number: a reply has that of its request.
    pub fn nl_seq(&self) -> u32 {
        self.head.number
    }

    /// The port of the requesting socket.
    pub fn nl_pid(&self) -> u32 {
        self.head.port
    }

    /// Its payload.
    pub fn nl_payload(&self) -> &'b [u8] {
        self.payload
    }

    /// The attributes after a body's header of this many bytes, and its padding. Refused as `InvalidInput` of the
    /// payload's length where that is shorter.
    pub fn get_attrs(&self, header_size: usize) -> Result<LentAttrs<'b>, DeError> {
        let start = header_size.checked_next_multiple_of(4).filter(|it| *it <= self.payload.len());
        let start = start.ok_or(DeError::InvalidInput(self.payload.len()))?;
        Ok(LentAttrs::new(&self.payload[start..]))
    }

    /// The same message, copied and read as these types. Refused where its payload can't be.
    pub fn to_nlmsghdr<T: NlType, P: FromBytes>(&self) -> Result<Nlmsghdr<T, P>, DeError> {
        Nlmsghdr::of_message(self.payload, &self.head)
    }

    /// What a router says in place of an error message: the kernel's refusal, or why it can't be read.
    pub(crate) fn to_refusal(self) -> RouterError {
        match self.to_nlmsghdr::<u16, Buffer>().map(Nlmsghdr::into_err) {
            Ok(refusal) => refusal.map_or(RouterError::ClosedChannel, RouterError::Nlmsgerr),
            Err(error) => error.into(),
        }
    }
}

/// A walk over attributes whose payloads are borrowed. After a fault, which it gives once, it ends.
#[derive(Clone, Debug)]
pub struct LentAttrs<'b> {
    bytes: &'b [u8],
    walk: ffi::Walk,
}

impl<'b> LentAttrs<'b> {
    /// The attributes in these bytes.
    pub fn new(bytes: &'b [u8]) -> Self {
        LentAttrs { bytes, walk: ffi::Walk { place: 0, end: bytes.len() } }
    }

    /// The first attribute with this number among those that are left, or none; the walk stays where it is. Refused
    /// where a fault comes before any such attribute.
    pub fn get_attribute(&self, number: impl AttrNumber) -> Result<Option<LentAttr<'b>>, DeError> {
        let number = number.into();
        self.clone().find(|it| it.as_ref().map_or(true, |it| it.number == number)).transpose()
    }
}

impl<'b> Iterator for LentAttrs<'b> {
    type Item = Result<LentAttr<'b>, DeError>;

    fn next(&mut self) -> Option<Self::Item> {
        let mut room = [ffi::Attribute::default()];
        match ffi::next_attributes(self.bytes, &mut self.walk, &mut room) {
            (ffi::ITEM, [it]) => {
                let payload = &self.bytes[it.payload..][..it.payload_length];
                Some(Ok(LentAttr { number: it.number, flags: it.flags, payload }))
            }
            (ffi::ITEM | ffi::END, _) => None,
            (code, _) => {
                self.walk.place = self.walk.end;
                Some(Err(refused(code).into()))
            }
        }
    }
}

/// An attribute whose payload is borrowed.
#[derive(Clone, Copy, Debug, PartialEq, Eq)]
pub struct LentAttr<'b> {
    number: u16,
    flags: u16,
    payload: &'b [u8],
}

impl<'b> LentAttr<'b> {
    /// Its number, without the two flags.
    pub fn attr_type(&self) -> u16 {
        self.number
    }

    /// Whether it says that its payload lists attributes.
    pub fn is_nested(&self) -> bool {
        self.flags & NESTED != 0
    }

    /// Its payload.
    pub fn attr_payload(&self) -> &'b [u8] {
        self.payload
    }

    /// The attributes in its payload, whether or not it says that it lists some.
    pub fn get_attrs(&self) -> LentAttrs<'b> {
        LentAttrs::new(self.payload)
    }

    /// The payload as a value. Refused where it is none.
    pub fn get_payload_as<R: FromBytes>(&self) -> Result<R, DeError> {
        R::from_bytes(self.payload)
    }

    /// The payload as a text, as far as the first zero byte. Refused as `Utf8` where there is none, or no UTF-8 before
    /// it.
    pub fn get_str(&self) -> Result<&'b str, DeError> {
        let text = CStr::from_bytes_until_nul(self.payload).map_err(|_| DeError::Utf8)?;
        text.to_str().map_err(|_| DeError::Utf8)
    }
}
