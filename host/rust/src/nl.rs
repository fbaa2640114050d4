//! Messages: a header, and a payload of one of six kinds.

use crate::attr::{AttrHandle, AttrList, Nlattr};
use crate::consts::nl::{NlmF, NlmsgerrAttr};
use crate::err::{BuildError, DeError, SerError, UninitializedFieldError, done, refused};
use crate::errno::Errno;
use crate::ffi;
use crate::{FromBytes, ToBytes};
use std::fmt;
use std::io;
use std::marker::PhantomData;

/// The number of a message's type.
pub trait NlType: Copy + fmt::Debug + From<u16> + Into<u16> {}

impl<T: Copy + fmt::Debug + From<u16> + Into<u16>> NlType for T {}

const ERROR: u16 = 2;
const DONE: u16 = 3;

/// A message.
#[derive(Clone, Debug)]
pub struct Nlmsghdr<T, P> {
    nl_len: u32,
    nl_type: T,
    nl_flags: NlmF,
    nl_seq: u32,
    nl_pid: u32,
    nl_payload: NlPayload<T, P>,
}

/// The payload of a message.
#[derive(Clone, Debug)]
pub enum NlPayload<T, P> {
    /// The request was done: an error of code 0.
    Ack(Nlmsgerr<T>),
    /// The request was refused.
    Err(Nlmsgerr<T>),
    /// The end of a dump with a payload: a code, which is 0 or below, and attributes.
    DumpExtAck(Nlmsgerr<T>),
    /// A body.
    Payload(P),
    /// Nothing; of a request of routing for objects, a router sends a header of zeros, without which Linux does not
    /// answer.
    Empty,
}

/// The kernel's answer to a request.
#[derive(Clone, Debug)]
pub struct Nlmsgerr<T> {
    error: i32,
    nlmsg: NlmsghdrAck<T>,
    ext_ack: AttrList<Nlattr<NlmsgerrAttr>>,
}

/// The header of the answered request; zeros for the end of a dump.
#[derive(Clone, Debug, PartialEq, Eq)]
pub struct NlmsghdrAck<T> {
    nl_len: u32,
    nl_type: T,
    nl_flags: NlmF,
    nl_seq: u32,
    nl_pid: u32,
}

/// The fields of a header.
macro_rules! header_fields {
    ($($header:ident<$($kind:ident),*>),*) => {
        $(impl<$($kind),*> $header<$($kind),*> {
            /// The length that the header states, in bytes, padding left out.
            pub fn nl_len(&self) -> u32 {
                self.nl_len
            }

            /// The type of the message.
            pub fn nl_type(&self) -> &T {
                &self.nl_type
            }

            /// Its flags.
            pub fn nl_flags(&self) -> &NlmF {
                &self.nl_flags
            }

            /// Its sequence number: a reply has that of its request.
            pub fn nl_seq(&self) -> &u32 {
                &self.nl_seq
            }

            /// The port of the requesting socket.
            pub fn nl_pid(&self) -> &u32 {
                &self.nl_pid
            }
        })*
    };
}

header_fields!(Nlmsghdr<T, P>, NlmsghdrAck<T>);

impl<T> Nlmsgerr<T> {
    /// 0, or an error number of Linux, negated.
    pub fn error(&self) -> i32 {
        self.error
    }

    /// The error number; `None` of 0, and of a code above 0.
    pub fn errno(&self) -> Option<Errno> {
        Errno::of_code(self.error)
    }

    /// The name of the error number, as `ENODEV`; `None` of 0, and of a number without a name.
    pub fn errno_name(&self) -> Option<&'static str> {
        self.errno()?.name()
    }

    /// The header of the request.
    pub fn nlmsg(&self) -> &NlmsghdrAck<T> {
        &self.nlmsg
    }

    /// The attributes of the extended acknowledgement.
    pub fn ext_ack(&self) -> AttrHandle<'_, Nlattr<NlmsgerrAttr>> {
        self.ext_ack.get_attr_handle()
    }

    /// The same as bytes; none where they cannot be written.
    pub(crate) fn ext_ack_bytes(&self) -> Vec<u8> {
        let mut bytes = Vec::new();
        if self.ext_ack.to_bytes(&mut bytes).is_err() {
            bytes.clear();
        }
        bytes
    }

    /// The kernel's text.
    pub fn text(&self) -> Option<String> {
        self.ext_ack().get_attr_payload_as_with_len(NlmsgerrAttr::Msg).ok()
    }

    /// The place in the request that the kernel refuses, in bytes from the start of its header.
    pub fn offset(&self) -> Option<u32> {
        self.ext_ack().get_attr_payload_as(NlmsgerrAttr::Offset).ok()
    }

    /// The number of an attribute that the request lacks.
    pub fn missing_type(&self) -> Option<u32> {
        self.ext_ack().get_attr_payload_as(NlmsgerrAttr::MissType).ok()
    }

    /// The place of the nest in the request that lacks it, in bytes; `None` where the message itself does.
    pub fn missing_nest(&self) -> Option<u32> {
        self.ext_ack().get_attr_payload_as(NlmsgerrAttr::MissNest).ok()
    }

    fn with_number(self) -> Nlmsgerr<u16>
    where
        T: NlType,
    {
        let NlmsghdrAck { nl_len, nl_type, nl_flags, nl_seq, nl_pid } = self.nlmsg;
        let nlmsg = NlmsghdrAck { nl_len, nl_type: nl_type.into(), nl_flags, nl_seq, nl_pid };
        Nlmsgerr { error: self.error, nlmsg, ext_ack: self.ext_ack }
    }
}

/// The meaning of the error number, and the text and the offset if the kernel sent them.
impl<T> fmt::Display for Nlmsgerr<T> {
    fn fmt(&self, f: &mut fmt::Formatter<'_>) -> fmt::Result {
        write!(f, "{}", io::Error::from_raw_os_error(self.error.wrapping_neg()))?;
        if let Some(text) = self.text() {
            write!(f, ": {text}")?;
        }
        if let Some(offset) = self.offset() {
            write!(f, ", at byte {offset} of the request")?;
        }
        Ok(())
    }
}

impl<T, P> Nlmsghdr<T, P> {
    /// Its payload.
    pub fn nl_payload(&self) -> &NlPayload<T, P> {
        &self.nl_payload
    }

    /// The body, if there is one.
    pub fn get_payload(&self) -> Option<&P> {
        match &self.nl_payload {
            NlPayload::Payload(body) => Some(body),
            _ => None,
        }
    }

    /// The error, if it is one.
    pub fn get_err(&self) -> Option<&Nlmsgerr<T>> {
        match &self.nl_payload {
            NlPayload::Err(answer) => Some(answer),
            _ => None,
        }
    }
}

impl<T: NlType, P: FromBytes> Nlmsghdr<T, P> {
    /// The message in these bytes.
    pub(crate) fn of_message(bytes: &[u8], head: &ffi::Message) -> Result<Self, DeError> {
        let payload = &bytes[head.payload..][..head.payload_length];
        let nl_payload = match head.kind {
            ERROR => match answer_in(bytes, head)? {
                answer if answer.error == 0 => NlPayload::Ack(answer),
                answer => NlPayload::Err(answer),
            },
            DONE if head.flags & NlmF::MULTI.bits() != 0 && !payload.is_empty() => {
                NlPayload::DumpExtAck(answer_in(bytes, head)?)
            }
            _ if payload.is_empty() => P::from_bytes(payload).map_or(NlPayload::Empty, NlPayload::Payload),
            _ => NlPayload::Payload(P::from_bytes(payload)?),
        };
        Ok(Nlmsghdr {
            nl_len: head.length,
            nl_type: T::from(head.kind),
            nl_flags: NlmF::from_bits_retain(head.flags),
            nl_seq: head.number,
            nl_pid: head.port,
            nl_payload,
        })
    }
}

impl<T: NlType, P> Nlmsghdr<T, P> {
    /// The kernel's refusal, with its type as a number.
    pub(crate) fn into_err(self) -> Option<Nlmsgerr<u16>> {
        match self.nl_payload {
            NlPayload::Err(answer) => Some(answer.with_number()),
            _ => None,
        }
    }
}

impl<T: NlType, P> Nlmsghdr<T, P> {
    /// Whether it is the end of a dump.
    pub(crate) fn is_done(&self) -> bool {
        self.nl_type.into() == DONE
    }

    /// The answer at the end of a dump that failed.
    pub(crate) fn failed_end(&self) -> Option<Nlmsgerr<u16>> {
        match &self.nl_payload {
            NlPayload::DumpExtAck(answer) if answer.error != 0 => Some(answer.clone().with_number()),
            _ => None,
        }
    }
}

fn answer_in<T: NlType>(bytes: &[u8], head: &ffi::Message) -> Result<Nlmsgerr<T>, DeError> {
    let mut found = ffi::Answer::default();
    done(ffi::get_answer(bytes, head, &mut found))?;
    Ok(Nlmsgerr {
        error: found.code,
        nlmsg: NlmsghdrAck {
            nl_len: found.echo_length,
            nl_type: T::from(found.echo_type),
            nl_flags: NlmF::from_bits_retain(found.echo_flags),
            nl_seq: found.echo_number,
            nl_pid: found.echo_port,
        },
        ext_ack: AttrList::from_bytes(&bytes[found.attributes.place..found.attributes.end])?,
    })
}

/// The messages of a datagram, and then its fault, if it has one.
#[derive(Clone, Debug)]
pub struct NlBufferIter<T, P> {
    bytes: Vec<u8>,
    walk: ffi::Walk,
    of: PhantomData<(T, P)>,
}

impl<T, P> NlBufferIter<T, P> {
    pub(crate) fn new(bytes: Vec<u8>) -> Self {
        let walk = ffi::Walk { place: 0, end: bytes.len() };
        NlBufferIter { bytes, walk, of: PhantomData }
    }
}

impl<T: NlType, P: FromBytes> Iterator for NlBufferIter<T, P> {
    type Item = Result<Nlmsghdr<T, P>, DeError>;

    fn next(&mut self) -> Option<Self::Item> {
        let mut head = ffi::Message::default();
        match ffi::next_message(&self.bytes, &mut self.walk, &mut head) {
            ffi::ITEM => Some(Nlmsghdr::of_message(&self.bytes, &head)),
            ffi::END => None,
            code => {
                self.walk.place = self.walk.end;
                Some(Err(refused(code).into()))
            }
        }
    }
}

/// Makes an [`Nlmsghdr`].
#[derive(Clone, Debug)]
pub struct NlmsghdrBuilder<T, P> {
    nl_type: Option<T>,
    nl_flags: NlmF,
    nl_seq: u32,
    nl_pid: u32,
    nl_payload: Option<NlPayload<T, P>>,
}

impl<T, P> Default for NlmsghdrBuilder<T, P> {
    fn default() -> Self {
        NlmsghdrBuilder { nl_type: None, nl_flags: NlmF::empty(), nl_seq: 0, nl_pid: 0, nl_payload: None }
    }
}

impl<T: NlType, P: ToBytes> NlmsghdrBuilder<T, P> {
    setters! {
        /// The type of the message.
        nl_type: T,
    }

    /// Its flags; none, if they are not given.
    pub fn nl_flags(mut self, flags: NlmF) -> Self {
        self.nl_flags = flags;
        self
    }

    /// Its sequence number; 0, if it is not given.
    pub fn nl_seq(mut self, number: u32) -> Self {
        self.nl_seq = number;
        self
    }

    /// Its port; 0, which the kernel reads as that of the socket, if it is not given.
    pub fn nl_pid(mut self, port: u32) -> Self {
        self.nl_pid = port;
        self
    }

    setters! {
        /// Its payload.
        nl_payload: NlPayload<T, P>,
    }

    /// Returns the message. Refused as [`BuildError::Uninitialized`] with the first of type and payload that was not
    /// given, and else as [`BuildError::Ser`] if the body can't be written or the length exceeds 32 bits.
    pub fn build(self) -> Result<Nlmsghdr<T, P>, BuildError> {
        let nl_type = self.nl_type.ok_or(UninitializedFieldError("nl_type"))?;
        let nl_payload = self.nl_payload.ok_or(UninitializedFieldError("nl_payload"))?;
        let mut made = Nlmsghdr {
            nl_len: 0,
            nl_type,
            nl_flags: self.nl_flags,
            nl_seq: self.nl_seq,
            nl_pid: self.nl_pid,
            nl_payload,
        };
        made.nl_len = made.to_message()?.len() as u32;
        Ok(made)
    }
}

impl<T, P: ToBytes> NlPayload<T, P> {
    /// The bytes of a body; none for another kind, which a program does not send.
    pub(crate) fn body(&self) -> Result<Vec<u8>, SerError> {
        let mut out = Vec::new();
        if let NlPayload::Payload(body) = self {
            body.to_bytes(&mut out)?;
        }
        Ok(out)
    }
}

/// The bytes of a message with this header and this body, with its padding.
pub(crate) fn message_with(head: &ffi::Message, body: &[u8]) -> Result<Vec<u8>, SerError> {
    let mut out = vec![0; 16 + body.len().next_multiple_of(4)];
    let mut writer = ffi::Writer::default();
    done(ffi::begin_message(&mut out, &mut writer, head))?;
    done(ffi::put_bytes(&mut out, &mut writer, body))?;
    done(ffi::end_message(&mut out, &writer))?;
    Ok(out)
}

impl<T: NlType, P: ToBytes> Nlmsghdr<T, P> {
    /// The bytes of the message, with its padding.
    pub(crate) fn to_message(&self) -> Result<Vec<u8>, SerError> {
        let head = ffi::Message {
            kind: self.nl_type.into(),
            flags: self.nl_flags.bits(),
            number: self.nl_seq,
            port: self.nl_pid,
            ..ffi::Message::default()
        };
        message_with(&head, &self.nl_payload.body()?)
    }
}

/// With its padding.
impl<T: NlType, P: ToBytes> ToBytes for Nlmsghdr<T, P> {
    fn to_bytes(&self, out: &mut Vec<u8>) -> Result<(), SerError> {
        out.extend(self.to_message()?);
        Ok(())
    }
}

#[cfg(test)]
mod tests {
    use super::{NlBufferIter, Nlmsgerr};
    use crate::err::RouterError;
    use crate::types::Buffer;

    /// The refusal in a datagram of these words.
    fn refusal(words: &[u32]) -> Nlmsgerr<u16> {
        let bytes = words.iter().flat_map(|it| it.to_ne_bytes()).collect();
        let message = NlBufferIter::<u16, Buffer>::new(bytes).next().expect("a message").expect("is read");
        message.into_err().expect("is an error")
    }

    #[test]
    fn an_error_may_have_any_code() {
        let named = [(-19, Some(19), Some("ENODEV")), (-524, Some(524), Some("ENOTSUPP")), (-4095, Some(4095), None)];
        let others = [(-5000, Some(5000), None), (19, None, None), (i32::MIN, None, None)];
        for (code, number, name) in named.into_iter().chain(others) {
            let answer = refusal(&[36, 2, 0, 0, code as u32, 16, 16, 0, 0]);
            assert_eq!(answer.errno_name(), name);
            let error = RouterError::Nlmsgerr(answer);
            assert_eq!((error.errno(), error.errno_name()), (number, name));
            assert!(!error.to_string().is_empty());
        }
    }
    #[test]
    fn a_missing_attribute_has_its_number_and_its_nest() {
        // EINVAL with the flag ACK_TLVS, the echoed header, and NLMSGERR_ATTR_MISS_TYPE and NLMSGERR_ATTR_MISS_NEST.
        let words = [52, 2 | 0x200 << 16, 0, 0, -22i32 as u32, 16, 16, 0, 0, 8 | 5 << 16, 1, 8 | 6 << 16, 32];
        let answer = refusal(&words);
        assert_eq!((answer.missing_type(), answer.missing_nest()), (Some(1), Some(32)));
        assert_eq!((answer.text(), answer.offset()), (None, None));
    }
}
