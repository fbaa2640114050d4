//! Messages that are written: those of a program, and those that JSON is.

use super::{Message, Schema, protocol_of};
use crate::ToBytes;
use crate::consts::nl::NlmF;
use crate::consts::socket::NlFamily;
use crate::err::{Refusal, SerError, refused};
use crate::ffi;
use crate::ffi::tables::Sought;
use crate::nl::{NlPayload, NlType, Nlmsghdr, message_with};
use crate::types::Buffer;
use std::error::Error;
use std::fmt;

/// Why JSON is not written as a message.
#[derive(Clone, Debug, PartialEq, Eq)]
pub enum WriteError {
    /// The path of the member that it is about, and why: `IFLA_MTUU: no such name, the nearest is IFLA_MTU`.
    Unwritten(String),
    /// The library refuses, as where memory ran out.
    Refused(Refusal),
}

impl fmt::Display for WriteError {
    fn fmt(&self, f: &mut fmt::Formatter<'_>) -> fmt::Result {
        match self {
            WriteError::Unwritten(text) => f.write_str(text),
            WriteError::Refused(refusal) => write!(f, "{refusal}"),
        }
    }
}

impl Error for WriteError {}

impl Schema {
    /// A message of a program, written, so that [`Written::message`] is it by the tables. Of one without a body, as an
    /// error, only the header is written. Refused as [`ToBytes::to_bytes`] refuses the body.
    pub fn write<T: NlType, P: ToBytes>(
        &self,
        family: NlFamily,
        message: &Nlmsghdr<T, P>,
    ) -> Result<Written<'_>, SerError> {
        Ok(self.of_bytes(family, message.to_message()?)?)
    }

    fn of_bytes(&self, family: NlFamily, bytes: Vec<u8>) -> Result<Written<'_>, Refusal> {
        let (mut walk, mut head) = (ffi::Walk { place: 0, end: bytes.len() }, ffi::Message::default());
        match ffi::next_message(&bytes, &mut walk, &mut head) {
            ffi::ITEM => Ok(Written { schema: self, protocol: protocol_of(family), bytes, head }),
            code => Err(refused(code)),
        }
    }

    /// The request that a router sends for this type, these flags and this body, with the number and the port 0.
    /// Refused as [`ToBytes::to_bytes`] refuses the body.
    ///
    /// ```
    /// use neli::consts::nl::NlmF;
    /// use neli::consts::rtnl::{Ifla, RtAddrFamily, Rtm};
    /// use neli::consts::socket::NlFamily;
    /// use neli::rtnl::{IfinfomsgBuilder, RtattrBuilder};
    /// use neli::schema::Schema;
    ///
    /// # fn main() -> Result<(), Box<dyn std::error::Error>> {
    /// let mtu = RtattrBuilder::default().rta_type(Ifla::Mtu).rta_payload(1500u16).build()?;
    /// let link = IfinfomsgBuilder::default().ifi_family(RtAddrFamily::Unspecified).ifi_index(1);
    /// let body = link.rtattrs([mtu].into_iter().collect()).build()?;
    /// let schema = Schema::built_in()?;
    /// let request = schema.write_request(NlFamily::Route, Rtm::Setlink, NlmF::ACK, &body)?;
    /// assert!(request.message().check().is_err(), "an MTU has four bytes");
    /// # Ok(())
    /// # }
    /// ```
    pub fn write_request<T: NlType, P: ToBytes>(
        &self,
        family: NlFamily,
        nl_type: T,
        flags: NlmF,
        body: &P,
    ) -> Result<Written<'_>, SerError> {
        let mut payload = Vec::new();
        body.to_bytes(&mut payload)?;
        let flags = (flags | NlmF::REQUEST).bits();
        let head = ffi::Message { kind: nl_type.into(), flags, ..ffi::Message::default() };
        Ok(self.of_bytes(family, message_with(&head, &payload)?)?)
    }

    /// The message that an object of JSON is (`docs/WRITING.md`). Of generic netlink the number of its family has to be
    /// [learnt](Schema::learn) before. Refused as [`WriteError::Unwritten`] with the path of what is wrong, and as
    /// [`WriteError::Refused`] if memory runs out or its length exceeds 32 bits.
    ///
    /// ```
    /// use neli::consts::socket::NlFamily;
    /// use neli::schema::Schema;
    ///
    /// # fn main() -> Result<(), Box<dyn std::error::Error>> {
    /// let schema = Schema::built_in()?;
    /// let request = r#"{"name": "RTM_NEWLINK", "attributes": {"ifi_index": 3, "IFLA_MTU": 1500}}"#;
    /// assert_eq!(schema.write_json(NlFamily::Route, request)?.as_bytes().len(), 40);
    /// let why = schema.write_json(NlFamily::Route, &request.replace("MTU", "MTUU")).map(|_| ());
    /// let text = "IFLA_MTUU: no such name, the nearest is IFLA_MTU";
    /// assert_eq!(why.map_err(|it| it.to_string()), Err(text.to_owned()));
    /// # Ok(())
    /// # }
    /// ```
    pub fn write_json(&self, family: NlFamily, json: &str) -> Result<Written<'_>, WriteError> {
        let (mut out, mut size) = (vec![0; 1024], 0);
        let mut tables = self.tables();
        let mut code = tables.write_json(protocol_of(family), json.as_bytes(), &mut out, &mut size);
        if out.len() < size {
            out.resize(size, 0);
            code = tables.write_json(protocol_of(family), json.as_bytes(), &mut out, &mut size);
        }
        out.truncate(size);
        match code {
            ffi::END => self.of_bytes(family, out).map_err(WriteError::Refused),
            ffi::VIOLATION => Err(WriteError::Unwritten(String::from_utf8_lossy(&out).into_owned())),
            code => Err(WriteError::Refused(refused(code))),
        }
    }
}

/// The bytes of a program's message, for the tables of a [`Schema`].
#[derive(Clone, Debug)]
pub struct Written<'s> {
    schema: &'s Schema,
    protocol: u16,
    bytes: Vec<u8>,
    head: ffi::Message,
}

impl Written<'_> {
    /// The message.
    #[must_use]
    pub fn message(&self) -> Message<'_> {
        let sought = Sought { protocol: self.protocol, bytes: &self.bytes, message: self.head };
        Message { schema: self.schema, sought }
    }

    /// Its bytes, with its padding.
    #[must_use]
    pub fn as_bytes(&self) -> &[u8] {
        &self.bytes
    }

    /// What a router sends of it: its type, its flags and its body.
    ///
    /// ```no_run
    /// use neli::consts::socket::NlFamily;
    /// use neli::router::synchronous::{NlRouter, NlRouterReceiverHandle};
    /// use neli::schema::Schema;
    /// use neli::types::Buffer;
    /// use neli::utils::Groups;
    ///
    /// # fn main() -> Result<(), Box<dyn std::error::Error>> {
    /// let schema = Schema::built_in()?;
    /// let (router, _) = NlRouter::connect(NlFamily::Route, None, Groups::empty())?;
    /// let request = r#"{"name": "RTM_GETLINK", "flags": ["NLM_F_REQUEST", "NLM_F_ACK"], "attributes": {"ifi_index": 1}}"#;
    /// let (nl_type, flags, body) = schema.write_json(NlFamily::Route, request)?.request();
    /// let replies: NlRouterReceiverHandle<u16, Buffer> = router.send(nl_type, flags, body)?;
    /// for reply in replies {
    ///     println!("{}", schema.write(NlFamily::Route, &reply?)?.message().to_json()?);
    /// }
    /// # Ok(())
    /// # }
    /// ```
    #[must_use]
    pub fn request(&self) -> (u16, NlmF, NlPayload<u16, Buffer>) {
        let body = self.bytes.get(self.head.payload..).unwrap_or_default();
        let body = body.get(..self.head.payload_length).unwrap_or(body);
        (self.head.kind, NlmF::from_bits_retain(self.head.flags), NlPayload::Payload(Buffer::from(body)))
    }
}
