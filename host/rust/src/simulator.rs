//! A kernel to test against: what it answers to a request, as bytes. It has no socket, no state and no protocol: your
//! test decides which links, families or routes there are.
//!
//! [`Kernel`] serves the requests of a client by a function of yours, [`Request`] makes the answers, and [`Dump`] those
//! in several messages. The answers are the proved library's; `docs/SIMULATOR.md` says what a router returns of them.
//!
//! ```
//! use neli::consts::nl::NlmF;
//! use neli::consts::rtnl::{RtAddrFamily, Rtm};
//! use neli::nl::NlPayload;
//! use neli::router::synchronous::{NlRouter, Verdict};
//! use neli::rtnl::{Ifinfomsg, IfinfomsgBuilder};
//! use neli::simulator::{Kernel, Request};
//!
//! # fn main() -> Result<(), Box<dyn std::error::Error>> {
//! // Two links, of which the table changed while the second was listed; all else is refused, by EOPNOTSUPP.
//! let kernel = Kernel::new(7, |request: &Request<'_>| {
//!     if !request.wants_routing_dump() {
//!         return Ok(vec![request.capped_error(-95, &())?]);
//!     }
//!     let mut dump = request.dump(8192)?;
//!     dump.push(Rtm::Newlink, NlmF::empty(), &[0u8; 16])?;
//!     dump.push(Rtm::Newlink, NlmF::DUMP_INTR, &[0u8; 16])?;
//!     dump.finish(NlmF::empty(), 0, &())
//! });
//!
//! let (router, _multicast) = NlRouter::over(kernel)?;
//! let all = IfinfomsgBuilder::default().ifi_family(RtAddrFamily::Unspecified).build()?;
//! let mut links = router.send::<_, _, Rtm, Ifinfomsg>(Rtm::Getlink, NlmF::DUMP, NlPayload::Payload(all))?;
//! let mut count = 0;
//! for link in links.by_ref() {
//!     count += usize::from(link?.get_payload().is_some());
//! }
//! assert_eq!(count, 2);
//! assert_eq!(links.verdict(), Verdict::Interrupted); // the client would ask again
//! # Ok(())
//! # }
//! ```

use crate::consts::nl::NlmF;
use crate::err::{DeError, SerError, SocketError, done, refused};
use crate::errno::Errno;
use crate::ffi::{self, kernel};
use crate::link::{Arrived, Link};
use crate::nl::NlType;
use crate::{FromBytes, ToBytes};
use std::collections::VecDeque;
use std::fmt;
use std::io;
use std::sync::{Mutex, MutexGuard, PoisonError};

/// The bytes that a call writes: it is made again where they had no room.
fn made(call: impl Fn(&mut [u8], &mut usize) -> i32) -> Result<Vec<u8>, SerError> {
    let mut out = vec![0; 256];
    let mut length = 0;
    loop {
        match call(&mut out, &mut length) {
            ffi::END => {
                out.truncate(length);
                return Ok(out);
            }
            ffi::ROOM => out.resize(length, 0),
            code => return Err(refused(code).into()),
        }
    }
}

fn bytes_of(value: &impl ToBytes) -> Result<Vec<u8>, SerError> {
    let mut out = Vec::new();
    value.to_bytes(&mut out)?;
    Ok(out)
}

/// A request as a kernel takes it: who sent it, its header, and its payload.
///
/// The attributes of an extended acknowledgement are a [`GenlBuffer`](crate::types::GenlBuffer), or `&()` for none. The
/// code of an error is below 0, as -22 for `EINVAL`. Each answer is refused as [`SerError::Refused`] where its length
/// passes 32 bits, where `ext_ack` or the body can't be written, where `ext_ack` is no list of attributes, and where
/// memory runs out.
#[derive(Clone, Copy, Debug)]
pub struct Request<'b> {
    sent: &'b [u8],
    raw: kernel::Request,
}

impl<'b> Request<'b> {
    /// The port of the socket that sent it, to which answers go. That in its header may differ.
    pub fn port(&self) -> u32 {
        self.raw.port
    }

    /// Its type.
    pub fn nl_type<T: NlType>(&self) -> T {
        T::from(self.raw.message.kind)
    }

    /// Its flags.
    pub fn nl_flags(&self) -> NlmF {
        NlmF::from_bits_retain(self.raw.message.flags)
    }

    /// Its sequence number, which each answer has.
    pub fn nl_seq(&self) -> u32 {
        self.raw.message.number
    }

    /// Its payload.
    pub fn payload(&self) -> &'b [u8] {
        let at = self.raw.message.payload;
        self.sent.get(at..at + self.raw.message.payload_length).unwrap_or_default()
    }

    /// Its payload as a body. Refused as [`FromBytes::from_bytes`] refuses it.
    pub fn body<P: FromBytes>(&self) -> Result<P, DeError> {
        P::from_bytes(self.payload())
    }

    /// Whether a kernel acts on it: the flag REQUEST is set, and the type is 16 or more.
    pub fn is_handled(&self) -> bool {
        self.raw.is_handled != 0
    }

    /// Whether the flag ACK is set.
    pub fn wants_acknowledgement(&self) -> bool {
        self.raw.wants_acknowledgement != 0
    }

    /// Whether both bits of DUMP are set, as generic netlink reads them.
    pub fn wants_dump(&self) -> bool {
        self.raw.wants_dump != 0
    }

    /// Whether it is for a dump as routing netlink reads it: the type is 2 modulo 4, and a bit of DUMP is set.
    pub fn wants_routing_dump(&self) -> bool {
        self.raw.wants_routing_dump != 0
    }

    /// Whether the flag ECHO is set.
    pub fn wants_echo(&self) -> bool {
        self.raw.wants_echo != 0
    }

    /// The acknowledgement: code 0, and the request's header. Refused as each answer is.
    pub fn acknowledgement(&self, ext_ack: &impl ToBytes) -> Result<Vec<u8>, SerError> {
        let list = bytes_of(ext_ack)?;
        made(|out, length| kernel::ack(&self.raw, &list, out, length))
    }

    /// The error with this code and the request's header alone, as for a socket with `NETLINK_CAP_ACK`. Refused as each
    /// answer is.
    pub fn capped_error(&self, code: i32, ext_ack: &impl ToBytes) -> Result<Vec<u8>, SerError> {
        let list = bytes_of(ext_ack)?;
        made(|out, length| kernel::capped_error(&self.raw, code, &list, out, length))
    }

    /// The error with this code and the request whole. Refused as each answer is.
    pub fn error(&self, code: i32, ext_ack: &impl ToBytes) -> Result<Vec<u8>, SerError> {
        let list = bytes_of(ext_ack)?;
        made(|out, length| kernel::error(self.sent, &self.raw, code, &list, out, length))
    }

    /// One reply. Refused as each answer is.
    pub fn reply<T: NlType>(&self, nl_type: T, flags: NlmF, body: &impl ToBytes) -> Result<Vec<u8>, SerError> {
        let body = bytes_of(body)?;
        let head = head_of(nl_type, flags, 0, 0);
        made(|out, length| kernel::reply(&self.raw, &head, &body, out, length))
    }

    /// An answer in several messages, in datagrams of at most `limit` bytes. Refused only if memory runs out.
    pub fn dump(&self, limit: usize) -> Result<Dump, SerError> {
        Ok(Dump(kernel::Dump::new(&self.raw, limit).map_err(refused)?))
    }
}

fn head_of<T: NlType>(nl_type: T, flags: NlmF, number: u32, port: u32) -> ffi::Message {
    ffi::Message { kind: nl_type.into(), flags: flags.bits(), number, port, ..ffi::Message::default() }
}

/// What groups get: number and port are those of the request that caused it, or 0. Refused as each answer of a
/// [`Request`] is.
pub fn notification<T: NlType>(
    nl_type: T,
    flags: NlmF,
    number: u32,
    port: u32,
    body: &impl ToBytes,
) -> Result<Vec<u8>, SerError> {
    let body = bytes_of(body)?;
    let head = head_of(nl_type, flags, number, port);
    made(|out, length| kernel::notification(&head, &body, out, length))
}

/// An answer in several messages. One goes behind the last one where the limit allows, and else begins the next
/// datagram; one that alone is longer than the limit is refused. A refusal leaves the dump as it was.
#[derive(Debug)]
#[must_use = "a dump is handed out by `finish`"]
pub struct Dump(kernel::Dump);

impl Dump {
    /// One message more, with these flags, as DUMP_INTR, and MULTI. Refused as [`SerError::Refused`] where it is too
    /// long, where the body can't be written, and where memory runs out.
    pub fn push<T: NlType>(&mut self, nl_type: T, flags: NlmF, body: &impl ToBytes) -> Result<(), SerError> {
        Ok(done(self.0.push(nl_type.into(), flags.bits(), &bytes_of(body)?))?)
    }

    /// One message more, with these flags alone: some families, as `netdev`, leave MULTI out. Refused as
    /// [`push`](Dump::push) is.
    pub fn push_reply<T: NlType>(&mut self, nl_type: T, flags: NlmF, body: &impl ToBytes) -> Result<(), SerError> {
        Ok(done(self.0.push_reply(nl_type.into(), flags.bits(), &bytes_of(body)?))?)
    }

    /// Has the next message begin a datagram. Refused only if memory runs out.
    pub fn begin_datagram(&mut self) -> Result<(), SerError> {
        Ok(done(self.0.begin_datagram())?)
    }

    /// The datagrams, with the end as the last message: its code is 0, or below where the dump failed. Refused as
    /// [`push`](Dump::push) is, and where `ext_ack` is no list of attributes.
    pub fn finish(mut self, flags: NlmF, code: i32, ext_ack: &impl ToBytes) -> Result<Vec<Vec<u8>>, SerError> {
        done(self.0.finish(flags.bits(), code, &bytes_of(ext_ack)?))?;
        let mut datagrams = Vec::new();
        let (mut out, mut length) = (vec![0; 8192], 0);
        loop {
            match self.0.next(&mut out, &mut length) {
                ffi::ITEM => datagrams.push(out.get(..length).unwrap_or_default().to_vec()),
                ffi::ROOM => out.resize(length, 0),
                ffi::END => return Ok(datagrams),
                code => return Err(refused(code).into()),
            }
        }
    }
}

/// The requests of a datagram that a socket of this port sent.
#[derive(Clone, Debug)]
pub struct Requests<'b> {
    sent: &'b [u8],
    walk: ffi::Walk,
    port: u32,
}

/// The requests of a datagram that a socket of this port sent, in order. Bytes that are no message end them, with why.
pub fn requests(sent: &[u8], port: u32) -> Requests<'_> {
    Requests { sent, walk: ffi::Walk { place: 0, end: sent.len() }, port }
}

impl<'b> Iterator for Requests<'b> {
    type Item = Result<Request<'b>, DeError>;

    fn next(&mut self) -> Option<Self::Item> {
        let mut raw = kernel::Request::default();
        match kernel::next_request(self.sent, &mut self.walk, self.port, &mut raw) {
            ffi::ITEM => Some(Ok(Request { sent: self.sent, raw })),
            ffi::END => None,
            code => {
                self.walk.place = self.walk.end;
                Some(Err(refused(code).into()))
            }
        }
    }
}

/// A datagram of a kernel, and the multicast group that it came to, or 0.
#[derive(Clone, Debug, PartialEq, Eq)]
pub struct Datagram {
    /// The group, or 0.
    pub group: u32,
    /// Its bytes.
    pub bytes: Vec<u8>,
}

/// A kernel that serves the requests of one socket by a function of yours, which gives the datagrams of each answer. It
/// keeps them until they are received, and may be shared by threads. Trouble of a link is made by
/// [`fault`](Kernel::fault), and by datagrams that the function leaves out, cuts or gives twice.
pub struct Kernel<F> {
    port: u32,
    inner: Mutex<Inner<F>>,
}

struct Inner<F> {
    serve: F,
    waiting: VecDeque<Came>,
}

/// What is received next: a datagram, or the number of a fault.
type Came = Result<Datagram, Errno>;

impl<F> fmt::Debug for Kernel<F> {
    fn fmt(&self, f: &mut fmt::Formatter<'_>) -> fmt::Result {
        f.debug_struct("Kernel")
            .field("port", &self.port)
            .field("waiting", &self.inner().waiting)
            .finish_non_exhaustive()
    }
}

impl<F> Kernel<F> {
    fn inner(&self) -> MutexGuard<'_, Inner<F>> {
        self.inner.lock().unwrap_or_else(PoisonError::into_inner)
    }

    /// The port of the socket.
    pub fn port(&self) -> u32 {
        self.port
    }

    /// The next datagram, past faults; none where nothing waits.
    pub fn receive(&self) -> Option<Datagram> {
        std::iter::from_fn(|| self.inner().waiting.pop_front()).find_map(Came::ok)
    }

    /// Has a datagram come to a group, as [`notification`] makes one.
    pub fn notify(&self, group: u32, bytes: Vec<u8>) {
        self.inner().waiting.push_back(Ok(Datagram { group, bytes }));
    }

    /// Has a receive of the socket fail once, behind what waits, as by `ENOBUFS` (105) where its buffer ran over.
    pub fn fault(&self, number: impl Into<Errno>) {
        self.inner().waiting.push_back(Err(number.into()));
    }

    /// Drops what waits, as where the buffer has run over.
    pub fn lose(&self) {
        self.inner().waiting.clear();
    }
}

impl<F: FnMut(&Request<'_>) -> Result<Vec<Vec<u8>>, SerError>> Kernel<F> {
    /// A kernel for the socket of this port.
    pub fn new(port: u32, serve: F) -> Self {
        Kernel { port, inner: Mutex::new(Inner { serve, waiting: VecDeque::new() }) }
    }

    /// Serves each request of a datagram that the socket sent, in order. Refused as [`SocketError::De`] at bytes that
    /// are no message, and as [`SocketError::Ser`] where the function refuses; the requests before are served then.
    pub fn send(&self, sent: &[u8]) -> Result<(), SocketError> {
        let mut inner = self.inner();
        for request in requests(sent, self.port) {
            let answers = (inner.serve)(&request?)?;
            inner.waiting.extend(answers.into_iter().map(|bytes| Ok(Datagram { group: 0, bytes })));
        }
        Ok(())
    }
}

/// A router over it is a client's, in a test: [`NlRouter::over`](crate::router::synchronous::NlRouter::over).
impl<F: FnMut(&Request<'_>) -> Result<Vec<Vec<u8>>, SerError> + Send> Link for Kernel<F> {
    fn port(&self) -> u32 {
        self.port
    }

    fn send(&self, datagram: &[u8]) -> Result<(), SocketError> {
        Kernel::send(self, datagram)
    }

    fn receive(&self, room: &mut Vec<u8>) -> Result<Option<Arrived>, SocketError> {
        match self.inner().waiting.pop_front() {
            Some(Err(it)) => Err(io::Error::from_raw_os_error(it.number()).into()),
            came => Ok(came.and_then(Came::ok).map(|it| Arrived::into_room(room, &it.bytes, it.group))),
        }
    }
}
