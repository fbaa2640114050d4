//! What a router says beside messages: the verdict on an answer, and what the next read of multicast is.

use super::shared::{Read, Result};
use crate::FromBytes;
use crate::err::{RouterError, SocketError};
use crate::ffi;
use crate::nl::{NlType, Nlmsghdr};
use crate::socket::synchronous::is_end_of_wait;
use crate::types::Buffer;

/// The error by which a socket says that its buffer ran over.
const ENOBUFS: i32 = 105;

/// The verdict on an answer. All but [`Verdict::Pending`] are final.
#[derive(Clone, Copy, Debug, PartialEq, Eq)]
pub enum Verdict {
    /// It has not ended yet, and no message of it is marked as interrupted.
    Pending,
    /// It has ended well: the reads returned all of it.
    Complete,
    /// A message of it, its end included, has the flag `NLM_F_DUMP_INTR`: the listed objects changed meanwhile, so
    /// entries may be missing or repeated. Request it again.
    Interrupted,
    /// The kernel answered with an error, or ended a dump with one: the code, as -19 for `ENODEV`.
    Failed(i32),
    /// It did not come to its end.
    Lost(Loss),
}

/// What ended an answer before its end. The routers of this crate give no `Stray`, `NoAck` or `UnexpectedAck`: what no
/// request has is set aside, and an answer ends as the kernel ends it.
#[derive(Clone, Copy, Debug, PartialEq, Eq)]
pub enum Loss {
    /// The socket failed, as where its buffer ran over, or did not send the request.
    Link,
    /// A datagram could not be read to its end.
    Datagram,
    /// A message arrived with a sequence number or a port that no request has.
    Stray,
    /// A message could not be read as the caller's types. It was returned as an error, and later ones were returned.
    Unreadable,
    /// Something else arrived in place of the acknowledgement.
    NoAck,
    /// An acknowledgement arrived that was not requested.
    UnexpectedAck,
    /// The link was seen empty before its end: nothing more comes.
    Unended,
    /// The handle is not open.
    Closed,
}

impl Verdict {
    /// That of the library, by its code and what stands beside it.
    pub(super) fn of((code, beside): (i32, ffi::Verdict)) -> Self {
        match code {
            ffi::END => Verdict::Complete,
            ffi::WAITS => Verdict::Pending,
            ffi::INTERRUPTED => Verdict::Interrupted,
            ffi::KERNEL_ERROR => Verdict::Failed(beside.error),
            ffi::LINK => Verdict::Lost(Loss::Link),
            ffi::UNENDED => Verdict::Lost(Loss::Unended),
            ffi::HANDLE => Verdict::Lost(Loss::Closed),
            _ => Verdict::Lost(Loss::Datagram),
        }
    }

    /// Whether the list may be complete when it is requested again.
    pub(super) fn is_passing(self) -> bool {
        match self {
            Verdict::Failed(code) => ffi::is_passing(ffi::KERNEL_ERROR, code),
            Verdict::Interrupted => ffi::is_passing(ffi::INTERRUPTED, 0),
            Verdict::Lost(Loss::Link) => ffi::is_passing(ffi::LINK, ENOBUFS),
            _ => false,
        }
    }
}

/// A requested list, and whether it is complete.
#[derive(Debug)]
pub struct Dump<T, P> {
    /// Its messages, in order, without the end.
    pub messages: Vec<Nlmsghdr<T, P>>,
    /// Whether they are all.
    pub verdict: Verdict,
    /// Whether the kernel filtered as requested, by the flag `NLM_F_DUMP_FILTERED`. A kernel that cannot filter lists
    /// everything.
    pub is_filtered: bool,
    /// The first error among the replies: why the kernel refuses, in its words, or what was lost.
    pub error: Option<RouterError>,
}

impl<T, P> Dump<T, P> {
    /// Its messages, if it is complete, or why it is not.
    pub(super) fn into_messages(self) -> Result<Vec<Nlmsghdr<T, P>>> {
        let why = match self.verdict {
            Verdict::Complete => return Ok(self.messages),
            Verdict::Interrupted => "what was listed changed meanwhile",
            _ => "the list has no end",
        };
        Err(self.error.unwrap_or_else(|| RouterError::new(why)))
    }
}

/// A notice from multicast.
#[derive(Debug)]
pub enum Notice<T, P> {
    /// The next message.
    Message(Nlmsghdr<T, P>),
    /// The next message, which cannot be read as the caller's types: as it arrived, with its type's number and its
    /// body's bytes; or why it cannot be read at all.
    Untyped(Result<Nlmsghdr<u16, Buffer>>),
    /// Messages were lost at this place.
    Missed(Missed),
}

/// Why messages to groups were lost.
#[derive(Debug)]
pub enum Missed {
    /// The socket's buffer ran over (`ENOBUFS`).
    Overrun,
    /// Another fault of the socket, or a datagram that was longer than its room.
    Fault(SocketError),
}

impl<T: NlType, P: FromBytes> Notice<T, P> {
    /// That of a read of multicast, if it is over.
    pub(super) fn of_read(read: Read) -> Result<Self> {
        match read {
            Ok(Some((head, payload))) => Ok(match Nlmsghdr::of_message(&payload, &head) {
                Ok(message) => Notice::Message(message),
                Err(_) => Notice::Untyped(Nlmsghdr::of_message(&payload, &head).map_err(RouterError::De)),
            }),
            Ok(None) => Err(RouterError::ClosedChannel),
            Err(error @ RouterError::De(_)) => Ok(Notice::Untyped(Err(error))),
            Err(RouterError::Socket(it)) if it.raw_os_error() == Some(ENOBUFS) => Ok(Notice::Missed(Missed::Overrun)),
            Err(RouterError::Socket(it)) if !is_end_of_wait(&it) => Ok(Notice::Missed(Missed::Fault(it))),
            Err(error) => Err(error),
        }
    }
}
