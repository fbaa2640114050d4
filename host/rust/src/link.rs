//! What a router sends through: a socket, or what stands in for one.
//!
//! A client whose router is over a [`Recording`](crate::recording::Recording) runs in a test with no kernel, no
//! namespace and no privilege; over a [`Recorder`](crate::recording::Recorder) it keeps what passes, for such a test. A
//! link of your own has three methods:
//!
//! ```
//! use neli::consts::nl::{NlmF, Nlmsg};
//! use neli::err::SocketError;
//! use neli::link::{Arrived, Link};
//! use neli::nl::NlPayload;
//! use neli::router::synchronous::{NlRouter, Verdict};
//! use neli::types::Buffer;
//! use std::sync::Mutex;
//!
//! /// Acknowledges each request: error 0, and the header that it answers.
//! #[derive(Debug, Default)]
//! struct Agrees(Mutex<Vec<Vec<u8>>>);
//!
//! impl Link for Agrees {
//!     fn port(&self) -> u32 {
//!         7
//!     }
//!
//!     fn send(&self, datagram: &[u8]) -> Result<(), SocketError> {
//!         let answer = [&36u32.to_ne_bytes()[..], &[2, 0, 0, 0], &datagram[8..16], &[0; 4], &datagram[..16]];
//!         self.0.lock().map_err(|_| SocketError::Ended)?.push(answer.concat());
//!         Ok(())
//!     }
//!
//!     fn receive(&self, room: &mut Vec<u8>) -> Result<Option<Arrived>, SocketError> {
//!         let next = self.0.lock().map_err(|_| SocketError::Ended)?.pop();
//!         Ok(next.map(|datagram| Arrived::into_room(room, &datagram, 0)))
//!     }
//! }
//!
//! # fn main() -> Result<(), Box<dyn std::error::Error>> {
//! let (router, _multicast) = NlRouter::over(Agrees::default())?;
//! let mut replies = router.send::<_, Buffer, u16, Buffer>(Nlmsg::Noop, NlmF::ACK, NlPayload::Empty)?;
//! assert_eq!(replies.by_ref().count(), 1);
//! assert_eq!(replies.verdict(), Verdict::Complete);
//! # Ok(())
//! # }
//! ```

use crate::consts::socket::NlFamily;
use crate::err::SocketError;
use crate::utils::NetlinkBitArray;
use std::fmt;
use std::sync::Arc;
use std::time::Duration;

/// A datagram that a link has put into a room.
#[derive(Clone, Copy, Debug, PartialEq, Eq)]
#[must_use]
pub struct Arrived {
    /// How many bytes it has: the first ones of the room.
    pub length: usize,
    /// The multicast group that it came to, or 0.
    pub group: u32,
}

impl Arrived {
    /// Puts a datagram into the room, in place of what that held.
    pub fn into_room(room: &mut Vec<u8>, datagram: &[u8], group: u32) -> Self {
        room.clear();
        room.extend_from_slice(datagram);
        Arrived { length: datagram.len(), group }
    }
}

/// An option of a link, by its name in `linux/netlink.h`.
#[derive(Clone, Copy, Debug, PartialEq, Eq, Hash)]
#[non_exhaustive]
pub enum LinkOption {
    /// `NETLINK_EXT_ACK`: the kernel says in words why it refuses, and where.
    ExtAck,
    /// `NETLINK_GET_STRICT_CHK`: the kernel refuses a dump's request with fields that it does not use.
    StrictChecking,
}

/// A way to the kernel, or to what stands in for it: datagrams go out, and datagrams come in.
///
/// A router calls it from several threads. Without methods beside the first three it is a link on which nothing comes
/// by itself: a wait for more ends at once, as [`SocketError::Ended`].
pub trait Link: fmt::Debug + Send + Sync {
    /// The port that replies come to.
    fn port(&self) -> u32;

    /// Sends a datagram of one or more requests. Where it is refused, a router takes these as not sent; but as
    /// `WouldBlock`, it sends the datagram again later. A router calls it while it receives. A socket refuses as
    /// [`SocketError::Io`], a [`Recording`](crate::recording::Recording) as [`SocketError::Unrecorded`], and a
    /// simulated kernel as [`SocketError::De`] or [`SocketError::Ser`].
    fn send(&self, datagram: &[u8]) -> Result<(), SocketError>;

    /// The next datagram of the kernel, at the front of `room`, which may be longer; none where nothing is there. It
    /// does not wait. A fault is reported once, in its place; what comes after it is given as before.
    ///
    /// The kernel answers while a request is sent. So a router takes none as the end of what answers the requests that
    /// it has sent, but where [`answers_later`](Link::answers_later) says otherwise.
    ///
    /// A fault is refused as [`SocketError::Io`] with the system's number, or as [`SocketError::Truncated`]: a router
    /// gives it to each open request and to listeners. Any other refusal ends only the router's call.
    fn receive(&self, room: &mut Vec<u8>) -> Result<Option<Arrived>, SocketError>;

    /// Waits until there may be something to be received, or [`wake`](Link::wake) was called, for this time at most, or
    /// without end. Refused as `WouldBlock` where the time is over, and as [`SocketError::Ended`] where nothing more
    /// can come.
    fn wait(&self, limit: Option<Duration>) -> Result<(), SocketError> {
        let _nothing_comes = limit;
        Err(SocketError::Ended)
    }

    /// Whether answers may still come after [`receive`](Link::receive) returned none, as over a tunnel. A request then
    /// waits until its answer has ended.
    fn answers_later(&self) -> bool {
        false
    }

    /// Ends the wait that is under way, or else the next one.
    fn wake(&self) {}

    /// Ends every wait that is under way, and each later one, with the system's `ECANCELED`.
    fn stop(&self) {}

    /// How long a call of the router waits in all; without end for none.
    fn limit(&self) -> Option<Duration> {
        None
    }

    /// The family of netlink that it leads to, by which a router knows how the kernel answers a request.
    fn family(&self) -> NlFamily {
        NlFamily::Route
    }

    /// Joins a multicast group, or leaves it. Refused as [`SocketError::Io`] if the system refuses; by default never.
    fn set_membership(&self, group: u32, is_member: bool) -> Result<(), SocketError> {
        let _every_group_comes = (group, is_member);
        Ok(())
    }

    /// The groups that it is in. Refused as [`SocketError::Io`] if the system refuses; by default never.
    fn memberships(&self) -> Result<NetlinkBitArray, SocketError> {
        Ok(NetlinkBitArray::default())
    }

    /// Sets an option. Refused as [`SocketError::Io`] if the system refuses; by default never.
    fn set_option(&self, option: LinkOption, enable: bool) -> Result<(), SocketError> {
        let _unknown = (option, enable);
        Ok(())
    }

    /// Whether an option is set. Refused as [`SocketError::Io`] if the system refuses; by default never.
    fn option(&self, option: LinkOption) -> Result<bool, SocketError> {
        let _unknown = option;
        Ok(false)
    }
}

/// A pointer to a link is that link.
macro_rules! pointers {
    ($($pointer:ident),*) => {
        $(impl<L: Link + ?Sized> Link for $pointer<L> {
            fn port(&self) -> u32 {
                (**self).port()
            }

            fn send(&self, datagram: &[u8]) -> Result<(), SocketError> {
                (**self).send(datagram)
            }

            fn receive(&self, room: &mut Vec<u8>) -> Result<Option<Arrived>, SocketError> {
                (**self).receive(room)
            }

            fn wait(&self, limit: Option<Duration>) -> Result<(), SocketError> {
                (**self).wait(limit)
            }

            fn answers_later(&self) -> bool {
                (**self).answers_later()
            }

            fn wake(&self) {
                (**self).wake();
            }

            fn stop(&self) {
                (**self).stop();
            }

            fn limit(&self) -> Option<Duration> {
                (**self).limit()
            }

            fn family(&self) -> NlFamily {
                (**self).family()
            }

            fn set_membership(&self, group: u32, is_member: bool) -> Result<(), SocketError> {
                (**self).set_membership(group, is_member)
            }

            fn memberships(&self) -> Result<NetlinkBitArray, SocketError> {
                (**self).memberships()
            }

            fn set_option(&self, option: LinkOption, enable: bool) -> Result<(), SocketError> {
                (**self).set_option(option, enable)
            }

            fn option(&self, option: LinkOption) -> Result<bool, SocketError> {
                (**self).option(option)
            }
        })*
    };
}

pointers!(Arc, Box);
