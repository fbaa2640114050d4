//! Recordings: what passed over a link, to be kept in a file and to be played to a client in its tests.
//!
//! [`Recorder`] keeps what passes over another link, and [`Recording`] plays it, with the sequence numbers and the port
//! of the client that it is played to. A file is pcap with netlink's link type, as Wireshark, tcpdump and `neli_show`
//! read it; one that was recorded from `nlmon` is played too.
//!
//! ```
//! use neli::consts::socket::NlFamily;
//! use neli::recording::Recording;
//! use neli::router::synchronous::NlRouter;
//!
//! # fn main() -> Result<(), Box<dyn std::error::Error>> {
//! let file = include_bytes!("../tests/recordings/netdev.pcap");
//! let (router, _multicast) = NlRouter::over(Recording::from_pcap(file, NlFamily::Generic)?)?;
//! assert_eq!(router.list_nl_mcast_groups("netdev")?, [("mgmt".to_owned(), 4), ("page-pool".to_owned(), 5)]);
//! assert!(router.link().is_over(), "the client has sent and received all of it");
//! # Ok(())
//! # }
//! ```

mod pcap;
mod play;
mod recorder;

use crate::consts::socket::NlFamily;
use play::Play;
use std::sync::Mutex;
use std::time::{Duration, SystemTime};

pub use pcap::PcapError;
pub use recorder::Recorder;

/// A datagram of a recording, or a fault of the link.
#[derive(Clone, Debug, PartialEq, Eq)]
pub struct Frame {
    /// When it passed, from the beginning of 1970 on.
    pub time: Duration,
    /// Where it went.
    pub way: Way,
    /// Its bytes; a fault has none.
    pub bytes: Vec<u8>,
}

/// Where a datagram went.
#[derive(Clone, Copy, Debug, PartialEq, Eq)]
pub enum Way {
    /// To the kernel, from this port; 0 where the file does not state it.
    Sent(u32),
    /// From the kernel to the port.
    Received,
    /// From the kernel to a multicast group; 0 where the file does not state which.
    Group(u32),
    /// Nowhere: the link reported this number of `errno.h`, as `ENOBUFS` where its buffer ran over. A file has no
    /// faults.
    Fault(i32),
}

/// What passed over a link, in its order; as a [`Link`](crate::link::Link) it plays that.
///
/// - **A request** has to be one of the recording, byte for byte but for sequence numbers and ports; the first such
///   that was not sent yet. Another is refused as [`Unrecorded`](crate::err::Unrecorded). A recording without any
///   request takes every request, and its answers are given in their order, by their sequence numbers.
/// - **An answer** comes once its request was sent, with the sequence number and the port of that. All else comes once
///   all requests that stand before it were sent.
/// - **A wait** for more than what is there ends at once, as [`Ended`](crate::err::SocketError::Ended): what is left is
///   for requests that were not sent.
#[derive(Debug)]
pub struct Recording {
    family: NlFamily,
    frames: Vec<Frame>,
    play: Mutex<Play>,
}

impl Recording {
    /// A recording of this family of netlink, with nothing in it.
    #[must_use]
    pub fn new(family: NlFamily) -> Self {
        Recording { family, frames: Vec::new(), play: Mutex::default() }
    }

    /// With a request after what it has.
    #[must_use]
    pub fn sent(self, datagram: impl Into<Vec<u8>>) -> Self {
        self.with(Way::Sent(0), datagram.into())
    }

    /// With an answer after what it has.
    ///
    /// ```
    /// use neli::consts::nl::{NlmF, Nlmsg};
    /// use neli::consts::socket::NlFamily;
    /// use neli::nl::NlPayload;
    /// use neli::recording::Recording;
    /// use neli::router::synchronous::NlRouter;
    /// use neli::types::Buffer;
    ///
    /// # fn main() -> Result<(), Box<dyn std::error::Error>> {
    /// // The kernel refuses as ENODEV, in linux/netlink.h's `struct nlmsgerr`: -19, and the request's header.
    /// let mut answer = vec![36, 0, 0, 0, 2, 0, 0, 0, 5, 0, 0, 0, 0, 0, 0, 0, 0xed, 0xff, 0xff, 0xff];
    /// answer.extend([16, 0, 0, 0, 1, 0, 5, 0, 5, 0, 0, 0, 0, 0, 0, 0]);
    /// let (router, _multicast) = NlRouter::over(Recording::new(NlFamily::Route).received(answer))?;
    /// let mut replies = router.send::<_, Buffer, u16, Buffer>(Nlmsg::Noop, NlmF::ACK, NlPayload::Empty)?;
    /// let refusal = replies.next().and_then(Result::err).and_then(|it| it.errno());
    /// assert_eq!(refusal, Some(19));
    /// # Ok(())
    /// # }
    /// ```
    #[must_use]
    pub fn received(self, datagram: impl Into<Vec<u8>>) -> Self {
        self.with(Way::Received, datagram.into())
    }

    /// With a notification to a multicast group after what it has.
    #[must_use]
    pub fn to_group(self, group: u32, datagram: impl Into<Vec<u8>>) -> Self {
        self.with(Way::Group(group), datagram.into())
    }

    /// With a fault of the link after what it has, by its number in `errno.h`.
    #[must_use]
    pub fn fault(self, number: i32) -> Self {
        self.with(Way::Fault(number), Vec::new())
    }

    fn with(mut self, way: Way, bytes: Vec<u8>) -> Self {
        let time = self.frames.last().map_or(Duration::ZERO, |it| it.time);
        self.frames.push(Frame { time, way, bytes });
        self
    }

    /// What is in it, in its order.
    #[must_use]
    pub fn frames(&self) -> &[Frame] {
        &self.frames
    }

    /// Whether a client that it was played to has sent each request and received all else.
    #[must_use]
    pub fn is_over(&self) -> bool {
        self.play().is_over(&self.frames)
    }
}

/// The same recording, played from the beginning.
impl Clone for Recording {
    fn clone(&self) -> Self {
        let mut copy = Recording::new(self.family);
        copy.extend(self.frames.iter().cloned());
        copy
    }
}

impl Extend<Frame> for Recording {
    fn extend<I: IntoIterator<Item = Frame>>(&mut self, frames: I) {
        self.frames.extend(frames);
    }
}

impl<'r> IntoIterator for &'r Recording {
    type Item = &'r Frame;
    type IntoIter = std::slice::Iter<'r, Frame>;

    fn into_iter(self) -> Self::IntoIter {
        self.frames.iter()
    }
}

/// The time now.
fn now() -> Duration {
    SystemTime::now().duration_since(SystemTime::UNIX_EPOCH).unwrap_or_default()
}
