//! A link that keeps what passes over another one.

use super::{Frame, Recording, Way, now};
use crate::consts::socket::NlFamily;
use crate::err::SocketError;
use crate::link::{Arrived, Link, LinkOption};
use crate::utils::NetlinkBitArray;
use std::os::fd::{AsFd, BorrowedFd};
use std::sync::{Mutex, MutexGuard, PoisonError};
use std::time::Duration;

/// `EMSGSIZE` of `errno.h`, as which a datagram is kept that was longer than its room.
const CUT: i32 = 90;

/// A link that keeps what passes over another one, in its order, and refuses what that refuses.
///
/// ```
/// use neli::consts::socket::NlFamily;
/// use neli::recording::{Recorder, Recording};
/// use neli::router::synchronous::NlRouter;
///
/// # fn main() -> Result<(), Box<dyn std::error::Error>> {
/// # let file = include_bytes!("../../tests/recordings/netdev.pcap");
/// # let link = Recording::from_pcap(file, NlFamily::Generic)?;
/// // let link = NlSocketHandle::connect(NlFamily::Generic, None, Groups::empty())?;
/// let (router, _multicast) = NlRouter::over(Recorder::new(link))?;
/// assert_eq!(router.resolve_genl_family("netdev")?, 20);
/// let mut file = Vec::new();
/// router.link().recording().write_pcap(&mut file)?;
///
/// let (router, _multicast) = NlRouter::over(Recording::from_pcap(&file, NlFamily::Generic)?)?;
/// assert_eq!(router.resolve_genl_family("netdev")?, 20);
/// # Ok(())
/// # }
/// ```
#[derive(Debug)]
pub struct Recorder<L> {
    link: L,
    frames: Mutex<Vec<Frame>>,
}

impl<L: Link> Recorder<L> {
    /// One that has kept nothing yet.
    #[must_use]
    pub fn new(link: L) -> Self {
        Recorder { link, frames: Mutex::default() }
    }

    /// The link that it is over.
    pub fn link(&self) -> &L {
        &self.link
    }

    /// What has passed so far.
    #[must_use]
    pub fn recording(&self) -> Recording {
        let mut recording = Recording::new(self.family());
        recording.extend(self.frames().iter().cloned());
        recording
    }

    fn frames(&self) -> MutexGuard<'_, Vec<Frame>> {
        self.frames.lock().unwrap_or_else(PoisonError::into_inner)
    }

    fn keep(&self, way: Way, bytes: &[u8]) {
        self.frames().push(Frame { time: now(), way, bytes: bytes.to_vec() });
    }
}

/// That of the link that it is over.
impl<L: AsFd> AsFd for Recorder<L> {
    fn as_fd(&self) -> BorrowedFd<'_> {
        self.link.as_fd()
    }
}

impl<L: Link> Link for Recorder<L> {
    fn port(&self) -> u32 {
        self.link.port()
    }

    /// The request is kept before the answer can be, and not at all where it is refused.
    fn send(&self, datagram: &[u8]) -> Result<(), SocketError> {
        let mut frames = self.frames();
        let time = now();
        self.link.send(datagram)?;
        frames.push(Frame { time, way: Way::Sent(self.port()), bytes: datagram.to_vec() });
        Ok(())
    }

    fn receive(&self, room: &mut Vec<u8>) -> Result<Option<Arrived>, SocketError> {
        let received = self.link.receive(room);
        match &received {
            Ok(Some(Arrived { length, group: 0 })) => self.keep(Way::Received, &room[..*length]),
            Ok(Some(Arrived { length, group })) => self.keep(Way::Group(*group), &room[..*length]),
            Err(SocketError::Truncated { .. }) => self.keep(Way::Fault(CUT), &[]),
            Err(SocketError::Io(error)) => {
                error.raw_os_error().into_iter().for_each(|it| self.keep(Way::Fault(it), &[]));
            }
            Ok(None) | Err(_) => {}
        }
        received
    }

    fn wait(&self, limit: Option<Duration>) -> Result<(), SocketError> {
        self.link.wait(limit)
    }

    fn wake(&self) {
        self.link.wake();
    }

    fn stop(&self) {
        self.link.stop();
    }

    fn limit(&self) -> Option<Duration> {
        self.link.limit()
    }

    fn family(&self) -> NlFamily {
        self.link.family()
    }

    fn set_membership(&self, group: u32, is_member: bool) -> Result<(), SocketError> {
        self.link.set_membership(group, is_member)
    }

    fn memberships(&self) -> Result<NetlinkBitArray, SocketError> {
        self.link.memberships()
    }

    fn set_option(&self, option: LinkOption, enable: bool) -> Result<(), SocketError> {
        self.link.set_option(option, enable)
    }

    fn option(&self, option: LinkOption) -> Result<bool, SocketError> {
        self.link.option(option)
    }
}
