//! A router that lends: each item is read where the library keeps it, and no byte is copied.

use super::shared::{Result, Shared, State};
use super::verdict::Verdict;
use crate::ToBytes;
use crate::consts::nl::NlmF;
use crate::consts::socket::NlFamily;
use crate::err::RouterError;
use crate::ffi::Reader;
use crate::lent::LentMessage;
use crate::link::Link;
use crate::nl::{NlPayload, NlType};
use crate::socket::synchronous::NlSocketHandle;
use crate::utils::Groups;
use std::os::fd::{AsFd, BorrowedFd};

/// A router with one owner, over a link of its own, by default a socket.
///
/// An item borrows the router, so the compiler refuses a call while it is held: here the length has to be taken first.
///
/// ```compile_fail,E0499
/// # use neli::err::RouterError;
/// # use neli::router::lending::{LendingHandle, LendingRouter};
/// fn length(router: &mut LendingRouter, links: &LendingHandle) -> Result<usize, RouterError> {
///     let link = router.lend_next(links)?;
///     router.pass(links)?;
///     Ok(link.map_or(0, |it| it.nl_payload().len()))
/// }
/// ```
#[derive(Debug)]
pub struct LendingRouter<L = NlSocketHandle>(Shared<L>);

/// The handle of the items of one request, or of multicast, for the router that returned it. Items that still arrive for
/// one that is not closed are kept until the router is dropped.
#[derive(Debug)]
pub struct LendingHandle(Reader);

/// The descriptor of its link.
impl<L: AsFd> AsFd for LendingRouter<L> {
    fn as_fd(&self) -> BorrowedFd<'_> {
        self.0.link.as_fd()
    }
}

impl LendingRouter {
    /// A router over a new socket in these groups, and the handle of multicast. Refused as
    /// [`NlSocketHandle::connect`] is, and as `Memory`.
    pub fn connect(family: NlFamily, port: Option<u32>, groups: Groups) -> Result<(Self, LendingHandle)> {
        Self::over(NlSocketHandle::connect(family, port, groups)?)
    }
}

impl<L: Link + 'static> LendingRouter<L> {
    /// A router over a link, from which nothing else may receive, and the handle of multicast. Refused only as `Memory`.
    pub fn over(link: L) -> Result<(Self, LendingHandle)> {
        Ok((LendingRouter(Shared::over(link)?), LendingHandle(Reader::Multicast)))
    }

    /// The link.
    pub fn link(&self) -> &L {
        &self.0.link
    }

    /// Sends a request, and returns the handle of its items; as [`NlRouter::send`](super::synchronous::NlRouter::send).
    pub fn send<T: NlType, P: ToBytes>(
        &mut self,
        nl_type: T,
        nl_flags: NlmF,
        nl_payload: NlPayload<T, P>,
    ) -> Result<LendingHandle> {
        let sent = self.0.send(&[(nl_type.into(), nl_flags, nl_payload.body()?)])?;
        sent.first().map_or(Err(RouterError::ClosedChannel), |it| Ok(LendingHandle(*it)))
    }

    /// Lends the next item of a handle, until the next call of the router; none after the last. It waits until one
    /// arrives. The item stays the next one until [`pass`](LendingRouter::pass). Multicast has no last item, and an
    /// error message in it is an item.
    ///
    /// If the kernel refuses a request, or if something is lost or can't be read, that is an error in an item's place,
    /// and is passed. Refused also if the wait has ended, as `Memory`, and as `ClosedChannel` if the handle is not open.
    pub fn lend_next(&mut self, handle: &LendingHandle) -> Result<Option<LentMessage<'_>>> {
        self.0.next(handle.0, State::lend)?;
        Ok(self.0.state_mut().session.lent())
    }

    /// Goes on to a handle's next item; if none waits, nothing changes. It is never refused.
    pub fn pass(&mut self, handle: &LendingHandle) -> Result<()> {
        self.0.state_mut().session.pass(handle.0);
        Ok(())
    }

    /// The verdict on the answer to a handle's request, by the items that were passed: whether they are all. That on
    /// multicast is always `Pending`.
    pub fn verdict(&mut self, handle: &LendingHandle) -> Verdict {
        Verdict::of(self.0.state_mut().session.verdict(handle.0))
    }

    /// Closes a handle. Messages that still arrive for its request are dropped.
    pub fn close(&mut self, handle: LendingHandle) {
        self.0.state_mut().close(handle.0);
    }
}
