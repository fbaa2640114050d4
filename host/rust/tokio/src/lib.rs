//! Netlink for [tokio](https://docs.rs/tokio): the routers of the crate `neli-host`, whose replies are streams.
//!
//! An [`AsyncRouter`] sends without waiting, and its [`Replies`] are a [`Stream`] that any number of tasks may read, each
//! its own. No thread is started: a task that is polled takes in what has arrived, for all of them. Every wait ends when
//! its future is dropped, and loses nothing; replies that are dropped give their request up, and what still comes for it
//! is not kept.
//!
//! ```no_run
//! use neli::consts::nl::NlmF;
//! use neli::consts::rtnl::{Ifla, RtAddrFamily, Rtm};
//! use neli::consts::socket::NlFamily;
//! use neli::nl::NlPayload;
//! use neli::router::synchronous::Verdict;
//! use neli::rtnl::{Ifinfomsg, IfinfomsgBuilder};
//! use neli::utils::Groups;
//! use neli_tokio::AsyncRouter;
//!
//! # #[tokio::main]
//! # async fn main() -> Result<(), Box<dyn std::error::Error>> {
//! let (router, _multicast) = AsyncRouter::connect(NlFamily::Route, None, Groups::empty())?;
//! let all = NlPayload::Payload(IfinfomsgBuilder::default().ifi_family(RtAddrFamily::Unspecified).build()?);
//! let mut links = router.send::<_, _, Rtm, Ifinfomsg>(Rtm::Getlink, NlmF::DUMP, all)?;
//! while let Some(link) = links.next().await {
//!     if let Some(body) = link?.get_payload() {
//!         println!("{}", body.rtattrs().get_attr_handle().get_attr_payload_as_with_len::<String>(Ifla::Ifname)?);
//!     }
//! }
//! assert_eq!(links.verdict(), Verdict::Complete);
//! # Ok(())
//! # }
//! ```
#![deny(unsafe_code, missing_docs)]

use futures_core::Stream;
use neli::consts::nl::NlmF;
use neli::consts::socket::NlFamily;
use neli::err::RouterError;
use neli::link::Link;
use neli::nl::{NlPayload, NlType, Nlmsghdr};
use neli::router::synchronous::{NlRouter, NlRouterReceiverHandle, Notice, Verdict};
use neli::socket::synchronous::NlSocketHandle;
use neli::types::Buffer;
use neli::utils::Groups;
use neli::{FromBytes, ToBytes};
use std::fmt;
use std::future::poll_fn;
use std::os::fd::{AsFd, OwnedFd};
use std::pin::Pin;
use std::sync::Arc;
use std::task::{Context, Poll, Wake, Waker};
use tokio::io::unix::AsyncFd;

/// A message as these types, or an error in its place.
pub type Reply<T, P> = Result<Nlmsghdr<T, P>, RouterError>;

/// What tokio watches: the link's descriptor, and whom it wakes once that is readable.
#[derive(Debug)]
struct Source {
    fd: AsyncFd<OwnedFd>,
    tasks: Waker,
}

/// Wakes the tasks of a router.
struct Tasks<L>(NlRouter<L>);

impl<L: Link + 'static> Wake for Tasks<L> {
    fn wake(self: Arc<Self>) {
        self.0.wake_tasks();
    }
}

impl Source {
    /// Waits at the descriptor, until `look` finds something.
    fn poll<R>(&self, context: &mut Context<'_>, mut look: impl FnMut(&mut Context<'_>) -> Poll<R>) -> Poll<R> {
        let mut tasks = Context::from_waker(&self.tasks);
        loop {
            // A task that finds nothing is known to the router, so that each of them is woken once tokio wakes the tasks.
            if let Poll::Ready(found) = look(context) {
                return Poll::Ready(found);
            }
            match self.fd.poll_read_ready(&mut tasks) {
                Poll::Ready(Ok(mut ready)) => ready.clear_ready(),
                // The reactor has ended, and no task is woken any more.
                Poll::Ready(Err(_)) | Poll::Pending => return Poll::Pending,
            }
        }
    }
}

/// A router over a link of its own, by default a socket, whose replies are streams.
#[derive(Clone)]
pub struct AsyncRouter<L = NlSocketHandle> {
    router: NlRouter<L>,
    source: Option<Arc<Source>>,
}

impl<L: fmt::Debug> fmt::Debug for AsyncRouter<L> {
    fn fmt(&self, f: &mut fmt::Formatter<'_>) -> fmt::Result {
        f.debug_struct("AsyncRouter").field("router", &self.router).finish_non_exhaustive()
    }
}

impl AsyncRouter {
    /// A router over a new socket in these groups, and the replies of multicast. Refused as [`NlRouter::connect`] is,
    /// and as [`RouterError::Socket`] if tokio can't watch the socket. It panics outside a runtime of tokio.
    pub fn connect(
        family: NlFamily,
        port: Option<u32>,
        groups: Groups,
    ) -> Result<(Self, Replies<u16, Buffer>), RouterError> {
        Self::over(NlSocketHandle::connect(family, port, groups)?)
    }
}

impl<L: Link + AsFd + 'static> AsyncRouter<L> {
    /// A router over a link with a descriptor, from which nothing else may receive, and the replies of multicast.
    /// Refused as [`NlRouter::over`] is, and as [`RouterError::Socket`] if tokio can't watch the descriptor. It panics
    /// outside a runtime of tokio.
    pub fn over(link: L) -> Result<(Self, Replies<u16, Buffer>), RouterError> {
        let fd = link.as_fd().try_clone_to_owned()?;
        let (router, multicast) = NlRouter::over(link)?;
        let tasks = Waker::from(Arc::new(Tasks(router.clone())));
        let source = Some(Arc::new(Source { fd: AsyncFd::new(fd)?, tasks }));
        Ok((AsyncRouter { router, source: source.clone() }, Replies { handle: multicast, source }))
    }
}

impl<L: Link + 'static> AsyncRouter<L> {
    /// A router over a link without a descriptor, on which nothing comes by itself, as a
    /// [`Kernel`](neli::simulator::Kernel) or a [`Recording`](neli::recording::Recording), for tests; and the replies of
    /// multicast. A wait for more ends as the link says. Refused as [`NlRouter::over`] is.
    pub fn over_simulated(link: L) -> Result<(Self, Replies<u16, Buffer>), RouterError> {
        let (router, handle) = NlRouter::over(link)?;
        Ok((AsyncRouter { router, source: None }, Replies { handle, source: None }))
    }

    /// The router, for what does not wait: groups, options, the next sequence number.
    pub fn router(&self) -> &NlRouter<L> {
        &self.router
    }

    /// Sends a request, and returns its replies. It does not wait; refused as [`NlRouter::send`] is.
    pub fn send<ST: NlType, SP: ToBytes, RT, RP>(
        &self,
        nl_type: ST,
        nl_flags: NlmF,
        nl_payload: NlPayload<ST, SP>,
    ) -> Result<Replies<RT, RP>, RouterError> {
        Ok(self.replies(self.router.send(nl_type, nl_flags, nl_payload)?))
    }

    /// Sends requests as one datagram, and returns the replies of each. It does not wait; refused as
    /// [`NlRouter::send_all`] is.
    pub fn send_all<ST: NlType, SP: ToBytes, RT, RP>(
        &self,
        requests: impl IntoIterator<Item = (ST, NlmF, NlPayload<ST, SP>)>,
    ) -> Result<Vec<Replies<RT, RP>>, RouterError> {
        Ok(self.router.send_all(requests)?.into_iter().map(|it| self.replies(it)).collect())
    }

    /// The messages that the kernel sends without a request. Refused as [`NlRouter::unasked`] is.
    pub fn unasked(&self) -> Result<Replies<u16, Buffer>, RouterError> {
        Ok(self.replies(self.router.unasked()?))
    }

    fn replies<T, P>(&self, handle: NlRouterReceiverHandle<T, P>) -> Replies<T, P> {
        Replies { handle, source: self.source.clone() }
    }
}

/// The replies to one request, multicast, or messages without a request: a stream up to the last one. One task reads it
/// at a time.
#[derive(Debug)]
pub struct Replies<T, P> {
    handle: NlRouterReceiverHandle<T, P>,
    source: Option<Arc<Source>>,
}

impl<T: NlType, P: FromBytes> Replies<T, P> {
    /// The next reply; none after the last. Otherwise as
    /// [`next_typed`](NlRouterReceiverHandle::next_typed).
    pub async fn next(&mut self) -> Option<Reply<T, P>> {
        poll_fn(|context| Pin::new(&mut *self).poll_next(context)).await
    }
}

impl<T, P> Replies<T, P> {
    /// The next notice from multicast, as [`listen`](NlRouterReceiverHandle::listen) returns it.
    pub async fn listen<TT: NlType, PP: FromBytes>(&mut self) -> Result<Notice<TT, PP>, RouterError> {
        let Replies { handle, source } = self;
        let Some(source) = source else { return handle.listen() };
        poll_fn(|context| source.poll(context, |context| handle.poll_listen(context))).await
    }

    /// The verdict on the answer, by the replies that were returned: whether they are all.
    pub fn verdict(&self) -> Verdict {
        self.handle.verdict()
    }

    /// Whether a returned message states that the kernel filtered as requested.
    pub fn is_filtered(&self) -> bool {
        self.handle.is_filtered()
    }

    /// The handle, for a thread that waits.
    pub fn into_handle(self) -> NlRouterReceiverHandle<T, P> {
        self.handle
    }
}

impl<T: NlType, P: FromBytes> Stream for Replies<T, P> {
    type Item = Reply<T, P>;

    fn poll_next(self: Pin<&mut Self>, context: &mut Context<'_>) -> Poll<Option<Self::Item>> {
        let Replies { handle, source } = self.get_mut();
        let Some(source) = source else { return Poll::Ready(handle.next()) };
        source.poll(context, |context| handle.poll_next(context))
    }
}
