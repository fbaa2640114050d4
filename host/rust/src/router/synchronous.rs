//! A router whose handles wait for their messages.
//!
//! There is no thread: a read of a handle that has nothing yet receives what has arrived, for every handle. Of several
//! threads that read at a time one waits at the socket, the others until their handles have something.

use super::shared::{Read, Request, Result, Shared, State};
pub use super::verdict::{Dump, Loss, Missed, Notice, Verdict};
use crate::consts::nl::NlmF;
use crate::consts::socket::NlFamily;
use crate::err::RouterError;
use crate::ffi::Reader;
use crate::link::{Link, LinkOption};
use crate::nl::{NlPayload, NlType, Nlmsghdr};
use crate::socket::synchronous::{NlSocketHandle, is_stop};
use crate::types::Buffer;
use crate::utils::{Groups, NetlinkBitArray};
use crate::{FromBytes, ToBytes};
use std::cell::Cell;
use std::marker::PhantomData;
use std::os::fd::{AsFd, BorrowedFd};
use std::sync::Arc;
use std::task::{Context, Poll};

/// The handle of multicast, or of messages without a request.
type Multicast = NlRouterReceiverHandle<u16, Buffer>;

/// A router over a link of its own, by default a socket. A clone is the same router, and handles can outlive it. What the
/// link refuses is [`RouterError::Socket`]; a call that sends or reads may also be refused as [`RouterError::Memory`].
#[derive(Debug)]
pub struct NlRouter<L = NlSocketHandle>(Arc<Shared<L>>);

impl<L> Clone for NlRouter<L> {
    fn clone(&self) -> Self {
        NlRouter(Arc::clone(&self.0))
    }
}

/// The descriptor of its link.
impl<L: AsFd> AsFd for NlRouter<L> {
    fn as_fd(&self) -> BorrowedFd<'_> {
        self.0.link.as_fd()
    }
}

impl NlRouter {
    /// A router over a [new socket](NlSocketHandle::connect) in these groups, and the handle of multicast.
    pub fn connect(family: NlFamily, port: Option<u32>, groups: Groups) -> Result<(Self, Multicast)> {
        Self::over(NlSocketHandle::connect(family, port, groups)?)
    }

    /// The socket.
    pub fn socket(&self) -> &NlSocketHandle {
        &self.0.link
    }
}

impl<L: Link + 'static> NlRouter<L> {
    /// A router over a link, from which nothing else may receive, and the handle of multicast: over a socket, a
    /// [`Kernel`](crate::simulator::Kernel), a [`Recording`](crate::recording::Recording), or a link of the caller's own.
    /// A client of `&NlRouter<impl Link>` takes any of them. Refused only as [`RouterError::Memory`].
    pub fn over(link: L) -> Result<(Self, Multicast)> {
        let shared = Arc::new(Shared::over(link)?);
        Ok((NlRouter(shared.clone()), NlRouterReceiverHandle::new(shared, Reader::Multicast)))
    }

    /// The link.
    pub fn link(&self) -> &L {
        &self.0.link
    }

    /// The port of its link.
    pub fn pid(&self) -> u32 {
        self.0.link.port()
    }

    /// Joins these groups, as [`NlSocketHandle::add_mcast_membership`]; those before one that is refused are joined.
    pub fn add_mcast_membership(&self, groups: Groups) -> Result<()> {
        Ok(groups.as_groups().iter().try_for_each(|it| self.0.link.set_membership(*it, true))?)
    }

    /// Leaves these groups, as [`NlSocketHandle::drop_mcast_membership`]; those before one that is refused are left.
    pub fn drop_mcast_membership(&self, groups: Groups) -> Result<()> {
        Ok(groups.as_groups().iter().try_for_each(|it| self.0.link.set_membership(*it, false))?)
    }

    /// The groups that the link is in.
    pub fn list_mcast_membership(&self) -> Result<NetlinkBitArray> {
        Ok(self.0.link.memberships()?)
    }

    /// Sets whether the kernel states in words why it refuses, and where; at first it does.
    pub fn enable_ext_ack(&self, enable: bool) -> Result<()> {
        Ok(self.0.link.set_option(LinkOption::ExtAck, enable)?)
    }

    /// Whether it does.
    pub fn get_ext_ack_enabled(&self) -> Result<bool> {
        Ok(self.0.link.option(LinkOption::ExtAck)?)
    }

    /// Sets whether the kernel refuses a dump's request with fields that it does not use; at first it does not.
    pub fn enable_strict_checking(&self, enable: bool) -> Result<()> {
        Ok(self.0.link.set_option(LinkOption::StrictChecking, enable)?)
    }

    /// Whether it does.
    pub fn get_strict_checking_enabled(&self) -> Result<bool> {
        Ok(self.0.link.option(LinkOption::StrictChecking)?)
    }

    /// Sets the sequence number of the next request. The first is 0.
    pub fn set_next_seq(&self, number: u32) {
        self.0.state().number = number;
    }

    /// Takes in all that has arrived, for every handle, and sends what may go out then; it does not wait. A loop of your
    /// own calls it once the descriptor is readable, by level or by edge, and reads each handle then, and after any call
    /// that sends or waits, by [`try_next`](NlRouterReceiverHandle::try_next) as long as something is there. Refused if
    /// the link fails again and again, and as `WouldBlock` if more still arrives when the time of a wait is over; nothing
    /// is lost then, and the next call goes on.
    pub fn receive(&self) -> Result<()> {
        self.0.receive(|_| {})
    }

    /// Wakes each task that waits for a handle, by [`poll_next`](NlRouterReceiverHandle::poll_next), so that one of them
    /// takes in what has arrived. For a reactor, once the descriptor is readable.
    pub fn wake_tasks(&self) {
        self.0.wake(&mut self.0.state(), |_, _, _| true);
    }

    /// Ends every current wait at a handle, and each later one, with the system's `ECANCELED`; then the handle ends. What
    /// has arrived can still be read.
    pub fn stop(&self) {
        self.0.link.stop();
    }

    /// Sends a request, and returns the handle of its replies. It does not wait: a dump goes out by the reads of any
    /// handle once the one before has ended, and after a loss any request once the link was seen empty; if the link
    /// refuses it then, its handle reads that. Refused as [`RouterError::Ser`] if the body can't be written or the length
    /// exceeds 32 bits, and as [`RouterError::SeqInUse`] if its number is that of a request whose handle is open or whose
    /// answer may still arrive.
    pub fn send<ST: NlType, SP: ToBytes, RT, RP>(
        &self,
        nl_type: ST,
        nl_flags: NlmF,
        nl_payload: NlPayload<ST, SP>,
    ) -> Result<NlRouterReceiverHandle<RT, RP>> {
        self.send_all([(nl_type, nl_flags, nl_payload)])?.pop().ok_or(RouterError::ClosedChannel)
    }

    /// Sends requests as one datagram, and returns the handle of each: the kernel performs the first, answers it, and goes
    /// on with the next. Refused as [`send`](NlRouter::send) is, and as `Msg` if two are dumps, of which the kernel runs
    /// one at a time; then none is sent.
    pub fn send_all<ST: NlType, SP: ToBytes, RT, RP>(
        &self,
        requests: impl IntoIterator<Item = (ST, NlmF, NlPayload<ST, SP>)>,
    ) -> Result<Vec<NlRouterReceiverHandle<RT, RP>>> {
        let written = requests.into_iter().map(|(kind, flags, payload)| Ok((kind.into(), flags, payload.body()?)));
        let readers = self.0.send(&written.collect::<Result<Vec<_>>>()?)?;
        Ok(readers.into_iter().map(|it| NlRouterReceiverHandle::new(self.0.clone(), it)).collect())
    }

    /// Requests a list, with these flags and `DUMP`, and repeats this while the kernel marks it as interrupted or is busy
    /// with another dump, or a part of it is lost: at most `times` times, and once at least. Returns the last list.
    /// Refused if nothing can be sent, and if the wait ends or memory runs out before the list has ended.
    pub fn dump<ST: NlType, SP: ToBytes, RT: NlType, RP: FromBytes>(
        &self,
        nl_type: ST,
        nl_flags: NlmF,
        nl_payload: NlPayload<ST, SP>,
        times: usize,
    ) -> Result<Dump<RT, RP>> {
        let request = (nl_type.into(), nl_flags | NlmF::DUMP, nl_payload.body()?);
        Lists::repeat(&(self.0.clone() as Arc<Shared>), times, |lists| lists.request(&request))
    }

    /// The handle of messages that the kernel sends to the socket's own port without a request, as the packets of a
    /// netfilter queue. They are kept from now on until the handle is dropped; refused as `ClosedChannel` if another
    /// handle has them.
    pub fn unasked(&self) -> Result<Multicast> {
        let is_taken = std::mem::replace(&mut self.0.state().keeps_unasked, true);
        if is_taken { Err(RouterError::ClosedChannel) } else { Ok(Multicast::new(self.0.clone(), Reader::Unasked)) }
    }
}

/// The handle of the replies to one request, of multicast, or of messages without a request. As an iterator it returns
/// the replies up to the last, by [`next_typed`](NlRouterReceiverHandle::next_typed); each step waits.
///
/// It may be dropped at any time. Messages that still arrive for its request are then dropped; its number, and some
/// hundred bytes, are in use until its answer has ended, or a read or [`NlRouter::receive`] sees the link empty.
#[derive(Debug)]
pub struct NlRouterReceiverHandle<T, P> {
    shared: Arc<Shared>,
    reader: Reader,
    is_stopped: bool,
    /// The verdict, once a message could not be read as the caller's types, which the library does not see.
    spoilt: Option<Verdict>,
    of: PhantomData<fn() -> (T, P)>,
}

impl<T, P> NlRouterReceiverHandle<T, P> {
    fn new(shared: Arc<Shared>, reader: Reader) -> Self {
        NlRouterReceiverHandle { shared, reader, is_stopped: false, spoilt: None, of: PhantomData }
    }

    /// The next reply, read as these types; none after the last. Multicast has no last message.
    ///
    /// Errors in a reply's place are [`RouterError::Nlmsgerr`] if the kernel refuses the request, [`RouterError::Socket`]
    /// if something was lost, and [`RouterError::De`] if it can't be read. Refused also as [`RouterError::Socket`] if the
    /// wait has ended, and as [`RouterError::Memory`]; then no reply is lost.
    ///
    /// The kernel answers while a request is sent. So once the socket was seen empty no reply follows, and the verdict
    /// says whether that is an end: a change without ACK is answered by nothing.
    pub fn next_typed<TT: NlType, PP: FromBytes>(&mut self) -> Option<Result<Nlmsghdr<TT, PP>>> {
        let read = if self.is_stopped { Ok(None) } else { self.shared.next(self.reader, State::read) };
        self.typed(read)
    }

    /// What was read, as these types.
    fn typed<TT: NlType, PP: FromBytes>(&mut self, read: Read) -> Option<Result<Nlmsghdr<TT, PP>>> {
        self.is_stopped |= matches!(&read, Err(RouterError::Socket(it)) if is_stop(it));
        let typed = read.transpose()?.map(|(head, payload)| Nlmsghdr::of_message(&payload, &head));
        if matches!((self.reader, &typed), (Reader::Request(_), Ok(Err(_)))) && self.verdict() != Verdict::Interrupted {
            self.spoilt = Some(Verdict::Lost(Loss::Unreadable));
        }
        Some(typed.and_then(|it| Ok(it?)))
    }

    /// The next notice from multicast, read as these types: a message that can't be read as them is returned as it
    /// arrived, and a loss by its name, each in its place. More follow after any of them. Refused if the wait has ended
    /// or memory runs out, and as `ClosedChannel` if the handle is not that of multicast.
    pub fn listen<TT: NlType, PP: FromBytes>(&mut self) -> Result<Notice<TT, PP>> {
        self.want_multicast()?;
        Notice::of_read(self.shared.next(self.reader, State::read))
    }

    /// The next notice, as [`listen`](NlRouterReceiverHandle::listen) returns it and
    /// [`poll_next`](NlRouterReceiverHandle::poll_next) waits for it.
    pub fn poll_listen<TT: NlType, PP: FromBytes>(
        &mut self,
        context: &mut Context<'_>,
    ) -> Poll<Result<Notice<TT, PP>>> {
        self.want_multicast()?;
        self.shared.poll(self.reader, context.waker()).map(Notice::of_read)
    }

    fn want_multicast(&self) -> Result<()> {
        if self.reader == Reader::Multicast { Ok(()) } else { Err(RouterError::ClosedChannel) }
    }

    /// The verdict on the answer to its request, by the replies that were returned: whether they are all. It is known
    /// as soon as one decides it, so a list to request again need not be read to its end. Without a request it is always
    /// `Pending`. To call this after a loop, lend the iterator to the loop: `for reply in &mut replies`.
    pub fn verdict(&self) -> Verdict {
        self.spoilt.unwrap_or_else(|| Verdict::of(self.shared.state().session.verdict(self.reader)))
    }

    /// Whether a returned message has the flag `NLM_F_DUMP_FILTERED`: a kernel that cannot filter lists everything.
    pub fn is_filtered(&self) -> bool {
        self.shared.state().session.verdict(self.reader).1.filtered != 0
    }

    /// Requests the whole state after a loss of multicast, as [`resync_all`](NlRouterReceiverHandle::resync_all) of one
    /// list: returns its messages.
    pub fn resync<ST: NlType, SP: ToBytes, RT: NlType, RP: FromBytes>(
        &mut self,
        nl_type: ST,
        nl_payload: NlPayload<ST, SP>,
        times: usize,
    ) -> Result<Vec<Nlmsghdr<RT, RP>>> {
        let request = (nl_type.into(), NlmF::DUMP, nl_payload.body()?);
        self.resync_all(times, |lists| lists.request(&request)?.into_messages())
    }

    /// Requests the whole state after a loss of multicast, where it has several lists: `lists` requests each, and returns
    /// what the program makes of them. Messages for groups from before are dropped, since the state includes them; later
    /// ones are read as before; apply them to the state. One list after the other by
    /// [`resync`](NlRouterReceiverHandle::resync) would drop those of the lists before.
    ///
    /// All of this is done again as [`NlRouter::dump`] repeats a list, at most so many times. Refused as `lists` refuses
    /// at last, as `ClosedChannel` if the handle is not that of multicast, and as [`NlRouter::receive`] is.
    ///
    /// ```no_run
    /// # use neli::{consts::rtnl::Rtm, err::RouterError, nl::NlPayload, rtnl::*, types::Buffer};
    /// # fn state(multicast: &mut neli::router::synchronous::NlRouterReceiverHandle<u16, Buffer>) -> Result<(), RouterError> {
    /// let all = || NlPayload::<Rtm, Buffer>::Empty;
    /// let (links, addresses) = multicast.resync_all(5, |lists| {
    ///     let links = lists.dump::<_, _, Rtm, Ifinfomsg>(Rtm::Getlink, all())?;
    ///     Ok((links, lists.dump::<_, _, Rtm, Ifaddrmsg>(Rtm::Getaddr, all())?))
    /// })?;
    /// # drop((links, addresses));
    /// # Ok(())
    /// # }
    /// ```
    pub fn resync_all<R>(&mut self, times: usize, mut lists: impl FnMut(&Lists<'_>) -> Result<R>) -> Result<R> {
        self.want_multicast()?;
        Lists::repeat(&self.shared, times, |requested| {
            self.shared.receive(|state| state.session.pass_all(Reader::Multicast))?;
            lists(requested).inspect(|_| requested.is_passing.set(false))
        })
    }
}

impl<T: NlType, P: FromBytes> NlRouterReceiverHandle<T, P> {
    /// The next reply, if it has been taken in; it neither receives nor waits. Otherwise as
    /// [`next_typed`](NlRouterReceiverHandle::next_typed). For a loop of your own, after [`NlRouter::receive`].
    pub fn try_next(&mut self) -> Poll<Option<Result<Nlmsghdr<T, P>>>> {
        let read = if self.is_stopped { Poll::Ready(Ok(None)) } else { self.shared.state().read(self.reader) };
        read.map(|it| self.typed(it))
    }

    /// The next reply, if it has been taken in or has arrived; it does not wait, but has the task of this context, one
    /// for a handle, woken once a call of the router takes something in for it. That something has arrived is for a
    /// reactor to say, by [`NlRouter::wake_tasks`]. Else as [`next_typed`](NlRouterReceiverHandle::next_typed).
    pub fn poll_next(&mut self, context: &mut Context<'_>) -> Poll<Option<Result<Nlmsghdr<T, P>>>> {
        let read = if self.is_stopped { Poll::Ready(Ok(None)) } else { self.shared.poll(self.reader, context.waker()) };
        read.map(|it| self.typed(it))
    }
}

impl<T: NlType, P: FromBytes> Iterator for NlRouterReceiverHandle<T, P> {
    type Item = Result<Nlmsghdr<T, P>>;

    fn next(&mut self) -> Option<Self::Item> {
        self.next_typed::<T, P>()
    }
}

impl<T, P> Drop for NlRouterReceiverHandle<T, P> {
    fn drop(&mut self) {
        self.shared.state().close(self.reader);
    }
}

/// The lists of a state, which [`resync_all`](NlRouterReceiverHandle::resync_all) requests.
#[derive(Debug)]
pub struct Lists<'s> {
    shared: &'s Arc<Shared>,
    is_passing: Cell<bool>,
}

impl<'s> Lists<'s> {
    /// Does this at most so many times, and once at least, as long as a list may be complete when it is requested again.
    fn repeat<R>(shared: &'s Arc<Shared>, times: usize, mut once: impl FnMut(&Self) -> Result<R>) -> Result<R> {
        let lists = Lists { shared, is_passing: Cell::new(false) };
        (1..times).take_while(|_| lists.is_passing.take()).fold(once(&lists), |last, _| {
            drop(last);
            once(&lists)
        })
    }

    /// Requests a list once: its messages, in order, without the end. Refused if it is not complete, and as
    /// [`NlRouter::dump`] is.
    pub fn dump<ST: NlType, SP: ToBytes, RT: NlType, RP: FromBytes>(
        &self,
        nl_type: ST,
        nl_payload: NlPayload<ST, SP>,
    ) -> Result<Vec<Nlmsghdr<RT, RP>>> {
        self.request(&(nl_type.into(), NlmF::DUMP, nl_payload.body()?))?.into_messages()
    }

    /// Requests a list once, and reads it to its end. Refused if the wait ends or memory runs out before.
    fn request<T: NlType, P: FromBytes>(&self, request: &Request) -> Result<Dump<T, P>> {
        let reader = self.shared.send(std::slice::from_ref(request))?.pop().ok_or(RouterError::ClosedChannel)?;
        let mut replies = NlRouterReceiverHandle::<T, P>::new(self.shared.clone(), reader);
        let (mut messages, mut error, mut end) = (Vec::new(), None, None);
        for reply in &mut replies {
            match reply {
                Ok(message) if message.is_done() => end = Some(message),
                Ok(message) => messages.push(message),
                Err(unended) if unended.is_unended() => return Err(unended),
                Err(refusal) => error = error.or(Some(refusal)),
            }
        }
        let error = error.or_else(|| end.as_ref()?.failed_end().map(RouterError::Nlmsgerr));
        // A request that the kernel answers by nothing, as one without its header, is no empty list.
        let verdict = match replies.verdict() {
            Verdict::Complete if end.is_none() => Verdict::Lost(Loss::Unended),
            verdict => verdict,
        };
        self.is_passing.set(verdict.is_passing());
        Ok(Dump { messages, verdict, is_filtered: replies.is_filtered(), error })
    }
}
