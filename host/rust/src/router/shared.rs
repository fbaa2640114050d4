//! What a router and its handles share: the library's session, which knows who gets what, and what it lacks, the link.
//!
//! There is one lock of the state, which nobody holds while it sends or waits. Of the threads that wait one watches the
//! link.

use crate::consts::nl::NlmF;
use crate::consts::socket::NlFamily;
use crate::err::{RouterError, SocketError, done, refused};
use crate::ffi::{self, Reader};
use crate::lent::LentMessage;
use crate::link::Link;
use crate::nl::message_with;
use crate::rtnl::default_body;
use crate::socket::synchronous::Wait;
use std::collections::HashMap;
use std::io::ErrorKind;
use std::ops::Range;
use std::sync::{Mutex, MutexGuard, PoisonError};
use std::task::{Poll, Waker, ready};
use std::thread::{self, Thread};
use std::time::Duration;

/// The number of datagrams after which a wait looks at its time, and a task lets others run.
const AT_ONCE: usize = 64;

/// The number of consecutive faults after which the next one means that the link is gone.
const FAULTS: u32 = 8;

pub(super) type Result<T, E = RouterError> = std::result::Result<T, E>;

/// A request as it is sent: its type, its flags and its body.
pub(super) type Request = (u16, NlmF, Vec<u8>);

/// What is read: the header of a message, and its payload; none at the end.
pub(super) type Read = Result<Option<(ffi::Message, Vec<u8>)>>;

type Locked<'s> = MutexGuard<'s, State>;

#[derive(Debug)]
pub(super) struct Shared<L: ?Sized = dyn Link> {
    state: Mutex<State>,
    /// Held by the one that sends.
    sending: Mutex<()>,
    pub(super) link: L,
}

#[derive(Debug)]
pub(super) struct State {
    pub(super) session: ffi::Session,
    /// The number of the next request.
    pub(super) number: u32,
    pub(super) keeps_unasked: bool,
    room: Vec<u8>,
    /// What was received last, or its rest, while the library has no memory for it: a datagram by its place in the room
    /// and its group, or the number of a fault.
    held: Option<Result<(Range<usize>, u32), i32>>,
    faults: u32,
    /// The errors of the link by the numbers that the session has for them: the system's, or one below 0.
    errors: HashMap<i32, SocketError>,
    waiting: HashMap<Reader, Waiter>,
}

/// Who waits for a reader: the thread that watches the link, another one, or a task.
#[derive(Debug)]
pub(super) enum Waiter {
    AtLink,
    Thread(Thread),
    Task(Waker),
}

impl<L: Link> Shared<L> {
    pub(super) fn over(link: L) -> Result<Self> {
        let state = Mutex::new(State {
            session: ffi::Session::new(link.family().into(), link.port()).map_err(|_| RouterError::Memory)?,
            number: 0,
            keeps_unasked: false,
            room: Vec::new(),
            held: None,
            faults: 0,
            errors: HashMap::new(),
            waiting: HashMap::new(),
        });
        Ok(Shared { state, sending: Mutex::default(), link })
    }

    /// The state of one owner.
    pub(super) fn state_mut(&mut self) -> &mut State {
        self.state.get_mut().unwrap_or_else(PoisonError::into_inner)
    }
}

impl<L: Link + ?Sized> Shared<L> {
    pub(super) fn state(&self) -> Locked<'_> {
        self.state.lock().unwrap_or_else(PoisonError::into_inner)
    }

    /// Sends requests as one datagram, and returns the reader of each. If one is refused, none is sent.
    pub(super) fn send(&self, requests: &[Request]) -> Result<Vec<Reader>> {
        let (mut state, mut datagram, mut readers) = (self.state(), Vec::new(), Vec::new());
        let (port, is_routing) = (self.link.port(), self.link.family() == NlFamily::Route);
        let mut number = state.number;
        for (kind, flags, body) in requests {
            let body = if is_routing && body.is_empty() { default_body(*kind) } else { body };
            let flags = (*flags | NlmF::REQUEST).bits();
            let head = ffi::Message { kind: *kind, flags, number, port, ..ffi::Message::default() };
            datagram.extend(message_with(&head, body)?);
            readers.push(Reader::Request(number));
            number = number.wrapping_add(1);
        }
        if !readers.is_empty() {
            done(state.session.send_all(&datagram))?;
            state.number = number;
            let close_all = |_: &_| readers.iter().for_each(|it| self.state().close(*it));
            drop(self.flush(state, &datagram).inspect_err(close_all)?);
        }
        Ok(readers)
    }

    /// Sends what may go out, and returns whether that was anything. Refused if the link refuses the caller's own
    /// datagram.
    fn flush<'s>(&'s self, mut state: Locked<'s>, own: &[u8]) -> Result<(Locked<'s>, bool), SocketError> {
        let (mut has_sent, mut own_sent) = (false, Ok(()));
        while let Ok(_turn) = self.sending.try_lock() {
            let Some(datagram) = state.session.outgoing().map(<[u8]>::to_vec) else { break };
            drop(state);
            let sent = self.link.send(&datagram);
            state = self.state();
            if matches!(&sent, Err(SocketError::Io(error)) if error.kind() == ErrorKind::WouldBlock) {
                break;
            }
            match sent.as_ref().map_err(|it| state.number_of(it.again())) {
                Ok(()) => state.session.sent(),
                Err(number) => state.session.not_sent(number),
            }
            has_sent = true;
            if datagram == own {
                own_sent = sent;
            } else {
                // Who waits for its answer saw the link empty before: it learns so whether nothing comes.
                self.wake(&mut state, |_, _, _| true);
            }
        }
        own_sent.map(|()| (state, has_sent))
    }

    /// Takes in what is held, or the next datagram or fault, and wakes who waits for it; false if none has arrived. A link
    /// that has nothing but faults is gone: the last of them is a refusal.
    fn take_in(&self, state: &mut State) -> Result<bool> {
        if state.held.is_none() {
            let arrived = self.link.receive(&mut state.room);
            let is_fault = arrived.as_ref().is_err_and(SocketError::is_fault);
            state.faults = if is_fault { state.faults.saturating_add(1) } else { 0 };
            state.held = match arrived {
                Err(error) if is_fault && state.faults <= FAULTS => Some(Err(state.number_of(error))),
                arrived => arrived?.map(|it| Ok((0..completed(&mut state.room, it.length), it.group))),
            };
        }
        match &mut state.held {
            Some(Err(number)) => done(state.session.fault(*number))?,
            Some(Ok((rest, group))) => {
                let datagram = &state.room[rest.clone()];
                // The kernel sends the notification of an own change in a group's name also where that is not joined.
                let is_own = *group != 0 && ffi::messages(datagram).any(|(_, it)| it.port == self.link.port());
                let is_joined = is_own && self.link.memberships().is_ok_and(|it| it.is_set(*group as usize));
                let (code, taken) = state.session.receive(datagram, *group, is_joined);
                rest.start += taken;
                done(code)?;
            }
            None if self.link.answers_later() => {}
            None => state.session.quiet(),
        }
        if !state.keeps_unasked {
            state.session.pass_all(Reader::Unasked);
        }
        self.wake(state, |session, reader, _| session.is_ready(reader));
        Ok(state.held.take().is_some())
    }

    /// Takes in what has arrived, and sends what may go out then, until this is ready or nothing is left; none where more
    /// may be there.
    fn advance<T>(&self, mut take: impl FnMut(&mut State) -> Poll<T>) -> Result<(Locked<'_>, Option<Poll<T>>)> {
        let (mut state, mut has_more) = (self.state(), true);
        for _ in 0..AT_ONCE {
            let taken = take(&mut state);
            if taken.is_ready() || !has_more {
                return Ok((state, Some(taken)));
            }
            let has_come = self.take_in(&mut state)?;
            (state, has_more) = self.flush(state, &[])?;
            has_more |= has_come;
        }
        Ok((state, None))
    }

    /// Takes in all that has arrived, and does this to the state after each.
    pub(super) fn receive(&self, each: impl Fn(&mut State)) -> Result<()> {
        let wait = Wait::begin(self.link.limit());
        while self.advance(|state| (each(state), Poll::<()>::Pending).1)?.1.is_none() {
            wait.goes_on()?;
        }
        Ok(())
    }

    /// What `take` takes for a reader; it waits until that is ready.
    pub(super) fn next<T>(&self, reader: Reader, take: fn(&mut State, Reader) -> Poll<Result<T>>) -> Result<T> {
        if let Poll::Ready(next) = take(&mut self.state(), reader) {
            return next;
        }
        let wait = Wait::begin(self.link.limit());
        let wait_for = || loop {
            match self.advance(|state| take(state, reader))? {
                (_, Some(Poll::Ready(next))) => return next,
                (_, None) => wait.goes_on()?,
                (state, Some(Poll::Pending)) => self.wait(state, reader, wait.left()?)?,
            }
        };
        let (next, mut state) = (wait_for(), self.state());
        // Another thread watches the link from now on.
        let mut lacks_one = !state.is_watched();
        self.wake(&mut state, |_, _, it| matches!(it, Waiter::Thread(_)) && std::mem::take(&mut lacks_one));
        next
    }

    /// Waits until something may have come for a reader, for so long at most.
    fn wait(&self, mut state: Locked<'_>, reader: Reader, left: Option<Duration>) -> Result<(), SocketError> {
        let is_watched = state.is_watched();
        let waiter = if is_watched { Waiter::Thread(thread::current()) } else { Waiter::AtLink };
        state.waiting.insert(reader, waiter);
        drop(state);
        if is_watched {
            thread::park_timeout(left.unwrap_or(Duration::MAX));
        }
        let waited = if is_watched { Ok(()) } else { self.link.wait(left) };
        self.state().waiting.remove(&reader);
        waited
    }

    /// What a reader reads; it does not wait, but where nothing is there has the task woken once something may be.
    pub(super) fn poll(&self, reader: Reader, task: &Waker) -> Poll<Read> {
        let (mut state, read) = self.advance(|state| state.read(reader))?;
        match read {
            Some(Poll::Ready(_)) => drop(state.waiting.remove(&reader)),
            Some(Poll::Pending) => drop(state.waiting.insert(reader, Waiter::Task(task.clone()))),
            None => task.wake_by_ref(),
        }
        read.unwrap_or(Poll::Pending)
    }

    /// Wakes those of all that wait of whom this is true: they look once more.
    pub(super) fn wake(&self, state: &mut State, mut is_one: impl FnMut(&mut ffi::Session, Reader, &Waiter) -> bool) {
        for (_, waiter) in state.waiting.iter().filter(|(it, waiter)| is_one(&mut state.session, **it, waiter)) {
            match waiter {
                Waiter::AtLink => self.link.wake(),
                Waiter::Thread(thread) => thread.unpark(),
                Waiter::Task(task) => task.wake_by_ref(),
            }
        }
    }
}

impl State {
    fn is_watched(&self) -> bool {
        self.waiting.values().any(|it| matches!(it, Waiter::AtLink))
    }

    /// Has the session lend a reader's next item, which stays, or nothing at the end; pending if it waits. What is in an
    /// item's place is passed: a loss, or the kernel's refusal of a request.
    pub(super) fn lend(&mut self, reader: Reader) -> Poll<Result<()>> {
        let error = match self.session.next(reader) {
            (ffi::WAITS, _) => return Poll::Pending,
            (ffi::ITEM | ffi::END, _) => return Poll::Ready(Ok(())),
            (ffi::KERNEL_ERROR, _) => self.session.lent().map_or(RouterError::ClosedChannel, LentMessage::to_refusal),
            (ffi::LINK, number) => self.errors.get(&number).map_or(RouterError::ClosedChannel, |it| it.again().into()),
            (code, _) => refused(code).into(),
        };
        self.session.pass(reader);
        Poll::Ready(Err(error))
    }

    /// Reads the next item, or the end; pending if it waits.
    pub(super) fn read(&mut self, reader: Reader) -> Poll<Read> {
        ready!(self.lend(reader))?;
        let owned = self.session.lent().map(|it| (it.head, it.nl_payload().to_vec()));
        if owned.is_some() {
            self.session.pass(reader);
        }
        Poll::Ready(Ok(owned))
    }

    /// Nobody reads here any more.
    pub(super) fn close(&mut self, reader: Reader) {
        self.waiting.remove(&reader);
        self.keeps_unasked &= reader != Reader::Unasked;
        self.session.close(reader);
    }

    /// The number of an error of the link.
    fn number_of(&mut self, error: SocketError) -> i32 {
        let number = error.raw_os_error().unwrap_or(!(self.errors.len() as i32));
        self.errors.insert(number, error);
        number
    }
}

/// The end of a datagram with the padding of its last message, which a sender may leave out.
fn completed(room: &mut Vec<u8>, length: usize) -> usize {
    let end = length.next_multiple_of(4);
    room.resize(room.len().max(end), 0);
    room[length..end].fill(0);
    let ends = ffi::messages(&room[..end]).map(|(place, it)| place + it.length as usize);
    if end == length || ends.last().is_some_and(|it| (end - 3..=length).contains(&it)) { end } else { length }
}
