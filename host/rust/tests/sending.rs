//! What a router sends, over links that refuse, that would block, and that take their time: no kernel and no namespace.

use neli::consts::nl::{NlmF, Nlmsg};
use neli::consts::rtnl::Rtm;
use neli::err::{RouterError, SocketError, Unrecorded};
use neli::link::{Arrived, Link};
use neli::nl::NlPayload;
use neli::router::synchronous::{Loss, NlRouter, NlRouterReceiverHandle, Verdict};
use neli::types::Buffer;
use std::collections::VecDeque;
use std::io::{self, ErrorKind};
use std::sync::mpsc::{Receiver, Sender, channel};
use std::sync::{Arc, Condvar, Mutex, MutexGuard};
use std::thread;
use std::time::Duration;

type Outcome = Result<(), Box<dyn std::error::Error>>;
type Handle = NlRouterReceiverHandle<u16, Buffer>;

/// What a link says to a datagram.
type Says = fn() -> Result<(), SocketError>;

const ENOBUFS: i32 = 105;

/// A link that says what it was told to, and keeps the numbers of what it takes; what comes is put there, or as an
/// answer comes once something was taken.
#[derive(Debug, Default)]
struct Told(Mutex<Inside>);

#[derive(Debug, Default)]
struct Inside {
    says: VecDeque<Says>,
    taken: Vec<u32>,
    comes: VecDeque<Result<(u32, Vec<u8>), i32>>,
    answers: VecDeque<Result<(u32, Vec<u8>), i32>>,
}

impl Told {
    fn inside(&self) -> MutexGuard<'_, Inside> {
        self.0.lock().expect("nobody has panicked")
    }

    fn says(&self, says: Says) {
        self.inside().says.push_back(says);
    }

    fn comes(&self, what: Result<(u32, Vec<u8>), i32>) {
        self.inside().comes.push_back(what);
    }

    fn taken(&self) -> Vec<u32> {
        self.inside().taken.clone()
    }
}

impl Link for Told {
    fn port(&self) -> u32 {
        3
    }

    fn send(&self, datagram: &[u8]) -> Result<(), SocketError> {
        let mut inside = self.inside();
        inside.says.pop_front().map_or(Ok(()), |it| it())?;
        inside.taken.push(u32::from_ne_bytes([datagram[8], datagram[9], datagram[10], datagram[11]]));
        let answer = inside.answers.pop_front();
        inside.comes.extend(answer);
        Ok(())
    }

    fn receive(&self, room: &mut Vec<u8>) -> Result<Option<Arrived>, SocketError> {
        match self.inside().comes.pop_front() {
            Some(Ok((group, datagram))) => Ok(Some(Arrived::into_room(room, &datagram, group))),
            Some(Err(number)) => Err(io::Error::from_raw_os_error(number).into()),
            None => Ok(None),
        }
    }
}

/// A message by hand from linux/netlink.h: 20 bytes, of which the last 4 are zeros.
fn message(kind: u16, flags: u16, number: u32, port: u32) -> Vec<u8> {
    let head = [20u32.to_ne_bytes(), [0; 4], number.to_ne_bytes(), port.to_ne_bytes(), [0; 4]].concat();
    [&head[..4], &kind.to_ne_bytes(), &flags.to_ne_bytes(), &head[8..]].concat()
}

/// The end of a dump: NLMSG_DONE with MULTI.
fn end_of(number: u32) -> Result<(u32, Vec<u8>), i32> {
    Ok((0, message(3, 2, number, 3)))
}

fn dump(router: &NlRouter<impl Link + 'static>) -> Result<Handle, RouterError> {
    // struct ifinfomsg has 16 bytes.
    let all = NlPayload::Payload(Buffer::from(&[0; 16][..]));
    router.send(u16::from(Rtm::Getlink), NlmF::DUMP, all)
}

fn get(router: &NlRouter<impl Link + 'static>) -> Result<Handle, RouterError> {
    router.send::<_, Buffer, _, _>(u16::from(Nlmsg::Noop), NlmF::ACK, NlPayload::Empty)
}

fn denied() -> Result<(), SocketError> {
    Err(io::Error::from_raw_os_error(1).into())
}

fn would_block() -> Result<(), SocketError> {
    Err(io::Error::from(ErrorKind::WouldBlock).into())
}

#[test]
fn a_refusal_at_once_is_that_of_the_call() -> Outcome {
    let (router, _multicast) = NlRouter::over(Told::default())?;
    router.link().says(denied);
    assert!(matches!(dump(&router), Err(RouterError::Socket(SocketError::Io(it))) if it.raw_os_error() == Some(1)));
    // It holds up nothing, and its number is free.
    router.set_next_seq(0);
    let mut next = dump(&router)?;
    router.link().comes(end_of(0));
    assert!(next.next().is_some_and(|it| it.is_ok()) && next.next().is_none());
    assert_eq!((next.verdict(), router.link().taken()), (Verdict::Complete, vec![0]));
    Ok(())
}

#[test]
fn a_refusal_later_is_read() -> Outcome {
    let (router, _multicast) = NlRouter::over(Told::default())?;
    let (mut first, mut second, mut third) = (dump(&router)?, dump(&router)?, dump(&router)?);
    assert_eq!(router.link().taken(), [0]);
    router.link().says(|| Err(SocketError::Unrecorded(Unrecorded::Differs { at: 7 })));
    router.link().comes(end_of(0));
    router.link().comes(end_of(2));
    assert!(first.next().is_some_and(|it| it.is_ok()) && first.next().is_none());
    // The second is refused when the first has ended, and the third has its turn.
    let refused = second.next().expect("the refusal").expect_err("the link has refused it");
    assert!(matches!(refused, RouterError::Socket(SocketError::Unrecorded(Unrecorded::Differs { at: 7 }))));
    assert!(second.next().is_none());
    assert!(third.next().is_some_and(|it| it.is_ok()) && third.next().is_none());
    let verdicts = [first, second, third].map(|it| it.verdict());
    assert_eq!(verdicts, [Verdict::Complete, Verdict::Lost(Loss::Link), Verdict::Complete]);
    assert_eq!(router.link().taken(), [0, 2]);
    Ok(())
}

#[test]
fn what_would_block_goes_out_later() -> Outcome {
    let (router, mut multicast) = NlRouter::over(Told::default())?;
    router.link().says(would_block);
    let (mut first, mut second) = (get(&router)?, get(&router)?);
    // The second call has sent both, in their order.
    assert_eq!(router.link().taken(), [0, 1]);
    router.link().says(would_block);
    let mut third = get(&router)?;
    assert_eq!(router.link().taken(), [0, 1]);
    router.link().comes(Ok((1, message(16, 0, 0, 0))));
    assert!(multicast.next().is_some_and(|it| it.is_ok()));
    assert_eq!(router.link().taken(), [0, 1, 2], "what came in has sent it");
    for (number, handle) in [&mut first, &mut second, &mut third].into_iter().enumerate() {
        // An acknowledgement: error 0, and 16 bytes of the request's header, here zeros.
        let ack = [&36u32.to_ne_bytes()[..], &message(2, 0, number as u32, 3)[4..], &[0; 16]].concat();
        router.link().comes(Ok((0, ack)));
        assert!(handle.next().is_some_and(|it| it.is_ok()) && handle.next().is_none());
        assert_eq!(handle.verdict(), Verdict::Complete);
    }
    Ok(())
}

#[test]
fn nothing_goes_out_while_the_link_drops() -> Outcome {
    let (router, mut multicast) = NlRouter::over(Told::default())?;
    router.link().comes(Err(ENOBUFS));
    assert!(multicast.next().is_some_and(|it| it.is_err()));
    let mut links = dump(&router)?;
    assert_eq!((router.link().taken(), links.try_next().is_pending()), (vec![], true));
    router.link().inside().answers.push_back(end_of(0));
    router.receive()?;
    assert_eq!(router.link().taken(), [0], "it was seen empty");
    assert!(links.next().is_some_and(|it| it.is_ok()) && links.next().is_none());
    assert_eq!(links.verdict(), Verdict::Complete);
    Ok(())
}

/// A link that answers a dump while it sends, and ends its send when it is told to.
#[derive(Debug)]
struct Slow {
    answers: Mutex<VecDeque<Vec<u8>>>,
    is_sending: Mutex<Sender<()>>,
    may_end: Mutex<Receiver<()>>,
}

impl Link for Slow {
    fn port(&self) -> u32 {
        3
    }

    fn send(&self, datagram: &[u8]) -> Result<(), SocketError> {
        let number = u32::from_ne_bytes([datagram[8], datagram[9], datagram[10], datagram[11]]);
        self.answers.lock().expect("a lock").extend([message(16, 2, number, 3), message(3, 2, number, 3)]);
        self.is_sending.lock().expect("a lock").send(()).expect("the test waits for it");
        self.may_end.lock().expect("a lock").recv().expect("the test says so");
        Ok(())
    }

    fn receive(&self, room: &mut Vec<u8>) -> Result<Option<Arrived>, SocketError> {
        let next = self.answers.lock().expect("a lock").pop_front();
        Ok(next.map(|it| Arrived::into_room(room, &it, 0)))
    }
}

/// One thread sends, and others receive, send and close meanwhile: the link is called without the lock.
#[test]
fn a_slow_link_holds_up_no_other_thread() -> Outcome {
    let ((is_sending, sends), (end, may_end)) = (channel(), channel());
    let link =
        Arc::new(Slow { answers: Mutex::default(), is_sending: Mutex::new(is_sending), may_end: Mutex::new(may_end) });
    let (router, mut multicast) = NlRouter::over(Arc::clone(&link))?;
    let other = router.clone();
    let first = thread::spawn(move || dump(&other));
    sends.recv()?;
    // The answer comes before the call that sends has returned, and the link is seen empty.
    assert!(matches!(multicast.next(), Some(Err(RouterError::Socket(SocketError::Ended)))));
    assert!(link.answers.lock().expect("a lock").is_empty());
    // The first dump has ended, and the thread that sends it sends this one too.
    let mut second = dump(&router)?;
    assert!(second.try_next().is_pending());
    end.send(())?;
    sends.recv()?;
    end.send(())?;
    let mut first = first.join().expect("the thread ends")?;
    for handle in [&mut first, &mut second] {
        assert_eq!(handle.by_ref().filter(|it| it.is_ok()).count(), 2);
        assert_eq!(handle.verdict(), Verdict::Complete);
    }
    Ok(())
}

/// A link that answers nothing, ends its second send when it is told to, and says when it is waited for.
#[derive(Debug)]
struct Mute {
    count: Mutex<usize>,
    steps: Mutex<Sender<&'static str>>,
    may_end: Mutex<Receiver<()>>,
    is_woken: Mutex<bool>,
    bell: Condvar,
}

impl Link for Mute {
    fn port(&self) -> u32 {
        3
    }

    fn send(&self, _datagram: &[u8]) -> Result<(), SocketError> {
        let mut count = self.count.lock().expect("a lock");
        *count += 1;
        if *count == 2 {
            self.steps.lock().expect("a lock").send("sends").expect("the test waits for it");
            self.may_end.lock().expect("a lock").recv().expect("the test says so");
        }
        Ok(())
    }

    fn receive(&self, _room: &mut Vec<u8>) -> Result<Option<Arrived>, SocketError> {
        Ok(None)
    }

    fn wait(&self, _limit: Option<Duration>) -> Result<(), SocketError> {
        let is_woken = self.is_woken.lock().expect("a lock");
        self.steps.lock().expect("a lock").send("waits").expect("the test waits for it");
        let (mut is_woken, end) =
            self.bell.wait_timeout_while(is_woken, Duration::from_secs(10), |it| !*it).expect("a lock");
        *is_woken = false;
        if end.timed_out() { Err(SocketError::Ended) } else { Ok(()) }
    }

    fn wake(&self) {
        *self.is_woken.lock().expect("a lock") = true;
        self.bell.notify_all();
    }
}

/// A dump whose reader waits is sent by another thread, and nothing comes.
#[test]
fn who_waits_learns_that_nothing_comes() -> Outcome {
    let ((steps, step), (end, may_end)) = (channel(), channel());
    let link = Mute {
        count: Mutex::new(0),
        steps: Mutex::new(steps),
        may_end: Mutex::new(may_end),
        is_woken: Mutex::new(false),
        bell: Condvar::new(),
    };
    let (router, _multicast) = NlRouter::over(link)?;
    let first = dump(&router)?;
    let other = router.clone();
    let sends = thread::spawn(move || get(&other).map(|_| ()));
    assert_eq!(step.recv()?, "sends");
    let mut second = dump(&router)?;
    let reads = thread::spawn(move || (second.next().is_none(), second.verdict()));
    assert_eq!(step.recv()?, "waits");
    end.send(())?;
    sends.join().expect("the thread ends")?;
    assert_eq!(reads.join().expect("the thread ends"), (true, Verdict::Lost(Loss::Unended)));
    assert_eq!((first.verdict(), *router.link().count.lock().expect("a lock")), (Verdict::Lost(Loss::Unended), 3));
    Ok(())
}

/// A link whose answers come some waits after a request was sent, as over a tunnel.
#[derive(Debug, Default)]
struct Late {
    sent: Mutex<VecDeque<u32>>,
    waits: Mutex<usize>,
}

impl Link for Late {
    fn port(&self) -> u32 {
        3
    }

    fn send(&self, datagram: &[u8]) -> Result<(), SocketError> {
        let number = u32::from_ne_bytes([datagram[8], datagram[9], datagram[10], datagram[11]]);
        self.sent.lock().expect("a lock").push_back(number);
        *self.waits.lock().expect("a lock") = 3;
        Ok(())
    }

    fn receive(&self, room: &mut Vec<u8>) -> Result<Option<Arrived>, SocketError> {
        if *self.waits.lock().expect("a lock") > 0 {
            return Ok(None);
        }
        let next = self.sent.lock().expect("a lock").pop_front();
        Ok(next.map(|it| Arrived::into_room(room, &message(3, 2, it, 3), 0)))
    }

    fn wait(&self, _limit: Option<Duration>) -> Result<(), SocketError> {
        let mut waits = self.waits.lock().expect("a lock");
        *waits = waits.checked_sub(1).ok_or(SocketError::Ended)?;
        Ok(())
    }

    fn answers_later(&self) -> bool {
        true
    }
}

#[test]
fn an_answer_that_comes_later_is_awaited() -> Outcome {
    let (router, _multicast) = NlRouter::over(Late::default())?;
    let mut replies = dump(&router)?;
    assert!(replies.next().is_some_and(|it| it.is_ok()) && replies.next().is_none());
    assert_eq!((replies.verdict(), *router.link().waits.lock().expect("a lock")), (Verdict::Complete, 0));
    Ok(())
}
