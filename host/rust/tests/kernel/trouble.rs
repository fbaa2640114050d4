//! The router over a socket under trouble: requests that are dropped early, lost, echoed or never answered, and
//! messages without a request.

use crate::links::{LINK_GROUP, Links, ask, dump, link, make_pairs, name, named, names, router, set_loopback};
use crate::space::alone;
use neli::consts::nl::{NlmF, Nlmsg};
use neli::consts::rtnl::{Ifa, Iff, Ifla, RtAddrFamily, RtScope, Rtm};
use neli::err::{RouterError, SocketError};
use neli::nl::{NlPayload, Nlmsghdr, NlmsghdrBuilder};
use neli::router::synchronous::{NlRouter, NlRouterReceiverHandle, Verdict};
use neli::rtnl::{Ifaddrmsg, IfaddrmsgBuilder, Ifinfomsg, RtattrBuilder};
use neli::types::Buffer;
use std::collections::BTreeMap;
use std::fs;
use std::io::ErrorKind;
use std::sync::OnceLock;
use std::sync::atomic::{AtomicBool, Ordering};
use std::sync::mpsc::{Sender, channel};
use std::thread;
use std::time::{Duration, Instant};

const ENOBUFS: i32 = 105;
const ECANCELED: i32 = 125;

/// A short time for a wait.
const SHORT: Duration = Duration::from_millis(300);

fn asked(router: &NlRouter, index: i32) -> Links {
    let body = NlPayload::Payload(link(index).build().expect("a link"));
    router.send(Rtm::Getlink, NlmF::ACK, body).expect("a link is asked for")
}

/// A request that is answered by nothing: a change without ACK.
fn unanswered(router: &NlRouter) -> Links {
    let body = NlPayload::Payload(link(1).up().build().expect("a link"));
    router.send(Rtm::Setlink, NlmF::empty(), body).expect("a change is asked for")
}

fn set_mtu(router: &NlRouter, mtu: u32) {
    let mtu = RtattrBuilder::default().rta_type(Ifla::Mtu).rta_payload(mtu).build().expect("an mtu");
    let body = link(1).up().rtattrs([mtu].into_iter().collect()).build().expect("a link");
    ask(router, Rtm::Setlink, NlmF::empty(), body).expect("the mtu is changed");
}

/// The number of the system in an error of the socket.
fn number(error: &RouterError) -> Option<i32> {
    match error {
        RouterError::Socket(SocketError::Io(it)) => it.raw_os_error(),
        _ => None,
    }
}

fn is_late(error: &RouterError) -> bool {
    matches!(error, RouterError::Socket(SocketError::Io(it)) if it.kind() == ErrorKind::WouldBlock)
}

fn wait_shortly(router: &NlRouter) {
    router.socket().set_recv_timeout(Some(SHORT)).expect("a time is set");
}

// ---- Dropped early

#[test]
fn a_handle_is_dropped_at_any_time() {
    alone(|| {
        let (other, _) = router(&[]);
        let (router, _multicast) = router(&[LINK_GROUP]);
        for _ in 0..100 {
            drop(asked(&router, 1));
            assert!(asked(&router, 1).next().is_some_and(|it| it.is_ok()));
            assert_eq!(names(asked(&router, 1)), ["lo"]);
        }
        // The answers of a request end with a loss, and the kernel's replies arrive all the same.
        router.socket().set_recv_buffer_size(1).expect("the buffer is made small");
        (0..100).for_each(|at| set_loopback(&other, at % 2 == 0));
        router.socket().set_recv_buffer_size(1 << 20).expect("the buffer is made large");
        let lost = asked(&router, 1).find_map(Result::err).expect("the request ends with a loss");
        assert_eq!(number(&lost), Some(ENOBUFS));
        for _ in 0..100 {
            assert_eq!(names(asked(&router, 1)), ["lo"]);
        }
    });
}

#[test]
fn a_number_that_may_still_be_answered_is_refused() {
    alone(|| {
        let (router, _) = router(&[]);
        drop(asked(&router, 1));
        router.set_next_seq(0);
        let body = NlPayload::Payload(link(1).build().expect("a link"));
        let again = router.send::<_, _, Rtm, Ifinfomsg>(Rtm::Getlink, NlmF::ACK, body);
        assert!(matches!(again, Err(RouterError::SeqInUse)));
        router.set_next_seq(1);
        assert_eq!(names(asked(&router, 1)), ["lo"]);
        router.set_next_seq(0);
        assert_eq!(names(asked(&router, 1)), ["lo"]);
    });
}

#[test]
fn a_dump_that_is_broken_off_hinders_no_other() {
    alone(|| {
        let count = make_pairs(60);
        let (router, _) = router(&[]);
        for _ in 0..20 {
            let found = dump(&router).find(|it| it.as_ref().is_ok_and(|it| it.get_payload().is_some()));
            assert!(found.is_some());
        }
        let (first, second) = (dump(&router), dump(&router));
        assert_eq!(names(second).len(), count);
        assert_eq!(names(first).len(), count);
    });
}

#[test]
fn a_dump_is_begun_by_one_bit() {
    alone(|| {
        let count = make_pairs(60);
        let (router, _) = router(&[]);
        for bit in [NlmF::ROOT, NlmF::MATCH] {
            let all = NlPayload::Payload(link(0).build().expect("a link"));
            let first = dump(&router);
            let second: Links = router.send(Rtm::Getlink, bit, all).expect("a dump is asked for");
            let third = dump(&router);
            assert_eq!(names(third).len(), count);
            assert_eq!(names(second).len(), count);
            assert_eq!(names(first).len(), count);
        }
    });
}

/// The memory of the process, in bytes.
fn memory() -> usize {
    let words = fs::read_to_string("/proc/self/statm").expect("the process has a memory");
    words.split(' ').nth(1).and_then(|it| it.parse::<usize>().ok()).expect("pages are counted") * 4096
}

#[test]
fn what_nobody_reads_is_not_kept() {
    alone(|| {
        let (other, _) = router(&[]);
        let (router, mut multicast) = router(&[LINK_GROUP]);
        // A request that is dropped unread gets a loss, and no answer.
        drop(unanswered(&router));
        router.socket().set_recv_buffer_size(1).expect("the buffer is made small");
        (0..100).for_each(|at| set_loopback(&other, at % 2 == 0));
        router.socket().set_recv_buffer_size(1 << 20).expect("the buffer is made large");
        assert!(multicast.find(Result::is_err).is_some(), "something is lost");
        wait_shortly(&router);
        assert!(multicast.find(Result::is_err).is_some(), "and then nothing is there");
        let mut before = 0;
        for at in 0..6000 {
            set_mtu(&other, 1000 + at);
            assert!(multicast.next().is_some_and(|it| it.is_ok()));
            if at == 500 {
                before = memory();
            }
        }
        let grown = memory().saturating_sub(before);
        assert!(grown < 1 << 20, "{grown} bytes more");
    });
}

// ---- Echoes

fn add_address(router: &NlRouter, flags: NlmF, last: u8) -> NlRouterReceiverHandle<Rtm, Ifaddrmsg> {
    let local = RtattrBuilder::default().rta_type(Ifa::Local).rta_payload([203, 0, 113, last]).build();
    let body = IfaddrmsgBuilder::default()
        .ifa_family(RtAddrFamily::Inet)
        .ifa_prefixlen(24)
        .ifa_scope(RtScope::Universe)
        .ifa_index(1)
        .rtattrs([local.expect("an attribute")].into_iter().collect())
        .build();
    let body = NlPayload::Payload(body.expect("an address"));
    router.send(Rtm::Newaddr, flags | NlmF::CREATE | NlmF::EXCL, body).expect("an address is asked for")
}

/// The kinds of messages in a request's answer.
fn kinds(replies: NlRouterReceiverHandle<Rtm, Ifaddrmsg>) -> Vec<u16> {
    replies.map(|it| (*it.expect("no error comes").nl_type()).into()).collect()
}

#[test]
fn an_echo_reaches_its_request() {
    alone(|| {
        let (newaddr, ack) = (u16::from(Rtm::Newaddr), u16::from(Nlmsg::Error));
        let (deaf, mut nothing) = router(&[]);
        wait_shortly(&deaf);
        assert_eq!(kinds(add_address(&deaf, NlmF::ECHO, 1)), [newaddr]);
        assert_eq!(kinds(add_address(&deaf, NlmF::ECHO | NlmF::ACK, 2)), [newaddr, ack]);
        assert!(nothing.next().is_some_and(|it| it.is_err_and(|it| is_late(&it))));

        // RTNLGRP_IPV4_IFADDR of linux/rtnetlink.h is 5.
        let (router, mut multicast) = router(&[5]);
        wait_shortly(&router);
        assert_eq!(kinds(add_address(&router, NlmF::ECHO | NlmF::ACK, 3)), [newaddr, ack]);
        assert!(multicast.next_typed::<Rtm, Ifaddrmsg>().is_some_and(|it| it.is_ok()));
        // Without ECHO the request causes only a notification, though it has the request's number.
        assert_eq!(kinds(add_address(&router, NlmF::ACK, 4)), [ack]);
        assert!(multicast.next_typed::<Rtm, Ifaddrmsg>().is_some_and(|it| it.is_ok()));
        assert!(multicast.next().is_some_and(|it| it.is_err_and(|it| is_late(&it))));
    });
}

// ---- Losses

#[test]
fn a_loss_stands_where_it_came() {
    alone(|| {
        let (other, _) = router(&[]);
        let (router, mut multicast) = router(&[LINK_GROUP]);
        wait_shortly(&router);
        set_loopback(&other, true);
        assert_eq!(names(asked(&router, 1)), ["lo"]);
        router.socket().set_recv_buffer_size(1).expect("the buffer is made small");
        (0..100).for_each(|at| set_loopback(&other, at % 2 == 0));
        let told = asked(&router, 1).find_map(Result::err).expect("the request is told");
        assert_eq!(number(&told), Some(ENOBUFS));
        assert!(multicast.next().is_some_and(|it| it.is_ok()), "what came before");
        let lost = multicast.next().and_then(Result::err).expect("then the loss");
        assert_eq!(number(&lost), Some(ENOBUFS));
        assert!(multicast.next().is_some_and(|it| it.is_ok()), "and what the socket gave after it");
    });
}

/// The MTU of each link, by its index.
type Picture = BTreeMap<i32, u32>;

fn put(picture: &mut Picture, is_gone: bool, link: &Ifinfomsg) {
    let mtu = link.rtattrs().get_attr_handle().get_attr_payload_as(Ifla::Mtu).expect("a link has an mtu");
    if is_gone {
        picture.remove(link.ifi_index());
    } else {
        picture.insert(*link.ifi_index(), mtu);
    }
}

fn resynced(multicast: &mut NlRouterReceiverHandle<u16, Buffer>) -> Picture {
    let mut picture = Picture::new();
    let all = NlPayload::Payload(link(0).build().expect("a link"));
    let links = multicast.resync::<_, _, Rtm, Ifinfomsg>(Rtm::Getlink, all, 1000).expect("a dump is whole");
    links.iter().filter_map(|it| it.get_payload()).for_each(|it| put(&mut picture, false, it));
    picture
}

/// Makes and removes links, and changes the MTU of another, as fast as it can. It reports when it has begun.
fn storm(first: u32, under_way: &Sender<()>) {
    let (router, _) = router(&[]);
    for at in first..first + 30 {
        let new = NlmF::CREATE | NlmF::EXCL;
        ask(&router, Rtm::Newlink, new, named("veth", &format!("a{at}"))).expect("a pair is made");
        (0..30).for_each(|more| set_mtu(&router, 1000 + 30 * at + more));
        if at % 3 != 0 {
            let text = RtattrBuilder::default().rta_type(Ifla::Ifname).rta_payload(format!("a{at}")).build();
            let gone = link(0).rtattrs([text.expect("a name")].into_iter().collect()).build().expect("a link");
            ask(&router, Rtm::Dellink, NlmF::empty(), gone).expect("a pair is removed");
        }
        if at == first + 8 {
            under_way.send(()).expect("the test waits for it");
        }
    }
}

fn want_right_picture(buffer: usize, first: u32) {
    let (router, mut multicast) = router(&[LINK_GROUP]);
    router.socket().set_recv_buffer_size(buffer).expect("the buffer is made small");
    wait_shortly(&router);
    let mut picture = resynced(&mut multicast);
    let mut losses = 0;
    let (under_way, waits) = channel();
    let storm = thread::spawn(move || storm(first, &under_way));
    waits.recv().expect("the storm is under way");
    loop {
        let is_over = storm.is_finished();
        match multicast.next_typed::<Rtm, Ifinfomsg>().expect("there is no last one") {
            Ok(news) => {
                let link = news.get_payload().expect("a link");
                put(&mut picture, *news.nl_type() == Rtm::Dellink, link);
                thread::sleep(Duration::from_millis(1));
            }
            Err(error) if is_late(&error) && is_over => break,
            Err(error) if is_late(&error) => {}
            Err(error) => {
                assert_eq!(number(&error), Some(ENOBUFS));
                losses += 1;
                picture = resynced(&mut multicast);
            }
        }
    }
    storm.join().expect("the storm ends");
    assert!(losses > 0);
    router.socket().set_recv_buffer_size(1 << 20).expect("the buffer is made large");
    assert_eq!(picture, resynced(&mut multicast));
}

#[test]
fn a_picture_is_right_after_a_storm() {
    alone(|| {
        make_pairs(30);
        [8000, 20000, 8000, 20000]
            .into_iter()
            .zip([0, 100, 200, 300])
            .for_each(|(it, first)| want_right_picture(it, first));
    });
}

#[test]
fn what_comes_between_two_lists_is_heard() {
    alone(|| {
        let (other, _) = router(&[]);
        let (router, mut multicast) = router(&[LINK_GROUP]);
        wait_shortly(&router);
        let all = || NlPayload::<Rtm, Buffer>::Empty;
        set_loopback(&other, true);
        let (links, addresses) = multicast
            .resync_all(3, |lists| {
                let links: Vec<Nlmsghdr<Rtm, Ifinfomsg>> = lists.dump(Rtm::Getlink, all())?;
                set_loopback(&other, false);
                let addresses: Vec<Nlmsghdr<Rtm, Ifaddrmsg>> = lists.dump(Rtm::Getaddr, all())?;
                Ok((links, addresses))
            })
            .expect("both lists are whole");
        let is_up = |it: &Ifinfomsg| it.ifi_flags().contains(Iff::UP);
        assert!(links.iter().filter_map(|it| it.get_payload()).any(|it| *it.ifi_index() == 1 && is_up(it)));
        assert!(addresses.iter().all(|it| it.get_payload().is_some()));
        let news = multicast.next_typed::<Rtm, Ifinfomsg>().expect("it goes on").expect("no error");
        assert!(
            news.get_payload().is_some_and(|it| !is_up(it)),
            "what was before is dropped, and what came after is not"
        );
        assert!(multicast.next().is_some_and(|it| it.is_err_and(|it| is_late(&it))));
    });
}

// ---- Waits

#[test]
fn each_wait_has_its_end() {
    alone(|| {
        let (other, _) = router(&[]);
        let (router, mut multicast) = router(&[LINK_GROUP]);
        // One waits without end while the time of the others is set.
        let news = thread::spawn(move || while multicast.next().is_some_and(|it| it.is_ok()) {});
        thread::sleep(Duration::from_millis(50));
        wait_shortly(&router);
        static IS_OVER: AtomicBool = AtomicBool::new(false);
        let noise = thread::spawn(move || {
            for at in 0.. {
                set_loopback(&other, at % 2 == 0);
                thread::sleep(Duration::from_millis(10));
                if IS_OVER.load(Ordering::Relaxed) {
                    break;
                }
            }
        });
        for _ in 0..5 {
            let mut unasked = router.unasked().expect("nobody else has it");
            let waiter = thread::spawn(move || {
                let start = Instant::now();
                let late = unasked.next().is_some_and(|it| it.is_err_and(|it| is_late(&it)));
                (late, start.elapsed())
            });
            // What is answered by nothing has its end at once.
            let mut change = unanswered(&router);
            assert!(change.next().is_none() && change.verdict() == Verdict::Complete);
            let (is_late, waited) = waiter.join().expect("a thread ends");
            assert!(is_late && waited >= SHORT && waited < SHORT * 5, "{waited:?}");
        }
        IS_OVER.store(true, Ordering::Relaxed);
        noise.join().expect("the noise ends");
        router.stop();
        news.join().expect("the thread ends");
    });
}

#[test]
fn who_waits_at_the_socket_is_given_what_another_receives() {
    alone(|| {
        const MANY: usize = 2000;
        let (router, multicast) = router(&[LINK_GROUP]);
        let (heard, count) = channel();
        // It waits at the socket, and another thread mostly receives its messages.
        let news = thread::spawn(move || {
            let is_well = multicast.take(MANY).all(|it| it.is_ok());
            heard.send(is_well).expect("the test waits for it");
        });
        (0..MANY).for_each(|at| set_loopback(&router, at % 2 == 0));
        assert!(count.recv_timeout(Duration::from_secs(20)).expect("all of it comes"));
        news.join().expect("the thread ends");
    });
}

#[test]
fn threads_that_wait_cost_a_request_nothing() {
    alone(|| {
        let (router, multicast) = router(&[]);
        let unasked = router.unasked().expect("nobody else has it");
        let parked: Vec<_> = [multicast, unasked]
            .into_iter()
            .map(|mut handle| {
                thread::spawn(move || {
                    let is_stopped = handle.next().is_some_and(|it| it.is_err_and(|it| number(&it) == Some(ECANCELED)));
                    is_stopped && handle.next().is_none()
                })
            })
            .collect();
        thread::sleep(Duration::from_millis(300));
        let start = Instant::now();
        for _ in 0..200 {
            assert_eq!(names(asked(&router, 1)), ["lo"]);
        }
        let each = start.elapsed() / 200;
        assert!(each < Duration::from_millis(5), "{each:?}");
        router.stop();
        assert!(parked.into_iter().all(|it| it.join().expect("a thread ends")));
        assert_eq!(names(asked(&router, 1)), ["lo"], "what is there can be read");
        let mut unasked = router.unasked().expect("its handle was dropped");
        assert!(unasked.next().is_some_and(|it| it.is_err_and(|it| number(&it) == Some(ECANCELED))));
        assert!(unasked.next().is_none(), "after that it ends");
    });
}

mod signals {
    use std::ffi::c_int;
    use std::os::unix::thread::RawPthread;

    const SIGUSR1: c_int = 10;

    unsafe extern "C" {
        fn signal(number: c_int, handler: extern "C" fn(c_int)) -> usize;
        fn pthread_kill(thread: RawPthread, number: c_int) -> c_int;
    }

    extern "C" fn on_signal(_number: c_int) {}

    /// Sends a thread a signal that has a handler.
    pub fn send(thread: RawPthread) {
        // SAFETY: the handler does nothing, and the caller joins the thread afterwards.
        unsafe {
            signal(SIGUSR1, on_signal);
            pthread_kill(thread, SIGUSR1);
        }
    }
}

#[test]
fn a_signal_ends_a_wait_of_who_asks_for_it() {
    use std::os::unix::thread::JoinHandleExt;
    alone(|| {
        let (router, mut multicast) = router(&[]);
        router.socket().end_waits_by_signals(true);
        let waiter = thread::spawn(move || {
            let error = multicast.next().and_then(Result::err);
            (multicast, error.and_then(|it| number(&it)))
        });
        thread::sleep(SHORT);
        signals::send(waiter.as_pthread_t());
        let (mut multicast, ended) = waiter.join().expect("the thread ends");
        // EINTR is 4.
        assert_eq!(ended, Some(4));

        router.socket().end_waits_by_signals(false);
        wait_shortly(&router);
        let waiter = thread::spawn(move || multicast.next().is_some_and(|it| it.is_err_and(|it| is_late(&it))));
        thread::sleep(SHORT / 3);
        signals::send(waiter.as_pthread_t());
        assert!(waiter.join().expect("the thread ends"));
    });
}

// ---- Messages without a request, and other small things

#[test]
fn what_was_not_asked_for_ends_nothing() {
    alone(|| {
        let (router, _) = router(&[]);
        wait_shortly(&router);
        // Requests behind the router's back: their answers have numbers that no request has.
        let by_hand = |number| {
            let body = NlPayload::Payload(link(1).build().expect("a link"));
            let flags = NlmF::REQUEST | NlmF::ACK;
            let message = NlmsghdrBuilder::default().nl_type(Rtm::Getlink).nl_flags(flags).nl_seq(number);
            let message = message.nl_payload(body).build().expect("a message");
            router.socket().send(&message).expect("it is sent");
        };
        by_hand(4711);
        assert_eq!(names(asked(&router, 1)), ["lo"]);
        let mut unasked = router.unasked().expect("nobody else has it");
        assert!(matches!(router.unasked(), Err(RouterError::ClosedChannel)));
        assert!(unasked.next().is_some_and(|it| it.is_err_and(|it| is_late(&it))));
        (0..10).for_each(|at| by_hand(4711 + at));
        assert_eq!(names(asked(&router, 1)), ["lo"]);
        for at in 0..10 {
            let answer = unasked.next_typed::<Rtm, Ifinfomsg>().expect("it came").expect("and can be read");
            assert_eq!((*answer.nl_seq(), answer.get_payload().map(name).as_deref()), (4711 + at, Some("lo")));
            let ack = unasked.next().expect("it came").expect("and can be read");
            assert!(matches!(ack.nl_payload(), NlPayload::Ack(_)));
        }
        drop(unasked);
        assert!(router.unasked().is_ok());
    });
}

/// A type of messages whose number is found through the router.
#[derive(Clone, Copy, Debug)]
struct Asking;

static ROUTER: OnceLock<NlRouter> = OnceLock::new();

impl From<u16> for Asking {
    fn from(_number: u16) -> Self {
        Asking
    }
}

impl From<Asking> for u16 {
    fn from(_asking: Asking) -> u16 {
        ROUTER.get().expect("there is a router").set_next_seq(100);
        Rtm::Getlink.into()
    }
}

#[test]
fn a_type_of_messages_may_call_the_router() {
    alone(|| {
        let (router, _) = router(&[]);
        let router = ROUTER.get_or_init(|| router);
        let body = NlPayload::Payload(link(1).build().expect("a link"));
        let replies = router.send::<_, _, Rtm, Ifinfomsg>(Asking, NlmF::ACK, body).expect("a link is asked for");
        assert_eq!(names(replies), ["lo"]);
    });
}

#[test]
fn a_name_that_is_no_text_is_listed() {
    alone(|| {
        let (router, _) = router(&[]);
        let kind = RtattrBuilder::default().rta_type(neli::consts::rtnl::IflaInfo::Kind).rta_payload("veth").build();
        let info = RtattrBuilder::default().rta_type(Ifla::Linkinfo).rta_payload(()).build().expect("an attribute");
        let info = info.nest(&kind.expect("a kind")).expect("a kind in an attribute");
        let name = RtattrBuilder::default().rta_type(Ifla::Ifname).rta_payload(*b"caf\xe9\0").build().expect("a name");
        let body = link(0).rtattrs([name, info].into_iter().collect()).build().expect("a link");
        ask(&router, Rtm::Newlink, NlmF::CREATE | NlmF::EXCL, body).expect("a pair is made");
        let name =
            |it: &Ifinfomsg| it.rtattrs().get_attr_handle().get_attr_payload_as::<std::ffi::CString>(Ifla::Ifname);
        let links: Vec<_> = dump(&router).collect::<Result<_, _>>().expect("a dump has no error");
        let names: Vec<_> = links.iter().filter_map(|it| name(it.get_payload()?).ok()).collect();
        assert!(names.iter().any(|it| it.as_bytes() == b"caf\xe9"), "{names:?}");
    });
}
