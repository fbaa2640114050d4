//! Whether an answer is complete: answers that are complete, interrupted or fail, and listening that continues.

use crate::links::{LINK_GROUP, Links, ask, dump, link, make_pairs, names, router, set_loopback};
use crate::space::alone;
use neli::FromBytes;
use neli::consts::nl::NlmF;
use neli::consts::rtnl::{Ifla, RtAddrFamily, RtScope, Rtm};
use neli::err::{DeError, RouterError, SocketError};
use neli::nl::NlPayload;
use neli::router::synchronous::{Dump, Loss, Missed, NlRouter, NlRouterReceiverHandle, Notice, Verdict};
use neli::rtnl::{Ifaddrmsg, IfaddrmsgBuilder, Ifinfomsg, RtattrBuilder};
use neli::types::Buffer;
use std::io::ErrorKind;
use std::sync::atomic::{AtomicUsize, Ordering};
use std::time::Duration;

/// `NLMSG_DONE` of `linux/netlink.h`.
const DONE: u16 = 3;

/// `ENODEV` of `errno.h`, negated.
const NO_DEVICE: i32 = -19;

/// So many pairs of links are listed in several datagrams.
const MANY: usize = 150;

/// A router, and so many links that it lists them in many datagrams, one of which fits its socket.
fn with_many_links() -> NlRouter {
    make_pairs(MANY);
    let (router, _) = router(&[]);
    router.socket().set_recv_buffer_size(8000).expect("the buffer is made small");
    router
}

/// Removes a link, and its other end.
fn remove(name: &str) {
    let name = RtattrBuilder::default().rta_type(Ifla::Ifname).rta_payload(name).build().expect("a name");
    let gone = link(0).rtattrs([name].into_iter().collect()).build().expect("a link");
    ask(&router(&[]).0, Rtm::Dellink, NlmF::empty(), gone).expect("a link is removed");
}

/// A link is removed between two receives: the kernel marks the first message of the datagram that it fills next.
#[test]
fn a_dump_is_interrupted() {
    alone(|| {
        let router = with_many_links();
        let mut links = dump(&router);
        assert_eq!(links.verdict(), Verdict::Pending);
        let (mut came, mut marked) = (0, 0);
        while let Some(message) = links.next() {
            let message = message.expect("a dump has no error");
            if came == 0 {
                remove("pair140");
            }
            came += 1;
            let is_marked = message.nl_flags().contains(NlmF::DUMP_INTR);
            assert!(!is_marked || *message.nl_type() != Rtm::from(DONE));
            marked += usize::from(is_marked);
            assert_eq!(links.verdict(), if marked > 0 { Verdict::Interrupted } else { Verdict::Pending });
        }
        assert_eq!((marked, links.verdict(), links.is_filtered()), (1, Verdict::Interrupted, false));
    });
}

/// The number of lists begun, the number of further lists at which a link is removed, and the number removed in all.
static BEGUN: AtomicUsize = AtomicUsize::new(0);
static REMOVALS: AtomicUsize = AtomicUsize::new(0);
static REMOVED: AtomicUsize = AtomicUsize::new(0);

/// A link. While the first link of a list, the loopback, is read, another one is removed.
struct Removing;

impl FromBytes for Removing {
    fn from_bytes(bytes: &[u8]) -> Result<Self, DeError> {
        if *Ifinfomsg::from_bytes(bytes)?.ifi_index() == 1 {
            BEGUN.fetch_add(1, Ordering::Relaxed);
            if REMOVALS.fetch_update(Ordering::Relaxed, Ordering::Relaxed, |it| it.checked_sub(1)).is_ok() {
                remove(&format!("pair{}", REMOVED.fetch_add(1, Ordering::Relaxed)));
            }
        }
        Ok(Removing)
    }
}

/// Requests all links, some of which are removed: returns the list, and the number of times that it was begun.
fn list(router: &NlRouter, times: usize, removals: usize) -> (Dump<Rtm, Removing>, usize) {
    BEGUN.store(0, Ordering::Relaxed);
    REMOVALS.store(removals, Ordering::Relaxed);
    let all = NlPayload::Payload(link(0).build().expect("a link"));
    let listed = router.dump(Rtm::Getlink, NlmF::empty(), all, times).expect("a dump is asked for");
    (listed, BEGUN.load(Ordering::Relaxed))
}

#[test]
fn a_dump_is_repeated() {
    alone(|| {
        let router = with_many_links();
        let (whole, begun) = list(&router, 3, 0);
        assert_eq!((whole.verdict, begun, whole.messages.len()), (Verdict::Complete, 1, 2 * MANY + 1));
        let (repeated, begun) = list(&router, 3, 1);
        assert_eq!((repeated.verdict, begun, repeated.messages.len()), (Verdict::Complete, 2, 2 * MANY - 1));
        let (marked, begun) = list(&router, 2, 3);
        assert_eq!((marked.verdict, begun), (Verdict::Interrupted, 2));
        assert!(marked.error.is_none() && marked.messages.len() > 2 * MANY - 10);
        let (marked, begun) = list(&router, 0, 4);
        assert_eq!((marked.verdict, begun), (Verdict::Interrupted, 1));
    });
}

/// The addresses of a link.
fn addresses(router: &NlRouter, index: u32) -> Dump<Rtm, Ifaddrmsg> {
    let asked = IfaddrmsgBuilder::default()
        .ifa_family(RtAddrFamily::Inet)
        .ifa_prefixlen(0)
        .ifa_scope(RtScope::Universe)
        .ifa_index(index)
        .build();
    let asked = NlPayload::Payload(asked.expect("an address"));
    router.dump(Rtm::Getaddr, NlmF::empty(), asked, 3).expect("a dump is asked for")
}

/// The kernel ends the list of a missing link with NLMSG_DONE and ENODEV, if it checks the index.
#[test]
fn a_dump_fails_at_its_end() {
    alone(|| {
        let (router, _) = router(&[]);
        set_loopback(&router, true);
        let all = addresses(&router, 4711);
        assert_eq!((all.verdict, all.messages.len(), all.is_filtered), (Verdict::Complete, 1, false));
        router.enable_strict_checking(true).expect("the kernel looks at all fields");
        let one = addresses(&router, 1);
        assert_eq!((one.verdict, one.messages.len(), one.is_filtered), (Verdict::Complete, 1, true));
        let none = addresses(&router, 4711);
        assert_eq!((none.verdict, none.messages.len()), (Verdict::Failed(NO_DEVICE), 0));
        assert_eq!(none.error.as_ref().and_then(RouterError::errno), Some(-NO_DEVICE));
    });
}

/// Linux does not answer a dump of routing without a header (rtnetlink_rcv_msg), and that is no empty list. Type 70 has
/// no header that a router could send.
#[test]
fn a_dump_that_is_not_answered_is_not_complete() {
    alone(|| {
        let (router, mut multicast) = router(&[]);
        let (kind, nothing) = (Rtm::UnrecognizedConst(70), || NlPayload::<_, Buffer>::Empty);
        let all: Dump<Rtm, Ifinfomsg> = router.dump(kind, NlmF::empty(), nothing(), 3).expect("it is sent");
        assert_eq!((all.verdict, all.messages.len()), (Verdict::Lost(Loss::Unended), 0));
        let error = multicast.resync::<_, _, Rtm, Ifinfomsg>(kind, nothing(), 3).expect_err("there is no list");
        assert_eq!(error.to_string(), "the list has no end");
    });
}

/// A request that is no dump.
fn asked<P>(router: &NlRouter, index: i32) -> NlRouterReceiverHandle<Rtm, P> {
    let body = NlPayload::Payload(link(index).build().expect("a link"));
    router.send(Rtm::Getlink, NlmF::ACK, body).expect("a link is asked for")
}

#[test]
fn other_answers_have_a_verdict() {
    alone(|| {
        let (router, multicast) = router(&[]);
        let mut there: Links = asked(&router, 1);
        assert!(there.next().is_some_and(|it| it.is_ok()));
        assert_eq!(there.verdict(), Verdict::Pending);
        assert!(there.next().is_some_and(|it| it.is_ok()) && there.next().is_none());
        assert_eq!((there.verdict(), multicast.verdict()), (Verdict::Complete, Verdict::Pending));
        let mut not_there: Links = asked(&router, 4711);
        assert!(not_there.next().is_some_and(|it| it.is_err()));
        assert_eq!(not_there.verdict(), Verdict::Failed(NO_DEVICE));
        // A link is no u16, and later messages arrive all the same.
        let mut unreadable = asked::<u16>(&router, 1);
        assert!(matches!(unreadable.next(), Some(Err(RouterError::De(_)))));
        assert!(unreadable.next().is_some_and(|it| it.is_ok()) && unreadable.next().is_none());
        assert_eq!(unreadable.verdict(), Verdict::Lost(Loss::Unreadable));
        assert_eq!(names(asked(&router, 1)), ["lo"]);
    });
}

/// The result of a listener's read, in a word; nothing if the wait has ended.
fn heard<P: FromBytes>(multicast: &mut NlRouterReceiverHandle<u16, Buffer>) -> &'static str {
    match multicast.listen::<Rtm, P>() {
        Ok(Notice::Message(_)) => "a message",
        Ok(Notice::Untyped(Ok(message))) if *message.nl_type() == u16::from(Rtm::Newlink) => "as it came",
        Ok(Notice::Untyped(_)) => "unreadable",
        Ok(Notice::Missed(Missed::Overrun)) => "an overrun",
        Ok(Notice::Missed(Missed::Fault(_))) => "a fault",
        Err(RouterError::Socket(SocketError::Io(error))) if error.kind() == ErrorKind::WouldBlock => "",
        Err(error) => panic!("{error}"),
    }
}

#[test]
fn who_listens_goes_on() {
    alone(|| {
        let (other, mut nothing) = router(&[]);
        let (router, mut multicast) = router(&[LINK_GROUP]);
        router.socket().set_recv_timeout(Some(Duration::from_millis(200))).expect("a time is set");
        set_loopback(&other, true);
        // A link is no u16.
        assert_eq!(heard::<u16>(&mut multicast), "as it came");
        router.socket().set_recv_buffer_size(1).expect("the buffer is made small");
        (0..100).for_each(|at| set_loopback(&other, at % 2 == 1));
        let all: Vec<_> =
            std::iter::from_fn(|| Some(heard::<Ifinfomsg>(&mut multicast))).take_while(|it| !it.is_empty()).collect();
        assert_eq!(all.iter().filter(|it| **it == "an overrun").count(), 1, "{all:?}");
        assert!(all.iter().all(|it| matches!(*it, "a message" | "an overrun")), "{all:?}");
        router.socket().set_recv_buffer_size(1 << 20).expect("the buffer is made large");
        set_loopback(&other, false);
        assert_eq!(heard::<Ifinfomsg>(&mut multicast), "a message");
        // A listener in no group waits, and the handle of a request reports that it is not that of multicast.
        other.socket().set_recv_timeout(Some(Duration::from_millis(50))).expect("a time is set");
        assert_eq!(heard::<Ifinfomsg>(&mut nothing), "");
        assert!(matches!(dump(&router).listen::<Rtm, Ifinfomsg>(), Err(RouterError::ClosedChannel)));
    });
}
