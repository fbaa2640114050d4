//! A router in a loop of the program's own, by epoll: nothing of it waits, and no wake-up is lost.

use crate::links::{LINK_GROUP, Links, dump, link, make_pairs, router, set_loopback};
use crate::space::alone;
use neli::consts::nl::NlmF;
use neli::consts::rtnl::Rtm;
use neli::nl::NlPayload;
use neli::router::synchronous::{NlRouter, NlRouterReceiverHandle, Verdict};
use neli::types::Buffer;
use std::os::fd::AsFd;
use std::task::Poll;
use std::thread;

const CHANGES: usize = 300;

mod epoll {
    use std::ffi::c_int;
    use std::io;
    use std::os::fd::{AsRawFd, BorrowedFd, FromRawFd, OwnedFd};

    // Of sys/epoll.h.
    const CTL_ADD: c_int = 1;
    const IN: u32 = 1;
    const EDGE: u32 = 1 << 31;

    /// `struct epoll_event` on x86-64.
    #[repr(C, packed)]
    struct Event {
        events: u32,
        data: u64,
    }

    unsafe extern "C" {
        fn epoll_create1(flags: c_int) -> c_int;
        fn epoll_ctl(epoll: c_int, what: c_int, fd: c_int, event: *mut Event) -> c_int;
        fn epoll_wait(epoll: c_int, events: *mut Event, count: c_int, milliseconds: c_int) -> c_int;
    }

    pub struct Epoll(OwnedFd);

    impl Epoll {
        /// One that watches a descriptor for what can be read, by level or by edge.
        pub fn watching(fd: BorrowedFd<'_>, by_edge: bool) -> Epoll {
            let mut event = Event { events: IN | if by_edge { EDGE } else { 0 }, data: 0 };
            // SAFETY: the new descriptor is this function's alone, and the pointer is to `event`.
            unsafe {
                let epoll = epoll_create1(0);
                assert!(epoll >= 0 && epoll_ctl(epoll, CTL_ADD, fd.as_raw_fd(), &mut event) == 0);
                Epoll(OwnedFd::from_raw_fd(epoll))
            }
        }

        /// Whether it becomes readable within this time.
        pub fn wait(&self, milliseconds: c_int) -> bool {
            let mut event = Event { events: 0, data: 0 };
            // SAFETY: the pointer is to `event`, and there is room for one.
            let count = unsafe { epoll_wait(self.0.as_raw_fd(), &mut event, 1, milliseconds) };
            assert!(count >= 0, "{}", io::Error::last_os_error());
            count > 0
        }
    }
}

/// What a request has returned so far.
struct Asked {
    replies: Links,
    count: usize,
    is_over: bool,
}

impl Asked {
    fn new(replies: Links) -> Self {
        Asked { replies, count: 0, is_over: false }
    }

    /// Takes what is there.
    fn take(&mut self) {
        while let Poll::Ready(next) = self.replies.try_next() {
            match next {
                Some(reply) => assert!(reply.is_ok()),
                None => return self.is_over = true,
            }
            self.count += 1;
        }
    }
}

fn heard(multicast: &mut NlRouterReceiverHandle<u16, Buffer>) -> usize {
    let mut count = 0;
    while let Poll::Ready(Some(news)) = multicast.try_next() {
        assert!(news.is_ok());
        count += 1;
    }
    count
}

fn get(router: &NlRouter) -> Links {
    let body = NlPayload::Payload(link(1).build().expect("a link"));
    router.send(Rtm::Getlink, NlmF::ACK, body).expect("it is sent")
}

/// Two dumps and three gets, while another socket changes a link.
fn drive(links: usize, by_edge: bool) {
    let (router, mut multicast) = router(&[LINK_GROUP]);
    router.socket().set_recv_buffer_size(1 << 21).expect("the buffer is made large");
    let epoll = epoll::Epoll::watching(router.as_fd(), by_edge);
    let mut asked: Vec<_> =
        [dump(&router), get(&router), dump(&router), get(&router), get(&router)].map(Asked::new).into();
    asked.iter_mut().for_each(Asked::take);
    assert!(asked.iter().all(|it| it.count == 0), "nothing is received by a look");
    let other = thread::spawn(|| {
        let (other, _) = crate::links::router(&[]);
        (0..CHANGES).for_each(|at| set_loopback(&other, at % 2 == 0));
    });
    let mut news = 0;
    while news < CHANGES || asked.iter().any(|it| !it.is_over) {
        assert!(epoll.wait(5000), "{news} changes came, and the loop sleeps");
        router.receive().expect("the socket is well");
        asked.iter_mut().for_each(Asked::take);
        news += heard(&mut multicast);
    }
    other.join().expect("the thread ends");
    router.receive().expect("the socket is well");
    news += heard(&mut multicast);
    assert!(news >= CHANGES);
    let counts: Vec<_> = asked.iter().map(|it| it.count).collect();
    assert_eq!(counts, [links + 1, 2, links + 1, 2, 2]);
    assert!(asked.iter().all(|it| it.replies.verdict() == Verdict::Complete));
    assert!(!epoll.wait(0) && multicast.try_next().is_pending(), "nothing is left");
}

#[test]
fn a_loop_by_epoll_reads_all() {
    alone(|| {
        let links = make_pairs(100);
        for by_edge in [false, true] {
            (0..5).for_each(|_| drive(links, by_edge));
        }
    });
}

#[test]
fn a_stopped_router_ends_a_loop() {
    alone(|| {
        let (router, mut multicast) = router(&[]);
        assert!(multicast.try_next().is_pending());
        router.stop();
        assert!(multicast.try_next().is_pending(), "what is there can still be read, and more may be received");
        assert!(multicast.next().is_some_and(|it| it.is_err()));
        assert!(matches!(multicast.try_next(), Poll::Ready(None)));
    });
}
