//! A router in a loop by mio, which watches its descriptor.

use crate::links::{LINK_GROUP, dump, make_pairs, router, set_loopback};
use crate::space::alone;
use mio::unix::SourceFd;
use mio::{Events, Interest, Poll, Token};
use neli::router::synchronous::Verdict;
use std::os::fd::{AsFd, AsRawFd};
use std::task;
use std::time::Duration;

#[test]
fn a_loop_by_mio_reads_all() {
    alone(|| {
        let links = make_pairs(100);
        let (router, mut multicast) = router(&[LINK_GROUP]);
        let mut poll = Poll::new().expect("mio polls");
        let fd = router.as_fd().as_raw_fd();
        poll.registry().register(&mut SourceFd(&fd), Token(0), Interest::READABLE).expect("it is watched");
        let (mut dumps, mut counts) = ([dump(&router), dump(&router)], [0, 0]);
        let (other, _) = crate::links::router(&[]);
        set_loopback(&other, true);
        let (mut events, mut news) = (Events::with_capacity(8), 0);
        while news == 0 || dumps.iter().any(|it| it.verdict() == Verdict::Pending) {
            poll.poll(&mut events, Some(Duration::from_secs(5))).expect("mio polls");
            assert!(!events.is_empty(), "the loop sleeps");
            router.receive().expect("the socket is well");
            while let task::Poll::Ready(Some(it)) = multicast.try_next() {
                news += usize::from(it.is_ok());
            }
            for (replies, count) in dumps.iter_mut().zip(&mut counts) {
                while let task::Poll::Ready(Some(it)) = replies.try_next() {
                    *count += usize::from(it.expect("a link").get_payload().is_some());
                }
            }
        }
        assert_eq!((counts, dumps.map(|it| it.verdict())), ([links; 2], [Verdict::Complete; 2]));
    });
}
