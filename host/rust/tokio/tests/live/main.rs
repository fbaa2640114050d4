//! Streams of replies over a socket of this machine's kernel, each test in a network namespace of its own; and over a
//! simulated kernel.

#[allow(dead_code)]
#[path = "../../../tests/kernel/links.rs"]
mod links;
mod polled;
#[path = "../../../tests/kernel/space.rs"]
mod space;

use links::{LINK_GROUP, link, make_pairs, name, set_loopback};
use neli::consts::nl::{NlmF, Nlmsg};
use neli::consts::rtnl::Rtm;
use neli::consts::socket::NlFamily;
use neli::err::{RouterError, SocketError};
use neli::nl::NlPayload;
use neli::router::synchronous::{Missed, Notice, Verdict};
use neli::rtnl::Ifinfomsg;
use neli::simulator::{Kernel, Request};
use neli::types::Buffer;
use neli::utils::Groups;
use neli_tokio::{AsyncRouter, Replies};
use space::alone;
use std::time::Duration;
use std::{future, thread};
use tokio::time::{sleep, timeout};

const LONG: Duration = Duration::from_secs(20);
const SHORT: Duration = Duration::from_millis(50);

/// Runs a test of a runtime with several threads, in a namespace.
fn run(test: impl Future<Output = ()>) {
    alone(|| {
        let runtime = tokio::runtime::Builder::new_multi_thread().worker_threads(4).enable_all().build();
        runtime.expect("a runtime").block_on(async { timeout(LONG, test).await.expect("nothing waits for ever") });
    });
}

fn connect(groups: &[u32]) -> (AsyncRouter, Replies<u16, Buffer>) {
    AsyncRouter::connect(NlFamily::Route, None, Groups::new_groups(groups)).expect("a router connects")
}

fn send(router: &AsyncRouter, kind: Rtm, flags: NlmF, index: i32) -> Replies<Rtm, Ifinfomsg> {
    let body = NlPayload::Payload(link(index).build().expect("a link"));
    router.send(kind, flags, body).expect("it is sent")
}

fn dump(router: &AsyncRouter) -> Replies<Rtm, Ifinfomsg> {
    send(router, Rtm::Getlink, NlmF::DUMP, 0)
}

/// The links of replies up to their end, and the verdict.
async fn read(mut replies: Replies<Rtm, Ifinfomsg>) -> (usize, Verdict) {
    let mut count = 0;
    while let Some(reply) = replies.next().await {
        count += usize::from(reply.expect("no error").get_payload().is_some());
    }
    (count, replies.verdict())
}

#[test]
fn tasks_read_their_replies_while_links_change() {
    run(async {
        let links = make_pairs(100);
        let (router, mut multicast) = connect(&[LINK_GROUP]);
        router.router().socket().set_recv_buffer_size(1 << 21).expect("the buffer is made large");
        let asked = |at: usize| {
            if at % 2 == 0 { (dump(&router), links) } else { (send(&router, Rtm::Getlink, NlmF::ACK, 1), 1) }
        };
        let tasks: Vec<_> = (0..20).map(asked).map(|(it, wanted)| (tokio::spawn(read(it)), wanted)).collect();
        let other = thread::spawn(|| {
            let (other, _) = links::router(&[]);
            (0..300).for_each(|at| set_loopback(&other, at % 2 == 0));
        });
        let mut news = 0;
        while news < 300 {
            assert!(multicast.next().await.is_some_and(|it| it.is_ok()));
            news += 1;
        }
        for (task, wanted) in tasks {
            assert_eq!(task.await.expect("it ends"), (wanted, Verdict::Complete));
        }
        other.join().expect("the thread ends");
    });
}

#[test]
fn a_dump_waits_for_its_turn_though_nobody_reads_the_one_before() {
    run(async {
        let links = make_pairs(200);
        let (router, _multicast) = connect(&[]);
        let (first, second) = (dump(&router), dump(&router));
        assert_eq!(read(second).await, (links, Verdict::Complete));
        assert_eq!(read(first).await, (links, Verdict::Complete));
    });
}

#[test]
fn dropped_replies_give_their_request_up() {
    run(async {
        let links = make_pairs(200);
        let (router, _multicast) = connect(&[]);
        let mut first = dump(&router);
        assert!(first.next().await.is_some_and(|it| it.is_ok()));
        let waits = tokio::spawn(read(dump(&router)));
        drop(first);
        assert_eq!(waits.await.expect("it ends"), (links, Verdict::Complete));
        // A task may be ended at any time, as while it waits.
        for _ in 0..20 {
            let ended = tokio::spawn(read(dump(&router)));
            tokio::task::yield_now().await;
            ended.abort();
            assert!(ended.await.map_or_else(|it| it.is_cancelled(), |it| it == (links, Verdict::Complete)));
        }
        assert_eq!(read(dump(&router)).await, (links, Verdict::Complete));
        // Their numbers are free again.
        router.router().set_next_seq(0);
        assert_eq!(read(send(&router, Rtm::Getlink, NlmF::ACK, 1)).await, (1, Verdict::Complete));
    });
}

#[test]
fn a_wait_that_is_dropped_loses_nothing() {
    run(async {
        let (router, mut multicast) = connect(&[LINK_GROUP]);
        let (other, _) = links::router(&[]);
        for at in 0..20 {
            assert!(timeout(SHORT / 10, multicast.next()).await.is_err(), "nothing has come");
            set_loopback(&other, at % 2 == 0);
            let news = multicast.next().await.expect("it goes on").expect("no error");
            assert_eq!(*news.nl_type(), u16::from(Rtm::Newlink));
        }
        drop(router);
    });
}

#[test]
fn what_nothing_answers_ends() {
    run(async {
        let (router, _multicast) = connect(&[]);
        let change = send(&router, Rtm::Setlink, NlmF::empty(), 1);
        assert_eq!(read(change).await, (0, Verdict::Complete));
        let empty = router.send::<_, Buffer, Rtm, Ifinfomsg>(Nlmsg::Noop, NlmF::empty(), NlPayload::Empty);
        assert_eq!(read(empty.expect("it is sent")).await, (0, Verdict::Complete));
        let mut refused = send(&router, Rtm::Getlink, NlmF::ACK, 9999);
        let error = refused.next().await.expect("a reply").expect_err("there is no such link");
        assert_eq!((error.errno(), refused.verdict()), (Some(19), Verdict::Failed(-19)));
        assert!(refused.next().await.is_none());
    });
}

#[test]
fn a_thread_takes_in_what_a_task_waits_for() {
    run(async {
        let (router, mut multicast) = connect(&[LINK_GROUP]);
        let task = tokio::spawn(async move { multicast.next().await.expect("it goes on").expect("no error") });
        sleep(SHORT).await;
        let (other, _) = links::router(&[]);
        set_loopback(&other, true);
        // Whichever comes first, the task is woken.
        router.router().receive().expect("the socket is well");
        assert_eq!(*task.await.expect("it ends").nl_type(), u16::from(Rtm::Newlink));
    });
}

#[test]
fn a_loss_is_heard_once_and_the_stream_goes_on() {
    run(async {
        let (router, mut multicast) = connect(&[LINK_GROUP]);
        router.router().socket().set_recv_buffer_size(4000).expect("the buffer is made small");
        let (other, _) = links::router(&[]);
        (0..100).for_each(|at| set_loopback(&other, at % 2 == 0));
        let mut losses = 0;
        loop {
            match timeout(SHORT, multicast.listen::<Rtm, Ifinfomsg>()).await {
                Ok(Ok(Notice::Message(_))) => {}
                Ok(Ok(Notice::Missed(Missed::Overrun))) => losses += 1,
                Ok(other) => panic!("{other:?}"),
                Err(_) => break,
            }
        }
        assert!(losses >= 1);
        set_loopback(&other, true);
        assert!(matches!(multicast.listen::<Rtm, Ifinfomsg>().await, Ok(Notice::Message(_))));
    });
}

#[test]
fn names_of_a_hundred_streams_at_once() {
    run(async {
        let links = make_pairs(50);
        let (router, _multicast) = connect(&[]);
        router.router().socket().set_recv_buffer_size(1 << 21).expect("the buffer is made large");
        let read = |index| {
            let mut replies = send(&router, Rtm::Getlink, NlmF::ACK, index);
            tokio::spawn(async move {
                let link = replies.next().await.expect("a reply").expect("a link");
                assert!(replies.next().await.is_some_and(|it| it.is_ok()) && replies.next().await.is_none());
                link.get_payload().map(name).expect("a body")
            })
        };
        let tasks: Vec<_> = (1..=links as i32).map(read).collect();
        let mut names = Vec::new();
        for task in tasks {
            names.push(task.await.expect("it ends"));
        }
        names.sort();
        names.dedup();
        assert_eq!(names.len(), links);
    });
}

#[tokio::test]
async fn a_simulated_kernel_is_a_link() {
    let kernel = Kernel::new(7, |request: &Request<'_>| {
        let mut dump = request.dump(64)?;
        (0..5).try_for_each(|_| dump.push(Rtm::Newlink, NlmF::empty(), &[0u8; 16]))?;
        dump.finish(NlmF::empty(), 0, &())
    });
    let (router, mut multicast) = AsyncRouter::over_simulated(kernel).expect("a router");
    let body = NlPayload::Payload(link(0).build().expect("a link"));
    let links = router.send(Rtm::Getlink, NlmF::DUMP, body).expect("it is sent");
    assert_eq!(read(links).await, (5, Verdict::Complete));
    let end = multicast.next().await.expect("an error");
    assert!(matches!(end, Err(RouterError::Socket(SocketError::Ended))));
    assert!(multicast.next().await.is_none());
    future::ready(()).await;
}
