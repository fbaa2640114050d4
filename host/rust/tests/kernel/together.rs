//! Several requests in one datagram.

use crate::links::{LINK_GROUP, Links, dump, link, make_pairs, name, names, router, set_loopback};
use crate::space::alone;
use neli::consts::nl::NlmF;
use neli::consts::rtnl::Rtm;
use neli::err::RouterError;
use neli::nl::NlPayload;
use neli::router::synchronous::{NlRouter, Verdict};
use neli::rtnl::Ifinfomsg;
use std::{env, thread};

type Request = (Rtm, NlmF, NlPayload<Rtm, Ifinfomsg>);

/// `ENODEV` of `errno.h`.
const NO_DEVICE: Option<i32> = Some(19);

/// A request for a link.
fn question(index: i32) -> Request {
    (Rtm::Getlink, NlmF::ACK, NlPayload::Payload(link(index).build().expect("a link")))
}

/// A request for all links. Routing begins a dump for either bit of `NLM_F_DUMP`.
fn dump_of_links(flags: NlmF) -> Request {
    (Rtm::Getlink, flags, NlPayload::Payload(link(0).build().expect("a link")))
}

/// The name in an answer, or the number with which it is refused.
fn answer(mut replies: Links) -> Result<String, Option<i32>> {
    let reply = replies.next().expect("there is an answer").map_err(|error| error.errno())?;
    Ok(name(reply.get_payload().expect("a link")))
}

#[test]
fn each_request_of_a_datagram_has_its_answer() {
    alone(|| {
        let (router, _) = router(&[]);
        for _ in 0..3 {
            let requests = [question(1), question(4711), dump_of_links(NlmF::DUMP), question(1)];
            let sent: Vec<Links> = router.send_all(requests).expect("they are sent");
            let [first, second, list, last] = <[Links; 4]>::try_from(sent).expect("each has a handle");
            assert_eq!(answer(last), Ok("lo".into()));
            assert_eq!(answer(second), Err(NO_DEVICE));
            assert_eq!(names(list), ["lo"]);
            assert_eq!(answer(first), Ok("lo".into()));
        }
        let none: Vec<Links> = router.send_all(Vec::<Request>::new()).expect("nothing is sent");
        assert!(none.is_empty());
    });
}

#[test]
fn a_refusal_sends_none_of_a_datagram() {
    alone(|| {
        let (router, _) = router(&[]);
        let open: Links = router.send_all([question(1)]).expect("it is sent").remove(0);
        for flags in [NlmF::DUMP, NlmF::ROOT, NlmF::MATCH] {
            let two = [dump_of_links(NlmF::DUMP), question(1), dump_of_links(flags)];
            let dumps: Result<Vec<Links>, RouterError> = router.send_all(two);
            assert!(matches!(dumps, Err(RouterError::Msg(_))));
        }
        // The third number is that of the first request, which is open.
        router.set_next_seq(u32::MAX - 1);
        let in_use: Result<Vec<Links>, RouterError> = router.send_all([question(1), question(1), question(1)]);
        assert!(matches!(in_use, Err(RouterError::SeqInUse)));
        let next: Links = router.send_all([question(4711)]).expect("it is sent").remove(0);
        assert_eq!((answer(next), answer(open)), (Err(NO_DEVICE), Ok("lo".into())));
    });
}

/// The number of messages in an answer, which is complete.
fn whole(mut replies: Links) -> usize {
    let messages: Result<Vec<_>, _> = replies.by_ref().collect();
    assert_eq!(replies.verdict(), Verdict::Complete);
    messages.expect("no reply is an error").len()
}

/// Sends two dumps, three gets and a batch from one socket, without a pause, and reads them in another order.
fn burst(router: &NlRouter, links: usize, at: usize) {
    let get = |index| -> Links {
        let (kind, flags, body) = question(index);
        router.send(kind, flags, body).expect("it is sent")
    };
    let (first, one, second, two) = (dump(router), get(1), dump(router), get(4711));
    let batch = [question(1), question(4711), question(1)];
    let batch: Vec<Links> = router.send_all(batch).expect("it is sent");
    let three = get(1);
    // A get has a link and the acknowledgement, a dump all links and the end.
    let read_dumps = |dumps: [Links; 2]| dumps.into_iter().for_each(|it| assert_eq!(whole(it), links + 1));
    let read_gets = |gets: [Links; 2]| gets.into_iter().for_each(|it| assert_eq!(whole(it), 2));
    let [begin, middle, end] = <[Links; 3]>::try_from(batch).expect("each has a handle");
    if at % 2 == 0 {
        read_dumps([second, first]);
        read_gets([end, begin]);
        read_gets([three, one]);
    } else {
        read_gets([one, three]);
        read_gets([begin, end]);
        read_dumps([first, second]);
    }
    for mut refused in [middle, two] {
        assert_eq!(refused.next().and_then(|it| it.err()?.errno()), NO_DEVICE);
        assert!(refused.next().is_none() && refused.verdict() == Verdict::Failed(-19));
    }
}

/// So often as NELI_BURSTS says, by default 200 times.
#[test]
fn dumps_gets_and_a_batch_are_sent_without_a_pause() {
    alone(|| {
        let links = make_pairs(60);
        let (router, _) = router(&[]);
        let times = env::var("NELI_BURSTS").ok().and_then(|it| it.parse().ok()).unwrap_or(200);
        (0..times).for_each(|at| burst(&router, links, at));
    });
}

/// Four threads do so over one socket, while one listens.
#[test]
fn dumps_of_threads_take_turns() {
    alone(|| {
        let links = make_pairs(60);
        let (router, mut multicast) = router(&[LINK_GROUP]);
        let listener = thread::spawn(move || multicast.by_ref().filter(Result::is_ok).count());
        let senders: Vec<_> = (0..4)
            .map(|at| {
                let router = router.clone();
                thread::spawn(move || (0..50).for_each(|more| burst(&router, links, at + more)))
            })
            .collect();
        (0..50).for_each(|at| set_loopback(&router, at % 2 == 0));
        senders.into_iter().for_each(|it| it.join().expect("a thread ends"));
        router.stop();
        assert!(listener.join().expect("the thread ends") >= 50);
    });
}
