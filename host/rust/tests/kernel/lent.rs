//! Items that are lent.

use super::links::{LINK_GROUP, ask, dump, link, make_pairs, named, names, router};
use super::space::alone;
use super::{ENOBUFS, ENODEV, MANY};
use neli::consts::nl::NlmF;
use neli::consts::rtnl::{Ifla, IflaInfo, Rtm};
use neli::consts::socket::NlFamily;
use neli::err::{RouterError, SocketError};
use neli::lent::LentMessage;
use neli::nl::NlPayload;
use neli::router::lending::{LendingHandle, LendingRouter};
use neli::router::synchronous::{Loss, Verdict};
use neli::rtnl::Ifinfomsg;
use neli::utils::Groups;
use std::time::Duration;

/// The bytes of `struct ifinfomsg`.
const LINK: usize = 16;

fn lending(groups: &[u32]) -> (LendingRouter, LendingHandle) {
    LendingRouter::connect(NlFamily::Route, None, Groups::new_groups(groups)).expect("a router connects")
}

fn listed(router: &mut LendingRouter) -> LendingHandle {
    let all = link(0).build().expect("a link");
    router.send(Rtm::Getlink, NlmF::DUMP, NlPayload::Payload(all)).expect("a dump is asked for")
}

fn name_of<'r>(message: &LentMessage<'r>) -> Option<&'r str> {
    let attributes = message.get_attrs(LINK).expect("a link has a header");
    let name = attributes.get_attribute(Ifla::Ifname).expect("the attributes are read")?;
    Some(name.get_str().expect("a name is a text"))
}

fn kind_of<'r>(message: &LentMessage<'r>) -> Option<&'r str> {
    let attributes = message.get_attrs(LINK).expect("a link has a header");
    let info = attributes.get_attribute(Ifla::Linkinfo).expect("the attributes are read")?;
    let kind = info.get_attrs().get_attribute(IflaInfo::Kind).expect("which hold others")?;
    Some(kind.get_str().expect("a kind is a text"))
}

/// The names of the links, and the number of those that are one of a pair.
fn names_and_pairs(router: &mut LendingRouter, links: &LendingHandle) -> (Vec<String>, usize) {
    let (mut names, mut pairs) = (Vec::new(), 0);
    while let Some(message) = router.lend_next(links).expect("a dump has no error") {
        if message.nl_type() == u16::from(Rtm::Newlink) {
            names.extend(name_of(&message).map(str::to_owned));
            pairs += usize::from(kind_of(&message) == Some("veth"));
            let read = message.to_nlmsghdr::<Rtm, Ifinfomsg>().expect("a link is read");
            assert_eq!(
                (read.nl_len(), *read.nl_seq(), *read.nl_pid()),
                (message.nl_len(), message.nl_seq(), message.nl_pid())
            );
            assert!(read.get_payload().is_some() && *read.nl_flags() == message.nl_flags());
        }
        router.pass(links).expect("a link is passed");
    }
    (names, pairs)
}

#[test]
fn lent_links_are_those_that_are_read() {
    alone(|| {
        assert_eq!(make_pairs(MANY), 2 * MANY + 1);
        let (other, _) = router(&[]);
        let (mut router, _multicast) = lending(&[]);
        let links = listed(&mut router);
        assert_eq!(router.verdict(&links), Verdict::Pending);
        assert_eq!(names_and_pairs(&mut router, &links), (names(dump(&other)), 2 * MANY));
        assert_eq!(router.verdict(&links), Verdict::Complete);
        router.close(links);
    });
}

#[test]
fn a_lent_item_stays_until_it_is_passed() {
    alone(|| {
        let (mut router, _multicast) = lending(&[]);
        let links = listed(&mut router);
        for _ in 0..3 {
            let message = router.lend_next(&links).expect("a link is lent").expect("it is one");
            assert_eq!(name_of(&message), Some("lo"));
        }
        router.pass(&links).expect("it is passed");
        let end = router.lend_next(&links).expect("the end is lent").expect("it is a message");
        assert_eq!(end.nl_type(), 3);
        router.pass(&links).expect("it is passed");
        assert!(router.lend_next(&links).expect("nothing is refused").is_none());
    });
}

#[test]
fn a_refusal_comes_in_place_of_what_is_lent() {
    alone(|| {
        let (mut router, _multicast) = lending(&[]);
        let of = |index| NlPayload::Payload(link(index).build().expect("a link"));
        let none = router.send(Rtm::Getlink, NlmF::ACK, of(4711)).expect("a link is asked for");
        let loopback = router.send(Rtm::Getlink, NlmF::ACK, of(1)).expect("a link is asked for");
        let error = router.lend_next(&none).expect_err("there is no such link");
        assert!(matches!(error, RouterError::Nlmsgerr(_)), "{error}");
        assert_eq!(error.errno(), Some(ENODEV));
        assert!(router.lend_next(&none).expect("nothing follows").is_none());
        assert_eq!(router.verdict(&none), Verdict::Failed(-ENODEV));
        assert_eq!(names_and_pairs(&mut router, &loopback), (vec!["lo".to_owned()], 0));
        router.close(none);
        router.close(loopback);
    });
}

#[test]
fn notifications_are_lent_and_losses_told() {
    alone(|| {
        let (other, _) = router(&[]);
        let (mut router, multicast) = lending(&[LINK_GROUP]);
        let made = ask(&other, Rtm::Newlink, NlmF::CREATE | NlmF::EXCL, named("veth", "pair"));
        made.expect("a pair of links is made");
        let first = router.lend_next(&multicast).expect("a link is lent").expect("it is one");
        assert_eq!((first.nl_type(), kind_of(&first)), (u16::from(Rtm::Newlink), Some("veth")));
        assert!(name_of(&first).is_some());
        router.pass(&multicast).expect("it is passed");
        assert_eq!(router.verdict(&multicast), Verdict::Pending);
        // A request beside it is not disturbed, and disturbs nothing.
        let links = listed(&mut router);
        assert_eq!(names_and_pairs(&mut router, &links).1, 2);
        assert!(router.lend_next(&multicast).expect("a link is lent").is_some());
        router.link().set_recv_timeout(Some(Duration::from_millis(200))).expect("a limit is set");
        while router.lend_next(&multicast).is_ok() {
            router.pass(&multicast).expect("it is passed");
        }
        overrun(&mut router, &multicast);
    });
}

/// More notifications arrive than the socket has room for: that is reported once, and later ones are lent.
fn overrun(router: &mut LendingRouter, multicast: &LendingHandle) {
    let (other, _) = super::links::router(&[]);
    router.link().set_recv_buffer_size(1).expect("a size is set");
    for at in 0..100 {
        super::set_loopback(&other, at % 2 == 0);
    }
    let mut losses = 0;
    loop {
        match router.lend_next(multicast) {
            Ok(_) => router.pass(multicast).expect("it is passed"),
            Err(RouterError::Socket(SocketError::Io(it))) if it.raw_os_error() == Some(ENOBUFS) => losses += 1,
            Err(_) => break,
        }
    }
    assert_eq!(losses, 1);
    router.link().set_recv_buffer_size(1 << 20).expect("a size is set");
    super::set_loopback(&other, true);
    assert!(router.lend_next(multicast).expect("a link is lent").is_some());
}

#[test]
fn a_closed_handle_lends_nothing() {
    alone(|| {
        let (mut router, multicast) = lending(&[LINK_GROUP]);
        let links = listed(&mut router);
        let (mut another, _) = lending(&[]);
        router.close(multicast);
        assert_eq!(names_and_pairs(&mut router, &links).0, ["lo"]);
        assert!(matches!(another.lend_next(&links), Err(RouterError::ClosedChannel)));
        assert_eq!(another.verdict(&links), Verdict::Lost(Loss::Closed));
    });
}
