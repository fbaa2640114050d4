//! The crate against the kernel of this machine, each test in a network namespace of its own.

mod by_name;
mod dumps;
mod lent;
mod links;
mod neighbours;
mod polled;
mod space;
mod together;
mod trouble;
mod verdict;

use links::{LINK_GROUP, ask, dump, link, make_pairs, name, named, names, router, set_loopback};
use neli::ToBytes;
use neli::connector::{CnMsg, CnMsgBuilder};
use neli::consts::connector::{CnMsgIdx, CnMsgVal, ProcCnMcastOp, ProcEventType};
use neli::consts::nl::{NlmF, Nlmsg};
use neli::consts::rtnl::{Ifla, Rtm};
use neli::consts::socket::NlFamily;
use neli::err::{RouterError, SocketError};
use neli::nl::{NlPayload, NlmsghdrBuilder};
use neli::recording::{Recorder, Recording};
use neli::router::lending::LendingRouter;
use neli::router::synchronous::{NlRouter, NlRouterReceiverHandle, Notice, Verdict};
use neli::rtnl::{Ifinfomsg, RtattrBuilder};
use neli::socket::synchronous::NlSocketHandle;
use neli::types::{Buffer, RtBuffer};
use neli::utils::Groups;
use space::alone;
use std::io::ErrorKind;
use std::process::Command;
use std::thread;
use std::time::Duration;

const ENODEV: i32 = 19;
const EINVAL: i32 = 22;
const EOPNOTSUPP: i32 = 95;
const ENOBUFS: i32 = 105;

/// So many pairs are listed in several datagrams.
const MANY: usize = 60;

fn asked(router: &NlRouter, index: i32) -> NlRouterReceiverHandle<Rtm, Ifinfomsg> {
    let body = NlPayload::Payload(link(index).build().expect("a link"));
    router.send(Rtm::Getlink, NlmF::ACK, body).expect("a link is asked for")
}

/// The number with which a request is refused.
fn refusal(mut replies: NlRouterReceiverHandle<Rtm, Ifinfomsg>) -> Option<i32> {
    let error = replies.next()?.err()?;
    assert!(replies.next().is_none(), "nothing follows an error");
    error.errno()
}

#[test]
fn links_are_those_that_ip_lists() {
    alone(|| {
        make_pairs(1);
        let (router, _) = router(&[]);
        let found = names(dump(&router));
        let Ok(said) = Command::new("ip").args(["-o", "link"]).output() else {
            println!("not run: there is no ip");
            return;
        };
        let text = String::from_utf8(said.stdout).expect("ip writes text");
        let listed: Vec<&str> = text.lines().filter_map(|it| it.split(": ").nth(1)?.split('@').next()).collect();
        assert_eq!(found, listed);
    });
}

#[test]
fn a_dump_of_many_datagrams_is_read_to_its_end() {
    alone(|| {
        assert_eq!(make_pairs(MANY), 2 * MANY + 1);
        let socket = NlSocketHandle::connect(NlFamily::Route, None, Groups::empty()).expect("a socket connects");
        let request = NlmsghdrBuilder::default()
            .nl_type(Rtm::Getlink)
            .nl_flags(NlmF::REQUEST | NlmF::DUMP)
            .nl_payload(NlPayload::Payload(link(0).build().expect("a link")))
            .build();
        socket.send(&request.expect("a request")).expect("the request is sent");
        let (mut datagrams, mut found, mut is_done) = (0, 0, false);
        while !is_done {
            let (messages, _) = socket.recv_all::<u16, Ifinfomsg>().expect("a datagram comes");
            datagrams += 1;
            found += messages.iter().filter(|it| it.get_payload().is_some()).count();
            is_done = messages.iter().any(|it| *it.nl_type() == Nlmsg::Done.into());
        }
        assert!(datagrams > 2, "{datagrams} datagrams");
        assert_eq!(found, 2 * MANY + 1);
    });
}

#[test]
fn what_a_recorder_keeps_is_played_without_the_kernel() {
    alone(|| {
        assert_eq!(make_pairs(MANY), 2 * MANY + 1);
        let socket = NlSocketHandle::connect(NlFamily::Route, None, Groups::new_groups(&[LINK_GROUP]));
        let (router, mut multicast) =
            NlRouter::over(Recorder::new(socket.expect("a socket connects"))).expect("a router");
        set_loopback(&router, true);
        let found = names(dump(&router));
        let notified = multicast.listen::<Rtm, Ifinfomsg>().expect("a notification comes");
        assert!(matches!(notified, Notice::Message(it) if *it.nl_type() == Rtm::Newlink));
        let mut file = Vec::new();
        router.link().recording().write_pcap(&mut file).expect("a file is written");

        let recording = Recording::from_pcap(&file, NlFamily::Route).expect("it is read");
        let (router, mut multicast) = NlRouter::over(recording).expect("a router");
        router.set_next_seq(4711);
        set_loopback(&router, true);
        assert_eq!(names(dump(&router)), found);
        let played = multicast.listen::<Rtm, Ifinfomsg>().expect("it is played");
        assert!(matches!(played, Notice::Message(it) if *it.nl_type() == Rtm::Newlink));
        assert!(router.link().is_over());
    });
}

#[test]
fn two_requests_are_read_in_the_other_order() {
    alone(|| {
        let (router, _) = router(&[]);
        let (first, second) = (asked(&router, 1), asked(&router, 4711));
        assert_eq!(refusal(second), Some(ENODEV));
        assert_eq!(names(first), ["lo"]);
    });
}

/// The kernel echoes the request, whose body is shorter than that of a reply.
#[test]
fn a_short_request_is_refused_with_its_number() {
    alone(|| {
        let (router, _) = router(&[]);
        let body = || NlPayload::Payload(Buffer::from(&[0; 4][..]));
        for flags in [NlmF::empty(), NlmF::ACK] {
            assert_eq!(refusal(router.send(Rtm::Getlink, flags, body()).expect("it is sent")), Some(EINVAL));
        }
        let connected = LendingRouter::connect(NlFamily::Route, None, Groups::empty());
        let (mut router, _) = connected.expect("a router connects");
        let handle = router.send(Rtm::Getlink, NlmF::ACK, body()).expect("it is sent");
        assert_eq!(router.lend_next(&handle).expect_err("it is refused").errno(), Some(EINVAL));
    });
}

#[test]
fn a_refusal_has_a_text_and_an_offset() {
    alone(|| {
        let (router, _) = router(&[]);
        let new = NlmF::CREATE | NlmF::EXCL;
        let Err(RouterError::Nlmsgerr(answer)) = ask(&router, Rtm::Newlink, new, named("nope", "none")) else {
            panic!("a link of no kind is made");
        };
        assert_eq!((answer.error(), answer.text().as_deref()), (-EOPNOTSUPP, Some("Unknown device type")));

        // The name takes 8 bytes after the headers, so that the other attribute lies at byte 40.
        let text = RtattrBuilder::default().rta_type(Ifla::Ifname).rta_payload("lo").build().expect("a name");
        let short = RtattrBuilder::default().rta_type(Ifla::Mtu).rta_payload(1500u16).build().expect("an mtu");
        let body = link(1).rtattrs([text, short].into_iter().collect()).build().expect("a link");
        let Err(RouterError::Nlmsgerr(answer)) = ask(&router, Rtm::Setlink, NlmF::empty(), body) else {
            panic!("an mtu of two bytes is set");
        };
        assert_eq!(answer.offset(), Some(40), "{answer}");
        assert!(answer.text().is_some(), "{answer}");
        assert_eq!(*answer.nlmsg().nl_type(), u16::from(Rtm::Setlink));
    });
}

/// The loopback link with another name, in a list that is marked as nested or not.
fn other_name(is_nested: bool) -> Ifinfomsg {
    let text = RtattrBuilder::default().rta_type(Ifla::AltIfname).rta_payload("other").build().expect("a name");
    let empty = RtattrBuilder::default().rta_type(Ifla::PropList).rta_payload(()).build().expect("a list");
    let names: RtBuffer<Ifla> = [text.clone()].into_iter().collect();
    let unmarked = RtattrBuilder::default().rta_type(Ifla::PropList).rta_payload(names).build().expect("a list");
    let list = if is_nested { empty.nest(&text).expect("a name in a list") } else { unmarked };
    link(1).rtattrs([list].into_iter().collect()).build().expect("a link")
}

/// `RTM_NEWLINKPROP` of `linux/rtnetlink.h`, which needs the mark, and makes a link's other name.
#[test]
fn a_link_gets_another_name_by_a_nested_attribute() {
    const NEWLINKPROP: Rtm = Rtm::UnrecognizedConst(108);
    alone(|| {
        let (router, _) = router(&[]);
        let made = |body| ask(&router, NEWLINKPROP, NlmF::CREATE | NlmF::EXCL, body);
        assert_eq!(made(other_name(false)).expect_err("no list is marked").errno(), Some(EINVAL));
        made(other_name(true)).expect("the link gets another name");
        let reply = asked(&router, 1).next().expect("a reply").expect("the link");
        let body = reply.get_payload().expect("a body");
        let handle = body.rtattrs().get_attr_handle();
        let list = handle.get_attribute(Ifla::PropList).expect("the list");
        assert!(list.rta_nested());
        let names = list.get_attr_handle::<Ifla>().expect("names");
        assert_eq!(names.get_attr_payload_as_with_len::<String>(Ifla::AltIfname).expect("a name"), "other");
    });
}

/// A get of routing without a body has a header of zeros: of each type the kernel answers a dump, or refuses it.
#[test]
fn a_get_has_a_default_body() {
    alone(|| {
        let links = make_pairs(2);
        let (router, _) = router(&[]);
        let dump = |kind: u16| {
            let empty = NlPayload::<u16, Buffer>::Empty;
            router.dump::<_, _, u16, Buffer>(kind, NlmF::empty(), empty, 3).expect("a dump")
        };
        let count = |kind| match dump(kind) {
            dump if dump.verdict == Verdict::Complete => dump.messages.len(),
            dump => panic!("{kind}: {:?}, {:?}", dump.verdict, dump.error),
        };
        assert_eq!(count(u16::from(Rtm::Getlink)), links);
        assert_eq!(count(u16::from(Rtm::Getaddr)), 0);
        set_loopback(&router, true);
        assert!(count(u16::from(Rtm::Getaddr)) > 0 && count(u16::from(Rtm::Getroute)) > 0);
        // RTM_GETRULE and RTM_GETNEIGHTBL.
        assert!(count(34) > 0 && count(66) > 0);
        for kind in (18..=122).step_by(4).filter(|it| *it != 70) {
            let verdict = dump(kind).verdict;
            assert!(matches!(verdict, Verdict::Complete | Verdict::Failed(_)), "type {kind}: {verdict:?}");
        }
        let mut one =
            router.send::<_, Buffer, Rtm, Ifinfomsg>(Rtm::Getlink, NlmF::ACK, NlPayload::Empty).expect("sent");
        assert!(one.next().is_some_and(|it| it.is_err_and(|it| it.errno() == Some(EINVAL))));
    });
}

#[test]
fn a_notification_comes_while_a_dump_runs() {
    alone(|| {
        let count = make_pairs(MANY);
        let (other, _) = router(&[]);
        let (router, mut multicast) = router(&[LINK_GROUP]);
        let mut links = dump(&router);
        let first = links.next().expect("a dump has a link").expect("a dump has no error");
        assert!(first.get_payload().is_some());
        set_loopback(&other, true);
        assert_eq!(names(links).len() + 1, count);
        let news = multicast.next_typed::<Rtm, Ifinfomsg>().expect("a notification came").expect("and can be read");
        assert_eq!(news.get_payload().map(name).as_deref(), Some("lo"));
    });
}

#[test]
fn a_socket_whose_buffer_ran_over_goes_on() {
    alone(|| {
        let (other, _) = router(&[]);
        let (router, mut multicast) = router(&[LINK_GROUP]);
        router.socket().set_recv_buffer_size(1).expect("the buffer is made small");
        let waiting = asked(&router, 1);
        for at in 0..100 {
            set_loopback(&other, at % 2 == 0);
        }
        let lost = |error: &RouterError| match error {
            RouterError::Socket(SocketError::Io(it)) => it.raw_os_error() == Some(ENOBUFS),
            _ => false,
        };
        // The open request gets the fault, and multicast gets it once.
        assert!(waiting.filter_map(Result::err).all(|it| lost(&it)));
        let mut told = 0;
        router.socket().set_recv_timeout(Some(Duration::from_millis(200))).expect("a time is set");
        for news in &mut multicast {
            match news {
                Ok(_) => {}
                Err(error) if lost(&error) => told += 1,
                Err(RouterError::Socket(SocketError::Io(it))) if it.kind() == ErrorKind::WouldBlock => break,
                Err(error) => panic!("{error}"),
            }
        }
        assert_eq!(told, 1);
        router.socket().set_recv_buffer_size(1 << 20).expect("the buffer is made large");
        assert_eq!(names(dump(&router)), ["lo"]);
        set_loopback(&other, true);
        assert!(multicast.next().is_some_and(|it| it.is_ok()));
    });
}

#[test]
fn what_another_process_sends_is_passed_over() {
    alone(|| {
        let other = NlSocketHandle::connect(NlFamily::Route, None, Groups::empty()).expect("a socket connects");
        let (router, mut multicast) = router(&[LINK_GROUP]);
        router.socket().set_recv_timeout(Some(Duration::from_millis(200))).expect("a time is set");
        // A request without ACK, which is not answered: it is open until the socket was seen empty.
        let body = NlPayload::Payload(link(1).up().build().expect("a link"));
        let mut open = router.send::<_, _, Rtm, Buffer>(Rtm::Setlink, NlmF::empty(), body).expect("it is sent");
        let forged = NlmsghdrBuilder::default()
            .nl_type(Rtm::Newlink)
            .nl_pid(router.pid())
            .nl_payload(NlPayload::Payload(link(1).build().expect("a link")));
        let mut bytes = Vec::new();
        forged.build().expect("a message").to_bytes(&mut bytes).expect("is written");
        other.send_bytes_to(&bytes, router.pid()).expect("it is sent to the router's port");
        assert_eq!(open.verdict(), Verdict::Pending);
        assert!(open.next().is_none(), "nothing comes");
        assert_eq!(open.verdict(), Verdict::Complete);
        assert!(multicast.next().is_some_and(|it| it.is_ok()), "the link's change comes all the same");
    });
}

#[test]
fn a_datagram_that_was_cut_is_told() {
    alone(|| {
        let (other, _) = router(&[]);
        let socket = NlSocketHandle::connect(NlFamily::Route, None, Groups::new_groups(&[LINK_GROUP]));
        let socket = socket.expect("a socket connects");
        set_loopback(&other, true);
        set_loopback(&other, false);
        match socket.recv_into(&mut [0; 100]) {
            Err(SocketError::Truncated { length, room: 100 }) if length > 100 => {}
            result => panic!("{result:?}"),
        }
        let (messages, groups) = socket.recv_all::<Rtm, Ifinfomsg>().expect("the next one is whole");
        assert_eq!(groups, Groups::new_groups(&[LINK_GROUP]));
        assert_eq!(messages.first().and_then(|it| it.get_payload()).map(name).as_deref(), Some("lo"));
    });
}

#[test]
fn a_dump_that_is_given_up_disturbs_nobody() {
    alone(|| {
        make_pairs(MANY);
        let (router, _) = router(&[]);
        let mut links = dump(&router);
        assert!(links.next().is_some_and(|it| it.is_ok()));
        let first = asked(&router, 1);
        drop(links);
        assert_eq!(names(first), ["lo"]);
        // Its number is free again once its last reply has arrived: a reply arrives after all that was sent before it.
        assert!((0..100).all(|_| names(asked(&router, 1)) == ["lo"]));
        router.set_next_seq(0);
        assert_eq!(names(asked(&router, 1)), ["lo"]);
    });
}

#[test]
fn a_number_in_use_is_refused() {
    alone(|| {
        let (router, _) = router(&[]);
        let first = asked(&router, 1);
        router.set_next_seq(0);
        let body = NlPayload::Payload(link(1).build().expect("a link"));
        let second = router.send::<_, _, Rtm, Ifinfomsg>(Rtm::Getlink, NlmF::ACK, body);
        assert!(matches!(second, Err(RouterError::SeqInUse)));
        assert_eq!(names(first), ["lo"]);
    });
}

#[test]
fn threads_share_a_router() {
    alone(|| {
        let (router, mut multicast) = router(&[LINK_GROUP]);
        let news = thread::spawn(move || multicast.next_typed::<Rtm, Ifinfomsg>());
        let askers: Vec<_> = (0..4)
            .map(|_| {
                let router = router.clone();
                thread::spawn(move || (0..100).all(|_| names(asked(&router, 1)) == ["lo"]))
            })
            .collect();
        for asker in askers {
            assert!(asker.join().expect("a thread ends"));
        }
        set_loopback(&router, true);
        let news = news.join().expect("the thread ends").expect("a notification came").expect("and can be read");
        assert_eq!(news.get_payload().map(name).as_deref(), Some("lo"));
    });
}

#[test]
fn groups_are_joined_and_left() {
    alone(|| {
        let (router, _) = router(&[LINK_GROUP]);
        router.add_mcast_membership(Groups::new_groups(&[5, 33])).expect("groups are joined");
        assert_eq!(router.list_mcast_membership().expect("the groups").to_vec(), [1, 5, 33]);
        router.drop_mcast_membership(Groups::new_groups(&[1, 33])).expect("groups are left");
        assert_eq!(router.list_mcast_membership().expect("the groups").to_vec(), [5]);
    });
}

#[test]
fn families_and_groups_are_resolved() {
    alone(|| {
        let (router, _) = NlRouter::connect(NlFamily::Generic, None, Groups::empty()).expect("a router connects");
        // GENL_ID_CTRL of linux/genetlink.h is 16.
        assert_eq!(router.resolve_genl_family("nlctrl").expect("the controller has a number"), 16);
        let group = router.resolve_nl_mcast_group("nlctrl", "notify").expect("its group has a number");
        assert_eq!(router.lookup_id(group).expect("and names"), ("nlctrl".to_owned(), "notify".to_owned()));
        assert!(router.resolve_genl_family("no such family").is_err());
        assert!(router.resolve_nl_mcast_group("nlctrl", "no such group").is_err());
        router.add_mcast_membership(Groups::new_groups(&[group])).expect("it is joined");
    });
}

/// It listens in the machine's own namespace, the only one in which the kernel reports processes; that touches no
/// interface.
#[test]
fn the_connector_tells_of_processes() {
    let socket = match NlSocketHandle::connect(NlFamily::Connector, None, Groups::new_groups(&[1])) {
        Ok(socket) => socket,
        Err(error) => return println!("not run: {error}"),
    };
    socket.set_recv_timeout(Some(Duration::from_secs(2))).expect("a time is set");
    let body = |wish: ProcCnMcastOp| {
        let bytes = u32::from(wish).to_ne_bytes();
        let body = CnMsgBuilder::default().idx(CnMsgIdx::Proc).val(CnMsgVal::Proc).payload(bytes).build();
        let payload = NlPayload::Payload(body.expect("a body"));
        NlmsghdrBuilder::default().nl_type(Nlmsg::Done).nl_payload(payload).build().expect("a message")
    };
    if let Err(error) = socket.send(&body(ProcCnMcastOp::Listen)) {
        return println!("not run: {error}");
    }
    let is_fork = |it: &CnMsg<Buffer>| it.payload().as_ref().starts_with(&u32::from(ProcEventType::Fork).to_ne_bytes());
    let mut child = Command::new("true").spawn().expect("a process starts");
    let mut is_told = false;
    while !is_told {
        let Ok((messages, groups)) = socket.recv_all::<u16, CnMsg<Buffer>>() else {
            println!("not run: the kernel tells of no process here");
            break;
        };
        assert_eq!(groups, Groups::new_groups(&[1]));
        is_told = messages.iter().filter_map(|it| it.get_payload()).any(is_fork);
    }
    child.wait().expect("the process ends");
    socket.send(&body(ProcCnMcastOp::Ignore)).expect("and no more are asked for");
}
