//! The kernel to test against. Bytes are by linux/netlink.h, or as a comment says recordings of Linux 6.18.

use neli::consts::nl::{NlmF, Nlmsg, NlmsgerrAttr};
use neli::consts::rtnl::Rtm;
use neli::err::{DeError, Refusal, RouterError, SerError, SocketError};
use neli::genl::{AttrTypeBuilder, NlattrBuilder};
use neli::nl::NlPayload;
use neli::router::synchronous::{Lists, Loss, Missed, NlRouter, NlRouterReceiverHandle, Notice, Verdict};
use neli::simulator::{Datagram, Kernel, Request, notification, requests};
use neli::types::{Buffer, GenlBuffer};
use std::sync::atomic::{AtomicUsize, Ordering};
use std::sync::{Arc, Mutex};

/// RTM_GETLINK (18) with REQUEST, ACK and DUMP, the number 7, and four bytes.
const DUMP: [u8; 20] = [20, 0, 0, 0, 18, 0, 5, 3, 7, 0, 0, 0, 0, 0, 0, 0, 1, 2, 3, 4];

fn request(sent: &[u8]) -> Request<'_> {
    let mut found: Vec<_> = requests(sent, 12587).collect();
    assert_eq!(found.len(), 1);
    found.remove(0).expect("a request")
}

fn text(text: &str) -> GenlBuffer<NlmsgerrAttr, Buffer> {
    let kind = AttrTypeBuilder::default().nla_type(NlmsgerrAttr::Msg).build().expect("a type");
    let attr = NlattrBuilder::default().nla_type(kind).nla_payload(text).build().expect("an attribute");
    [attr].into_iter().collect()
}

fn message(kind: u16, flags: u16, body: &[&[u8]]) -> Vec<u8> {
    let body = body.concat();
    let length = 16 + body.len() as u32;
    let head = [u32::from(kind) | u32::from(flags) << 16, 7, 12587];
    [length.to_ne_bytes().to_vec(), head.map(u32::to_ne_bytes).concat(), body].concat()
}

#[test]
fn a_request_says_what_it_asks_for() {
    let asked = request(&DUMP);
    assert_eq!((asked.nl_type::<Rtm>(), asked.nl_seq(), asked.port()), (Rtm::Getlink, 7, 12587));
    assert_eq!(asked.nl_flags(), NlmF::REQUEST | NlmF::ACK | NlmF::DUMP);
    assert!(asked.is_handled() && asked.wants_acknowledgement() && asked.wants_dump() && asked.wants_routing_dump());
    assert!(!asked.wants_echo());
    assert_eq!((asked.payload(), asked.body::<u32>()), (&[1, 2, 3, 4][..], Ok(0x0403_0201)));
    let cut: Vec<_> = requests(&DUMP[..19], 7).collect();
    assert!(matches!(cut[..], [Err(DeError::Refused(Refusal::LENGTH))]), "{cut:?}");
}

#[test]
fn answers_are_those_of_a_kernel() {
    let (asked, zero, code) = (request(&DUMP), [0; 4], (-19i32).to_ne_bytes());
    assert_eq!(asked.acknowledgement(&()), Ok(message(2, 0x100, &[&zero, &DUMP[..16]])));
    assert_eq!(asked.capped_error(-19, &()), Ok(message(2, 0x100, &[&code, &DUMP[..16]])));
    assert_eq!(asked.error(-19, &()), Ok(message(2, 0, &[&code, &DUMP])));
    assert_eq!(asked.reply(Rtm::Newlink, NlmF::DUMP_FILTERED, &5u32), Ok(message(16, 0x20, &[&[5, 0, 0, 0]])));
    let told = notification(Rtm::Dellink, NlmF::empty(), 7, 12587, &6u32);
    assert_eq!(told, Ok(message(17, 0, &[&[6, 0, 0, 0]])));
    assert_eq!(asked.acknowledgement(&[1u8, 2, 3]), Err(SerError::Refused(Refusal::LENGTH)));
}

/// A queue's class whose rate is too small: kept, with a warning.
#[test]
fn a_recorded_acknowledgement_is_made_again() {
    let digits = "60000000280005043605000000000000000000000300000001000100000001000000000008000100687462003400028030000100\
                  00010000ffff00000100000000010000ffff000001000000e8030000e8030000000000000000000000000000";
    let answer = "6800000002000003360500002b3100000000000060000000280005043605000000000000430001007363685f6874623a20717561\
                  6e74756d206f6620636c61737320313030303120697320736d616c6c2e20436f6e736964657220723271206368616e67652e0000";
    let bytes = |it: &str| -> Vec<u8> {
        (0..it.len()).step_by(2).map(|at| u8::from_str_radix(&it[at..at + 2], 16).expect("digits")).collect()
    };
    let sent = bytes(digits);
    let warning = text("sch_htb: quantum of class 10001 is small. Consider r2q change.");
    assert_eq!(request(&sent).acknowledgement(&warning), Ok(bytes(answer)));
}

#[test]
fn a_dump_is_cut_into_datagrams() {
    let asked = request(&DUMP);
    let mut dump = asked.dump(40).expect("memory");
    dump.push(Rtm::Newlink, NlmF::empty(), &1u32).expect("room");
    assert_eq!(dump.push(Rtm::Newlink, NlmF::empty(), &[0u8; 25]), Err(SerError::Refused(Refusal::LENGTH)));
    dump.begin_datagram().expect("memory");
    dump.push_reply(Rtm::Newlink, NlmF::DUMP_INTR, &2u32).expect("room");
    let datagrams = dump.finish(NlmF::DUMP_FILTERED, -19, &()).expect("room");
    let (one, two) = (message(16, 2, &[&1u32.to_ne_bytes()]), message(16, 0x10, &[&2u32.to_ne_bytes()]));
    assert_eq!(datagrams, [one, [two, message(3, 0x22, &[&(-19i32).to_ne_bytes()])].concat()]);
}

/// Lists of a state are requested again all together, as often as they may, unless that can't help.
#[test]
fn lists_of_a_state_are_requested_again_together() {
    let mut marked = 2;
    let kernel = Kernel::new(7, move |request: &Request<'_>| {
        let kind: u16 = request.nl_type();
        if kind == 26 {
            return Ok(vec![request.capped_error(-95, &())?]);
        }
        let is_marked = kind == 22 && marked > 0;
        marked -= u32::from(is_marked);
        let mut dump = request.dump(8192)?;
        dump.push(kind - 2, if is_marked { NlmF::DUMP_INTR } else { NlmF::empty() }, &7u32)?;
        dump.finish(NlmF::empty(), 0, &())
    });
    let (_router, mut multicast) = NlRouter::over(kernel).expect("a router");
    let mut count = 0;
    let mut state = |times, kinds: [u16; 2]| {
        multicast.resync_all(times, |lists: &Lists<'_>| {
            count += 1;
            let list = |kind| lists.dump::<u16, Buffer, u16, Buffer>(kind, NlPayload::Empty);
            Ok([list(kinds[0])?.len(), list(kinds[1])?.len()])
        })
    };
    let error = state(2, [18, 22]).expect_err("the second list is interrupted twice");
    assert_eq!(error.to_string(), "what was listed changed meanwhile");
    assert_eq!(state(2, [18, 22]).expect("it is no more"), [1, 1]);
    assert_eq!(state(5, [18, 26]).expect_err("it is refused each time").errno(), Some(95));
    assert_eq!(count, 4);
}

/// A client that lists and listens, and lists again after a loss: its picture is the kernel's state.
#[test]
fn a_client_recovers_from_a_loss() {
    let state = Arc::new(Mutex::new(vec![1u32]));
    let serves = Arc::clone(&state);
    let kernel = Kernel::new(7, move |request: &Request<'_>| {
        let mut dump = request.dump(8192)?;
        for it in serves.lock().expect("a lock").iter() {
            dump.push(Rtm::Newlink, NlmF::empty(), it)?;
        }
        dump.finish(NlmF::empty(), 0, &())
    });
    let (router, mut multicast) = NlRouter::over(kernel).expect("a router");
    let add = |it: u32| {
        state.lock().expect("a lock").push(it);
        router.link().notify(1, notification(Rtm::Newlink, NlmF::empty(), 0, 0, &it).expect("a notification"));
    };
    let listed = |multicast: &mut NlRouterReceiverHandle<u16, Buffer>| -> Vec<u32> {
        let links = multicast.resync::<_, Buffer, Rtm, u32>(Rtm::Getlink, NlPayload::Empty, 3).expect("a list");
        links.iter().filter_map(|it| it.get_payload().copied()).collect()
    };
    let mut picture = listed(&mut multicast);
    add(2);
    add(3);
    router.link().lose();
    router.link().fault(105);
    add(4);
    let mut losses = 0;
    loop {
        match multicast.listen::<Rtm, u32>() {
            Ok(Notice::Message(news)) => picture.extend(news.get_payload()),
            Ok(Notice::Missed(Missed::Overrun)) => {
                losses += 1;
                picture = listed(&mut multicast);
                add(5);
            }
            Err(RouterError::Socket(SocketError::Ended)) => break,
            other => panic!("{other:?}"),
        }
    }
    assert_eq!((losses, &picture, &*state.lock().expect("a lock")), (1, &vec![1, 2, 3, 4, 5], &vec![1, 2, 3, 4, 5]));
}

/// Each open request is told of a fault, once, in its place; and the kernel's own calls go past it.
#[test]
fn a_fault_is_told_in_its_place() {
    let kernel = Kernel::new(7, |request: &Request<'_>| Ok(vec![request.acknowledgement(&())?]));
    kernel.fault(105);
    kernel.notify(1, vec![1]);
    kernel.fault(5);
    assert_eq!(kernel.receive(), Some(Datagram { group: 1, bytes: vec![1] }));
    assert_eq!(kernel.receive(), None);
    let (router, _multicast) = NlRouter::over(kernel).expect("a router");
    router.link().fault(5);
    let mut replies = router.send::<_, Buffer, u16, Buffer>(20u16, NlmF::ACK, NlPayload::Empty).expect("it is sent");
    let error = replies.next().expect("a reply").expect_err("the fault");
    assert!(matches!(error, RouterError::Socket(SocketError::Io(it)) if it.raw_os_error() == Some(5)));
    assert!(replies.next().is_none());
    assert_eq!(replies.verdict(), Verdict::Lost(Loss::Link));
}

#[test]
fn a_kernel_serves_each_request_of_a_datagram() {
    let kernel = Kernel::new(12587, |request: &Request<'_>| match request.nl_type::<u16>() {
        18 => request.dump(8192)?.finish(NlmF::empty(), 0, &()),
        _ => Ok(vec![request.acknowledgement(&())?]),
    });
    assert_eq!((kernel.port(), kernel.receive()), (12587, None));
    let mut set = DUMP;
    set[4] = 19;
    kernel.send(&[DUMP, set].concat()).expect("two requests");
    kernel.notify(1, vec![1, 2]);
    let end = message(u16::from(Nlmsg::Done), 2, &[&[0; 4]]);
    assert_eq!(kernel.receive(), Some(Datagram { group: 0, bytes: end }));
    assert_eq!(kernel.receive().map(|it| it.bytes.len()), Some(36));
    assert_eq!(kernel.receive(), Some(Datagram { group: 1, bytes: vec![1, 2] }));
    assert!(matches!(kernel.send(&DUMP[..15]), Err(SocketError::De(DeError::Refused(Refusal::SHORT)))));
}

/// What a router makes of a list: its verdict, and how often it was requested, at most twice.
fn twice(answer: impl FnMut(&Request<'_>) -> Result<Vec<Vec<u8>>, SerError> + Send + 'static) -> (Verdict, usize) {
    let (count, mut answer) = (Arc::new(AtomicUsize::new(0)), answer);
    let counted = Arc::clone(&count);
    let kernel = Kernel::new(7, move |request: &Request<'_>| {
        counted.fetch_add(1, Ordering::Relaxed);
        answer(request)
    });
    let (router, _multicast) = NlRouter::over(kernel).expect("a router");
    let all = NlPayload::<Rtm, Buffer>::Empty;
    let list = router.dump::<_, _, Rtm, [u8; 4]>(Rtm::Getlink, NlmF::empty(), all, 2).expect("a list");
    (list.verdict, count.load(Ordering::Relaxed))
}

/// The answer to a dump: messages with these flags and bodies.
fn list(request: &Request<'_>, messages: &[(NlmF, &[u8])]) -> Result<Vec<Vec<u8>>, SerError> {
    let mut dump = request.dump(8192)?;
    for (flags, body) in messages {
        dump.push(Rtm::Newlink, *flags, &Buffer::from(*body))?;
    }
    dump.finish(NlmF::empty(), 0, &())
}

#[test]
fn a_dump_is_repeated_where_that_may_help() {
    let none = NlmF::empty();
    assert_eq!(twice(move |it| list(it, &[(none, &[1; 4])])), (Verdict::Complete, 1));
    assert_eq!(twice(|it| list(it, &[(NlmF::DUMP_INTR, &[1; 4])])), (Verdict::Interrupted, 2));
    assert_eq!(twice(move |it| list(it, &[(none, &[1; 8])])), (Verdict::Lost(Loss::Unreadable), 1));
    // EBUSY and ENOBUFS of errno.h, and ENODEV.
    for (code, count) in [(-16, 2), (-105, 2), (-19, 1)] {
        assert_eq!(twice(move |it| Ok(vec![it.capped_error(code, &())?])), (Verdict::Failed(code), count));
    }
}

#[test]
fn the_first_message_that_decides_a_verdict_counts() {
    let (marked, none) = (NlmF::DUMP_INTR, NlmF::empty());
    assert_eq!(twice(move |it| list(it, &[(marked, &[1; 4]), (none, &[1; 8])])), (Verdict::Interrupted, 2));
    assert_eq!(twice(move |it| list(it, &[(none, &[1; 8]), (marked, &[1; 4])])), (Verdict::Lost(Loss::Unreadable), 1));
}
