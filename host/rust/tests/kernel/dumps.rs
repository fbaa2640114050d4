//! Dumps as families and protocols differ in them: by one bit of DUMP, with an acknowledgement requested, and without
//! MULTI.

use crate::links::{make_pairs, router};
use crate::space::alone;
use neli::consts::nl::NlmF;
use neli::consts::rtnl::Rtm;
use neli::consts::socket::NlFamily;
use neli::nl::NlPayload;
use neli::router::lending::LendingRouter;
use neli::router::synchronous::{NlRouter, NlRouterReceiverHandle, Verdict};
use neli::types::Buffer;
use neli::utils::Groups;

const ENOENT: i32 = 2;

/// So many pairs are listed in several datagrams, also by the family netdev.
const MANY: usize = 150;

/// The command that lists the devices, of `linux/netdev.h`, and a version.
const ALL_DEVICES: [u8; 4] = [1, 1, 0, 0];

/// nf_tables, which is netfilter's subsystem 10, and `struct nfgenmsg` of IPv4.
const NF_TABLES: u16 = 10 << 8;
const IPV4: [u8; 4] = [2, 0, 0, 0];

type Bytes = NlRouterReceiverHandle<u16, Buffer>;

/// How many bodies a complete answer has.
fn whole(mut replies: Bytes) -> usize {
    let bodies = replies.by_ref().filter(|it| it.as_ref().expect("a reply").get_payload().is_some()).count();
    assert_eq!(replies.verdict(), Verdict::Complete);
    bodies
}

fn send(router: &NlRouter, kind: u16, flags: NlmF, body: impl Into<Buffer>) -> Bytes {
    router.send(kind, flags, NlPayload::Payload(body.into())).expect("a request is sent")
}

#[test]
fn a_dump_ends_though_its_acknowledgement_never_comes() {
    alone(|| {
        let count = make_pairs(MANY);
        let (router, _) = router(&[]);
        for bits in [NlmF::DUMP, NlmF::ROOT, NlmF::MATCH] {
            let dump = || send(&router, Rtm::Getlink.into(), bits | NlmF::ACK, vec![0; 16]);
            drop(dump());
            let (first, second) = (dump(), dump());
            assert_eq!((whole(second), whole(first)), (count, count));
        }
    });
}

#[test]
fn a_dump_whose_messages_are_no_parts_is_read_whole() {
    alone(|| {
        let count = make_pairs(MANY);
        let (router, _) = NlRouter::connect(NlFamily::Generic, None, Groups::empty()).expect("a router connects");
        let family = match router.resolve_genl_family("netdev") {
            Err(error) if error.errno() == Some(ENOENT) => return println!("not run: there is no family netdev"),
            family => family.expect("the family is found"),
        };
        for flags in [NlmF::DUMP, NlmF::DUMP | NlmF::ACK] {
            assert_eq!(whole(send(&router, family, flags, &ALL_DEVICES[..])), count);
        }
        let mut broken_off = send(&router, family, NlmF::DUMP, &ALL_DEVICES[..]);
        let first = broken_off.next().expect("a device").expect("a reply");
        assert!(first.get_payload().is_some());
        drop(broken_off);
        assert_eq!(whole(send(&router, family, NlmF::DUMP, &ALL_DEVICES[..])), count);
        let body = NlPayload::Payload(Buffer::from(&ALL_DEVICES[..]));
        let dump = router.dump::<_, _, u16, Buffer>(family, NlmF::empty(), body, 3).expect("a dump");
        assert_eq!((dump.verdict, dump.messages.len()), (Verdict::Complete, count));
    });
}

#[test]
fn a_dump_whose_messages_are_no_parts_is_lent_whole() {
    alone(|| {
        let count = make_pairs(3);
        let (router, _) = NlRouter::connect(NlFamily::Generic, None, Groups::empty()).expect("a router connects");
        let Ok(family) = router.resolve_genl_family("netdev") else {
            return println!("not run: there is no family netdev");
        };
        let (mut router, _) = LendingRouter::connect(NlFamily::Generic, None, Groups::empty()).expect("a router");
        let body = NlPayload::Payload(Buffer::from(&ALL_DEVICES[..]));
        let devices = router.send(family, NlmF::DUMP, body).expect("a dump is sent");
        let mut lent = 0;
        while let Some(message) = router.lend_next(&devices).expect("an item") {
            lent += usize::from(message.nl_type() == family);
            router.pass(&devices).expect("it is passed");
        }
        assert_eq!((lent, router.verdict(&devices)), (count, Verdict::Complete));
    });
}

/// A body of netfilter with the name of a table.
fn table(name: &str) -> Buffer {
    let mut body = IPV4.to_vec();
    body.extend((5 + name.len() as u16).to_ne_bytes());
    body.extend(1u16.to_ne_bytes());
    body.extend(name.bytes());
    body.resize(8 + (name.len() + 1).next_multiple_of(4), 0);
    body.into()
}

#[test]
fn netfilter_begins_a_dump_for_either_bit() {
    alone(|| {
        let (router, _) = NlRouter::connect(NlFamily::Netfilter, None, Groups::empty()).expect("a router connects");
        let ends = || NlPayload::Payload(Buffer::from(&[0, 0, 0, 10][..]));
        let made = |name| (NF_TABLES, NlmF::CREATE | NlmF::ACK, NlPayload::Payload(table(name)));
        let (begin, end) = ((16, NlmF::empty(), ends()), (17, NlmF::empty(), ends()));
        let batch = [begin, made("one"), made("two"), made("three"), end];
        let sent = router.send_all::<_, _, u16, Buffer>(batch).expect("a batch is sent");
        for mut answer in sent.into_iter().skip(1).take(3) {
            if answer.next().is_some_and(|it| it.is_err()) {
                return println!("not run: there is no nf_tables");
            }
        }
        for flags in [NlmF::ROOT, NlmF::MATCH, NlmF::ROOT | NlmF::ACK, NlmF::DUMP | NlmF::ACK] {
            assert_eq!(whole(send(&router, NF_TABLES + 1, flags, &IPV4[..])), 3);
        }
    });
}
