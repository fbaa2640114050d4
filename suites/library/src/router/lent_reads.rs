//! Lent reads of a router over the log: step by step the same as owned ones of another router with the same datagrams.

use super::entries::ONE;
use super::script::bytes_of;
use super::support::assert_is_at;
use super::verdicts::{DUMP, END, PART, ROWS, SINGLE, WITH_ACK, come, request};
use neli::consts::rtnl::Ifla;
use neli::err::{RouterError, SocketError};
use neli::lent::LentMessage;
use neli::nl::{NlPayload, Nlmsghdr};
use neli::router::synchronous::{
    LentError, LentReply, Log, NlRouter, NlRouterReceiverHandle, Reply, Verdict,
};
use neli::rtnl::Ifinfomsg;
use neli::types::Buffer;
use neli::utils::Groups;
use std::alloc::Global;
use std::process::Abort;

type Handle = NlRouterReceiverHandle<u16, Buffer>;

type Item = Result<Nlmsghdr<u16, Buffer>, RouterError<u16, Buffer>>;

/// A link with index 3 and the name `lo`, sent for no request to group 1.
const LINK: &str =
    "2800000010000000000000000000000000000000030000000000000000000000070003006c6f0000";

/// Whether an owned message is what a lent one becomes; the lengths of all rows are multiples of four.
fn is_same(
    rt: &impl Abort,
    alloc: Global,
    lent: LentMessage<'_, u16>,
    owned: &Nlmsghdr<u16, Buffer>,
) -> bool {
    let read = lent.to_nlmsghdr::<Buffer>(alloc);
    read.expect(rt, "a message that was delivered") == *owned
}

/// Whether an owned item is the lent one.
fn is_item(
    rt: &impl Abort,
    alloc: Global,
    lent: Result<LentMessage<'_, u16>, LentError<'_>>,
    owned: &Item,
) -> bool {
    match (lent, owned) {
        (Ok(message), Ok(read)) => is_same(rt, alloc, message, read),
        (Err(LentError::Answer(code, message)), Err(RouterError::Nlmsgerr(answer))) => {
            let whole = message.to_nlmsghdr::<Buffer>(alloc);
            code == *answer.error()
                && match whole.expect(rt, "an error").nl_payload() {
                    NlPayload::Err(read) => read == answer,
                    _ => false,
                }
        }
        (Err(LentError::BadSeqOrPid(message)), Err(RouterError::BadSeqOrPid(read))) => {
            is_same(rt, alloc, message, read)
        }
        (Err(LentError::Socket(fault)), Err(RouterError::Socket(read))) => match (fault, read) {
            (SocketError::De(_), SocketError::De(_)) => true,
            (SocketError::Io(kind), SocketError::Io(other)) => kind == other,
            _ => false,
        },
        (Err(LentError::NoAck), Err(RouterError::NoAck)) => true,
        (Err(LentError::UnexpectedAck), Err(RouterError::UnexpectedAck)) => true,
        (Err(LentError::ClosedChannel), Err(RouterError::ClosedChannel)) => true,
        _ => false,
    }
}

/// One lent read, and a step past it, and one owned read of another router; whether there was an item.
fn step(
    rt: &impl Abort,
    alloc: Global,
    row: &str,
    lends: (&mut NlRouter<Log>, &mut Handle),
    reads: (&mut NlRouter<Log>, &mut Handle),
) -> bool {
    let (router, handle) = lends;
    let owned = reads.0.next_typed::<u16, Buffer, _, _>(alloc, reads.1);
    let (same, goes_on) = match (router.lend_next(handle), owned.expect(rt, "memory")) {
        (LentReply::Item(lent), Reply::Item(item)) => (is_item(rt, alloc, lent, &item), true),
        (LentReply::End, Reply::End) => (true, false),
        (LentReply::Waits, Reply::Waits) => (true, false),
        _ => (false, false),
    };
    assert_is_at(rt, row, same, true);
    router.pass(handle);
    assert_is_at(rt, row, handle.state(), reads.1.state());
    assert_is_at(rt, row, router.heard(handle), reads.0.heard(reads.1));
    assert_is_at(
        rt,
        row,
        router.deliveries().kept(),
        reads.0.deliveries().kept(),
    );
    assert_is_at(
        rt,
        row,
        router.deliveries().kept_bytes(),
        reads.0.deliveries().kept_bytes(),
    );
    goes_on
}

/// Items lent one after the other are those of owned reads; a second walk gives the same, and the router stays.
#[test]
fn items_ahead_are_those_of_owned_reads(rt: HostRuntime) {
    let alloc = rt.alloc();
    for (row, flags, datagrams, _, _) in &ROWS {
        let (mut lends, _multicast) = NlRouter::<Log>::new(alloc, 7);
        let (mut reads, _multicast) = NlRouter::<Log>::new(alloc, 7);
        let lent = request(&rt, alloc, &mut lends, *flags);
        let mut read = request(&rt, alloc, &mut reads, *flags);
        for text in *datagrams {
            come(&rt, alloc, &mut lends, text);
            come(&rt, alloc, &mut reads, text);
        }
        let kept = lends.deliveries().kept();
        let mut items = lends.lend_items(&lent);
        let mut goes_on = true;
        while goes_on {
            let owned = reads.next_typed::<u16, Buffer, _, _>(alloc, &mut read);
            let owned = owned.expect(&rt, "memory");
            for reply in [items.ahead().lend_next(), items.lend_next()] {
                let same = match (reply, &owned) {
                    (LentReply::Item(lent), Reply::Item(item)) => is_item(&rt, alloc, lent, item),
                    (LentReply::End, Reply::End) => true,
                    (LentReply::Waits, Reply::Waits) => true,
                    _ => false,
                };
                assert_is_at(&rt, row, same, true);
            }
            goes_on = matches!(&owned, Reply::Item(_));
        }
        assert_is_at(&rt, row, lends.deliveries().kept(), kept);
    }
}

/// What waits in a log for a number, lent one after the other: the deliveries that single reads give.
#[test]
fn deliveries_ahead_are_those_that_wait(rt: HostRuntime) {
    let alloc = rt.alloc();
    for (row, flags, datagrams, _, _) in &ROWS {
        let (mut router, _multicast) = NlRouter::<Log>::new(alloc, 7);
        let mut handle = request(&rt, alloc, &mut router, *flags);
        for text in *datagrams {
            come(&rt, alloc, &mut router, text);
        }
        let number = handle.state().number;
        let mut count = 0;
        {
            let mut ahead = router.deliveries().ahead(number).expect(&rt, "it is open");
            while ahead.lend_next().is_some() {
                count += 1;
            }
            assert_is_at(&rt, row, ahead.ahead().lend_next().is_none(), true);
        }
        assert_is_at(
            &rt,
            row,
            router.deliveries().ahead(Some(4711)).is_none(),
            true,
        );
        let mut read = 0;
        while router.deliveries().lend_first(number).is_some() {
            read += 1;
            if handle.state().ended {
                break;
            }
            router.pass(&mut handle);
        }
        assert_is_at(&rt, row, read <= count, true);
    }
}

#[test]
fn a_lent_read_is_an_owned_one(rt: HostRuntime) {
    let alloc = rt.alloc();
    for (row, flags, datagrams, verdict, _) in &ROWS {
        let (mut lends, _multicast) = NlRouter::<Log>::new(alloc, 7);
        let (mut reads, _multicast) = NlRouter::<Log>::new(alloc, 7);
        let mut lent = request(&rt, alloc, &mut lends, *flags);
        let mut read = request(&rt, alloc, &mut reads, *flags);
        for text in *datagrams {
            come(&rt, alloc, &mut lends, text);
            come(&rt, alloc, &mut reads, text);
        }
        let mut goes_on = true;
        while goes_on {
            goes_on = step(
                &rt,
                alloc,
                row,
                (&mut lends, &mut lent),
                (&mut reads, &mut read),
            );
        }
        assert_is_at(&rt, *row, lends.verdict(&lent), *verdict);
    }
}

#[test]
fn each_handle_is_lent_its_own(rt: HostRuntime) {
    let alloc = rt.alloc();
    let (mut lends, _multicast) = NlRouter::<Log>::new(alloc, 7);
    let (mut reads, _multicast) = NlRouter::<Log>::new(alloc, 7);
    let mut lent = [
        request(&rt, alloc, &mut lends, DUMP),
        request(&rt, alloc, &mut lends, WITH_ACK),
    ];
    let mut read = [
        request(&rt, alloc, &mut reads, DUMP),
        request(&rt, alloc, &mut reads, WITH_ACK),
    ];
    let of_1 = "10000000100000000100000007000000";
    for text in [PART, of_1, PART, END, ONE] {
        come(&rt, alloc, &mut lends, text);
        come(&rt, alloc, &mut reads, text);
    }
    for k in [1, 0, 0, 1, 1, 0, 0] {
        step(
            &rt,
            alloc,
            "in turns",
            (&mut lends, &mut lent[k]),
            (&mut reads, &mut read[k]),
        );
    }
}

#[test]
fn an_item_stays_lent_until_it_is_passed(rt: HostRuntime) {
    let alloc = rt.alloc();
    let (mut router, _multicast) = NlRouter::<Log>::new(alloc, 7);
    let mut handle = request(&rt, alloc, &mut router, 0);
    router.pass(&mut handle);
    assert_eq!(&rt; router.deliveries().kept(), 0);
    come(&rt, alloc, &mut router, SINGLE);
    for _ in 0..2 {
        let lent = router.lend_next(&handle);
        assert!(&rt; matches!(lent, LentReply::Item(Ok(_))));
    }
    assert_eq!(&rt; router.deliveries().kept(), 1);
    router.pass(&mut handle);
    assert_eq!(&rt; router.deliveries().kept(), 0);
    assert!(&rt; matches!(router.lend_next(&handle), LentReply::End));
    assert_eq!(&rt; router.verdict(&handle), Verdict::Complete);
}

#[test]
fn a_notification_is_walked_where_it_is_kept(rt: HostRuntime) {
    let alloc = rt.alloc();
    let (mut router, mut multicast) = NlRouter::<Log>::new(alloc, 7);
    let bytes = bytes_of(alloc, LINK).expect(&rt, "memory");
    let groups = Groups::new_groups(alloc, &[1]).expect(&rt, "memory");
    router.receive(&bytes, &groups).expect(&rt, "memory");
    let mut names = 0;
    while let LentReply::Item(Ok(message)) = router.lend_next(&multicast) {
        let attrs = message.get_attrs::<Ifinfomsg, Ifla>();
        let found = attrs
            .expect(&rt, "a link")
            .get_attribute(Ifla::Ifname)
            .expect(&rt, "attributes");
        let name = found.expect(&rt, "a name");
        assert_eq!(&rt; name.attr_payload(), b"lo\0".as_slice());
        names += 1;
        router.pass(&mut multicast);
    }
    assert_eq!(&rt; names, 1);
}
