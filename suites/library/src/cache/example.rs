//! The example of the module `cache` of `neli`, over a session.

use super::script::bytes_of;
use neli::cache::{Cache, Change, Changes, Keys};
use neli::consts::nl::NlmF;
use neli::consts::socket::NlFamily;
use neli::err::NoMemory;
use neli::session::{Freshness, Next, Reader, Session};
use std::process::Abort;

/// Recording 0187: the next hops 11, 13 and 14, and the end of the dump. Recording 0121: the next hop 12 was made.
const NEXT_HOPS: &str =
    "300000006800020005040000a37ff6be02fd000000000000080001000b00000008000500030000000800\
    0600c00002093c0000006800020005040000a37ff6be0000000000000000080001000d00000006000300\
    000000000c0002000b0000000100000008000e00000000803c0000006800020005040000a37ff6be0afd\
    000000000000080001000e00000008000500030000001400060020010db8000000000000000000000009\
    140000000300020005040000a37ff6be00000000";

const NEXT_HOP: &str =
    "3000000068000506ff97026bb731000002fd000000000000080001000c000000080005000400000008000600\
    c6336409";

/// Reads a dump to its end into a cache; how many objects are new, were changed, or are gone.
fn read_dump(session: &mut Session, cache: &mut Cache, number: u32) -> Result<usize, NoMemory> {
    let mut count = 0;
    while let Next::Message(message) = session.next(Reader::Request(number)) {
        cache.take_answer(&message)?;
        session.pass_answer(number);
    }
    if let Some(verdict) = session.verdict(number) {
        if let Some(before) = cache.ended(number, verdict) {
            for (_key, _change) in Changes::new(&before, cache.table()) {
                count += 1;
            }
        }
    }
    session.close(number);
    Ok(count)
}

/// Reads what came to groups into a cache; what became of the last object.
fn read_multicast(session: &mut Session, cache: &mut Cache) -> Result<Option<Change>, NoMemory> {
    let mut last = None;
    loop {
        match session.next(Reader::Multicast) {
            Next::Message(message) => {
                last = cache.take_notification(&message)?;
            }
            Next::Loss(_) => cache.lost(),
            _ => return Ok(last),
        }
        session.pass_multicast();
    }
}

fn receive(rt: &impl Abort, session: &mut Session, datagram: &[u8], group: u32) {
    assert!(rt; session.receive(datagram, group, true).is_ok());
}

#[test]
fn next_hops_are_kept(rt: HostRuntime) {
    let alloc = rt.alloc();
    let mut session = Session::new(alloc, NlFamily::Route, 0xbef6_7fa3, false);
    let mut cache = Cache::new(alloc, Keys::next_hops());
    session.set_number(1029);
    let requested = session.request(106, NlmF::DUMP, &[0; 8]);
    let number = requested.expect(&rt, "a request");
    cache.requested(number);
    assert!(rt; session.next_outgoing());
    session.sent();
    receive(&rt, &mut session, &bytes_of(&rt, alloc, NEXT_HOPS), 0);
    receive(&rt, &mut session, &bytes_of(&rt, alloc, NEXT_HOP), 32);
    let count = read_dump(&mut session, &mut cache, number);
    assert_eq!(rt; count, Ok(3));
    assert_eq!(rt; cache.freshness(), Freshness::Current);
    let change = read_multicast(&mut session, &mut cache);
    assert_eq!(rt; change, Ok(Some(Change::New)));
    assert_eq!(rt; cache.table().len(), 4);
    assert!(rt; session.fault(105).is_ok());
    let change = read_multicast(&mut session, &mut cache);
    assert_eq!(rt; change, Ok(None));
    assert_eq!(rt; cache.freshness(), Freshness::Stale);
}
