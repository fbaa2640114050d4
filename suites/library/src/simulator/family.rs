//! An example: a family of generic netlink that a simulator serves, and a client of it on the router.
//!
//! The family has the number 27, one command, 1, that gets counters, and one attribute, 1, with a counter's value.

use super::support::request;
use neli::consts::nl::NlmF;
use neli::err::{RouterError, SocketError};
use neli::genl::{Genlmsghdr, GenlmsghdrBuilder};
use neli::router::synchronous::{Log, Loss, NlRouter, NlRouterReceiverHandle, Verdict};
use neli::short::{Client, ExtAck as _, ExtAckBuilder, Lookup, Put};
use neli::simulator::{ExtAck, Request};
use neli::types::GenlBuffer;
use std::alloc::Global;
use std::io::ErrorKind;
use std::process::Abort;
use std::test::Fail;

/// The family's number.
const FAMILY: u16 = 27;

/// The port of the client's socket.
const PORT: u32 = 4711;

/// The simulator's counters.
const COUNTERS: [u32; 3] = [5, 7, 11];

/// A message of the family.
type Counter = Genlmsghdr<u8, u16>;

/// The command that gets counters, with this value if there is one.
fn counter(alloc: Global, value: Option<u32>) -> Result<Counter, Fail> {
    let mut attrs = GenlBuffer::new(alloc);
    if let Some(value) = value {
        attrs.put(alloc, 1u16, value)?;
    }
    let body = GenlmsghdrBuilder::default().cmd(1).version(1).attrs(attrs);
    Ok(body.build(alloc)?)
}

/// The simulator's answer to a request for all counters.
fn dumped(alloc: Global, request: &Request<'_>) -> Result<Vec<Vec<u8>>, Fail> {
    // Two counters of 28 bytes each fit a datagram.
    let mut dump = request.dump(alloc, 64);
    for value in COUNTERS {
        let body = counter(alloc, Some(value))?;
        dump.push(alloc, FAMILY, NlmF::empty(), body)?;
    }
    Ok(dump.finish(alloc, NlmF::empty(), 0, ExtAck::new(alloc))?)
}

/// Its answer to one request: all counters, the first one, or that another family does not exist.
fn served(alloc: Global, request: &Request<'_>) -> Result<Vec<Vec<u8>>, Fail> {
    let nothing = ExtAck::new(alloc);
    let mut datagrams = Vec::new(alloc);
    if *request.header().nl_type() != FAMILY {
        datagrams.push(request.error(alloc, -2, nothing)?)?;
        return Ok(datagrams);
    }
    if request.wants_dump() {
        return dumped(alloc, request);
    }
    let body = counter(alloc, Some(COUNTERS[0]))?;
    datagrams.push(request.reply(alloc, FAMILY, NlmF::empty(), body)?)?;
    if request.wants_acknowledgement() {
        datagrams.push(request.acknowledgement(alloc, nothing)?)?;
    }
    Ok(datagrams)
}

/// What waits for this handle, up to the end: the value of each counter, and none for any other item.
fn read_all(
    alloc: Global,
    router: &mut NlRouter,
    handle: &mut NlRouterReceiverHandle<u16, Counter>,
) -> Result<Vec<Option<u32>>, Fail> {
    let mut values = Vec::new(alloc);
    for item in router.read_dump(alloc, handle)?.items {
        let body = item.as_ref().ok().and_then(|it| it.get_payload());
        values.push(match body {
            Some(body) => body.attrs().get(alloc, 1u16)?,
            None => None,
        })?;
    }
    Ok(values)
}

/// A request, and its answer: counters, and with none the ends, acknowledgements and errors.
const ROWS: [(&str, u16, NlmF, &[Option<u32>]); 4] = [
    (
        "all",
        FAMILY,
        NlmF::DUMP,
        &[Some(5), Some(7), Some(11), None],
    ),
    ("one", FAMILY, NlmF::ECHO, &[Some(5)]),
    ("one, acknowledged", FAMILY, NlmF::ACK, &[Some(5), None]),
    ("another family", 28, NlmF::ACK, &[None]),
];

#[test]
fn a_family_is_served(rt: HostRuntime) -> Result<(), Fail> {
    let alloc = rt.alloc();
    let (mut router, _multicast) = NlRouter::<Log>::new(alloc, PORT);
    for (row, family, flags, want) in ROWS {
        let mut sent = router.request(alloc, family, flags, counter(alloc, None)?)?;
        let request = request(&rt, PORT, &sent.bytes);
        assert!(rt; request.is_handled(), "at {row}");
        for datagram in served(alloc, &request)? {
            router.receive_for(alloc, &datagram, &[])?;
        }
        let got = read_all(alloc, &mut router, &mut sent.handle)?;
        assert_eq!(rt; got.as_slice(), want, "at {row}");
        router.close(sent.handle);
    }
    Ok(())
}

/// A request that the simulator refuses, with the reason, and what the client reads.
#[test]
fn a_refusal_is_read(rt: HostRuntime) -> Result<(), Fail> {
    let alloc = rt.alloc();
    let (mut router, _multicast) = NlRouter::<Log>::new(alloc, PORT);
    let mut sent = router.request(alloc, FAMILY, NlmF::ACK, counter(alloc, None)?)?;
    let reason = ExtAckBuilder::default()
        .text("no such counter")
        .offset(20)
        .build(alloc)?;
    let datagram = request(&rt, PORT, &sent.bytes).capped_error(alloc, -2, reason)?;
    router.receive_for(alloc, &datagram, &[])?;
    let Err(RouterError::Capped(answer)) = router.next(alloc, &mut sent.handle) else {
        rt.panic("no error of the kernel")
    };
    assert_eq!(rt; *answer.error(), -2);
    assert_eq!(rt; answer.text(), Some("no such counter"));
    assert_eq!(rt; answer.offset(), Some(20));
    Ok(())
}

/// A dump whose second datagram is lost, since the socket's buffer ran over, and what the client reads.
#[test]
fn a_lost_datagram_is_noticed(rt: HostRuntime) -> Result<(), Fail> {
    let alloc = rt.alloc();
    let (mut router, _multicast) = NlRouter::<Log>::new(alloc, PORT);
    let mut sent = router.request(alloc, FAMILY, NlmF::DUMP, counter(alloc, None)?)?;
    let datagrams = served(alloc, &request(&rt, PORT, &sent.bytes))?;
    assert_eq!(rt; datagrams.len(), 2);
    router.receive_for(alloc, &datagrams[0], &[])?;
    router.link_overran()?;
    let dump = router.read_dump(alloc, &mut sent.handle)?;
    assert_eq!(rt; dump.items.len(), 3);
    let Some(Err(RouterError::Socket(SocketError::Io(ErrorKind::Other)))) = dump.items.last() else {
        rt.panic("no fault of the link")
    };
    assert_eq!(rt; dump.verdict, Verdict::Lost(Loss::Link));
    Ok(())
}
