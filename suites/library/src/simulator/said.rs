//! A kernel's messages beside whole dumps: marks, messages without MULTI, ends with a code, control messages; and which
//! requests are for a dump.

use super::support::{NOTHING, assert_bytes, decoded, ext_ack, request};
use neli::consts::nl::NlmF;
use neli::consts::socket::NlFamily;
use neli::lent::LentMessages;
use neli::nl::NlPayload;
use neli::router::synchronous::{Log, NlRouter, NlRouterReceiverHandle, Reply};
use neli::simulator::{Answering, Request};
use neli::types::Buffer;
use neli::utils::Groups;
use std::alloc::Global;
use std::process::Abort;
use std::test::Fail;

/// A request for the devices of the family `netdev`, and the dump, whose messages lack MULTI: datagrams 0862 and 0863.
const ASKED: &str = "1400000014000103170400000000000001010000";

const DEVICES: &str =
    "400000001400000017040000494300000101000008000100010000000c00030000000000000000000c00050000000000\
    000000000c0006000000000000000000400000001400000017040000494300000101000008000100020000000c000300\
    23000000000000000c00050007000000000000000c000600000000000000000040000000140000001704000049430000\
    0101000008000100030000000c00030023000000000000000c00050007000000000000000c0006000000000000000000\
    1400000003000200170400004943000000000000";

/// The port of the requesting socket.
const PORT: u32 = 17225;

/// The datagram of these messages of 64 bytes, and of the end.
fn devices(rt: &impl Abort, alloc: Global, request: &Request<'_>) -> Result<Vec<Vec<u8>>, Fail> {
    let recorded = decoded(rt, alloc, DEVICES);
    let mut dump = request.dump(alloc, 4096);
    for message in [0, 64, 128] {
        let mut body = Vec::new(alloc);
        body.extend_from_slice(&recorded[message + 16..message + 64])?;
        dump.push_reply(alloc, 20u16, NlmF::empty(), body)?;
    }
    Ok(dump.finish(alloc, NlmF::empty(), 0, ext_ack(rt, alloc, NOTHING))?)
}

#[test]
fn a_recorded_dump_without_multi_is_built_again(rt: HostRuntime) -> Result<(), Fail> {
    let asked = decoded(&rt, rt.alloc(), ASKED);
    let want = decoded(&rt, rt.alloc(), DEVICES);
    let datagrams = devices(&rt, rt.alloc(), &request(&rt, PORT, asked.as_slice()))?;
    assert_eq!(rt; datagrams.len(), 1);
    assert_bytes(&rt, "0863", datagrams[0].as_slice(), want.as_slice());
    Ok(())
}

/// The types and flags of a handle's items up to the end, and the code of the last one if it is the end of a dump.
fn given(
    alloc: Global,
    router: &mut NlRouter,
    handle: &mut NlRouterReceiverHandle<u16, Buffer>,
) -> Result<(Vec<[u16; 2]>, Option<i32>), Fail> {
    let mut items = Vec::new(alloc);
    let mut code = None;
    // No handle here has more than four items.
    for _ in 0..5 {
        let reply = router.next_typed::<u16, Buffer, _, _>(alloc, handle)?;
        let Reply::Item(Ok(message)) = reply else {
            break;
        };
        items.push([*message.nl_type(), u16::from(*message.nl_flags())])?;
        code = match message.nl_payload() {
            NlPayload::DumpExtAck(end) => Some(*end.error()),
            _ => None,
        };
    }
    Ok((items, code))
}

/// A router with this port that has sent a request for a dump with this number, its handle, and the request's bytes.
fn asker(
    alloc: Global,
    number: u32,
) -> Result<(NlRouter, NlRouterReceiverHandle<u16, Buffer>, Vec<u8>), Fail> {
    let (mut router, _multicast) = NlRouter::<Log>::new(alloc, PORT);
    router.set_next_seq(number);
    let body = NlPayload::Payload(Buffer::new(alloc));
    let (sent, handle) = router.send::<_, _, u16, Buffer>(alloc, 20u16, NlmF::DUMP, body)?;
    Ok((router, handle, sent))
}

/// The first message has no MULTI, so it is the whole answer.
#[test]
fn a_dump_without_multi_is_its_first_message(rt: HostRuntime) -> Result<(), Fail> {
    let alloc = rt.alloc();
    let (mut router, mut handle, sent) = asker(alloc, 1047)?;
    for datagram in devices(&rt, alloc, &request(&rt, PORT, sent.as_slice()))? {
        router.processing_loop(&datagram, &Groups::empty(alloc))?;
    }
    let (items, code) = given(alloc, &mut router, &mut handle)?;
    assert_eq!(rt; items.as_slice(), [[20, 0]].as_slice());
    assert_eq!(rt; code, None);
    Ok(())
}

/// A dump: the flags beside MULTI of its messages, and of its end with its code; and the result. DUMP_INTR is 0x10,
/// DUMP_FILTERED 0x20, MULTI 2.
const DUMPS: [(&str, &[u16], u16, i32, &[[u16; 2]]); 4] = [
    (
        "interrupted before the second message",
        &[0, 0x10, 0],
        0,
        0,
        &[[16, 2], [16, 0x12], [16, 2], [3, 2]],
    ),
    (
        "interrupted at its end",
        &[0],
        0x10,
        0,
        &[[16, 2], [3, 0x12]],
    ),
    (
        "filtered",
        &[0x20, 0x20],
        0x20,
        0,
        &[[16, 0x22], [16, 0x22], [3, 0x22]],
    ),
    ("failed", &[0], 0, -19, &[[16, 2], [3, 2]]),
];

#[test]
fn marks_and_codes_are_given(rt: HostRuntime) -> Result<(), Fail> {
    let alloc = rt.alloc();
    for (row, messages, end, code, want) in DUMPS {
        let (mut router, mut handle, sent) = asker(alloc, 7)?;
        let request = request(&rt, PORT, sent.as_slice());
        let mut dump = request.dump(alloc, 40);
        for flags in messages {
            dump.push(alloc, 16u16, NlmF::from(*flags), [0u8; 4])?;
        }
        for datagram in dump.finish(alloc, NlmF::from(end), code, ext_ack(&rt, alloc, NOTHING))? {
            router.processing_loop(&datagram, &Groups::empty(alloc))?;
        }
        let (items, last) = given(alloc, &mut router, &mut handle)?;
        assert_eq!(rt; items.as_slice(), want, "at {row}");
        assert_eq!(rt; last, Some(code), "at {row}");
    }
    Ok(())
}

/// A header of 16 bytes: its length, type 1 or 4, no flag, number 1047 and port 17225.
#[test]
fn control_messages_are_headers_alone(rt: HostRuntime) -> Result<(), Fail> {
    let asked = decoded(&rt, rt.alloc(), ASKED);
    let request = request(&rt, PORT, asked.as_slice());
    let want = decoded(&rt, rt.alloc(), "10000000010000001704000049430000");
    let bytes = request.no_operation(rt.alloc())?;
    assert_bytes(&rt, "no operation", bytes.as_slice(), want.as_slice());
    let want = decoded(&rt, rt.alloc(), "10000000040000001704000049430000");
    let bytes = request.overrun(rt.alloc())?;
    assert_bytes(&rt, "overrun", bytes.as_slice(), want.as_slice());
    Ok(())
}

/// Types and flags of requests, and whether routing and generic netlink read each as one for a dump. RTM_NEWLINK is 16,
/// RTM_GETLINK 18; ROOT is 0x100, MATCH 0x200, and in a request that creates an object the same bits are REPLACE and
/// EXCL.
const REQUESTS: [(&str, u8, [u8; 2], [bool; 2]); 5] = [
    ("both bits", 18, [1, 3], [true, true]),
    ("ROOT", 18, [1, 1], [true, false]),
    ("MATCH", 18, [1, 2], [true, false]),
    ("none", 18, [5, 0], [false, false]),
    ("EXCL and CREATE of a new link", 16, [5, 6], [false, false]),
];

#[test]
fn families_read_dump_by_their_own_rule(rt: HostRuntime) {
    for (row, kind, flags, want) in REQUESTS {
        let header = [
            16, 0, 0, 0, kind, 0, flags[0], flags[1], 0, 0, 0, 0, 0, 0, 0, 0,
        ];
        let request = request(&rt, PORT, &header);
        let got = [request.wants_routing_dump(), request.wants_dump()];
        assert_eq!(rt; got, want, "at {row}");
    }
}

/// The recorded dump ends with its last message, though none has MULTI; with ACK in place of DUMP the same request would
/// end with an error alone.
#[test]
fn a_recorded_dump_ends_where_its_answering_says(rt: HostRuntime) {
    let asked = decoded(&rt, rt.alloc(), ASKED);
    let request = request(&rt, PORT, asked.as_slice());
    let dump = request.answering(NlFamily::Generic);
    assert_eq!(rt; dump, Answering::Dump, "the request");
    let other = Answering::of(NlFamily::Generic, 20, NlmF::REQUEST | NlmF::ACK, 4);
    assert_eq!(rt; other, Answering::Acknowledgement, "with ACK");
    let recorded = decoded(&rt, rt.alloc(), DEVICES);
    let mut count = 0;
    for message in LentMessages::<u16>::new(recorded.as_slice()) {
        let message = message.expect(&rt, "a message");
        let (nl_type, nl_flags) = (*message.nl_type(), *message.nl_flags());
        assert_eq!(rt;
            dump.ends_with(nl_type, nl_flags, message.code()),
            count == 3,
            "message {count}"
        );
        assert!(rt;
            !other.ends_with(nl_type, nl_flags, message.code()),
            "message {count}, with ACK"
        );
        count += 1;
    }
    assert_eq!(rt; count, 4, "messages");
}
