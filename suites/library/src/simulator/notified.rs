//! Notifications: their cause, and the items of a client with a request meanwhile.

use super::support::{NOTHING, assert_bytes, decoded, ext_ack, request};
use neli::consts::nl::NlmF;
use neli::nl::NlPayload;
use neli::router::synchronous::{Log, NlRouter, NlRouterReceiverHandle, Reply};
use neli::simulator::notification;
use neli::types::Buffer;
use neli::utils::Groups;
use std::alloc::Global;
use std::process::Abort;
use std::test::Fail;

/// A notification that a link has an address, of number 1795332089 and port 12666: datagram 0094, of group 5.
const NOTIFICATION: &str =
    "5800000014000000f997026b7a310000021880000300000008000100c000020108000200c000020108000400c00002ff\
    0a0003007665746830000000080008008000000014000600ffffffffffffffff4473030044730300";

/// The mask of that group.
const GROUP: u32 = 16;

/// Its number and its port.
const CAUSE: [u32; 2] = [1795332089, 12666];

/// The notification, by the simulator.
fn notified(rt: &impl Abort, alloc: Global) -> Vec<u8> {
    let recorded = decoded(rt, alloc, NOTIFICATION);
    let mut body = Vec::new(alloc);
    body.extend_from_slice(&recorded[16..]).expect(rt, "memory");
    notification(alloc, 20u16, NlmF::empty(), CAUSE[0], CAUSE[1], body).expect(rt, "memory")
}

#[test]
fn a_recorded_notification_says_who_caused_it(rt: HostRuntime) {
    let want = decoded(&rt, rt.alloc(), NOTIFICATION);
    let bytes = notified(&rt, rt.alloc());
    assert_bytes(&rt, "0094", bytes.as_slice(), want.as_slice());
}

/// Types, numbers and ports of a handle's items, up to the end or a wait; nothing for an error.
fn given(
    alloc: Global,
    router: &mut NlRouter,
    handle: &mut NlRouterReceiverHandle<u16, Buffer>,
) -> Result<(Vec<Option<[u32; 3]>>, bool), Fail> {
    let mut items = Vec::new(alloc);
    // No handle here has more than four items.
    for _ in 0..5 {
        match router.next_typed::<u16, Buffer, _, _>(alloc, handle)? {
            Reply::Item(Ok(message)) => {
                let kind = u32::from(*message.nl_type());
                items.push(Some([kind, *message.nl_seq(), *message.nl_pid()]))?;
            }
            Reply::Item(Err(_)) => items.push(None)?,
            Reply::End => return Ok((items, true)),
            Reply::Waits => return Ok((items, false)),
        }
    }
    Ok((items, false))
}

/// A notification of the client's own number and port arrives between the messages of a dump.
#[test]
fn notifications_come_while_one_asks(rt: HostRuntime) -> Result<(), Fail> {
    let alloc = rt.alloc();
    let (mut router, multicast) = NlRouter::<Log>::new(alloc, CAUSE[1]);
    let mut multicast = multicast.retyped::<u16, Buffer>();
    router.set_next_seq(CAUSE[0]);
    let body = NlPayload::Payload(Buffer::new(alloc));
    let (sent, mut handle) = router.send::<_, _, u16, Buffer>(alloc, 22u16, NlmF::DUMP, body)?;
    let request = request(&rt, CAUSE[1], &sent);
    assert!(rt; request.wants_routing_dump(), "no dump");
    // A message of 20 bytes fits a datagram.
    let mut dump = request.dump(alloc, 24);
    dump.push(alloc, 20u16, NlmF::empty(), [0u8; 4])?;
    dump.push(alloc, 20u16, NlmF::empty(), [1u8; 4])?;
    let end = ext_ack(&rt, alloc, NOTHING);
    for datagram in dump.finish(alloc, NlmF::empty(), 0, end)? {
        let notification = notified(&rt, alloc);
        router.processing_loop(&notification, &Groups::new_bitmask(alloc, GROUP)?)?;
        router.processing_loop(&datagram, &Groups::empty(alloc))?;
    }
    let [number, port] = CAUSE;
    let (answers, ended) = given(alloc, &mut router, &mut handle)?;
    let want = [
        Some([20, number, port]),
        Some([20, number, port]),
        Some([3, number, port]),
    ];
    assert_eq!(rt; answers.as_slice(), want.as_slice(), "the answers");
    assert!(rt; ended, "the answers have not ended");
    let (heard, ended) = given(alloc, &mut router, &mut multicast)?;
    let want = [Some([20, number, port]); 3];
    assert_eq!(rt; heard.as_slice(), want.as_slice(), "multicast");
    assert!(rt; !ended, "multicast has ended");
    Ok(())
}
