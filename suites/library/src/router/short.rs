//! The short calls of a router, over both stores.

use super::entries::ONE;
use super::script::bytes_of;
use super::support::assert_is_at;
use neli::consts::nl::NlmF;
use neli::router::synchronous::{Deliveries, Log, NlRouter, NlRouterReceiverHandle, Queues};
use neli::short::{Client, Next};
use neli::types::Buffer;
use std::alloc::Global;
use std::process::Abort;

/// What a handle's next read gives, in a word.
fn next<D: Deliveries>(
    alloc: Global,
    router: &mut NlRouter<D>,
    handle: &mut NlRouterReceiverHandle<u16, Buffer>,
) -> &'static str {
    match router.next(alloc, handle) {
        Ok(Next::Message(_)) => "a message",
        Ok(Next::Waits) => "a wait",
        Ok(Next::End) => "the end",
        Err(_) => "an error",
    }
}

/// One message comes to group 1, and then one for a request; a group 0 is none.
fn check<D: Deliveries>(rt: &impl Abort, alloc: Global) {
    let (mut router, multicast) = NlRouter::<D>::new(alloc, 0);
    let mut multicast = multicast.retyped();
    let sent = router.request(alloc, 18u16, NlmF::empty(), Buffer::new(alloc));
    let mut handle = sent.expect(rt, "a number and memory").handle;
    let bytes = bytes_of(alloc, ONE).expect(rt, "memory");
    let mut read = |router: &mut NlRouter<D>| {
        (
            next(alloc, router, &mut multicast),
            next(alloc, router, &mut handle),
        )
    };
    assert_is_at(rt, "nothing came", read(&mut router), ("a wait", "a wait"));
    let taken = router.receive_for(alloc, &bytes, &[1]);
    taken.expect(rt, "memory");
    assert_is_at(
        rt,
        "a notification",
        read(&mut router),
        ("a message", "a wait"),
    );
    let taken = router.receive_for(alloc, &bytes, &[0]);
    taken.expect(rt, "memory");
    assert_is_at(rt, "an answer", read(&mut router), ("a wait", "a message"));
    assert_is_at(rt, "all is read", read(&mut router), ("a wait", "the end"));
}

#[test]
fn a_handle_waits_until_a_message_comes(rt: HostRuntime) {
    check::<Log>(&rt, rt.alloc());
    check::<Queues>(&rt, rt.alloc());
}
