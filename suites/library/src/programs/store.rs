//! The contents of the shared store after each read: the run that docs/ROUTER.md draws, and a fault.

use super::support::{assert_is, bytes_of};
use neli::consts::nl::NlmF;
use neli::nl::NlPayload;
use neli::router::synchronous::{Log, NlRouter, NlRouterReceiverHandle, Reply};
use neli::types::Buffer;
use neli::utils::Groups;
use std::alloc::Global;
use std::process::Abort;

/// Three messages: the numbers 0 and 1, and 9, which no handle has.
const THREE: &str =
    "100000001000020000000000000000001000000010000200010000000000000010000000100000000900000000000000";

/// A message for multicast.
const NEWS: &str = "10000000100000000000000000000000";

/// The handle of a request without a body.
fn asked<R: Abort>(
    rt: &R,
    alloc: Global,
    router: &mut NlRouter,
) -> NlRouterReceiverHandle<u16, Buffer> {
    let body: NlPayload<u16, Buffer> = NlPayload::Empty;
    match router.send(alloc, 16, NlmF::empty(), body) {
        Ok((_request, handle)) => handle,
        Err(_) => rt.panic("not sent"),
    }
}

/// Hands in a datagram that arrived for the groups of a mask.
fn take<R: Abort>(rt: &R, alloc: Global, router: &mut NlRouter, digits: &str, mask: u32) {
    let datagram = bytes_of(rt, alloc, digits);
    let groups = Groups::new_bitmask(alloc, mask).expect(rt, "memory");
    router
        .processing_loop(&datagram, &groups)
        .expect(rt, "memory");
}

/// Asserts the number of kept entries, and of kept bytes.
fn assert_kept<R: Abort>(rt: &R, router: &NlRouter, want: (usize, usize)) {
    let store = router.deliveries();
    assert_is(rt, (store.kept(), store.kept_bytes()), want);
}

/// Reads an item of a handle. Then this many entries and bytes are kept.
fn read<T, P, R: Abort>(
    rt: &R,
    alloc: Global,
    router: &mut NlRouter,
    handle: &mut NlRouterReceiverHandle<T, P>,
    want: (usize, usize),
) {
    let reply = router.next_typed::<u16, Buffer, _, _>(alloc, handle);
    assert_is(rt, matches!(&reply, Ok(Reply::Item(_))), true);
    assert_kept(rt, router, want);
}

#[test]
fn what_is_kept_after_each_read(rt: HostRuntime) {
    let alloc = rt.alloc();
    let (mut router, mut multicast) = NlRouter::<Log>::new(alloc, 0);
    let mut first = asked(&rt, alloc, &mut router);
    let mut second = asked(&rt, alloc, &mut router);
    take(&rt, alloc, &mut router, THREE, 0);
    take(&rt, alloc, &mut router, NEWS, 1);
    assert_kept(&rt, &router, (4, 64));
    read(&rt, alloc, &mut router, &mut first, (3, 64));
    read(&rt, alloc, &mut router, &mut second, (2, 64));
    read(&rt, alloc, &mut router, &mut second, (2, 64));
    read(&rt, alloc, &mut router, &mut first, (1, 16));
    read(&rt, alloc, &mut router, &mut multicast, (0, 0));
}

// Each of two handles waits for it. No byte of it is kept.
#[test]
fn a_fault_is_kept_once(rt: HostRuntime) {
    let alloc = rt.alloc();
    let (mut router, _multicast) = NlRouter::<Log>::new(alloc, 0);
    let mut first = asked(&rt, alloc, &mut router);
    let mut second = asked(&rt, alloc, &mut router);
    take(&rt, alloc, &mut router, "000000000000000000000000000000", 0);
    assert_kept(&rt, &router, (1, 0));
    read(&rt, alloc, &mut router, &mut first, (1, 0));
    read(&rt, alloc, &mut router, &mut second, (0, 0));
}
