//! A store with a limit on the bytes that it keeps: a datagram above it is refused as out of memory.

use super::entries::{ONE, THREE};
use super::script::Step::{Close, Come, Read, Send};
use super::script::Told::{Done, End, Message, Sent, Stray};
use super::script::{Step, Told, kind_once, outcomes};
use super::steps::Asker;
use super::support::assert_is_at;
use example_store::Limited;

/// Steps over a store that keeps 64 bytes, the outcome of each (`None`: it is refused), and the number of bytes kept
/// then. A datagram is removed with the last of its messages for which a handle waits.
const STEPS: [(Step, Option<Told>, usize); 14] = [
    (Send(16, 0, ""), Some(Sent(0, 0)), 0),
    (Send(16, 0, ""), Some(Sent(1, 0)), 0),
    (Come(THREE, 0), Some(Done), 48),
    (Come(ONE, 0), Some(Done), 64),
    (Come(ONE, 0), None, 64),
    (Come("", 0), Some(Done), 64),
    (Close(2), Some(Done), 64),
    (Read(1), Some(Message(16, 0, 0)), 64),
    (Read(1), Some(Stray(9, 0)), 16),
    (Come(THREE, 0), Some(Done), 64),
    (Come(ONE, 0), None, 64),
    (Read(1), Some(End), 64),
    (Close(1), Some(Done), 0),
    (Come(ONE, 1), Some(Done), 16),
];

#[test]
fn a_datagram_above_the_limit_is_refused(rt: HostRuntime) {
    let alloc = rt.alloc();
    let mut asker = Asker::<Limited<64>>::new(&rt, alloc, 0);
    for (place, (step, want, kept)) in STEPS.iter().enumerate() {
        let came = asker.step(alloc, *step).ok().map(kind_once);
        let left = asker.router.deliveries().log().kept_bytes();
        assert_is_at(&rt, place, (came, left), (*want, *kept));
    }
}

#[test]
fn a_run_is_refused_where_the_store_is(rt: HostRuntime) {
    for (datagram, is_done) in [(ONE, false), ("", true)] {
        let steps = [(Come(datagram, 1), Done)];
        let came = outcomes::<Limited<0>>(rt.alloc(), 0, &steps);
        assert_is_at(&rt, datagram, came.is_ok(), is_done);
    }
}
