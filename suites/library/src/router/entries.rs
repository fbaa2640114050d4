//! The contents of the shared store after each step: entries, and bytes of datagrams. [`super::datagrams`] tests that
//! both stores have the same outcomes for such steps.
//!
//! Any one allocation may be refused in this test (`rt try --test --fail-alloc N`). A refused call of the router
//! changes nothing, and when repeated has the outcome that it would have had.

use super::script::Step::{Close, Come, Next, Read, Send};
use super::script::Told::{Done, Message, Refused, Sent, Stray, Waits};
use super::script::{Came, Step, Told, kind_once};
use super::steps::Asker;
use super::support::assert_is_at;
use neli::router::synchronous::Log;
use neli_log::Places;
use std::alloc::Global;
use std::process::Abort;

/// Messages of type 16 with the numbers 0, 1 and 9; the first two have the flag MULTI.
pub const THREE: &str = "10000000100002000000000000000000\
    10000000100002000100000000000000\
    10000000100000000900000000000000";

/// A message of type 16.
pub const ONE: &str = "10000000100000000000000000000000";

/// A message of a dump with number 0 and four bytes, and the error -22 to number 1 with the request's header and
/// body and an attribute.
pub const ECHO: &str = "1400000010000200000000000000000001020304\
    34000000020000020100000000000000eaffffff\
    150000000004050001000000000000006162636465000000\
    0800010062616400";

/// A message of type 16 with the number 9, which no request has.
const STRAY: &str = "10000000100000000900000000000000";

/// Two of them.
const TWO_STRAYS: &str = "10000000100000000900000000000000\
    10000000100000000900000000000000";

/// Messages of type 16 with the flag MULTI and the numbers 0 and 1.
const ONE_EACH: &str = "10000000100002000000000000000000\
    10000000100002000100000000000000";

/// Scripts: steps, the outcome of each, and the number of entries and bytes kept then.
const SCRIPTS: [(&str, &[(Step, Told, [usize; 2])]); 6] = [
    (
        // Messages to a group at the end are kept until multicast is closed, and not at all after that.
        "an entry goes with the last handle that waits for it",
        &[
            (Send(16, 0, ""), Sent(0, 0), [0, 0]),
            (Send(16, 0, ""), Sent(1, 0), [0, 0]),
            (Come(THREE, 0), Done, [3, 48]),
            (Read(1), Message(16, 0, 0), [2, 48]),
            (Read(1), Stray(9, 0), [2, 48]),
            (Read(2), Message(16, 1, 0), [1, 48]),
            (Read(2), Stray(9, 0), [0, 0]),
            (Come(ONE, 1), Done, [1, 16]),
            (Close(0), Done, [0, 0]),
            (Come(ONE, 1), Done, [0, 0]),
        ],
    ),
    (
        "a stray is kept until the last handle has read it or is closed",
        &[
            (Send(16, 0, ""), Sent(0, 0), [0, 0]),
            (Send(16, 0, ""), Sent(1, 0), [0, 0]),
            (Come(STRAY, 0), Done, [1, 16]),
            (Read(1), Stray(9, 0), [1, 16]),
            (Read(2), Stray(9, 0), [0, 0]),
            (Come(STRAY, 0), Done, [1, 16]),
            (Close(1), Done, [1, 16]),
            (Close(2), Done, [0, 0]),
        ],
    ),
    (
        "of two strays the first is kept for who has read none",
        &[
            (Send(16, 0, ""), Sent(0, 0), [0, 0]),
            (Send(16, 0, ""), Sent(1, 0), [0, 0]),
            (Come(TWO_STRAYS, 0), Done, [2, 32]),
            (Read(1), Stray(9, 0), [2, 32]),
            (Close(1), Done, [2, 32]),
            (Read(2), Stray(9, 0), [1, 32]),
            (Close(2), Done, [0, 0]),
        ],
    ),
    (
        // The message to number 1 stands behind another one when its handle is closed.
        "an entry of a closed handle does not wait for a new one with its number",
        &[
            (Send(16, 0, ""), Sent(0, 0), [0, 0]),
            (Send(16, 0, ""), Sent(1, 0), [0, 0]),
            (Come(ONE_EACH, 0), Done, [2, 32]),
            (Close(2), Done, [2, 32]),
            (Next(1), Done, [2, 32]),
            (Send(16, 0, ""), Sent(1, 0), [2, 32]),
            (Read(3), Waits, [2, 32]),
            (Read(1), Message(16, 0, 0), [0, 0]),
        ],
    ),
    (
        "a fault is one entry without bytes",
        &[
            (Send(16, 0, ""), Sent(0, 0), [0, 0]),
            (Send(16, 0, ""), Sent(1, 0), [0, 0]),
            (Come("100000001000000000000000000000", 0), Done, [1, 0]),
        ],
    ),
    (
        "a refused call changes nothing",
        &[
            (Send(16, 0, ""), Sent(0, 0), [0, 0]),
            (Send(16, 0, ""), Sent(1, 0), [0, 0]),
            (Come(ECHO, 0), Done, [2, 72]),
            (Read(1), Message(16, 0, 4), [1, 72]),
            (Read(2), Refused(-22, 1024), [0, 0]),
        ],
    ),
];

/// The number of a router's kept entries, and of its kept bytes of datagrams.
pub fn kept(asker: &Asker<Log>) -> [usize; 2] {
    let log = asker.router.deliveries();
    [log.kept(), log.kept_bytes()]
}

/// Performs a step, again if memory ran out.
fn step(rt: &impl Abort, alloc: Global, row: &str, asker: &mut Asker<Log>, step: Step) -> Came {
    let before = kept(asker);
    if let Ok(outcome) = asker.step(alloc, step) {
        return outcome;
    }
    assert_is_at(rt, row, kept(asker), before);
    asker.step(alloc, step).expect(rt, "memory")
}

/// Plays a script, and asserts the outcome of each step and the kept entries and bytes.
fn play(rt: &impl Abort, alloc: Global, row: &str, steps: &[(Step, Told, [usize; 2])]) {
    let mut asker = Asker::<Log>::new(rt, alloc, 0);
    for (doing, want, left) in steps {
        let outcome = step(rt, alloc, row, &mut asker, *doing);
        assert_is_at(rt, row, kind_once(outcome), *want);
        assert_is_at(rt, row, kept(&asker), *left);
    }
}

/// Plays the scripts. Any one allocation may be refused here.
pub fn play_all(rt: &impl Abort, alloc: Global) {
    for (row, steps) in &SCRIPTS {
        play(rt, alloc, row, steps);
    }
}

/// The places among the entries: one whose list waits for nothing stays open when it is passed.
#[test]
fn an_empty_list_stays_open(rt: HostRuntime) {
    let mut places: Places<u8> = Places::new(rt.alloc());
    places.open(1).expect(&rt, "memory");
    for whose in [None, Some(1)] {
        places.pass(whose);
        assert_is_at(&rt, whose, places.is_open(whose), true);
    }
}

#[test]
fn entries_are_kept_while_they_are_waited_for(rt: HostRuntime) {
    play_all(&rt, rt.alloc());
}
