//! Handles of another router, over both stores.

use super::script::Step::{Close, Come, Read, Send};
use super::script::Told::{Closed, Done, End, Message, Sent, Waits};
use super::script::{Step, Told, assert_told};
use super::steps::Asker;
use super::support::assert_is_at;
use neli::router::synchronous::{Deliveries, HandleState, Log, NlRouter, Queues};
use std::alloc::Global;
use std::mem::swap;
use std::process::Abort;

/// Parts of scripts that are played in turn by two routers of port 7. Their handles for multicast are 0 and 1.
const SCRIPTS: [(&str, &[&[(Step, Told)]]); 2] = [
    (
        "a handle of another router is closed here",
        &[
            &[(Send(16, 0, ""), Sent(0, 7))],
            &[(Read(2), Closed), (Read(2), End)],
            &[(Read(2), End)],
        ],
    ),
    (
        // The second router has no request of the number of that handle.
        "closing a handle of another router changes nothing",
        &[
            &[(Send(16, 0, ""), Sent(0, 7)), (Send(16, 0, ""), Sent(1, 7))],
            &[
                (Send(16, 0, ""), Sent(0, 7)),
                (Close(3), Done),
                (Read(4), Waits),
                (Read(1), Waits),
                (Come("10000000100000000000000007000000", 0), Done),
                (Read(4), Message(16, 0, 0)),
                (Read(4), End),
                (Send(16, 0, ""), Sent(1, 7)),
            ],
        ],
    ),
];

/// Plays the parts of a script in turn by two routers over this store.
fn play_in_turn<D: Deliveries>(
    rt: &impl Abort,
    alloc: Global,
    row: &str,
    parts: &[&[(Step, Told)]],
) {
    let mut asker = Asker::<D>::new(rt, alloc, 7);
    let (mut other, multicast) = NlRouter::<D>::new(alloc, 7);
    asker
        .handles
        .push(Some(multicast.retyped()))
        .expect(rt, "memory");
    for steps in parts {
        let came = asker.steps(rt, alloc, steps);
        assert_told(rt, row, &came, steps);
        assert_is_at(rt, row, asker.router.pid(), 7);
        swap(&mut asker.router, &mut other);
    }
}

#[test]
fn a_handle_belongs_to_its_router(rt: HostRuntime) {
    for (row, parts) in &SCRIPTS {
        play_in_turn::<Queues>(&rt, rt.alloc(), row, parts);
        play_in_turn::<Log>(&rt, rt.alloc(), row, parts);
    }
}

/// The state of a handle, and others that differ from it in one field each.
#[test]
fn states_are_equal_field_by_field(rt: HostRuntime) {
    let state = HandleState {
        number: Some(7),
        needs_ack: true,
        single_given: false,
        ended: false,
    };
    let others = [
        (
            "another number",
            HandleState {
                number: Some(8),
                ..state
            },
        ),
        (
            "multicast",
            HandleState {
                number: None,
                ..state
            },
        ),
        (
            "no acknowledgement",
            HandleState {
                needs_ack: false,
                ..state
            },
        ),
        (
            "a reply was given",
            HandleState {
                single_given: true,
                ..state
            },
        ),
        (
            "ended",
            HandleState {
                ended: true,
                ..state
            },
        ),
    ];
    assert_is_at(&rt, "the same", state == state, true);
    for (name, other) in others {
        assert_is_at(&rt, name, state == other, false);
    }
}
