//! Lists that a program keeps: what happens to them, and whether they are current then.

use super::kept::Event::{Ended, Lost, Requested};
use neli::session::Freshness::{Current, Read, Stale};
use neli::session::{Freshness, Loss, Verdict};

#[derive(Clone, Copy, Debug)]
enum Event {
    Requested(u32),
    Ended(u32, Verdict),
    Lost,
}

const ROWS: [(&[Event], Freshness); 11] = [
    (&[], Stale),
    (&[Lost], Stale),
    (&[Requested(7)], Read(7)),
    (&[Requested(7), Ended(7, Verdict::Complete)], Current),
    (&[Requested(7), Ended(8, Verdict::Complete)], Read(7)),
    (&[Requested(7), Ended(7, Verdict::Interrupted)], Stale),
    (&[Requested(7), Ended(7, Verdict::Failed(-16))], Stale),
    (
        &[Requested(7), Ended(7, Verdict::Lost(Loss::Link(105)))],
        Stale,
    ),
    (&[Requested(7), Lost, Ended(7, Verdict::Complete)], Stale),
    (&[Requested(7), Ended(7, Verdict::Complete), Lost], Stale),
    (
        &[
            Requested(7),
            Lost,
            Requested(8),
            Ended(7, Verdict::Complete),
            Ended(8, Verdict::Complete),
        ],
        Current,
    ),
];

/// Linux refuses a dump beside another with EBUSY, and begins one with ENOBUFS where it has no room.
const PASSING: [(Verdict, bool); 9] = [
    (Verdict::Pending, false),
    (Verdict::Complete, false),
    (Verdict::Interrupted, true),
    (Verdict::Failed(-16), true),
    (Verdict::Failed(-105), true),
    (Verdict::Failed(-1), false),
    (Verdict::Failed(16), false),
    (Verdict::Lost(Loss::Datagram), true),
    (Verdict::Unanswered, false),
];

#[test]
fn a_list_may_be_complete_when_it_is_requested_again(rt: HostRuntime) {
    for (verdict, is_passing) in PASSING.iter() {
        assert_eq!(rt; verdict.is_passing(), *is_passing);
    }
}

#[test]
fn a_list_is_current_after_a_whole_answer_without_a_loss(rt: HostRuntime) {
    for (events, freshness) in ROWS.iter() {
        let mut list = Stale;
        for event in events.iter() {
            list = match *event {
                Requested(number) => list.requested(number),
                Ended(number, verdict) => list.ended(number, verdict),
                Lost => list.lost(),
            };
        }
        assert_eq!(rt; list, *freshness);
    }
}
