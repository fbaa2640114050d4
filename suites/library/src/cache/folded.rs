//! Links, by dumps and notifications that are made by hand.
//!
//! A link is `struct ifinfomsg` of linux/rtnetlink.h: family, padding, kind, index, flags and their change.

use super::script::Step::{Answer, Count, Ended, Has, Is, Lost, Notified, Requested};
use super::script::{Script, play};
use neli::cache::Change::{Changed, Gone, New};
use neli::cache::Keys;
use neli::session::Freshness::{Current, Read, Stale};
use neli::session::{Loss, Verdict};

/// The keys of the links 1, 2 and 3: `ifi_index`.
const ONE: &str = "01000000";

const TWO: &str = "02000000";

const THREE: &str = "03000000";

/// The payloads of the links 1 and 2 when they are down, of 2 when it is up, and of 3 when it is down.
const ONE_DOWN: &str = "00000100010000000010000000000000";

const TWO_DOWN: &str = "00000100020000000010000000000000";

const TWO_UP: &str = "00000100020000000110000000000000";

const THREE_DOWN: &str = "00000100030000000010000000000000";

/// A dump's messages with number 7 and port 9: the links 1 and 2 when they are down; only 1; the end.
const DUMP: &str = "2000000010000200070000000900000000000100010000000010000000000000\
    2000000010000200070000000900000000000100020000000010000000000000";

const DUMP_OF_ONE: &str = "2000000010000200070000000900000000000100010000000010000000000000";

const DONE: &str = "1400000003000200070000000900000000000000";

/// The dump of number 8: the link 2 when it is up, and 3.
const DUMP_OF_8: &str = "2000000010000200080000000900000000000100020000000110000000000000\
    2000000010000200080000000900000000000100030000000010000000000000";

/// Notifications: 2 is up, or down; 2 is gone; 3 is there; 1 is no port of a bridge any more (`AF_BRIDGE`, 7); an address
/// of 2.
const IS_UP: &str = "2000000010000000000000000000000000000100020000000110000000000000";

const IS_DOWN: &str = "2000000010000000000000000000000000000100020000000010000000000000";

const IS_GONE: &str = "2000000011000000000000000000000000000100020000000010000000000000";

const IS_THREE: &str = "2000000010000000000000000000000000000100030000000010000000000000";

const NO_PORT: &str = "2000000011000000000000000000000007000100010000000010000000000000";

const ADDRESS: &str = "1800000014000000000000000000000002180000020000000000000000000000";

pub const SCRIPTS: [Script; 10] = [
    (
        "a dump, and what follows",
        &[
            Is(Stale),
            Requested(7),
            Is(Read(7)),
            Answer(DUMP),
            Answer(DONE),
            Count(0),
            Ended(7, Verdict::Complete, Some(&[(ONE, New), (TWO, New)])),
            Is(Current),
            Has(ONE, Some(ONE_DOWN)),
            Has(TWO, Some(TWO_DOWN)),
            Notified(IS_UP, Some(Changed)),
            Has(TWO, Some(TWO_UP)),
            Notified(IS_UP, None),
            Notified(IS_THREE, Some(New)),
            Count(3),
            Notified(IS_GONE, Some(Gone)),
            Notified(IS_GONE, None),
            Has(TWO, None),
            Has(THREE, Some(THREE_DOWN)),
            Count(2),
        ],
    ),
    (
        "a loss, and the same list again",
        &[
            Requested(7),
            Answer(DUMP),
            Ended(7, Verdict::Complete, Some(&[(ONE, New), (TWO, New)])),
            Lost,
            Is(Stale),
            Notified(IS_GONE, None),
            Count(2),
            Requested(8),
            Answer(DUMP_OF_8),
            Has(TWO, Some(TWO_DOWN)),
            Ended(
                8,
                Verdict::Complete,
                Some(&[(TWO, Changed), (THREE, New), (ONE, Gone)]),
            ),
            Is(Current),
            Has(ONE, None),
            Has(TWO, Some(TWO_UP)),
        ],
    ),
    (
        "notifications that are read before the dump's messages of their objects",
        &[
            Requested(7),
            Notified(IS_GONE, None),
            Notified(IS_THREE, None),
            Answer(DUMP),
            Ended(7, Verdict::Complete, Some(&[(THREE, New), (ONE, New)])),
            Has(TWO, None),
        ],
    ),
    (
        "notifications that are read after them",
        &[
            Requested(7),
            Answer(DUMP),
            Notified(IS_UP, None),
            Ended(7, Verdict::Complete, Some(&[(ONE, New), (TWO, New)])),
            Has(TWO, Some(TWO_UP)),
        ],
    ),
    (
        "an object that goes and comes while the dump is read",
        &[
            Requested(7),
            Notified(IS_GONE, None),
            Notified(IS_UP, None),
            Answer(DUMP),
            Ended(7, Verdict::Complete, Some(&[(TWO, New), (ONE, New)])),
            Has(TWO, Some(TWO_UP)),
        ],
    ),
    (
        "a loss while the dump is read",
        &[
            Requested(7),
            Answer(DUMP),
            Lost,
            Ended(7, Verdict::Complete, None),
            Is(Stale),
            Count(0),
            Requested(8),
            Answer(DUMP_OF_8),
            Answer(DUMP),
            Ended(7, Verdict::Complete, None),
            Is(Read(8)),
            Ended(8, Verdict::Complete, Some(&[(TWO, New), (THREE, New)])),
            Is(Current),
        ],
    ),
    (
        "dumps that are not complete",
        &[
            Requested(7),
            Answer(DUMP),
            Ended(7, Verdict::Complete, Some(&[(ONE, New), (TWO, New)])),
            Requested(8),
            Answer(DUMP_OF_8),
            Ended(8, Verdict::Interrupted, None),
            Is(Stale),
            Has(TWO, Some(TWO_DOWN)),
            Requested(7),
            Ended(7, Verdict::Failed(-16), None),
            Is(Stale),
            Requested(7),
            Ended(7, Verdict::Lost(Loss::Link(105)), None),
            Is(Stale),
            Requested(7),
            Ended(7, Verdict::Unanswered, None),
            Is(Stale),
            Count(2),
        ],
    ),
    (
        "a list that is requested again while it is current",
        &[
            Requested(7),
            Answer(DUMP),
            Ended(7, Verdict::Complete, Some(&[(ONE, New), (TWO, New)])),
            Requested(7),
            Is(Read(7)),
            Answer(DUMP_OF_ONE),
            Count(2),
            Ended(7, Verdict::Complete, Some(&[(TWO, Gone)])),
            Count(1),
        ],
    ),
    (
        "messages about nothing of the table",
        &[
            Requested(7),
            Answer(DUMP),
            Ended(7, Verdict::Complete, Some(&[(ONE, New), (TWO, New)])),
            Notified(NO_PORT, None),
            Notified(ADDRESS, None),
            Answer(DUMP_OF_8),
            Has(ONE, Some(ONE_DOWN)),
            Count(2),
        ],
    ),
    (
        "an empty list",
        &[
            Requested(7),
            Answer(DONE),
            Ended(7, Verdict::Complete, Some(&[])),
            Is(Current),
            Count(0),
            Notified(IS_DOWN, Some(New)),
            Has(TWO, Some(TWO_DOWN)),
        ],
    ),
];

#[test]
fn links_are_kept(rt: HostRuntime) {
    for script in SCRIPTS.iter() {
        assert!(rt; play(&rt, rt.alloc(), Keys::links(), *script).is_ok());
    }
}
