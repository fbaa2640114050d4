//! How long a number is in use. All messages have port 7 and number 0, and are made by hand.

use super::script::Script;
use super::script::Step::{Answer, Came, Close, InUse, Quiet, Refused, Sent, Stands, Unasked};
use super::script::Told::{Closed, End, Message, Waits};
use neli::consts::nl::NlmF;
use neli::consts::socket::NlFamily;
use neli::session::{Session, Verdict};

const PART: &str = "10000000100002000000000007000000";

const DONE: &str = "1400000003000200000000000700000000000000";

/// Two parts and the end in one datagram.
const ALL: &str = "1000000010000200000000000700000010000000100002000000000007000000\
    1400000003000200000000000700000000000000";

pub const SCRIPTS: [Script; 6] = [
    (
        "closed before its end",
        7,
        &[
            Sent(0, NlFamily::Route, 18, 0x301, 16),
            Came(PART),
            Close(0),
            Answer(0, Closed),
            InUse(0, true),
            Stands(0, Some(Verdict::Pending)),
            Refused(0),
            Came(PART),
            InUse(0, true),
            Came(DONE),
            InUse(0, false),
            Stands(0, None),
            Unasked(Waits),
            Sent(0, NlFamily::Route, 18, 0x301, 16),
            Answer(0, Waits),
            Came(ALL),
            Answer(0, Message(16, 0)),
            Answer(0, Message(16, 0)),
            Answer(0, Message(3, 4)),
            Stands(0, Some(Verdict::Complete)),
        ],
    ),
    (
        "closed before its end, in one datagram",
        7,
        &[
            Sent(0, NlFamily::Route, 18, 0x301, 16),
            Close(0),
            Came(ALL),
            InUse(0, false),
            Answer(0, Closed),
            Unasked(Waits),
        ],
    ),
    (
        "closed, and the link seen empty",
        7,
        &[
            Sent(0, NlFamily::Route, 19, 1, 16),
            Close(0),
            InUse(0, true),
            Refused(0),
            Quiet,
            InUse(0, false),
            Sent(0, NlFamily::Route, 19, 1, 16),
            InUse(0, true),
        ],
    ),
    (
        "in use while it is read",
        7,
        &[
            InUse(0, false),
            Sent(0, NlFamily::Route, 18, 0x301, 16),
            Came(PART),
            Refused(0),
            Answer(0, Message(16, 0)),
            Answer(0, Waits),
            Refused(0),
            Came(DONE),
            Refused(0),
            Answer(0, Message(3, 4)),
            Answer(0, End),
            Stands(0, Some(Verdict::Complete)),
            Refused(0),
            Stands(0, Some(Verdict::Complete)),
            Close(0),
            InUse(0, false),
            Sent(0, NlFamily::Route, 18, 1, 16),
        ],
    ),
    (
        "after its end a number is nobody's",
        7,
        &[
            Sent(0, NlFamily::Route, 18, 0x301, 16),
            Came(DONE),
            Came(PART),
            Unasked(Message(16, 0)),
            Answer(0, Message(3, 4)),
            Answer(0, End),
        ],
    ),
    (
        "of two requests one is closed",
        7,
        &[
            Sent(0, NlFamily::Route, 18, 0x301, 16),
            Sent(1, NlFamily::Route, 18, 1, 16),
            Close(1),
            Close(2),
            Came(ALL),
            InUse(0, true),
            InUse(1, true),
            InUse(2, false),
            Quiet,
            InUse(0, true),
            InUse(1, false),
            Answer(0, Message(16, 0)),
            Answer(0, Message(16, 0)),
            Answer(0, Message(3, 4)),
            Stands(0, Some(Verdict::Complete)),
        ],
    ),
];

/// Numbers are tried in order, in 32 bits: after the last comes 0.
#[test]
fn the_first_free_number_is_taken(rt: HostRuntime) {
    let mut session = Session::new(rt.alloc(), NlFamily::Route, 7, false);
    session.set_number(u32::MAX - 1);
    for want in [u32::MAX - 1, u32::MAX, 0, 1] {
        assert_eq!(rt; session.request(18, NlmF::empty(), &[0; 16]), Ok(want));
    }
    session.set_number(u32::MAX - 2);
    for want in [u32::MAX - 2, 2] {
        assert_eq!(rt; session.take_number(), Some(want));
    }
    session.set_number(u32::MAX);
    assert_eq!(rt; session.request(18, NlmF::empty(), &[0; 16]), Ok(2));
}
