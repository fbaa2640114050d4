//! Which datagram is sent next. All messages have port 7, and are made by hand.

use super::script::Script;
use super::script::Step::{
    All, Answer, Came, Close, Failed, Fault, Goes, Heard, InUse, Queued, Quiet, Refused, Sent,
    Stands, Unasked, Went,
};
use super::script::Told::{Closed, End, Lost, Message, Waits};
use neli::consts::socket::NlFamily::Route;
use neli::session::{Loss, SendError, Verdict};

/// The ends of the dumps with the numbers 0 and 1, and the acknowledgement of request 2.
const DONE_0: &str = "1400000003000200000000000700000000000000";

const DONE_1: &str = "1400000003000200010000000700000000000000";

const ACK_2: &str = "240000000200000102000000070000000000000010000000100005000200000007000000";

/// The answer to the request with number 2 for one message.
const REPLY_2: &str = "10000000100000000200000007000000";

pub const SCRIPTS: [Script; 11] = [
    (
        "a second dump waits for the end of the first",
        7,
        &[
            Queued(0, Route, 18, 0x301, 16),
            Queued(1, Route, 22, 0x301, 16),
            Goes(Some(0)),
            Went,
            Goes(None),
            Refused(1),
            Came(DONE_0),
            Goes(Some(1)),
            Went,
            Goes(None),
            Came(DONE_1),
            Answer(1, Message(3, 4)),
            Answer(1, End),
            Stands(1, Some(Verdict::Complete)),
            Answer(0, Message(3, 4)),
            Stands(0, Some(Verdict::Complete)),
        ],
    ),
    (
        "a second dump waits until nothing more can come of the first",
        7,
        &[
            Sent(0, Route, 18, 0x301, 16),
            Queued(1, Route, 22, 0x301, 16),
            Goes(None),
            Quiet,
            Stands(0, Some(Verdict::Unanswered)),
            Goes(Some(1)),
            Went,
        ],
    ),
    (
        "a dump that is closed still runs",
        7,
        &[
            Sent(0, Route, 18, 0x301, 16),
            Close(0),
            Queued(1, Route, 22, 0x301, 16),
            Goes(None),
            Came(DONE_0),
            InUse(0, false),
            Goes(Some(1)),
        ],
    ),
    (
        "other requests go out while a dump runs, in their order",
        7,
        &[
            Sent(0, Route, 18, 0x301, 16),
            Queued(1, Route, 22, 0x301, 16),
            Queued(2, Route, 18, 1, 16),
            Queued(3, Route, 16, 5, 16),
            Goes(Some(2)),
            Went,
            Goes(Some(3)),
            Went,
            Goes(None),
            Came(REPLY_2),
            Answer(2, Message(16, 0)),
            Answer(2, End),
            Came(DONE_0),
            Goes(Some(1)),
        ],
    ),
    (
        "what is on its way stays until the link says what became of it",
        7,
        &[
            Queued(0, Route, 18, 0x301, 16),
            Queued(2, Route, 16, 5, 16),
            Goes(Some(0)),
            Goes(Some(0)),
            Came(DONE_0),
            Quiet,
            Goes(Some(0)),
            Answer(0, Message(3, 4)),
            Went,
            Goes(Some(2)),
            Quiet,
            Stands(2, Some(Verdict::Pending)),
            Came(ACK_2),
            Answer(2, Message(2, 20)),
            Stands(2, Some(Verdict::Complete)),
            Went,
            Stands(2, Some(Verdict::Complete)),
        ],
    ),
    (
        "what was not sent is lost, and nothing comes for it",
        7,
        &[
            Queued(0, Route, 18, 0x301, 16),
            Queued(1, Route, 22, 0x301, 16),
            Goes(Some(0)),
            Failed(1),
            Answer(0, Lost(Loss::Unsent(1))),
            Answer(0, End),
            Stands(0, Some(Verdict::Lost(Loss::Unsent(1)))),
            Answer(1, Waits),
            Goes(Some(1)),
            Close(0),
            InUse(0, false),
            Came(DONE_0),
            Unasked(Message(3, 4)),
        ],
    ),
    (
        "nothing comes for a request that waits, nor is anything of it lost",
        7,
        &[
            Queued(0, Route, 18, 0x301, 16),
            Fault(90),
            Came(DONE_0),
            Quiet,
            Answer(0, Waits),
            Stands(0, Some(Verdict::Pending)),
            Heard(Lost(Loss::Link(90))),
            Unasked(Lost(Loss::Link(90))),
            Unasked(Message(3, 4)),
            Goes(Some(0)),
            Went,
            Came(DONE_0),
            Answer(0, Message(3, 4)),
        ],
    ),
    (
        "nothing goes out while the link drops what comes",
        7,
        &[
            Sent(2, Route, 16, 5, 16),
            Queued(0, Route, 18, 1, 16),
            Fault(105),
            Goes(None),
            Came(ACK_2),
            Goes(None),
            Quiet,
            Goes(Some(0)),
            Answer(2, Lost(Loss::Link(105))),
        ],
    ),
    (
        "a closed request that waits is sent all the same",
        7,
        &[
            Queued(0, Route, 16, 5, 16),
            Close(0),
            InUse(0, true),
            Refused(0),
            Answer(0, Closed),
            Goes(Some(0)),
            Went,
            Quiet,
            InUse(0, false),
        ],
    ),
    (
        "several requests in one datagram",
        7,
        &[
            All(
                "10000000100005000200000007000000\
                    10000000120001000300000007000000",
                Ok(()),
            ),
            InUse(2, true),
            InUse(3, true),
            Goes(Some(2)),
            Went,
            Came(ACK_2),
            Stands(2, Some(Verdict::Pending)),
            Answer(2, Message(2, 20)),
            Stands(2, Some(Verdict::Complete)),
            Quiet,
            Stands(3, Some(Verdict::Complete)),
        ],
    ),
    (
        "refused, and nothing is sent",
        7,
        &[
            Sent(2, Route, 16, 5, 16),
            All("", Err(SendError::Unreadable)),
            All(
                "0f000000100005000200000007000000",
                Err(SendError::Unreadable),
            ),
            All(
                "10000000100005000100000007000000\
                    10000000100005000200000007000000",
                Err(SendError::InUse(2)),
            ),
            InUse(1, false),
            All(
                "10000000100005000100000007000000\
                    10000000100005000100000007000000",
                Err(SendError::InUse(1)),
            ),
            InUse(1, false),
            All(
                "1100000012000103000000000700000000000000\
                    1100000016000103010000000700000000000000",
                Err(SendError::TwoDumps),
            ),
            InUse(0, false),
            Goes(None),
        ],
    ),
];
