//! Which request has something to read, in which order, and whether multicast and the unasked have.

use super::script::Script;
use super::script::Step::{
    Answer, Came, CameFor, Close, CloseMulticast, Failed, Fault, First, Goes, HasMulticast,
    HasUnasked, Heard, Queued, Quiet, Sent, Unasked,
};
use super::script::Told::{End, Lost, Message, Waits};
use neli::consts::socket::NlFamily::Route;
use neli::session::Loss;

/// A message of type 16 with the flag MULTI and port 7 for the numbers 0, 1 and 2; two for 2 and 0; the end of 0.
const PART_0: &str = "10000000100002000000000007000000";

const PART_1: &str = "10000000100002000100000007000000";

const PART_2: &str = "10000000100002000200000007000000";

const PARTS_2_0: &str = "1000000010000200020000000700000010000000100002000000000007000000";

const END_0: &str = "10000000100000000000000007000000";

/// A message with the port 9.
const OF_PORT_9: &str = "10000000110000000000000009000000";

const ENOBUFS: Loss = Loss::Link(105);

pub const SCRIPTS: [Script; 8] = [
    (
        "who had something first is first",
        7,
        &[
            Sent(0, Route, 18, 1, 16),
            Sent(1, Route, 18, 1, 16),
            Sent(2, Route, 18, 1, 16),
            First(None),
            Came(PART_1),
            First(Some(1)),
            Came(PARTS_2_0),
            First(Some(1)),
            Answer(1, Message(16, 0)),
            First(Some(2)),
            Answer(2, Message(16, 0)),
            First(Some(0)),
            Answer(0, Message(16, 0)),
            First(None),
        ],
    ),
    (
        "who was read and has more is last",
        7,
        &[
            Sent(0, Route, 18, 1, 16),
            Sent(1, Route, 18, 1, 16),
            Came(PART_0),
            Came(PART_0),
            Came(PART_1),
            Came(PART_1),
            First(Some(0)),
            Answer(0, Message(16, 0)),
            First(Some(1)),
            Answer(1, Message(16, 0)),
            First(Some(0)),
            Answer(0, Message(16, 0)),
            First(Some(1)),
            Answer(0, Waits),
            First(Some(1)),
        ],
    ),
    (
        "who was read out of turn leaves its place",
        7,
        &[
            Sent(0, Route, 18, 1, 16),
            Sent(1, Route, 18, 1, 16),
            Sent(2, Route, 18, 1, 16),
            Came(PART_0),
            Came(PART_1),
            Came(PART_2),
            Answer(1, Message(16, 0)),
            First(Some(0)),
            Answer(0, Message(16, 0)),
            First(Some(2)),
            Came(PART_1),
            First(Some(2)),
            Answer(2, Message(16, 0)),
            First(Some(1)),
        ],
    ),
    (
        "an end is there until the request is closed",
        7,
        &[
            Sent(0, Route, 18, 1, 16),
            Sent(1, Route, 18, 1, 16),
            Came(END_0),
            Came(PART_1),
            First(Some(0)),
            Answer(0, Message(16, 0)),
            First(Some(1)),
            Answer(1, Message(16, 0)),
            First(Some(0)),
            Answer(0, End),
            First(Some(0)),
            Close(0),
            First(None),
        ],
    ),
    (
        "a closed request has nothing",
        7,
        &[
            Sent(0, Route, 18, 1, 16),
            Sent(1, Route, 18, 1, 16),
            Came(PART_0),
            Came(PART_1),
            Close(0),
            First(Some(1)),
            Came(PART_0),
            Close(1),
            First(None),
        ],
    ),
    (
        "a loss is for all that are awaited, in the order in which they were sent",
        7,
        &[
            Sent(0, Route, 18, 1, 16),
            Sent(1, Route, 18, 1, 16),
            Queued(2, Route, 18, 1, 16),
            Came(PART_1),
            Fault(105),
            First(Some(1)),
            Answer(1, Message(16, 0)),
            First(Some(0)),
            Answer(0, Lost(ENOBUFS)),
            First(Some(1)),
            Answer(1, Lost(ENOBUFS)),
            First(Some(0)),
            Close(0),
            Close(1),
            First(None),
        ],
    ),
    (
        "an empty link ends what was sent",
        7,
        &[
            Sent(0, Route, 18, 1, 16),
            Queued(1, Route, 18, 1, 16),
            Quiet,
            First(Some(0)),
            Answer(0, End),
            Close(0),
            First(None),
            Goes(Some(1)),
            Failed(1),
            First(Some(1)),
            Answer(1, Lost(Loss::Unsent(1))),
        ],
    ),
    (
        "multicast and the unasked",
        7,
        &[
            HasMulticast(false),
            HasUnasked(false),
            CameFor(1, true, OF_PORT_9),
            HasMulticast(true),
            HasUnasked(false),
            Came(OF_PORT_9),
            HasUnasked(true),
            Heard(Message(17, 0)),
            HasMulticast(false),
            Unasked(Message(17, 0)),
            HasUnasked(false),
            Fault(105),
            HasMulticast(true),
            HasUnasked(true),
            CloseMulticast,
            HasMulticast(false),
            First(None),
        ],
    ),
];
