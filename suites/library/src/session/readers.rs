//! Who gets a message or a loss.
//!
//! A datagram whose name ends in a number is that recording; the others are made by hand.

use super::script::Script;
use super::script::Step::{
    Answer, Came, CameFor, CloseMulticast, Fault, Goes, Heard, Queued, Quiet, Sent, Stands,
    Unasked, Went,
};
use super::script::Told::{Closed, End, Lost, Message, Waits};
use neli::consts::socket::NlFamily;
use neli::session::{Loss, Verdict};

/// A route was removed, as it is told to the group 7 (`RTNLGRP_IPV4_ROUTE`); the acknowledgement of its removal.
const ROUTE_0396: &str =
    "3c00000019000000c0040000a815868702180000fe0400010000000008000f00fe000000080001000a320000\
    08000500c00002090800040003000000";

const ACK_0397: &str = "2400000002000001c0040000a8158687000000002400000019000d00c004000000000000";

/// Parts of a dump with port 7 and number 0: one, two, two before a cut message, one before the end; the end; that of
/// number 1.
const PART: &str = "10000000100002000000000007000000";

const TWO: &str = "1000000010000200000000000700000010000000100002000000000007000000";

const TWO_AND_CUT: &str =
    "1000000010000200000000000700000010000000100002000000000007000000140000001000";

const PART_AND_DONE: &str =
    "100000001000020000000000070000001400000003000200000000000700000000000000";

const DONE: &str = "1400000003000200000000000700000000000000";

const DONE_OF_1: &str = "1400000003000200010000000700000000000000";

/// A link of which nobody asked: with port and number 0; with port 9 and number 0; with port 7 and number 5.
const LINK: &str = "10000000100000000000000000000000";

const OF_PORT_9: &str = "10000000110000000000000009000000";

const OF_NUMBER_5: &str = "10000000120000000500000007000000";

const ENOBUFS: Loss = Loss::Link(105);

pub const SCRIPTS: [Script; 13] = [
    (
        "an echoed change, by a member of the group",
        2273711528,
        &[
            Sent(1216, NlFamily::Route, 25, 0xd, 20),
            CameFor(7, true, ROUTE_0396),
            Came(ACK_0397),
            Answer(1216, Message(25, 44)),
            Answer(1216, Message(2, 20)),
            Answer(1216, End),
            Stands(1216, Some(Verdict::Complete)),
            Heard(Message(25, 44)),
            Heard(Waits),
            Unasked(Waits),
        ],
    ),
    (
        "an echoed change, by no member",
        2273711528,
        &[
            Sent(1216, NlFamily::Route, 25, 0xd, 20),
            CameFor(7, false, ROUTE_0396),
            Came(ACK_0397),
            Heard(Waits),
            Unasked(Waits),
            Answer(1216, Message(25, 44)),
            Answer(1216, Message(2, 20)),
            Answer(1216, End),
            Stands(1216, Some(Verdict::Complete)),
        ],
    ),
    (
        "a change without ECHO, by a member of the group",
        2273711528,
        &[
            Sent(1216, NlFamily::Route, 25, 5, 20),
            CameFor(7, true, ROUTE_0396),
            Answer(1216, Waits),
            Came(ACK_0397),
            Answer(1216, Message(2, 20)),
            Heard(Message(25, 44)),
            Unasked(Waits),
        ],
    ),
    (
        "multicast is closed",
        2273711528,
        &[
            Sent(1216, NlFamily::Route, 25, 0xd, 20),
            CloseMulticast,
            CameFor(7, true, ROUTE_0396),
            CameFor(1, true, LINK),
            Fault(105),
            Heard(Closed),
            Answer(1216, Message(25, 44)),
            Answer(1216, Lost(ENOBUFS)),
            Unasked(Lost(ENOBUFS)),
            Unasked(Waits),
        ],
    ),
    (
        "a notification",
        7,
        &[
            Sent(0, NlFamily::Route, 18, 0x301, 16),
            CameFor(1, true, LINK),
            Heard(Message(16, 0)),
            Heard(Waits),
            Answer(0, Waits),
            Unasked(Waits),
        ],
    ),
    (
        "what nobody asked for",
        7,
        &[
            Sent(0, NlFamily::Route, 18, 0x301, 16),
            Came(LINK),
            Came(OF_PORT_9),
            Came(OF_NUMBER_5),
            Unasked(Message(16, 0)),
            Unasked(Message(17, 0)),
            Unasked(Message(18, 0)),
            Unasked(Waits),
            Answer(0, Waits),
            Heard(Waits),
        ],
    ),
    (
        "a loss after two messages",
        7,
        &[
            Sent(0, NlFamily::Route, 18, 0x301, 16),
            Came(TWO),
            Fault(105),
            Queued(1, NlFamily::Route, 18, 0x301, 16),
            Came(PART_AND_DONE),
            Goes(None),
            Quiet,
            Goes(Some(1)),
            Went,
            Came(DONE_OF_1),
            Answer(0, Message(16, 0)),
            Answer(0, Message(16, 0)),
            Stands(0, Some(Verdict::Pending)),
            Answer(0, Lost(ENOBUFS)),
            Answer(0, End),
            Stands(0, Some(Verdict::Lost(ENOBUFS))),
            Answer(1, Message(3, 4)),
            Answer(1, End),
            Stands(1, Some(Verdict::Complete)),
            Quiet,
            Answer(0, End),
            Stands(0, Some(Verdict::Lost(ENOBUFS))),
        ],
    ),
    (
        "the first of two losses",
        7,
        &[
            Sent(0, NlFamily::Route, 18, 0x301, 16),
            Fault(105),
            Fault(100),
            Answer(0, Lost(ENOBUFS)),
            Answer(0, End),
            Came(PART),
            Fault(5),
            Answer(0, End),
            Stands(0, Some(Verdict::Lost(ENOBUFS))),
            Heard(Lost(ENOBUFS)),
            Heard(Lost(Loss::Link(100))),
            Heard(Lost(Loss::Link(5))),
            Heard(Waits),
        ],
    ),
    (
        "a loss after the end",
        7,
        &[
            Sent(0, NlFamily::Route, 18, 0x301, 16),
            Came(PART_AND_DONE),
            Fault(105),
            Answer(0, Message(16, 0)),
            Answer(0, Message(3, 4)),
            Answer(0, End),
            Stands(0, Some(Verdict::Complete)),
        ],
    ),
    (
        "a loss where the link was seen empty",
        7,
        &[
            Sent(0, NlFamily::Route, 19, 1, 16),
            Quiet,
            Fault(105),
            Answer(0, End),
            Stands(0, Some(Verdict::Complete)),
        ],
    ),
    (
        "multicast goes on after a loss",
        7,
        &[
            CameFor(1, true, LINK),
            Fault(105),
            CameFor(1, true, OF_PORT_9),
            Heard(Message(16, 0)),
            Heard(Lost(ENOBUFS)),
            Heard(Message(17, 0)),
            Heard(Waits),
            Unasked(Lost(ENOBUFS)),
            Unasked(Waits),
        ],
    ),
    (
        "a datagram with a cut message",
        7,
        &[
            Sent(0, NlFamily::Route, 18, 0x301, 16),
            Came(TWO_AND_CUT),
            Came(DONE),
            Answer(0, Message(16, 0)),
            Answer(0, Message(16, 0)),
            Answer(0, Lost(Loss::Datagram)),
            Answer(0, End),
            Stands(0, Some(Verdict::Lost(Loss::Datagram))),
            Heard(Lost(Loss::Datagram)),
            Heard(Waits),
            Unasked(Lost(Loss::Datagram)),
            Unasked(Waits),
        ],
    ),
    (
        "a cut message after a notification",
        7,
        &[
            CameFor(1, true, "10000000100000000000000000000000ffffffff"),
            Heard(Message(16, 0)),
            Heard(Lost(Loss::Datagram)),
            Heard(Waits),
            Unasked(Lost(Loss::Datagram)),
        ],
    ),
];
