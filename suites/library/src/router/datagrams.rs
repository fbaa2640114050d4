//! Who gets what of a datagram.

use super::entries::{ONE, THREE};
use super::script::Script;
use super::script::Step::{Close, Come, Read, Send};
use super::script::Told::{Done, End, Message, NoHandle, Sent, Short, Stray, Waits};

/// Fifteen bytes: one less than a header.
const FIFTEEN: &str = "100000001000000000000000000000";

/// Messages with number 9; with number 0; and with number 0 and port 5.
const NINE: &str = "10000000100000000900000000000000";

const ZERO: &str = "10000000100000000000000000000000";

const PORT_5: &str = "10000000100000000000000005000000";

/// Datagrams, and the reads of multicast and of the handles of numbers 0 and 1.
pub const SCRIPTS: [Script; 9] = [
    (
        "an empty datagram",
        0,
        &[
            (Send(16, 0, ""), Sent(0, 0)),
            (Send(16, 0, ""), Sent(1, 0)),
            (Come("", 0), Done),
            (Read(0), Waits),
            (Read(1), Waits),
            (Read(2), Waits),
        ],
    ),
    (
        "15 bytes to no group",
        0,
        &[
            (Send(16, 0, ""), Sent(0, 0)),
            (Send(16, 0, ""), Sent(1, 0)),
            (Come(FIFTEEN, 0), Done),
            (Read(1), Short),
            (Read(2), Short),
            (Read(0), Waits),
            (Read(1), End),
            (Read(2), End),
        ],
    ),
    (
        "15 bytes to a group",
        0,
        &[
            (Send(16, 0, ""), Sent(0, 0)),
            (Send(16, 0, ""), Sent(1, 0)),
            (Come(FIFTEEN, 1), Done),
            (Read(1), Short),
            (Read(2), Short),
            (Read(0), Waits),
            (Read(1), End),
            (Read(2), End),
        ],
    ),
    (
        "a number that no request has",
        0,
        &[
            (Send(16, 0, ""), Sent(0, 0)),
            (Send(16, 0, ""), Sent(1, 0)),
            (Come(NINE, 0), Done),
            (Read(1), Stray(9, 0)),
            (Read(1), End),
            (Read(2), Stray(9, 0)),
            (Read(2), End),
            (Read(0), Waits),
        ],
    ),
    (
        "a number that no request has, and a closed handle",
        0,
        &[
            (Send(16, 0, ""), Sent(0, 0)),
            (Send(16, 0, ""), Sent(1, 0)),
            (Close(1), Done),
            (Come(NINE, 0), Done),
            (Read(1), NoHandle),
            (Read(2), Stray(9, 0)),
            (Read(2), End),
        ],
    ),
    (
        "the number of a closed handle",
        0,
        &[
            (Send(16, 0, ""), Sent(0, 0)),
            (Send(16, 0, ""), Sent(1, 0)),
            (Close(1), Done),
            (Come(ZERO, 0), Done),
            (Read(1), NoHandle),
            (Read(2), Stray(0, 0)),
            (Read(2), End),
        ],
    ),
    (
        "another port",
        0,
        &[
            (Send(16, 0, ""), Sent(0, 0)),
            (Send(16, 0, ""), Sent(1, 0)),
            (Come(PORT_5, 0), Done),
            (Read(1), Stray(0, 5)),
            (Read(1), End),
            (Read(2), Stray(0, 5)),
            (Read(2), End),
        ],
    ),
    (
        "group 32",
        0,
        &[
            (Send(16, 0, ""), Sent(0, 0)),
            (Come(ZERO, 0x8000_0000), Done),
            (Read(1), Waits),
            (Read(0), Message(16, 0, 0)),
            (Read(0), Waits),
            (Close(0), Done),
            (Come(ZERO, 0x8000_0000), Done),
            (Read(1), Waits),
            (Read(0), NoHandle),
        ],
    ),
    (
        "a message for each of two handles, one for none, and news until multicast is closed",
        0,
        &[
            (Send(16, 0, ""), Sent(0, 0)),
            (Send(16, 0, ""), Sent(1, 0)),
            (Come(THREE, 0), Done),
            (Read(1), Message(16, 0, 0)),
            (Read(1), Stray(9, 0)),
            (Read(2), Message(16, 1, 0)),
            (Read(2), Stray(9, 0)),
            (Read(0), Waits),
            (Come(ONE, 1), Done),
            (Close(0), Done),
            (Come(ONE, 1), Done),
            (Read(0), NoHandle),
            (Read(1), End),
            (Read(2), End),
        ],
    ),
];
