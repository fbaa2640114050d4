//! Where the answers of a handle end, and the last of them.

use super::script::Script;
use super::script::Step::{Come, Read, Send};
use super::script::Told::{
    Ack, AckWith, Capped, Done, DumpEnd, End, Input, Message, NoAck, Refused, Sent, UnexpectedAck,
    Waits,
};

/// A reply to number 0.
const REPLY: &str = "10000000100000000000000000000000";

/// Two messages of a dump for number 0.
const TWO: &str = "1000000010000200000000000000000010000000100002000000000000000000";

/// An acknowledgement of number 0.
const ACK: &str = "240000000200000100000000000000000000000010000000100005000000000000000000";

/// The error -22 to number 0, with the request.
const ERROR: &str = "24000000020000000000000000000000eaffffff10000000100005000000000000000000";

/// The same capped, of a request of 32 bytes.
const CAPPED: &str = "24000000020000010000000000000000eaffffff20000000100005000000000000000000";

/// An acknowledgement of number 0 with the text `bad`.
const SAYS: &str = "2c0000000200000300000000000000000000000020000000100005000000000000000000\
    0800010062616400";

/// Flags, datagrams and reads of one request.
pub const SCRIPTS: [Script; 15] = [
    (
        "a capped error",
        0,
        &[
            (Send(16, 4, ""), Sent(0, 0)),
            (Come(CAPPED, 0), Done),
            (Read(1), Capped(-22, 32)),
            (Read(1), End),
        ],
    ),
    (
        "a capped error after a reply",
        0,
        &[
            (Send(16, 4, ""), Sent(0, 0)),
            (Come(REPLY, 0), Done),
            (Come(CAPPED, 0), Done),
            (Read(1), Message(16, 0, 0)),
            (Read(1), NoAck),
            (Read(1), End),
        ],
    ),
    (
        "an acknowledgement with an attribute",
        0,
        &[
            (Send(16, 4, ""), Sent(0, 0)),
            (Come(SAYS, 0), Done),
            (Read(1), AckWith(0, 1)),
            (Read(1), End),
        ],
    ),
    (
        "one whose attribute has a length of 3",
        0,
        &[
            (Send(16, 4, ""), Sent(0, 0)),
            (
                Come(
                    "2c000000020000030000000000000000000000002000000010000500000000000000\
                        00000300010062616400",
                    0,
                ),
                Done,
            ),
            (Read(1), Input(3)),
            (Read(1), End),
        ],
    ),
    (
        "a dump",
        0,
        &[
            (Send(16, 0x300, ""), Sent(0, 0)),
            (Come(TWO, 0), Done),
            (Come("1400000003000200000000000000000000000000", 0), Done),
            (Read(1), Message(16, 0, 0)),
            (Read(1), Message(16, 0, 0)),
            (Read(1), DumpEnd(0)),
            (Read(1), End),
        ],
    ),
    (
        "a dump that ends with a code",
        0,
        &[
            (Send(16, 0x300, ""), Sent(0, 0)),
            (Come(TWO, 0), Done),
            (Come("14000000030002000000000000000000eaffffff", 0), Done),
            (Read(1), Message(16, 0, 0)),
            (Read(1), Message(16, 0, 0)),
            (Read(1), DumpEnd(-22)),
            (Read(1), End),
        ],
    ),
    (
        "a dump that has not ended",
        0,
        &[
            (Send(16, 0x300, ""), Sent(0, 0)),
            (Come(TWO, 0), Done),
            (Read(1), Message(16, 0, 0)),
            (Read(1), Message(16, 0, 0)),
            (Read(1), Waits),
        ],
    ),
    (
        "one reply, and no acknowledgement asked for",
        0,
        &[
            (Send(16, 0, ""), Sent(0, 0)),
            (Come(REPLY, 0), Done),
            (Read(1), Message(16, 0, 0)),
            (Read(1), End),
        ],
    ),
    (
        "a reply in place of the acknowledgement",
        0,
        &[
            (Send(16, 4, ""), Sent(0, 0)),
            (Come(REPLY, 0), Done),
            (Come(REPLY, 0), Done),
            (Read(1), Message(16, 0, 0)),
            (Read(1), NoAck),
            (Read(1), End),
        ],
    ),
    (
        "a reply and the acknowledgement",
        0,
        &[
            (Send(16, 4, ""), Sent(0, 0)),
            (Come(REPLY, 0), Done),
            (Read(1), Message(16, 0, 0)),
            (Read(1), Waits),
            (Come(ACK, 0), Done),
            (Read(1), Ack(0)),
            (Read(1), End),
        ],
    ),
    (
        "the acknowledgement alone",
        0,
        &[
            (Send(16, 4, ""), Sent(0, 0)),
            (Come(ACK, 0), Done),
            (Read(1), Ack(0)),
            (Read(1), End),
        ],
    ),
    (
        "an error",
        0,
        &[
            (Send(16, 0, ""), Sent(0, 0)),
            (Come(ERROR, 0), Done),
            (Read(1), Refused(-22, 16)),
            (Read(1), End),
        ],
    ),
    (
        "an error in place of the acknowledgement",
        0,
        &[
            (Send(16, 4, ""), Sent(0, 0)),
            (Come(ERROR, 0), Done),
            (Read(1), Refused(-22, 16)),
            (Read(1), End),
        ],
    ),
    (
        "an error after a reply",
        0,
        &[
            (Send(16, 4, ""), Sent(0, 0)),
            (Come(REPLY, 0), Done),
            (Come(ERROR, 0), Done),
            (Read(1), Message(16, 0, 0)),
            (Read(1), NoAck),
            (Read(1), End),
        ],
    ),
    (
        "an acknowledgement of a dump",
        0,
        &[
            (Send(16, 0x304, ""), Sent(0, 0)),
            (Come(ACK, 0), Done),
            (Read(1), UnexpectedAck),
            (Read(1), End),
        ],
    ),
];
