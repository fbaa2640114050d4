//! Where an answer ends, and its verdict.
//!
//! A datagram whose name ends in a number is that recording; the others have port 7, and are made by hand.

use super::script::Script;
use super::script::Step::{Answer, Came, Close, Goes, InUse, Queued, Quiet, Sent, Stands};
use super::script::Told::{End, Message, Waits};
use neli::consts::socket::NlFamily;
use neli::session::Verdict;

/// Devices of the family netdev: three messages without MULTI, and the end of the dump.
const DEVICES_0863: &str =
    "400000001400000017040000494300000101000008000100010000000c00030000000000000000000c000500\
    00000000000000000c00060000000000000000004000000014000000170400004943000001010000080001000200\
    00000c00030023000000000000000c00050007000000000000000c00060000000000000000004000000014000000\
    17040000494300000101000008000100030000000c00030023000000000000000c00050007000000000000000c00\
    060000000000000000001400000003000200170400004943000000000000";

/// A proxy neighbour, and the end of the dump.
const NEIGHBOUR_0165: &str =
    "240000001c000200f40300009a413db902000000030000000000080108000100c000024d1400000003000200\
    f40300009a413db900000000";

/// The end of a dump of a table that is not there: the code -2, and the kernel's text.
const NO_TABLE_0372: &str =
    "3800000003002202a7040000ebd2b981feffffff23000100697076343a20464942207461626c6520646f6573\
    206e6f742065786973740000";

/// A link was set up.
const ACK_OF_1054: &str =
    "24000000020000011e0400002b3100000000000020000000130005001e04000000000000";

/// -19 (`ENODEV`) for a removed link: the echo ends after four bytes of its body.
const SHORT_ECHO: &str =
    "28000000020000000000000007000000edffffff1400000011000500000000000000000000000000";

/// A link, as a part of a dump; its end; the same marked as interrupted; the end with -19.
const PART: &str = "10000000100002000000000007000000";

const DONE: &str = "1400000003000200000000000700000000000000";

const MARKED: &str = "10000000100012000000000007000000";

const FAILED: &str = "14000000030002000000000007000000edffffff";

/// Of Linux 6.18 to a dump of links whose socket's buffer is full: the error -105 (`ENOBUFS`), and then the end.
const NO_ROOM: &str =
    "3400000002000000881300006c10000097ffffff2000000012000103881300000000000000000000000000000000\
    000000000000";

const DONE_AFTER_IT: &str = "1400000003000200881300006c10000000000000";

/// A part and the end in one datagram.
const PART_AND_DONE: &str =
    "100000001000020000000000070000001400000003000200000000000700000000000000";

/// A link without MULTI; the acknowledgement.
const LINK: &str = "10000000100000000000000007000000";

const ACK: &str = "240000000200000100000000070000000000000014000000120005000000000000000000";

pub const SCRIPTS: [Script; 15] = [
    (
        "a dump goes on after ENOBUFS",
        4204,
        &[
            Sent(5000, NlFamily::Route, 18, 0x301, 16),
            Queued(5001, NlFamily::Route, 22, 0x301, 16),
            Came(NO_ROOM),
            Answer(5000, Message(2, 36)),
            Answer(5000, Waits),
            Stands(5000, Some(Verdict::Failed(-105))),
            Close(5000),
            Goes(None),
            InUse(5000, true),
            Came(DONE_AFTER_IT),
            InUse(5000, false),
            Goes(Some(5001)),
        ],
    ),
    (
        "a dump without MULTI",
        17225,
        &[
            Sent(1047, NlFamily::Generic, 20, 0x301, 4),
            Answer(1047, Waits),
            Came(DEVICES_0863),
            Stands(1047, Some(Verdict::Pending)),
            Answer(1047, Message(20, 48)),
            Answer(1047, Message(20, 48)),
            Answer(1047, Message(20, 48)),
            Stands(1047, Some(Verdict::Pending)),
            Answer(1047, Message(3, 4)),
            Stands(1047, Some(Verdict::Complete)),
            Answer(1047, End),
        ],
    ),
    (
        "a dump of neighbours",
        3107799450,
        &[
            Sent(1012, NlFamily::Route, 30, 0x301, 12),
            Came(NEIGHBOUR_0165),
            Answer(1012, Message(28, 20)),
            Answer(1012, Message(3, 4)),
            Answer(1012, End),
            Stands(1012, Some(Verdict::Complete)),
        ],
    ),
    (
        "links by ROOT and ACK",
        7,
        &[
            Sent(0, NlFamily::Route, 18, 0x105, 16),
            Came(PART),
            Came(DONE),
            Answer(0, Message(16, 0)),
            Stands(0, Some(Verdict::Pending)),
            Answer(0, Message(3, 4)),
            Answer(0, End),
            Stands(0, Some(Verdict::Complete)),
        ],
    ),
    (
        "a dump over several datagrams",
        7,
        &[
            Sent(0, NlFamily::Route, 18, 0x301, 16),
            Came(PART),
            Answer(0, Message(16, 0)),
            Answer(0, Waits),
            Stands(0, Some(Verdict::Pending)),
            Came(PART_AND_DONE),
            Answer(0, Message(16, 0)),
            Answer(0, Message(3, 4)),
            Answer(0, End),
            Stands(0, Some(Verdict::Complete)),
        ],
    ),
    (
        "an acknowledged change",
        12587,
        &[
            Sent(1054, NlFamily::Route, 19, 5, 16),
            Came(ACK_OF_1054),
            Stands(1054, Some(Verdict::Pending)),
            Answer(1054, Message(2, 20)),
            Stands(1054, Some(Verdict::Complete)),
            Answer(1054, End),
        ],
    ),
    (
        "messages, and then the acknowledgement",
        7,
        &[
            Sent(0, NlFamily::Route, 18, 5, 16),
            Came(LINK),
            Answer(0, Message(16, 0)),
            Answer(0, Waits),
            Came(ACK),
            Answer(0, Message(2, 20)),
            Answer(0, End),
            Stands(0, Some(Verdict::Complete)),
        ],
    ),
    (
        "an error with a short echo",
        7,
        &[
            Sent(0, NlFamily::Route, 17, 5, 16),
            Came(SHORT_ECHO),
            Stands(0, Some(Verdict::Pending)),
            Answer(0, Message(2, 24)),
            Stands(0, Some(Verdict::Failed(-19))),
            Answer(0, End),
            Stands(0, Some(Verdict::Failed(-19))),
        ],
    ),
    (
        "a dump of a table that is not there",
        2176439019,
        &[
            Sent(1191, NlFamily::Route, 26, 0x301, 12),
            Came(NO_TABLE_0372),
            Answer(1191, Message(3, 40)),
            Answer(1191, End),
            Stands(1191, Some(Verdict::Failed(-2))),
        ],
    ),
    (
        "a reply is one message",
        7,
        &[
            Sent(0, NlFamily::Route, 18, 1, 16),
            Came(LINK),
            Answer(0, Message(16, 0)),
            Stands(0, Some(Verdict::Complete)),
            Answer(0, End),
        ],
    ),
    (
        // NFT_MSG_GETSETELEM without a bit of DUMP.
        "a reply of several messages",
        7,
        &[
            Sent(0, NlFamily::Netfilter, 0xa0d, 1, 4),
            Came(PART),
            Answer(0, Message(16, 0)),
            Answer(0, Waits),
            Came(DONE),
            Answer(0, Message(3, 4)),
            Answer(0, End),
            Stands(0, Some(Verdict::Complete)),
        ],
    ),
    (
        "a silent change",
        7,
        &[
            Sent(0, NlFamily::Route, 19, 1, 16),
            Answer(0, Waits),
            Stands(0, Some(Verdict::Pending)),
            Quiet,
            Answer(0, End),
            Stands(0, Some(Verdict::Complete)),
        ],
    ),
    (
        "a dump without its end",
        7,
        &[
            Sent(0, NlFamily::Route, 18, 0x301, 16),
            Came(PART),
            Quiet,
            Stands(0, Some(Verdict::Pending)),
            Answer(0, Message(16, 0)),
            Stands(0, Some(Verdict::Unanswered)),
            Answer(0, End),
        ],
    ),
    (
        "an interrupted dump",
        7,
        &[
            Sent(0, NlFamily::Route, 18, 0x301, 16),
            Came(MARKED),
            Came(PART),
            Came(DONE),
            Answer(0, Message(16, 0)),
            Stands(0, Some(Verdict::Interrupted)),
            Answer(0, Message(16, 0)),
            Answer(0, Message(3, 4)),
            Answer(0, End),
            Stands(0, Some(Verdict::Interrupted)),
        ],
    ),
    (
        "a dump that fails",
        7,
        &[
            Sent(0, NlFamily::Route, 18, 0x301, 16),
            Came(PART),
            Came(FAILED),
            Answer(0, Message(16, 0)),
            Answer(0, Message(3, 4)),
            Answer(0, End),
            Stands(0, Some(Verdict::Failed(-19))),
        ],
    ),
];
