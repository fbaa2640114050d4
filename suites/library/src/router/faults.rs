//! Faults of the link.

use super::script::Script;
use super::script::Step::{Fail, Read, Send};
use super::script::Told::{Done, End, Failed, Sent, Waits};
use std::io::ErrorKind;

/// The link would block, and then fails.
pub const SCRIPTS: [Script; 1] = [(
    "a fault goes to each number and not to multicast",
    0,
    &[
        (Send(16, 0, ""), Sent(0, 0)),
        (Send(16, 0, ""), Sent(1, 0)),
        (Read(1), Waits),
        (Fail(ErrorKind::WouldBlock), Done),
        (Read(1), Waits),
        (Read(2), Waits),
        (Fail(ErrorKind::ConnectionReset), Done),
        (Read(1), Failed(ErrorKind::ConnectionReset)),
        (Read(1), End),
        (Read(2), Failed(ErrorKind::ConnectionReset)),
        (Read(2), End),
        (Read(0), Waits),
        (Send(16, 0, ""), Sent(2, 0)),
        (Read(3), Waits),
    ],
)];
