//! The example of the module `session` of `neli`, line by line.

use super::script::bytes_of;
use neli::consts::nl::NlmF;
use neli::consts::socket::NlFamily;
use neli::session::{Next, Reader, SendError, Session, Untaken, Verdict};
use std::alloc::Global;
use std::process::Abort;

/// Recording 0165: a proxy neighbour, and the end of the dump.
const NEIGHBOUR: &str =
    "240000001c000200f40300009a413db902000000030000000000080108000100c000024d1400000003000200\
    f40300009a413db900000000";

/// The request of that recording: `RTM_GETNEIGH` with a body of zeros, by `linux/netlink.h` and `linux/neighbour.h`.
const REQUEST: &[u8] =
    b"\x1c\0\0\0\x1e\0\x01\x03\xf4\x03\0\0\x9a\x41\x3d\xb9\0\0\0\0\0\0\0\0\0\0\0\0";

/// Why the dump was not read.
#[derive(Clone, Copy, Debug)]
enum Refusal {
    Send(SendError),
    Receive(Untaken),
}

impl From<SendError> for Refusal {
    fn from(error: SendError) -> Refusal {
        Refusal::Send(error)
    }
}

impl From<Untaken> for Refusal {
    fn from(untaken: Untaken) -> Refusal {
        Refusal::Receive(untaken)
    }
}

/// Requests a dump, and reads this datagram as its answer: whether it is whole, and the bytes of its payloads.
fn read_dump(
    rt: &impl Abort,
    alloc: Global,
    port: u32,
    datagram: &[u8],
) -> Result<(bool, usize), Refusal> {
    let mut bytes = 0;
    let mut session = Session::new(alloc, NlFamily::Route, port, false);
    session.set_number(1012);
    let number = session.request(30, NlmF::DUMP, &[0; 12])?;
    while session.next_outgoing() {
        // Your link sends what `session.outgoing()` lends.
        assert_eq!(rt; session.outgoing(), Some(REQUEST));
        session.sent();
    }
    session.receive(datagram, 0, false)?;
    session.quiet();
    while let Next::Message(message) = session.next(Reader::Request(number)) {
        bytes += message.nl_payload().len();
        session.pass_answer(number);
    }
    let is_whole = session.verdict(number) == Some(Verdict::Complete);
    session.close(number);
    assert!(rt; !session.is_in_use(number));
    Ok((is_whole, bytes))
}

#[test]
fn a_dump_is_read_to_its_end(rt: HostRuntime) {
    let datagram = bytes_of(&rt, rt.alloc(), NEIGHBOUR);
    let read = read_dump(&rt, rt.alloc(), 3107799450, &datagram);
    assert!(rt; matches!(read, Ok((true, 24))), "{read:?}");
}

/// Requests two dumps, and reads this datagram as the answer to the first, by whoever has something: the bytes of the
/// payloads.
fn read_ready(
    rt: &impl Abort,
    alloc: Global,
    port: u32,
    datagram: &[u8],
) -> Result<usize, Refusal> {
    let mut bytes = 0;
    let mut session = Session::new(alloc, NlFamily::Route, port, false);
    session.set_number(1012);
    for _ in 0..2 {
        let _ = session.request(30, NlmF::DUMP, &[0; 12])?;
    }
    assert!(rt; session.next_outgoing());
    session.sent();
    session.receive(datagram, 0, false)?;
    while let Some(number) = session.next_ready() {
        if let Next::Message(message) = session.next(Reader::Request(number)) {
            bytes += message.nl_payload().len();
            session.pass_answer(number);
        } else {
            session.close(number);
        }
    }
    assert!(rt; !session.is_in_use(1012) && session.is_in_use(1013));
    Ok(bytes)
}

#[test]
fn whoever_has_something_is_read(rt: HostRuntime) {
    let datagram = bytes_of(&rt, rt.alloc(), NEIGHBOUR);
    let read = read_ready(&rt, rt.alloc(), 3107799450, &datagram);
    assert!(rt; matches!(read, Ok(24)), "{read:?}");
}
