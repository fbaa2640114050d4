//! A script: what happens to a session, and what each read of it returns.

use neli::consts::nl::NlmF;
use neli::consts::socket::NlFamily;
use neli::session::{Answering, Loss, Next, Reader, SendError, Session, Verdict};
use std::alloc::Global;
use std::fmt::Debug;
use std::process::Abort;

/// What a script is about, the session's port, and its steps.
pub type Script = (&'static str, u32, &'static [Step]);

#[derive(Clone, Copy, Debug)]
pub enum Step {
    /// A request is sent, and the link sends it: its number, protocol, type, flags, and the length of its body.
    Sent(u32, NlFamily, u16, u16, usize),
    /// A request is sent, and waits: the same.
    Queued(u32, NlFamily, u16, u16, usize),
    /// Requests are sent as one datagram, which these bytes are, with this result.
    All(&'static str, Result<(), SendError>),
    /// A request with this number is refused, as the number is in use.
    Refused(u32),
    /// The datagram to send next: the number of its first request, if one may go out.
    Goes(Option<u32>),
    /// The link has sent it, or has not, with this errno.
    Went,
    Failed(i32),
    /// A datagram comes for no group.
    Came(&'static str),
    /// A datagram comes for this group, in which the socket is or not.
    CameFor(u32, bool, &'static str),
    /// The link reports this errno.
    Fault(i32),
    /// The link was seen empty.
    Quiet,
    /// A read of a request's answer returns this, and the reader goes on.
    Answer(u32, Told),
    /// The same of multicast.
    Heard(Told),
    /// The same of what nobody asked for.
    Unasked(Told),
    /// The verdict on the request with this number.
    Stands(u32, Option<Verdict>),
    /// Whether this number is in use.
    InUse(u32, bool),
    /// The first request that has something to read.
    First(Option<u32>),
    /// Whether multicast has something, and whether what nobody asked for has.
    HasMulticast(bool),
    HasUnasked(bool),
    Close(u32),
    CloseMulticast,
}

/// What a read returns: of a message its type, and the length of its payload.
#[derive(Clone, Copy, Debug, PartialEq, Eq)]
pub enum Told {
    Message(u16, usize),
    Lost(Loss),
    End,
    Waits,
    Closed,
}

/// How the datagrams of a script come.
#[derive(Clone, Copy, Debug, PartialEq, Eq)]
pub enum Grouping {
    AsWritten,
    /// The first message alone, and the others after it.
    InTwo,
}

/// Asserts that this is the expected value, in this place of a script.
fn assert_is_at<T: Copy + PartialEq + Debug>(
    rt: &impl Abort,
    place: (&str, usize),
    got: T,
    want: T,
) {
    assert_eq!(rt; got, want, "at {place:?}");
}

/// The bytes of these digits, decoded once more if memory ran out.
pub fn bytes_of(rt: &impl Abort, alloc: Global, text: &str) -> Vec<u8> {
    match hex::decode(alloc, text) {
        Ok(bytes) => bytes,
        Err(_) => hex::decode(alloc, text).expect(rt, text),
    }
}

/// A request with a body of zeros, which may have 48 bytes.
fn request(number: u32, nl_type: u16, flags: u16, length: usize) -> [u8; 64] {
    let mut bytes = [0; 64];
    bytes[0] = (16 + length) as u8;
    bytes[4..6].copy_from_slice(&nl_type.to_le_bytes());
    bytes[6..8].copy_from_slice(&flags.to_le_bytes());
    bytes[8..12].copy_from_slice(&number.to_le_bytes());
    bytes
}

/// Sends requests, once more if memory ran out.
fn send(
    session: &mut Session,
    requests: &[u8],
    answering: Option<Answering>,
) -> Result<(), SendError> {
    let mut sent = Err(SendError::Memory);
    for _ in 0..2 {
        if sent == Err(SendError::Memory) {
            sent = match answering {
                None => session.send(requests),
                Some(answering) => session.send_expecting(requests, answering),
            };
        }
    }
    sent
}

/// Sends a request of a protocol, which waits.
fn queue(
    session: &mut Session,
    number: u32,
    protocol: NlFamily,
    nl_type: u16,
    flags: u16,
    length: usize,
) -> Result<(), SendError> {
    let answering = Answering::of(protocol, nl_type, NlmF::from(flags), length);
    let bytes = request(number, nl_type, flags, length);
    send(session, &bytes[..16 + length], Some(answering))
}

/// The number of the first request of the datagram to send next, if one may go out.
fn next_out(session: &mut Session) -> Option<u32> {
    if !session.next_outgoing() {
        return None;
    }
    match session.outgoing() {
        Some([_, _, _, _, _, _, _, _, a, b, c, d, ..]) => {
            Some(u32::from_le_bytes([*a, *b, *c, *d]))
        }
        _ => None,
    }
}

/// Hands in a datagram, and the bytes that were not taken in once more if memory ran out.
fn hand_in(rt: &impl Abort, session: &mut Session, datagram: &[u8], group: u32, is_joined: bool) {
    if let Err(untaken) = session.receive(datagram, group, is_joined) {
        let rest = &datagram[untaken.taken..];
        session.receive(rest, group, is_joined).expect(rt, "memory");
    }
}

/// The length of the first message with its padding, or of all bytes if there is no whole one.
fn first_length(bytes: &[u8]) -> usize {
    if bytes.len() < 16 {
        return bytes.len();
    }
    let stated = usize::from(bytes[0]) + 256 * usize::from(bytes[1]);
    ((stated + 3) / 4 * 4).min(bytes.len())
}

/// Hands in a datagram, as one or in two.
fn come(
    rt: &impl Abort,
    session: &mut Session,
    bytes: &[u8],
    how: Grouping,
    group: u32,
    is_joined: bool,
) {
    let end = match how {
        Grouping::AsWritten => bytes.len(),
        Grouping::InTwo => first_length(bytes),
    };
    hand_in(rt, session, &bytes[..end], group, is_joined);
    hand_in(rt, session, &bytes[end..], group, is_joined);
}

/// Notes a fault of the link, once more if memory ran out.
fn fail(rt: &impl Abort, session: &mut Session, errno: i32) {
    if session.fault(errno).is_err() {
        session.fault(errno).expect(rt, "memory");
    }
}

/// What the next read returns.
fn told(session: &Session, reader: Reader) -> Told {
    match session.next(reader) {
        Next::Message(message) => Told::Message(*message.nl_type(), message.nl_payload().len()),
        Next::Loss(loss) => Told::Lost(loss),
        Next::End => Told::End,
        Next::Waits => Told::Waits,
        Next::Closed => Told::Closed,
    }
}

/// Performs a step that changes what a session awaits.
fn perform(
    rt: &impl Abort,
    alloc: Global,
    session: &mut Session,
    step: Step,
    how: Grouping,
    place: (&str, usize),
) {
    match step {
        Step::Sent(number, protocol, nl_type, flags, length) => {
            let sent = queue(session, number, protocol, nl_type, flags, length);
            assert_is_at(rt, place, sent, Ok(()));
            assert_is_at(rt, place, next_out(session), Some(number));
            session.sent();
        }
        Step::Queued(number, protocol, nl_type, flags, length) => {
            let sent = queue(session, number, protocol, nl_type, flags, length);
            assert_is_at(rt, place, sent, Ok(()));
        }
        Step::All(text, want) => {
            let sent = send(session, &bytes_of(rt, alloc, text), None);
            assert_is_at(rt, place, sent, want);
        }
        Step::Refused(number) => {
            let sent = queue(session, number, NlFamily::Route, 16, 5, 16);
            assert_is_at(rt, place, sent, Err(SendError::InUse(number)));
        }
        Step::Goes(want) => assert_is_at(rt, place, next_out(session), want),
        Step::Went => session.sent(),
        Step::Failed(errno) => session.not_sent(errno),
        Step::Came(text) => come(rt, session, &bytes_of(rt, alloc, text), how, 0, false),
        Step::CameFor(group, is_joined, text) => {
            come(
                rt,
                session,
                &bytes_of(rt, alloc, text),
                how,
                group,
                is_joined,
            );
        }
        Step::Fault(errno) => fail(rt, session, errno),
        Step::Quiet => session.quiet(),
        Step::Close(number) => session.close(number),
        Step::CloseMulticast => session.close_multicast(),
        _ => read(rt, session, step, place),
    }
}

/// Reads a reader's next item: a session says before whether there is one.
fn read_next(rt: &impl Abort, session: &Session, reader: Reader, want: Told, place: (&str, usize)) {
    let has_some = !matches!(want, Told::Waits | Told::Closed);
    assert_is_at(rt, place, session.is_ready(reader), has_some);
    assert_is_at(rt, place, told(session, reader), want);
}

/// Performs a step that reads.
fn read(rt: &impl Abort, session: &mut Session, step: Step, place: (&str, usize)) {
    match step {
        Step::Answer(number, want) => {
            read_next(rt, session, Reader::Request(number), want, place);
            session.pass_answer(number);
        }
        Step::Heard(want) => {
            read_next(rt, session, Reader::Multicast, want, place);
            session.pass_multicast();
        }
        Step::Unasked(want) => {
            read_next(rt, session, Reader::Unasked, want, place);
            session.pass_unasked();
        }
        Step::Stands(number, want) => assert_is_at(rt, place, session.verdict(number), want),
        Step::InUse(number, want) => assert_is_at(rt, place, session.is_in_use(number), want),
        Step::First(want) => assert_is_at(rt, place, session.next_ready(), want),
        Step::HasMulticast(want) => {
            assert_is_at(rt, place, session.is_ready(Reader::Multicast), want);
        }
        Step::HasUnasked(want) => {
            assert_is_at(rt, place, session.is_ready(Reader::Unasked), want);
        }
        _ => rt.panic("no read"),
    }
}

/// Plays a script: a call that runs out of memory is repeated once.
pub fn play(rt: &impl Abort, alloc: Global, script: Script, how: Grouping) {
    let (row, port, steps) = script;
    let mut session = Session::new(alloc, NlFamily::Route, port, true);
    for (place, step) in steps.iter().enumerate() {
        perform(rt, alloc, &mut session, *step, how, (row, place));
    }
}
