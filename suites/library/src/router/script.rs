//! Scripts: steps and the outcome of each, by a run and by calls.

use super::steps::called;
use super::support::assert_is_at;
use super::{answers, conversations, datagrams, faults, numbers};
use example_store::Limited;
use neli::consts::nl::NlmF;
use neli::err::{DeError, NoMemory, RouterError, SocketError};
use neli::nl::{NlPayload, Nlmsghdr};
use neli::router::synchronous::{Command, Deliveries, Log, OpenRun, Outcome, Queues, run};
use neli::types::Buffer;
use neli::utils::Groups;
use std::alloc::Global;
use std::io::ErrorKind;
use std::process::Abort;

/// A step.
#[derive(Clone, Copy)]
pub enum Step {
    /// The number of the next request is set.
    Next(u32),
    /// A request of this type, with these flags and this body in hexadecimal, is sent.
    Send(u16, u16, &'static str),
    /// A datagram, in hexadecimal, arrives for the groups of this mask.
    Come(&'static str, u32),
    /// The link fails.
    Fail(ErrorKind),
    /// The next item of a handle is read: of multicast, or of the k-th request that was sent.
    Read(usize),
    /// A handle is closed.
    Close(usize),
}

/// The outcome of a step, as far as the tests compare it.
#[derive(Clone, Copy, Debug, PartialEq, Eq)]
pub enum Told {
    Done,
    /// A request with this number and this port.
    Sent(u32, u32),
    /// The number is in use.
    InUse(u32),
    /// A message: its type, its number, and how many bytes its payload has.
    Message(u16, u32, usize),
    /// An acknowledgement of a request with this number.
    Ack(u32),
    /// An acknowledgement with so many attributes.
    AckWith(u32, usize),
    /// The end of a dump, with this code.
    DumpEnd(i32),
    /// A stray message: its number and its port.
    Stray(u32, u32),
    /// An error with this code, and the type of the request that it echoes.
    Refused(i32, u16),
    /// A capped error with this code, and the length of the request that it echoes.
    Capped(i32, u32),
    NoAck,
    UnexpectedAck,
    Closed,
    /// A datagram ends inside a header.
    Short,
    /// A length in a datagram is wrong: so many bytes are not there, or too few.
    Input(usize),
    /// The link failed.
    Failed(ErrorKind),
    End,
    Waits,
    NoHandle,
    /// None of these.
    Other,
}

/// A script: its name, the port of the router, and steps with the outcome of each.
pub type Script = (&'static str, u32, &'static [(Step, Told)]);

/// A message with untyped payload.
pub type Raw = Nlmsghdr<u16, Buffer>;

/// Why a router refuses.
pub type Refusal = RouterError<u16, Buffer>;

/// An outcome of these tests' runs.
pub type Came = Outcome<u16, Buffer, u16, Buffer>;

/// The kind of an acknowledgement, by the number that it echoes and the count of its attributes.
fn acknowledged(number: u32, count: usize) -> Told {
    if count == 0 {
        Told::Ack(number)
    } else {
        Told::AckWith(number, count)
    }
}

/// The kind of a message.
pub fn message(message: &Raw) -> Told {
    match message.nl_payload() {
        NlPayload::Payload(body) => Told::Message(
            *message.nl_type(),
            *message.nl_seq(),
            body.len(),
        ),
        NlPayload::Ack(answer) => acknowledged(*answer.nlmsg().nl_seq(), answer.ext_ack().len()),
        NlPayload::DumpExtAck(answer) => Told::DumpEnd(*answer.error()),
        _ => Told::Other,
    }
}

/// Why there is no message.
fn refusal(error: &Refusal) -> Told {
    match error {
        RouterError::Socket(SocketError::De(DeError::Io(ErrorKind::UnexpectedEof))) => Told::Short,
        RouterError::Socket(SocketError::De(DeError::InvalidInput(n))) => Told::Input(*n),
        RouterError::Socket(SocketError::Io(kind)) => Told::Failed(*kind),
        RouterError::Nlmsgerr(answer) => Told::Refused(*answer.error(), *answer.nlmsg().nl_type()),
        RouterError::Capped(answer) => Told::Capped(*answer.error(), *answer.nlmsg().nl_len()),
        RouterError::BadSeqOrPid(stray) => Told::Stray(*stray.nl_seq(), *stray.nl_pid()),
        RouterError::NoAck => Told::NoAck,
        RouterError::UnexpectedAck => Told::UnexpectedAck,
        RouterError::ClosedChannel => Told::Closed,
        RouterError::SeqInUse(number) => Told::InUse(*number),
        _ => Told::Other,
    }
}

/// The kind of an item.
pub fn item(item: &Result<Raw, Refusal>) -> Told {
    match item {
        Ok(found) => message(found),
        Err(error) => refusal(error),
    }
}

/// Four bytes from a place on as a number, the lowest first; 0 where they are not all there.
fn long(bytes: &[u8], at: usize) -> u32 {
    let Some(rest) = bytes.get(at..) else {
        return 0;
    };
    match rest {
        [a, b, c, d, ..] => u32::from_le_bytes([*a, *b, *c, *d]),
        _ => 0,
    }
}

/// The kind of an outcome.
pub fn kind_of(outcome: &Came) -> Told {
    match outcome {
        Outcome::Done => Told::Done,
        Outcome::Sent(bytes) => Told::Sent(long(bytes, 8), long(bytes, 12)),
        Outcome::NotSent(error) => refusal(error),
        Outcome::Item(found) => item(found),
        Outcome::End => Told::End,
        Outcome::Waits => Told::Waits,
        Outcome::NoHandle => Told::NoHandle,
    }
}

/// The kind of an outcome that is not used any more.
pub fn kind_once(outcome: Came) -> Told {
    kind_of(&outcome)
}

/// Whether two refusals are equal: a stray or an answer field by field, another one by its text.
fn refused_alike(rt: &impl Abort, alloc: Global, a: &Refusal, b: &Refusal) -> bool {
    match (a, b) {
        (RouterError::BadSeqOrPid(a), RouterError::BadSeqOrPid(b)) => a == b,
        (RouterError::Nlmsgerr(a), RouterError::Nlmsgerr(b)) => a == b,
        (RouterError::Capped(a), RouterError::Capped(b)) => a == b,
        _ => {
            let a = a.to_string(alloc).expect(rt, "memory");
            let b = b.to_string(alloc).expect(rt, "memory");
            a == b
        }
    }
}

/// Whether two outcomes are equal: bytes and messages whole, refusals as [`refused_alike`] says.
fn are_alike(rt: &impl Abort, alloc: Global, a: &Came, b: &Came) -> bool {
    match (a, b) {
        (Outcome::Sent(a), Outcome::Sent(b)) => a == b,
        (Outcome::NotSent(a), Outcome::NotSent(b)) => refused_alike(rt, alloc, a, b),
        (Outcome::Item(Ok(a)), Outcome::Item(Ok(b))) => a == b,
        (Outcome::Item(Err(a)), Outcome::Item(Err(b))) => refused_alike(rt, alloc, a, b),
        _ => kind_of(a) == kind_of(b),
    }
}

/// Whether an outcome is equal to that at a place.
fn is_alike_at(rt: &impl Abort, alloc: Global, a: &Came, others: &[Came], place: usize) -> bool {
    match others.get(place) {
        Some(b) => are_alike(rt, alloc, a, b),
        None => false,
    }
}

/// Asserts that the outcomes of two runs are equal, one by one.
pub fn assert_alike(rt: &impl Abort, alloc: Global, row: &str, plain: &[Came], shared: &[Came]) {
    assert_is_at(rt, row, plain.len(), shared.len());
    for (place, a) in plain.iter().enumerate() {
        let alike = is_alike_at(rt, alloc, a, shared, place);
        assert_is_at(rt, (row, place), alike, true);
    }
}

/// The bytes that are to be sent by the outcome at a place; none where it is another one.
pub fn sent_at(came: &[Came], at: usize) -> &[u8] {
    match came.get(at) {
        Some(Outcome::Sent(bytes)) => bytes.as_slice(),
        _ => &[],
    }
}

/// The bytes of a hexadecimal text. Refused where memory runs out.
pub fn bytes_of(alloc: Global, text: &str) -> Result<Vec<u8>, NoMemory> {
    match hex::decode(alloc, text) {
        Ok(bytes) => Ok(bytes),
        Err(_) => Err(NoMemory),
    }
}

/// The command of a step. Refused where memory runs out.
fn command(alloc: Global, step: Step) -> Result<Command<u16, Buffer>, NoMemory> {
    Ok(match step {
        Step::Next(number) => Command::SetNextSeq(number),
        Step::Send(nl_type, flags, body) => {
            let body = Buffer::from(bytes_of(alloc, body)?);
            Command::Send(nl_type, NlmF::from(flags), NlPayload::Payload(body))
        }
        Step::Come(text, mask) => {
            let groups = Groups::new_bitmask(alloc, mask)?;
            Command::Datagram(bytes_of(alloc, text)?, groups)
        }
        Step::Fail(kind) => Command::Fault(SocketError::Io(kind)),
        Step::Read(k) => Command::Read(k),
        Step::Close(k) => Command::Close(k),
    })
}

/// Performs these steps in their order by one run with a router of this port, over this store. Refused if memory runs
/// out.
pub fn outcomes<D: Deliveries>(
    alloc: Global,
    port: u32,
    steps: &[(Step, Told)],
) -> Result<Vec<Came>, NoMemory> {
    let mut commands = Vec::new(alloc);
    for (step, _) in steps {
        commands.push(command(alloc, *step)?)?;
    }
    run::<D, u16, Buffer, u16, Buffer>(alloc, port, commands)
}

/// The same, command by command, where none is kept.
pub fn outcomes_in_turn<D: Deliveries>(
    alloc: Global,
    port: u32,
    steps: &[(Step, Told)],
) -> Result<Vec<Came>, NoMemory> {
    let mut open: OpenRun<D, u16, Buffer> = OpenRun::start::<u16, Buffer>(alloc, port)?;
    let mut came = Vec::new(alloc);
    for (step, _) in steps {
        let outcome = open.perform(alloc, command(alloc, *step)?)?;
        came.push(outcome)?;
    }
    Ok(came)
}

/// The kind of the outcome at a place.
fn told_at(came: &[Came], place: usize) -> Option<Told> {
    match came.get(place) {
        Some(outcome) => Some(kind_of(outcome)),
        None => None,
    }
}

/// Asserts that each of these outcomes is the one beside its step.
pub fn assert_told(rt: &impl Abort, row: &str, came: &[Came], steps: &[(Step, Told)]) {
    assert_is_at(rt, row, came.len(), steps.len());
    for (place, (_, want)) in steps.iter().enumerate() {
        assert_is_at(rt, (row, place), told_at(came, place), Some(*want));
    }
}

/// Performs steps over this store with a router of this port: by one run, command by command, and by the router's own
/// calls. Asserts that each has the outcome beside it, and that all have equal outcomes, which it returns.
fn play_over<D: Deliveries>(
    rt: &impl Abort,
    alloc: Global,
    row: &str,
    port: u32,
    steps: &[(Step, Told)],
) -> Vec<Came> {
    let of_run = outcomes::<D>(alloc, port, steps).expect(rt, "memory");
    let in_turn = outcomes_in_turn::<D>(alloc, port, steps).expect(rt, "memory");
    let of_calls = called::<D>(rt, alloc, port, steps);
    assert_told(rt, row, &of_run, steps);
    assert_told(rt, row, &of_calls, steps);
    assert_alike(rt, alloc, row, &of_run, &in_turn);
    assert_alike(rt, alloc, row, &of_run, &of_calls);
    of_run
}

/// Plays steps over each store, and asserts that the outcomes are equal.
pub fn play(rt: &impl Abort, alloc: Global, row: &str, port: u32, steps: &[(Step, Told)]) {
    let plain = play_over::<Queues>(rt, alloc, row, port, steps);
    let shared = play_over::<Log>(rt, alloc, row, port, steps);
    let limited = play_over::<Limited<1_000_000>>(rt, alloc, row, port, steps);
    assert_alike(rt, alloc, row, &plain, &shared);
    assert_alike(rt, alloc, row, &plain, &limited);
}

/// Plays these scripts.
fn play_all(rt: &impl Abort, alloc: Global, scripts: &[Script]) {
    for (row, port, steps) in scripts {
        play(rt, alloc, row, *port, steps);
    }
}

#[test]
fn scripts_are_answered(rt: HostRuntime) {
    play_all(&rt, rt.alloc(), &numbers::SCRIPTS);
    play_all(&rt, rt.alloc(), &answers::SCRIPTS);
    play_all(&rt, rt.alloc(), &datagrams::SCRIPTS);
    play_all(&rt, rt.alloc(), &faults::SCRIPTS);
    play_all(&rt, rt.alloc(), &conversations::SCRIPTS);
}
