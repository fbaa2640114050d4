//! Scripts of commands that are made at random, of recorded datagrams among others, over both stores of the router.

use super::changes::{below, changed, one_of};
use neli::ToBytes;
use neli::consts::nl::NlmF;
use neli::err::{NoMemory, RouterError, SerError, SocketError};
use neli::nl::NlPayload;
use neli::router::synchronous::{Command, Deliveries, Log, Outcome, Queues, run};
use neli::types::Buffer;
use neli::utils::Groups;
use rand::rngs::SmallRng;
use rand::{RngExt, SeedableRng};
use std::alloc::Global;
use std::io::ErrorKind;

type Asked = Command<u16, Buffer>;

type Came = Outcome<u16, Buffer, u16, Buffer>;

/// The port of the routers.
const PORT: u32 = 7;

/// A number of a request: mostly that of one of the first.
fn number(random: &mut SmallRng) -> u32 {
    match below(random, 8) {
        0..=5 => random.random_range(0..3),
        6 => u32::MAX,
        _ => random.random(),
    }
}

/// Sets the number and the port of the first message, mostly to those of a request.
fn address(random: &mut SmallRng, bytes: &mut [u8]) {
    let number = number(random).to_le_bytes();
    let port = if below(random, 16) == 0 { 0 } else { PORT };
    let digits = number.into_iter().chain(port.to_le_bytes());
    for (byte, digit) in bytes.iter_mut().skip(8).zip(digits) {
        *byte = digit;
    }
}

/// A datagram that may be changed.
fn datagram(alloc: Global, random: &mut SmallRng, recorded: &[Vec<u8>]) -> Result<Asked, NoMemory> {
    let mut bytes = changed(alloc, random, recorded)?;
    address(random, &mut bytes);
    if below(random, 3) == 0 {
        let mut more = Vec::from_slice(alloc, one_of(random, recorded))?;
        address(random, &mut more);
        bytes.extend_from_slice(&more)?;
    }
    let mask = if below(random, 8) == 0 { 1 } else { 0 };
    Ok(Command::Datagram(bytes, Groups::new_bitmask(alloc, mask)?))
}

/// A request.
fn request(alloc: Global, random: &mut SmallRng, recorded: &[Vec<u8>]) -> Result<Asked, NoMemory> {
    let flags = match below(random, 4) {
        0 => 0x300,
        1 => 0x304,
        2 => 4,
        _ => 0,
    };
    let body = Buffer::from_slice(alloc, one_of(random, recorded))?;
    Ok(Command::Send(16, NlmF::from(flags), NlPayload::Payload(body)))
}

/// A command.
fn command(alloc: Global, random: &mut SmallRng, recorded: &[Vec<u8>]) -> Result<Asked, NoMemory> {
    match below(random, 32) {
        0 => Ok(Command::SetNextSeq(number(random))),
        1..=4 => request(alloc, random, recorded),
        5..=15 => datagram(alloc, random, recorded),
        16 => Ok(Command::Fault(SocketError::Io(ErrorKind::ConnectionReset))),
        17 => Ok(Command::Fault(SocketError::Io(ErrorKind::WouldBlock))),
        18 => Ok(Command::Close(below(random, 5))),
        _ => Ok(Command::Read(below(random, 4))),
    }
}

/// The script of a seed: a request, and 31 commands.
fn script(alloc: Global, seed: u64, recorded: &[Vec<u8>]) -> Result<Vec<Asked>, NoMemory> {
    let mut random = SmallRng::seed_from_u64(seed);
    let mut commands = Vec::new(alloc);
    commands.push(request(alloc, &mut random, recorded)?)?;
    for _ in 0..31 {
        commands.push(command(alloc, &mut random, recorded)?)?;
    }
    Ok(commands)
}

/// Appends the bytes of a value that is refused only for memory.
fn push<V: ToBytes>(out: &mut Vec<u8>, value: &V) -> Result<(), NoMemory> {
    match value.to_bytes(out) {
        Err(SerError::Memory) => Err(NoMemory),
        _ => Ok(()),
    }
}

/// Appends a text.
fn push_text(out: &mut Vec<u8>, text: &str) -> Result<(), NoMemory> {
    out.extend_from_slice(text.as_bytes())?;
    Ok(())
}

/// Appends a refusal: its text, and the message in it.
fn push_refusal(
    alloc: Global,
    out: &mut Vec<u8>,
    error: &RouterError<u16, Buffer>,
) -> Result<(), NoMemory> {
    push_text(out, error.to_string(alloc)?.as_str())?;
    match error {
        RouterError::BadSeqOrPid(stray) => push(out, stray),
        RouterError::Nlmsgerr(answer) => push(out, answer),
        RouterError::Capped(answer) => push(out, answer),
        _ => Ok(()),
    }
}

/// Appends the outcome of a command.
fn push_outcome(alloc: Global, out: &mut Vec<u8>, outcome: &Came) -> Result<(), NoMemory> {
    match outcome {
        Outcome::Done => push_text(out, "done"),
        Outcome::Sent(bytes) => push(out, bytes),
        Outcome::NotSent(error) => push_refusal(alloc, out, error),
        Outcome::Item(Ok(message)) => push(out, message),
        Outcome::Item(Err(error)) => push_refusal(alloc, out, error),
        Outcome::End => push_text(out, "end"),
        Outcome::Waits => push_text(out, "waits"),
        Outcome::NoHandle => push_text(out, "no handle"),
    }?;
    push_text(out, "\n")
}

/// The outcomes of these commands over this store.
fn told<D: Deliveries>(alloc: Global, commands: Vec<Asked>) -> Result<Vec<u8>, NoMemory> {
    let came = run::<D, u16, Buffer, u16, Buffer>(alloc, PORT, commands)?;
    let mut out = Vec::new(alloc);
    for outcome in &came {
        push_outcome(alloc, &mut out, outcome)?;
    }
    Ok(out)
}

/// Whether the script of a seed has the same outcomes over both stores.
pub fn compare(alloc: Global, seed: u64, recorded: &[Vec<u8>]) -> Result<bool, NoMemory> {
    let plain = told::<Queues>(alloc, script(alloc, seed, recorded)?)?;
    let shared = told::<Log>(alloc, script(alloc, seed, recorded)?)?;
    Ok(plain == shared)
}
