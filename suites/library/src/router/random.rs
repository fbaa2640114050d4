//! Random scripts: the outcomes of a run do not depend on the store.

ghost use Rattle.std.specs.Prelude.{◌<◌};

use super::script::{Came, Told, assert_alike, kind_of};
use neli::consts::nl::NlmF;
use neli::err::SocketError;
use neli::nl::NlPayload;
use neli::router::synchronous::{Command, Log, Queues, run};
use neli::types::Buffer;
use neli::utils::Groups;
use std::alloc::Global;
use std::io::ErrorKind;
use std::process::Abort;

/// The port of the routers.
const PORT: u32 = 7;

/// Numbers for the next request.
const NEXT: [u32; 8] = [0, 0, 0, 1, 1, 2, 3, 4294967295];

/// Numbers of messages: mostly those of the first requests.
const NUMBERS: [u32; 8] = [0, 0, 0, 0, 0, 1, 1, 2];

/// Ports of messages: mostly that of the routers.
const PORTS: [u32; 16] = [7, 7, 7, 7, 7, 7, 7, 7, 7, 7, 7, 7, 7, 7, 7, 0];

/// Masks of groups: mostly none.
const MASKS: [u32; 8] = [0, 0, 0, 0, 0, 0, 0, 1];

/// Handles that are read: mostly those of the first requests.
const READS: [usize; 8] = [0, 1, 1, 1, 1, 2, 2, 3];

/// Bodies of requests.
const BODIES: [&[u8]; 4] = [&[], &[1], &[1, 2, 3, 4], &[1, 2, 3, 4, 5, 6, 7]];

/// Flags of requests: none, ACK, DUMP, and ACK and DUMP.
const FLAGS: [u16; 8] = [0, 4, 4, 4, 4, 0x300, 0x300, 0x304];

/// Messages: the stated length, the type, the flags, and the bytes after the header.
const MESSAGES: [(u8, u8, u16, &[u8]); 14] = [
    (16, 16, 0, &[]),
    (16, 16, 2, &[]),
    (21, 17, 0, &[1, 2, 3, 4, 5, 0, 0, 0]),
    (20, 18, 2, &[9, 8, 7, 6]),
    (18, 19, 2, &[5, 4, 0xff, 0xff]),
    (20, 3, 2, &[0, 0, 0, 0]),
    (20, 3, 2, &[0xea, 0xff, 0xff, 0xff]),
    (16, 3, 0, &[]),
    // An acknowledgement, and the error -22: of a request of 16 bytes and type 16, and of one of 21 bytes and
    // type 1024, its body after it and an attribute.
    (
        36,
        2,
        0x100,
        &[0, 0, 0, 0, 16, 0, 0, 0, 16, 0, 5, 0, 1, 0, 0, 0, 7, 0, 0, 0],
    ),
    (
        36,
        2,
        0x100,
        &[0, 0, 0, 0, 16, 0, 0, 0, 16, 0, 5, 0, 2, 0, 0, 0, 7, 0, 0, 0],
    ),
    (
        36,
        2,
        0,
        &[
            0xea, 0xff, 0xff, 0xff, 16, 0, 0, 0, 16, 0, 5, 0, 0, 0, 0, 0, 7, 0, 0, 0,
        ],
    ),
    (
        52,
        2,
        0x200,
        &[
            0xea, 0xff, 0xff, 0xff, 0x15, 0, 0, 0, 0, 4, 5, 0, 0, 0, 0, 0, 0, 0, 0, 0, 0x61, 0x62,
            0x63, 0x64, 0x65, 0, 0, 0, 8, 0, 1, 0, 0x62, 0x61, 0x64, 0,
        ],
    ),
    // An error without the header of the request, and a message that states more bytes than there are.
    (20, 2, 0, &[0, 0, 0, 0]),
    (255, 16, 0, &[]),
];

/// Ends of datagrams: mostly none, else a message that is cut off in its header or after it.
const TAILS: [&[u8]; 16] = [
    &[],
    &[],
    &[],
    &[],
    &[],
    &[],
    &[],
    &[],
    &[],
    &[],
    &[],
    &[],
    &[],
    &[16, 0, 0, 0, 16, 0, 0],
    &[16, 0, 0, 0, 16, 0, 0],
    &[20, 0, 0, 0, 16, 0, 0, 0, 0, 0, 0, 0, 7, 0, 0, 0, 1, 2],
];

/// Faults of the link: mostly that it would block.
const FAULTS: [ErrorKind; 4] = [
    ErrorKind::WouldBlock,
    ErrorKind::WouldBlock,
    ErrorKind::WouldBlock,
    ErrorKind::ConnectionReset,
];

/// A linear congruential generator, modulo 2^32, with the numbers of Numerical Recipes.
#[derive(Drop)]
struct Random {
    state: u32,
}

impl Random {
    /// A number below a count.
    fn below(&mut self, count: usize) -> usize
        requires { 0 < count }
        ensures { result < count }
    {
        self.state = self
            .state
            .wrapping_mul(1_664_525)
            .wrapping_add(1_013_904_223);
        (self.state >> 16) as usize % count
    }
}

/// Appends bytes.
fn push(rt: &impl Abort, out: &mut Vec<u8>, bytes: &[u8]) {
    out.extend_from_slice(bytes).expect(rt, "memory");
}

/// Appends a message.
fn push_message(rt: &impl Abort, random: &mut Random, out: &mut Vec<u8>) {
    let (length, nl_type, flags, rest) = MESSAGES[random.below(14)];
    push(rt, out, &[length, 0, 0, 0, nl_type, 0]);
    push(rt, out, &flags.to_le_bytes());
    push(rt, out, &NUMBERS[random.below(8)].to_le_bytes());
    push(rt, out, &PORTS[random.below(16)].to_le_bytes());
    push(rt, out, rest);
}

/// A datagram of up to three messages and a tail.
fn datagram(rt: &impl Abort, alloc: Global, random: &mut Random) -> Command<u16, Buffer> {
    let mut bytes = Vec::new(alloc);
    for _ in 0..random.below(4) {
        push_message(rt, random, &mut bytes);
    }
    push(rt, &mut bytes, TAILS[random.below(16)]);
    let groups = Groups::new_bitmask(alloc, MASKS[random.below(8)]).expect(rt, "memory");
    Command::Datagram(bytes, groups)
}

/// A request of type 16.
fn request(rt: &impl Abort, alloc: Global, random: &mut Random) -> Command<u16, Buffer> {
    let body = Buffer::from_slice(alloc, BODIES[random.below(4)]).expect(rt, "memory");
    let flags = NlmF::from(FLAGS[random.below(8)]);
    Command::Send(16, flags, NlPayload::Payload(body))
}

/// A command of one of 32 kinds.
fn command(
    rt: &impl Abort,
    alloc: Global,
    random: &mut Random,
    kind: usize,
) -> Command<u16, Buffer> {
    match kind {
        0 | 1 => Command::SetNextSeq(NEXT[random.below(8)]),
        2..=4 => request(rt, alloc, random),
        5..=17 => datagram(rt, alloc, random),
        18 => Command::Fault(SocketError::Io(FAULTS[random.below(4)])),
        19 => Command::Close(random.below(5)),
        _ => Command::Read(READS[random.below(8)]),
    }
}

/// Two requests, and 22 commands.
fn script(rt: &impl Abort, alloc: Global, seed: u32) -> Vec<Command<u16, Buffer>> {
    let mut random = Random { state: seed };
    let mut commands = Vec::new(alloc);
    for place in 0..24 {
        let kind = random.below(32);
        let kind = if place < 2 { 2 } else { kind };
        let next = command(rt, alloc, &mut random, kind);
        commands.push(next).expect(rt, "memory");
    }
    commands
}

/// The kind of an outcome, as a place among the counts.
fn place_of(told: Told) -> usize
    ensures { result < 16 }
{
    match told {
        Told::Message(_, _, _) => 0,
        Told::Ack(_) => 1,
        Told::DumpEnd(_) => 2,
        Told::Stray(_, _) => 3,
        Told::Refused(_, _) => 4,
        Told::NoAck => 5,
        Told::UnexpectedAck => 6,
        Told::Short => 7,
        Told::Failed(_) => 8,
        Told::End => 9,
        Told::Waits => 10,
        Told::InUse(_) => 11,
        Told::Sent(_, _) => 12,
        Told::NoHandle => 13,
        Told::Done => 14,
        _ => 15,
    }
}

/// Counts the outcomes of each kind.
fn count(came: &[Came], counts: &mut [u32; 16]) {
    for outcome in came {
        let place = place_of(kind_of(outcome));
        counts[place] = counts[place].saturating_add(1);
    }
}

/// Plays the script of a seed over both stores, and asserts that the outcomes are equal.
fn compare(rt: &impl Abort, alloc: Global, seed: u32, counts: &mut [u32; 16]) {
    let plain = run::<Queues, u16, Buffer, u16, Buffer>(
        alloc,
        PORT,
        script(rt, alloc, seed),
    ).expect(rt, "memory");
    let shared = run::<Log, u16, Buffer, u16, Buffer>(alloc, PORT, script(rt, alloc, seed)).expect(
        rt, "memory",
    );
    assert_alike(rt, alloc, "a random script", &plain, &shared);
    count(&shared, counts);
}

/// The required count of each kind.
const ENOUGH: u32 = 500;

#[test]
fn ten_thousand_random_scripts_are_answered_alike(rt: HostRuntime) {
    let alloc = rt.alloc();
    let mut counts = [0; 16];
    for seed in 0..10000 {
        compare(&rt, alloc, seed, &mut counts);
    }
    assert!(rt; counts.iter().all(|count| *count >= ENOUGH), "{counts:?}");
}
