//! Many requests at once: each reply in a datagram of its own, and each handle reads its own. Thousands of deliveries
//! that wait for one handle: in datagrams above 64 KB, above a megabyte in all, by a run of thousands of commands.

use super::entries::kept;
use super::script::{Told, kind_of, kind_once};
use super::steps::Asker;
use super::support::assert_is_at;
use neli::consts::nl::NlmF;
use neli::nl::NlPayload;
use neli::router::synchronous::{Command, Deliveries, Log, Queues, run};
use neli::types::Buffer;
use neli::utils::Groups;
use std::alloc::Global;
use std::process::Abort;

/// A message of type 16 with this number, to port 0: its 16 bytes.
fn reply(number: u32) -> [u8; 16] {
    let [a, b, c, d] = number.to_le_bytes();
    [16, 0, 0, 0, 16, 0, 0, 0, a, b, c, d, 0, 0, 0, 0]
}

/// Sends an empty request of type 16, which gets this number.
fn send<D: Deliveries>(rt: &impl Abort, alloc: Global, asker: &mut Asker<D>, number: u32) {
    let came = asker.send(alloc, 16, 0, "").expect(rt, "memory");
    assert_is_at(rt, number, kind_once(came), Told::Sent(number, 0));
}

/// Hands in the reply to the request of this number.
fn answer<D: Deliveries>(rt: &impl Abort, alloc: Global, asker: &mut Asker<D>, number: u32) {
    asker.hand_in(alloc, &reply(number), 0).expect(rt, "memory");
}

/// Reads the handle of the request of this number, which has to give its reply.
fn read<D: Deliveries>(rt: &impl Abort, alloc: Global, asker: &mut Asker<D>, number: u32) {
    let k = (number as usize).wrapping_add(1);
    assert_is_at(rt, number, asker.number(k), Some(number));
    let came = asker.read(alloc, k).expect(rt, "memory");
    assert_is_at(rt, number, kind_once(came), Told::Message(16, number, 0));
}

/// Sends so many requests, hands in their replies, and reads each from its handle.
fn round<D: Deliveries>(rt: &impl Abort, alloc: Global, count: u32) {
    let mut asker = Asker::<D>::new(rt, alloc, 0);
    for number in 0..count {
        send(rt, alloc, &mut asker, number);
    }
    for number in 0..count {
        answer(rt, alloc, &mut asker, number);
    }
    for number in 0..count {
        read(rt, alloc, &mut asker, number);
    }
}

#[test]
fn thousands_of_requests_have_their_replies(rt: HostRuntime) {
    round::<Queues>(&rt, rt.alloc(), 20000);
    round::<Log>(&rt, rt.alloc(), 20000);
}

/// So many datagrams of so many messages, each with so many bytes in its body, for the groups of a mask; and the handle
/// that gets them.
#[derive(Clone, Copy, Debug)]
struct Load {
    datagrams: u16,
    messages: u16,
    body: u16,
    mask: u32,
    handle: usize,
}

/// Small messages for a request and for multicast, in datagrams of 68000 bytes; and messages of 65548 bytes.
const LOADS: [Load; 3] = [
    Load {
        datagrams: 20,
        messages: 250,
        body: 256,
        mask: 0,
        handle: 1,
    },
    Load {
        datagrams: 20,
        messages: 250,
        body: 256,
        mask: 1,
        handle: 0,
    },
    Load {
        datagrams: 20,
        messages: 1,
        body: 65532,
        mask: 0,
        handle: 1,
    },
];

impl Load {
    /// The number of messages.
    fn count(self) -> usize {
        (self.datagrams as usize).saturating_mul(self.messages as usize)
    }

    /// The number of bytes.
    fn byte_count(self) -> usize {
        (self.body as usize)
            .saturating_add(16)
            .saturating_mul(self.count())
    }

    /// A datagram: messages with the number 0, to port 0 and with the flag MULTI. Their types count up from 16, through
    /// all datagrams.
    fn datagram(self, rt: &impl Abort, alloc: Global, place: u16) -> Vec<u8> {
        let length = (self.body as u32).saturating_add(16).to_le_bytes();
        let first = place.wrapping_mul(self.messages).wrapping_add(16);
        let mut bytes = Vec::new(alloc);
        for k in 0..self.messages {
            let [low, high] = first.wrapping_add(k).to_le_bytes();
            bytes.extend_from_slice(&length).expect(rt, "memory");
            bytes
                .extend_from_slice(&[low, high, 2, 0, 0, 0, 0, 0, 0, 0, 0, 0])
                .expect(rt, "memory");
            let end = bytes.len().saturating_add(self.body as usize);
            bytes.resize(end, low).expect(rt, "memory");
        }
        bytes
    }
}

/// A request of type 16, the datagrams of a load, a read for each message, and one more.
fn commands(rt: &impl Abort, alloc: Global, load: Load) -> Vec<Command<u16, Buffer>> {
    let mut commands = Vec::new(alloc);
    let request = Command::Send(16, NlmF::from(0), NlPayload::Empty);
    commands.push(request).expect(rt, "memory");
    for place in 0..load.datagrams {
        let groups = Groups::new_bitmask(alloc, load.mask).expect(rt, "memory");
        let next = Command::Datagram(load.datagram(rt, alloc, place), groups);
        commands.push(next).expect(rt, "memory");
    }
    for _ in 0..=load.count() {
        commands
            .push(Command::Read(load.handle))
            .expect(rt, "memory");
    }
    commands
}

/// Asserts that a run over this store gives each message of a load in its turn, and then waits.
fn assert_read<D: Deliveries>(rt: &impl Abort, alloc: Global, load: Load) {
    let commands = commands(rt, alloc, load);
    let (count, before) = (commands.len(), (load.datagrams as usize).saturating_add(1));
    let came = run::<D, u16, Buffer, u16, Buffer>(alloc, 0, commands).expect(rt, "memory");
    let mut nl_type = 16u16;
    for outcome in came.iter().skip(before).take(load.count()) {
        let want = Told::Message(nl_type, 0, load.body as usize);
        assert_is_at(rt, load, kind_of(outcome), want);
        nl_type = nl_type.wrapping_add(1);
    }
    let last = came.last().map(kind_of);
    assert_is_at(rt, load, (came.len(), last), (count, Some(Told::Waits)));
}

/// Asserts that the log keeps each message of a load once, and all bytes.
fn assert_kept(rt: &impl Abort, alloc: Global, load: Load) {
    let mut asker = Asker::<Log>::new(rt, alloc, 0);
    send(rt, alloc, &mut asker, 0);
    for place in 0..load.datagrams {
        let bytes = load.datagram(rt, alloc, place);
        asker.hand_in(alloc, &bytes, load.mask).expect(rt, "memory");
    }
    let want = [load.count(), load.byte_count()];
    assert_is_at(rt, load, kept(&asker), want);
}

#[test]
fn thousands_of_deliveries_wait_for_a_handle(rt: HostRuntime) {
    for load in LOADS {
        assert_read::<Queues>(&rt, rt.alloc(), load);
        assert_read::<Log>(&rt, rt.alloc(), load);
        assert_kept(&rt, rt.alloc(), load);
    }
}
