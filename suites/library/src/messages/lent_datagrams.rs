//! Datagrams, good and bad, each read lent and as owned messages: the same messages, and the same fault.

use super::support::{Raw, Refusal, assert_is_at, lent_numbers, numbers_of, refusal_of};
use neli::err::DeError;
use neli::iter::cut;
use neli::lent::LentMessages;
use std::alloc::Global;
use std::process::Abort;

/// A datagram in hexadecimal digits, how many messages it has, and the fault after them.
type Row = (&'static str, &'static str, usize, Option<Refusal>);

const ROWS: [Row; 12] = [
    ("nothing", "", 0, None),
    ("one message", "10000000100002f00500000007000000", 1, None),
    (
        "padding of any value",
        "1100000000040000000000000000000061ffffff",
        1,
        None,
    ),
    (
        "15 bytes",
        "110000000004000000000000000000",
        0,
        Some(Refusal::Short),
    ),
    (
        "length 15",
        "0f000000000400000000000000000000",
        0,
        Some(Refusal::Input(15)),
    ),
    (
        "a length past the bytes",
        "1500000000040000000000000000000061626364",
        0,
        Some(Refusal::Input(5)),
    ),
    (
        "length 0xffffffff",
        "ffffffff000400000000000000000000000000ff",
        0,
        Some(Refusal::Input(4294967279)),
    ),
    (
        "padding missing",
        "1100000000040000000000000000000061",
        0,
        Some(Refusal::Short),
    ),
    (
        "five zeros after a message",
        "1100000000040000000000000000000061ffffff0000000000",
        1,
        Some(Refusal::Short),
    ),
    (
        "16 zeros after a message",
        "1000000010000000000000000000000000000000000000000000000000000000",
        1,
        Some(Refusal::Input(0)),
    ),
    (
        "two messages",
        "10000000100002f005000000070000001100000000040000000000000000000061000000",
        2,
        None,
    ),
    (
        "two messages, then a short rest",
        "10000000100002f00500000007000000110000000004000000000000000000006100000010000000",
        2,
        Some(Refusal::Short),
    ),
];

#[test]
fn lent_and_owned_messages_are_the_same(rt: HostRuntime) {
    for (row, datagram, count, fault) in ROWS {
        let bytes = hex::decode(rt.alloc(), datagram).expect(&rt, row);
        let (messages, owned_fault) = owned(&rt, rt.alloc(), &bytes);
        assert_is_at(&rt, row, messages.len(), count);
        assert_is_at(&rt, row, owned_fault, fault);
        assert_all_same(&rt, row, &bytes, &messages, fault);
    }
}

/// The messages of the bytes as owned ones, and the fault after them.
fn owned(rt: &impl Abort, alloc: Global, bytes: &[u8]) -> (Vec<Raw>, Option<Refusal>) {
    let (messages, fault): (Vec<Raw>, Option<DeError>) = cut(alloc, bytes).expect(rt, "memory");
    match &fault {
        None => (messages, None),
        Some(error) => (messages, Some(refusal_of(error))),
    }
}

/// Asserts that a walk of the bytes returns the same messages as reading owned ones, then the fault once, and then
/// nothing.
fn assert_all_same(
    rt: &impl Abort,
    row: &str,
    bytes: &[u8],
    messages: &[Raw],
    fault: Option<Refusal>,
) {
    let mut lent = LentMessages::<'_, u16>::new(bytes);
    for owned in messages {
        let message = lent.next().expect(rt, "a message less");
        let message = message.expect(rt, row);
        assert_is_at(rt, row, *message.nl_type(), *owned.nl_type());
        assert_is_at(rt, row, lent_numbers(&message), numbers_of(owned));
        let header = message.header();
        assert_is_at(rt, row, *header.nl_len(), *owned.nl_len());
        assert_is_at(rt, row, *header.nl_seq(), *owned.nl_seq());
        let payload = owned.get_payload().expect(rt, "a payload");
        assert_is_at(rt, row, message.nl_payload(), payload.as_ref());
    }
    if let Some(last) = lent.next() {
        let refusal = last.err().expect(rt, "a message more");
        assert_is_at(rt, row, Some(refusal_of(&refusal)), fault);
    } else {
        assert_is_at(rt, row, None, fault);
    }
    assert!(rt; lent.next().is_none(), "{row}: a fault comes once");
}
