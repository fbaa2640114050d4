//! One message, and a whole datagram.

use super::kinds::{ERROR, words_in};
use super::support::{
    Raw, Refusal, assert_is, assert_is_at, numbers_of, raw_message, refusal_in, refusal_of,
};
use neli::consts::nl::{NlmF, Nlmsg};
use neli::err::{DeError, SocketError};
use neli::iter::{NlBufferIter, cut};
use neli::lent::LentMessages;
use neli::nl::{NlPayload, Nlmsghdr};
use neli::types::Buffer;
use neli::{Cursor, FromBytes};
use std::alloc::Global;
use std::process::Abort;

/// One message of type 1024 with the payload `61`, and three padding bytes of any value.
pub const ONE: [u8; 20] = [
    17, 0, 0, 0, 0, 4, 0, 0, 0, 0, 0, 0, 0, 0, 0, 0, 0x61, 0xff, 0xff, 0xff,
];

/// Bytes of a message, and its payload or why it is refused.
const MESSAGES: [(&str, &[u8], Result<&[u8], Refusal>); 8] = [
    (
        "no header",
        &[17, 0, 0, 0, 0, 4, 0, 0, 0, 0, 0, 0, 0, 0, 0],
        Err(Refusal::Short),
    ),
    (
        "a length below the header",
        &[15, 0, 0, 0, 0, 4, 0, 0, 0, 0, 0, 0, 0, 0, 0, 0],
        Err(Refusal::Input(15)),
    ),
    ("length 0", &[0; 16], Err(Refusal::Input(0))),
    (
        "an empty payload",
        &[16, 0, 0, 0, 16, 0, 0, 0, 0, 0, 0, 0, 0, 0, 0, 0],
        Ok(&[]),
    ),
    (
        "the largest length",
        &[
            255, 255, 255, 255, 16, 0, 0, 0, 0, 0, 0, 0, 0, 0, 0, 0, 0, 0, 0, 0,
        ],
        Err(Refusal::Input(4294967279)),
    ),
    (
        "a byte missing",
        &[17, 0, 0, 0, 0, 4, 0, 0, 0, 0, 0, 0, 0, 0, 0, 0],
        Err(Refusal::Input(1)),
    ),
    (
        "padding missing",
        &[17, 0, 0, 0, 0, 4, 0, 0, 0, 0, 0, 0, 0, 0, 0, 0, 0x61],
        Err(Refusal::Short),
    ),
    ("padding of any value", &ONE, Ok(&[0x61])),
];

#[test]
fn one_message_is_read_or_refused(rt: HostRuntime) {
    for (row, bytes, want) in MESSAGES {
        let mut cursor = Cursor::new(bytes);
        let read = Raw::from_bytes(rt.alloc(), &mut cursor);
        let place = cursor.position();
        assert_is_at(&rt, row, body_of(&read), want);
        let end = if want.is_ok() { bytes.len() } else { 0 };
        assert_is_at(&rt, row, place, end);
    }
}

/// The message of [`ONE`], and the same without its padding.
const CUT_OFF: [u8; 37] = [
    17, 0, 0, 0, 0, 4, 0, 0, 0, 0, 0, 0, 0, 0, 0, 0, 0x61, 0xff, 0xff, 0xff, //
    17, 0, 0, 0, 0, 4, 0, 0, 0, 0, 0, 0, 0, 0, 0, 0, 0x61,
];

// A fault is in the last 17 bytes.
#[test]
fn a_reader_says_where_it_stands(rt: HostRuntime) {
    let mut owned: NlBufferIter<'_, u16, Buffer> = NlBufferIter::new(&CUT_OFF);
    let mut lent = LentMessages::<'_, u16>::new(&CUT_OFF);
    for (row, rest, is_whole) in [("first", 37, true), ("fault", 17, false), ("end", 0, false)] {
        assert_is_at(
            &rt,
            row,
            (owned.rest().len(), lent.rest().len()),
            (rest, rest),
        );
        let read = (owned.next(rt.alloc()), lent.next());
        let whole = (matches!(read.0, Some(Ok(_))), matches!(read.1, Some(Ok(_))));
        assert_is_at(&rt, row, whole, (is_whole, is_whole));
    }
}

/// The payload that was read, or why it is refused.
fn body_of(read: &Result<Raw, DeError>) -> Result<&[u8], Refusal> {
    match read {
        Ok(message) => match message.get_payload() {
            Some(body) => Ok(body.as_ref()),
            None => Err(Refusal::Other),
        },
        Err(error) => Err(refusal_of(error)),
    }
}

/// A request to the generic netlink controller: its command and one attribute, the name `nlctrl`.
const REQUEST: [u8; 32] = [
    32, 0, 0, 0, 16, 0, 5, 0, 0, 0, 0, 0, 0, 0, 0, 0, 3, 2, 0, 0, 11, 0, 2, 0, 0x6e, 0x6c, 0x63,
    0x74, 0x72, 0x6c, 0, 0,
];

/// The next item of a datagram: the numbers in a message's header, or why there is no message.
type Item = Option<Result<[u32; 4], Refusal>>;

fn item_of<T: Drop, P: Drop>(item: Option<Result<Nlmsghdr<T, P>, SocketError>>) -> Item {
    match &item {
        None => None,
        Some(Ok(message)) => Some(Ok(numbers_of(message))),
        Some(Err(SocketError::De(error))) => Some(Err(refusal_of(error))),
        Some(Err(_)) => Some(Err(Refusal::Other)),
    }
}

/// Asserts that the message has this refusal, and that the cursor stays; a datagram of these bytes has only this fault.
fn assert_refused(rt: &impl Abort, alloc: Global, bytes: &[u8], want: Refusal) {
    let mut cursor = Cursor::new(bytes);
    let refusal = refusal_in(Raw::from_bytes(alloc, &mut cursor));
    assert_is_at(rt, bytes, refusal, Some(want));
    assert_is_at(rt, bytes, cursor.position(), 0);
    let mut messages: NlBufferIter<'_, u16, Buffer> = NlBufferIter::new(bytes);
    let fault = item_of(messages.next(alloc));
    let rest = item_of(messages.next(alloc));
    assert_is_at(rt, bytes, [fault, rest], [Some(Err(want)), None]);
}

/// Messages, and the count of payload bytes that the refusal names if the header is complete.
const CUT: [(&[u8], usize); 2] = [(&ERROR, 36), (&REQUEST, 16)];

#[test]
fn a_message_that_is_cut_is_refused(rt: HostRuntime) {
    for (bytes, missed) in CUT {
        for k in 1..bytes.len() {
            let want = if k < 16 {
                Refusal::Short
            } else {
                Refusal::Input(missed)
            };
            assert_refused(&rt, rt.alloc(), &bytes[..k], want);
        }
    }
}

/// The place in [`ERROR`] of the echoed message's length.
const ECHO: usize = 20;

/// The place of its attribute's length and type.
const ATTRIBUTE: usize = 44;

/// [`ERROR`] with other bytes at one of these places.
fn changed(rt: &impl Abort, place: usize, number: [u8; 4]) -> [u8; 52] {
    let mut bytes = ERROR;
    assert!(rt; place <= 48);
    bytes[place..place + 4].copy_from_slice(&number);
    bytes
}

/// Lengths that are wrong: the place, the bytes there, and why the message is refused.
const LENGTHS: [(usize, [u8; 4], Refusal); 5] = [
    // An echoed length below that of a header, and the largest one.
    (ECHO, [15, 0, 0, 0], Refusal::Input(15)),
    (ECHO, [255, 255, 255, 255], Refusal::Input(4294967279)),
    // An attribute's length below that of its header, and one byte past the message.
    (ATTRIBUTE, [3, 0, 1, 0], Refusal::Input(3)),
    (ATTRIBUTE, [9, 0, 1, 0], Refusal::Input(5)),
    // An attribute without a payload: `ba` is the length of the next one, 24930.
    (ATTRIBUTE, [4, 0, 1, 0], Refusal::Input(24926)),
];

#[test]
fn an_error_with_a_wrong_length_is_refused(rt: HostRuntime) {
    for (place, number, want) in LENGTHS {
        assert_refused(&rt, rt.alloc(), &changed(&rt, place, number), want);
    }
}

// The fourth byte is padding then.
#[test]
fn an_attribute_of_three_bytes_is_read(rt: HostRuntime) {
    let bytes = changed(&rt, ATTRIBUTE, [7, 0, 1, 0]);
    let message = raw_message(&rt, rt.alloc(), &bytes);
    let words = words_in(&rt, rt.alloc(), &message);
    assert_is(&rt, words.as_slice(), b"bad".as_slice());
}

/// A datagram of the end of a dump, the message [`ONE`], and nine zeros.
const DATAGRAM: [u8; 45] = [
    16, 0, 0, 0, 3, 0, 2, 0xf0, 5, 0, 0, 0, 7, 0, 0, 0, //
    17, 0, 0, 0, 0, 4, 0, 0, 0, 0, 0, 0, 0, 0, 0, 0, 0x61, 0xff, 0xff, 0xff, //
    0, 0, 0, 0, 0, 0, 0, 0, 0,
];

/// The ends of [`DATAGRAM`], and the fault before them.
const ENDS: [(&str, usize, Item); 2] = [
    ("nothing after it", 36, None),
    ("zeros after it", 45, Some(Err(Refusal::Short))),
];

type Messages<'b> = NlBufferIter<'b, u16, Vec<u8>>;

/// Asserts that the next message is the end of a dump in [`DATAGRAM`].
fn assert_done(rt: &impl Abort, alloc: Global, row: &str, messages: &mut Messages<'_>) {
    let first = messages.next_typed::<Nlmsg, Vec<u16>>(alloc);
    let first = first.expect(rt, "a message").expect(rt, row);
    assert_is_at(rt, row, *first.nl_type(), Nlmsg::Done);
    assert_is_at(rt, row, numbers_of(&first), [16, 0xf002, 5, 7]);
    assert!(rt; matches!(first.nl_payload(), NlPayload::Empty), "{row}");
}

#[test]
fn a_datagram_has_two_messages_and_ends_or_has_one_fault(rt: HostRuntime) {
    let alloc = rt.alloc();
    for (row, end, fault) in ENDS {
        let mut messages = Messages::new(DATAGRAM.get(..end).expect(&rt, row));
        assert_done(&rt, alloc, row, &mut messages);
        let second = item_of(messages.next(alloc));
        let third = item_of(messages.next(alloc));
        let rest = item_of(messages.next(alloc));
        let typed = item_of(messages.next_typed::<Nlmsg, Vec<u8>>(alloc));
        assert_is_at(&rt, row, second, Some(Ok([17, 0, 0, 0])));
        assert_is_at(&rt, row, [third, rest, typed], [fault, None, None]);
    }
}

// A body of two numbers has no room in one byte; its padding is missed after that.
#[test]
fn a_payload_is_refused_before_its_padding_is_missed(rt: HostRuntime) {
    let mut messages: NlBufferIter<'_, u16, Vec<u16>> = NlBufferIter::new(&ONE[..17]);
    let item = item_of(messages.next(rt.alloc()));
    assert_is(&rt, item, Some(Err(Refusal::Input(1))));
}

#[test]
fn a_datagram_is_cut(rt: HostRuntime) {
    for (row, end, count, fault) in [
        ("nothing", 0, 0, false),
        ("15 bytes", 15, 0, true),
        ("all", 20, 1, false),
    ] {
        let (messages, found): (Vec<Raw>, Option<DeError>) = cut(rt.alloc(), &ONE[..end]).expect(
            &rt, "messages",
        );
        assert_is_at(&rt, row, messages.len(), count);
        assert_is_at(&rt, row, found.is_some(), fault);
    }
}
