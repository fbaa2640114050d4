//! The kinds of payload, by type, flags, code and length.

use super::support::{
    Raw, RawError, Refusal, assert_is, assert_is_at, error_in, lent_message, raw_message,
    refusal_in, refusal_of,
};
use neli::consts::nl::{NlmF, NlmsgerrAttr};
use neli::err::{DeError, Nlmsgerr, NlmsghdrAck, NlmsghdrErr};
use neli::iter::cut;
use neli::nl::NlPayload;
use neli::short::ReadBody;
use neli::types::Buffer;
use neli::{Cursor, FromBytes, FromBytesWithInput};
use std::alloc::Global;
use std::fmt::Debug;
use std::process::Abort;

/// The kind of a payload with its code, and how many attributes or bytes it has.
#[derive(Clone, Copy, Debug, PartialEq, Eq)]
enum Kind {
    /// The length and the type that the echoed header states, and how many attributes there are.
    Ack(u32, u16, usize),
    /// The code, the length that the echoed header states, and how many attributes there are.
    Capped(i32, u32, usize),
    Done(i32, usize),
    Error(i32, usize, usize),
    Body(usize),
    Empty,
}

fn kind_of(payload: &NlPayload<u16, Buffer>) -> Kind {
    match payload {
        NlPayload::Ack(answer) => {
            let header = answer.nlmsg();
            Kind::Ack(*header.nl_len(), *header.nl_type(), answer.ext_ack().len())
        }
        NlPayload::Capped(answer) => Kind::Capped(
            *answer.error(),
            *answer.nlmsg().nl_len(),
            answer.ext_ack().len(),
        ),
        NlPayload::DumpExtAck(answer) => Kind::Done(*answer.error(), answer.ext_ack().len()),
        NlPayload::Err(answer) => {
            let echo = answer.nlmsg();
            Kind::Error(
                *answer.error(),
                echo.nl_payload().len(),
                answer.ext_ack().len(),
            )
        }
        NlPayload::Payload(body) => Kind::Body(body.len()),
        NlPayload::Empty => Kind::Empty,
    }
}

/// The first message's kind, or the fault that is there in its place.
fn first_kind(rt: &impl Abort, alloc: Global, bytes: &[u8]) -> Result<Kind, Refusal> {
    let (messages, fault) = cut::<u16, Buffer>(alloc, bytes).expect(rt, "memory");
    if let Some(error) = &fault {
        return Err(refusal_of(error));
    }
    let first = messages.first().expect(rt, "a message");
    Ok(kind_of(first.nl_payload()))
}

/// An error of code -22 that echoes a message of 21 bytes, with the text `bad`.
pub const ERROR: [u8; 52] = [
    0x34, 0, 0, 0, 2, 0, 0, 2, 0, 0, 0, 0, 0, 0, 0, 0, 0xea, 0xff, 0xff, 0xff, 0x15, 0, 0, 0, 0, 4,
    5, 0, 0, 0, 0, 0, 0, 0, 0, 0, 0x61, 0x62, 0x63, 0x64, 0x65, 0, 0, 0, 8, 0, 1, 0, 0x62, 0x61,
    0x64, 0,
];

/// A capped error of code -22, of a request of 32 bytes, with the text `bad`; its flags are CAPPED and ACK_TLVS.
pub const CAPPED: [u8; 44] = [
    0x2c, 0, 0, 0, 2, 0, 0, 3, 0, 0, 0, 0, 0, 0, 0, 0, 0xea, 0xff, 0xff, 0xff, 0x20, 0, 0, 0, 0x10,
    0, 5, 0, 0, 0, 0, 0, 0, 0, 0, 0, 8, 0, 1, 0, 0x62, 0x61, 0x64, 0,
];

/// Messages, each with the kind of its payload or why it is refused.
const PAYLOADS: [(&str, &[u8], Result<Kind, Refusal>); 17] = [
    (
        "an acknowledgement",
        &[
            0x24, 0, 0, 0, 2, 0, 0, 1, 0, 0, 0, 0, 0, 0, 0, 0, 0, 0, 0, 0, 0x20, 0, 0, 0, 16, 0, 5,
            0, 0, 0, 0, 0, 0, 0, 0, 0,
        ],
        Ok(Kind::Ack(32, 16, 0)),
    ),
    (
        "one with a tail of any bytes",
        &[
            0x28, 0, 0, 0, 2, 0, 0, 1, 0, 0, 0, 0, 0, 0, 0, 0, 0, 0, 0, 0, 0x20, 0, 0, 0, 16, 0, 5,
            0, 0, 0, 0, 0, 0, 0, 0, 0, 3, 0, 1, 0,
        ],
        Ok(Kind::Ack(32, 16, 0)),
    ),
    (
        "one with an attribute of length 3",
        &[
            0x28, 0, 0, 0, 2, 0, 0, 3, 0, 0, 0, 0, 0, 0, 0, 0, 0, 0, 0, 0, 0x20, 0, 0, 0, 16, 0, 5,
            0, 0, 0, 0, 0, 0, 0, 0, 0, 3, 0, 1, 0,
        ],
        Err(Refusal::Input(3)),
    ),
    (
        "one with an attribute",
        &[
            0x2c, 0, 0, 0, 2, 0, 0, 3, 0, 0, 0, 0, 0, 0, 0, 0, 0, 0, 0, 0, 0x20, 0, 0, 0, 16, 0, 5,
            0, 0, 0, 0, 0, 0, 0, 0, 0, 8, 0, 1, 0, 0x62, 0x61, 0x64, 0,
        ],
        Ok(Kind::Ack(32, 16, 1)),
    ),
    (
        "a capped error with an attribute",
        &CAPPED,
        Ok(Kind::Capped(-22, 32, 1)),
    ),
    (
        "a capped error without ACK_TLVS, whose tail is not read",
        &[
            0x2c, 0, 0, 0, 2, 0, 0, 1, 0, 0, 0, 0, 0, 0, 0, 0, 0xea, 0xff, 0xff, 0xff, 0x20, 0, 0,
            0, 16, 0, 5, 0, 0, 0, 0, 0, 0, 0, 0, 0, 8, 0, 1, 0, 0x62, 0x61, 0x64, 0,
        ],
        Ok(Kind::Capped(-22, 32, 0)),
    ),
    (
        "a capped error with an attribute of length 3",
        &[
            0x2c, 0, 0, 0, 2, 0, 0, 3, 0, 0, 0, 0, 0, 0, 0, 0, 0xea, 0xff, 0xff, 0xff, 0x20, 0, 0,
            0, 16, 0, 5, 0, 0, 0, 0, 0, 0, 0, 0, 0, 3, 0, 1, 0, 0x62, 0x61, 0x64, 0,
        ],
        Err(Refusal::Input(3)),
    ),
    (
        "the end of a dump",
        &[
            0x14, 0, 0, 0, 3, 0, 2, 0, 0, 0, 0, 0, 0, 0, 0, 0, 0, 0, 0, 0,
        ],
        Ok(Kind::Done(0, 0)),
    ),
    (
        "an end with a code and an attribute",
        &[
            0x1c, 0, 0, 0, 3, 0, 2, 0, 0, 0, 0, 0, 0, 0, 0, 0, 0xea, 0xff, 0xff, 0xff, 8, 0, 1, 0,
            0x62, 0x61, 0x64, 0,
        ],
        Ok(Kind::Done(-22, 1)),
    ),
    (
        "an end without bytes",
        &[0x10, 0, 0, 0, 3, 0, 0, 0, 0, 0, 0, 0, 0, 0, 0, 0],
        Ok(Kind::Empty),
    ),
    (
        "type 3 without MULTI",
        &[
            0x14, 0, 0, 0, 3, 0, 0, 0, 0, 0, 0, 0, 0, 0, 0, 0, 0, 0, 0, 0,
        ],
        Ok(Kind::Body(4)),
    ),
    (
        "an end of two bytes",
        &[
            0x12, 0, 0, 0, 3, 0, 2, 0, 0, 0, 0, 0, 0, 0, 0, 0, 0, 0, 0, 0,
        ],
        Err(Refusal::Input(2)),
    ),
    (
        "an error of four bytes",
        &[
            0x14, 0, 0, 0, 2, 0, 0, 0, 0, 0, 0, 0, 0, 0, 0, 0, 0, 0, 0, 0,
        ],
        Err(Refusal::Input(4)),
    ),
    (
        "an error with an attribute",
        &ERROR,
        Ok(Kind::Error(-22, 5, 1)),
    ),
    (
        "an error that echoes less than it states",
        &[
            0x24, 0, 0, 0, 2, 0, 0, 0, 0, 0, 0, 0, 0, 0, 0, 0, 0xea, 0xff, 0xff, 0xff, 0x20, 0, 0,
            0, 16, 0, 5, 0, 0, 0, 0, 0, 0, 0, 0, 0,
        ],
        Err(Refusal::Input(16)),
    ),
    (
        "one that is capped",
        &[
            0x24, 0, 0, 0, 2, 0, 0, 1, 0, 0, 0, 0, 0, 0, 0, 0, 0xea, 0xff, 0xff, 0xff, 0x20, 0, 0,
            0, 16, 0, 5, 0, 0, 0, 0, 0, 0, 0, 0, 0,
        ],
        Ok(Kind::Capped(-22, 32, 0)),
    ),
    (
        "an error that echoes a length below a header's",
        &[
            0x24, 0, 0, 0, 2, 0, 0, 0, 0, 0, 0, 0, 0, 0, 0, 0, 0xea, 0xff, 0xff, 0xff, 15, 0, 0, 0,
            16, 0, 5, 0, 0, 0, 0, 0, 0, 0, 0, 0,
        ],
        Err(Refusal::Input(15)),
    ),
];

#[test]
fn a_payload_is_of_its_kind(rt: HostRuntime) {
    for (row, bytes, want) in PAYLOADS {
        assert_is_at(&rt, row, first_kind(&rt, rt.alloc(), bytes), want);
    }
}

// A lent message has the body of the owned one: none where its payload is of another kind, also where that is refused.
#[test]
fn a_lent_payload_is_a_body_by_its_kind(rt: HostRuntime) {
    for (row, bytes, kind) in PAYLOADS {
        let message = lent_message::<u16>(&rt, bytes);
        let want = match kind {
            Ok(Kind::Body(_)) => Some(&bytes[16..]),
            _ => None,
        };
        assert_is_at(&rt, row, message.body_bytes(), want);
    }
}

/// The words of the error that the message carries.
pub fn words_in(rt: &impl Abort, alloc: Global, message: &Raw) -> Vec<u8> {
    error_in(rt, message)
        .ext_ack()
        .get_attr_handle()
        .get_attr_payload_as_with_len(alloc, NlmsgerrAttr::Msg)
        .expect(rt, "words")
}

#[test]
fn an_error_has_its_echo_and_its_attributes(rt: HostRuntime) {
    let message = raw_message(&rt, rt.alloc(), &ERROR);
    let echo = error_in(&rt, &message).nlmsg();
    let numbers = [*echo.nl_len(), *echo.nl_seq(), *echo.nl_pid()];
    assert_is(&rt, numbers, [21, 0, 0]);
    let numbers = [*echo.nl_type(), u16::from(*echo.nl_flags())];
    assert_is(&rt, numbers, [1024, 5]);
    assert_is(&rt, echo.nl_payload().as_ref(), b"abcde".as_slice());
    let words = words_in(&rt, rt.alloc(), &message);
    assert_is(&rt, words.as_slice(), b"bad\0".as_slice());
}

/// The bytes of [`ERROR`] from this place on.
fn error_from(rt: &impl Abort, place: usize) -> Cursor<'static> {
    let mut cursor = Cursor::new(&ERROR);
    assert!(rt; place <= ERROR.len());
    cursor.set_position(place);
    cursor
}

/// A payload that is read by itself.
type Read = Result<NlPayload<u16, Buffer>, DeError>;

// What follows the place of each part: the payload of `ERROR` by itself, its first 20 bytes, and its echo.
#[test]
fn payloads_are_read_by_themselves(rt: HostRuntime) {
    let mut cursor = error_from(&rt, 16);
    let read: Read = NlPayload::from_parts(rt.alloc(), &mut cursor, 2, NlmF::empty(), 36);
    let kind = kind_of(&read.expect(&rt, "a payload"));
    assert_is(&rt, kind, Kind::Error(-22, 5, 1));
    assert_is(&rt, cursor.position(), 52);
    // Past the bytes.
    let mut cursor = error_from(&rt, 44);
    let read: Read = NlPayload::from_parts(rt.alloc(), &mut cursor, 16, NlmF::empty(), 9);
    assert_is(&rt, refusal_in(read), Some(Refusal::Input(9)));
}

/// Asserts the code of an error, and how many attributes it has.
pub fn assert_error<M: Drop, E: Debug + Drop>(
    rt: &impl Abort,
    read: Result<Nlmsgerr<M>, E>,
    code: i32,
    count: usize,
) {
    let error = read.expect(rt, "an error");
    assert_is(rt, *error.error(), code);
    assert_is(rt, error.ext_ack().len(), count);
}

#[test]
fn errors_are_read_by_themselves(rt: HostRuntime) {
    let alloc = rt.alloc();
    let error: Result<RawError, DeError> = Nlmsgerr::from_bytes_with_input(
        alloc,
        &mut error_from(&rt, 16),
        36,
    );
    assert_error(&rt, error, -22, 1);
    let end: Result<Nlmsgerr<()>, DeError> = Nlmsgerr::from_bytes_with_input(
        alloc,
        &mut error_from(&rt, 40),
        12,
    );
    assert_error(&rt, end, 0x65, 1);
    let read = Nlmsgerr::from_bytes_with_input(alloc, &mut error_from(&rt, 16), 36);
    let ack: Nlmsgerr<NlmsghdrAck<u16>> = read.expect(&rt, "an acknowledgement");
    assert_is(&rt, *ack.nlmsg().nl_len(), 21);
    assert_is(&rt, ack.ext_ack().len(), 0);
}

#[test]
fn echoes_are_read_by_themselves(rt: HostRuntime) {
    let alloc = rt.alloc();
    let read = NlmsghdrAck::<u16>::from_bytes(alloc, &mut error_from(&rt, 20));
    let header = read.expect(&rt, "a header");
    assert_is(&rt, *header.nl_len(), 21);
    assert_is(&rt, *header.nl_type(), 1024);
    let mut cursor = error_from(&rt, 20);
    let read = NlmsghdrErr::<u16, Buffer>::from_bytes(alloc, &mut cursor);
    let echo = read.expect(&rt, "an echo");
    assert_is(&rt, echo.nl_payload().len(), 5);
    assert_is(&rt, cursor.position(), 44);
}
