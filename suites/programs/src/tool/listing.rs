//! The lines of datagrams.

use super::support::{assert_is, assert_is_at, assert_prints, decoded};
use neli_lent::LentMessages;
use neli_program::line::{Ending, Line, RawMessage};
use neli_program::listing::{list, read_line, write_ending, write_lines};
use neli_program::status::Status;
use neli_reader::NlBufferIter;
use neli_wire::Cursor;
use std::alloc::Global;
use std::process::Abort;

/// A message of type 1024 with the payload `61`, and three padding bytes of any value.
const ONE: &str = "1100000000040000000000000000000061ffffff";

const ONE_LINE: &str = "type 1024 flags 0x0000 number 0 port 0 payload 1\n";

/// A datagram with its name, its printed lines, and its end.
pub type Row = (&'static str, &'static str, &'static str, Status);

/// Datagrams of messages.
pub const DATAGRAMS: [Row; 9] = [
    ("nothing", "", "", Status::Whole),
    ("a payload of one byte", ONE, ONE_LINE, Status::Whole),
    (
        "flags without a name, and a second message",
        "10000000100002f005000000070000001100000000040000000000000000000061ffffff",
        "type 16 flags 0xf002 number 5 port 7 payload 0\n\
            type 1024 flags 0x0000 number 0 port 0 payload 1\n",
        Status::Whole,
    ),
    (
        "five zeros after a message",
        "1100000000040000000000000000000061ffffff0000000000",
        "type 1024 flags 0x0000 number 0 port 0 payload 1\nfault: short\n",
        Status::Fault,
    ),
    (
        "15 bytes",
        "110000000004000000000000000000",
        "fault: short\n",
        Status::Fault,
    ),
    (
        "a length below the header",
        "0f000000000400000000000000000000",
        "fault: input 15\n",
        Status::Fault,
    ),
    (
        "a length past the bytes",
        "ffffffff000400000000000000000000000000ff",
        "fault: input 4294967279\n",
        Status::Fault,
    ),
    (
        "an end of a dump whose attribute has a length of 3, and no padding",
        "19000000030002000000000000000000000000000300010000",
        "fault: input 3\n",
        Status::Fault,
    ),
    (
        "padding missing",
        "1100000000040000000000000000000061",
        "fault: short\n",
        Status::Fault,
    ),
];

/// Errors, acknowledgements and ends of dumps.
pub const ANSWERS: [Row; 14] = [
    (
        "a capped error",
        "240000000200000100000000000000\
            00eaffffff20000000100005000000000000000000",
        "type 2 flags 0x0100 number 0 port 0 capped -22 attributes 0\n",
        Status::Whole,
    ),
    (
        "one with an attribute",
        "2c0000000200000300000000000000\
            00eaffffff200000001000050000000000000000000800010062616400",
        "type 2 flags 0x0300 number 0 port 0 capped -22 attributes 1\n",
        Status::Whole,
    ),
    (
        "one with bytes that are not read",
        "2c0000000200000100000000000000\
            00eaffffff200000001000050000000000000000000800010062616400",
        "type 2 flags 0x0100 number 0 port 0 capped -22 attributes 0\n",
        Status::Whole,
    ),
    (
        "one with an attribute of length 3",
        "2c0000000200000300000000000000\
            00eaffffff200000001000050000000000000000000300010062616400",
        "fault: input 3\n",
        Status::Fault,
    ),
    (
        "an acknowledgement with an attribute",
        "2c0000000200000300000000000000\
            0000000000200000001000050000000000000000000800010062616400",
        "type 2 flags 0x0300 number 0 port 0 ack attributes 1\n",
        Status::Whole,
    ),
    (
        "the same without ACK_TLVS",
        "2c0000000200000100000000000000\
            0000000000200000001000050000000000000000000800010062616400",
        "type 2 flags 0x0100 number 0 port 0 ack\n",
        Status::Whole,
    ),
    (
        "an acknowledgement with an attribute of length 3",
        "2c0000000200000300000000000000\
            0000000000200000001000050000000000000000000300010062616400",
        "fault: input 3\n",
        Status::Fault,
    ),
    (
        "an error with an echo of five bytes and an attribute",
        "34000000020000020000000000000000eaffffff1500000000040500000000000000000061626364\
            650000000800010062616400",
        "type 2 flags 0x0200 number 0 port 0 error -22 attributes 1\n",
        Status::Whole,
    ),
    (
        "an acknowledgement",
        "240000000200000100000000000000000000000020000000100005000000000000000000",
        "type 2 flags 0x0100 number 0 port 0 ack\n",
        Status::Whole,
    ),
    (
        "an acknowledgement, and bytes after the header that it answers",
        "28000000020000000000000000000000000000001000000010000500000000000000000001020304",
        "type 2 flags 0x0000 number 0 port 0 ack\n",
        Status::Whole,
    ),
    (
        "the end of a dump",
        "1400000003000200000000000000000000000000",
        "type 3 flags 0x0002 number 0 port 0 done 0 attributes 0\n",
        Status::Whole,
    ),
    (
        "an end without a code",
        "10000000030000000000000000000000",
        "type 3 flags 0x0000 number 0 port 0 empty\n",
        Status::Whole,
    ),
    (
        "an end of a dump with two bytes of a code",
        "1200000003000200000000000000000000000000",
        "fault: input 2\n",
        Status::Fault,
    ),
    (
        "an error with a code alone",
        "1400000002000000000000000000000000000000",
        "fault: input 4\n",
        Status::Fault,
    ),
];

/// Asserts that this is printed of the datagram, and that the listing ends so.
fn assert_listed(rt: &impl Abort, alloc: Global, row: Row) {
    let bytes = decoded(rt, alloc, row.1);
    let mut output = Vec::new(alloc);
    let status = list(alloc, &mut bytes.as_slice(), &mut output);
    let listed = (output.as_slice(), status);
    assert_is_at(rt, row.0, listed, (row.2.as_bytes(), row.3));
}

#[test]
fn datagrams_are_listed(rt: HostRuntime) {
    for row in DATAGRAMS {
        assert_listed(&rt, rt.alloc(), row);
    }
    for row in ANSWERS {
        assert_listed(&rt, rt.alloc(), row);
    }
}

/// A message without a payload, and a byte after it.
const HEADER: &str = "10000000100002f0050000000700000000";

const HEADER_LINE: &str = "type 16 flags 0xf002 number 5 port 7 payload 0";

#[test]
fn an_owned_message_has_a_line(rt: HostRuntime) {
    let alloc = rt.alloc();
    let bytes = decoded(&rt, alloc, HEADER);
    let mut messages = NlBufferIter::new(&bytes);
    let message = messages.next(alloc).expect(&rt, "the first message");
    let message: RawMessage = message.expect(&rt, "the first message");
    assert_prints(&rt, alloc, &Line::of(&message), HEADER_LINE);
}

#[test]
fn a_lent_message_has_a_line(rt: HostRuntime) {
    let bytes = decoded(&rt, rt.alloc(), HEADER);
    let message = LentMessages::new(&bytes).next();
    let message = message.expect(&rt, "the first message, lent");
    let line = Line::of_body(&message.expect(&rt, "the first message, lent"));
    assert_prints(&rt, rt.alloc(), &line, HEADER_LINE);
}

#[test]
fn a_line_is_read(rt: HostRuntime) {
    let alloc = rt.alloc();
    let bytes = decoded(&rt, alloc, HEADER);
    let mut cursor = Cursor::new(&bytes);
    let line = read_line(alloc, &mut cursor).expect(&rt, "a line");
    assert_prints(&rt, alloc, &line, HEADER_LINE);
    assert_is(&rt, cursor.position(), 16);
}

#[test]
fn lines_are_written_and_then_their_ending(rt: HostRuntime) {
    let alloc = rt.alloc();
    let bytes = decoded(&rt, alloc, HEADER);
    let mut output = Vec::new(alloc);
    let ending = write_lines(alloc, &bytes, &mut output).expect(&rt, "memory");
    assert_is(&rt, ending, Ending::Short);
    let line = "type 16 flags 0xf002 number 5 port 7 payload 0\n";
    assert_is(&rt, output.as_slice(), line.as_bytes());
    write_ending(ending, &mut output).expect(&rt, "memory");
    let whole = "type 16 flags 0xf002 number 5 port 7 payload 0\nfault: short\n";
    assert_is(&rt, output.as_slice(), whole.as_bytes());
}

#[test]
fn endings_have_lines(rt: HostRuntime) {
    let rows = [
        (Ending::Whole, ""),
        (Ending::Input(15), "fault: input 15\n"),
        (Ending::Short, "fault: short\n"),
        (Ending::Other, "fault: other\n"),
        (Ending::Tail, "fault: tail\n"),
        (Ending::Memory, "fault: memory\n"),
    ];
    for (ending, want) in rows {
        assert_prints(&rt, rt.alloc(), &ending, want);
    }
}
