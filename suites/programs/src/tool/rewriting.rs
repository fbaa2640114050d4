//! Datagrams that are written again, with zeros for their padding.

use super::support::{assert_is_at, decoded};
use neli_program::line::Ending;
use neli_program::listing::list;
use neli_program::rewriting::{list_zero, rewriting_of};
use neli_program::status::Status;
use std::alloc::Global;
use std::process::Abort;

/// Datagrams with padding of any value: the name of each, the bytes read, and the bytes written.
pub const PADDED: [(&str, &str, &str); 5] = [
    (
        "padding after an attribute of a capped error",
        "2c000000020000030000000000000000eaffffff2000000010000500000000000000000007000100\
            626164ff",
        "2c000000020000030000000000000000eaffffff2000000010000500000000000000000007000100\
            62616400",
    ),
    (
        "padding after a payload of one byte",
        "1100000000040000000000000000000061ffffff",
        "1100000000040000000000000000000061000000",
    ),
    (
        "padding after the echo",
        "34000000020000020000000000000000eaffffff1500000000040500000000000000000061626364\
            65ffffff0800010062616400",
        "34000000020000020000000000000000eaffffff1500000000040500000000000000000061626364\
            650000000800010062616400",
    ),
    (
        "padding after an echo at the end, of which one byte is in the message",
        "2a000000020000000000000000000000eaffffff1500000000040500000000000000000061626364\
            65ffffff",
        "2a000000020000000000000000000000eaffffff1500000000040500000000000000000061626364\
            65000000",
    ),
    (
        "padding after an attribute of the end of a dump",
        "1c000000030002000000000000000000000000000500010061ffffff",
        "1c000000030002000000000000000000000000000500010061000000",
    ),
];

/// Datagrams without padding: their lengths are multiples of four, and a payload's bytes are its own.
pub const UNPADDED: [(&str, &str); 12] = [
    (
        "an acknowledgement with an attribute",
        "2c000000020000030000000000000000000000002000000010000500000000000000000008000100\
            62616400",
    ),
    (
        "a capped error",
        "24000000020000010000000000000000eaffffff20000000100005000000000000000000",
    ),
    ("nothing", ""),
    (
        "what would be padding of an attribute, in a payload",
        "1c000000100002000000000000000000000000000500010061ffffff",
    ),
    (
        "an acknowledgement, and a message of its header alone",
        "24000000020000010000000000000000000000002000000010000500000000000000000010000000\
            030000000000000000000000",
    ),
    (
        "a request for a family by its name",
        "20000000100005000000000000000000030200000b0002006e6c6374726c0000",
    ),
    (
        "a reply with the family's number",
        "1c000000100000000000000000000000010200000600010010000000",
    ),
    (
        "two messages of a dump, and its end",
        "10000000100002000000000000000000100000001000020000000000000000001400000003000200\
            000000000000000000000000",
    ),
    (
        "two messages of a dump, and an end with a code",
        "10000000100002000000000000000000100000001000020000000000000000001400000003000200\
            0000000000000000eaffffff",
    ),
    (
        "a body of five bytes, whose length counts three zeros",
        "180000000004010000000000000000006162636465000000",
    ),
    (
        "a message without a payload",
        "10000000100000000000000000000000",
    ),
    (
        "a message of another type without a payload",
        "10000000000400000000000000000000",
    ),
];

/// Asserts that this is written of the datagram, which is listed as what is written is.
fn assert_rewritten(rt: &impl Abort, alloc: Global, row: &str, datagram: &str, want: &str) {
    let bytes = decoded(rt, alloc, datagram);
    let want = decoded(rt, alloc, want);
    let mut output = Vec::new(alloc);
    let status = list_zero(alloc, &mut bytes.as_slice(), &mut output);
    let written = (output.as_slice(), status);
    assert_is_at(rt, row, written, (want.as_slice(), Status::Whole));
    assert_same_lines(rt, alloc, row, &bytes, &output);
    assert_is_zeroed(rt, alloc, row, &output);
}

#[test]
fn padding_is_written_as_zeros(rt: HostRuntime) {
    for (row, datagram, want) in PADDED {
        assert_rewritten(&rt, rt.alloc(), row, datagram, want);
    }
}

#[test]
fn what_is_no_padding_stays(rt: HostRuntime) {
    for (row, datagram) in UNPADDED {
        assert_rewritten(&rt, rt.alloc(), row, datagram, datagram);
    }
}

// Both are listed alike.
fn assert_same_lines(rt: &impl Abort, alloc: Global, row: &str, first: &[u8], second: &[u8]) {
    let mut one = Vec::new(alloc);
    let mut two = Vec::new(alloc);
    let first_ends = list(alloc, &mut &*first, &mut one);
    let second_ends = list(alloc, &mut &*second, &mut two);
    let first = (one.as_slice(), first_ends);
    assert_is_at(rt, row, first, (two.as_slice(), second_ends));
}

// Written once more, nothing changes.
fn assert_is_zeroed(rt: &impl Abort, alloc: Global, row: &str, bytes: &[u8]) {
    let owned = Vec::from_slice(alloc, bytes).expect(rt, "memory");
    let again = rewriting_of(alloc, owned);
    let written = (again.bytes.as_slice(), again.ending);
    assert_is_at(rt, row, written, (bytes, Ending::Whole));
}

#[test]
fn faults_are_lines_alone(rt: HostRuntime) {
    let alloc = rt.alloc();
    let rows = [
        (
            "bytes after the header that an acknowledgement answers",
            "28000000020000000000000000000000000000001000000010000500000000000000000001020304",
            "fault: tail\n",
        ),
        (
            "bytes after the header that a capped error echoes",
            "2c000000020000010000000000000000eaffffff2000000010000500000000000000000008000100\
                62616400",
            "fault: tail\n",
        ),
        (
            "bytes after an acknowledgement's, without ACK_TLVS",
            "2c000000020000010000000000000000000000002000000010000500000000000000000008000100\
                62616400",
            "fault: tail\n",
        ),
        (
            "the same before a fault",
            "28000000020000000000000000000000000000001000000010000500000000000000000001020304\
                ffffff",
            "fault: short\n",
        ),
        (
            "15 bytes",
            "110000000004000000000000000000",
            "fault: short\n",
        ),
        (
            "a message, and a length below the header",
            "100000001000000000000000000000000f000000000400000000000000000000",
            "fault: input 15\n",
        ),
    ];
    for (row, datagram, want) in rows {
        let bytes = decoded(&rt, alloc, datagram);
        let mut output = Vec::new(alloc);
        let status = list_zero(alloc, &mut bytes.as_slice(), &mut output);
        let written = (output.as_slice(), status);
        assert_is_at(&rt, row, written, (want.as_bytes(), Status::Fault));
    }
}
