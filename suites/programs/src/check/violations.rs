//! What the parsers of the kernel do not allow, worked out by hand from `lib/nlattr.c` of Linux 6.12.

use neli_consts::NlmF;
use neli_tables::{Table, Tables};
use neli_tables_check::{Validation, Violation, check, check_as, validation_of};
use neli_tables_walk::{Head, body_of};
use std::alloc::Global;
use std::fmt::Write;
use std::test::Fail;

/// A table with a row of each sort.
const TEXT: &str = "family f 0
message NEST 16 nest=attrs after=head
message NUMBER 17 u16 range=1..9
message STRICT 18 request nest=attrs after=head strict
message LATE 19 nest=late
message HOPS 20 nest=hops after=head
struct head 4
struct hop 8
set attrs
  attr TEXT 1 text length=1..3
  attr RANGE 2 u16 range=2..300
  attr SIGNED 3 s16 range=2..300
  attr MASK 4 be16 mask=0x0103
  attr LIST 5 u16 array range=2..3
  attr NEST 6 nest=attrs length=0..8
  attr STRUCT 7 nest=attrs after=head
  attr PICKED 8 choice=picked by=TEXT
  attr EITHER 9 uint range=5..6
  attr FLAG 10 flag
  attr ZERO 11 ztext length=1..3
  attr ADDRESS 12 address
  attr BITS 13 bits
  attr PAD 14 pad
  attr SOCKET 15 sockaddr
  attr BYTES 16 bytes
  attr INNER 17 nest=attrs
  attr SEVERAL 18 nest=attrs multi
  attr V4 19 ipv4
  each OTHER nest=attrs
set late strict-from=5
  attr EARLY 4 u16
  attr LATE 5 u16
  attr LATER 6 nest=late
set hops
  attr HOPS 1 hops=hopped after=hop
set hopped
  attr METRIC 1 u32
choice picked
  case a u8 range=7..7
  case b nest=attrs
  else other bytes length=0..2
";

/// What it is, the type of the message, its payload, and what is wrong by the strict and by the liberal parser.
type Row = (&'static str, u16, &'static [u8], &'static str, &'static str);

/// Bodies whose family is none of addresses.
const CHECKED: [Row; 58] = [
    (
        "nothing wrong",
        16,
        b"\0\0\0\0\x06\0\x02\0,\x01\0\0",
        "",
        "",
    ),
    (
        "no message of the table",
        99,
        b"\x06\0\x02\0\0\0\0\0",
        "",
        "",
    ),
    (
        "a body shorter than its structure",
        16,
        b"\0\0\0",
        "body: shorter than 4 bytes",
        "body: shorter than 4 bytes",
    ),
    ("a body of a kind", 17, b"\x09\0", "", ""),
    (
        "one of another length",
        17,
        b"\x09\0\0",
        "body: longer than 2 bytes",
        "",
    ),
    (
        "one out of its range",
        17,
        b"\x0a\0",
        "body: not from 1 to 9",
        "body: not from 1 to 9",
    ),
    (
        "one out of its range, and longer",
        17,
        b"\x0a\0\0",
        "body: longer than 2 bytes",
        "body: not from 1 to 9",
    ),
    (
        "a text with its zero",
        16,
        b"\0\0\0\0\x08\0\x01\0abc\0",
        "",
        "",
    ),
    (
        "a longer one",
        16,
        b"\0\0\0\0\x08\0\x01\0abcd",
        "TEXT: not of 1 to 3 bytes",
        "TEXT: not of 1 to 3 bytes",
    ),
    (
        "a zero alone",
        16,
        b"\0\0\0\0\x05\0\x01\0\0\0\0\0",
        "TEXT: not of 1 to 3 bytes",
        "TEXT: not of 1 to 3 bytes",
    ),
    (
        "no text",
        16,
        b"\0\0\0\0\x04\0\x01\0",
        "TEXT: shorter than 1 bytes",
        "TEXT: shorter than 1 bytes",
    ),
    (
        "bytes that are not UTF-8, which no parser reads",
        16,
        b"\0\0\0\0\x05\0\x01\0\xff\0\0\0",
        "",
        "",
    ),
    (
        "below",
        16,
        b"\0\0\0\0\x06\0\x02\0\x01\0\0\0",
        "RANGE: not from 2 to 300",
        "RANGE: not from 2 to 300",
    ),
    (
        "above",
        16,
        b"\0\0\0\0\x06\0\x02\0-\x01\0\0",
        "RANGE: not from 2 to 300",
        "RANGE: not from 2 to 300",
    ),
    (
        "less than 0",
        16,
        b"\0\0\0\0\x06\0\x03\0\xff\xff\0\0",
        "SIGNED: not from 2 to 300",
        "SIGNED: not from 2 to 300",
    ),
    ("all bits", 16, b"\0\0\0\0\x06\0\x04\0\x01\x03\0\0", "", ""),
    (
        "one more",
        16,
        b"\0\0\0\0\x06\0\x04\0\x01\x07\0\0",
        "MASK: bits that are not in 0x103",
        "MASK: bits that are not in 0x103",
    ),
    (
        "a number of less",
        16,
        b"\0\0\0\0\x05\0\x02\0\x05\0\0\0",
        "RANGE: shorter than 2 bytes",
        "RANGE: shorter than 2 bytes",
    ),
    (
        "a number of more",
        16,
        b"\0\0\0\0\x08\0\x02\0\x05\0\0\0",
        "RANGE: longer than 2 bytes",
        "",
    ),
    (
        "a number of more, out of its range",
        16,
        b"\0\0\0\0\x08\0\x02\0\x01\0\0\0",
        "RANGE: longer than 2 bytes",
        "RANGE: not from 2 to 300",
    ),
    (
        "numbers of an array",
        16,
        b"\0\0\0\0\x0a\0\x05\0\x02\0\x04\0\x02\0\0\0",
        "",
        "",
    ),
    (
        "part of a number",
        16,
        b"\0\0\0\0\x07\0\x05\0\x02\0\x03\0",
        "LIST: no whole parts of 2 bytes",
        "LIST: no whole parts of 2 bytes",
    ),
    (
        "a nest of 12 bytes",
        16,
        b"\0\0\0\0\x10\0\x06\x80\x04\0c\x80\x04\0c\x80\x04\0c\x80",
        "NEST: not of 0 to 8 bytes",
        "NEST: not of 0 to 8 bytes",
    ),
    (
        "a nest without its flag",
        16,
        b"\0\0\0\0\x04\0\x06\0",
        "NEST: NLA_F_NESTED is missing",
        "",
    ),
    (
        "a number with it",
        16,
        b"\0\0\0\0\x06\0\x02\x80\x05\0\0\0",
        "RANGE: NLA_F_NESTED not expected",
        "",
    ),
    (
        "bytes with it",
        16,
        b"\0\0\0\0\x06\0\x10\x80\x05\0\0\0",
        "",
        "",
    ),
    (
        "a structure before a nest, without it",
        16,
        b"\0\0\0\0\x08\0\x07\0\0\0\0\0",
        "",
        "",
    ),
    (
        "an attribute in nests, before one behind them",
        16,
        b"\0\0\0\0\x10\0\x07\0\0\0\0\0\x06\0\x02\0\0\0\0\0\x04\0\x01\0",
        "STRUCT.RANGE: not from 2 to 300",
        "STRUCT.RANGE: not from 2 to 300",
    ),
    (
        "a nest shorter than its structure, by its number",
        16,
        b"\0\0\0\0\x0c\0c\x80\x06\0\x07\0\0\0\0\0",
        "99.STRUCT: shorter than 4 bytes",
        "99.STRUCT: shorter than 4 bytes",
    ),
    (
        "a nest of 3 bytes",
        16,
        b"\0\0\0\0\x07\0\x11\x80\0\0\0\0",
        "INNER: shorter than 4 bytes",
        "INNER: shorter than 4 bytes",
    ),
    (
        "by the case that its neighbour picks",
        16,
        b"\0\0\0\0\x05\0\x01\0a\0\0\0\x05\0\x08\0\x08\0\0\0",
        "PICKED: not from 7 to 7",
        "PICKED: not from 7 to 7",
    ),
    (
        "by that of the last of two neighbours",
        16,
        b"\0\0\0\0\x05\0\x01\0c\0\0\0\x05\0\x08\0\x08\0\0\0\x05\0\x01\0a\0\0\0",
        "PICKED: not from 7 to 7",
        "PICKED: not from 7 to 7",
    ),
    (
        "a picked nest without its flag",
        16,
        b"\0\0\0\0\x05\0\x01\0b\0\0\0\x04\0\x08\0",
        "PICKED: NLA_F_NESTED is missing",
        "",
    ),
    (
        "all others",
        16,
        b"\0\0\0\0\x07\0\x08\0abc\0",
        "PICKED: not of 0 to 2 bytes",
        "PICKED: not of 0 to 2 bytes",
    ),
    (
        "the first of two nests",
        16,
        b"\0\0\0\0\x0c\0\x11\x80\x06\0\x02\0\0\0\0\0\x04\0\x11\x80",
        "INNER.RANGE: not from 2 to 300",
        "",
    ),
    (
        "the first of two where several may stand",
        16,
        b"\0\0\0\0\x0c\0\x12\x80\x06\0\x02\0\0\0\0\0\x04\0\x12\x80",
        "SEVERAL.RANGE: not from 2 to 300",
        "SEVERAL.RANGE: not from 2 to 300",
    ),
    (
        "the last of two",
        16,
        b"\0\0\0\0\x04\0\x11\x80\x0c\0\x11\x80\x06\0\x02\0\0\0\0\0",
        "INNER.RANGE: not from 2 to 300",
        "INNER.RANGE: not from 2 to 300",
    ),
    (
        "a flag with bytes",
        16,
        b"\0\0\0\0\x05\0\x0a\0\x01\0\0\0",
        "FLAG: longer than 0 bytes",
        "FLAG: longer than 0 bytes",
    ),
    (
        "either of 5 bytes",
        16,
        b"\0\0\0\0\x09\0\x09\0\x05\0\0\0\0\0\0\0",
        "EITHER: longer than 4 bytes",
        "EITHER: longer than 4 bytes",
    ),
    (
        "a zero in the middle",
        16,
        b"\0\0\0\0\x07\0\x0b\0a\0b\0",
        "",
        "",
    ),
    (
        "no zero",
        16,
        b"\0\0\0\0\x07\0\x0b\0abc\0",
        "ZERO: no zero at the end",
        "ZERO: no zero at the end",
    ),
    (
        "an address of no family",
        16,
        b"\0\0\0\0\x07\0\x0c\0abc\0",
        "",
        "",
    ),
    (
        "bits that are selected",
        16,
        b"\0\0\0\0\x0c\0\x0d\0\x01\0\0\0\x03\0\0\0",
        "",
        "",
    ),
    (
        "bits that are not",
        16,
        b"\0\0\0\0\x0c\0\x0d\0\x05\0\0\0\x03\0\0\0",
        "BITS: bits that are not selected",
        "BITS: bits that are not selected",
    ),
    (
        "bits of 12 bytes",
        16,
        b"\0\0\0\0\x10\0\x0d\0\x01\0\0\0\x03\0\0\0\0\0\0\0",
        "BITS: longer than 8 bytes",
        "BITS: longer than 8 bytes",
    ),
    (
        "padding",
        16,
        b"\0\0\0\0\x04\0\x0e\0",
        "PAD: unknown attribute",
        "",
    ),
    (
        "no socket",
        16,
        b"\0\0\0\0\x0c\0\x0f\0\0\0\0\0\0\0\0\0",
        "SOCKET: shorter than 16 bytes",
        "SOCKET: shorter than 16 bytes",
    ),
    (
        "an address of five bytes",
        16,
        b"\0\0\0\0\x09\0\x13\0\0\0\0\0\0\0\0\0",
        "V4: longer than 4 bytes",
        "",
    ),
    (
        "an attribute without a row",
        19,
        b"\x04\0\x09\0",
        "9: unknown attribute",
        "",
    ),
    (
        "a number behind the first strict one",
        19,
        b"\x08\0\x04\0\0\0\0\0\x08\0\x05\0\0\0\0\0",
        "EARLY: longer than 2 bytes",
        "LATE: longer than 2 bytes",
    ),
    (
        "what is in a strict nest",
        19,
        b"\x0c\0\x06\x80\x08\0\x04\0\0\0\0\0",
        "LATER.EARLY: longer than 2 bytes",
        "LATER.EARLY: longer than 2 bytes",
    ),
    (
        "bytes after the attributes of a nest",
        16,
        b"\0\0\0\0\x0a\0\x11\x80\x04\0\x10\0\x01\x02\0\0",
        "INNER: 2 bytes after the attributes",
        "",
    ),
    (
        "bytes after those of a body",
        16,
        b"\0\0\0\0\x01\x02\x03",
        "body: 3 bytes after the attributes",
        "",
    ),
    (
        "a last attribute without its padding",
        16,
        b"\0\0\0\0\x09\0\x01\0abcde",
        "TEXT: not of 1 to 3 bytes",
        "TEXT: not of 1 to 3 bytes",
    ),
    (
        "the same in a nest",
        16,
        b"\0\0\0\0\x0a\0\x11\x80\x06\0\x02\0\x01\0\0\0",
        "INNER.RANGE: not from 2 to 300",
        "INNER.RANGE: not from 2 to 300",
    ),
    (
        "an attribute of a hop",
        20,
        b"\0\0\0\0$\0\x01\0\x10\0\0\0\0\0\0\0\x08\0\x01\0\0\0\0\0\x10\0\0\0\0\0\0\0\x06\0\x01\0\0\0\0\0",
        "HOPS.hop.METRIC: shorter than 4 bytes",
        "HOPS.hop.METRIC: shorter than 4 bytes",
    ),
    (
        "bytes after hops",
        20,
        b"\0\0\0\0\x0e\0\x01\0\x08\0\0\0\0\0\0\0\0\0\0\0",
        "HOPS: 2 bytes after the attributes",
        "HOPS: 2 bytes after the attributes",
    ),
    (
        "a nest in ten",
        16,
        b"\0\0\0\0,\0\x11\x80(\0\x11\x80$\0\x11\x80 \0\x11\x80\x1c\0\x11\x80\x18\0\x11\x80\x14\0\x11\x80\x10\0\x11\x80\x0c\0\x11\x80\x08\0\x11\x80\x04\0\x11\x80",
        "INNER.INNER.INNER.INNER.INNER.INNER.INNER.INNER.INNER.INNER: a nest in too many",
        "INNER.INNER.INNER.INNER.INNER.INNER.INNER.INNER.INNER.INNER: a nest in too many",
    ),
];

/// What a check says, nothing where it passes.
fn said(alloc: Global, checked: Result<(), Violation<'_, '_>>) -> Result<String, Fail> {
    let mut said = String::new(alloc);
    if let Err(violation) = checked {
        write!(said, "{violation}")?;
    }
    Ok(said)
}

/// A request of the table's protocol.
fn request(message_type: u16) -> Head {
    Head {
        protocol: 0,
        message_type,
        flags: NlmF::REQUEST,
    }
}

#[test]
fn the_first_that_is_wrong_is_refused(rt: HostRuntime) -> Result<(), Fail> {
    let alloc = rt.alloc();
    let mut tables = Tables::new(alloc);
    tables.add(Table::read(alloc, TEXT.as_bytes())?)?;
    for (what, message_type, payload, strict, liberal) in CHECKED {
        let body = body_of(&tables, request(message_type), payload);
        let found = said(alloc, check_as(&body, Validation::Strict))?;
        assert_eq!(rt; found.as_str(), strict, "at {what}, strict");
        let found = said(alloc, check_as(&body, Validation::Liberal))?;
        assert_eq!(rt; found.as_str(), liberal, "at {what}, liberal");
    }
    Ok(())
}

/// The family of a body, an address there, and what is wrong by the strict and by the liberal parser.
const ADDRESSES: [(u8, &[u8], &str, &str); 6] = [
    (2, b"\x08\0\x0c\0\x7f\0\0\x01", "", ""),
    (
        2,
        b"\x07\0\x0c\0\x7f\0\0",
        "ADDRESS: shorter than 4 bytes",
        "ADDRESS: shorter than 4 bytes",
    ),
    (
        2,
        b"\x14\0\x0c\0\0\0\0\0\0\0\0\0\0\0\0\0\0\0\0\x01",
        "ADDRESS: longer than 4 bytes",
        "",
    ),
    (
        10,
        b"\x14\0\x0c\0\0\0\0\0\0\0\0\0\0\0\0\0\0\0\0\x01",
        "",
        "",
    ),
    (
        10,
        b"\x08\0\x0c\0\x7f\0\0\x01",
        "ADDRESS: shorter than 16 bytes",
        "ADDRESS: shorter than 16 bytes",
    ),
    (28, b"\x08\0\x0c\0\0\x01\0\x40", "", ""),
];

#[test]
fn addresses_are_those_of_their_family(rt: HostRuntime) -> Result<(), Fail> {
    let alloc = rt.alloc();
    let mut tables = Tables::new(alloc);
    tables.add(Table::read(alloc, TEXT.as_bytes())?)?;
    for (family, attribute, strict, liberal) in ADDRESSES {
        let mut payload = Vec::new(alloc);
        payload.extend_from_slice(&[family, 0, 0, 0])?;
        payload.extend_from_slice(attribute)?;
        let body = body_of(&tables, request(16), &payload);
        let found = said(alloc, check_as(&body, Validation::Strict))?;
        assert_eq!(rt; found.as_str(), strict, "at {family}, strict");
        let found = said(alloc, check_as(&body, Validation::Liberal))?;
        assert_eq!(rt; found.as_str(), liberal, "at {family}, liberal");
    }
    Ok(())
}

#[test]
fn the_table_says_which_parser_reads_a_message(rt: HostRuntime) -> Result<(), Fail> {
    let alloc = rt.alloc();
    let mut tables = Tables::new(alloc);
    tables.add(Table::read(alloc, TEXT.as_bytes())?)?;
    let payload = b"\0\0\0\0\x04\0\x11\0";
    let rows = [
        (16, Validation::Liberal, ""),
        (18, Validation::Strict, "INNER: NLA_F_NESTED is missing"),
        (99, Validation::Liberal, ""),
    ];
    for (message_type, validation, wanted) in rows {
        let body = body_of(&tables, request(message_type), payload);
        assert!(rt; validation_of(&body) == validation, "at {message_type}");
        let found = said(alloc, check(&body))?;
        assert_eq!(rt; found.as_str(), wanted, "at {message_type}");
    }
    Ok(())
}
