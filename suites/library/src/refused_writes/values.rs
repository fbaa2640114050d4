//! Numbers, bytes, names, addresses, sets of flags, exit codes, and payloads by the lines of a table.
//!
//! Handles of queueing disciplines print as tc(8) prints them. Exit codes are those of wait(2), flags those of
//! linux/if.h. What a table's values print was worked out by hand from docs/TABLES.md, docs/SHOW.md and RFC 8259;
//! addresses are those of Python's `ipaddress` and `uuid`.

use super::assert_prints;
use neli::connector::ExitStatus;
use neli::consts::rtnl::Iff;
use neli::consts::{Constant, FlagNames};
use neli::rtnl::HardwareAddress;
use neli::rtnl::linux::TcHandle;
use neli::schema::{
    Fields, FieldsJson, FieldsText, Name, NameJson, Number, NumberJson, Payload, PayloadJson,
    PayloadText, ReadError, Table,
};
use neli_print::When;
use neli_tables_walk::{Bytes, BytesJson, Decimal, Hardware, Hex, LineName, Quoted, SignedDecimal};

#[test]
fn numbers(rt: HostRuntime) {
    let alloc = rt.alloc();
    for (number, want) in [
        (0, "0"),
        (9, "9"),
        (10, "10"),
        (99, "99"),
        (100, "100"),
        (12345, "12345"),
        (u64::MAX, "18446744073709551615"),
    ] {
        assert_prints(&rt, alloc, &Decimal(number), want);
        let number = Number {
            bits: number,
            signed: None,
        };
        assert_prints(&rt, alloc, &NumberJson(number), want);
    }
    for (signed, want) in [
        (0, "0"),
        (42, "42"),
        (-1, "-1"),
        (i64::MIN, "-9223372036854775808"),
    ] {
        assert_prints(&rt, alloc, &SignedDecimal(signed), want);
        let number = Number {
            bits: 7,
            signed: Some(signed),
        };
        assert_prints(&rt, alloc, &NumberJson(number), want);
    }
}

#[test]
fn bytes(rt: HostRuntime) {
    let alloc = rt.alloc();
    let rows: [(&[u8], &str, &str, &str, &str); 3] = [
        (b"", "", "", "empty", "{\"bytes\":\"\"}"),
        (b"\x02", "02", "02", "0x02", "{\"bytes\":\"02\"}"),
        (
            b"\x02\0\0\0\xfe\x01",
            "02000000fe01",
            "02:00:00:00:fe:01",
            "0x02000000fe01",
            "{\"bytes\":\"02000000fe01\"}",
        ),
    ];
    for (bytes, hex, hardware, number, json) in rows {
        assert_prints(&rt, alloc, &Hex(bytes), hex);
        assert_prints(&rt, alloc, &Hardware(bytes), hardware);
        assert_prints(&rt, alloc, &Bytes(bytes), number);
        assert_prints(&rt, alloc, &BytesJson(bytes), json);
        let address = HardwareAddress::from_bytes(bytes).expect(&rt, "an address");
        assert_prints(&rt, alloc, &address, hardware);
    }
}

#[test]
fn names_and_texts(rt: HostRuntime) {
    let alloc = rt.alloc();
    for (text, want) in [
        ("", "\"\""),
        ("veth1", "\"veth1\""),
        ("a\"b\\\n\r\té", "\"a\\\"b\\\\\\n\\r\\té\""),
        ("\x1b[2J\u{85}\x7f", "\"\\u001b[2J\\u0085\\u007f\""),
    ] {
        assert_prints(&rt, alloc, &Quoted(text), want);
    }
    let rows: [(&[u8], &str, &str); 3] = [
        (b"IFLA_MTU", "IFLA_MTU", "\"IFLA_MTU\""),
        (b"\x1b[31m", "\\u001b[31m", "\"\\u001b[31m\""),
        (b"\xffA", "ff41", "\"ff41\""),
    ];
    for (name, want, json) in rows {
        assert_prints(&rt, alloc, &Name(name), want);
        assert_prints(&rt, alloc, &NameJson(name), json);
    }
    for (holds, want) in [(true, ","), (false, "")] {
        assert_prints(&rt, alloc, &When { holds, text: "," }, want);
    }
}

#[test]
fn values_of_bodies(rt: HostRuntime) {
    let alloc = rt.alloc();
    for (handle, want) in [
        (TcHandle::NONE, "none"),
        (TcHandle::ROOT, "root"),
        (TcHandle::INGRESS, "ffff:fff1"),
        (TcHandle::new(1, 0), "1:"),
        (TcHandle::new(0, 10), ":a"),
        (TcHandle::new(16, 32), "10:20"),
    ] {
        assert_prints(&rt, alloc, &handle, want);
    }
    for (status, want) in [
        (0x300, "exited with 3"),
        (9, "killed by signal 9"),
        (0x8b, "killed by signal 11 (core dumped)"),
        (0x137f, "status 0x137f"),
    ] {
        assert_prints(&rt, alloc, &ExitStatus::from(status), want);
    }
    for (flags, want) in [
        (0, "0x0"),
        (0x41, "UP|RUNNING"),
        (0x8000_0001, "UP|0x80000000"),
        (0x8000_0000, "0x80000000"),
    ] {
        assert_prints(&rt, alloc, &FlagNames(Iff::from_wire(flags)), want);
    }
}

/// A table with the kinds of payloads.
const TABLE: &[u8] = b"family f 0
struct pair 8
  field first 0..4 u32
  field second 4..6 be16
  field name 6..8 text
struct kinds 24
  field flags 0..2 u16 flags=iff
  field type 2..3 u8 enum=rtn
  field numbers 4..8 u16 array hex
  field mac 8..14 hardware
  field raw 14..16 bytes
  field short 16..20 ipv4
  field inner 20..24 struct=pair
struct list 4
  field count 0..4 u32
  field pairs 4..28 struct=pair array
struct a\"b 1
  field \x1b[ 0..1 u8
enum rtn prefix=RTN_
  value unicast 1
  value local 2
flags iff prefix=IFF_
  value up 0x1
  value broadcast 0x2
set attrs
  attr FLAG 1 flag
  attr U32 4 u32
  attr S8 6 s8
  attr BE16 10 be16
  attr TEXT 16 text
  attr ZTEXT 17 ztext
  attr HARDWARE 18 hardware
  attr IPV4 19 ipv4
  attr IP 21 ip
  attr SOCKADDR 23 sockaddr
  attr UUID 24 uuid
  attr BITS 25 bits flags=iff
  attr PLAINBITS 26 bits
  attr STRUCT 27 struct=pair
  attr STRUCTS 28 struct=pair array
  attr NEST 29 nest=attrs
  attr BYTES 30 bytes
  attr ENUM 32 u8 enum=rtn
  attr BEENUM 33 be16 enum=rtn hex
  attr FLAGS 34 u32 flags=iff
  attr HEX 36 u32 hex
  attr ARRAY 37 u16 array
  attr KINDS 40 struct=kinds
  attr ENUMS 43 u8 array enum=rtn
  attr LIST 45 struct=list
";

/// The attribute, its payload, and what is printed as text, and in JSON.
const PAYLOADS: [(&str, &[u8], &str, &str); 36] = [
    ("FLAG", b"", "", "true"),
    ("FLAG", b"\x01", " 0x01", "{\"bytes\":\"01\"}"),
    ("U32", b"\x78\x05\0\0", " 1400", "1400"),
    ("U32", b"\xdc\x05", " 0xdc05", "{\"bytes\":\"dc05\"}"),
    ("S8", b"\x80", " -128", "-128"),
    ("BE16", b"\x01\x02", " 258", "258"),
    ("TEXT", b"br0\0", " \"br0\"", "\"br0\""),
    ("TEXT", b"a\"\x1b", " \"a\\\"\\u001b\"", "\"a\\\"\\u001b\""),
    ("TEXT", b"\xff\0", " 0xff00", "{\"bytes\":\"ff00\"}"),
    ("ZTEXT", b"eth0\0", " \"eth0\"", "\"eth0\""),
    (
        "HARDWARE",
        b"\x02\0\0\0\0\x01",
        " 02:00:00:00:00:01",
        "\"02:00:00:00:00:01\"",
    ),
    ("HARDWARE", b"", " empty", "\"\""),
    ("IPV4", b"\xc0\0\x02\x01", " 192.0.2.1", "\"192.0.2.1\""),
    (
        "IP",
        b"\x20\x01\x0d\xb8\0\0\0\0\0\0\0\0\0\0\0\x01",
        " 2001:db8::1",
        "\"2001:db8::1\"",
    ),
    (
        "SOCKADDR",
        b"\x02\0\xca\x6c\xc0\0\x02\x01\0\0\0\0\0\0\0\0",
        " address 192.0.2.1 port 51820",
        "{\"address\":\"192.0.2.1\",\"port\":51820}",
    ),
    (
        "SOCKADDR",
        b"\x0a\0\x01\xf4\0\0\0\x05\xfe\x80\0\0\0\0\0\0\0\0\0\0\0\0\0\x01\x03\0\0\0",
        " address fe80::1 port 500 flowinfo 5 scope_id 3",
        "{\"address\":\"fe80::1\",\"port\":500,\"flowinfo\":5,\"scope_id\":3}",
    ),
    (
        "UUID",
        b"\x01\x02\x03\x04\x05\x06\x07\x08\x09\x0a\x0b\x0c\x0d\x0e\x0f\x10",
        " 01020304-0506-0708-090a-0b0c0d0e0f10",
        "\"01020304-0506-0708-090a-0b0c0d0e0f10\"",
    ),
    (
        "BITS",
        b"\x01\0\0\0\x03\0\0\0",
        " value up selector up|broadcast",
        "{\"value\":[\"up\"],\"selector\":[\"up\",\"broadcast\"]}",
    ),
    (
        "PLAINBITS",
        b"\x01\0\0\0\x03\0\0\0",
        " value 1 selector 3",
        "{\"value\":1,\"selector\":3}",
    ),
    (
        "STRUCT",
        b"\x01\0\0\0\x01\x02a\0",
        " first 1 second 258 name \"a\"",
        "{\"first\":1,\"second\":258,\"name\":\"a\"}",
    ),
    ("STRUCT", b"", "", "{}"),
    (
        "STRUCTS",
        b"\x01\0\0\0\x01\x02a\0\x02\0\0\0\0\x01b\0",
        " ( first 1 second 258 name \"a\" ) ( first 2 second 1 name \"b\" )",
        "[{\"first\":1,\"second\":258,\"name\":\"a\"},{\"first\":2,\"second\":1,\"name\":\"b\"}]",
    ),
    ("STRUCTS", b"", "", "[]"),
    (
        "NEST",
        b"\x04\0\x01\0",
        " 0x04000100",
        "{\"bytes\":\"04000100\"}",
    ),
    ("BYTES", b"\x01\x02", " 0x0102", "{\"bytes\":\"0102\"}"),
    ("BYTES", b"", " empty", "{\"bytes\":\"\"}"),
    ("ENUM", b"\x02", " local", "\"local\""),
    ("ENUM", b"\x05", " 5", "5"),
    ("BEENUM", b"\x01\x2c", " 0x12c", "300"),
    (
        "FLAGS",
        b"\x03\0\x04\0",
        " up|broadcast|0x40000",
        "[\"up\",\"broadcast\",\"0x40000\"]",
    ),
    ("FLAGS", b"\0\0\0\0", " 0", "[]"),
    ("HEX", b"\xff\0\x01\0", " 0x100ff", "65791"),
    ("ARRAY", b"\x01\0\x02\0\x03\x01", " 1 2 259", "[1,2,259]"),
    ("ENUMS", b"\x01\x05", " unicast 5", "[\"unicast\",5]"),
    (
        "KINDS",
        b"\x03\0\x01\0\x0a\0\x0b\0\x02\0\0\0\0\x01\x01\x02\xc0\0\x02\x01\x01\x02\x03\x04",
        " flags up|broadcast type unicast numbers 0xa 0xb mac 02:00:00:00:00:01 raw 0x0102 \
        short 192.0.2.1 inner 0x01020304",
        "{\"flags\":[\"up\",\"broadcast\"],\"type\":\"unicast\",\"numbers\":[10,11],\
        \"mac\":\"02:00:00:00:00:01\",\"raw\":{\"bytes\":\"0102\"},\"short\":\"192.0.2.1\",\
        \"inner\":{\"bytes\":\"01020304\"}}",
    ),
    (
        "LIST",
        b"\x01\0\0\0\x01\0\0\0\x01\x02a\0",
        " count 1 pairs ( first 1 second 258 name \"a\" )",
        "{\"count\":1,\"pairs\":[{\"first\":1,\"second\":258,\"name\":\"a\"}]}",
    ),
];

/// The place of the line with this name; past the last line where there is none.
fn place_of(table: &Table<'_>, name: &[u8]) -> usize {
    let lines = table.lines();
    lines
        .iter()
        .position(|line| line.name == name)
        .unwrap_or(lines.len())
}

#[test]
fn payloads(rt: HostRuntime) -> Result<(), ReadError> {
    let alloc = rt.alloc();
    let table = Table::read(alloc, TABLE)?;
    for (name, bytes, text, json) in PAYLOADS {
        let payload = Payload {
            table: &table,
            place: place_of(&table, name.as_bytes()),
            bytes,
        };
        assert_prints(&rt, alloc, &PayloadText(payload), text);
        assert_prints(&rt, alloc, &PayloadJson(payload), json);
    }
    Ok(())
}

#[test]
fn fields_and_lines(rt: HostRuntime) -> Result<(), ReadError> {
    let alloc = rt.alloc();
    let table = Table::read(alloc, TABLE)?;
    let rows: [(&[u8], &[u8], &str, &str); 3] = [
        (b"pair", b"\x01\0\0\0", " first 1", "{\"first\":1}"),
        (b"pair", b"", "", "{}"),
        (b"a\"b", b"\x08", " \\u001b[ 8", "{\"\\u001b[\":8}"),
    ];
    for (name, bytes, text, json) in rows {
        let fields = Fields {
            table: &table,
            place: place_of(&table, name),
            bytes,
        };
        assert_prints(&rt, alloc, &FieldsText(fields), text);
        assert_prints(&rt, alloc, &FieldsJson(fields), json);
    }
    let names: [(&[u8], &str); 4] = [
        (b"kinds", "kinds"),
        (b"a\"b", "a\\\"b"),
        (b"\x1b[", "\\u001b["),
        (b"none", ""),
    ];
    for (name, want) in names {
        let place = place_of(&table, name);
        let line = LineName {
            table: &table,
            place,
        };
        assert_prints(&rt, alloc, &line, want);
    }
    Ok(())
}
