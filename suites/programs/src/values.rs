//! Payloads as text and as JSON by the lines of a table: `neli_tables_walk`.
//!
//! What is expected was worked out by hand from docs/TABLES.md and the kernel's headers: bits and
//! values of `linux/if.h` and `linux/rtnetlink.h`, `struct nla_bitfield32` of `linux/netlink.h`,
//! `struct sockaddr_in` and `sockaddr_in6` of `linux/in.h` and `linux/in6.h`; texts of addresses
//! are those of Python's `ipaddress` and `uuid`.

use neli_tables::Table;
use neli_tables_routing::RoutingTable;
use neli_tables_walk::{
    Fields, FieldsJson, FieldsText, LineName, Name, NameJson, Payload, PayloadJson, PayloadText,
    breach_of,
};
use std::alloc::Global;
use std::fmt::Write;
use std::test::Fail;

/// A table with each kind of payload.
const TEXT: &str = "family f 0
struct pair 8
  field first 0..4 u32
  field second 4..6 be16
  field name 6..8 text
struct kinds 24
  field flags 0..2 u16 flags=iff
  field type 2..3 u8 enum=rtn
  field numbers 4..8 u16 array hex
  field mac 8..14 hardware
  field raw 14..16 bytes
  field short 16..20 ipv4
  field inner 20..24 struct=pair
struct empty 0
struct list 4
  field count 0..4 u32
  field pairs 4..28 struct=pair array
  field tail 28..40 u16 array
enum rtn prefix=RTN_
  value unicast 1
  value local 2
  value blackhole 0x6
flags iff prefix=IFF_
  value up 0x1
  value broadcast 0x2
  value running 0x40
  value none 0
  value both 0x180
set attrs
  attr FLAG 1 flag
  attr U8 2 u8
  attr U16 3 u16
  attr U32 4 u32
  attr U64 5 u64
  attr S8 6 s8
  attr S16 7 s16
  attr S32 8 s32
  attr S64 9 s64
  attr BE16 10 be16
  attr BE32 11 be32
  attr BE64 12 be64
  attr SBE32 13 sbe32
  attr UINT 14 uint
  attr SINT 15 sint
  attr TEXT 16 text
  attr ZTEXT 17 ztext
  attr HARDWARE 18 hardware
  attr IPV4 19 ipv4
  attr IPV6 20 ipv6
  attr IP 21 ip
  attr ADDRESS 22 address
  attr SOCKADDR 23 sockaddr
  attr UUID 24 uuid
  attr BITS 25 bits flags=iff
  attr PLAINBITS 26 bits
  attr STRUCT 27 struct=pair
  attr STRUCTS 28 struct=pair array
  attr NEST 29 nest=attrs
  attr BYTES 30 bytes
  attr PAD 31 pad
  attr ENUM 32 u8 enum=rtn
  attr BEENUM 33 be16 enum=rtn hex
  attr FLAGS 34 u32 flags=iff
  attr BEFLAGS 35 be32 flags=iff
  attr HEX 36 u32 hex
  attr ARRAY 37 u16 array
  attr BEARRAY 38 be32 array hex
  attr HEXBYTES 39 bytes hex
  attr KINDS 40 struct=kinds
  attr EMPTIES 41 struct=empty array
  attr HOPS 42 hops=attrs
  attr ENUMS 43 u8 array enum=rtn
  attr UINTS 44 uint array
  attr LIST 45 struct=list
  attr LISTS 46 struct=list array
";

/// The attribute, its payload, and what is printed as text, and in JSON.
const VALUES: [(&str, &[u8], &str, &str); 82] = [
    ("FLAG", b"", "", "true"),
    (
        "FLAG",
        b"\x01",
        "longer than 0 bytes: 0x01",
        "{\"bytes\":\"01\"}",
    ),
    ("U8", b"\xff", " 255", "255"),
    ("U8", b"", "shorter than 1 bytes: empty", "{\"bytes\":\"\"}"),
    (
        "U8",
        b"\x01\x02",
        "longer than 1 bytes: 0x0102",
        "{\"bytes\":\"0102\"}",
    ),
    ("U8", b"\0", " 0", "0"),
    ("U8", b"\x09", " 9", "9"),
    ("U8", b"\x0a", " 10", "10"),
    ("U8", b"\x63", " 99", "99"),
    ("U8", b"\x64", " 100", "100"),
    ("U16", b"\x01\x02", " 513", "513"),
    ("U16", b"\x05\x04", " 1029", "1029"),
    ("U16", b"\x10\x27", " 10000", "10000"),
    ("U32", b"\x78\x05\0\0", " 1400", "1400"),
    (
        "U32",
        b"\xdc\x05",
        "shorter than 4 bytes: 0xdc05",
        "{\"bytes\":\"dc05\"}",
    ),
    (
        "U64",
        b"\xff\xff\xff\xff\xff\xff\xff\xff",
        " 18446744073709551615",
        "18446744073709551615",
    ),
    ("S8", b"\x80", " -128", "-128"),
    ("S16", b"\xfe\xff", " -2", "-2"),
    ("S16", b"\x9c\xff", " -100", "-100"),
    ("S32", b"\xf9\xff\xff\xff", " -7", "-7"),
    (
        "S64",
        b"\0\0\0\0\0\0\0\x80",
        " -9223372036854775808",
        "-9223372036854775808",
    ),
    ("BE16", b"\x01\x02", " 258", "258"),
    ("BE32", b"\0\0\x01\x02", " 258", "258"),
    ("BE64", b"\0\0\0\0\0\0\x01\x02", " 258", "258"),
    ("SBE32", b"\xff\xff\xff\xfe", " -2", "-2"),
    ("UINT", b"\x01\0\0\0", " 1", "1"),
    ("UINT", b"\x01\0\0\0\x01\0\0\0", " 4294967297", "4294967297"),
    (
        "UINT",
        b"\x01\0\0\0\x01",
        "longer than 4 bytes: 0x0100000001",
        "{\"bytes\":\"0100000001\"}",
    ),
    (
        "UINT",
        b"\x01\0",
        "shorter than 4 bytes: 0x0100",
        "{\"bytes\":\"0100\"}",
    ),
    ("SINT", b"\xff\xff\xff\xff", " -1", "-1"),
    ("SINT", b"\xfe\xff\xff\xff\xff\xff\xff\xff", " -2", "-2"),
    ("TEXT", b"br0\0", " \"br0\"", "\"br0\""),
    ("TEXT", b"br0", " \"br0\"", "\"br0\""),
    ("TEXT", b"", " \"\"", "\"\""),
    (
        "TEXT",
        b"a\"\\\n\x1b\0b\0",
        " \"a\\\"\\\\\\n\\u001b\\u0000b\"",
        "\"a\\\"\\\\\\n\\u001b\\u0000b\"",
    ),
    ("TEXT", b"\xc3\xa9", " \"é\"", "\"é\""),
    (
        "TEXT",
        b"\xff\0",
        "not UTF-8: 0xff00",
        "{\"bytes\":\"ff00\"}",
    ),
    ("ZTEXT", b"eth0\0", " \"eth0\"", "\"eth0\""),
    (
        "ZTEXT",
        b"eth0",
        "no zero at the end: 0x65746830",
        "{\"bytes\":\"65746830\"}",
    ),
    (
        "HARDWARE",
        b"\x02\0\0\0\0\x01",
        " 02:00:00:00:00:01",
        "\"02:00:00:00:00:01\"",
    ),
    ("HARDWARE", b"", " empty", "\"\""),
    ("IPV4", b"\xc0\0\x02\x01", " 192.0.2.1", "\"192.0.2.1\""),
    (
        "IPV4",
        b"\xc0\0\x02",
        "shorter than 4 bytes: 0xc00002",
        "{\"bytes\":\"c00002\"}",
    ),
    (
        "IPV6",
        b"\x20\x01\x0d\xb8\0\0\0\0\0\0\0\0\0\0\0\x01",
        " 2001:db8::1",
        "\"2001:db8::1\"",
    ),
    ("IP", b"\x0a\x07\0\0", " 10.7.0.0", "\"10.7.0.0\""),
    (
        "IP",
        b"\0\0\0\0\0\0\0\0\0\0\0\0\0\0\0\x01",
        " ::1",
        "\"::1\"",
    ),
    (
        "IP",
        b"\x0a\x07",
        "no address of 4 or 16 bytes: 0x0a07",
        "{\"bytes\":\"0a07\"}",
    ),
    ("ADDRESS", b"\x7f\0\0\x01", " 127.0.0.1", "\"127.0.0.1\""),
    (
        "SOCKADDR",
        b"\x02\0\xca\x6c\xc0\0\x02\x01\0\0\0\0\0\0\0\0",
        " address 192.0.2.1 port 51820",
        "{\"address\":\"192.0.2.1\",\"port\":51820}",
    ),
    (
        "SOCKADDR",
        b"\x0a\0\x01\xf4\0\0\0\x05\xfe\x80\0\0\0\0\0\0\0\0\0\0\0\0\0\x01\x03\0\0\0",
        " address fe80::1 port 500 flowinfo 5 scope_id 3",
        "{\"address\":\"fe80::1\",\"port\":500,\"flowinfo\":5,\"scope_id\":3}",
    ),
    (
        "SOCKADDR",
        b"\x02\0\0\0",
        "no address of a socket: 0x02000000",
        "{\"bytes\":\"02000000\"}",
    ),
    (
        "UUID",
        b"\x01\x02\x03\x04\x05\x06\x07\x08\x09\x0a\x0b\x0c\x0d\x0e\x0f\x10",
        " 01020304-0506-0708-090a-0b0c0d0e0f10",
        "\"01020304-0506-0708-090a-0b0c0d0e0f10\"",
    ),
    (
        "UUID",
        b"\x01",
        "shorter than 16 bytes: 0x01",
        "{\"bytes\":\"01\"}",
    ),
    (
        "BITS",
        b"\x41\0\0\0\x43\0\0\0",
        " value up|running selector up|broadcast|running",
        "{\"value\":[\"up\",\"running\"],\"selector\":[\"up\",\"broadcast\",\"running\"]}",
    ),
    (
        "PLAINBITS",
        b"\x01\0\0\0\x03\0\0\0",
        " value 1 selector 3",
        "{\"value\":1,\"selector\":3}",
    ),
    (
        "BITS",
        b"\x01\0\0\0",
        "shorter than 8 bytes: 0x01000000",
        "{\"bytes\":\"01000000\"}",
    ),
    (
        "STRUCT",
        b"\x01\0\0\0\x01\x02a\0",
        " first 1 second 258 name \"a\"",
        "{\"first\":1,\"second\":258,\"name\":\"a\"}",
    ),
    // Shorter, a text cut off, and longer than the structure.
    (
        "STRUCT",
        b"\x01\0\0\0\x01\x02a",
        " first 1 second 258 name \"a\"",
        "{\"first\":1,\"second\":258,\"name\":\"a\"}",
    ),
    ("STRUCT", b"\x01\0\0\0\x01", " first 1", "{\"first\":1}"),
    ("STRUCT", b"", "", "{}"),
    (
        "STRUCT",
        b"\x01\0\0\0\x01\x02ab\0\xff",
        " first 1 second 258 name \"ab\"",
        "{\"first\":1,\"second\":258,\"name\":\"ab\"}",
    ),
    // A text that is none.
    (
        "STRUCT",
        b"\x01\0\0\0\x01\x02\xff\xfe",
        " first 1 second 258 name 0xfffe",
        "{\"first\":1,\"second\":258,\"name\":{\"bytes\":\"fffe\"}}",
    ),
    (
        "STRUCTS",
        b"\x01\0\0\0\x01\x02a\0\x02\0\0\0\0\x01b\0",
        " ( first 1 second 258 name \"a\" ) ( first 2 second 1 name \"b\" )",
        "[{\"first\":1,\"second\":258,\"name\":\"a\"},{\"first\":2,\"second\":1,\"name\":\"b\"}]",
    ),
    ("STRUCTS", b"", "", "[]"),
    (
        "STRUCTS",
        b"\x01",
        "no whole parts of 8 bytes: 0x01",
        "{\"bytes\":\"01\"}",
    ),
    (
        "EMPTIES",
        b"\x01",
        "no whole parts of 0 bytes: 0x01",
        "{\"bytes\":\"01\"}",
    ),
    (
        "NEST",
        b"\x04\0\x01\0",
        " 0x04000100",
        "{\"bytes\":\"04000100\"}",
    ),
    (
        "HOPS",
        b"\x04\0\0\0",
        " 0x04000000",
        "{\"bytes\":\"04000000\"}",
    ),
    ("BYTES", b"\x01\x02", " 0x0102", "{\"bytes\":\"0102\"}"),
    ("BYTES", b"", " empty", "{\"bytes\":\"\"}"),
    ("PAD", b"\0\0", " 0x0000", "{\"bytes\":\"0000\"}"),
    ("HEXBYTES", b"\x0a", " 0x0a", "{\"bytes\":\"0a\"}"),
    ("ENUM", b"\x06", " blackhole", "\"blackhole\""),
    ("ENUM", b"\x05", " 5", "5"),
    ("BEENUM", b"\0\x02", " local", "\"local\""),
    ("BEENUM", b"\x01\x2c", " 0x12c", "300"),
    (
        "FLAGS",
        b"\x43\0\x04\0",
        " up|broadcast|running|0x40000",
        "[\"up\",\"broadcast\",\"running\",\"0x40000\"]",
    ),
    // A row of two bits has its name where both are set.
    ("FLAGS", b"\x81\x01\0\0", " up|both", "[\"up\",\"both\"]"),
    ("FLAGS", b"\x80\0\0\0", " 0x80", "[\"0x80\"]"),
    ("FLAGS", b"\0\0\0\0", " 0", "[]"),
    ("BEFLAGS", b"\0\0\0\x01", " up", "[\"up\"]"),
    ("HEX", b"\xff\0\x01\0", " 0x100ff", "65791"),
];

/// Arrays, and a structure with fields of many kinds.
const LISTS: [(&str, &[u8], &str, &str); 11] = [
    ("ARRAY", b"\x01\0\x02\0\x03\x01", " 1 2 259", "[1,2,259]"),
    ("ARRAY", b"", "", "[]"),
    (
        "ARRAY",
        b"\x01\0\x02",
        "no whole parts of 2 bytes: 0x010002",
        "{\"bytes\":\"010002\"}",
    ),
    ("BEARRAY", b"\0\0\0\x0a\0\0\x01\0", " 0xa 0x100", "[10,256]"),
    (
        "ENUMS",
        b"\x01\x05\x02",
        " unicast 5 local",
        "[\"unicast\",5,\"local\"]",
    ),
    ("UINTS", b"\x01\0\0\0\x02\0\0\0", " 1 2", "[1,2]"),
    (
        "KINDS",
        b"\x41\0\x01\0\x0a\0\x0b\0\x02\0\0\0\0\x01\x01\x02\xc0\0\x02\x01\x01\x02\x03\x04",
        " flags up|running type unicast numbers 0xa 0xb mac 02:00:00:00:00:01 raw 0x0102 \
        short 192.0.2.1 inner 0x01020304",
        "{\"flags\":[\"up\",\"running\"],\"type\":\"unicast\",\"numbers\":[10,11],\
        \"mac\":\"02:00:00:00:00:01\",\"raw\":{\"bytes\":\"0102\"},\"short\":\"192.0.2.1\",\
        \"inner\":{\"bytes\":\"01020304\"}}",
    ),
    // A number that is cut off is left out, and a hardware address has what is left of it.
    (
        "KINDS",
        b"\0\0\x07\0\x0a\0\x0b\0\x02\0",
        " flags 0 type 7 numbers 0xa 0xb mac 02:00",
        "{\"flags\":[],\"type\":7,\"numbers\":[10,11],\"mac\":\"02:00\"}",
    ),
    ("KINDS", b"\0", "", "{}"),
    // Structures in a structure: as many as there are, or bytes where they are no whole ones.
    (
        "LIST",
        b"\x02\0\0\0\x01\0\0\0\x01\x02a\0\x02\0\0\0\0\x01b\0",
        " count 2 pairs ( first 1 second 258 name \"a\" ) ( first 2 second 1 name \"b\" )",
        "{\"count\":2,\"pairs\":[{\"first\":1,\"second\":258,\"name\":\"a\"},\
        {\"first\":2,\"second\":1,\"name\":\"b\"}]}",
    ),
    (
        "LIST",
        b"\x02\0\0\0\x01\0\0\0\x01\x02a\0\x02",
        " count 2 pairs 0x010000000102610002",
        "{\"count\":2,\"pairs\":{\"bytes\":\"010000000102610002\"}}",
    ),
];

/// What is kept of a text: each character but a zero at its end, and of a field what stands before its first zero.
/// Control characters of Unicode (category Cc) are escaped; directions of writing (Bidi_Control) are none.
const TEXTS: [(&str, &[u8], &str, &str); 6] = [
    ("TEXT", b"a\0\0", " \"a\\u0000\"", "\"a\\u0000\""),
    (
        "TEXT",
        b"\x7f\xc2\x80\xc2\x9f\xc2\xa0",
        " \"\\u007f\\u0080\\u009f\u{a0}\"",
        "\"\\u007f\\u0080\\u009f\u{a0}\"",
    ),
    (
        "TEXT",
        b"a\xe2\x80\xaeb\xe2\x81\xa6",
        " \"a\u{202e}b\u{2066}\"",
        "\"a\u{202e}b\u{2066}\"",
    ),
    ("ZTEXT", b"\0\0", " \"\\u0000\"", "\"\\u0000\""),
    (
        "STRUCT",
        b"\x01\0\0\0\x01\x02\0a",
        " first 1 second 258 name \"\"",
        "{\"first\":1,\"second\":258,\"name\":\"\"}",
    ),
    // A number that is cut off is left out, a text is not.
    (
        "STRUCT",
        b"\x01\0\0\0\x01\x02b",
        " first 1 second 258 name \"b\"",
        "{\"first\":1,\"second\":258,\"name\":\"b\"}",
    ),
];

/// Payloads of the recorded datagrams 0004 and 0009, by the tables that are built in; with the
/// values that pyroute2 reads, by their names in `linux/if_addr.h` and `linux/if.h`.
const RECORDED: [(RoutingTable, &str, &[u8], &str, &str); 9] = [
    (
        RoutingTable::RtAddr,
        "IFA_ADDRESS",
        b"\x7f\0\0\x01",
        " 127.0.0.1",
        "\"127.0.0.1\"",
    ),
    (
        RoutingTable::RtAddr,
        "IFA_LABEL",
        b"lo\0",
        " \"lo\"",
        "\"lo\"",
    ),
    (
        RoutingTable::RtAddr,
        "IFA_FLAGS",
        b"\x80\0\0\0",
        " permanent",
        "[\"permanent\"]",
    ),
    (
        RoutingTable::RtAddr,
        "IFA_CACHEINFO",
        b"\xff\xff\xff\xff\xff\xff\xff\xff\x86\x71\x03\0\x86\x71\x03\0",
        " ifa_prefered 4294967295 ifa_valid 4294967295 cstamp 225670 tstamp 225670",
        "{\"ifa_prefered\":4294967295,\"ifa_valid\":4294967295,\"cstamp\":225670,\
        \"tstamp\":225670}",
    ),
    (
        RoutingTable::RtLink,
        "IFLA_TXQLEN",
        b"\xe8\x03\0\0",
        " 1000",
        "1000",
    ),
    (
        RoutingTable::RtLink,
        "IFLA_OPERSTATE",
        b"\x02",
        " down",
        "\"down\"",
    ),
    (
        RoutingTable::RtLink,
        "IFLA_ADDRESS",
        b"\x02\0\0\0\0\x02",
        " 02:00:00:00:00:02",
        "\"02:00:00:00:00:02\"",
    ),
    (
        RoutingTable::RtLink,
        "IFLA_QDISC",
        b"noop\0",
        " \"noop\"",
        "\"noop\"",
    ),
    (
        RoutingTable::RtLink,
        "IFLA_TSO_MAX_SIZE",
        b"\xf8\xff\x07\0",
        " 524280",
        "524280",
    ),
];

/// The structures at the front of the datagrams 0004, 0009 and 0005; and of a route of which `ip` says `onlink linkdown`.
const STRUCTURES: [(RoutingTable, &str, &[u8], &str); 4] = [
    (
        RoutingTable::RtAddr,
        "ifaddrmsg",
        b"\x02\x08\x80\xfe\x01\0\0\0",
        " ifa_family 2 ifa_prefixlen 8 ifa_flags permanent ifa_scope host ifa_index 1",
    ),
    (
        RoutingTable::RtLink,
        "ifinfomsg",
        b"\0\0\x01\0\x02\0\0\0\x02\x10\0\0\xff\xff\xff\xff",
        " ifi_family 0 ifi_type ether ifi_index 2 ifi_flags broadcast|multicast \
        ifi_change 4294967295",
    ),
    (
        RoutingTable::RtRoute,
        "rtmsg",
        b"\x02\x08\0\0\xff\x02\xfe\x02\0\0\0\0",
        " rtm_family 2 rtm_dst_len 8 rtm_src_len 0 rtm_tos 0 rtm_table local rtm_protocol kernel \
        rtm_scope host rtm_type local rtm_flags 0",
    ),
    (
        RoutingTable::RtRoute,
        "rtmsg",
        b"\x02\0\0\0\xfe\x03\0\x01\x14\0\0\0",
        " rtm_family 2 rtm_dst_len 0 rtm_src_len 0 rtm_tos 0 rtm_table main rtm_protocol boot \
        rtm_scope universe rtm_type unicast rtm_flags onlink|linkdown",
    ),
];

/// The place of the line with this name; past the last line where there is none.
fn place_of(table: &Table<'_>, name: &[u8]) -> usize {
    let lines = table.lines();
    lines
        .iter()
        .position(|line| line.name == name)
        .unwrap_or(lines.len())
}

/// A payload as text, after its breach where it has one, and in JSON.
fn printed(alloc: Global, payload: Payload<'_, '_, '_>) -> Result<(String, String), Fail> {
    let (mut text, mut json) = (String::new(alloc), String::new(alloc));
    if let Some(breach) = breach_of(&payload) {
        write!(text, "{breach}:")?;
    }
    write!(text, "{}", PayloadText(payload))?;
    write!(json, "{}", PayloadJson(payload))?;
    Ok((text, json))
}

/// Asserts what payloads are printed as.
fn assert_printed(
    rt: &impl std::process::Abort,
    alloc: Global,
    rows: &[(&str, &[u8], &str, &str)],
) -> Result<(), Fail> {
    let Ok(table) = Table::read(alloc, TEXT.as_bytes()) else {
        assert_eq!(rt; "no table", "");
        return Ok(());
    };
    for (name, bytes, text, json) in rows {
        let place = place_of(&table, name.as_bytes());
        let table = &table;
        let printed = printed(
            alloc,
            Payload {
                table,
                place,
                bytes,
            },
        )?;
        assert_eq!(rt; printed.0.as_str(), *text, "at {name} {bytes:?}");
        assert_eq!(rt; printed.1.as_str(), *json, "at {name} {bytes:?}");
    }
    Ok(())
}

#[test]
fn payloads_are_printed(rt: HostRuntime) -> Result<(), Fail> {
    assert_printed(&rt, rt.alloc(), &VALUES)
}

#[test]
fn recorded_payloads_are_printed(rt: HostRuntime) -> Result<(), Fail> {
    let alloc = rt.alloc();
    for (routing, name, bytes, text, json) in RECORDED {
        let Ok(table) = Table::read(alloc, routing.text()) else {
            assert_eq!(rt; "no table", "");
            return Ok(());
        };
        let place = place_of(&table, name.as_bytes());
        let table = &table;
        let printed = printed(
            alloc,
            Payload {
                table,
                place,
                bytes,
            },
        )?;
        assert_eq!(rt; printed.0.as_str(), text, "at {name}");
        assert_eq!(rt; printed.1.as_str(), json, "at {name}");
    }
    for (routing, name, bytes, wanted) in STRUCTURES {
        let Ok(table) = Table::read(alloc, routing.text()) else {
            assert_eq!(rt; "no table", "");
            return Ok(());
        };
        let place = place_of(&table, name.as_bytes());
        let table = &table;
        let mut text = String::new(alloc);
        write!(
            text,
            "{}",
            FieldsText(Fields {
                table,
                place,
                bytes
            })
        )?;
        assert_eq!(rt; text.as_str(), wanted, "at {name}");
    }
    Ok(())
}

#[test]
fn fields_are_printed(rt: HostRuntime) -> Result<(), Fail> {
    let alloc = rt.alloc();
    let Ok(table) = Table::read(alloc, TEXT.as_bytes()) else {
        assert_eq!(rt; "no table", "");
        return Ok(());
    };
    let fields = Fields {
        table: &table,
        place: place_of(&table, b"pair"),
        bytes: b"\x01\0\0\0\x01\x02a\0",
    };
    let (mut text, mut json) = (String::new(alloc), String::new(alloc));
    write!(text, "{}", FieldsText(fields))?;
    write!(json, "{}", FieldsJson(fields))?;
    assert_eq!(rt; text.as_str(), " first 1 second 258 name \"a\"");
    assert_eq!(rt;
        json.as_str(),
        "{\"first\":1,\"second\":258,\"name\":\"a\"}"
    );
    Ok(())
}

/// Payloads, and the number that each is where nothing but its digits is printed.
const DIGITS: [(&[u8], &[u8], Option<(u64, Option<i64>)>); 9] = [
    (b"U8", b"\xfe", Some((254, None))),
    (b"U16", b"\x01\x02", Some((513, None))),
    (b"U32", b"\x01\0\0\x80", Some((2147483649, None))),
    (b"U64", b"\0\0\0\0\x01\0\0\0", Some((4294967296, None))),
    (b"S32", b"\xfe\xff\xff\xff", Some((4294967294, Some(-2)))),
    // Too short, of another kind, with names of values, and several.
    (b"U32", b"\x01\0\0", None),
    (b"BE16", b"\x01\x02", None),
    (b"ENUM", b"\x01", None),
    (b"STRUCTS", b"\x01\0\0\0\0\x02\0\0", None),
];

#[test]
fn payloads_that_are_one_number_are_its_digits(rt: HostRuntime) -> Result<(), Fail> {
    let alloc = rt.alloc();
    let Ok(table) = Table::read(alloc, TEXT.as_bytes()) else {
        assert_eq!(rt; "no table", "");
        return Ok(());
    };
    for (name, bytes, wanted) in DIGITS {
        let payload = Payload {
            table: &table,
            place: place_of(&table, name),
            bytes,
        };
        let found = payload.digits().map(|number| (number.bits, number.signed));
        assert_eq!(rt; found, wanted, "at {name:?}");
    }
    Ok(())
}

#[test]
fn a_line_that_is_not_there_is_of_bytes(rt: HostRuntime) -> Result<(), Fail> {
    let alloc = rt.alloc();
    let Ok(table) = Table::read(alloc, TEXT.as_bytes()) else {
        assert_eq!(rt; "no table", "");
        return Ok(());
    };
    let payload = Payload {
        table: &table,
        place: table.lines().len(),
        bytes: b"\x01\x02",
    };
    let (text, json) = printed(alloc, payload)?;
    assert_eq!(rt; text.as_str(), " 0x0102");
    assert_eq!(rt; json.as_str(), "{\"bytes\":\"0102\"}");
    Ok(())
}

#[test]
fn names_are_escaped(rt: HostRuntime) -> Result<(), Fail> {
    let alloc = rt.alloc();
    let rows: [(&[u8], &str, &str); 4] = [
        (b"IFLA_MTU", "IFLA_MTU", "\"IFLA_MTU\""),
        (b"a\"b", "a\\\"b", "\"a\\\"b\""),
        (b"\x1b[31m", "\\u001b[31m", "\"\\u001b[31m\""),
        (b"\xffA", "ff41", "\"ff41\""),
    ];
    for (name, wanted, wanted_json) in rows {
        let (mut text, mut json) = (String::new(alloc), String::new(alloc));
        write!(text, "{}", Name(name))?;
        write!(json, "{}", NameJson(name))?;
        assert_eq!(rt; text.as_str(), wanted, "at {name:?}");
        assert_eq!(rt; json.as_str(), wanted_json, "at {name:?}");
    }
    Ok(())
}

#[test]
fn names_of_lines_are_escaped(rt: HostRuntime) -> Result<(), Fail> {
    let alloc = rt.alloc();
    let lines =
        "family f 0\nstruct a\"b 3\n  field plain 0..1 u8\n  field \x1b[ 1..2 u8\n  field ä 2..3 u8\n";
    let table = Table::read(alloc, lines.as_bytes())?;
    for (place, wanted) in [
        (0, "f"),
        (1, "a\\\"b"),
        (2, "plain"),
        (3, "\\u001b["),
        (4, "ä"),
        (5, ""),
    ] {
        let mut text = String::new(alloc);
        let table = &table;
        write!(text, "{}", LineName { table, place })?;
        assert_eq!(rt; text.as_str(), wanted, "at {place}");
    }
    let fields = Fields {
        table: &table,
        place: 1,
        bytes: b"\x07\x08\x09",
    };
    let (mut text, mut json) = (String::new(alloc), String::new(alloc));
    write!(text, "{}", FieldsText(fields))?;
    write!(json, "{}", FieldsJson(fields))?;
    assert_eq!(rt; text.as_str(), " plain 7 \\u001b[ 8 ä 9");
    assert_eq!(rt; json.as_str(), "{\"plain\":7,\"\\u001b[\":8,\"ä\":9}");
    Ok(())
}

#[test]
fn texts_are_kept(rt: HostRuntime) -> Result<(), Fail> {
    assert_printed(&rt, rt.alloc(), &TEXTS)
}

#[test]
fn lists_are_printed(rt: HostRuntime) -> Result<(), Fail> {
    assert_printed(&rt, rt.alloc(), &LISTS)
}
