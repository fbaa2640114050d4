//! What is found in tables: `neli_tables`.

use neli_tables::{
    Kind, Options, ReadError, Span, Table, Tables, Way, Why, is_set, options_of, prefix_of,
    unnamed_bits,
};

/// A table with a line of each sort.
pub const LINKS: &str = "family rt-link 0
group RTNLGRP_LINK 1
message RTM_NEWLINK 16 nest=link-attrs after=ifinfomsg
struct ifinfomsg 16
  field ifi_family 0..1 u8
  field ifi_type 2..4 u16 enum=hardware-type
  field ifi_index 4..8 s32
  field ifi_flags 8..12 u32 flags=ifinfo-flags hex
enum hardware-type prefix=ARPHRD_
  value ether 1
  value loopback 772
  value again 1
flags ifinfo-flags prefix=IFF_
  value none 0
  value up 0x1
  value running 0x40
  value pair 0xc00
set link-attrs
  attr IFLA_ADDRESS 1 hardware length=0..32
  attr IFLA_IFNAME 3 text length=1..15
  attr IFLA_TXQLEN 13 u32 range=0..32767 mask=0xffff array
  attr IFLA_LINKINFO 18 nest=linkinfo-attrs multi
  attr IFLA_SECOND 3 u8
set linkinfo-attrs
  attr IFLA_INFO_KIND 1 text
  attr IFLA_INFO_DATA 2 choice=linkinfo-data-msg by=IFLA_INFO_KIND
  each IFLA_INFO_OTHER bytes
choice linkinfo-data-msg
  case vlan nest=linkinfo-vlan-attrs
  case bridge 7 u8
  case netkit nest=linkinfo-netkit-attrs
  case vlan u8
  else other bytes
choice bare
  case inet 2 ipv4
set linkinfo-vlan-attrs
set linkinfo-netkit-attrs
";

/// Sockets, whose messages are of a way and of a body's first byte, in another order than they are sought.
pub const SOCKETS: &str = "family sock-diag 4
message EVERY 20 u8
message REPLY 20 reply u8
message REQUEST 20 request u8
message INET 20 family=2 u8
message INET_REQUEST 20 request family=2 u8
message UNIX_REPLY 20 reply family=1 u8
message UNIX_REPLY_AGAIN 20 reply family=1 u8
message BOTH 21 request reply u8
message LONG 22 family=300 u8
";

/// The name of what is found in a table.
fn name_of<'a>(table: &'a Table<'_>, place: Option<usize>) -> &'a [u8] {
    match place {
        Some(place) => match table.line(place) {
            Some(line) => line.name,
            None => b"no line",
        },
        None => b"none",
    }
}

/// The place of the line with this name.
fn place_of(table: &Table<'_>, name: &[u8]) -> usize {
    table
        .lines()
        .iter()
        .position(|line| line.name == name)
        .unwrap_or(0)
}

/// What the options of the line with this name say.
fn options_at(table: &Table<'_>, name: &[u8]) -> Options {
    options_of(&table.lines()[place_of(table, name)])
}

#[test]
fn rows_are_found_by_their_numbers(rt: HostRuntime) -> Result<(), ReadError> {
    let table = Table::read(rt.alloc(), LINKS.as_bytes())?;
    let rows: [(&[u8], u64, &[u8]); 12] = [
        (b"link-attrs", 1, b"IFLA_ADDRESS"),
        (b"link-attrs", 3, b"IFLA_IFNAME"),
        (b"link-attrs", 18, b"IFLA_LINKINFO"),
        (b"link-attrs", 2, b"none"),
        (b"linkinfo-attrs", 2, b"IFLA_INFO_DATA"),
        (b"linkinfo-attrs", 18, b"IFLA_INFO_OTHER"),
        (b"linkinfo-vlan-attrs", 1, b"none"),
        (b"hardware-type", 1, b"ether"),
        (b"hardware-type", 772, b"loopback"),
        (b"linkinfo-data-msg", 7, b"bridge"),
        (b"linkinfo-data-msg", 8, b"other"),
        (b"bare", 3, b"none"),
    ];
    for (section, number, wanted) in rows {
        let found = table.row(place_of(&table, section), number);
        assert_eq!(rt; name_of(&table, found), wanted, "at {section:?} {number}");
    }
    assert_eq!(rt; name_of(&table, table.group(1)), b"RTNLGRP_LINK".as_slice());
    assert_eq!(rt; table.group(2), None);
    assert_eq!(rt; table.row(9999, 1), None);
    Ok(())
}

#[test]
fn cases_are_picked_by_their_texts(rt: HostRuntime) -> Result<(), ReadError> {
    let table = Table::read(rt.alloc(), LINKS.as_bytes())?;
    let choice = place_of(&table, b"linkinfo-data-msg");
    let rows: [(usize, &[u8], Option<usize>); 5] = [
        (choice, b"vlan", Some(choice + 1)),
        (choice, b"netkit", Some(choice + 3)),
        (choice, b"bridge", Some(choice + 5)),
        (choice, b"", Some(choice + 5)),
        (place_of(&table, b"bare"), b"inet", None),
    ];
    for (choice, text, wanted) in rows {
        assert_eq!(rt; table.case(choice, text), wanted, "at {text:?}");
    }
    Ok(())
}

#[test]
fn rows_of_a_section_are_in_order(rt: HostRuntime) -> Result<(), ReadError> {
    let table = Table::read(rt.alloc(), LINKS.as_bytes())?;
    let rows: [(&[u8], usize, &[u8]); 5] = [
        (b"ifinfomsg", 4, b"ifi_family"),
        (b"hardware-type", 3, b"ether"),
        (b"linkinfo-data-msg", 5, b"vlan"),
        (b"linkinfo-netkit-attrs", 0, b""),
        (b"rt-link", 0, b""),
    ];
    for (section, count, first) in rows {
        let found = table.rows(place_of(&table, section));
        assert_eq!(rt; found.len(), count, "at {section:?}");
        let name = if count == 0 { b"" } else { found[0].name };
        assert_eq!(rt; name, first, "at {section:?}");
    }
    assert_eq!(rt; table.rows(9999).len(), 0);
    let field = table.rows(place_of(&table, b"ifinfomsg"))[3].span;
    assert_eq!(rt; field, Some(Span { first: 8, last: 12 }));
    Ok(())
}

#[test]
fn options_of_rows_are_in_order(rt: HostRuntime) -> Result<(), ReadError> {
    let table = Table::read(rt.alloc(), LINKS.as_bytes())?;
    let names = place_of(&table, b"hardware-type");
    let wanted = [
        (Some(Kind::U8), None, false),
        (Some(Kind::U16), Some(names), false),
        (Some(Kind::S32), None, false),
        (Some(Kind::U32), None, true),
    ];
    let found = table.row_options(place_of(&table, b"ifinfomsg"));
    assert_eq!(rt; found.len(), wanted.len());
    for (options, wanted) in found.iter().zip(wanted) {
        assert_eq!(rt; (options.kind, options.values, options.hex), wanted);
    }
    for section in [b"linkinfo-netkit-attrs".as_slice(), b"rt-link"] {
        assert!(rt; table.row_options(place_of(&table, section)).is_empty());
    }
    assert!(rt; table.row_options(9999).is_empty());
    Ok(())
}

#[test]
fn columns_are_of_fields_without_names_of_values(rt: HostRuntime) -> Result<(), ReadError> {
    let table = Table::read(rt.alloc(), LINKS.as_bytes())?;
    let wanted = [
        Some((0, 1, Kind::U8, " ifi_family ", "\"ifi_family\":")),
        None,
        Some((4, 8, Kind::S32, " ifi_index ", "\"ifi_index\":")),
        None,
    ];
    let found = table.row_columns(place_of(&table, b"ifinfomsg"));
    assert_eq!(rt; found.len(), wanted.len());
    for (column, wanted) in found.iter().zip(wanted) {
        let column = match column {
            Some(it) => Some((it.start, it.end, it.kind, &*it.text, &*it.json)),
            None => None,
        };
        assert_eq!(rt; column, wanted);
    }
    assert!(rt; table.row_columns(9999).is_empty());
    Ok(())
}

#[test]
fn names_without_escapes_are_kept(rt: HostRuntime) -> Result<(), ReadError> {
    let text = "family rt-link 0\nenum named\n  value up\"per 1\n  value ~lower~ 2\n  value ä 3\n";
    let table = Table::read(rt.alloc(), text.as_bytes())?;
    let wanted = [None, Some("~lower~"), None];
    assert_eq!(rt; table.row_names(1), wanted.as_slice());
    for (index, name) in wanted.iter().enumerate() {
        assert_eq!(rt; table.plain_name(2 + index), *name, "at {index}");
    }
    assert_eq!(rt; table.plain_name(0), Some("rt-link"));
    assert_eq!(rt; table.plain_name(5), None);
    assert!(rt; table.row_names(0).is_empty());
    assert!(rt; table.row_names(9999).is_empty());
    Ok(())
}

#[test]
fn options_are_typed(rt: HostRuntime) -> Result<(), ReadError> {
    let table = Table::read(rt.alloc(), LINKS.as_bytes())?;
    let data = options_at(&table, b"IFLA_INFO_DATA");
    assert_eq!(rt; data.kind, Some(Kind::Choice));
    assert_eq!(rt; data.of, Some(place_of(&table, b"linkinfo-data-msg")));
    assert_eq!(rt; data.by, Some(place_of(&table, b"IFLA_INFO_KIND")));
    let message = options_at(&table, b"RTM_NEWLINK");
    assert_eq!(rt; message.of, Some(place_of(&table, b"link-attrs")));
    assert_eq!(rt; message.after, Some(place_of(&table, b"ifinfomsg")));
    let queue = options_at(&table, b"IFLA_TXQLEN");
    assert_eq!(rt;
        queue.range,
        Some(Span {
            first: 0,
            last: 32767
        })
    );
    assert_eq!(rt;
        (queue.mask, queue.array, queue.multi),
        (Some(0xffff), true, false)
    );
    let flags = options_at(&table, b"ifi_flags");
    assert_eq!(rt; flags.flags, Some(place_of(&table, b"ifinfo-flags")));
    assert_eq!(rt; (flags.hex, flags.values), (true, None));
    let kind = options_at(&table, b"ifi_type");
    assert_eq!(rt; kind.values, Some(place_of(&table, b"hardware-type")));
    assert_eq!(rt; options_at(&table, b"IFLA_LINKINFO").multi, true);
    let address = options_at(&table, b"IFLA_ADDRESS");
    assert_eq!(rt; address.length, Some(Span { first: 0, last: 32 }));
    let flags = &table.lines()[place_of(&table, b"ifinfo-flags")];
    assert_eq!(rt; prefix_of(flags), Some(b"IFF_".as_slice()));
    assert_eq!(rt; prefix_of(&table.lines()[0]), None);
    Ok(())
}

#[test]
fn options_of_families_and_messages_are_typed(rt: HostRuntime) -> Result<(), ReadError> {
    let text =
        "family g 16 version=2 id=16 at=20..24\nmessage M 1 request family=7 choice=c by-family\nchoice c";
    let table = Table::read(rt.alloc(), text.as_bytes())?;
    let family = options_of(&table.lines()[0]);
    assert_eq!(rt; (family.version, family.id), (Some(2), Some(16)));
    assert_eq!(rt;
        family.at,
        Some(Span {
            first: 20,
            last: 24
        })
    );
    let message = options_of(&table.lines()[1]);
    assert_eq!(rt; (message.request, message.reply), (true, false));
    assert_eq!(rt; (message.family, message.by_family), (Some(7), true));
    Ok(())
}

#[test]
fn bits_have_names_or_are_kept(rt: HostRuntime) -> Result<(), ReadError> {
    let table = Table::read(rt.alloc(), LINKS.as_bytes())?;
    let rows = table.rows(place_of(&table, b"ifinfo-flags"));
    let names = |bits: u64| rows.iter().filter(|row| is_set(row, bits)).count();
    let values: [(u64, usize, u64); 6] = [
        (0, 0, 0),
        (0x1, 1, 0),
        (0x41, 2, 0),
        (0x1_0041, 2, 0x1_0000),
        // Of two bits that have a name together, one alone has none.
        (0x400, 0, 0x400),
        (0xc40, 2, 0),
    ];
    for (bits, count, left) in values {
        assert_eq!(rt; names(bits), count, "at {bits}");
        assert_eq!(rt; unnamed_bits(rows, bits), left, "at {bits}");
    }
    Ok(())
}

#[test]
fn messages_are_found_by_way_and_first_byte(rt: HostRuntime) -> Result<(), ReadError> {
    let table = Table::read(rt.alloc(), SOCKETS.as_bytes())?;
    let rows: [(Way, Option<u8>, u64, &[u8]); 12] = [
        (Way::Request, Some(2), 20, b"INET_REQUEST"),
        (Way::Reply, Some(2), 20, b"INET"),
        (Way::Request, Some(1), 20, b"REQUEST"),
        (Way::Reply, Some(1), 20, b"UNIX_REPLY"),
        (Way::Request, Some(9), 20, b"REQUEST"),
        (Way::Reply, Some(9), 20, b"REPLY"),
        (Way::Request, None, 20, b"REQUEST"),
        (Way::Reply, None, 20, b"REPLY"),
        (Way::Request, None, 21, b"BOTH"),
        (Way::Reply, Some(2), 21, b"BOTH"),
        (Way::Request, Some(44), 22, b"none"),
        (Way::Request, None, 23, b"none"),
    ];
    for (way, first, number, wanted) in rows {
        let found = table.message(way, first, number);
        assert_eq!(rt;
            name_of(&table, found),
            wanted,
            "at {way:?} {first:?} {number}"
        );
    }
    Ok(())
}

#[test]
fn bad_texts_are_no_tables(rt: HostRuntime) {
    let table = Table::read(rt.alloc(), b"family f 0\nset s 1\n").map(|table| table.lines().len());
    assert_eq!(rt; table, Err(ReadError::Line(2, Why::NumberElsewhere)));
}
