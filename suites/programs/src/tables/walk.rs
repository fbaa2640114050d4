//! Walks by a table: `neli_tables_walk`.

use neli_tables::Table;
use neli_tables_walk::{Context, Item, Nest, Shape, Walk};
use std::alloc::Global;
use std::fmt::Write;
use std::test::Fail;

/// A table with nests, hops, and choices by a neighbour, by one further out and by the family.
const TEXT: &str = "family f 0
message BODY 1 nest=attrs after=head
message EMPTY 2
struct head 8
struct hop 8
struct qopt 6
set attrs
  attr NAME 1 text
  attr INFO 2 nest=info
  attr HOPS 3 hops=attrs after=hop
  attr SPEC 4 choice=spec by-family
  attr NUMBER 5 be16
  attr BY_NUMBER 6 choice=numbers by=NUMBER
  each LIST nest=attrs
set info
  attr KIND 1 text
  attr DATA 2 choice=data by=KIND
  attr STATS 3 nest=stats
  attr DEEP 4 nest=info
set stats
  attr FIRST 1 u32
  attr APP 2 choice=data by=KIND
choice data
  case vlan nest=vlan
  case netem nest=vlan after=qopt
  else other u64
choice spec
  case inet 2 nest=vlan
choice numbers
  case one 256 u32
set vlan
  attr ID 1 u16
";

/// Bodies, and what a walk gives: of each item the numbers of its path, its payload, and what that
/// is.
const WALKS: [(&[u8], &str); 15] = [
    (b"\x06\0\x01\0ab\0\0", "1:6162 NAME"),
    // A nest that is not marked as one, and what picks it behind it.
    (
        b"\x1c\0\x02\0\x0c\0\x02\0\x06\0\x01\0\x05\0\0\0\x09\0\x01\0vlan\0\0\0\0",
        "2:0c000200060001000500000009000100766c616e00000000 nest; \
        2.2:0600010005000000 nest; \
        2.2.1:0500 ID; \
        2.1:766c616e00 KIND",
    ),
    // Two hops, the second without attributes.
    (
        b"\x1c\0\x03\0\x10\0\0\0\x01\0\0\0\x06\0\x01\0ab\0\0\x08\0\0\0\x02\0\0\0",
        "3:100000000100000006000100616200000800000002000000 hops; \
        3.h:10000000010000000600010061620000 nest; \
        3.h.1:6162 NAME; \
        3.h:0800000002000000 nest",
    ),
    // Bytes behind a hop that are none.
    (
        b"\x10\0\x03\0\x08\0\0\0\x02\0\0\0\x07\0\0\0",
        "3:080000000200000007000000 hops; \
        3.h:0800000002000000 nest; \
        3:07000000 rest",
    ),
    // By the family of the body, which is 2.
    (
        b"\x0c\0\x04\0\x06\0\x01\0\x05\0\0\0",
        "4:0600010005000000 nest; 4.1:0500 ID",
    ),
    // By a number, the highest byte first.
    (
        b"\x06\0\x05\0\x01\0\0\0\x08\0\x06\0\x01\x02\x03\x04",
        "5:0100 NUMBER; 6:01020304 one",
    ),
    // Nothing picks.
    (b"\x08\0\x06\0\x01\x02\x03\x04", "6:01020304 bytes"),
    // A text that no case has.
    (
        b"\x18\0\x02\0\x05\0\x01\0x\0\0\0\x0c\0\x02\0\x31\x32\x33\x34\x35\x36\x37\x38",
        "2:05000100780000000c0002003132333435363738 nest; \
        2.1:78 KIND; \
        2.2:3132333435363738 other",
    ),
    // By an attribute further out; where it stands, 1 is another. The structure before the
    // attributes is padded.
    (
        b"\x30\0\x02\0\x0a\0\x01\0netem\0\0\0\x20\0\x03\0\x08\0\x01\0\0\0\0\0\x14\0\x02\0\x01\
        \x02\x03\x04\x05\x06\0\0\x06\0\x01\0\x05\0\0\0",
        "2:0a0001006e6574656d000000200003000800010000000000140002000102030405060000060001000500\
        0000 nest; \
        2.1:6e6574656d00 KIND; \
        2.3:08000100000000001400020001020304050600000600010005000000 nest; \
        2.3.1:00000000 FIRST; \
        2.3.2:01020304050600000600010005000000 nest; \
        2.3.2.1:0500 ID",
    ),
    // Less than the structure before the attributes.
    (
        b"\x18\0\x02\0\x09\0\x01\0netem\0\0\0\x06\0\x02\0\x01\x02\0\0",
        "2:090001006e6574656d0000000600020001020000 nest; \
        2.1:6e6574656d KIND; \
        2.2:0102 short",
    ),
    // The row of every other number, with a flag of its type.
    (
        b"\x0c\0\x09\x80\x06\0\x01\0ab\0\0",
        "9:0600010061620000 nest; 9.1:6162 NAME",
    ),
    // Bytes that are no attribute.
    (b"\x06\0\x01\0ab\0\0\x03\0", "1:6162 NAME; :0300 rest"),
    // Bytes that are no attribute in a nest, and an attribute behind it.
    (
        b"\x08\0\x02\0\x03\0\x01\0\x06\0\x01\0ab\0\0",
        "2:03000100 nest; 2:03000100 rest; 1:6162 NAME",
    ),
    // Nothing.
    (b"", ""),
    // Ten lists are open at most.
    (
        b"\x2c\0\x09\0\x28\0\x09\0\x24\0\x09\0\x20\0\x09\0\x1c\0\x09\0\x18\0\x09\0\x14\0\x09\0\
        \x10\0\x09\0\x0c\0\x09\0\x08\0\x09\0\x04\0\x09\0",
        "9:\
        2800090024000900200009001c0009001800090014000900100009000c0009000800090004000900 nest; \
        9.9:24000900200009001c0009001800090014000900100009000c0009000800090004000900 nest; \
        9.9.9:200009001c0009001800090014000900100009000c0009000800090004000900 nest; \
        9.9.9.9:1c0009001800090014000900100009000c0009000800090004000900 nest; \
        9.9.9.9.9:1800090014000900100009000c0009000800090004000900 nest; \
        9.9.9.9.9.9:14000900100009000c0009000800090004000900 nest; \
        9.9.9.9.9.9.9:100009000c0009000800090004000900 nest; \
        9.9.9.9.9.9.9.9:0c0009000800090004000900 nest; \
        9.9.9.9.9.9.9.9.9:0800090004000900 nest; \
        9.9.9.9.9.9.9.9.9.9:04000900 deep",
    ),
];

/// The name of the line at this place.
fn name_of<'a>(table: &'a Table<'_>, place: usize) -> &'a [u8] {
    match table.line(place) {
        Some(line) => line.name,
        None => b"no line",
    }
}

/// The place of the line with this name; past the last line where there is none.
fn place_of(table: &Table<'_>, name: &[u8]) -> usize {
    let lines = table.lines();
    lines
        .iter()
        .position(|line| line.name == name)
        .unwrap_or(lines.len())
}

/// Writes the numbers of a path, with a dot between them.
fn write_path(text: &mut String, item: &Item<'_>) -> Result<(), Fail> {
    for (index, step) in item.path.steps().iter().enumerate() {
        if 0 < index {
            write!(text, ".")?;
        }
        match step.number {
            Some(number) => write!(text, "{number}")?,
            None => write!(text, "h")?,
        }
    }
    Ok(())
}

/// Writes bytes as hexadecimal digits, after a colon, and a blank.
fn write_bytes(text: &mut String, bytes: &[u8]) -> Result<(), Fail> {
    write!(text, ":")?;
    for byte in bytes {
        write!(text, "{byte:02x}")?;
    }
    write!(text, " ")?;
    Ok(())
}

/// Writes what a payload is.
fn write_shape(text: &mut String, table: &Table<'_>, shape: Shape) -> Result<(), Fail> {
    match shape {
        Shape::Row(place) => {
            for byte in name_of(table, place) {
                text.push(*byte as char)?;
            }
        }
        Shape::Nest(_) => write!(text, "nest")?,
        Shape::Hops(_) => write!(text, "hops")?,
        Shape::Bytes => write!(text, "bytes")?,
        Shape::Short(_) => write!(text, "short")?,
        Shape::Deep(_) => write!(text, "deep")?,
    }
    Ok(())
}

/// What a walk over a body gives, as a text.
fn walked(alloc: Global, table: &Table<'_>, nest: Nest, body: &[u8]) -> Result<String, Fail> {
    let mut text = String::new(alloc);
    for item in Walk::new(Context { table, family: 2 }, nest, body) {
        if !text.is_empty() {
            write!(text, "; ")?;
        }
        write_path(&mut text, &item)?;
        match item.content {
            Ok(found) => {
                write_bytes(&mut text, found.payload)?;
                write_shape(&mut text, table, found.shape)?;
            }
            Err(rest) => {
                write_bytes(&mut text, rest.bytes)?;
                write!(text, "rest")?;
            }
        }
    }
    Ok(text)
}

#[test]
fn bodies_are_walked(rt: HostRuntime) -> Result<(), Fail> {
    let alloc = rt.alloc();
    let Ok(table) = Table::read(alloc, TEXT.as_bytes()) else {
        assert_eq!(rt; "no table", "");
        return Ok(());
    };
    let nest = Nest {
        set: place_of(&table, b"attrs"),
        after: None,
        header: 0,
    };
    for (body, wanted) in WALKS {
        let text = walked(alloc, &table, nest, body)?;
        assert_eq!(rt; text.as_str(), wanted, "at {body:?}");
    }
    Ok(())
}

#[test]
fn a_body_is_what_its_message_says(rt: HostRuntime) -> Result<(), Fail> {
    let alloc = rt.alloc();
    let Ok(table) = Table::read(alloc, TEXT.as_bytes()) else {
        assert_eq!(rt; "no table", "");
        return Ok(());
    };
    let context = Context {
        table: &table,
        family: 0,
    };
    let nest = Nest {
        set: place_of(&table, b"attrs"),
        after: Some(place_of(&table, b"head")),
        header: 8,
    };
    let message = place_of(&table, b"BODY");
    let empty = place_of(&table, b"EMPTY");
    assert_eq!(rt; context.body_shape(message, b"12345678"), Shape::Nest(nest));
    assert_eq!(rt; context.body_shape(message, b"1234567"), Shape::Short(nest));
    assert_eq!(rt; context.body_shape(empty, b""), Shape::Row(empty));
    assert_eq!(rt; context.body_shape(table.lines().len(), b""), Shape::Bytes);
    let text = walked(alloc, &table, nest, b"12345678\x06\0\x01\0ab\0\0")?;
    assert_eq!(rt; text.as_str(), "1:6162 NAME");
    Ok(())
}
