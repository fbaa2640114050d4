//! The reading of a line.

use neli_tables::{Line, Said, Value, read_table};
use std::alloc::Global;
use std::fmt::Write;
use std::test::Fail;

/// The reading of a line: its number in the text, its first word, its name, its numbers and its options.
fn shown(alloc: Global, line: &Line<'_>) -> Result<String, Fail> {
    let mut text = String::new(alloc);
    let (number, word, name) = (line.number, line.word, str::from_utf8(line.name)?);
    write!(text, "{number} {word:?} {name}")?;
    if let Some(span) = line.span {
        let (first, last) = (span.first, span.last);
        write!(text, " {first}..{last}")?;
    }
    for setting in &line.settings {
        match setting.said {
            Said::Kind(kind) => write!(text, " {kind:?}")?,
            Said::Key(key) => write!(text, " {key:?}")?,
        }
        match setting.value {
            Value::Nothing => {}
            Value::Word(word) => {
                let word = str::from_utf8(word)?;
                write!(text, "={word}")?;
            }
            Value::Span(span) => {
                let (first, last) = (span.first, span.last);
                write!(text, "={first}..{last}")?;
            }
            Value::Line(place) => write!(text, "=line {place}")?,
        }
    }
    Ok(text)
}

/// The lines above: a comment, an empty line, and eight lines with words, which options refer to by their places.
const ABOVE: &str =
    "# a family\n\nfamily f 0\nset s\nenum e\nstruct t 4\nchoice c\nflags b\nset other\n  attr KEY 1 u8\n";

/// The line below those, the row below it, and the reading of this row.
const ROWS: [(&str, &str, &str); 33] = [
    ("set x", "attr A 16", "12 Attr A 16..16"),
    ("set x", "attr A 0 u8", "12 Attr A 0..0 U8"),
    ("set x", "attr A 0x1f u16", "12 Attr A 31..31 U16"),
    (
        "set x",
        "attr   A   007   u32   # u64",
        "12 Attr A 7..7 U32",
    ),
    (
        "set x",
        "attr A 18446744073709551615 u64 range=0..0xffffffffffffffff",
        "12 Attr A 18446744073709551615..18446744073709551615 U64 Range=0..18446744073709551615",
    ),
    (
        "set x",
        "attr A 1 s8 range=5",
        "12 Attr A 1..1 S8 Range=5..5",
    ),
    (
        "set x",
        "attr A 1 be32 enum=e hex",
        "12 Attr A 1..1 Be32 Enum=line 2 Hex",
    ),
    (
        "set x",
        "attr A 1 hex flags=b sbe32",
        "12 Attr A 1..1 Hex Flags=line 5 Sbe32",
    ),
    (
        "set x",
        "attr A 1 uint mask=0x7 array",
        "12 Attr A 1..1 Uint Mask=7..7 Array",
    ),
    (
        "set x",
        "attr A 1 bits flags=b",
        "12 Attr A 1..1 Bits Flags=line 5",
    ),
    (
        "set x",
        "attr A 1 ztext length=1..15",
        "12 Attr A 1..1 Ztext Length=1..15",
    ),
    (
        "set x",
        "attr A 1 bytes hex length=6",
        "12 Attr A 1..1 Bytes Hex Length=6..6",
    ),
    (
        "set x",
        "attr A 1 nest=s multi",
        "12 Attr A 1..1 Nest=line 1 Multi",
    ),
    (
        "set x",
        "attr A 1 after=t nest=x",
        "12 Attr A 1..1 After=line 3 Nest=line 8",
    ),
    (
        "set x",
        "attr A 1 hops=after after=t",
        "12 Attr A 1..1 Hops=line 10 After=line 3",
    ),
    (
        "set x",
        "attr A 1 struct=t array",
        "12 Attr A 1..1 Struct=line 3 Array",
    ),
    (
        "set x",
        "attr A 1 choice=c by=KEY",
        "12 Attr A 1..1 Choice=line 4 By=line 7",
    ),
    (
        "set x",
        "attr A 1 choice=c by=A",
        "12 Attr A 1..1 Choice=line 4 By=line 9",
    ),
    (
        "set x",
        "attr A 1 choice=c by-family",
        "12 Attr A 1..1 Choice=line 4 ByFamily",
    ),
    ("set x", "each A nest=s", "12 Each A Nest=line 1"),
    ("enum x", "value v 0x10", "12 Value v 16..16"),
    ("flags x prefix=X_", "value v 3", "12 Value v 3..3"),
    ("struct x 8", "field F 0..4 u32", "12 Field F 0..4 U32"),
    ("struct x 8", "field F 4 pad", "12 Field F 4..4 Pad"),
    ("choice x", "case K nest=s", "12 Case K Nest=line 1"),
    ("choice x", "case K 7 nest=s", "12 Case K 7..7 Nest=line 1"),
    ("choice x", "else K bytes", "12 Else K Bytes"),
    ("set x", "enum y prefix=Y=", "12 Enum y Prefix=Y="),
    ("set x", "group g", "12 Group g"),
    ("set x", "group g 0x1", "12 Group g 1..1"),
    ("set x", "struct u 12", "12 Struct u 12..12"),
    (
        "set x",
        "message M 5 nest=s request family=2",
        "12 Message M 5..5 Nest=line 1 Request Family=2..2",
    ),
    ("set x", "message M 5 reply", "12 Message M 5..5 Reply"),
];

#[test]
fn a_line_says_its_words(rt: HostRuntime) -> Result<(), Fail> {
    let alloc = rt.alloc();
    for (section, row, wanted) in ROWS {
        let text = format!(in alloc; "{ABOVE}{section}\n  {row}\nset after\n")?;
        let lines = read_table(alloc, text.as_bytes())?;
        let line = lines.get(9).expect(&rt, "the row");
        let shown = shown(alloc, line)?;
        assert_eq!(rt; shown.as_str(), wanted, "at {row}");
        assert_eq!(rt; lines.len(), 11, "at {row}");
    }
    Ok(())
}

#[test]
fn the_family_says_its_words(rt: HostRuntime) -> Result<(), Fail> {
    let alloc = rt.alloc();
    let lines = read_table(alloc, b"family f 16 version=1 id=0x10 at=0..4 # words")?;
    let line = lines.get(0).expect(&rt, "the family");
    let shown = shown(alloc, line)?;
    assert_eq!(rt;
        shown.as_str(),
        "1 Family f 16..16 Version=1..1 Id=16..16 At=0..4"
    );
    Ok(())
}

/// Kinds that take no value, as `neli_tables` prints them.
const KINDS: [(&str, &str); 27] = [
    ("flag", "Flag"),
    ("u8", "U8"),
    ("u16", "U16"),
    ("u32", "U32"),
    ("u64", "U64"),
    ("s8", "S8"),
    ("s16", "S16"),
    ("s32", "S32"),
    ("s64", "S64"),
    ("be16", "Be16"),
    ("be32", "Be32"),
    ("be64", "Be64"),
    ("sbe32", "Sbe32"),
    ("uint", "Uint"),
    ("sint", "Sint"),
    ("text", "Text"),
    ("ztext", "Ztext"),
    ("hardware", "Hardware"),
    ("ipv4", "Ipv4"),
    ("ipv6", "Ipv6"),
    ("ip", "Ip"),
    ("address", "Address"),
    ("sockaddr", "Sockaddr"),
    ("uuid", "Uuid"),
    ("bits", "Bits"),
    ("bytes", "Bytes"),
    ("pad", "Pad"),
];

#[test]
fn each_kind_has_its_name(rt: HostRuntime) -> Result<(), Fail> {
    let alloc = rt.alloc();
    for (name, kind) in KINDS {
        let text = format!(in alloc; "family f\nset s\n  attr A 1 {name}\n")?;
        let lines = read_table(alloc, text.as_bytes())?;
        let line = lines.get(2).expect(&rt, "the row");
        let shown = shown(alloc, line)?;
        let wanted = format!(in alloc; "3 Attr A 1..1 {kind}")?;
        assert_eq!(rt; shown, wanted, "at {name}");
    }
    Ok(())
}
