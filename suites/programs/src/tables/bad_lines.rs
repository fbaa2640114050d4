//! Lines that are refused, and why.

use super::support::assert_said;
use std::alloc::Global;
use std::process::Abort;
use std::test::Fail;

/// Why lines are refused, and the lines.
const BAD: [(&str, &[&str]); 12] = [
    (
        "no line begins with this word",
        &[
            "sets x",
            "Set x",
            "attrs A 1 u8",
            "ATTR A 1 u8",
            "attribute A 1 u8",
            "family: g",
            "0x1 A",
            "set=x",
            "\tset x",
            "set\tx",
        ],
    ),
    (
        "a name is missing",
        &[
            "set",
            "set # x",
            "attr",
            "choice",
            "value #1",
            "each # A u8",
        ],
    ),
    (
        "a number is missing",
        &[
            "attr A",
            "attr A u8",
            "message M nest=s",
            "struct u",
            "value v",
            "field F u8",
            "field F ..4 u8",
            "attr A -1 u8",
            "attr A +1 u8",
            "attr A x1 u8",
            "struct u # 4",
        ],
    ),
    (
        "such a line has no number",
        &[
            "set x 1",
            "enum x 0",
            "each A 1 u8",
            "choice x 1",
            "flags x 0x1",
            "else x 0 u8",
            "set x 0..1",
        ],
    ),
    (
        "no number of 64 bits, or a range out of order",
        &[
            "attr A 1..2 u8",
            "attr A 0x",
            "attr A 1x",
            "attr A 0xFF",
            "attr A 18446744073709551616",
            "attr A 0x10000000000000000",
            "attr A 1.2",
            "attr A 1..",
            "attr A 1 u8 range=3..2",
            "attr A 1 u8 range=a",
            "set x 1z",
            "attr A 1_0 u8",
            "attr A 0X1 u8",
            "attr A 0b1 u8",
            "attr A 1,5 u8",
            "attr A 1...2 u8",
            "attr A 1..2..3 u8",
            "attr A 99999999999999999999999999999999999999999 u8",
            "field F 4..0 u8",
            "field F 0..18446744073709551616 u8",
            "group G 1..2",
            "family g 0..1",
            "message M 5..6 nest=s",
            "struct u 4..8",
            "case K 1..2 u8",
            "attr A 1 u8 mask=0xg",
            "attr A 1 text length=..4",
            "attr A 1 text length=4..",
            "attr A 1 text length=-1",
            "attr A 1 u8 range=1..0 u8",
        ],
    ),
    (
        "no such option",
        &[
            "attr A 1 u9",
            "attr A 1 u8 colour=red",
            "attr A 1 =u8",
            "attr A 1 U8",
            "attr A 1 u8 Hex",
            "attr A 1 u8 2",
            "attr A 1 nested=s",
            "attr A 1 choice=c by_family",
            "attr A 1 u8 hex,multi",
            "attr A 1 colour u8 u8",
            "set x y",
        ],
    ),
    (
        "an option without its value, or with one that it does not take",
        &[
            "attr A 1 u8=1",
            "attr A 1 u8=",
            "attr A 1 nest",
            "attr A 1 nest=",
            "attr A 1 bytes length",
            "attr A 1 u8 hex=1",
            "attr A 1 u8 multi=",
            "attr A 1 choice",
            "attr A 1 choice=c by",
            "attr A 1 hops=",
            "attr A 1 nest=s after",
            "attr A 1 u8 enum",
            "attr A 1 u8 flags=",
            "attr A 1 u8 range",
            "enum x prefix",
            "enum x prefix=",
        ],
    ),
    (
        "an option that stands twice",
        &[
            "attr A 1 u8 u8",
            "attr A 1 u8 u16",
            "attr A 1 text length=1 length=2",
            "attr A 1 multi u8 multi",
            "attr A 1 u8 hex hex",
            "attr A 1 u8 nest=s",
            "attr A 1 nest=s nest=s",
            "attr A 1 nest=s after=t after=t",
            "attr A 1 u8 enum=e range=1 enum=e",
            "attr A 1 u8 u8 colour",
        ],
    ),
    (
        "an option that does not belong here",
        &[
            "attr A 1 text range=1",
            "attr A 1 u8 after=t",
            "attr A 1 u8 prefix=X",
            "set x u8",
            "attr A 1 length=4",
            "attr A 1 text hex",
            "attr A 1 text enum=e",
            "attr A 1 u8 by-family",
            "attr A 1 u8 request",
            "attr A 1 bits range=1",
            "attr A 1 nest=s array",
            "each A multi u8",
            "enum x hex",
            "set x prefix=X",
            "group G 1 u8",
            "value v 1 u8",
            "struct u 4 struct=t",
            "message M 1 version=1",
        ],
    ),
    (
        "a name that no such line has",
        &[
            "attr A 1 nest=none",
            "attr A 1 nest=t",
            "attr A 1 nest=S",
            "attr A 1 nest=e",
            "attr A 1 hops=none",
            "attr A 1 struct=s",
            "attr A 1 choice=s",
            "attr A 1 choice=c by=none",
            "attr A 1 nest=s after=s",
            "attr A 1 u8 enum=s",
            "attr A 1 u8 flags=e",
            "attr A 1 nest=s=s",
            "attr A 1 nest=none u8 u8",
        ],
    ),
    (
        "the family comes first, and once",
        &["family g 1", "family g"],
    ),
    (
        "a row that does not belong here",
        &[
            "value v 1",
            "field F 0..4 u8",
            "case K u8",
            "case K 1 u8",
            "else K u8",
        ],
    ),
];

/// Asserts that this line is refused so, below a set.
fn assert_refused(rt: &impl Abort, alloc: Global, line: &str, why: &str) -> Result<(), Fail> {
    let above = "family f 0\nset s\nenum e\nstruct t 4\nchoice c\nset last\n";
    let text = format!(in alloc; "{above}  {line}\nset after\n")?;
    let wanted = format!(in alloc; "line 7: {why}")?;
    assert_said(rt, alloc, &text, &wanted)
}

#[test]
fn bad_lines_are_refused_by_their_number(rt: HostRuntime) -> Result<(), Fail> {
    for (why, lines) in BAD {
        for line in lines {
            assert_refused(&rt, rt.alloc(), line, why)?;
        }
    }
    Ok(())
}

/// Sections, and rows that do not belong to them.
const ELSEWHERE: [(&str, &[&str]); 7] = [
    (
        "enum x",
        &[
            "attr A 1 u8",
            "each A u8",
            "field F 0..4 u8",
            "case K u8",
            "else K u8",
        ],
    ),
    (
        "flags x",
        &[
            "attr A 1 u8",
            "each A u8",
            "field F 0..4 u8",
            "case K u8",
            "else K u8",
        ],
    ),
    (
        "struct x 4",
        &[
            "attr A 1 u8",
            "each A u8",
            "value v 1",
            "case K u8",
            "else K u8",
        ],
    ),
    (
        "choice x",
        &["attr A 1 u8", "each A u8", "field F 0..4 u8", "value v 1"],
    ),
    (
        "set x",
        &["field F 0..4 u8", "value v 1", "case K u8", "else K u8"],
    ),
    (
        "message x 1",
        &[
            "attr A 1 u8",
            "each A u8",
            "field F 0..4 u8",
            "value v 1",
            "case K u8",
        ],
    ),
    (
        "group x 1",
        &[
            "attr A 1 u8",
            "each A u8",
            "field F 0..4 u8",
            "value v 1",
            "else K u8",
        ],
    ),
];

/// Asserts that this row is refused below this section.
fn assert_elsewhere(rt: &impl Abort, alloc: Global, section: &str, row: &str) -> Result<(), Fail> {
    let text = format!(in alloc; "family f 0\n{section}\n  {row}\n")?;
    assert_said(rt, alloc, &text, "line 3: a row that does not belong here")
}

#[test]
fn rows_of_other_sections_are_refused(rt: HostRuntime) -> Result<(), Fail> {
    for (section, rows) in ELSEWHERE {
        for row in rows {
            assert_elsewhere(&rt, rt.alloc(), section, row)?;
        }
    }
    Ok(())
}
