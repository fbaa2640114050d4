//! Whole texts, short and long.

use super::support::assert_said;
use std::fmt::Write;
use std::test::Fail;

/// Texts whose first line, or whose lines together, are good or bad.
const TEXTS: [(&str, &str); 20] = [
    ("", "0 lines"),
    ("\n", "0 lines"),
    ("# only a comment\n\n  \n", "0 lines"),
    ("#", "0 lines"),
    ("family f", "1 lines"),
    ("family f\n", "1 lines"),
    ("   family f # f\n#family g\n", "1 lines"),
    ("family f\r\n", "1 lines"),
    ("\0", "line 1: no line begins with this word"),
    (
        "set s\nfamily f 0\n",
        "line 1: the family comes first, and once",
    ),
    (
        "\n# first\n\nvalue v 1\n",
        "line 4: the family comes first, and once",
    ),
    (
        "family f\nfamily f\n",
        "line 2: the family comes first, and once",
    ),
    (
        "family f 0\n  attr A 1 u8",
        "line 2: a row that does not belong here",
    ),
    // Sets may nest each other, and themselves.
    (
        "family f\nset a\n  attr B 1 nest=b\nset b\n  each A nest=a\n  attr B 2 nest=b\n",
        "6 lines",
    ),
    // Of two lines with a name, the name refers to the first, and both are read.
    (
        "family f\nset a\nset a\n  attr B 1 nest=a\n  attr B 1 u8\n",
        "5 lines",
    ),
    // A name is known before its line, and a bad line is no reason to refuse one above it.
    (
        "family f\nset a\n  attr B 1 nest=b\nset b 1\n",
        "line 4: such a line has no number",
    ),
    (
        "family f\nset a\n  attr B 1 nest=b\n  attr C 2 nest=c\nset b 1\n",
        "line 4: a name that no such line has",
    ),
    // Of two bad lines, and of two bad words of a line, the first is the reason.
    (
        "family f\nset a\n  value v 1\nsets b\n",
        "line 3: a row that does not belong here",
    ),
    (
        "family f\nsets b\nset a\n  value v 1\n",
        "line 2: no line begins with this word",
    ),
    (
        "family f\nset a\n  attr B u8 u8\n",
        "line 3: a number is missing",
    ),
];

#[test]
fn whole_texts_are_read(rt: HostRuntime) -> Result<(), Fail> {
    for (text, wanted) in TEXTS {
        assert_said(&rt, rt.alloc(), text, wanted)?;
    }
    Ok(())
}

/// More rows than 16 bits count, each of which nests its own set.
#[test]
fn many_rows_are_read(rt: HostRuntime) -> Result<(), Fail> {
    let alloc = rt.alloc();
    let mut text = String::new(alloc);
    text.push_str("family f 0\nset s\n")?;
    for number in 0..70_000 {
        write!(text, "  attr A{number} {number} nest=s\n")?;
    }
    assert_said(&rt, alloc, &text, "70002 lines")
}
