//! Any one allocation may be refused in these tests: `suites/run` refuses each in turn. A text is then read, or memory
//! ran out; read once more, it is read.

use super::families::{TEXTS as TEXTS_OF_FAMILIES, tables_of};
use neli_tables::{ReadError, Table, Tables, Why, read_table};
use std::alloc::Global;
use std::process::Abort;

/// Texts, and the number of their lines, or why they are refused.
const TEXTS: [(&str, Result<usize, ReadError>); 3] = [
    ("", Ok(0)),
    (
        "family f 0\nset s\n  attr A 1 nest=s multi\n  attr B 2 u8 enum=e\nenum e\n  value v 1\n",
        Ok(6),
    ),
    (
        "family f 0\nset s\n  attr A 1 nest=s\n  attr B 2 nest=none\n",
        Err(ReadError::Line(4, Why::NothingNamed)),
    ),
];

/// Reads a text. Asserts that it is read so, or that memory ran out, and returns which.
fn is_read(rt: &impl Abort, alloc: Global, text: &str, wanted: Result<usize, ReadError>) -> bool {
    let got = read_table(alloc, text.as_bytes()).map(|lines| lines.len());
    let is_read = got != Err(ReadError::Memory);
    if is_read {
        assert_eq!(rt; got, wanted, "at {text}");
    }
    is_read
}

#[test]
fn texts_are_read_again(rt: HostRuntime) {
    let alloc = rt.alloc();
    for (text, wanted) in TEXTS {
        let is_read = is_read(&rt, alloc, text, wanted) || is_read(&rt, alloc, text, wanted);
        assert_eq!(rt; is_read, true, "at {text}");
    }
}

/// A table is made of texts, or memory ran out and none is.
#[test]
fn tables_are_made_again(rt: HostRuntime) -> Result<(), ReadError> {
    let tables = match tables_of(rt.alloc()) {
        Ok(tables) => tables,
        Err(_) => tables_of(rt.alloc())?,
    };
    assert_eq!(rt; tables.tables().len(), TEXTS_OF_FAMILIES.len());
    Ok(())
}

/// A table is added, or memory ran out and the tables are as they were; and so for a number.
#[test]
fn tables_are_added_again(rt: HostRuntime) -> Result<(), ReadError> {
    let alloc = rt.alloc();
    let mut tables = Tables::new(alloc);
    let text = b"family g 16\n";
    let table = Table::read(alloc, text).or_else(|_| Table::read(alloc, text))?;
    if tables.add(table).is_err() {
        assert_eq!(rt; tables.tables().len(), 0);
        tables.add(Table::read(alloc, text)?)?;
    }
    if tables.learn(28, b"g").is_err() {
        assert_eq!(rt; tables.generic_by_id(28), None);
        tables.learn(28, b"g")?;
    }
    assert_eq!(rt; tables.generic_by_id(28), Some(0));
    Ok(())
}
