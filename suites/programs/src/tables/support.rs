//! Shared parts of the tests: the reading of a text, in words.

use neli_tables::read_table;
use std::alloc::Global;
use std::fmt::Write;
use std::process::Abort;
use std::test::Fail;

/// The reading of a text: the number of lines, or the printed text of the refusal.
fn said(alloc: Global, text: &str) -> Result<String, Fail> {
    let mut said = String::new(alloc);
    match read_table(alloc, text.as_bytes()) {
        Ok(lines) => {
            let count = lines.len();
            write!(said, "{count} lines")?;
        }
        Err(error) => write!(said, "{error}")?,
    }
    Ok(said)
}

/// Asserts that a text is read as so many lines, or refused so.
pub fn assert_said(rt: &impl Abort, alloc: Global, text: &str, wanted: &str) -> Result<(), Fail> {
    let said = said(alloc, text)?;
    assert_eq!(rt; said.as_str(), wanted, "at {text}");
    Ok(())
}
