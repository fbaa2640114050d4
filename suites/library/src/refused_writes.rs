//! What every public type prints by `Display`, and that it fails only where its writer does.
//!
//! Each value is printed once by a writer that refuses nothing, and once for each of its writes with that one refused:
//! then it fails, and what was written is the beginning of its text.
//!
//! - [`errors`]: refusals, those of the reader of tables and of files too; each variant has a row.
//! - [`values`]: numbers, bytes, names and other values. [`messages`]: messages, their attributes, and what tables say
//!   of refused requests.

mod errors;
mod messages;
mod values;

use std::alloc::Global;
use std::fmt;
use std::fmt::{Display, Write};
use std::process::Abort;

/// A writer that keeps a text, and refuses one write: the one after so many others.
#[derive(Drop)]
struct Writer {
    /// How many writes are taken before it.
    before: usize,
    /// The length of the text when it was refused.
    refused_at: Option<usize>,
    text: String,
}

impl Write for Writer {
    fn write_str(&mut self, s: &str) -> fmt::Result {
        if self.refused_at.is_none() {
            if self.before == 0 {
                self.refused_at = Some(self.text.len());
                return Err(fmt::Error);
            }
            self.before -= 1;
        }
        self.text.write_str(s)
    }
}

/// Asserts that a value prints this, and that it fails where a write is refused, with nothing written after that.
fn assert_prints<D: Display>(rt: &impl Abort, alloc: Global, value: &D, want: &str) {
    let mut before = 0;
    loop {
        let mut writer = Writer {
            before,
            refused_at: None,
            text: String::new(alloc),
        };
        let is_printed = write!(writer, "{value}").is_ok();
        let text = writer.text.as_str();
        let Some(end) = writer.refused_at else {
            assert_eq!(rt; (is_printed, text), (true, want));
            return;
        };
        assert_eq!(rt;
            (is_printed, text.len()),
            (false, end),
            "write {before} of {want:?}"
        );
        assert_eq!(rt;
            want.starts_with(text),
            true,
            "write {before} of {want:?}: {text:?}"
        );
        before += 1;
    }
}
