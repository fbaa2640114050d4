//! Error numbers of Linux and their names, by the table of the proved library.

use crate::ffi::tables::{Sought, Tables};
use crate::ffi::{END, Message};
use std::fmt;
use std::sync::OnceLock;

/// An error number of Linux: that of a refusal is its code, negated.
///
/// ```
/// use neli::errno::Errno;
///
/// assert_eq!(Errno::from(19).name(), Some("ENODEV"));
/// assert_eq!(Errno::from(4095).to_string(), "error 4095");
/// ```
#[derive(Clone, Copy, Debug, PartialEq, Eq, PartialOrd, Ord, Hash)]
pub struct Errno(i32);

impl Errno {
    /// That of a code, as -19 for `ENODEV`; `None` of a code that is not below 0, or has no counterpart.
    pub fn of_code(code: i32) -> Option<Errno> {
        code.checked_neg().filter(|it| *it > 0).map(Errno)
    }

    /// The number, as 19.
    pub fn number(self) -> i32 {
        self.0
    }

    /// The name, as `ENODEV`; `None` where it has none, or memory runs out.
    pub fn name(self) -> Option<&'static str> {
        name(self.0)
    }
}

impl From<i32> for Errno {
    fn from(number: i32) -> Errno {
        Errno(number)
    }
}

/// The name, or `error` and the number.
impl fmt::Display for Errno {
    fn fmt(&self, f: &mut fmt::Formatter<'_>) -> fmt::Result {
        match self.name() {
            Some(name) => f.write_str(name),
            None => write!(f, "error {}", self.0),
        }
    }
}

/// Each name once it was looked up, by its number. `MAX_ERRNO` of Linux is 4095.
static NAMES: [OnceLock<String>; 4096] = [const { OnceLock::new() }; 4096];

/// The name of a number, as `ENODEV` of 19; `None` where it has none, or memory runs out.
fn name(number: i32) -> Option<&'static str> {
    let place = NAMES.get(usize::try_from(number).ok()?)?;
    match place.get() {
        Some(found) => Some(found),
        None => {
            let found = look_up(number)?;
            Some(place.get_or_init(|| found))
        }
    }
}

/// The name in front of what the library prints of a refusal: `ENODEV: No such device`, or `error 4095` without one.
fn look_up(number: i32) -> Option<String> {
    let of = Sought { protocol: 0, bytes: &[], message: Message::default() };
    let (mut out, mut size) = ([0; 128], 0);
    if Tables::new().ok()?.refusal_text(&of, (-number, &[], 0), &mut out, &mut size) != END {
        return None;
    }
    let text = std::str::from_utf8(out.get(..size)?).ok()?;
    Some(text.split_once(": ")?.0.to_owned())
}
