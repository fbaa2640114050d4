//! What is wrong with a message: by its tables before it is sent, and by the kernel's answer.

use super::{Message, text_of};
use crate::errno::Errno;
use crate::ffi;
use crate::nl::Nlmsgerr;
use std::error::Error;
use std::fmt;

/// Which of the kernel's two parsers reads a request, by the numbers of `enum neli_validation` of `neli.h`.
#[derive(Clone, Copy, Debug, PartialEq, Eq)]
pub enum Validation {
    /// That of older messages.
    Liberal = 0,
    /// It also refuses attributes that it does not know, numbers of another length, and more.
    Strict = 1,
}

/// The first attribute of a message that the kernel's parser would refuse, and what is wrong with it.
#[derive(Clone, Debug, PartialEq, Eq)]
pub struct Violation(String);

impl fmt::Display for Violation {
    fn fmt(&self, f: &mut fmt::Formatter<'_>) -> fmt::Result {
        f.write_str(&self.0)
    }
}

impl Error for Violation {}

/// The kernel's refusal of a request: its number by name and meaning, its text, and the attribute that it is about.
#[derive(Clone, Debug, PartialEq, Eq)]
pub struct KernelRefusal {
    errno: i32,
    attribute: Option<String>,
    line: String,
}

impl KernelRefusal {
    /// The number of the error, as 22 for `EINVAL`.
    pub fn errno(&self) -> i32 {
        self.errno
    }

    /// The name of that number, as `EINVAL`; `None` where it has none.
    pub fn errno_name(&self) -> Option<&'static str> {
        Errno::from(self.errno).name()
    }

    /// The path of the attribute that the kernel refuses, where it says which and the tables know it.
    pub fn attribute(&self) -> Option<&str> {
        self.attribute.as_deref()
    }
}

/// `EINVAL: Invalid argument: Unknown device type: IFLA_LINKINFO.IFLA_INFO_KIND`.
impl fmt::Display for KernelRefusal {
    fn fmt(&self, f: &mut fmt::Formatter<'_>) -> fmt::Result {
        f.write_str(&self.line)
    }
}

impl Error for KernelRefusal {}

impl Message<'_> {
    /// Checks that its attributes are as their rows say, as those of a request before it is sent. Refused as
    /// [`Violation`] at the first that is not. What has no row passes.
    pub fn check(&self) -> Result<(), Violation> {
        let mut tables = self.schema.tables();
        match text_of(|out, size| tables.check(&self.sought, out, size)) {
            (ffi::VIOLATION, text) => Err(Violation(text)),
            _ => Ok(()),
        }
    }

    /// The same by the parser that is named, as that of a socket which asks for strict checks. What has no row passes
    /// the liberal one alone.
    pub fn check_as(&self, validation: Validation) -> Result<(), Violation> {
        let mut tables = self.schema.tables();
        match text_of(|out, size| tables.check_as(validation as i32, &self.sought, out, size)) {
            (ffi::VIOLATION, text) => Err(Violation(text)),
            _ => Ok(()),
        }
    }

    /// The path to the attribute that contains an offset, counted from the message's first byte, as
    /// `IFLA_LINKINFO.IFLA_INFO_KIND`; `None` where the tables know no attribute there.
    #[must_use]
    pub fn path_at(&self, offset: usize) -> Option<String> {
        let mut tables = self.schema.tables();
        match text_of(|out, size| tables.path_at(&self.sought, offset, out, size)) {
            (ffi::ITEM, path) => Some(path),
            _ => None,
        }
    }

    /// The kernel's refusal of this request, as an error that names the attribute.
    ///
    /// ```
    /// use neli::consts::socket::NlFamily;
    /// use neli::err::RouterError;
    /// use neli::schema::Schema;
    ///
    /// fn explained(schema: &Schema, sent: &[u8], error: RouterError) -> Box<dyn std::error::Error> {
    ///     match (schema.message(NlFamily::Route, sent), error) {
    ///         (Ok(request), RouterError::Nlmsgerr(answer)) => request.refusal(&answer).into(),
    ///         (_, error) => error.into(),
    ///     }
    /// }
    /// ```
    #[must_use]
    pub fn refusal<T>(&self, answer: &Nlmsgerr<T>) -> KernelRefusal {
        let offset = answer.offset().unwrap_or(0) as usize;
        let said = answer.text().unwrap_or_default();
        let attribute = self.path_at(offset);
        let mut tables = self.schema.tables();
        let about = (answer.error(), said.as_bytes(), offset);
        let (_, line) = text_of(|out, size| tables.refusal_text(&self.sought, about, out, size));
        KernelRefusal { errno: answer.error().wrapping_neg(), attribute, line }
    }

    /// The kernel's refusal of this request with all that its acknowledgement says: the attribute with the value that was
    /// sent and what the kernel would take, and an attribute that is missing.
    #[must_use]
    pub fn diagnosis<T>(&self, answer: &Nlmsgerr<T>) -> KernelRefusal {
        let said = answer.ext_ack_bytes();
        let attribute = self.path_at(answer.offset().unwrap_or(0) as usize);
        let mut tables = self.schema.tables();
        let (_, line) = text_of(|out, size| tables.diagnosis(&self.sought, answer.error(), &said, out, size));
        KernelRefusal { errno: answer.error().wrapping_neg(), attribute, line }
    }
}
