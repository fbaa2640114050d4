//! The body of generic netlink: a command, a version and attributes.

use crate::attr::{AttrNumber, GenlBuffer};
use crate::err::{BuildError, DeError, SerError, UninitializedFieldError};
use crate::types::Buffer;
use crate::{Fields, FromBytes, ToBytes};

pub use crate::attr::{AttrType, AttrTypeBuilder, GenlAttrHandle, Nlattr, NlattrBuilder};

/// A body of generic netlink: `struct genlmsghdr`, 4 bytes, and attributes.
#[derive(Clone, Debug, PartialEq, Eq)]
pub struct Genlmsghdr<C, T> {
    cmd: C,
    version: u8,
    attrs: GenlBuffer<T, Buffer>,
}

impl<C, T> Genlmsghdr<C, T> {
    /// The command.
    pub fn cmd(&self) -> &C {
        &self.cmd
    }

    /// The family's version.
    pub fn version(&self) -> &u8 {
        &self.version
    }

    /// The attributes.
    pub fn attrs(&self) -> &GenlBuffer<T, Buffer> {
        &self.attrs
    }
}

impl<C: Copy + Into<u8>, T: AttrNumber> ToBytes for Genlmsghdr<C, T> {
    fn to_bytes(&self, out: &mut Vec<u8>) -> Result<(), SerError> {
        out.extend([self.cmd.into(), self.version, 0, 0]);
        self.attrs.to_bytes(out)
    }
}

impl<C: From<u8>, T: AttrNumber> FromBytes for Genlmsghdr<C, T> {
    fn from_bytes(bytes: &[u8]) -> Result<Self, DeError> {
        let (mut fields, rest) = Fields::of(bytes, 4)?;
        let [cmd, version, _, _] = fields.next()?;
        Ok(Genlmsghdr { cmd: cmd.into(), version, attrs: GenlBuffer::from_bytes(rest)? })
    }
}

/// Makes a [`Genlmsghdr`].
#[derive(Clone, Debug)]
pub struct GenlmsghdrBuilder<C, T> {
    cmd: Option<C>,
    version: Option<u8>,
    attrs: GenlBuffer<T, Buffer>,
}

impl<C, T> Default for GenlmsghdrBuilder<C, T> {
    fn default() -> Self {
        GenlmsghdrBuilder { cmd: None, version: None, attrs: GenlBuffer::new() }
    }
}

impl<C, T> GenlmsghdrBuilder<C, T> {
    setters! {
        /// The command.
        cmd: C,

        /// The family's version.
        version: u8,
    }

    /// The attributes; none, if they are not given.
    pub fn attrs(mut self, attributes: GenlBuffer<T, Buffer>) -> Self {
        self.attrs = attributes;
        self
    }

    /// Returns the body, if command and version were given; else refused as [`BuildError::Uninitialized`] with the
    /// first that was not.
    pub fn build(self) -> Result<Genlmsghdr<C, T>, BuildError> {
        let cmd = self.cmd.ok_or(UninitializedFieldError("cmd"))?;
        let version = self.version.ok_or(UninitializedFieldError("version"))?;
        Ok(Genlmsghdr { cmd, version, attrs: self.attrs })
    }
}
