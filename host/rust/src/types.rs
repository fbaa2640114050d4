//! Bytes, and lists of attributes and messages.

use crate::FromBytes;
use crate::ToBytes;
use crate::err::{DeError, SerError};

pub use crate::attr::{GenlBuffer, RtBuffer};

/// Bytes as a payload.
#[derive(Clone, Debug, Default, PartialEq, Eq)]
pub struct Buffer(Vec<u8>);

impl AsRef<[u8]> for Buffer {
    fn as_ref(&self) -> &[u8] {
        &self.0
    }
}

impl From<&[u8]> for Buffer {
    fn from(bytes: &[u8]) -> Self {
        Buffer(bytes.to_vec())
    }
}

impl From<Vec<u8>> for Buffer {
    fn from(bytes: Vec<u8>) -> Self {
        Buffer(bytes)
    }
}

impl ToBytes for Buffer {
    fn to_bytes(&self, out: &mut Vec<u8>) -> Result<(), SerError> {
        out.extend(&self.0);
        Ok(())
    }
}

impl FromBytes for Buffer {
    fn from_bytes(bytes: &[u8]) -> Result<Self, DeError> {
        Ok(bytes.into())
    }
}
