//! Netlink on a live link: sockets, and a router that gives each reply to the request that it answers, over the proved
//! library `libneli_c.a`.
//!
//! The names are those of the crate neli 0.7, so that a program of its users moves over; `docs/DIFFERENCES.md` says
//! what differs, and `docs/RUST.md` how to build, who owns what, and what threads may do. Reading and writing
//! messages and attributes, and all that the router decides, is done by the library and proved there; sockets and the
//! types of this crate are tested alone.
//!
//! ```no_run
//! use neli::consts::nl::NlmF;
//! use neli::consts::rtnl::{Ifla, RtAddrFamily, Rtm};
//! use neli::consts::socket::NlFamily;
//! use neli::nl::NlPayload;
//! use neli::router::synchronous::NlRouter;
//! use neli::rtnl::{Ifinfomsg, IfinfomsgBuilder};
//! use neli::utils::Groups;
//!
//! # fn main() -> Result<(), Box<dyn std::error::Error>> {
//! let (router, _multicast) = NlRouter::connect(NlFamily::Route, None, Groups::empty())?;
//! let all = IfinfomsgBuilder::default().ifi_family(RtAddrFamily::Unspecified).build()?;
//! let links = router.send::<_, _, Rtm, Ifinfomsg>(Rtm::Getlink, NlmF::DUMP, NlPayload::Payload(all))?;
//! for link in links {
//!     if let Some(body) = link?.get_payload() {
//!         let name: String = body.rtattrs().get_attr_handle().get_attr_payload_as_with_len(Ifla::Ifname)?;
//!         println!("{}: {name}", body.ifi_index());
//!     }
//! }
//! # Ok(())
//! # }
//! ```
#![deny(unsafe_code, missing_docs)]

/// Methods of a builder, each of which sets its field.
macro_rules! setters {
    ($($(#[$doc:meta])* $field:ident: $kind:ty,)*) => {
        $($(#[$doc])*
        pub fn $field(mut self, $field: $kind) -> Self {
            self.$field = Some($field);
            self
        })*
    };
}

pub mod attr;
pub mod connector;
pub mod consts;
pub mod err;
pub mod errno;
mod ffi;
pub mod genl;
pub mod lent;
pub mod link;
pub mod nl;
mod payload;
pub mod recording;
pub mod router;
pub mod rtnl;
pub mod schema;
pub mod simulator;
pub mod socket;
pub mod types;
pub mod utils;

use err::{DeError, SerError};
use std::ffi::{CStr, CString};

/// The examples of the page on this crate, of the first page, and of that on writing are built.
#[cfg(doctest)]
#[doc = include_str!(env!("NELI_FILE_RUST_MD"))]
#[doc = include_str!(env!("NELI_FILE_README_MD"))]
#[doc = include_str!(env!("NELI_FILE_WRITING_MD"))]
struct Page;

/// What is written as a payload.
pub trait ToBytes {
    /// Appends the bytes. A refusal may leave some of them.
    ///
    /// Refused as [`SerError::Refused`] if a length does not fit its field: that of an attribute or of a connector's
    /// payload has 16 bits, that of a message 32.
    fn to_bytes(&self, out: &mut Vec<u8>) -> Result<(), SerError>;
}

/// What is read from the whole of a payload.
pub trait FromBytes: Sized {
    /// The value, or why there is none.
    ///
    /// Refused as [`DeError::InvalidInput`] if the bytes are not as many as a number, an array or `()` has, or fewer
    /// than a body's header has or states; as [`DeError::Utf8`] if no zero byte ends a text, or a [`String`] is not
    /// UTF-8; and as [`DeError::Refused`] at the first attribute that can't be read. A [`Vec`] is never refused.
    fn from_bytes(bytes: &[u8]) -> Result<Self, DeError>;
}

macro_rules! numbers {
    ($($number:ty),*) => {
        $(impl ToBytes for $number {
            fn to_bytes(&self, out: &mut Vec<u8>) -> Result<(), SerError> {
                out.extend(self.to_ne_bytes());
                Ok(())
            }
        }

        impl FromBytes for $number {
            fn from_bytes(bytes: &[u8]) -> Result<Self, DeError> {
                Ok(<$number>::from_ne_bytes(FromBytes::from_bytes(bytes)?))
            }
        })*
    };
}

numbers!(u8, u16, u32, u64, i32);

impl<const N: usize> ToBytes for [u8; N] {
    fn to_bytes(&self, out: &mut Vec<u8>) -> Result<(), SerError> {
        out.extend(self);
        Ok(())
    }
}

impl<const N: usize> FromBytes for [u8; N] {
    fn from_bytes(bytes: &[u8]) -> Result<Self, DeError> {
        bytes.try_into().map_err(|_| DeError::InvalidInput(bytes.len()))
    }
}

impl ToBytes for Vec<u8> {
    fn to_bytes(&self, out: &mut Vec<u8>) -> Result<(), SerError> {
        out.extend(self);
        Ok(())
    }
}

impl FromBytes for Vec<u8> {
    fn from_bytes(bytes: &[u8]) -> Result<Self, DeError> {
        Ok(bytes.to_vec())
    }
}

/// With a zero byte at its end.
impl ToBytes for &str {
    fn to_bytes(&self, out: &mut Vec<u8>) -> Result<(), SerError> {
        out.extend(self.as_bytes());
        out.push(0);
        Ok(())
    }
}

/// With a zero byte at its end.
impl ToBytes for String {
    fn to_bytes(&self, out: &mut Vec<u8>) -> Result<(), SerError> {
        self.as_str().to_bytes(out)
    }
}

/// As far as the first zero byte, which has to be there.
impl FromBytes for String {
    fn from_bytes(bytes: &[u8]) -> Result<Self, DeError> {
        let text = CStr::from_bytes_until_nul(bytes).map_err(|_| DeError::Utf8)?;
        text.to_str().map(str::to_owned).map_err(|_| DeError::Utf8)
    }
}

/// As far as the first zero byte, which has to be there: a text that need not be UTF-8, as the name of a link.
impl FromBytes for CString {
    fn from_bytes(bytes: &[u8]) -> Result<Self, DeError> {
        CStr::from_bytes_until_nul(bytes).map(CStr::to_owned).map_err(|_| DeError::Utf8)
    }
}

/// Nothing.
impl ToBytes for () {
    fn to_bytes(&self, _out: &mut Vec<u8>) -> Result<(), SerError> {
        Ok(())
    }
}

/// Nothing.
impl FromBytes for () {
    fn from_bytes(bytes: &[u8]) -> Result<Self, DeError> {
        if bytes.is_empty() { Ok(()) } else { Err(DeError::InvalidInput(bytes.len())) }
    }
}

/// The fields that a body begins with, read one after the other.
pub(crate) struct Fields<'b>(&'b [u8]);

impl<'b> Fields<'b> {
    /// The fields of a body of this many bytes, and what follows it.
    pub(crate) fn of(bytes: &'b [u8], size: usize) -> Result<(Self, &'b [u8]), DeError> {
        let (fields, rest) = bytes.split_at_checked(size).ok_or(DeError::InvalidInput(bytes.len()))?;
        Ok((Fields(fields), rest))
    }

    /// The next field.
    pub(crate) fn next<R: FromBytes>(&mut self) -> Result<R, DeError> {
        let (field, rest) = self.0.split_at_checked(size_of::<R>()).ok_or(DeError::InvalidInput(self.0.len()))?;
        self.0 = rest;
        R::from_bytes(field)
    }
}
