//! Tests of `neli_tables_walk`: which line of which table recorded messages have, what the controller says of a
//! family, and the tables that are built in.
//!
//! Which message a recording is, is what `manifest.json` of the recordings says that was asked or had happened, by the
//! numbers of the kernel's headers.
//!
//! - [`located`]: recorded messages and their lines. [`families`]: families of generic netlink, as they are learnt.
//! - [`built`]: the tables that are built in. [`out_of_memory`]: where an allocation is refused.
//! - [`support`]: what the tests share.

mod built;
mod families;
mod located;
mod out_of_memory;
pub mod support;
