//! Tests of attributes by the paths of `neli`.
//!
//! Expected bytes are worked out by hand from the kernel's headers, unless a comment names another source.
//!
//! - [`attributes`], [`type_fields`], [`buffers`]: what single values are written as, and what is read.
//! - [`builders`]: what builders answer. [`lists`], [`lookup`], [`nesting`]: lists of attributes.
//! - [`recorded_routes`]: attributes of datagrams that were recorded, against what other libraries read there.
//! - [`short`]: attributes made, put, looked up and read in one call.
//! - [`laws`]: the laws, called.
//! - [`out_of_memory`]: each call where an allocation is refused.
//! - [`support`]: what the tests share.

mod attributes;
mod buffers;
mod builders;
mod laws;
mod lists;
mod lookup;
mod nesting;
mod out_of_memory;
mod recorded_routes;
mod short;
mod support;
mod type_fields;
