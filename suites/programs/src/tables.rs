//! Tests of `neli_tables` and `neli_tables_walk`: what a text says, the line for
//! which it is refused, what is found in it, and what a walk gives by it.
//!
//! What is expected was worked out by hand from docs/TABLES.md, and is what `tables/form.py` says of the same texts.
//!
//! - [`bad_lines`]: lines that are refused, and why. [`lines`]: what a line says. [`texts`]: whole texts, short and long.
//! - [`rows`]: what is found in a table. [`families`]: what is found among several.
//! - [`walk`]: what a walk over a message's body gives.
//! - [`built_in`]: the texts that are built in, by [`digests`] of those in `tables/`.
//! - [`out_of_memory`]: where an allocation is refused. [`support`]: what the tests share.

mod bad_lines;
mod built_in;
mod digests;
mod families;
mod lines;
mod out_of_memory;
mod rows;
mod support;
mod texts;
mod walk;
