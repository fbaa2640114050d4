//! Tests of the programs' crates, a module a subject.
//!
//! - [`tool`]: `neli_tool`, which lists datagrams, writes them again and replays scripts.
//! - [`inputs`]: pcap files and pasted texts, as `neli_show` reads them.
//! - [`tables`]: texts of families' tables. [`bodies`]: which of their lines a message has.
//! - [`check`]: what is wrong with a message, and the attribute at an offset.
//! - [`values`]: payloads by their lines, as text and as JSON. [`print`]: messages by the tables.
#![tactic(auto)]

#[cfg(test)]
mod bodies;
#[cfg(test)]
mod check;
#[cfg(test)]
mod inputs;
#[cfg(test)]
mod print;
#[cfg(test)]
#[cfg(test)]
mod tables;
#[cfg(test)]
mod tool;
#[cfg(test)]
mod values;
