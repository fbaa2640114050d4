//! Messages that are written by names (docs/WRITING.md).
//!
//! Expected bytes are those of recorded requests, whose numbers are those of suites/README.md.
#![tactic(auto)]

#[cfg(test)]
mod named;
#[cfg(test)]
mod recorded;
#[cfg(test)]
mod requests;
