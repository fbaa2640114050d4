//! A router: it delivers each reply to its request.

pub mod lending;
mod names;
mod shared;
pub mod synchronous;
mod verdict;
