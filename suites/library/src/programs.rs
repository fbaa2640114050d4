//! Whole programs on `neli` alone, as a reader of the pages would write them, and what they make of recorded answers.
//!
//! - [`queues`]: queueing disciplines, listed. [`forwarding`]: a bridge's forwarding table. [`policies`]: which
//!   attributes a family of generic netlink takes.
//! - [`next_hop`]: a next hop, made. [`whole`]: a list that is asked for again until it is whole.
//! - [`wireguard`]: a kernel with a tunnel of WireGuard, and a program that shows it.
//! - [`lint`]: requests, checked before they are sent, and why a kernel refused one. [`json`]: messages as JSON.
//! - [`conversations`]: families, groups, dumps and refusals. [`routes`]: a host's routes, as lines. [`talk`]: plays the
//!   recorded conversations of both. [`store`]: what the shared store keeps after each read.
//! - [`tried`]: the tests of the programs above. [`recorded`]: their datagrams. [`support`]: shared parts of the tests.

mod conversations;
mod forwarding;
mod json;
mod lint;
mod next_hop;
mod policies;
mod queues;
mod recorded;
mod routes;
mod store;
mod support;
mod talk;
mod tried;
mod whole;
mod wireguard;
