//! Tests of the router and of the resolvers by the paths of `neli`; of the router over both stores, plain lists and the
//! shared log, and over the store of `example_store`.
//!
//! Expected values are worked out by hand from RFC 3549 section 2.3.2 and the headers of Linux; those of
//! the recorded conversations are what libmnl reads in them.
//!
//! - [`script`]: a list of steps with the outcome of each, played over each store by one run, and by the router's own
//!   calls, as [`steps`] makes them. The other files are tables of scripts.
//! - [`numbers`]: requests as bytes, and their numbers. [`answers`]: where a handle's answers end.
//! - [`datagrams`]: who gets what of a datagram. [`faults`]: faults of the link.
//! - [`strays`]: all combinations of messages before and after a close, and numbers that are used again.
//! - [`handles`]: handles of another router. [`many`]: thousands of requests, and of deliveries to one handle.
//! - [`requests`]: requests to the controller of generic netlink, and its answers.
//! - [`refused_bodies`]: bodies that are refused as the types that a caller reads them as. [`unwritten`]: bodies that
//!   refuse to be written.
//! - [`resolvers`]: the resolvers' results for lists of answers, as [`controller`] looks them up.
//! - [`conversations`]: conversations with a kernel, as they were recorded.
//! - [`random`]: scripts that a generator makes, over both stores. [`entries`]: what the log keeps.
//! - [`out_of_memory`]: each allocation of a run refused in turn. [`limited`]: a store with a limit.
//! - [`lent_reads`]: lent reads beside owned ones.
//! - [`verdicts`]: verdicts on answers, requests that are given up, and listening that continues. [`given_up`]: when
//!   the numbers of requests that are given up are free, and hundreds of them. [`short`]: the short calls.
//! - [`laws`]: the laws of runs, called. [`support`]: shared parts of the tests.

mod answers;
mod controller;
mod conversations;
mod datagrams;
mod entries;
mod faults;
mod given_up;
mod handles;
mod laws;
mod lent_reads;
mod limited;
mod many;
mod numbers;
mod out_of_memory;
mod random;
mod refused_bodies;
mod requests;
mod resolvers;
mod script;
mod short;
mod steps;
mod strays;
mod support;
mod unwritten;
mod verdicts;
