//! Tests of a kernel's answers.
//!
//! - [`answers`]: acknowledgements and errors. [`dumps`]: dumps. [`single`]: single replies and notifications. Each is
//!   a table of recordings of a kernel, built again from their values. Numbers are those of suites/README.md.
//! - [`family`]: a family of generic netlink, served, and its client on the router.
//! - [`notified`]: notifications, and a client with a request meanwhile. [`said`]: interrupted, filtered and failed
//!   dumps, messages without MULTI, control messages, and which requests are for a dump.
//! - [`laws`], [`more_laws`]: the laws are called. [`support`]: shared parts of the tests.

mod answers;
mod dumps;
mod family;
mod laws;
mod more_laws;
mod notified;
mod said;
mod single;
mod support;
