//! Tests of the bodies of all families.
//!
//! The bodies were recorded from Linux 6.18 on x86-64; their numbers are those of suites/README.md. Their fields were
//! read by pyroute2.
//!
//! - [`builders`]: results of builders.
//! - [`links`], [`routes`], [`generic`]: recorded bodies, a file a family. [`linux`]: those of newer kernels.
//! - [`cuts`]: bodies at each length, and wrong lengths of attributes.
//! - [`laws`]: that each law can be called.
//! - [`printed`]: the `Debug` output of the bodies of routing.
//! - [`support`]: shared parts of the tests.

mod builders;
mod cuts;
mod generic;
mod laws;
mod links;
mod linux;
mod printed;
mod routes;
mod support;
