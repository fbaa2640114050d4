//! Tests of `neli_program`, which lists datagrams, writes them again and runs scripts.
//!
//! The recorded datagrams are of Linux 6.18 on x86-64; their numbers are those of suites/README.md.
//! RFC 3549 section 2.3.2 and `struct nlmsghdr` of linux/netlink.h give the layout of the datagrams; the
//! lines and the order of the faults are the program's own (docs/FRAMES.md), written out by hand.
//!
//! They call `run`, `replay` and the parts of these, over [`readers`] and [`writers`] of their own, and play scripts
//! over both stores of deliveries.
//!
//! - [`arguments`]: the requests in the words of a command line. [`input`], [`output`]: reading and writing, failures
//!   included. [`listing`], [`rewriting`]: lines of datagrams, and datagrams that are written again.
//! - [`datagrams`], [`reasons`]: recorded datagrams compared with libmnl's reading of them, and why the kernel refuses.
//!   [`lengths`]: each datagram of these tests cut at each place, and with each length in it set wrong, compared with
//!   [`rules`], which has the result for any bytes.
//! - [`answers`], [`conversations`], [`bad_lines`], [`scripts_output`]: scripts, their outcomes, and their failures.
//!   [`scripts`]: how a script is played. [`large`]: a datagram above 64 KB, and a script of more than a thousand
//!   commands. [`laws`]: the laws, called.
//! - [`out_of_memory`], [`scripts_out_of_memory`]: refused allocations. [`support`]: code that the tests share.

mod answers;
mod arguments;
mod bad_lines;
mod conversations;
mod datagrams;
mod input;
mod large;
mod laws;
mod lengths;
mod listing;
mod out_of_memory;
mod output;
mod readers;
mod reasons;
mod rewriting;
mod rules;
mod scripts;
mod scripts_out_of_memory;
mod scripts_output;
mod support;
mod writers;
