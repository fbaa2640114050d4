//! Tests of a session by the paths of `neli`.
//!
//! Expected values are worked out by hand from the headers of Linux and `netlink(7)`; those of the recorded datagrams
//! are what libmnl reads in them.
//!
//! - [`script`]: a list of steps, each with what it returns. The next five are tables of scripts.
//! - [`answers`]: where an answer ends, and its verdict. [`readers`]: who gets a message or a loss. [`numbers`]: how
//!   long a number is in use. [`turns`]: which datagram is sent next. [`ready`]: who has something to read.
//! - [`played`]: all scripts, as they are and with each datagram in two. [`out_of_memory`]: each request for memory
//!   refused in turn.
//! - [`kept`]: lists that a program keeps. [`example`]: the example of the module `session`.

mod answers;
mod example;
mod kept;
mod numbers;
mod out_of_memory;
mod played;
mod readers;
mod ready;
mod script;
mod turns;
