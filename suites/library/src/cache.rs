//! Tests of a table of objects that is kept current, by the paths of `neli`.
//!
//! Expected values are worked out by hand from the headers of Linux and `rtnetlink(7)`; those of recorded datagrams are
//! the objects that pyroute2 reads in them.
//!
//! - [`script`]: a list of steps, each with what it returns. [`folded`]: scripts of links that are made by hand.
//! - [`recorded`]: each family's objects, by what Linux sent. [`out_of_memory`]: each request for memory refused in turn.
//! - [`example`]: the example of the module `cache`, over a session.

mod example;
mod folded;
mod out_of_memory;
mod recorded;
mod script;
