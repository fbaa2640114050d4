//! Tests of the library by the paths of `neli`, a module a subject.
//!
//! - [`values`]: the wire layer, constants, groups and bit arrays. [`attributes`]: attributes and lists of them.
//! - [`bodies`]: the bodies of all families. [`payloads`]: attributes' payloads other than numbers and texts.
//! - [`messages`]: messages, owned and lent. [`router`]: the router and the resolvers, over each store.
//! - [`cache`]: a table of objects that is kept current.
//! - [`session`]: a session: its requests, its readers and their verdicts.
//! - [`simulator`]: a kernel's answers. [`schema`]: messages by the tables of their families. [`programs`]: whole
//!   programs. [`pages`]: examples of docs/. [`doors`]: what the exports of `neli_c` stand on. [`trial`]: what is changed
//!   at random.
//! - [`refused_writes`]: what each type prints by `Display`, also where a write is refused.
#![tactic(auto)]

#[cfg(test)]
mod attributes;
#[cfg(test)]
mod bodies;
#[cfg(test)]
mod cache;
#[cfg(test)]
mod doors;
#[cfg(test)]
mod messages;
#[cfg(test)]
mod pages;
#[cfg(test)]
mod payloads;
#[cfg(test)]
mod programs;
#[cfg(test)]
mod refused_writes;
#[cfg(test)]
mod router;
#[cfg(test)]
mod schema;
#[cfg(test)]
mod session;
#[cfg(test)]
mod simulator;
#[cfg(test)]
mod trial;
#[cfg(test)]
mod values;
