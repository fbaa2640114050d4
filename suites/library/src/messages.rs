//! Tests of messages, owned and lent, by the paths of `neli`.
//!
//! The layouts are those of RFC 3549 sections 2.3.2 and 3.1, of `struct nlmsghdr`, `struct nlmsgerr` and
//! `struct nlattr` of linux/netlink.h, and of `struct rtattr` of linux/rtnetlink.h. Expected values are worked out
//! by hand from these, unless a comment names another source.
//!
//! - [`reading`]: one message and a whole datagram, and their refusals. [`kinds`]: the kinds of payload.
//!   [`parts`]: headers and answers by themselves.
//! - [`retyping`]: untyped messages and a router's errors as ones of other types, and the calls that take a payload out
//!   or put one in.
//! - [`capped`]: capped errors.
//! - [`builders`]: what builders make, and what is written. [`lists`]: lists of messages. [`printed`]: what
//!   errors print, and their causes.
//! - [`out_of_memory`]: what calls answer where an allocation is refused.
//! - [`lent_messages`], [`lent_attributes`], [`lent_lookup`]: each call of lent reads with its answer. These tests take
//!   no memory, so they pass also where each allocation is refused.
//! - [`lent_datagrams`], [`lent_lists`]: the same bytes read lent and as owned values, with their faults.
//!   [`lent_to_owned`]: what takes memory.
//! - [`lent_recordings`]: messages that were recorded, against what other libraries read there.
//! - [`short`]: what an error says by words, and a body that is read.
//! - [`laws`]: the laws, called. [`support`]: what the tests share.

mod builders;
mod capped;
mod explained;
mod kinds;
mod laws;
mod lent_attributes;
mod lent_datagrams;
mod lent_lists;
mod lent_lookup;
mod lent_messages;
mod lent_recordings;
mod lent_to_owned;
mod lists;
mod out_of_memory;
mod parts;
mod printed;
mod reading;
mod retyping;
mod short;
mod support;
