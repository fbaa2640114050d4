//! Tests of payloads: hardware addresses, counters, cache entries, next hops and virtual functions of `neli_payloads`,
//! queues and their handles of `neli_rtnl_linux`.
//!
//! The bytes are payloads of recorded datagrams, named by their numbers (suites/README.md), or were made by hand.
//! Their expected values were counted by hand from the structs of linux/if_link.h, linux/if_addr.h and
//! linux/rtnetlink.h.

mod addresses;
mod cache_entries;
mod counters;
mod next_hops;
mod queues;
mod support;
mod texts;
mod virtual_functions;
