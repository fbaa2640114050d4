//! Tests of the wire layer, of the constants, and of groups and bit arrays, by the paths of `neli`.
//!
//! Numbers are in two's complement, the lowest byte first. Expected bytes are worked out by hand from that,
//! and padding from `NLMSG_ALIGN` of linux/netlink.h, unless a comment names another source. Constants are
//! those of linux/netlink.h, linux/genetlink.h, linux/rtnetlink.h, linux/if_link.h, linux/fib_rules.h,
//! linux/neighbour.h, linux/nexthop.h, linux/netfilter/nfnetlink_log.h and linux/nl80211.h; 3 of rules'
//! attributes and 8 of links' kinds are this library's own choice among two names. Groups are bits of
//! `nl_groups` as linux/netlink.h and netlink(7) have them, group 1 the lowest; lengths of bit arrays are
//! worked out from words of 32 bits.
//!
//! - [`numbers`], [`texts`], [`lists`], [`octets`], [`nothing`]: the bytes and the readings of each kind of value.
//!   [`network_order`]: numbers whose highest byte comes first, and addresses. [`padding`] and [`frames`]: the bytes
//!   around them. [`cursor`]: the place in bytes.
//! - [`errors`]: the parts of refusals. [`printed`]: the text of every error, those of builders and of the reader of
//!   messages too.
//! - [`constants`], [`types`], [`wrappers`]: constants on the wire, and the traits and wrappers over the tables.
//!   [`sets`]: flags as sets. [`equality`]: which constants are equal. `neli_constants` lists the reading of each
//!   number, the number written for it, and each flag.
//! - [`shown`]: exit codes and sets of flags as texts.
//! - [`groups`] and [`masks`]: lists of multicast groups, and their masks. [`bit_arrays`]: bit arrays.
//! - [`own_types`], [`own_enums`]: a user's own types, those of `example_body`, and enums, those of
//!   `example_enum`.
//! - [`laws`]: the laws, called.
//! - [`out_of_memory`], [`groups_out_of_memory`]: the result of each call when an allocation is refused.
//! - [`support`]: shared parts of the tests.

mod bit_arrays;
mod constants;
mod cursor;
mod equality;
mod errnos;
mod errors;
mod frames;
mod groups;
mod groups_out_of_memory;
mod laws;
mod lists;
mod masks;
mod network_order;
mod nothing;
mod numbers;
mod octets;
mod out_of_memory;
mod own_enums;
mod own_types;
mod padding;
mod printed;
mod sets;
mod shown;
mod support;
mod texts;
mod types;
mod wrappers;
