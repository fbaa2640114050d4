//! Numbers whose highest byte comes first, addresses, and booleans.

use super::support::{assert_is, assert_read, assert_written};
use neli::{BeU16, BeU32};
use std::net::{Ipv4Addr, Ipv6Addr};

// The kernel's `__be16` and `__be32`, as a port and an IPv4 network have them.
#[test]
fn the_highest_byte_first(rt: HostRuntime) {
    let alloc = rt.alloc();
    assert_written(&rt, alloc, &BeU16::new(4789), &[0x12, 0xb5]);
    assert_written(&rt, alloc, &BeU32::new(3221225985), &[192, 0, 2, 1]);
    assert_read(&rt, alloc, &[0x12, 0xb5, 0], Ok(BeU16::new(4789)), 2);
    assert_read(
        &rt,
        alloc,
        &[192, 0, 2, 1, 0],
        Ok(BeU32::new(3221225985)),
        4,
    );
    assert_is(&rt, BeU16::new(7).as_ne_u16(), 7);
    assert_is(&rt, BeU32::new(7).as_ne_u32(), 7);
}

// Addresses of RFC 5737 and RFC 3849, in network byte order.
#[test]
fn addresses_by_their_octets(rt: HostRuntime) {
    let alloc = rt.alloc();
    let v4 = Ipv4Addr::new(192, 0, 2, 1);
    assert_written(&rt, alloc, &v4, &[192, 0, 2, 1]);
    assert_read(&rt, alloc, &[192, 0, 2, 1, 0], Ok(v4), 4);
    let v6 = Ipv6Addr::new(0x2001, 0xdb8, 0, 0, 0, 0, 0, 1);
    let bytes = [32, 1, 13, 184, 0, 0, 0, 0, 0, 0, 0, 0, 0, 0, 0, 1];
    assert_written(&rt, alloc, &v6, &bytes);
    assert_read(&rt, alloc, &bytes, Ok(v6), 16);
}

#[test]
fn booleans_are_one_byte(rt: HostRuntime) {
    let alloc = rt.alloc();
    assert_written(&rt, alloc, &true, &[1]);
    assert_written(&rt, alloc, &false, &[0]);
    assert_read(&rt, alloc, &[0, 1], Ok(false), 1);
    assert_read(&rt, alloc, &[2, 1], Ok(true), 1);
}
