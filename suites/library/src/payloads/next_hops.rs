//! Next hops of routes.

use super::support::{assert_is, assert_is_at, bytes_of};
use neli_consts_attrs::Rta;
use neli_payloads::NextHops;
use neli_wire::DeError;
use std::process::Abort;

/// A next hop: its length, flags, hops and link, and the length of its gateway.
type Row = (u16, u8, u8, i32, usize);

/// Payloads of `RTA_MULTIPATH`, with two next hops each: those of datagrams 0115 and 0161.
const ROUTES: [(&str, [Row; 2]); 2] = [
    (
        "100000020300000008000500c0000209100000000400000008000500c6336409",
        [(16, 0, 2, 3, 4), (16, 0, 0, 4, 4)],
    ),
    (
        "1c000000030000001400050020010db8000000000000000000000009\
        1c000000040000001400050020010db8000100000000000000000009",
        [(28, 0, 0, 3, 16), (28, 0, 0, 4, 16)],
    ),
];

// Each next hop, with its gateway.
#[test]
fn recorded(rt: HostRuntime) {
    for (digits, rows) in ROUTES {
        let bytes = bytes_of(&rt, rt.alloc(), digits);
        let mut hops = NextHops::new(&bytes);
        for row in rows {
            let hop = hops.next().expect(&rt, digits).expect(&rt, digits);
            let gateway = hop.attributes().get_attribute(Rta::Gateway);
            let gateway = gateway.expect(&rt, digits).expect(&rt, digits);
            let got = (
                hop.rtnh_len(),
                hop.rtnh_flags(),
                hop.rtnh_hops(),
                hop.rtnh_ifindex(),
                gateway.attr_payload().len(),
            );
            assert_is_at(&rt, digits, got, row);
            let size = hop.attribute_bytes().len() + 8;
            assert_is_at(&rt, digits, size, hop.rtnh_len() as usize);
        }
        assert_is(&rt, hops.next().is_none(), true);
    }
}

/// Asserts that a walk gives `whole` next hops, then one fault, an invalid input of `n` bytes, and then nothing.
fn ends_in(rt: &impl Abort, bytes: &[u8], whole: usize, n: usize) {
    let mut hops = NextHops::new(bytes);
    for _ in 0..whole {
        assert_is(rt, matches!(hops.next(), Some(Ok(_))), true);
    }
    match hops.next() {
        Some(Err(DeError::InvalidInput(m))) => assert_is(rt, m, n),
        _ => assert_is(rt, false, true),
    }
    assert_is(rt, hops.next().is_none(), true);
}

// What ends a walk: a length below 8, one past the end, a header that is cut off, and padding that is missing.
#[test]
fn faults(rt: HostRuntime) {
    ends_in(&rt, &[7, 0, 0, 0, 0, 0, 0, 0], 0, 7);
    ends_in(&rt, &[0, 0, 0, 0, 0, 0, 0, 0], 0, 0);
    ends_in(&rt, &[12, 0, 0, 0, 0, 0, 0, 0, 1, 2, 3], 0, 4);
    ends_in(&rt, &[8, 0, 0, 0, 0, 0, 0, 0, 8, 0, 0, 0, 0, 0, 0], 1, 15);
    ends_in(&rt, &[9, 0, 0, 0, 0, 0, 0, 0, 1], 0, 9);
}

/// Asserts that a walk gives one next hop with these flags, hops and link.
fn gives(rt: &impl Abort, mut hops: NextHops<'_>, want: (u8, u8, i32)) {
    match hops.next() {
        Some(Ok(hop)) => {
            let got = (hop.rtnh_flags(), hop.rtnh_hops(), hop.rtnh_ifindex());
            assert_is(rt, got, want);
        }
        _ => assert_is(rt, false, true),
    }
    assert_is(rt, hops.next().is_none(), true);
}

// No bytes are no next hops, and an odd length is padded to four.
#[test]
fn without_faults(rt: HostRuntime) {
    assert_is(&rt, NextHops::new(&[]).next().is_none(), true);
    let bytes = [
        9, 0, 1, 2, 3, 0, 0, 0, 4, 0, 0, 0, 8, 0, 5, 6, 0xff, 0xff, 0xff, 0xff,
    ];
    let mut hops = NextHops::new(&bytes);
    let first = hops.next().expect(&rt, "the first").expect(&rt, "whole");
    let got = (first.rtnh_flags(), first.rtnh_hops(), first.rtnh_ifindex());
    assert_is(&rt, got, (1, 2, 3));
    assert_is(&rt, first.attribute_bytes().len(), 1);
    gives(&rt, hops.ahead(), (5, 6, -1));
    gives(&rt, hops, (5, 6, -1));
}
