//! Lifetimes of addresses, and cache entries of routes.

use super::support::{assert_is, assert_is_at, bytes_of, read_first, written};
use neli_payloads::{IfaCacheinfo, RtaCacheinfo};
use neli_wire::DeError;
use std::io::ErrorKind;

/// The lifetimes of addresses in datagrams 0004 and 0041.
const LIFETIMES: [(&str, (u32, u32, u32, u32)); 2] = [
    (
        "ffffffffffffffff8671030086710300",
        (u32::MAX, u32::MAX, 225_670, 225_670),
    ),
    (
        "ffffffffffffffffae710300ae710300",
        (u32::MAX, u32::MAX, 225_710, 225_710),
    ),
];

// Lifetimes are read and written again.
#[test]
fn lifetimes(rt: HostRuntime) {
    for (digits, want) in LIFETIMES {
        let bytes = bytes_of(&rt, rt.alloc(), digits);
        let info: IfaCacheinfo = read_first(rt.alloc(), &bytes).expect(&rt, digits);
        let got = (info.ifa_prefered, info.ifa_valid, info.cstamp, info.tstamp);
        assert_is_at(&rt, digits, got, want);
        let again = written(&rt, rt.alloc(), &info);
        assert_is_at(&rt, digits, again.as_slice(), bytes.as_slice());
    }
}

// Routes' cache entries: that of datagram 0107, which expires in 4000 seconds, and one with each field another number.
#[test]
fn of_routes(rt: HostRuntime) {
    let digits = "0000000000000000801a06000000000000000000000000000000000000000000";
    let bytes = bytes_of(&rt, rt.alloc(), digits);
    let info: RtaCacheinfo = read_first(rt.alloc(), &bytes).expect(&rt, digits);
    assert_is(&rt, info.rta_expires, 400_000);
    let all = RtaCacheinfo {
        rta_clntref: 1,
        rta_lastuse: 2,
        rta_expires: -3,
        rta_error: 4,
        rta_used: 5,
        rta_id: 6,
        rta_ts: 7,
        rta_tsage: 8,
    };
    let digits = "0100000002000000fdffffff0400000005000000060000000700000008000000";
    let bytes = bytes_of(&rt, rt.alloc(), digits);
    assert_is(
        &rt,
        written(&rt, rt.alloc(), &all).as_slice(),
        bytes.as_slice(),
    );
    let read: RtaCacheinfo = read_first(rt.alloc(), &bytes).expect(&rt, digits);
    assert_is(&rt, read == all, true);
    assert_is(&rt, read == info, false);
}

// A byte less is refused.
#[test]
fn short(rt: HostRuntime) {
    let read = read_first::<IfaCacheinfo>(rt.alloc(), &[0; 15]);
    let is_short = matches!(read, Err(DeError::Io(ErrorKind::UnexpectedEof)));
    assert_is(&rt, is_short, true);
    let read = read_first::<RtaCacheinfo>(rt.alloc(), &[0; 31]);
    let is_short = matches!(read, Err(DeError::Io(ErrorKind::UnexpectedEof)));
    assert_is(&rt, is_short, true);
}
