//! Counters of queueing disciplines, and their handles.

use super::support::{assert_is_at, bytes_of, read_first, written};
use neli::consts::Constant;
use neli::rtnl::linux::{GnetStatsBasic, GnetStatsQueue, TcHandle};
use neli_wire::DeError;
use std::io::ErrorKind;
use std::test::Fail;

/// `TCA_STATS_BASIC` of a discipline of datagram 0171, by hand from `struct gnet_stats_basic` of linux/gen_stats.h; and
/// one with a value in the padding.
const SENT: [(&str, (u64, u32)); 2] = [
    ("96000000000000000100000000000000", (150, 1)),
    ("0100000002000000030000000400aabb", (0x2_0000_0001, 3)),
];

#[test]
fn sent(rt: HostRuntime) {
    for (digits, want) in SENT {
        let bytes = bytes_of(&rt, rt.alloc(), digits);
        let value: GnetStatsBasic = read_first(rt.alloc(), &bytes).expect(&rt, digits);
        assert_is_at(&rt, digits, (value.bytes, value.packets), want);
        let again = written(&rt, rt.alloc(), &value);
        assert_is_at(&rt, digits, again.as_slice(), bytes.as_slice());
        let made = GnetStatsBasic::new(want.0, want.1);
        assert_is_at(&rt, digits, made == value, digits.ends_with("00000000"));
    }
}

// Each field has another number, by its place in `struct gnet_stats_queue`.
#[test]
fn queue(rt: HostRuntime) {
    let digits = "0100000002000000030000000400000005000000";
    let bytes = bytes_of(&rt, rt.alloc(), digits);
    let all = GnetStatsQueue {
        qlen: 1,
        backlog: 2,
        drops: 3,
        requeues: 4,
        overlimits: 5,
    };
    let again = written(&rt, rt.alloc(), &all);
    assert_is_at(&rt, digits, again.as_slice(), bytes.as_slice());
    let read: GnetStatsQueue = read_first(rt.alloc(), &bytes).expect(&rt, digits);
    assert_is_at(&rt, digits, read == all, true);
}

// A byte less is refused.
#[test]
fn short(rt: HostRuntime) {
    let read = read_first::<GnetStatsBasic>(rt.alloc(), &[0; 15]);
    let is_short = matches!(read, Err(DeError::Io(ErrorKind::UnexpectedEof)));
    assert_is_at(&rt, "basic", is_short, true);
    let read = read_first::<GnetStatsQueue>(rt.alloc(), &[0; 19]);
    let is_short = matches!(read, Err(DeError::Io(ErrorKind::UnexpectedEof)));
    assert_is_at(&rt, "queue", is_short, true);
}

/// Handles, their numbers and their texts: as `tc` of iproute2 6.1 prints the parents and the classes of disciplines.
const HANDLES: [(u32, (u16, u16), &str); 8] = [
    (0, (0, 0), "none"),
    (0xffffffff, (0xffff, 0xffff), "root"),
    (0xfffffff1, (0xffff, 0xfff1), "ffff:fff1"),
    (0x80010000, (0x8001, 0), "8001:"),
    (0x8001001a, (0x8001, 0x1a), "8001:1a"),
    (0x0001000a, (1, 10), "1:a"),
    (0x0000000a, (0, 10), ":a"),
    (0xffff0000, (0xffff, 0), "ffff:"),
];

#[test]
fn handles(rt: HostRuntime) -> Result<(), Fail> {
    for (number, halves, text) in HANDLES {
        let handle = TcHandle::from_wire(number);
        assert_is_at(&rt, text, (handle.major(), handle.minor()), halves);
        assert_is_at(&rt, text, TcHandle::new(halves.0, halves.1), handle);
        assert_is_at(&rt, text, handle.to_wire(), number);
        let printed = handle.to_string(rt.alloc())?;
        assert_is_at(&rt, text, printed.as_str(), text);
        let bytes = written(&rt, rt.alloc(), &handle);
        assert_is_at(&rt, text, bytes.as_slice(), &number.to_le_bytes());
        let read = read_first::<TcHandle>(rt.alloc(), &bytes)?;
        assert_is_at(&rt, text, read, handle);
    }
    assert_is_at(&rt, "none", TcHandle::NONE.to_wire(), 0);
    assert_is_at(&rt, "root", TcHandle::ROOT.to_wire(), 0xffffffff);
    assert_is_at(&rt, "ingress", TcHandle::INGRESS.to_wire(), 0xfffffff1);
    Ok(())
}
