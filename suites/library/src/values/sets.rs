//! Flags as sets.

use super::support::{assert_is, assert_is_at, assert_written};
use neli::consts::Flags;
use neli::consts::nl::NlmF;
use neli::consts::rtnl::Ntf;
use neli::{Cursor, FromBytes};

// 0x300 is two bits, and each of the two is a flag too.
#[test]
fn flags_of_two_bits(rt: HostRuntime) {
    let rows = [
        ("a difference", NlmF::DUMP - NlmF::ROOT, 0x200),
        ("a complement", !NlmF::empty(), 0xf3f),
        ("bits without a name", NlmF::from(0xf0c0), 0),
        ("a union", NlmF::REQUEST | NlmF::DUMP, 0x301),
    ];
    for (name, flags, bits) in rows {
        assert_is_at(&rt, name, flags.bits(), bits);
    }
    for (bits, dumps) in [(0x300, true), (0x100, false), (0x200, false), (0x704, true)] {
        assert_is_at(&rt, bits, NlmF::from(bits).contains(NlmF::DUMP), dumps);
    }
}

// 0x40 has no name among the flags of neighbours.
#[test]
fn bits_without_a_name(rt: HostRuntime) {
    assert_is(&rt, Ntf::from(0xff).bits(), 0xbf);
    let mut cursor = Cursor::new(b"\xff");
    let read = Ntf::from_bytes(rt.alloc(), &mut cursor).expect(&rt, "flags");
    assert_is(&rt, read.bits(), 0xff);
    assert_written(&rt, rt.alloc(), &read, b"\xff");
}
