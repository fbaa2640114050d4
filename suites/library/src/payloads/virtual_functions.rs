//! Settings of a link's virtual functions. No recording has one: the bytes were made by hand from the structs of
//! linux/if_link.h.

use super::support::{assert_is, assert_is_at, bytes_of, read_first, read_whole, written};
use neli_payloads::{HardwareAddress, VfGuid, VfMac, VfRate, VfSetting, VfVlan, VfVlanInfo};
use neli_wire::{DeError, FromBytes, ToBytes};
use std::alloc::Global;
use std::fmt::Debug;
use std::io::ErrorKind;
use std::process::Abort;

/// Asserts that these bytes are read as this value, that it is written as them, and that one byte less is refused.
fn check<T: FromBytes + ToBytes + Copy + PartialEq + Debug>(
    rt: &impl Abort,
    alloc: Global,
    digits: &str,
    want: T,
) {
    let bytes = bytes_of(rt, alloc, digits);
    let read: T = read_first(alloc, &bytes).expect(rt, digits);
    assert_is_at(rt, digits, read, want);
    let again = written(rt, alloc, &want);
    assert_is_at(rt, digits, again.as_slice(), bytes.as_slice());
    if let [front @ .., _] = bytes.as_slice() {
        let cut = read_first::<T>(alloc, front);
        let is_short = matches!(cut, Err(DeError::Io(ErrorKind::UnexpectedEof)));
        assert_is_at(rt, digits, is_short, true);
    }
}

// Function 1: 1000 Mbit/s, a checked sender, a link that is always down, and a setting that the driver does not report.
#[test]
fn settings(rt: HostRuntime) {
    let rows = [
        ("01000000e8030000", 1000),
        ("0100000001000000", 1),
        ("0100000002000000", 2),
        ("01000000ffffffff", u32::MAX),
    ];
    for (digits, setting) in rows {
        check(&rt, rt.alloc(), digits, VfSetting { vf: 1, setting });
    }
}

// Function 2 may send 100 to 2500 Mbit/s.
#[test]
fn rates(rt: HostRuntime) {
    let want = VfRate {
        vf: 2,
        min_tx_rate: 100,
        max_tx_rate: 2500,
    };
    check(&rt, rt.alloc(), "0200000064000000c4090000", want);
}

// Function 3 is in VLAN 4095 with priority 5, and in VLAN 10 of 802.1ad.
#[test]
fn vlans(rt: HostRuntime) {
    let want = VfVlan {
        vf: 3,
        vlan: 4095,
        qos: 5,
    };
    check(&rt, rt.alloc(), "03000000ff0f000005000000", want);
    let want = VfVlanInfo::new(3, 10, 6, 0x88a8);
    check(&rt, rt.alloc(), "030000000a0000000600000088a80000", want);
}

// The bytes of a VLAN that have no meaning are kept.
#[test]
fn padding(rt: HostRuntime) {
    let bytes = bytes_of(&rt, rt.alloc(), "030000000a000000060000008100abcd");
    let read: VfVlanInfo = read_first(rt.alloc(), &bytes).expect(&rt, "a VLAN");
    assert_is(&rt, read.vlan_proto, 0x8100);
    assert_is(&rt, read == VfVlanInfo::new(3, 10, 6, 0x8100), false);
    let again = written(&rt, rt.alloc(), &read);
    assert_is(&rt, again.as_slice(), bytes.as_slice());
}

// The identity of function 4 begins eight bytes in.
#[test]
fn identities(rt: HostRuntime) {
    let want = VfGuid::new(4, 0x0102_0304_0506_0708);
    check(&rt, rt.alloc(), "04000000000000000807060504030201", want);
}

// The six bytes of function 5's address, which zeros follow, and the broadcast address of an Ethernet link, 32 bytes.
#[test]
fn addresses(rt: HostRuntime) {
    let mut mac = [0; 32];
    mac[..6].copy_from_slice(b"\x02\x42\xac\x11\x00\x05");
    let digits = "050000000242ac1100050000000000000000000000000000000000000000000000000000";
    check(&rt, rt.alloc(), digits, VfMac { vf: 5, mac });
    let address = HardwareAddress::from_bytes(&mac[..6]).expect(&rt, "an address");
    let text = address.to_string(rt.alloc()).expect(&rt, "memory");
    assert_is(&rt, text.as_str(), "02:42:ac:11:00:05");
    let digits = "ffffffffffff0000000000000000000000000000000000000000000000000000";
    let bytes = bytes_of(&rt, rt.alloc(), digits);
    let broadcast: HardwareAddress = read_whole(rt.alloc(), &bytes).expect(&rt, digits);
    assert_is(&rt, broadcast.as_slice(), bytes.as_slice());
}
