//! Hardware addresses: payloads and text.

use super::support::{assert_is, assert_is_at, bytes_of, read_whole, written};
use neli_payloads::HardwareAddress;
use neli_wire::{DeError, Size};

/// Payloads and the texts of their addresses: those of links in datagrams 0009 and 0033, of no byte, of IP over
/// InfiniBand with 20, and of the most that there may be.
const ADDRESSES: [(&str, &str); 5] = [
    ("020000000002", "02:00:00:00:00:02"),
    ("020000000010", "02:00:00:00:00:10"),
    ("", ""),
    (
        "800002084fe8000000000000aB0cDe0012340fff",
        "80:00:02:08:4f:e8:00:00:00:00:00:00:ab:0c:de:00:12:34:0f:ff",
    ),
    (
        "000102030405060708090a0b0c0d0e0f101112131415161718191a1b1c1d1e1f",
        "00:01:02:03:04:05:06:07:08:09:0a:0b:0c:0d:0e:0f:\
        10:11:12:13:14:15:16:17:18:19:1a:1b:1c:1d:1e:1f",
    ),
];

// A payload is read, printed and written again.
#[test]
fn payloads(rt: HostRuntime) {
    for (digits, text) in ADDRESSES {
        let bytes = bytes_of(&rt, rt.alloc(), digits);
        let address: HardwareAddress = read_whole(rt.alloc(), &bytes).expect(&rt, digits);
        let printed = format!(in rt.alloc(); "{address}").expect(&rt, digits);
        assert_is_at(&rt, digits, printed.as_str(), text);
        assert_is_at(&rt, digits, address.as_slice(), bytes.as_slice());
        assert_is_at(&rt, digits, address.len(), bytes.len());
        assert_is_at(&rt, digits, address.is_empty(), bytes.is_empty());
        assert_is_at(
            &rt,
            digits,
            address.padded_size(),
            (bytes.len() + 3) / 4 * 4,
        );
        let again = written(&rt, rt.alloc(), &address);
        assert_is_at(&rt, digits, again.as_slice(), bytes.as_slice());
    }
}

// 33 bytes are no address.
#[test]
fn too_many_bytes(rt: HostRuntime) {
    let bytes = [7; 33];
    assert_is(&rt, HardwareAddress::from_bytes(&bytes).is_none(), true);
    let read = read_whole::<HardwareAddress>(rt.alloc(), &bytes);
    assert_is(&rt, matches!(read, Err(DeError::InvalidInput(33))), true);
}

// Addresses are equal where their bytes are, and one is not equal to one that it begins.
#[test]
fn equality(rt: HostRuntime) {
    let address = HardwareAddress::from_bytes(&[2, 0]).expect(&rt, "two bytes");
    let same = HardwareAddress::from_bytes(&[2, 0]).expect(&rt, "two bytes");
    let longer = HardwareAddress::from_bytes(&[2, 0, 0]).expect(&rt, "three bytes");
    assert_is(&rt, address == same, true);
    assert_is(&rt, address == longer, false);
}
