//! Hardware addresses that are read from text.

use super::support::assert_is_at;
use neli_payloads::{HardwareAddress, HardwareAddressError};
use std::str::FromStr;

/// Texts of addresses, and the bytes of these.
const READ: [(&str, &[u8]); 5] = [
    ("02:42:ac:11:00:02", &[0x02, 0x42, 0xac, 0x11, 0x00, 0x02]),
    ("02:42:AC:11:00:fF", &[0x02, 0x42, 0xac, 0x11, 0x00, 0xff]),
    ("7f", &[0x7f]),
    ("", &[]),
    (
        "00:01:02:03:04:05:06:07:08:09:0a:0b:0c:0d:0e:0f:\
        10:11:12:13:14:15:16:17:18:19:1a:1b:1c:1d:1e:1f",
        &[
            0, 1, 2, 3, 4, 5, 6, 7, 8, 9, 10, 11, 12, 13, 14, 15, 16, 17, 18, 19, 20, 21, 22, 23,
            24, 25, 26, 27, 28, 29, 30, 31,
        ],
    ),
];

// Texts in either case.
#[test]
fn read(rt: HostRuntime) {
    for (text, bytes) in READ {
        let address = HardwareAddress::from_str(text).expect(&rt, text);
        assert_is_at(&rt, text, address.as_slice(), bytes);
    }
}

/// Texts that are no addresses: one digit, another character, another separator, a colon too many, white space, no
/// colon, and 33 bytes.
const REFUSED: [&str; 11] = [
    "2",
    "02:4",
    "0g",
    "02-42",
    "02:",
    ":02",
    "02::42",
    " 02",
    "02 ",
    "0242",
    "00:01:02:03:04:05:06:07:08:09:0a:0b:0c:0d:0e:0f:\
    10:11:12:13:14:15:16:17:18:19:1a:1b:1c:1d:1e:1f:20",
];

// Other texts.
#[test]
fn refused(rt: HostRuntime) {
    for text in REFUSED {
        let read = HardwareAddress::from_str(text);
        assert_is_at(&rt, text, matches!(read, Err(HardwareAddressError)), true);
    }
}

// What is printed is read again.
#[test]
fn printed(rt: HostRuntime) {
    for (_, bytes) in READ {
        let address = HardwareAddress::from_bytes(bytes).expect(&rt, "an address");
        let text = format!(in rt.alloc(); "{address}").expect(&rt, "a text");
        let again = HardwareAddress::from_str(&text).expect(&rt, "an address");
        assert_is_at(&rt, bytes, again == address, true);
    }
}
