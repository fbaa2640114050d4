//! The attribute at each offset. Where attributes begin is counted by hand in the bytes.

use neli_consts::NlmF;
use neli_tables_check::find;
use neli_tables_walk::{Body, Head, body_of, built_in};
use std::alloc::Global;
use std::fmt::Write;
use std::process::Abort;
use std::test::Fail;

/// A link of the kind vlan: at 16 the structure of 16 bytes, at 32 the kind, behind it the nest of data with the
/// identifier at 52 and the protocol at 60.
const LINK: &[u8] =
    b"\0\0\0\0\0\0\0\0\0\0\0\0\0\0\0\0\x24\0\x12\0\x09\0\x01\0vlan\0\0\0\0\x14\0\x02\x80\x06\0\x01\0\
    \x07\0\0\0\x06\0\x05\0\x81\0\0\0";

/// A route with two next hops: at 16 the structure of 12 bytes, at 28 the attribute, at 32 the first hop of 16 bytes
/// with its gateway at 40, at 48 the second, without attributes.
const ROUTE: &[u8] =
    b"\x02\x18\0\0\xfe\x04\0\x01\0\0\0\0\x1c\0\x09\0\x10\0\0\0\x03\0\0\0\x08\0\x05\0\x0a\0\0\x01\
    \x08\0\0\0\x04\0\0\0";

/// From each offset on the attribute that is there, up to the next.
const OFFSETS: [(&[u8], u16, &[(usize, &str)]); 2] = [
    (
        LINK,
        16,
        &[
            (0, ""),
            (32, "IFLA_LINKINFO"),
            (36, "IFLA_LINKINFO.IFLA_INFO_KIND"),
            (48, "IFLA_LINKINFO.IFLA_INFO_DATA"),
            (52, "IFLA_LINKINFO.IFLA_INFO_DATA.IFLA_VLAN_ID"),
            (60, "IFLA_LINKINFO.IFLA_INFO_DATA.IFLA_VLAN_PROTOCOL"),
            (68, ""),
            (80, ""),
        ],
    ),
    (
        ROUTE,
        24,
        &[
            (0, ""),
            (28, "RTA_MULTIPATH"),
            (32, "RTA_MULTIPATH.hop"),
            (40, "RTA_MULTIPATH.hop.RTA_GATEWAY"),
            (48, "RTA_MULTIPATH.hop"),
            (56, ""),
            (64, ""),
        ],
    ),
];

/// Asserts which attribute is at an offset.
fn assert_at(
    rt: &impl Abort,
    alloc: Global,
    body: &Body<'_, '_, '_>,
    offset: usize,
    wanted: &str,
) -> Result<(), Fail> {
    let mut found = String::new(alloc);
    if let Some(place) = find(body, offset) {
        write!(found, "{place}")?;
    }
    assert_eq!(rt; found.as_str(), wanted, "at {offset}");
    Ok(())
}

#[test]
fn offsets_are_in_their_attributes(rt: HostRuntime) -> Result<(), Fail> {
    let alloc = rt.alloc();
    let tables = built_in(alloc)?;
    for (payload, message_type, places) in OFFSETS {
        let head = Head {
            protocol: 0,
            message_type,
            flags: NlmF::REQUEST,
        };
        let body = body_of(&tables, head, payload);
        for pair in places.windows(2) {
            for offset in pair[0].0..pair[1].0 {
                assert_at(&rt, alloc, &body, offset, pair[0].1)?;
            }
        }
        assert_at(&rt, alloc, &body, usize::MAX, "")?;
    }
    Ok(())
}
