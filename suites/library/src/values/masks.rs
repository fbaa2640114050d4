//! Masks of groups. Group 32 has the highest bit.

use super::groups::{assert_groups, list_of};
use super::support::{assert_is, assert_is_at};
use neli::consts::linux::Rtnlgrp;
use neli::err::SerError;
use neli::utils::Groups;
use std::alloc::Global;
use std::process::Abort;

fn assert_mask(rt: &impl Abort, alloc: Global, groups: &Groups, want: u32) {
    assert_is(rt, groups.as_bitmask(alloc).expect(rt, "a mask"), want);
}

#[test]
fn groups_of_masks(rt: HostRuntime) {
    let rows: [(u32, &[u32]); 5] = [
        (0, &[]),
        (1, &[1]),
        (0x8000_0000, &[32]),
        (0b1011, &[1, 2, 4]),
        (0x8001_0001, &[1, 17, 32]),
    ];
    for (mask, want) in rows {
        let groups = Groups::new_bitmask(rt.alloc(), mask).expect(&rt, "memory");
        assert_mask(&rt, rt.alloc(), &groups, mask);
        assert_groups(&rt, rt.alloc(), groups, want);
    }
}

// `RTMGRP_LINK`, `RTMGRP_IPV4_IFADDR` and `RTMGRP_IPV6_PREFIX` of linux/rtnetlink.h.
#[test]
fn masks_of_names(rt: HostRuntime) {
    let rows: [(Rtnlgrp, u32); 3] = [
        (Rtnlgrp::Link, 1),
        (Rtnlgrp::Ipv4Ifaddr, 0x10),
        (Rtnlgrp::Ipv6Prefix, 0x20000),
    ];
    for (name, want) in rows {
        let groups = list_of(&rt, rt.alloc(), &[u32::from(name)]);
        assert_mask(&rt, rt.alloc(), &groups, want);
    }
}

#[test]
fn masks_of_lists(rt: HostRuntime) {
    let rows: [(&[u32], u32); 4] = [
        (&[0, 0, 0, 0], 0),
        (&[32, 1], 0x8000_0001),
        (&[3, 3, 3], 4),
        (&[17, 2], 0x1_0002),
    ];
    for (given, want) in rows {
        let groups = list_of(&rt, rt.alloc(), given);
        assert_mask(&rt, rt.alloc(), &groups, want);
    }
}

fn assert_refused(rt: &impl Abort, alloc: Global, given: &[u32], error: &SerError, want: &str) {
    assert!(rt; matches!(error, SerError::Msg(_)));
    let text = error.to_string(alloc).expect(rt, "memory");
    assert_is_at(rt, given, text.as_str(), want);
}

// The first group above 32 is named.
#[test]
fn lists_without_a_mask(rt: HostRuntime) {
    let rows: [(&[u32], &str); 3] = [
        (
            &[33],
            "Group 33 cannot be represented with a bit width of 32",
        ),
        (
            &[1, 40, 33],
            "Group 40 cannot be represented with a bit width of 32",
        ),
        (
            &[4294967295],
            "Group 4294967295 cannot be represented with a bit width of 32",
        ),
    ];
    for (given, want) in rows {
        let refused = list_of(&rt, rt.alloc(), given).as_bitmask(rt.alloc());
        let error = refused.err().expect(&rt, "it has a mask");
        assert_refused(&rt, rt.alloc(), given, &error, want);
    }
}
