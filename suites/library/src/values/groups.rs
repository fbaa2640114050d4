//! Lists of groups.

use super::support::{assert_is, assert_is_at};
use neli::utils::Groups;
use std::alloc::Global;
use std::process::Abort;

/// The list of these groups.
pub fn list_of(rt: &impl Abort, alloc: Global, groups: &[u32]) -> Groups {
    Groups::new_groups(alloc, groups).expect(rt, "memory")
}

/// Asserts that the list holds these groups.
pub fn assert_groups(rt: &impl Abort, alloc: Global, groups: Groups, want: &[u32]) {
    assert_is_at(rt, want, groups.is_empty(), want.is_empty());
    let copy = groups.as_groups(alloc).expect(rt, "memory");
    assert_is(rt, copy.as_slice(), want);
    assert_is(rt, groups.into_groups().as_slice(), want);
}

#[test]
fn new_lists(rt: HostRuntime) {
    assert_groups(&rt, rt.alloc(), Groups::empty(rt.alloc()), &[]);
    let rows: [(&[u32], &[u32]); 5] = [
        (&[], &[]),
        (&[0, 0, 0, 0], &[]),
        (&[33], &[33]),
        (&[4, 0, 4, 2], &[4, 4, 2]),
        (&[4294967295, 1], &[4294967295, 1]),
    ];
    for (given, want) in rows {
        assert_groups(&rt, rt.alloc(), list_of(&rt, rt.alloc(), given), want);
    }
}

/// An operation on a list.
#[derive(Clone, Copy)]
enum Change {
    Add(&'static [u32]),
    AddMask(u32),
    Remove(&'static [u32]),
    RemoveMask(u32),
}

fn make_change(rt: &impl Abort, groups: &mut Groups, change: Change) {
    match change {
        Change::Add(added) => groups.add_groups(added).expect(rt, "memory"),
        Change::AddMask(mask) => groups.add_bitmask(mask).expect(rt, "memory"),
        Change::Remove(removed) => groups.remove_groups(removed),
        Change::RemoveMask(mask) => groups.remove_bitmask(mask),
    }
}

/// Lists, the operation on each, and the list after it.
const CHANGES: [(&[u32], Change, &[u32]); 12] = [
    (&[], Change::Add(&[3, 1, 3, 0, 1]), &[3, 1]),
    (&[5, 5], Change::Add(&[5]), &[5, 5]),
    (&[5, 5], Change::Add(&[6, 5, 6, 40]), &[5, 5, 6, 40]),
    (&[1], Change::Add(&[0]), &[1]),
    (&[1], Change::Add(&[]), &[1]),
    (&[7, 3, 7, 7], Change::Remove(&[7]), &[3]),
    (&[7, 3, 40], Change::Remove(&[40, 3, 3]), &[7]),
    (&[7, 3], Change::Remove(&[0, 4]), &[7, 3]),
    (&[], Change::Remove(&[4]), &[]),
    (
        &[2, 40, 2],
        Change::AddMask(0x8000_0003),
        &[2, 40, 2, 1, 32],
    ),
    (
        &[2, 40, 2, 1, 32],
        Change::RemoveMask(0x8000_0002),
        &[40, 1],
    ),
    (&[40, 1], Change::RemoveMask(0xffff_ffff), &[40]),
];

#[test]
fn changed_lists(rt: HostRuntime) {
    for (first, done, want) in CHANGES {
        let mut groups = list_of(&rt, rt.alloc(), first);
        make_change(&rt, &mut groups, done);
        assert_groups(&rt, rt.alloc(), groups, want);
    }
}
