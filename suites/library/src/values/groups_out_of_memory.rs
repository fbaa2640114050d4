//! Results of the calls when an allocation is refused. `rt try --test --fail-alloc N` refuses the Nth one of each test;
//! the tests of this file pass with every N, and without.

use super::support::assert_is;
use neli::err::SerError;
use neli::utils::{Groups, NetlinkBitArray};

#[test]
fn what_takes_no_memory(rt: HostRuntime) {
    let mut groups = Groups::empty(rt.alloc());
    groups.remove_groups(&[1]);
    groups.remove_bitmask(1);
    assert!(rt; groups.is_empty());
    assert!(rt; groups.add_groups(&[0]).is_ok());
    assert!(rt; matches!(groups.as_bitmask(rt.alloc()), Ok(0)));
    assert_is(&rt, groups.into_groups().len(), 0);
    assert!(rt; Groups::new_bitmask(rt.alloc(), 0).is_ok());
    assert!(rt; Groups::new_groups(rt.alloc(), &[]).is_ok());
    assert!(rt; Groups::empty(rt.alloc()).as_groups(rt.alloc()).is_ok());
    let refused = NetlinkBitArray::new(rt.alloc(), usize::MAX);
    assert!(rt; matches!(refused, Err(SerError::Msg(_))));
}

// The list itself may be refused.
#[test]
fn what_is_there_takes_no_memory(rt: HostRuntime) {
    if let Ok(mut groups) = Groups::new_groups(rt.alloc(), &[1, 32, 40]) {
        assert!(rt; groups.add_groups(&[40, 0, 1, 40]).is_ok());
        assert!(rt; groups.add_bitmask(0x8000_0001).is_ok());
    }
    if let Ok(array) = NetlinkBitArray::new(rt.alloc(), 32) {
        assert!(rt; array.to_vec(rt.alloc()).is_ok());
    }
}

#[test]
fn new_groups_or_out_of_memory(rt: HostRuntime) {
    if let Ok(groups) = Groups::new_groups(rt.alloc(), &[3, 0, 3]) {
        assert_is(&rt, groups.into_groups().as_slice(), [3u32, 3].as_slice());
    }
    if let Ok(groups) = Groups::new_bitmask(rt.alloc(), 0x8000_0001) {
        assert_is(&rt, groups.into_groups().as_slice(), [1u32, 32].as_slice());
    }
}

#[test]
fn groups_added_or_as_they_were(rt: HostRuntime) {
    let mut groups = Groups::empty(rt.alloc());
    let added = groups.add_groups(&[9, 1, 9, 2, 3, 4, 5, 6, 7, 8]).is_ok();
    let mask_added = groups.add_bitmask(0x8000_0001).is_ok();
    let list = groups.into_groups();
    let want: &[u32] = match (added, mask_added) {
        (true, true) => &[9, 1, 2, 3, 4, 5, 6, 7, 8, 32],
        (true, false) => &[9, 1, 2, 3, 4, 5, 6, 7, 8],
        (false, true) => &[1, 32],
        (false, false) => &[],
    };
    assert_is(&rt, list.as_slice(), want);
}

#[test]
fn masks_added_or_as_they_were(rt: HostRuntime) {
    let mut groups = Groups::empty(rt.alloc());
    let added = groups.add_bitmask(0xffff_ffff).is_ok();
    assert_is(&rt, groups.into_groups().len(), if added { 32 } else { 0 });
}

#[test]
fn a_list_or_out_of_memory(rt: HostRuntime) {
    if let Ok(groups) = Groups::new_groups(rt.alloc(), &[40]) {
        if let Ok(list) = groups.as_groups(rt.alloc()) {
            assert_is(&rt, list.as_slice(), [40u32].as_slice());
        }
        let mask = groups.as_bitmask(rt.alloc());
        assert!(rt; matches!(mask, Err(SerError::Msg(_)) | Err(SerError::Memory)));
    }
}

#[test]
fn an_array_or_out_of_memory(rt: HostRuntime) {
    match NetlinkBitArray::new(rt.alloc(), 33) {
        Ok(mut array) => {
            assert_is(&rt, array.len(), 8);
            if array.len_bits() == 64 {
                array.set(64);
            }
            let longer = array.resize_bits(256);
            assert!(rt; matches!(&longer, Ok(()) | Err(SerError::Memory)));
            assert_is(&rt, array.len_bits(), if longer.is_ok() { 256 } else { 64 });
            if let Ok(list) = array.to_vec(rt.alloc()) {
                assert_is(&rt, list.as_slice(), [64u32].as_slice());
            }
            assert!(rt;
                array.resize(1).is_ok(),
                "a smaller capacity takes no memory"
            );
        }
        Err(error) => assert!(rt; matches!(error, SerError::Memory)),
    }
}
