//! Numbers by their names and names by their numbers. Numbers are those of `linux/rtnetlink.h`, `linux/if_link.h`,
//! `net/if.h` and `linux/ethtool_netlink.h`.

use neli_c_parts::code::{ITEM, KIND, MEMORY, OK, PLACE, SHORT};
use neli_c_parts::families::Families;
use neli_c_parts::lookups::{add_built_in, message_name, name_of, number_of};
use neli_c_parts::message::NeliMessage;
use neli_c_parts::named::NeliNamed;
use neli_c_parts::named_fields::message_field;
use neli_c_parts::naming::message_items;
use std::alloc::Global;
use std::test::Fail;

/// The tables of links and of ethtool.
fn two_tables(alloc: Global) -> Families {
    let mut families = Families::new(alloc);
    let codes = (
        add_built_in(alloc, &mut families, b"rt_link"),
        add_built_in(alloc, &mut families, b"ethtool"),
    );
    if codes == (OK, OK) {
        families
    } else {
        Families::new(alloc)
    }
}

#[test]
fn numbers_of_names(rt: HostRuntime) -> Result<(), Fail> {
    let families = two_tables(rt.alloc());
    let rows: [(&[u8], &[u8], &[u8], Option<u64>); 10] = [
        (b"rt-link", b"", b"RTM_NEWLINK", Some(16)),
        (b"rt-link", b"", b"RTNLGRP_LINK", Some(1)),
        (b"rt-link", b"link-attrs", b"IFLA_MTU", Some(4)),
        (b"rt-link", b"ifinfo-flags", b"running", Some(0x40)),
        (b"rt-link", b"hardware-type", b"loopback", Some(772)),
        (b"rt-link", b"ifinfomsg", b"ifi_index", Some(4)),
        (b"ethtool", b"", b"ETHTOOL_MSG_RINGS_GET_REPLY", Some(16)),
        (b"rt-link", b"", b"IFLA_MTU", None),
        (b"rt-link", b"RTM_NEWLINK", b"IFLA_MTU", None),
        (b"rt_link", b"", b"RTM_NEWLINK", None),
    ];
    for (family, list, name, wanted) in rows {
        let mut number = 4711;
        let code = number_of(&families, family, list, name, &mut number);
        let found = if code == ITEM { Some(number) } else { None };
        assert_eq!(rt; found, wanted, "of {name:?}");
        assert_eq!(rt;
            (code, number),
            (
                if wanted.is_some() { ITEM } else { OK },
                wanted.unwrap_or(4711)
            )
        );
    }
    Ok(())
}

/// A name of at most eight bytes, with the code and how long it is.
fn name(families: &Families, family: &[u8], list: &[u8], number: u64) -> (i32, [u8; 8], usize) {
    let mut out = [b'?'; 8];
    let mut size = 4711;
    let code = name_of(families, family, list, number, &mut out, &mut size);
    (code, out, size)
}

#[test]
fn names_of_numbers(rt: HostRuntime) -> Result<(), Fail> {
    let families = two_tables(rt.alloc());
    let rows: [(&[u8], &[u8], u64, (i32, [u8; 8], usize)); 6] = [
        (b"rt-link", b"", 18, (ITEM, *b"RTM_GETL", 11)),
        (b"rt-link", b"link-attrs", 4, (ITEM, *b"IFLA_MTU", 8)),
        (b"rt-link", b"ifinfo-flags", 0x40, (ITEM, *b"running?", 7)),
        (b"ethtool", b"", 15, (ITEM, *b"ETHTOOL_", 21)),
        (b"rt-link", b"", 1, (OK, *b"????????", 4711)),
        (b"tc", b"", 36, (OK, *b"????????", 4711)),
    ];
    for (family, list, number, wanted) in rows {
        assert_eq!(rt;
            name(&families, family, list, number),
            wanted,
            "of {number}"
        );
    }
    Ok(())
}

/// A message of this type and these flags, with a payload of so many bytes behind its header.
fn message(message_type: u16, flags: u16, payload_length: usize) -> NeliMessage {
    NeliMessage {
        length: 16 + payload_length as u32,
        message_type,
        flags,
        number: 0,
        port: 0,
        payload: 16,
        payload_length,
    }
}

#[test]
fn messages_have_names(rt: HostRuntime) -> Result<(), Fail> {
    let mut families = two_tables(rt.alloc());
    assert_eq!(rt; families.learn(30, b"ethtool"), Ok(()));
    let rows: [(u16, u16, u16, usize, i32, &[u8]); 6] = [
        (0, 16, 0, 16, ITEM, b"RTM_NEWLINK"),
        (0, 4711, 0, 16, OK, b""),
        (0, 16, 0, 17, PLACE, b""),
        (16, 30, 1, 4, ITEM, b"ETHTOOL_MSG_RINGS_SET"),
        (16, 30, 0, 4, ITEM, b"ETHTOOL_MSG_RINGS_GET_REPLY"),
        (16, 31, 0, 4, OK, b""),
    ];
    // The command is 16 of generic netlink.
    let mut bytes = [0; 32];
    bytes[16] = 16;
    for (protocol, message_type, flags, length, wanted, text) in rows {
        let mut out = [0; 32];
        let mut size = 0;
        let read = message(message_type, flags, length);
        let code = message_name(&families, protocol, &bytes, &read, &mut out, &mut size);
        assert_eq!(rt; (code, &out[..size]), (wanted, text), "of {message_type}");
    }
    Ok(())
}

/// An item of which nothing is known.
fn no_item() -> NeliNamed {
    NeliNamed {
        number: 7,
        kind: 7,
        depth: 7,
        payload: 7,
        payload_length: 7,
        path: 7,
        path_length: 7,
        value: 7,
        value_length: 7,
    }
}

/// Those of `struct ifinfomsg` and of `struct rtgenmsg`: each with its place and its bytes, and its name and its value.
#[test]
fn messages_have_fields(rt: HostRuntime) -> Result<(), Fail> {
    let alloc = rt.alloc();
    let mut families = two_tables(alloc);
    assert_eq!(rt; add_built_in(alloc, &mut families, b"rt_nsid"), OK);
    let rows: [(u16, usize, usize, i32, usize, usize, &[u8]); 8] = [
        (16, 16, 0, ITEM, 16, 1, b"ifi_family0"),
        (16, 16, 1, ITEM, 18, 2, b"ifi_type\"ether\""),
        (16, 16, 2, ITEM, 20, 4, b"ifi_index3"),
        (16, 16, 3, ITEM, 24, 4, b"ifi_flags[\"up\"]"),
        (16, 16, 5, OK, 7, 7, b""),
        (16, 8, 2, ITEM, 20, 4, b"ifi_index3"),
        (88, 16, 0, ITEM, 16, 1, b"rtgen_family0"),
        (4711, 16, 0, OK, 7, 7, b""),
    ];
    let mut bytes = [0; 32];
    bytes[18] = 1;
    bytes[20] = 3;
    bytes[24] = 1;
    for (message_type, length, index, wanted, place, size, text) in rows {
        let (mut out, mut written, mut named) = ([0; 32], 0, no_item());
        let read = message(message_type, 0, length);
        let code = message_field(
            &families,
            0,
            &bytes,
            &read,
            index,
            &mut named,
            &mut out,
            &mut written,
        );
        assert_eq!(rt;
            (code, &out[..written]),
            (wanted, text),
            "of {message_type}, {index}"
        );
        assert_eq!(rt; (named.payload, named.payload_length), (place, size));
        assert_eq!(rt; named.kind, if wanted == ITEM { 36 } else { 7 });
    }
    Ok(())
}

#[test]
fn a_body_may_be_too_short_for_its_structure(rt: HostRuntime) -> Result<(), Fail> {
    let families = two_tables(rt.alloc());
    let mut items: [NeliNamed; 0] = [];
    for (message_type, length, wanted) in [(16, 15, SHORT), (16, 16, OK), (4711, 15, KIND)] {
        let (mut count, mut size) = (7, 8);
        let read = message(message_type, 0, length);
        let code = message_items(
            &families,
            0,
            &[0; 32],
            &read,
            &mut items,
            &mut count,
            &mut [],
            &mut size,
        );
        let sizes = if wanted == OK { (0, 0) } else { (7, 8) };
        assert_eq!(rt; (code, count, size), (wanted, sizes.0, sizes.1));
    }
    Ok(())
}

#[test]
fn a_table_has_the_name_of_its_file(rt: HostRuntime) -> Result<(), Fail> {
    let alloc = rt.alloc();
    let mut families = Families::new(alloc);
    for (text, wanted) in [(b"rt-link", KIND), (b"rt_link", OK), (b"wg_link", KIND)] {
        assert_eq!(rt; add_built_in(alloc, &mut families, text), wanted);
    }
    assert_eq!(rt; add_built_in(alloc, &mut families, b"xfrm"), OK);
    assert_eq!(rt; families.tables.tables().len(), 2);
    assert_eq!(rt; name(&families, b"xfrm", b"", 16), (ITEM, *b"XFRM_MSG", 14));
    Ok(())
}

/// Where memory runs out nothing is added.
#[test]
fn a_table_is_added_or_out_of_memory(rt: HostRuntime) -> Result<(), Fail> {
    let alloc = rt.alloc();
    let mut families = Families::new(alloc);
    let code = add_built_in(alloc, &mut families, b"fou");
    let count = families.tables.tables().len();
    assert!(rt; (code, count) == (OK, 1) || (code, count) == (MEMORY, 0));
    Ok(())
}
