//! Next hops, the multicast groups of bridges and the statistics of links: recorded, with the fields that libmnl's
//! lengths and the kernel's structs give, and made. Neighbour tables, by hand from `linux/neighbour.h`.

use super::support::{Row, assert_is_at, assert_written, bytes_of, read_whole, recorded};
use neli::consts::Constant;
use neli::consts::linux::{AF_BRIDGE, IflaStats, Mdba, Ndta, Nha};
use neli::consts::rtnl::{RtAddrFamily, RtScope, Rtprot};
use neli::err::DeError;
use neli::rtnl::linux::{
    BrPortMsg, BrPortMsgHeader, IfStatsMsg, IfStatsMsgHeader, Ndtmsg, NdtmsgHeader, Nhmsg,
    NhmsgHeader,
};
use neli::short::{Lookup, Put};
use neli::types::RtBuffer;
use neli::{Cursor, FromBytesWithInput, Header};
use std::test::Fail;

/// Next hops.
const NEXT_HOPS: [Row<(u8, u8, u8, u32)>; 2] = [
    (
        "0121",
        "02fd000000000000080001000c000000080005000400000008000600c6336409",
        (2, 253, 0, 0),
        3,
    ),
    ("0186", "0000000000000000", (0, 0, 0, 0), 0),
];

#[test]
fn next_hops(rt: HostRuntime) {
    assert_is_at(&rt, "header", Nhmsg::header_size(), 8);
    for (label, digits, fields, attributes) in NEXT_HOPS {
        let m: Nhmsg = recorded(&rt, rt.alloc(), label, digits);
        let h = m.header();
        let scope = h.nh_scope.to_wire();
        let got = (
            h.nh_family.to_wire(),
            scope,
            h.nh_protocol.to_wire(),
            h.nh_flags,
        );
        assert_is_at(&rt, label, got, fields);
        assert_is_at(&rt, label, m.rtattrs().len(), attributes);
    }
}

/// Multicast groups: a kernel's message, a request for all, and a bridge that has none.
const GROUPS: [Row<(u8, u32)>; 3] = [
    (
        "0128",
        "07000000050000003800010034000100300001000200000001000000ff0e0000000000000000000000000005\
        86dd000008000100000000000500050004000000",
        (7, 5),
        1,
    ),
    ("0250", "0700000000000000", (7, 0), 0),
    ("0251 message 1", "070000000700000004000100", (7, 7), 1),
];

#[test]
fn groups_of_bridges(rt: HostRuntime) {
    assert_is_at(&rt, "header", BrPortMsg::header_size(), 8);
    for (label, digits, fields, attributes) in GROUPS {
        let m: BrPortMsg = recorded(&rt, rt.alloc(), label, digits);
        let got = (m.header().family.to_wire(), m.header().ifindex);
        assert_is_at(&rt, label, got, fields);
        assert_is_at(&rt, label, m.rtattrs().len(), attributes);
        let listed = m.rtattrs().payload_of(Mdba::Mdb).is_some();
        assert_is_at(&rt, label, listed, attributes == 1);
    }
}

/// Requests for statistics: of all links, and all statistics of one.
const STATISTICS: [Row<(u8, u32, u32)>; 2] = [
    ("0253", "000000000000000001000000", (0, 0, 1), 0),
    ("1122", "00000000030000001f000000", (0, 3, 31), 0),
];

#[test]
fn statistics_of_links(rt: HostRuntime) {
    assert_is_at(&rt, "header", IfStatsMsg::header_size(), 12);
    for (label, digits, fields, attributes) in STATISTICS {
        let m: IfStatsMsg = recorded(&rt, rt.alloc(), label, digits);
        let h = m.header();
        let got = (h.family.to_wire(), h.ifindex, h.filter_mask);
        assert_is_at(&rt, label, got, fields);
        assert_is_at(&rt, label, m.rtattrs().len(), attributes);
    }
}

/// Neighbour tables: a request for all, a first threshold that is set, and the beginning of an answer.
const NEIGHBOUR_TABLES: [Row<(u8, Option<&str>, Option<u32>)>; 3] = [
    ("all", "00000000", (0, None, None), 0),
    (
        "a threshold",
        "020000000e0001006172705f63616368650000000800020000010000",
        (2, Some("arp_cache"), Some(256)),
        2,
    ),
    (
        "an answer",
        "0a000000100001006e646973635f6361636865000c0008003075000000000000080002008000000008000300\
        000200000800040000040000",
        (10, Some("ndisc_cache"), Some(128)),
        5,
    ),
];

#[test]
fn neighbour_tables(rt: HostRuntime) {
    let alloc = rt.alloc();
    assert_is_at(&rt, "header", Ndtmsg::header_size(), 4);
    for (label, digits, fields, attributes) in NEIGHBOUR_TABLES {
        let m: Ndtmsg = recorded(&rt, alloc, label, digits);
        let attrs = m.rtattrs();
        let name = attrs.get_str(Ndta::Name).expect(&rt, label);
        let threshold = attrs.get::<u32>(alloc, Ndta::Thresh1).expect(&rt, label);
        let got = (m.header().ndtm_family.to_wire(), name, threshold);
        assert_is_at(&rt, label, got, fields);
        assert_is_at(&rt, label, attrs.len(), attributes);
        let interval = attrs.get::<u64>(alloc, Ndta::GcInterval).expect(&rt, label);
        assert_is_at(&rt, label, interval == Some(30000), attributes == 5);
    }
}

// What is made is written as these bytes, with zeros where bytes have no meaning; and so is a copy, which is equal.
#[test]
fn made(rt: HostRuntime) -> Result<(), Fail> {
    let alloc = rt.alloc();
    let mut attrs = RtBuffer::new(alloc);
    attrs.put(alloc, Nha::Id, 12u32)?;
    let fields = NhmsgHeader::new(
        RtAddrFamily::Inet,
        RtScope::Universe,
        Rtprot::Static,
        0x1234,
    );
    let hop = Nhmsg::new(fields, attrs);
    let bytes = bytes_of(&rt, alloc, "hop", "0200040034120000080001000c000000");
    assert_written(&rt, alloc, "hop", &hop, &bytes);
    let copy = hop.try_clone()?;
    assert!(rt; copy == hop);
    assert_written(&rt, alloc, "copy", &copy, &bytes);
    let all = BrPortMsg::new(BrPortMsgHeader::new(AF_BRIDGE, 9), RtBuffer::new(alloc));
    let bytes = bytes_of(&rt, alloc, "groups", "0700000009000000");
    assert_written(&rt, alloc, "groups", &all, &bytes);
    let fields = IfStatsMsgHeader::new(RtAddrFamily::Unspecified, 3, 0x0201);
    let one = IfStatsMsg::new(fields, RtBuffer::new(alloc));
    let bytes = bytes_of(&rt, alloc, "statistics", "000000000300000001020000");
    assert_written(&rt, alloc, "statistics", &one, &bytes);
    let mut attrs = RtBuffer::new(alloc);
    attrs.put(alloc, Ndta::Name, "arp_cache")?;
    attrs.put(alloc, Ndta::Thresh1, 256u32)?;
    let table = Ndtmsg::new(NdtmsgHeader::new(RtAddrFamily::Inet), attrs);
    let bytes = bytes_of(
        &rt,
        alloc,
        "table",
        "020000000e0001006172705f63616368650000000800020000010000",
    );
    assert_written(&rt, alloc, "table", &table, &bytes);
    Ok(())
}

// Bytes without a meaning are kept, whatever their value, and written as they were.
#[test]
fn reserved_bytes_are_kept(rt: HostRuntime) {
    let alloc = rt.alloc();
    let _hop: Nhmsg = recorded(&rt, alloc, "hop", "020000ff00000000");
    let _groups: BrPortMsg = recorded(&rt, alloc, "groups", "07aabbcc05000000");
    let _table: Ndtmsg = recorded(&rt, alloc, "table", "02aabbcc");
    let one: IfStatsMsg = recorded(&rt, alloc, "statistics", "00aabbcc0300000001000000");
    let again = read_whole::<IfStatsMsg>(
        &rt,
        alloc,
        "again",
        &[0, 0, 0, 0, 3, 0, 0, 0, 1, 0, 0, 0],
    );
    assert!(rt; one != again);
    assert!(rt; one.header().filter_mask == again.header().filter_mask);
    assert!(rt; again.rtattrs().payload_of(IflaStats::Link64).is_none());
}

// Fewer bytes than the fields take are refused with their number.
#[test]
fn cut(rt: HostRuntime) {
    let read = IfStatsMsg::from_bytes_with_input(rt.alloc(), &mut Cursor::new(&[0; 11]), 11);
    assert!(rt; matches!(read, Err(DeError::InvalidInput(11))));
    let read = Nhmsg::from_bytes_with_input(rt.alloc(), &mut Cursor::new(&[0; 7]), 7);
    assert!(rt; matches!(read, Err(DeError::InvalidInput(7))));
    let read = BrPortMsg::from_bytes_with_input(rt.alloc(), &mut Cursor::new(&[0; 7]), 7);
    assert!(rt; matches!(read, Err(DeError::InvalidInput(7))));
    let read = Ndtmsg::from_bytes_with_input(rt.alloc(), &mut Cursor::new(&[0; 3]), 3);
    assert!(rt; matches!(read, Err(DeError::InvalidInput(3))));
}
