//! Constants on the wire: the bytes of their number, the lowest first.

use super::support::{assert_is_at, assert_read, assert_written};
use neli::TypeSize;
use neli::consts::Constant;
use neli::consts::connector::ProcEventType;
use neli::consts::genl::CtrlCmd;
use neli::consts::linux::{self, AF_BRIDGE, AF_MPLS, NetlinkAttributeType, Nha, Rtnlgrp};
use neli::consts::nl::{NlTypeWrapper, NlmF};
use neli::consts::rtnl::{Iff, Rtm};
use neli::consts::socket::AddrFamily;
use std::alloc::Global;
use std::process::Abort;

/// The value is written as these bytes, and read from them.
fn check<T: Constant + PartialEq>(rt: &impl Abort, alloc: Global, value: T, wanted: &[u8]) {
    assert_is_at(rt, value, T::type_size(), wanted.len());
    assert_written(rt, alloc, &value, wanted);
    assert_read(rt, alloc, wanted, Ok(value), wanted.len());
}

#[test]
fn both_ways(rt: HostRuntime) {
    let alloc = rt.alloc();
    check(&rt, alloc, CtrlCmd::Getfamily, b"\x03");
    check(&rt, alloc, Rtm::Getlink, b"\x12\x00");
    check(&rt, alloc, Rtm::UnrecognizedConst(0x1234), b"\x34\x12");
    check(&rt, alloc, NlTypeWrapper::Rtm(Rtm::Newroute), b"\x18\x00");
    check(&rt, alloc, ProcEventType::Exit, b"\x00\x00\x00\x80");
    check(&rt, alloc, AddrFamily::Netlink, b"\x10\x00\x00\x00");
    check(&rt, alloc, linux::CtrlCmd::Getpolicy, b"\x0a");
    check(&rt, alloc, AF_BRIDGE, b"\x07");
    check(&rt, alloc, AF_MPLS, b"\x1c");
    check(&rt, alloc, Nha::Gateway, b"\x06\x00");
    check(&rt, alloc, Rtnlgrp::Nexthop, b"\x20\x00\x00\x00");
    let nested = NetlinkAttributeType::Nested;
    check(&rt, alloc, nested, b"\x0d\x00\x00\x00");
    let unknown = AddrFamily::UnrecognizedConst(-1);
    check(&rt, alloc, unknown, b"\xff\xff\xff\xff");
    check(&rt, alloc, NlmF::REQUEST | NlmF::DUMP, b"\x01\x03");
    check(&rt, alloc, Iff::UP | Iff::LOWERUP, b"\x01\x00\x01\x00");
}

/// The types of messages that the port's table has no name for, by their numbers in `linux/rtnetlink.h`.
const NEWER: [(u16, Rtm); 27] = [
    (56, linux::RTM_NEWMULTICAST),
    (57, linux::RTM_DELMULTICAST),
    (60, linux::RTM_NEWANYCAST),
    (61, linux::RTM_DELANYCAST),
    (81, linux::RTM_DELNETCONF),
    (92, linux::RTM_NEWSTATS),
    (94, linux::RTM_GETSTATS),
    (95, linux::RTM_SETSTATS),
    (96, linux::RTM_NEWCACHEREPORT),
    (100, linux::RTM_NEWCHAIN),
    (101, linux::RTM_DELCHAIN),
    (102, linux::RTM_GETCHAIN),
    (104, linux::RTM_NEWNEXTHOP),
    (105, linux::RTM_DELNEXTHOP),
    (106, linux::RTM_GETNEXTHOP),
    (108, linux::RTM_NEWLINKPROP),
    (109, linux::RTM_DELLINKPROP),
    (110, linux::RTM_GETLINKPROP),
    (112, linux::RTM_NEWVLAN),
    (113, linux::RTM_DELVLAN),
    (114, linux::RTM_GETVLAN),
    (116, linux::RTM_NEWNEXTHOPBUCKET),
    (117, linux::RTM_DELNEXTHOPBUCKET),
    (118, linux::RTM_GETNEXTHOPBUCKET),
    (120, linux::RTM_NEWTUNNEL),
    (121, linux::RTM_DELTUNNEL),
    (122, linux::RTM_GETTUNNEL),
];

#[test]
fn newer_types_are_what_a_read_gives(rt: HostRuntime) {
    for (number, value) in NEWER {
        assert_eq!(rt; Rtm::from_wire(number), value, "{number}");
        assert_eq!(rt; value.to_wire(), number);
    }
}
