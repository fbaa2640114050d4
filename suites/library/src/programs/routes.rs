//! The routes of a host: a request for them, and a line for each, as `Unicast 10.1.0.0/16 via 192.0.2.10 link 3`.
//!
//! Recorded from Linux 6.18: 0157 to 0159 of suites/README.md, with three of the 26 routes. pyroute2 read their
//! fields.

use super::support::assert_is;
use super::talk::{Talk, answered, payload_of};
use neli::consts::nl::NlmF;
use neli::consts::rtnl::{RtAddrFamily, RtScope, RtTable, Rta, Rtm, Rtn, Rtprot};
use neli::rtnl::{Rtmsg, RtmsgBuilder};
use neli::short::Lookup;
use std::alloc::Global;
use std::net::Ipv4Addr;
use std::test::Fail;

/// A dump of the routes of IPv4.
const ROUTES: Talk = Talk {
    port: 2828030817,
    number: 1008,
    request: "1c0000001a000103f003000000000000020000000000000000000000",
    answers: &[
        "3c00000018000200f0030000615390a802100000fe0300010000000008000f00fe000000080001000a01000008000500\
        c000020a08000400030000002c00000018000200f0030000615390a802100000fe0300060000000008000f00fe000000\
        080001000a0300003c00000018000200f0030000615390a802100000fe02fd010000000008000f00fe00000008000100\
        0a090000080007000a0900010800040005000000",
        "1400000003000200f0030000615390a800000000",
    ],
};

/// The request: the routes of IPv4, of each table and kind.
fn all_routes(alloc: Global) -> Result<Rtmsg, Fail> {
    let all = RtmsgBuilder::default()
        .rtm_family(RtAddrFamily::Inet)
        .rtm_dst_len(0)
        .rtm_src_len(0)
        .rtm_tos(0)
        .rtm_table(RtTable::Unspec)
        .rtm_protocol(Rtprot::Unspec)
        .rtm_scope(RtScope::Universe)
        .rtm_type(Rtn::Unspec)
        .build(alloc)?;
    Ok(all)
}

/// The line of a route: its kind, its destination, its gateway, its link and its source address.
fn line_of(alloc: Global, route: &Rtmsg) -> Result<String, Fail> {
    let attrs = route.rtattrs();
    let mut line = match attrs.get::<Ipv4Addr>(alloc, Rta::Dst)? {
        Some(to) => format!(in alloc; "{:?} {to}/{}", route.rtm_type(), route.rtm_dst_len())?,
        None => format!(in alloc; "{:?} default", route.rtm_type())?,
    };
    if let Some(gateway) = attrs.get::<Ipv4Addr>(alloc, Rta::Gateway)? {
        line = format!(in alloc; "{line} via {gateway}")?;
    }
    if let Some(link) = attrs.get::<u32>(alloc, Rta::Oif)? {
        line = format!(in alloc; "{line} link {link}")?;
    }
    if let Some(address) = attrs.get::<Ipv4Addr>(alloc, Rta::Prefsrc)? {
        line = format!(in alloc; "{line} from {address}")?;
    }
    Ok(line)
}

/// The printed lines of the routes.
const LINES: [&str; 3] = [
    "Unicast 10.1.0.0/16 via 192.0.2.10 link 3",
    "Blackhole 10.3.0.0/16",
    "Unicast 10.9.0.0/16 link 5 from 10.9.0.1",
];

#[test]
fn routes_are_shown(rt: HostRuntime) -> Result<(), Fail> {
    let alloc = rt.alloc();
    let all = all_routes(alloc)?;
    let items = answered::<_, _, Rtmsg>(&rt, alloc, &ROUTES, Rtm::Getroute, NlmF::DUMP, all);
    // The last one is the end of the dump.
    assert_is(&rt, items.len(), 4);
    for (item, want) in items.iter().zip(LINES) {
        let line = line_of(alloc, payload_of(&rt, item))?;
        assert_is(&rt, line.as_str(), want);
    }
    Ok(())
}
