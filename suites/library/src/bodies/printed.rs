//! The `Debug` output of the bodies of routing and of their sets of flags.

use super::support::{assert_is_at, read_whole};
use neli::FromBytesWithInput;
use neli::connector::CnMsg;
use neli::consts::Constant;
use neli::consts::genl::{CtrlAttr, CtrlCmd};
use neli::consts::rtnl::{Frf, IfaF, Iff, Ntf, Nud, RtmF, VlanFlags};
use neli::genl::Genlmsghdr;
use neli::rtnl::{Fibmsg, Ifaddrmsg, Ifinfomsg, Ndmsg, Rtgenmsg, Rtmsg, Tcmsg};
use neli::types::Buffer;
use std::alloc::Global;
use std::fmt::Debug;
use std::process::Abort;

/// Bytes for the fields of any of these bodies.
const ZEROS: [u8; 20] = [0; 20];

/// Asserts that this is printed of the body that as many zeros spell: its name, its fields, and no attribute.
fn assert_shows<B: FromBytesWithInput>(
    rt: &impl Abort,
    alloc: Global,
    name: &str,
    size: usize,
    fields: &str,
) {
    let bytes = ZEROS.get(..size).expect(rt, name);
    let body: B = read_whole(rt, alloc, name, bytes);
    let text = format!(in alloc; "{body:?}").expect(rt, "memory");
    let want = format!(in alloc;
        "{name} {{ header: {name}Header {{ {fields} }}, rtattrs: FrameList {{ items: [] }} }}"
    );
    assert_is_at(rt, name, text.as_str(), want.expect(rt, "memory").as_str());
}

#[test]
fn links_show_their_fields(rt: HostRuntime) {
    let fields = "ifi_family: Unspecified, padding: 0, ifi_type: Netrom, ifi_index: 0, \
        ifi_flags: Iff(0), ifi_change: Iff(0)";
    assert_shows::<Ifinfomsg>(&rt, rt.alloc(), "Ifinfomsg", 16, fields);
    let fields = "ifa_family: Unspecified, ifa_prefixlen: 0, ifa_flags: IfaF(0), \
        ifa_scope: Universe, ifa_index: 0";
    assert_shows::<Ifaddrmsg>(&rt, rt.alloc(), "Ifaddrmsg", 8, fields);
    let fields = "ndm_family: Unspecified, pad1: 0, pad2: 0, ndm_index: 0, ndm_state: Nud(0), \
        ndm_flags: Ntf(0), ndm_type: Unspec";
    assert_shows::<Ndmsg>(&rt, rt.alloc(), "Ndmsg", 12, fields);
}

#[test]
fn routes_show_their_fields(rt: HostRuntime) {
    let fields = "rtm_family: Unspecified, rtm_dst_len: 0, rtm_src_len: 0, rtm_tos: 0, \
        rtm_table: Unspec, rtm_protocol: Unspec, rtm_scope: Universe, rtm_type: Unspec, \
        rtm_flags: RtmF(0)";
    assert_shows::<Rtmsg>(&rt, rt.alloc(), "Rtmsg", 12, fields);
    let fields = "tcm_family: 0, padding_char: 0, padding_short: 0, tcm_ifindex: 0, \
        tcm_handle: 0, tcm_parent: 0, tcm_info: 0";
    assert_shows::<Tcmsg>(&rt, rt.alloc(), "Tcmsg", 20, fields);
    let fields = "fib_family: Unspecified, fib_dst_len: 0, fib_src_len: 0, fib_tos: 0, \
        fib_table: Unspec, pad1: 0, pad2: 0, fib_action: Unspec, fib_flags: Frf(0)";
    assert_shows::<Fibmsg>(&rt, rt.alloc(), "Fibmsg", 12, fields);
    let fields = "rtgen_family: Unspecified, pad1: 0, pad2: 0";
    assert_shows::<Rtgenmsg>(&rt, rt.alloc(), "Rtgenmsg", 4, fields);
}

// The address 192.0.2.1 of IFA_LOCAL (the kernel's linux/if_addr.h).
#[test]
fn attributes_are_shown(rt: HostRuntime) {
    let alloc = rt.alloc();
    let bytes = [2, 24, 0x80, 0, 3, 0, 0, 0, 8, 0, 2, 0, 192, 0, 2, 1];
    let body: Ifaddrmsg = read_whole(&rt, alloc, "an address", &bytes);
    assert_prints(
        &rt,
        alloc,
        &body,
        "Ifaddrmsg { header: IfaddrmsgHeader { ifa_family: Inet, ifa_prefixlen: 24, \
         ifa_flags: IfaF(128), ifa_scope: Universe, ifa_index: 3 }, rtattrs: FrameList { items: \
         [Rtattr { rta_len: 8, rta_type: Local, rta_payload: Buffer }] } }",
    );
}

// CTRL_CMD_GETFAMILY with CTRL_ATTR_FAMILY_ID (the kernel's linux/genetlink.h), and CN_IDX_PROC (linux/connector.h).
#[test]
fn generic_messages_are_shown(rt: HostRuntime) {
    let alloc = rt.alloc();
    let bytes = [3, 1, 0, 0, 6, 0, 1, 0, 16, 0, 0, 0];
    let body: Genlmsghdr<CtrlCmd, CtrlAttr> = read_whole(&rt, alloc, "a request", &bytes);
    assert_prints(
        &rt,
        alloc,
        &body,
        "Genlmsghdr { cmd: Getfamily, version: 1, reserved: 0, header: NoUserHeader, attrs: \
         FrameList { items: [Nlattr { nla_len: 6, nla_type: AttrType { nla_nested: false, \
         nla_network_order: false, nla_type: FamilyId }, nla_payload: Buffer }] } }",
    );
    let bytes = [1, 0, 0, 0, 1, 0, 0, 0, 2, 0, 0, 0, 3, 0, 0, 0, 0, 0, 4, 0];
    let message: CnMsg<Buffer> = read_whole(&rt, alloc, "a connector's message", &bytes);
    assert_prints(
        &rt,
        alloc,
        &message,
        "CnMsg { header: CnMsgHeader { idx: Proc, val: Proc, seq: 2, ack: 3, len: 0, flags: 4 }, \
         payload: Buffer }",
    );
}

/// Asserts that `Debug` prints this of the value.
fn assert_prints<V: Debug>(rt: &impl Abort, alloc: Global, value: &V, want: &str) {
    let text = format!(in alloc; "{value:?}").expect(rt, "memory");
    assert_is_at(rt, want, text.as_str(), want);
}

// The numbers are the kernel's, of linux/if.h, if_addr.h, if_vlan.h, neighbour.h, rtnetlink.h and fib_rules.h.
#[test]
fn sets_show_their_bits(rt: HostRuntime) {
    let alloc = rt.alloc();
    assert_prints(&rt, alloc, &Iff::empty(), "Iff(0)");
    assert_prints(&rt, alloc, &(Iff::UP | Iff::RUNNING), "Iff(65)");
    assert_prints(&rt, alloc, &IfaF::PERMANENT, "IfaF(128)");
    assert_prints(&rt, alloc, &(Nud::REACHABLE | Nud::PERMANENT), "Nud(130)");
    assert_prints(&rt, alloc, &Ntf::ROUTER, "Ntf(128)");
    assert_prints(&rt, alloc, &RtmF::CLONED, "RtmF(512)");
    assert_prints(&rt, alloc, &Frf::PERMANENT, "Frf(1)");
    let flags = VlanFlags::GVRP | VlanFlags::MVRP;
    assert_prints(&rt, alloc, &flags, "VlanFlags(10)");
    // A bit without a name is shown too.
    assert_prints(&rt, alloc, &VlanFlags::from_wire(65), "VlanFlags(65)");
}
