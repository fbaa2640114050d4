//! The traits over the tables: the number of a type, and the type of a number.

use super::support::{assert_is, assert_is_at};
use neli::consts::MAX_NL_LENGTH;
use neli::consts::genl::{Cmd, CtrlCmd, Index, NlAttrType};
use neli::consts::linux::{
    self, CtrlAttr, CtrlAttrOp, CtrlAttrPolicy, IflaBond, IflaBondAdInfo, IflaBondSlave, IflaBr,
    IflaBrport, IflaMacvlan, IflaVf, IflaVxlan, NLMSGERR_ATTR_MISS_NEST, NLMSGERR_ATTR_MISS_TYPE,
    Nha, NhaGroupStats, NhaGroupStatsEntry, NhaResBucket, NhaResGroup, NlPolicyTypeAttr, Rtax,
};
use neli::consts::netfilter::{LogCfgCmd, LogCfgCmdWrapper, LogCmd, NfLogAttr};
use neli::consts::nl::{GenlId, NlType, NlTypeWrapper};
use neli::consts::rtnl::{Frattr, Ifla, RtaType, RtaTypeWrapper, Rtm};
use std::process::Abort;

/// The type has this number, and the number means this type.
fn check_message<T: NlType>(rt: &impl Abort, value: T, number: u16) {
    assert_is_at(rt, value, value.to_number(), number);
    assert_is_at(rt, number, T::from_number(number), value);
}

/// The same for a type of attributes.
fn check_attribute<T: NlAttrType>(rt: &impl Abort, value: T, number: u16) {
    assert_is_at(rt, value, value.to_number(), number);
    assert_is_at(rt, number, T::from_number(number), value);
}

/// The same for a type of attributes in routing messages.
fn check_routing<T: RtaType>(rt: &impl Abort, value: T, number: u16) {
    assert_is_at(rt, value, value.to_number(), number);
    assert_is_at(rt, number, T::from_number(number), value);
}

/// The same for a command.
fn check_command<T: Cmd>(rt: &impl Abort, value: T, number: u8) {
    assert_is_at(rt, value, value.to_number(), number);
    assert_is_at(rt, number, T::from_number(number), value);
}

/// The same for a command of the log.
fn check_logging<T: LogCfgCmd>(rt: &impl Abort, value: T, number: u8) {
    assert_is_at(rt, value, value.to_number(), number);
    assert_is_at(rt, number, T::from_number(number), value);
}

#[test]
fn types(rt: HostRuntime) {
    check_message(&rt, Rtm::Getlink, 18);
    check_message(&rt, NlTypeWrapper::GenlId(GenlId::Ctrl), 16);
    check_message(&rt, 65535u16, 65535);
    check_attribute(&rt, NfLogAttr::Seq, 12);
    check_attribute(&rt, Index::from(7), 7);
    check_attribute(&rt, 7u16, 7);
    check_routing(&rt, Frattr::Iifname, 3);
    check_routing(&rt, RtaTypeWrapper::Ifla(Ifla::Ifname), 3);
    check_routing(&rt, 9u16, 9);
}

#[test]
fn attributes_of_newer_kernels(rt: HostRuntime) {
    check_routing(&rt, Rtax::Advmss, 8);
    check_routing(&rt, Nha::ResGroup, 12);
    check_routing(&rt, NhaResGroup::IdleTimer, 2);
    check_routing(&rt, NhaResBucket::NhId, 3);
    check_routing(&rt, NhaGroupStats::Entry, 1);
    check_routing(&rt, NhaGroupStatsEntry::Packets, 2);
    check_routing(&rt, IflaBr::VlanFiltering, 7);
    check_routing(&rt, IflaBrport::Isolated, 33);
    check_routing(&rt, IflaMacvlan::BcQueueLen, 7);
    check_routing(&rt, IflaVf::RssQueryEn, 7);
    check_routing(&rt, IflaVxlan::Port, 15);
    check_routing(&rt, IflaBond::ActiveSlave, 2);
    check_routing(&rt, IflaBondAdInfo::PartnerMac, 5);
    check_routing(&rt, IflaBondSlave::Prio, 9);
    check_attribute(&rt, CtrlAttr::OpPolicy, 9);
    check_attribute(&rt, CtrlAttrOp::Flags, 2);
    check_attribute(&rt, CtrlAttrPolicy::Dump, 2);
    check_attribute(&rt, NlPolicyTypeAttr::Mask, 12);
    check_attribute(&rt, NLMSGERR_ATTR_MISS_TYPE, 5);
    check_attribute(&rt, NLMSGERR_ATTR_MISS_NEST, 6);
}

#[test]
fn commands(rt: HostRuntime) {
    check_command(&rt, linux::CtrlCmd::Getpolicy, 10);
    check_command(&rt, CtrlCmd::Getfamily, 3);
    check_command(&rt, 255u8, 255);
    check_logging(&rt, LogCfgCmdWrapper::LogCmd(LogCmd::PfBind), 3);
    check_logging(&rt, 9u8, 9);
}

// Of a buffer for a datagram.
#[test]
fn the_longest_datagram(rt: HostRuntime) {
    assert_is(&rt, MAX_NL_LENGTH, 32 * 1024);
}
