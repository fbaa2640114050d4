//! That each law can be called at real types. The calls do nothing when they run.

use neli::connector::laws::{
    cn_msg_is_its_fields, cn_msg_is_read_back, proc_event_is_its_fields, proc_event_is_read_back,
};
use neli::connector::laws_of_texts;
use neli::consts::genl::{CtrlAttr, CtrlCmd};
use neli::consts::linux::IflaStats;
use neli::consts::rtnl::Rta;
use neli::genl::NoUserHeader;
use neli::genl::laws::{
    equality, genlmsghdr_is_its_fields, genlmsghdr_is_read_back, no_user_header_has_no_bytes,
};
use neli::implementing::bodies::laws::{attributes_are_read_back, body_is_read_back};
use neli::rtnl::NdaCacheinfo;
use neli::rtnl::laws::{
    addresses_and_counters_are_their_bytes, attributes_begin_after_the_fields, bodies_are_read,
    bodies_are_written, bodies_take_memory_for_attributes, cache_entries_are_their_fields,
    equality_of_links, equality_of_routes, fibmsg_is_read_back, hardware_address_is_its_text,
    headers_are_plain_by_their_fields, ifaddrmsg_is_read_back, ifinfomsg_is_read_back,
    ifla_vlan_flags_is_read_back, ifla_vlan_qos_mapping_is_read_back, nda_cacheinfo_is_read_back,
    ndmsg_is_read_back, payloads_are_their_fields, rtgenmsg_is_read_back, rtmsg_is_read_back,
    tcmsg_is_read_back, virtual_functions_are_their_fields, walk_gives_what_is_left,
};
use neli::rtnl::linux::{IfStatsMsgHeader, laws as linux};
use neli::types::Buffer;

#[test]
fn laws_are_called() {
    body_is_read_back::<NdaCacheinfo, Buffer>();
    attributes_are_read_back::<NdaCacheinfo, Rta>();
    ifinfomsg_is_read_back();
    ifaddrmsg_is_read_back();
    ndmsg_is_read_back();
    nda_cacheinfo_is_read_back();
    ifla_vlan_flags_is_read_back();
    ifla_vlan_qos_mapping_is_read_back();
    rtmsg_is_read_back();
    tcmsg_is_read_back();
    fibmsg_is_read_back();
    rtgenmsg_is_read_back();
    cn_msg_is_read_back::<Buffer>();
    genlmsghdr_is_read_back::<CtrlCmd, CtrlAttr, NoUserHeader>();
    proc_event_is_read_back();
    equality::<CtrlCmd, CtrlAttr, NoUserHeader, Buffer>();
    equality_of_links();
    equality_of_routes();
    laws_of_texts::equality();
    attributes_begin_after_the_fields();
    bodies_are_read();
    bodies_are_written();
    payloads_are_their_fields();
    cache_entries_are_their_fields();
    virtual_functions_are_their_fields();
    addresses_and_counters_are_their_bytes();
    hardware_address_is_its_text();
    headers_are_plain_by_their_fields();
    walk_gives_what_is_left();
    genlmsghdr_is_its_fields::<CtrlCmd, CtrlAttr, NoUserHeader>();
    no_user_header_has_no_bytes();
    cn_msg_is_its_fields::<Buffer, Buffer, Buffer>();
    proc_event_is_its_fields();
}

#[test]
fn laws_of_newer_bodies_are_called() {
    linux::nhmsg_is_read_back();
    linux::br_port_msg_is_read_back();
    linux::if_stats_msg_is_read_back();
    linux::ndtmsg_is_read_back();
    linux::counters_are_read_back();
    linux::equality();
    linux::attributes_begin_after_the_fields();
    linux::bodies_are_written();
    linux::bodies_are_read();
    bodies_take_memory_for_attributes::<IfStatsMsgHeader, IflaStats>();
    linux::counters_are_their_fields();
    linux::handle_is_its_number_and_its_text();
    linux::headers_are_plain_by_their_fields();
}
