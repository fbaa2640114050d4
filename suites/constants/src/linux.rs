//! The tables of today's kernels, which are listed as they stand in `neli::consts`, in a module `linux`.

use crate::rows::write_rows;
use neli_consts_linux::{
    CtrlAttr, CtrlAttrOp, CtrlAttrPolicy, CtrlCmd, IflaBond, IflaBondAdInfo, IflaBondSlave, IflaBr,
    IflaBrport, IflaMacvlan, IflaStats, IflaVf, IflaVxlan, Mdba, Ndta, NetlinkAttributeType,
    NexthopGrpType, Nha, NhaGroupStats, NhaGroupStatsEntry, NhaResBucket, NhaResGroup,
    NlPolicyTypeAttr, Rtax, Rtnlgrp, TcaStats,
};
use std::io::{self, Write};

/// The lines of these tables.
pub fn write_tables(out: &mut impl Write) -> io::Result<()> {
    write_routing(out)?;
    write_next_hops(out)?;
    write_links(out)?;
    write_virtual_functions(out)?;
    write_statistics(out)?;
    write_controller(out)?;
    write_policies(out)
}

/// Groups and metrics.
fn write_routing(out: &mut impl Write) -> io::Result<()> {
    write_rows(out, "linux::Rtnlgrp", 0..=0xffff, Rtnlgrp::is_unrecognized)?;
    write_rows(out, "linux::Rtax", 0..=u16::MAX, Rtax::is_unrecognized)
}

/// Next hops.
fn write_next_hops(out: &mut impl Write) -> io::Result<()> {
    write_rows(out, "linux::Nha", 0..=u16::MAX, Nha::is_unrecognized)?;
    write_rows(
        out,
        "linux::NhaResGroup",
        0..=u16::MAX,
        NhaResGroup::is_unrecognized,
    )?;
    write_rows(
        out,
        "linux::NhaResBucket",
        0..=u16::MAX,
        NhaResBucket::is_unrecognized,
    )?;
    write_rows(
        out,
        "linux::NhaGroupStats",
        0..=u16::MAX,
        NhaGroupStats::is_unrecognized,
    )?;
    write_rows(
        out,
        "linux::NhaGroupStatsEntry",
        0..=u16::MAX,
        NhaGroupStatsEntry::is_unrecognized,
    )?;
    write_rows(
        out,
        "linux::NexthopGrpType",
        0..=u16::MAX,
        NexthopGrpType::is_unrecognized,
    )
}

/// Kinds of links.
fn write_links(out: &mut impl Write) -> io::Result<()> {
    write_rows(out, "linux::IflaBr", 0..=u16::MAX, IflaBr::is_unrecognized)?;
    write_rows(
        out,
        "linux::IflaBrport",
        0..=u16::MAX,
        IflaBrport::is_unrecognized,
    )?;
    write_rows(
        out,
        "linux::IflaMacvlan",
        0..=u16::MAX,
        IflaMacvlan::is_unrecognized,
    )?;
    write_rows(
        out,
        "linux::IflaVxlan",
        0..=u16::MAX,
        IflaVxlan::is_unrecognized,
    )?;
    write_rows(
        out,
        "linux::IflaBond",
        0..=u16::MAX,
        IflaBond::is_unrecognized,
    )?;
    write_rows(
        out,
        "linux::IflaBondAdInfo",
        0..=u16::MAX,
        IflaBondAdInfo::is_unrecognized,
    )?;
    write_rows(
        out,
        "linux::IflaBondSlave",
        0..=u16::MAX,
        IflaBondSlave::is_unrecognized,
    )
}

/// Virtual functions.
fn write_virtual_functions(out: &mut impl Write) -> io::Result<()> {
    write_rows(out, "linux::IflaVf", 0..=u16::MAX, IflaVf::is_unrecognized)
}

/// Statistics, and the groups of bridges.
fn write_statistics(out: &mut impl Write) -> io::Result<()> {
    write_rows(
        out,
        "linux::IflaStats",
        0..=u16::MAX,
        IflaStats::is_unrecognized,
    )?;
    write_rows(
        out,
        "linux::TcaStats",
        0..=u16::MAX,
        TcaStats::is_unrecognized,
    )?;
    write_rows(out, "linux::Mdba", 0..=u16::MAX, Mdba::is_unrecognized)?;
    write_rows(out, "linux::Ndta", 0..=u16::MAX, Ndta::is_unrecognized)
}

/// The controller.
fn write_controller(out: &mut impl Write) -> io::Result<()> {
    write_rows(out, "linux::CtrlCmd", 0..=u8::MAX, CtrlCmd::is_unrecognized)?;
    write_rows(
        out,
        "linux::CtrlAttr",
        0..=u16::MAX,
        CtrlAttr::is_unrecognized,
    )?;
    write_rows(
        out,
        "linux::CtrlAttrOp",
        0..=u16::MAX,
        CtrlAttrOp::is_unrecognized,
    )?;
    write_rows(
        out,
        "linux::CtrlAttrPolicy",
        0..=u16::MAX,
        CtrlAttrPolicy::is_unrecognized,
    )
}

/// Policies and acknowledgements.
fn write_policies(out: &mut impl Write) -> io::Result<()> {
    write_rows(
        out,
        "linux::NlPolicyTypeAttr",
        0..=u16::MAX,
        NlPolicyTypeAttr::is_unrecognized,
    )?;
    write_rows(
        out,
        "linux::NetlinkAttributeType",
        0..=0xffff,
        NetlinkAttributeType::is_unrecognized,
    )
}
