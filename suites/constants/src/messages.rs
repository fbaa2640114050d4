//! The tables of messages and of generic netlink.

use crate::rows::write_rows;
use neli_consts::{
    CtrlAttr, CtrlAttrMcastGrp, CtrlCmd, GenlId, Index, LogCfgCmdWrapper, NlAttrTypeWrapper,
    NlTypeWrapper, Nlmsg, NlmsgerrAttr,
};
use std::io::{self, Write};

/// The lines of these tables.
pub fn write_tables(out: &mut impl Write) -> io::Result<()> {
    write_numbers(out)?;
    write_wrappers(out)
}

/// Messages, commands and attributes.
fn write_numbers(out: &mut impl Write) -> io::Result<()> {
    write_rows(out, "Nlmsg", 0..=u16::MAX, Nlmsg::is_unrecognized)?;
    write_rows(out, "GenlId", 0..=u16::MAX, GenlId::is_unrecognized)?;
    write_rows(
        out,
        "NlmsgerrAttr",
        0..=u16::MAX,
        NlmsgerrAttr::is_unrecognized,
    )?;
    write_rows(out, "CtrlCmd", 0..=u8::MAX, CtrlCmd::is_unrecognized)?;
    write_rows(out, "CtrlAttr", 0..=u16::MAX, CtrlAttr::is_unrecognized)?;
    write_rows(
        out,
        "CtrlAttrMcastGrp",
        0..=u16::MAX,
        CtrlAttrMcastGrp::is_unrecognized,
    )
}

/// What a number may mean; every number from 20 on is an index, so these stop at 31.
fn write_wrappers(out: &mut impl Write) -> io::Result<()> {
    write_rows(out, "Index", 0..=3, is_no_index)?;
    write_rows(out, "NlTypeWrapper", 0..=u16::MAX, is_unnamed_nl_type)?;
    write_rows(out, "NlAttrTypeWrapper", 0..=31, is_unnamed_nl_attr_type)?;
    write_rows(out, "LogCfgCmdWrapper", 0..=u8::MAX, is_unnamed_log_cfg_cmd)
}

/// Every number is an index.
fn is_no_index(_: &Index) -> bool {
    false
}

/// Whether the number of this value has no name.
fn is_unnamed_nl_type(value: &NlTypeWrapper) -> bool {
    matches!(value, NlTypeWrapper::UnrecognizedConst(_))
}

/// Whether the number of this value has no name.
fn is_unnamed_nl_attr_type(value: &NlAttrTypeWrapper) -> bool {
    matches!(value, NlAttrTypeWrapper::UnrecognizedConst(_))
}

/// Whether the number of this value has no name.
fn is_unnamed_log_cfg_cmd(value: &LogCfgCmdWrapper) -> bool {
    matches!(value, LogCfgCmdWrapper::UnrecognizedConst(_))
}
