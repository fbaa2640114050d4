//! The tables of the connector, of netfilter's log and of sockets.

use crate::rows::{write_name, write_rows};
use neli_consts_system::{
    AddrFamily, CnMsgIdx, CnMsgVal, LogCmd, LogCopyMode, NetfilterMsg, NfLogAttr, NfLogCfg,
    NlFamily, ProcCnMcastOp, ProcEventType,
};
use std::io::{self, Write};

/// The lines of these tables.
pub fn write_tables(out: &mut impl Write) -> io::Result<()> {
    write_connector(out)?;
    write_netfilter(out)?;
    write_sockets(out)
}

/// The connector and its process events.
fn write_connector(out: &mut impl Write) -> io::Result<()> {
    write_rows(out, "CnMsgIdx", 0..=0xffff, CnMsgIdx::is_unrecognized)?;
    write_rows(out, "CnMsgVal", 0..=0xffff, CnMsgVal::is_unrecognized)?;
    write_name(out, "CnMsgVal", CnMsgVal::Cifs)?;
    write_name(out, "CnMsgVal", CnMsgVal::W1)?;
    write_name(out, "CnMsgVal", CnMsgVal::V86dUvesafb)?;
    write_name(out, "CnMsgVal", CnMsgVal::Dst)?;
    write_name(out, "CnMsgVal", CnMsgVal::DmUserspaceLog)?;
    write_name(out, "CnMsgVal", CnMsgVal::Drbd)?;
    write_name(out, "CnMsgVal", CnMsgVal::Kvp)?;
    write_name(out, "CnMsgVal", CnMsgVal::Vss)?;
    write_rows(
        out,
        "ProcEventType",
        0..=0xffff,
        ProcEventType::is_unrecognized,
    )?;
    write_rows(
        out,
        "ProcEventType",
        [1 << 29, 1 << 30, 1 << 31].into_iter(),
        ProcEventType::is_unrecognized,
    )?;
    write_rows(
        out,
        "ProcCnMcastOp",
        0..=0xffff,
        ProcCnMcastOp::is_unrecognized,
    )
}

/// The log of netfilter.
fn write_netfilter(out: &mut impl Write) -> io::Result<()> {
    write_rows(out, "NfLogAttr", 0..=u16::MAX, NfLogAttr::is_unrecognized)?;
    write_rows(out, "NfLogCfg", 0..=u16::MAX, NfLogCfg::is_unrecognized)?;
    write_rows(
        out,
        "NetfilterMsg",
        0..=u16::MAX,
        NetfilterMsg::is_unrecognized,
    )?;
    write_rows(out, "LogCmd", 0..=u8::MAX, LogCmd::is_unrecognized)?;
    write_rows(
        out,
        "LogCopyMode",
        0..=u8::MAX,
        LogCopyMode::is_unrecognized,
    )
}

/// Sockets.
fn write_sockets(out: &mut impl Write) -> io::Result<()> {
    write_rows(out, "AddrFamily", 0..=0xffff, AddrFamily::is_unrecognized)?;
    write_rows(out, "NlFamily", 0..=0xffff, NlFamily::is_unrecognized)
}
