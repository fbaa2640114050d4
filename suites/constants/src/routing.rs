//! The tables of routing.

use crate::rows::{write_name, write_rows};
use neli_consts_routing::{Af, Arphrd, FrAct, RtAddrFamily, RtScope, RtTable, Rtm, Rtn, Rtprot};
use std::io::{self, Write};

/// The lines of these tables.
pub fn write_tables(out: &mut impl Write) -> io::Result<()> {
    write_bytes(out)?;
    write_pairs(out)
}

/// The tables of a byte.
fn write_bytes(out: &mut impl Write) -> io::Result<()> {
    write_rows(out, "Af", 0..=u8::MAX, Af::is_unrecognized)?;
    write_rows(
        out,
        "RtAddrFamily",
        0..=u8::MAX,
        RtAddrFamily::is_unrecognized,
    )?;
    write_rows(out, "Rtn", 0..=u8::MAX, Rtn::is_unrecognized)?;
    write_rows(out, "Rtprot", 0..=u8::MAX, Rtprot::is_unrecognized)?;
    write_rows(out, "RtScope", 0..=u8::MAX, RtScope::is_unrecognized)?;
    write_rows(out, "RtTable", 0..=u8::MAX, RtTable::is_unrecognized)?;
    write_rows(out, "FrAct", 0..=u8::MAX, FrAct::is_unrecognized)
}

/// The tables of two bytes.
fn write_pairs(out: &mut impl Write) -> io::Result<()> {
    write_rows(out, "Arphrd", 0..=u16::MAX, Arphrd::is_unrecognized)?;
    write_name(out, "Arphrd", Arphrd::Atm)?;
    write_rows(out, "Rtm", 0..=u16::MAX, Rtm::is_unrecognized)
}
