//! The tables of attributes in routing messages.

use crate::rows::{write_name, write_rows};
use neli_consts_attrs::{
    Frattr, Ifa, Ifla, IflaInfo, IflaVlan, IflaVlanQos, Nda, Rta, RtaTypeWrapper, Tca,
};
use std::io::{self, Write};

/// The lines of these tables.
pub fn write_tables(out: &mut impl Write) -> io::Result<()> {
    write_links(out)?;
    write_others(out)
}

/// Links.
fn write_links(out: &mut impl Write) -> io::Result<()> {
    write_rows(out, "Ifla", 0..=u16::MAX, Ifla::is_unrecognized)?;
    write_rows(out, "IflaInfo", 0..=u16::MAX, IflaInfo::is_unrecognized)?;
    write_rows(out, "IflaVlan", 0..=u16::MAX, IflaVlan::is_unrecognized)?;
    write_rows(
        out,
        "IflaVlanQos",
        0..=u16::MAX,
        IflaVlanQos::is_unrecognized,
    )
}

/// Routes, queues, neighbours, addresses and rules, and what a number may mean.
fn write_others(out: &mut impl Write) -> io::Result<()> {
    write_rows(out, "Rta", 0..=u16::MAX, Rta::is_unrecognized)?;
    write_rows(out, "Tca", 0..=u16::MAX, Tca::is_unrecognized)?;
    write_rows(out, "Nda", 0..=u16::MAX, Nda::is_unrecognized)?;
    write_rows(out, "Ifa", 0..=u16::MAX, Ifa::is_unrecognized)?;
    write_rows(out, "Frattr", 0..=u16::MAX, Frattr::is_unrecognized)?;
    write_name(out, "Frattr", Frattr::Ifname)?;
    write_rows(out, "RtaTypeWrapper", 0..=u16::MAX, is_unnamed_rta_type)
}

/// Whether the number of this value has no name.
fn is_unnamed_rta_type(value: &RtaTypeWrapper) -> bool {
    matches!(value, RtaTypeWrapper::UnrecognizedConst(_))
}
