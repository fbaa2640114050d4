//! The flag sets.

use crate::sets::{Samples, write_flags, write_operators};
use bitflags::Flags;
use neli_consts::NlmF;
use neli_consts_flags::{Frf, IfaF, Iff, Ntf, Nud, RtmF, VlanFlags};
use neli_consts_system::Msg;
use neli_wire::Constant;
use std::io::{self, Write};

// Each pair of bits stands somewhere in these two numbers; shorter sets take the end of them.
const FIRST: u32 = 0xaaaa_aaaa;

const SECOND: u32 = 0xcccc_cccc;

/// The lines of these sets.
pub fn write_sets(out: &mut impl Write) -> io::Result<()> {
    write_nlm_f(out)?;
    write_msg(out)?;
    write_iff(out)?;
    write_ifa_f(out)?;
    write_rtm_f(out)?;
    write_nud(out)?;
    write_ntf(out)?;
    write_vlan_flags(out)?;
    write_frf(out)
}

/// [`NlmF`].
fn write_nlm_f(out: &mut impl Write) -> io::Result<()> {
    write_flags(out, "NlmF", NlmF::bits)?;
    let samples = Samples {
        empty: NlmF::empty(),
        named: NlmF::from(0xaaaa),
        first: NlmF::from_wire(0xaaaa),
        second: NlmF::from_wire(0xcccc),
    };
    write_operators(out, "NlmF", &samples, NlmF::bits)
}

/// [`Msg`].
fn write_msg(out: &mut impl Write) -> io::Result<()> {
    write_flags(out, "Msg", Msg::bits)?;
    let samples = Samples {
        empty: Msg::empty(),
        named: Msg::from(FIRST),
        first: Msg::from_wire(FIRST),
        second: Msg::from_wire(SECOND),
    };
    write_operators(out, "Msg", &samples, Msg::bits)
}

/// [`Iff`].
fn write_iff(out: &mut impl Write) -> io::Result<()> {
    write_flags(out, "Iff", Iff::bits)?;
    let samples = Samples {
        empty: Iff::empty(),
        named: Iff::from(FIRST),
        first: Iff::from_wire(FIRST),
        second: Iff::from_wire(SECOND),
    };
    write_operators(out, "Iff", &samples, Iff::bits)
}

/// [`IfaF`].
fn write_ifa_f(out: &mut impl Write) -> io::Result<()> {
    write_flags(out, "IfaF", IfaF::bits)?;
    let samples = Samples {
        empty: IfaF::empty(),
        named: IfaF::from(0xaa),
        first: IfaF::from_wire(0xaa),
        second: IfaF::from_wire(0xcc),
    };
    write_operators(out, "IfaF", &samples, IfaF::bits)
}

/// [`RtmF`].
fn write_rtm_f(out: &mut impl Write) -> io::Result<()> {
    write_flags(out, "RtmF", RtmF::bits)?;
    let samples = Samples {
        empty: RtmF::empty(),
        named: RtmF::from(FIRST),
        first: RtmF::from_wire(FIRST),
        second: RtmF::from_wire(SECOND),
    };
    write_operators(out, "RtmF", &samples, RtmF::bits)
}

/// [`Nud`].
fn write_nud(out: &mut impl Write) -> io::Result<()> {
    write_flags(out, "Nud", Nud::bits)?;
    let samples = Samples {
        empty: Nud::empty(),
        named: Nud::from(0xaaaa),
        first: Nud::from_wire(0xaaaa),
        second: Nud::from_wire(0xcccc),
    };
    write_operators(out, "Nud", &samples, Nud::bits)
}

/// [`Ntf`].
fn write_ntf(out: &mut impl Write) -> io::Result<()> {
    write_flags(out, "Ntf", Ntf::bits)?;
    let samples = Samples {
        empty: Ntf::empty(),
        named: Ntf::from(0xaa),
        first: Ntf::from_wire(0xaa),
        second: Ntf::from_wire(0xcc),
    };
    write_operators(out, "Ntf", &samples, Ntf::bits)
}

/// [`VlanFlags`].
fn write_vlan_flags(out: &mut impl Write) -> io::Result<()> {
    write_flags(out, "VlanFlags", VlanFlags::bits)?;
    let samples = Samples {
        empty: VlanFlags::empty(),
        named: VlanFlags::from(0xaa),
        first: VlanFlags::from_wire(0xaa),
        second: VlanFlags::from_wire(0xcc),
    };
    write_operators(out, "VlanFlags", &samples, VlanFlags::bits)
}

/// [`Frf`].
fn write_frf(out: &mut impl Write) -> io::Result<()> {
    write_flags(out, "Frf", Frf::bits)?;
    let samples = Samples {
        empty: Frf::empty(),
        named: Frf::from(FIRST),
        first: Frf::from_wire(FIRST),
        second: Frf::from_wire(SECOND),
    };
    write_operators(out, "Frf", &samples, Frf::bits)
}
