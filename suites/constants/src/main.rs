//! Every table of constants as text, a line for each number that has a name and a line for each flag.
//!
//! The lines of a table have its name, the number, the values that `from_wire` and `From` read the number as, and the
//! number that `to_wire` and `From` write for this value. A variant that is never read, since another has its number,
//! has a line without the number before it.
//!
//! The numbers are all of the table's number type where that has 8 or 16 bits; of a table of 32 bits
//! those from 0 to 0xffff, and of process events the three single bits above too.
//!
//! The lines of a flag set have its name, a flag's, and the flag's bits three times: from `bits`, `to_wire` and `From`.
//! Then two numbers that have each pair of bits somewhere, and the result of each operator on them, plain and
//! assigning: of `!` the complement of the first and of the empty set, of `From` the named bits of the first and those
//! of the empty set.
//!
//! - [`rows`] and [`sets`] write the lines of one table and of one set.
//! - `messages`, `system`, `routing`, `attributes`, `linux` and `flags` have the tables.
#![tactic(auto)]

mod attributes;
mod flags;
mod linux;
mod messages;
mod routing;
mod rows;
mod sets;
mod system;

use std::io;

fn main(rt: HostRuntime) -> io::Result<()> {
    let mut out = rt.stdout();
    messages::write_tables(&mut out)?;
    system::write_tables(&mut out)?;
    routing::write_tables(&mut out)?;
    attributes::write_tables(&mut out)?;
    linux::write_tables(&mut out)?;
    flags::write_sets(&mut out)
}
