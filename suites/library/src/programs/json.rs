//! A program: the messages of a datagram by name, as JSON.

use neli::schema::built_in;
use neli::show::{Datagram, DatagramJson};
use std::alloc::Global;
use std::test::Fail;

/// A line for each message of a datagram of this protocol, and one for the fault after them, if there is one.
pub fn lines(alloc: Global, protocol: u16, bytes: &[u8]) -> Result<String, Fail> {
    let tables = built_in(alloc)?;
    let datagram = Datagram {
        tables: &tables,
        protocol,
        bytes,
    };
    Ok(DatagramJson(datagram).to_string(alloc)?)
}
