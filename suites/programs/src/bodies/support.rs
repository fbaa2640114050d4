//! Shared parts of the tests.

use bitflags::Flags;
use neli_consts::NlmF;
use neli_tables::options_of;
use neli_tables_walk::{Body, Head};
use std::fmt::Write;
use std::test::Fail;

/// The header of a recorded message, and its payload.
pub fn parts(protocol: u16, message: &[u8]) -> (Head, &[u8]) {
    let head = Head {
        protocol,
        message_type: u16::from_le_bytes([message[4], message[5]]),
        flags: NlmF::from_bits_retain(u16::from_le_bytes([message[6], message[7]])),
    };
    (head, &message[16..])
}

/// What is known of a body, as a text: the family, the message and the structure before its
/// attributes by their names, the command and the version, the
/// address family, and how many bytes there are.
pub fn said(body: &Body<'_, '_, '_>, text: &mut String) -> Result<(), Fail> {
    write_name(text, body, Some(0))?;
    write_name(text, body, body.line)?;
    write_name(text, body, structure_of(body))?;
    if let Some(header) = body.generic {
        write!(text, "{}.{} ", header.command, header.version)?;
    }
    write!(text, "family {}, {} bytes", body.family(), body.bytes.len())?;
    Ok(())
}

/// The place of the structure before a body's attributes.
fn structure_of(body: &Body<'_, '_, '_>) -> Option<usize> {
    options_of(body.table?.line(body.line?)?).after
}

/// Writes the name of a line of the body's table, and a blank.
fn write_name(
    text: &mut String,
    body: &Body<'_, '_, '_>,
    place: Option<usize>,
) -> Result<(), Fail> {
    if let Some(line) = body.table.and_then(|table| table.line(place?)) {
        for byte in line.name {
            text.push(*byte as char)?;
        }
        write!(text, " ")?;
    }
    Ok(())
}
