//! Changed datagrams as the tables read them: each message walks to its end, and prints as lines of JSON.

use super::agree::{Trouble, agree};
use super::changes::{below, changed};
use neli::err::NoMemory;
use neli::lent::LentMessages;
use neli_print::{Datagram, DatagramJson, DatagramText};
use neli_tables::{ReadError, Table, Tables, Word};
use neli_tables_walk::{Head, body_of, built_in};
use rand::rngs::SmallRng;
use std::alloc::Global;
use std::str;

/// `NETLINK_GENERIC` of `linux/netlink.h`.
const GENERIC: u16 = 16;
/// Where numbers of families of generic netlink begin here.
const FIRST_ID: u16 = 100;

/// How many messages and attributes were walked over, and bytes printed.
#[derive(Clone, Copy, Default)]
pub struct Walked {
    pub messages: u64,
    pub items: u64,
    pub printed: u64,
}

/// All tables that are built in, each family of generic netlink with a number.
pub fn all_tables(alloc: Global) -> Result<Tables<'static>, Trouble> {
    let mut tables = match built_in(alloc) {
        Ok(tables) => tables,
        Err(ReadError::Memory) => return Err(Trouble::Memory),
        Err(_) => return Err(Trouble::Differs("a built-in table is refused")),
    };
    let mut names = Vec::new(alloc);
    for table in tables.tables() {
        names.push(family_name(table))?;
    }
    let mut id = FIRST_ID;
    for name in names {
        tables.learn(id, name)?;
        id = id.saturating_add(1);
    }
    Ok(tables)
}

/// The name of a table's family.
fn family_name<'t>(table: &Table<'t>) -> &'t [u8] {
    match table.line(0) {
        Some(line) => line.name,
        None => &[],
    }
}

/// A message of a table, taken at random: its protocol, and its type, or the type of its family and its command.
#[derive(Clone, Copy)]
struct Chosen {
    protocol: u16,
    message_type: u16,
    command: Option<u8>,
}

/// The number of a line, if it has one.
fn number_of(table: &Table<'_>, place: usize) -> Option<u64> {
    Some(table.line(place)?.span?.first)
}

/// A message of one of the tables; none where the line that is taken is none.
fn choose(random: &mut SmallRng, tables: &Tables<'_>) -> Option<Chosen> {
    let index = below(random, tables.tables().len());
    let table = tables.table(index)?;
    let place = below(random, table.lines().len().min(60));
    let protocol = u16::try_from(number_of(table, 0).unwrap_or(0)).ok()?;
    let line = table.line(place)?;
    if line.word != Word::Message {
        return None;
    }
    let number = number_of(table, place)?;
    if protocol == GENERIC {
        Some(Chosen {
            protocol,
            message_type: FIRST_ID.wrapping_add(u16::try_from(index).ok()?),
            command: Some(u8::try_from(number).ok()?),
        })
    } else {
        Some(Chosen {
            protocol,
            message_type: u16::try_from(number).ok()?,
            command: None,
        })
    }
}

/// Sets the byte at a place, if it is there.
fn set(bytes: &mut [u8], at: usize, value: u8) {
    if let Some(byte) = bytes.get_mut(at) {
        *byte = value;
    }
}

/// Makes the first message of a datagram the chosen one, and returns its protocol.
fn pretend(bytes: &mut [u8], chosen: Option<Chosen>) -> u16 {
    let Some(chosen) = chosen else {
        return 0;
    };
    let [low, high] = chosen.message_type.to_le_bytes();
    set(bytes, 4, low);
    set(bytes, 5, high);
    if let Some(command) = chosen.command {
        set(bytes, 16, command);
    }
    chosen.protocol
}

/// One of the recorded datagrams, changed, whose first message is one of a table more often than not, and its protocol.
pub fn changed_message(
    alloc: Global,
    random: &mut SmallRng,
    recorded: &[Vec<u8>],
    tables: &Tables<'_>,
) -> Result<(u16, Vec<u8>), NoMemory> {
    let mut bytes = changed(alloc, random, recorded)?;
    let chosen = choose(random, tables);
    let protocol = pretend(&mut bytes, chosen);
    Ok((protocol, bytes))
}

/// Whether bytes are lines, in each of which quotes and brackets match and nothing is a control character.
fn are_lines(bytes: &[u8]) -> bool {
    let mut depth = 0usize;
    let mut is_quoted = false;
    let mut is_escaped = false;
    for byte in bytes {
        match *byte {
            _ if is_escaped => is_escaped = false,
            b'\\' if is_quoted => is_escaped = true,
            b'"' => is_quoted = !is_quoted,
            b'\n' if is_quoted || depth != 0 => return false,
            b'\n' => {}
            byte if byte < 32 || byte == 127 => return false,
            b'{' | b'[' if !is_quoted => depth = depth.saturating_add(1),
            b'}' | b']' if !is_quoted && depth == 0 => return false,
            b'}' | b']' if !is_quoted => depth = depth.saturating_sub(1),
            _ => {}
        }
    }
    depth == 0 && !is_quoted && str::from_utf8(bytes).is_ok()
}

/// How many lines do not begin with a blank: in text and in JSON the first line of each message, and of a fault.
fn unindented(text: &[u8]) -> u64 {
    let mut count = 0u64;
    let mut is_begin = true;
    for byte in text {
        if is_begin && *byte != b' ' {
            count = count.saturating_add(1);
        }
        is_begin = *byte == b'\n';
    }
    count
}

/// Walks over the messages of a datagram, and returns how many there are, with the fault behind them.
fn walk(
    tables: &Tables<'_>,
    protocol: u16,
    bytes: &[u8],
    counts: &mut Walked,
) -> Result<u64, Trouble> {
    let mut parts = 0u64;
    for message in LentMessages::<u16>::new(bytes) {
        parts = parts.saturating_add(1);
        let Ok(lent) = message else {
            return Ok(parts);
        };
        counts.messages = counts.messages.saturating_add(1);
        let head = Head {
            protocol,
            message_type: *lent.nl_type(),
            flags: *lent.nl_flags(),
        };
        if let Some(walk) = body_of(tables, head, lent.nl_payload()).walk() {
            for item in walk {
                agree(item.path.steps().len() <= 10, "how deep a walk goes")?;
                counts.items = counts.items.saturating_add(1);
            }
        }
    }
    Ok(parts)
}

/// Walks over a datagram's messages, and prints it.
pub fn check_shown(
    alloc: Global,
    tables: &Tables<'_>,
    protocol: u16,
    bytes: &[u8],
    counts: &mut Walked,
) -> Result<(), Trouble> {
    let parts = walk(tables, protocol, bytes, counts)?;
    let datagram = Datagram {
        tables,
        protocol,
        bytes,
    };
    let json = DatagramJson(datagram).to_string(alloc)?;
    agree(are_lines(json.as_bytes()), "JSON")?;
    agree(unindented(json.as_bytes()) == parts, "the lines of JSON")?;
    let text = DatagramText {
        is_coloured: false,
        datagram,
    };
    let text = text.to_string(alloc)?;
    agree(unindented(text.as_bytes()) == parts, "the lines of text")?;
    counts.printed = counts.printed.saturating_add(json.len() as u64);
    Ok(())
}
