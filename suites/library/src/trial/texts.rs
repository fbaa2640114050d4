//! Texts of tables that are changed at random: each is read, or refused by a line that it has; and what is read walks
//! over datagrams.

use super::agree::{Trouble, agree};
use super::changes::{below, one_of};
use neli::err::NoMemory;
use neli_tables::{ReadError, Table, Word, options_of};
use neli_tables_generic::GenericTable;
use neli_tables_routing::RoutingTable;
use neli_tables_system::SystemTable;
use neli_tables_walk::{Context, Shape, Walk};
use rand::RngExt;
use rand::rngs::SmallRng;
use std::alloc::Global;

/// Numbers, ranges and words that stand where others did.
const WORDS: [&[u8]; 16] = [
    b"0",
    b"65535",
    b"18446744073709551615",
    b"18446744073709551616",
    b"0x",
    b"0xffffffffffffffff",
    b"5..3",
    b"0..0",
    b"0..18446744073709551615",
    b"struct=",
    b"nest=link-attrs",
    b"array",
    b"by-family",
    b"family",
    b"set",
    b"#",
];

/// What was read and refused, and how many attributes were walked over.
#[derive(Clone, Copy, Default)]
pub struct Read {
    pub read: u64,
    pub refused: u64,
    pub items: u64,
}

/// The texts of the tables that are built in.
pub fn built_in_texts(alloc: Global) -> Result<Vec<&'static [u8]>, NoMemory> {
    let mut texts = Vec::new(alloc);
    for table in RoutingTable::all() {
        texts.push(table.text())?;
    }
    for table in GenericTable::all() {
        texts.push(table.text())?;
    }
    for table in SystemTable::all() {
        texts.push(table.text())?;
    }
    Ok(texts)
}

/// One of these texts; none where there are none.
fn text_of<'t>(random: &mut SmallRng, texts: &[&'t [u8]]) -> &'t [u8] {
    match texts.get(below(random, texts.len())) {
        Some(text) => text,
        None => &[],
    }
}

/// How many bytes at the front come before one of these.
fn count_ahead(bytes: &[u8], ends: &[u8]) -> usize {
    let mut count = 0usize;
    for byte in bytes {
        if ends.contains(byte) {
            return count;
        }
        count = count.saturating_add(1);
    }
    count
}

/// How many bytes at the end come behind one of these.
fn count_back(bytes: &[u8], ends: &[u8]) -> usize {
    let mut count = 0usize;
    for byte in bytes.iter().rev() {
        if ends.contains(byte) {
            return count;
        }
        count = count.saturating_add(1);
    }
    count
}

/// Where the part around a place begins and ends, which one of these ends.
fn part_at(bytes: &[u8], at: usize, ends: &[u8]) -> (usize, usize) {
    let before = bytes.get(..at).unwrap_or(&[]);
    let behind = bytes.get(at..).unwrap_or(&[]);
    let start = at.saturating_sub(count_back(before, ends));
    (start, at.saturating_add(count_ahead(behind, ends)))
}

/// A part of a text at random, which one of these ends.
fn part_of<'t>(random: &mut SmallRng, text: &'t [u8], ends: &[u8]) -> &'t [u8] {
    let (start, end) = part_at(text, below(random, text.len()), ends);
    text.get(start..end).unwrap_or(&[])
}

/// The bytes with others in the place of those from `start` to `end`.
fn replaced(
    alloc: Global,
    bytes: &[u8],
    start: usize,
    end: usize,
    others: &[u8],
) -> Result<Vec<u8>, NoMemory> {
    let mut made = Vec::from_slice(alloc, bytes.get(..start).unwrap_or(&[]))?;
    made.extend_from_slice(others)?;
    made.extend_from_slice(bytes.get(end..).unwrap_or(&[]))?;
    Ok(made)
}

/// A text with one change: cut, with a line or a word gone, twice, or in the place of another, or with another byte.
fn change(
    alloc: Global,
    random: &mut SmallRng,
    bytes: &[u8],
    texts: &[&[u8]],
) -> Result<Vec<u8>, NoMemory> {
    let at = below(random, bytes.len());
    let line = part_at(bytes, at, b"\n");
    let word = part_at(bytes, at, b" \n");
    let other = text_of(random, texts);
    match below(random, 12) {
        0 => Vec::from_slice(alloc, bytes.get(..at).unwrap_or(&[])).map_err(NoMemory::from),
        1 => replaced(alloc, bytes, line.0, line.1.saturating_add(1), &[]),
        2 => replaced(alloc, bytes, line.0, line.1, part_of(random, bytes, b"\n")),
        3 => replaced(alloc, bytes, line.0, line.1, part_of(random, other, b"\n")),
        4 => replaced(alloc, bytes, word.0, word.1.saturating_add(1), &[]),
        5 => replaced(alloc, bytes, word.0, word.0, part_of(random, bytes, b"\n ")),
        6 | 7 => replaced(alloc, bytes, word.0, word.1, part_of(random, bytes, b"\n ")),
        8 => replaced(alloc, bytes, word.0, word.1, part_of(random, other, b"\n ")),
        9 | 10 => {
            let chosen = WORDS.get(below(random, WORDS.len())).copied();
            replaced(alloc, bytes, word.0, word.1, chosen.unwrap_or(&[]))
        }
        _ => {
            let byte: u8 = random.random();
            replaced(alloc, bytes, at, at.saturating_add(1), &[byte])
        }
    }
}

/// One of these texts, changed up to four times.
pub fn changed_text(
    alloc: Global,
    random: &mut SmallRng,
    texts: &[&[u8]],
) -> Result<Vec<u8>, NoMemory> {
    let mut text = Vec::from_slice(alloc, text_of(random, texts))?;
    for _ in 0..below(random, 5) {
        text = change(alloc, random, &text, texts)?;
    }
    Ok(text)
}

/// Whether a place is none, or that of a line.
fn is_line(place: Option<usize>, count: usize) -> bool {
    match place {
        Some(place) => place < count,
        None => true,
    }
}

/// Each line has its number in the text, in order, and means lines that there are.
fn check_lines(table: &Table<'_>, count: usize) -> Result<(), Trouble> {
    let lines = table.lines();
    let mut last = 0;
    for line in lines {
        agree(
            last < line.number && line.number <= count,
            "a line's number",
        )?;
        last = line.number;
        let options = options_of(line);
        let places = [
            options.of,
            options.after,
            options.by,
            options.values,
            options.flags,
        ];
        for place in places {
            agree(is_line(place, lines.len()), "a line that is meant")?;
        }
    }
    Ok(())
}

/// Walks over a body by each message of a table, and counts what it gives.
fn walk_over(table: &Table<'_>, body: &[u8], counts: &mut Read) -> Result<(), Trouble> {
    let context = Context {
        table,
        family: body.first().copied().unwrap_or(0),
    };
    let mut place = 0usize;
    for line in table.lines() {
        if let (Word::Message, Shape::Nest(nest)) = (line.word, context.body_shape(place, body)) {
            for item in Walk::new(context, nest, body) {
                let depth = item.path.steps().len();
                agree(depth <= 10, "how deep a walk goes")?;
                counts.items = counts.items.saturating_add(1);
            }
        }
        place = place.saturating_add(1);
    }
    Ok(())
}

/// Reads a text, and walks over a recorded datagram's body by it.
pub fn check_text(
    alloc: Global,
    random: &mut SmallRng,
    text: &[u8],
    recorded: &[Vec<u8>],
    counts: &mut Read,
) -> Result<(), Trouble> {
    let mut count = 1usize;
    for byte in text {
        if *byte == b'\n' {
            count = count.saturating_add(1);
        }
    }
    match Table::read(alloc, text) {
        Ok(table) => {
            counts.read = counts.read.saturating_add(1);
            check_lines(&table, count)?;
            let body = one_of(random, recorded).get(16..).unwrap_or(&[]);
            walk_over(&table, body, counts)
        }
        Err(ReadError::Line(number, _)) => {
            counts.refused = counts.refused.saturating_add(1);
            agree(1 <= number && number <= count, "the line of a refusal")
        }
        Err(ReadError::Memory) => Err(Trouble::Memory),
    }
}
