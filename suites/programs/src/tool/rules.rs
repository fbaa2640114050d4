//! The rules of docs/FRAMES.md for any bytes, by places in the whole datagram, apart from the reader, which uses a
//! cursor: the lines of its messages, its bytes with zeros for the padding, its fault, and the places of lengths.

use std::alloc::Global;
use std::fmt;
use std::fmt::Write;
use std::process::Abort;

/// Why bytes are refused.
#[derive(Clone, Copy, Debug, PartialEq, Eq)]
pub enum Fault {
    /// They end in a header or in padding.
    Short,
    /// A length, or the number of bytes that are not all there.
    Input(usize),
}

impl fmt::Display for Fault {
    fn fmt<W: fmt::Write>(&self, f: &mut fmt::Formatter<W>) -> fmt::Result {
        match self {
            Fault::Short => write!(f, "fault: short\n"),
            Fault::Input(count) => write!(f, "fault: input {count}\n"),
        }
    }
}

/// A length: its place, and its number of bytes.
pub type Length = (usize, usize);

/// The facts about a datagram.
#[derive(Drop)]
pub struct Said {
    /// The lines of its messages, in their order.
    pub lines: String,
    /// Its bytes, with zeros for the padding as far as it was read.
    pub zeroed: Vec<u8>,
    /// Why it is not read to its end.
    pub fault: Option<Fault>,
    /// Whether an answer has bytes that are not read.
    pub has_tail: bool,
    /// Its lengths, wherever the rules read one.
    pub lengths: Vec<Length>,
}

/// A count, rounded up to a multiple of four.
fn rounded(count: usize) -> usize {
    count.saturating_add(3) / 4 * 4
}

/// The number of so many bytes at a place, the lowest first; 0 for bytes that are not there.
pub fn number(bytes: &[u8], at: usize, size: usize) -> usize {
    let mut number = 0usize;
    for byte in bytes.iter().skip(at).take(size).rev() {
        number = number
            .saturating_mul(256)
            .saturating_add(usize::from(*byte));
    }
    number
}

/// The code at a place, which may be below 0; 0 where its four bytes are not there.
fn code_at(bytes: &[u8], at: usize) -> i32 {
    match bytes.get(at..) {
        Some([a, b, c, d, ..]) => i32::from_le_bytes([*a, *b, *c, *d]),
        _ => 0,
    }
}

impl Said {
    /// Zeros from one place to another.
    fn clear(&mut self, from: usize, to: usize) {
        for at in from..to {
            if at < self.zeroed.len() {
                self.zeroed[at] = 0;
            }
        }
    }

    /// The length at a place, of a header of `size` bytes and what it heads, in bytes that go to `end`.
    fn length(
        &mut self,
        rt: &impl Abort,
        at: usize,
        end: usize,
        size: usize,
    ) -> Result<usize, Fault> {
        let rest = end.saturating_sub(at);
        if rest < size {
            return Err(Fault::Short);
        }
        let width = if size == 4 { 2 } else { 4 };
        self.lengths.push((at, width)).expect(rt, "memory");
        let length = number(&self.zeroed, at, width);
        if length < size {
            Err(Fault::Input(length))
        } else if length > rest {
            Err(Fault::Input(length.saturating_sub(size)))
        } else {
            Ok(length)
        }
    }

    /// The number of attributes from one place to another. A missing byte makes all of them wrong.
    fn attributes(&mut self, rt: &impl Abort, from: usize, to: usize) -> Result<usize, Fault> {
        let all = Fault::Input(to.saturating_sub(from));
        let mut at = from;
        let mut count = 0usize;
        for _ in from..to {
            if at >= to {
                break;
            }
            let length = match self.length(rt, at, to, 4) {
                Err(Fault::Short) => return Err(all),
                other => other?,
            };
            let next = at.saturating_add(rounded(length));
            if next > to {
                return Err(all);
            }
            self.clear(at.saturating_add(length), next);
            at = next;
            count = count.saturating_add(1);
        }
        Ok(count)
    }

    /// The printed text of an error or an acknowledgement in the message from one place to another.
    fn answer(
        &mut self,
        rt: &impl Abort,
        alloc: Global,
        at: usize,
        end: usize,
    ) -> Result<String, Fault> {
        let body = at.saturating_add(16);
        let size = end.saturating_sub(body);
        if size < 20 {
            return Err(Fault::Input(size));
        }
        let code = code_at(&self.zeroed, body);
        let flags = number(&self.zeroed, at.saturating_add(6), 2);
        let echo = body.saturating_add(4);
        let is_capped = flags / 0x100 % 2 == 1;
        let is_echoed = code != 0 && !is_capped;
        let after = if is_echoed {
            let length = self.length(rt, echo, end, 16)?;
            let after = echo.saturating_add(rounded(length));
            self.clear(echo.saturating_add(length), after);
            after.min(end)
        } else {
            self.lengths.push((echo, 4)).expect(rt, "memory");
            echo.saturating_add(16)
        };
        let count = if is_echoed || is_capped && flags / 0x200 % 2 == 1 {
            self.attributes(rt, after, end)?
        } else {
            self.has_tail |= after < end;
            0
        };
        Ok(answer_text(rt, alloc, code, is_echoed, count))
    }

    /// The printed text of the contents of the message from one place to another.
    fn kind(
        &mut self,
        rt: &impl Abort,
        alloc: Global,
        at: usize,
        end: usize,
    ) -> Result<String, Fault> {
        let body = at.saturating_add(16);
        let size = end.saturating_sub(body);
        let kind = number(&self.zeroed, at.saturating_add(4), 2);
        let is_multi = number(&self.zeroed, at.saturating_add(6), 2) / 2 % 2 == 1;
        let mut text = String::new(alloc);
        let written = match (kind, size, is_multi) {
            (2, _, _) => return self.answer(rt, alloc, at, end),
            (3, 0, _) => write!(text, "empty"),
            (3, 1..=3, true) => return Err(Fault::Input(size)),
            (3, _, true) => {
                let code = code_at(&self.zeroed, body);
                let count = self.attributes(rt, body.saturating_add(4), end)?;
                write!(text, "done {code} attributes {count}")
            }
            _ => write!(text, "payload {size}"),
        };
        written.expect(rt, "memory");
        Ok(text)
    }

    /// Reads the message at a place, and returns the place after it.
    fn message(&mut self, rt: &impl Abort, alloc: Global, at: usize) -> Result<usize, Fault> {
        let all = self.zeroed.len();
        let length = self.length(rt, at, all, 16)?;
        let end = at.saturating_add(length);
        let text = self.kind(rt, alloc, at, end)?;
        let next = at.saturating_add(rounded(length));
        if next > all {
            return Err(Fault::Short);
        }
        self.clear(end, next);
        let kind = number(&self.zeroed, at.saturating_add(4), 2);
        let flags = number(&self.zeroed, at.saturating_add(6), 2);
        let seq = number(&self.zeroed, at.saturating_add(8), 4);
        let port = number(&self.zeroed, at.saturating_add(12), 4);
        let text = text.as_str();
        let line = write!(
            self.lines,
            "type {kind} flags 0x{flags:04x} number {seq} port {port} {text}\n"
        );
        line.expect(rt, "memory");
        Ok(next)
    }
}

/// The printed text of an answer with this code and so many attributes.
fn answer_text(rt: &impl Abort, alloc: Global, code: i32, is_echoed: bool, count: usize) -> String {
    let mut text = String::new(alloc);
    let written = match (code, is_echoed, count) {
        (0, _, 0) => write!(text, "ack"),
        (0, _, _) => write!(text, "ack attributes {count}"),
        (_, true, _) => write!(text, "error {code} attributes {count}"),
        _ => write!(text, "capped {code} attributes {count}"),
    };
    written.expect(rt, "memory");
    text
}

/// The facts about these bytes.
pub fn said_of(rt: &impl Abort, alloc: Global, bytes: &[u8]) -> Said {
    let mut said = Said {
        lines: String::new(alloc),
        zeroed: Vec::from_slice(alloc, bytes).expect(rt, "memory"),
        fault: None,
        has_tail: false,
        lengths: Vec::new(alloc),
    };
    let mut at = 0;
    for _ in 0..bytes.len() {
        if at >= bytes.len() {
            break;
        }
        match said.message(rt, alloc, at) {
            Ok(next) => at = next,
            Err(fault) => {
                said.fault = Some(fault);
                break;
            }
        }
    }
    said
}
