//! Wrong lengths, and datagrams that are cut. Each datagram of these tests is cut at each place, and each length in it,
//! of a message, an echo or an attribute, is set to each wrong number. [`rules`] define the result: of `list`, which
//! reads lent messages, of owned messages, of the bytes written for these, and of `list zero`.

use super::datagrams::{ROWS, fault_of};
use super::listing::{ANSWERS, DATAGRAMS};
use super::rewriting::{PADDED, UNPADDED};
use super::rules::{Fault, Said, number, said_of};
use super::support::{assert_is_at, decoded};
use neli_program::line::{Line, RawMessage};
use neli_program::listing::list;
use neli_program::rewriting::list_zero;
use neli_program::status::Status;
use neli_reader::NlBufferIter;
use neli_wire::ToBytes;
use std::alloc::Global;
use std::fmt::Write;
use std::process::Abort;

/// Appends the line of a fault, where there is one.
fn push_fault(rt: &impl Abort, text: &mut String, fault: Option<Fault>) {
    if let Some(fault) = fault {
        write!(text, "{fault}").expect(rt, "memory");
    }
}

/// The status with which a datagram is listed that has a fault or none.
fn status_of(fault: Option<Fault>) -> Status {
    if fault.is_none() {
        Status::Whole
    } else {
        Status::Fault
    }
}

/// Asserts that the lines of the messages are listed, and then the fault.
fn assert_listed(rt: &impl Abort, alloc: Global, bytes: &[u8], said: &Said) {
    let mut want = said.lines.clone().expect(rt, "memory");
    push_fault(rt, &mut want, said.fault);
    let mut output = Vec::new(alloc);
    let status = list(alloc, &mut &*bytes, &mut output);
    let want = (want.as_bytes(), status_of(said.fault));
    assert_is_at(rt, bytes, (output.as_slice(), status), want);
}

/// The output of `list zero` if it does not write the bytes.
fn complaint(rt: &impl Abort, alloc: Global, said: &Said) -> String {
    let mut text = String::new(alloc);
    if said.fault.is_none() {
        text.push_str("fault: tail\n").expect(rt, "memory");
    }
    push_fault(rt, &mut text, said.fault);
    text
}

/// Asserts that the zeroed bytes are written, or the one line.
fn assert_rewritten(rt: &impl Abort, alloc: Global, bytes: &[u8], said: &Said) {
    let mut output = Vec::new(alloc);
    let status = list_zero(alloc, &mut &*bytes, &mut output);
    if said.fault.is_some() || said.has_tail {
        let want = complaint(rt, alloc, said);
        let want = (want.as_bytes(), Status::Fault);
        assert_is_at(rt, bytes, (output.as_slice(), status), want);
    } else {
        let want = (said.zeroed.as_slice(), Status::Whole);
        assert_is_at(rt, bytes, (output.as_slice(), status), want);
    }
}

/// The owned messages of the bytes, and the fault after them.
fn owned(rt: &impl Abort, alloc: Global, bytes: &[u8]) -> (Vec<RawMessage>, Option<Fault>) {
    let mut found = Vec::new(alloc);
    let mut messages = NlBufferIter::new(bytes);
    for _ in 0..bytes.len() {
        match messages.next(alloc) {
            None => break,
            Some(Ok(message)) => found.push(message).expect(rt, "memory"),
            Some(Err(error)) => return (found, Some(fault_of(&error).expect(rt, "a fault"))),
        }
    }
    (found, None)
}

/// Asserts that the owned messages have these lines, that this fault follows them, and that they are written as the
/// zeroed bytes if nothing else is in the datagram.
fn assert_owned(rt: &impl Abort, alloc: Global, bytes: &[u8], said: &Said) {
    let (messages, fault) = owned(rt, alloc, bytes);
    let mut lines = String::new(alloc);
    for message in &messages {
        let line = Line::of(message);
        write!(lines, "{line}\n").expect(rt, "memory");
    }
    let want = (said.lines.as_str(), said.fault);
    assert_is_at(rt, bytes, (lines.as_str(), fault), want);
    if fault.is_none() && !said.has_tail {
        let mut written = Vec::new(alloc);
        messages.to_bytes(&mut written).expect(rt, "memory");
        assert_is_at(rt, bytes, written.as_slice(), said.zeroed.as_slice());
    }
}

/// Asserts that the results for the bytes are those of the rules.
fn check(rt: &impl Abort, alloc: Global, bytes: &[u8]) {
    let said = said_of(rt, alloc, bytes);
    assert_listed(rt, alloc, bytes, &said);
    assert_rewritten(rt, alloc, bytes, &said);
    assert_owned(rt, alloc, bytes, &said);
}

/// The bytes with another number at a place.
fn changed(
    rt: &impl Abort,
    alloc: Global,
    bytes: &[u8],
    place: (usize, usize),
    number: usize,
) -> Vec<u8> {
    let mut other = Vec::from_slice(alloc, bytes).expect(rt, "memory");
    let (at, size) = place;
    let digits = number.to_le_bytes();
    for (byte, digit) in other.iter_mut().skip(at).take(size).zip(digits) {
        *byte = digit;
    }
    other
}

/// Lengths that are wrong somewhere: below the header of an attribute and of a message, or past the bytes.
const WRONG: [usize; 9] = [0, 1, 3, 4, 7, 9, 15, 16, 4294967295];

/// Checks the bytes with each length in them set to each wrong one, and to one less and one more.
fn check_lengths(rt: &impl Abort, alloc: Global, bytes: &[u8]) {
    for place in said_of(rt, alloc, bytes).lengths.iter() {
        let right = number(bytes, place.0, place.1);
        for wrong in WRONG {
            check(rt, alloc, &changed(rt, alloc, bytes, *place, wrong));
        }
        for near in [right.wrapping_sub(1), right.wrapping_add(1)] {
            check(rt, alloc, &changed(rt, alloc, bytes, *place, near));
        }
    }
}

/// Checks the datagram of these digits, cut at each place, and with each length in it set wrong.
fn check_all(rt: &impl Abort, alloc: Global, digits: &str) {
    let bytes = decoded(rt, alloc, digits);
    for end in 0..=bytes.len() {
        check(rt, alloc, bytes.get(..end).expect(rt, "a part"));
    }
    check_lengths(rt, alloc, &bytes);
}

#[test]
fn datagrams_of_messages(rt: HostRuntime) {
    for (_, digits, _, _) in DATAGRAMS {
        check_all(&rt, rt.alloc(), digits);
    }
    for (_, digits) in UNPADDED {
        check_all(&rt, rt.alloc(), digits);
    }
}

#[test]
fn datagrams_of_answers(rt: HostRuntime) {
    for (_, digits, _, _) in ANSWERS {
        check_all(&rt, rt.alloc(), digits);
    }
    for (_, digits, _) in PADDED {
        check_all(&rt, rt.alloc(), digits);
    }
}

#[test]
fn recorded_datagrams(rt: HostRuntime) {
    for row in &ROWS {
        check_all(&rt, rt.alloc(), row.hex);
    }
}
