//! Any one allocation may be refused in these tests: `suites/run` refuses each in turn. The output for a datagram is
//! then the whole text, or whole lines of it and the line for out of memory, and the status tells which; when repeated,
//! it is the whole text.

use super::listing::{ANSWERS, DATAGRAMS, Row};
use super::rewriting::PADDED;
use super::support::{assert_is_at, decoded};
use super::writers::Kept;
use neli_program::listing::read_line;
use neli_program::run::run;
use neli_program::status::Status;
use neli_queues::Queues;
use neli_wire::Cursor;
use std::alloc::Global;
use std::process::Abort;

/// The words of a command line. Refused where memory runs out.
fn words(alloc: Global, list: &[&str]) -> Option<Vec<String>> {
    let mut words = Vec::new(alloc);
    for word in list {
        words.push(String::from_str(alloc, word).ok()?).ok()?;
    }
    Some(words)
}

/// Runs the program, and returns the status, its output, and whether it complained.
fn ran(rt: &impl Abort, alloc: Global, list: &[&str], bytes: &[u8]) -> (Status, Kept, bool) {
    let words = match words(alloc, list) {
        Some(words) => words,
        None => words(alloc, list).expect(rt, "memory"),
    };
    let (mut output, mut complaints) = (Kept::new(), Vec::new(alloc));
    let (input, output_of, errors) = (&mut &*bytes, &mut output, &mut complaints);
    let status = run::<Queues, _, _, _>(alloc, &Ok(words), input, output_of, errors);
    let has_complained = !complaints.is_empty();
    (status, output, has_complained)
}

/// Whether these are lines of a text, from its begin on, and then the line for out of memory.
fn is_part(text: &[u8], whole: &[u8]) -> bool {
    match text.strip_suffix(b"fault: memory\n") {
        Some(lines) => whole.starts_with(lines) && matches!(lines, [] | [.., b'\n']),
        None => false,
    }
}

/// Lists a datagram. Asserts that the whole text is printed, or a part of it and that memory ran out, and returns
/// which.
fn is_listed(rt: &impl Abort, alloc: Global, row: Row, bytes: &[u8]) -> bool {
    let (status, output, has_complained) = ran(rt, alloc, &["list"], bytes);
    let is_listed = status != Status::Memory;
    let is_right = if is_listed {
        output.text() == row.2.as_bytes() && status == row.3
    } else {
        is_part(output.text(), row.2.as_bytes())
    };
    assert_is_at(rt, row.0, (is_right, has_complained), (true, false));
    is_listed
}

/// Lists a datagram, once more if memory ran out, and asserts that it is listed.
fn list_again(rt: &impl Abort, alloc: Global, row: Row) {
    let bytes = decoded(rt, alloc, row.1);
    let is_listed = is_listed(rt, alloc, row, &bytes) || is_listed(rt, alloc, row, &bytes);
    assert_is_at(rt, row.0, is_listed, true);
}

#[test]
fn datagrams_are_listed_again(rt: HostRuntime) {
    for row in DATAGRAMS {
        list_again(&rt, rt.alloc(), row);
    }
    for row in ANSWERS {
        list_again(&rt, rt.alloc(), row);
    }
}

/// A body's line is printed from the bytes that it lies in.
#[test]
fn lines_of_bodies_take_no_memory(rt: HostRuntime) {
    let datagram = b"\x14\0\0\0\x10\0\0\0\0\0\0\0\0\0\0\0\x01\x02\x03\x04";
    assert!(rt; read_line(rt.alloc(), &mut Cursor::new(datagram)).is_ok());
}

/// Writes a datagram again. Asserts that its bytes are written, or that memory ran out, and returns which.
fn is_rewritten(rt: &impl Abort, alloc: Global, row: &str, bytes: &[u8], want: &[u8]) -> bool {
    let (status, output, _) = ran(rt, alloc, &["list", "zero"], bytes);
    let is_rewritten = status != Status::Memory;
    let want = if is_rewritten {
        (want, Status::Whole)
    } else {
        (b"fault: memory\n".as_slice(), Status::Memory)
    };
    assert_is_at(rt, row, (output.text(), status), want);
    is_rewritten
}

#[test]
fn datagrams_are_written_again(rt: HostRuntime) {
    let alloc = rt.alloc();
    for (row, datagram, want) in PADDED {
        let (bytes, want) = (decoded(&rt, alloc, datagram), decoded(&rt, alloc, want));
        let is_rewritten = is_rewritten(&rt, alloc, row, &bytes, &want)
            || is_rewritten(&rt, alloc, row, &bytes, &want);
        assert_is_at(&rt, row, is_rewritten, true);
    }
}
