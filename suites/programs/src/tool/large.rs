//! A datagram above 64 KB, and a script of more than a thousand commands.

use super::support::assert_is_at;
use neli_log::Log;
use neli_program::run::run;
use neli_program::status::Status;
use std::alloc::Global;
use std::process::Abort;

/// The header of a message of 70016 bytes: type 1024, number 0, port 0.
const HEADER: [u8; 16] = [0x80, 0x11, 1, 0, 0, 4, 0, 0, 0, 0, 0, 0, 0, 0, 0, 0];

/// The number of bytes in its body.
const BODY: usize = 70000;

/// The number of a script's commands.
const COMMANDS: usize = 1500;

/// So many times these bytes.
fn repeated(rt: &impl Abort, alloc: Global, bytes: &[u8], count: usize) -> Vec<u8> {
    let mut all = Vec::new(alloc);
    for _ in 0..count {
        all.extend_from_slice(bytes).expect(rt, "memory");
    }
    all
}

/// These parts, one after the other.
fn joined(rt: &impl Abort, alloc: Global, first: &[u8], middle: &[u8], last: &[u8]) -> Vec<u8> {
    let mut all = Vec::from_slice(alloc, first).expect(rt, "memory");
    all.extend_from_slice(middle).expect(rt, "memory");
    all.extend_from_slice(last).expect(rt, "memory");
    all
}

/// Asserts that the program prints this of an input, for one or two words.
fn assert_printed(rt: &impl Abort, alloc: Global, words: &[&str], mut input: &[u8], want: &[u8]) {
    let mut given = Vec::new(alloc);
    for word in words {
        let word = String::from_str(alloc, *word).expect(rt, "memory");
        given.push(word).expect(rt, "memory");
    }
    let (mut output, mut complaints) = (Vec::new(alloc), Vec::new(alloc));
    let status = run::<Log, _, _, _>(alloc, &Ok(given), &mut input, &mut output, &mut complaints);
    let is_printed = output.as_slice() == want;
    assert_is_at(rt, words, (status, is_printed), (Status::Whole, true));
}

#[test]
fn inputs_above_64_kilobytes(rt: HostRuntime) {
    let alloc = rt.alloc();
    let body = repeated(&rt, alloc, b"a", BODY);
    let datagram = joined(&rt, alloc, &HEADER, &body, b"");
    let line = b"type 1024 flags 0x0000 number 0 port 0 payload 70000\n";
    assert_printed(&rt, alloc, &["list"], &datagram, line);
    assert_printed(&rt, alloc, &["list", "zero"], &datagram, &datagram);

    let digits = repeated(&rt, alloc, b"61", BODY);
    let begin = b"send 16 0 -\ndata 0 80110100000400000000000000000000";
    let script = joined(&rt, alloc, begin, &digits, b"\nread 1");
    let begin = b"sent 1 10000000100001000000000000000000\nok\nitem ";
    let answer = joined(&rt, alloc, begin, line, b"");
    assert_printed(&rt, alloc, &["replay"], &script, &answer);

    let script = repeated(&rt, alloc, b"seq 1\n", COMMANDS);
    let answer = repeated(&rt, alloc, b"ok\n", COMMANDS);
    assert_printed(&rt, alloc, &["replay"], &script, &answer);
}
