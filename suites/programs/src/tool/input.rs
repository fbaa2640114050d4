//! Inputs of many lengths, inputs that fail, and inputs that do not end.

use super::readers::{Drip, Trickle};
use super::support::{assert_is, assert_is_at};
use neli_program::input::{InputError, read_whole};
use neli_program::listing::list;
use neli_program::status::Status;
use std::alloc::{AllocError, Global};
use std::io;
use std::io::{ErrorKind, Read};
use std::process::Abort;

/// So many bytes, which count up from 1 and over again.
fn counting(rt: &impl Abort, alloc: Global, count: usize) -> Vec<u8> {
    let mut bytes = Vec::new(alloc);
    let mut next = 1u8;
    for _ in 0..count {
        bytes.push(next).expect(rt, "memory");
        next = next.wrapping_add(1);
    }
    bytes
}

/// Asserts that the reader returns these bytes, and then ends.
fn assert_read<R: Read>(rt: &impl Abort, alloc: Global, how: &str, input: &mut R, want: &[u8]) {
    match &read_whole(alloc, input) {
        Ok(read) => assert_is_at(rt, (how, want.len()), read.as_slice(), want),
        Err(_) => rt.panic("an input that was not read"),
    }
}

#[test]
fn an_input_is_read_to_its_end(rt: HostRuntime) {
    let alloc = rt.alloc();
    for count in [0, 1, 4095, 4096, 4097, 8192, 10000] {
        let bytes = counting(&rt, alloc, count);
        assert_is(&rt, bytes.len(), count);
        assert_read(&rt, alloc, "by pieces", &mut bytes.as_slice(), &bytes);
        let mut one_by_one = Drip {
            rest: &bytes,
            fails: false,
        };
        assert_read(&rt, alloc, "one by one", &mut one_by_one, &bytes);
    }
}

// They are read in some 270 calls, so an endless input is recognized by the calls and not by the
// bytes.
#[test]
fn more_than_a_million_bytes_are_read_to_their_end(rt: HostRuntime) {
    let alloc = rt.alloc();
    let bytes = counting(&rt, alloc, 1100000);
    assert_read(&rt, alloc, "by pieces", &mut bytes.as_slice(), &bytes);
}

#[test]
fn a_read_that_fails_is_told(rt: HostRuntime) {
    for last in [1, 2, 3] {
        let mut input = Trickle {
            calls: 0,
            last,
            fails: true,
        };
        let failed = matches!(read_whole(rt.alloc(), &mut input), Err(InputError::Failed));
        assert_is_at(&rt, last, (failed, input.calls), (true, last));
    }
    let failed = InputError::from(io::Error::from(ErrorKind::Other));
    let memory = InputError::from(AllocError);
    assert_is(
        &rt,
        (failed, memory),
        (InputError::Failed, InputError::Memory),
    );
}

/// Inputs, the call at which each ends or fails, and the result after how many calls.
const TRICKLES: [(&str, u32, bool, Status, &str, u32); 4] = [
    ("fails in the middle", 3, true, Status::NoInput, "", 3),
    (
        "fails at the last call",
        1000000,
        true,
        Status::NoInput,
        "",
        1000000,
    ),
    (
        "ends at the last call",
        1000000,
        false,
        Status::Fault,
        "fault: input 0\n",
        1000000,
    ),
    (
        "ends one call later",
        1000001,
        false,
        Status::NoInput,
        "",
        1000000,
    ),
];

#[test]
fn an_input_ends_within_a_million_calls(rt: HostRuntime) {
    for (row, last, fails, want, text, calls) in TRICKLES {
        let mut input = Trickle {
            calls: 0,
            last,
            fails,
        };
        let mut output = Vec::new(rt.alloc());
        let status = list(rt.alloc(), &mut input, &mut output);
        let got = (status, output.as_slice(), input.calls);
        assert_is_at(&rt, row, got, (want, text.as_bytes(), calls));
    }
}
