//! Scripts with a bad line.

use super::answers::ACKNOWLEDGED;
use super::support::assert_is_at;
use neli_program::replay::replay;
use neli_program::status::Status;
use neli_queues::Queues;
use std::alloc::Global;
use std::process::Abort;

/// Asserts that only this is written for this script.
fn assert_named(rt: &impl Abort, alloc: Global, script: &[u8], want: &[u8]) {
    let mut input = script;
    let mut output = Vec::new(alloc);
    let status = replay::<Queues, _, _>(alloc, &mut input, &mut output);
    let named = (output.as_slice(), status, status.code());
    assert_is_at(rt, script, named, (want, Status::BadLine, 2));
}

/// Scripts whose first line is bad.
const FIRST: [&[u8]; 58] = [
    // Ports.
    b"pid",
    b"pid ",
    b"pid 1 2",
    b"pid 4294967296",
    b"pid x",
    b"PID 1",
    // Numbers.
    b"seq",
    b"seq ",
    b"seq 4294967296",
    b"seq +5",
    b"seq -5",
    b"seq 0x5",
    b"seq 1 ",
    b"seq  1",
    b" seq 1",
    b"seq\t1",
    b"seq 1\r\n",
    b"seq 99999999999999999999999",
    // Requests: their words, and their bytes.
    b"send",
    b"send 16",
    b"send 16 0",
    b"send 16 0 - -",
    b"send 65536 0 -",
    b"send 16 65536 -",
    b"send x 0 -",
    b"send 16 x -",
    b"send 16  -",
    b"send 16 0 ",
    b"send 16 0 6",
    b"send 16 0 616",
    b"send 16 0 6g",
    b"send 16 0 --",
    b"send 16 0 -61",
    // Datagrams.
    b"data",
    b"data 0",
    b"data 0 ",
    b"data 0 - -",
    b"data 4294967296 -",
    b"data - -",
    b"data 0 1",
    b"data 0 0x10",
    // Faults.
    b"fault",
    b"fault ",
    b"fault Reset",
    b"fault resets",
    b"fault reset reset",
    b"fault timeout",
    // Handles, and other words.
    b"read",
    b"read 18446744073709551616",
    b"read -1",
    b"read 1 1",
    b"reads 1",
    b"close",
    b"close 18446744073709551616",
    b"close x",
    b"-",
    // The first of several.
    b"read x\nread y",
    b"seq x\nread \xff",
];

/// Scripts with a bad line further down: a second port, the first of several, and bytes that are not UTF-8.
const LATER: [(&[u8], &[u8]); 8] = [
    (b"seq 1\npid 1", b"bad line 2\n"),
    (b"pid 1\npid 1", b"bad line 2\n"),
    (b"\npid 1\n\npid 1", b"bad line 4\n"),
    (b"\n\nread x\nread y", b"bad line 3\n"),
    (b"seq 1\n\n \nread y", b"bad line 3\n"),
    (b"seq 1\nread \xff\nread x", b"bad line 2\n"),
    (b"seq 1\n\xe2\x82", b"bad line 2\n"),
    (b"seq 1\n\n\xc3\nread 1", b"bad line 3\n"),
];

#[test]
fn bad_lines_are_named(rt: HostRuntime) {
    for script in FIRST {
        assert_named(&rt, rt.alloc(), script, b"bad line 1\n");
    }
    for (script, want) in LATER {
        assert_named(&rt, rt.alloc(), script, want);
    }
}

#[test]
fn a_bad_line_is_all_that_is_written(rt: HostRuntime) {
    let alloc = rt.alloc();
    let mut script = Vec::from_slice(alloc, ACKNOWLEDGED.as_bytes()).expect(&rt, "memory");
    script
        .extend_from_slice(b"\nread x\n")
        .expect(&rt, "memory");
    assert_named(&rt, alloc, &script, b"bad line 12\n");
}
