//! Slices and arrays of bytes.

use super::support::{Refusal, SHORT, assert_lent, assert_read, assert_sizes, assert_written};

const BYTES: [u8; 3] = [1, 2, 3];

#[test]
fn lent_bytes(rt: HostRuntime) {
    let rows: [(usize, Result<&[u8], Refusal>); 4] = [
        (0, Ok(&[])),
        (2, Ok(&[1, 2])),
        (3, Ok(&[1, 2, 3])),
        (4, Err(Refusal::Input(4))),
    ];
    for (n, want) in rows {
        assert_lent(&rt, &BYTES, n, want);
    }
}

#[test]
fn arrays_and_slices(rt: HostRuntime) {
    let long: Result<[u8; 4], Refusal> = Err(SHORT);
    assert_read(&rt, rt.alloc(), &BYTES, long, 0);
    assert_read(&rt, rt.alloc(), &BYTES, Ok([1u8, 2]), 2);
    assert_written(&rt, rt.alloc(), &b"BB".as_slice(), b"BB");
    assert_written(&rt, rt.alloc(), b"CCC", b"CCC");
    assert_sizes(&rt, &b"BBBBB".as_slice(), (5, 8, 5));
    assert_sizes(&rt, b"CCC", (3, 4, 3));
}
