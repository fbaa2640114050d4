//! Values that take no bytes.

use super::support::{
    Refusal, assert_is, assert_is_at, assert_read, assert_sizes, assert_written, outcome_of,
};
use neli::{Cursor, FromBytesWithInput, TypeSize};
use std::marker::PhantomData;

const MARKER: PhantomData<u8> = PhantomData;

#[test]
fn nothing_with_an_input(rt: HostRuntime) {
    let rows = [
        (0usize, Ok(())),
        (1, Err(Refusal::Input(1))),
        (2, Err(Refusal::Input(2))),
    ];
    for (n, want) in rows {
        let mut cursor = Cursor::new(&[7u8]);
        let read = <() as FromBytesWithInput>::from_bytes_with_input(rt.alloc(), &mut cursor, n);
        assert_is_at(&rt, n, (outcome_of(read), cursor.position()), (want, 0));
    }
}

#[test]
fn nothing_is_read_and_written(rt: HostRuntime) {
    let alloc = rt.alloc();
    assert_read(&rt, alloc, &[7], Ok(()), 0);
    assert_read(&rt, alloc, &[7], Ok(MARKER), 0);
    assert_written(&rt, alloc, &(), b"");
    assert_written(&rt, alloc, &MARKER, b"");
    assert_sizes(&rt, &(), (0, 0, 0));
    assert_sizes(&rt, &MARKER, (0, 0, 0));
    assert_is(&rt, <PhantomData<u8> as TypeSize>::type_size(), 0);
}
