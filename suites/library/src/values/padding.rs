//! Lengths rounded up to four, zeros that are written, and bytes that are skipped.

use super::support::{SHORT, assert_is, assert_is_at, cursor_at, outcome_of};
use neli::consts::alignto;
use neli::err::{DeError, SerError};
use neli::implementing::{pad_from, padded_length, strip_to_four, undo_on_refusal};
use neli::{Cursor, FromBytes, FromBytesWithInput, FromBytesWithInputBorrowed, ToBytes};
use std::alloc::Global;
use std::process::Abort;

// A padded length is rounded as far as a `usize` can hold it.
#[test]
fn rounded_lengths(rt: HostRuntime) {
    for (len, want) in [
        (0usize, 0usize),
        (1, 4),
        (3, 4),
        (4, 4),
        (5, 8),
        (32767, 32768),
    ] {
        assert_is_at(&rt, len, alignto(len), want);
    }
    for (size, want) in [
        (0usize, 0usize),
        (1, 4),
        (4, 4),
        (5, 8),
        (usize::MAX - 3, usize::MAX - 3),
        (usize::MAX - 2, usize::MAX),
        (usize::MAX, usize::MAX),
    ] {
        assert_is_at(&rt, size, padded_length(size), want);
    }
}

fn check_padded<T: ToBytes>(rt: &impl Abort, alloc: Global, value: &T, text: &[u8], want: &[u8]) {
    let mut buffer = Vec::from_slice(alloc, text).expect(rt, "memory");
    value.pad(&mut buffer).expect(rt, "memory");
    assert_is_at(rt, text, buffer.as_slice(), want);
}

// By a number and by an array.
#[test]
fn zeros_after_a_buffer(rt: HostRuntime) {
    for (text, want) in [
        (b"".as_slice(), b"".as_slice()),
        (b"1", b"1\0\0\0"),
        (b"1234", b"1234"),
        (b"12345", b"12345\0\0\0"),
    ] {
        check_padded(&rt, rt.alloc(), &7u16, text, want);
        check_padded(&rt, rt.alloc(), &[9u8; 3], text, want);
    }
}

#[test]
fn zeros_from_a_place_on(rt: HostRuntime) {
    for (start, want) in [
        (0usize, b"12345\0\0\0".as_slice()),
        (1, b"12345"),
        (2, b"12345\0"),
        (4, b"12345\0\0\0"),
        (5, b"12345"),
    ] {
        let mut buffer = Vec::from_slice(rt.alloc(), b"12345").expect(&rt, "memory");
        assert!(rt; start <= buffer.len());
        pad_from(&mut buffer, start).expect(&rt, "memory");
        assert_is_at(&rt, start, buffer.as_slice(), want);
    }
}

// The number 6000, the text `lo`, and zeros: 6000 is 0x1770.
#[test]
fn a_number_a_text_and_zeros(rt: HostRuntime) {
    let mut buffer = Vec::new(rt.alloc());
    6000u16.to_bytes(&mut buffer).expect(&rt, "memory");
    "lo".to_bytes(&mut buffer).expect(&rt, "memory");
    "lo".pad(&mut buffer).expect(&rt, "memory");
    let want = [0x70u8, 0x17, 0x6c, 0x6f, 0, 0, 0, 0];
    assert_is(&rt, buffer.as_slice(), want.as_slice());
}

/// The type for which bytes are skipped.
#[derive(Clone, Copy)]
enum Kind {
    Any,
    Number,
    Array,
    List,
    Bytes,
    Text,
}

const KINDS: [(&str, Kind); 6] = [
    ("any", Kind::Any),
    ("a number", Kind::Number),
    ("an array", Kind::Array),
    ("a list", Kind::List),
    ("bytes", Kind::Bytes),
    ("a text", Kind::Text),
];

fn strip<'a>(kind: Kind, cursor: &mut Cursor<'a>) -> Result<(), DeError> {
    match kind {
        Kind::Any => strip_to_four(cursor),
        Kind::Number => <u8 as FromBytes>::strip(cursor),
        Kind::Array => <[u8; 3] as FromBytes>::strip(cursor),
        Kind::List => <Vec<u8> as FromBytesWithInput>::strip(cursor),
        Kind::Bytes => <&'a [u8] as FromBytesWithInputBorrowed<'a>>::strip(cursor),
        Kind::Text => <&'a str as FromBytesWithInputBorrowed<'a>>::strip(cursor),
    }
}

// From position 1 the next multiple of four is 4; from position 5 it is 8, which is not there.
fn check_strip(rt: &impl Abort, name: &str, kind: Kind) {
    let rows = [
        (0usize, Ok(()), 0usize),
        (1, Ok(()), 4),
        (4, Ok(()), 4),
        (5, Err(SHORT), 5),
    ];
    for (start, want, place) in rows {
        let mut cursor = cursor_at(rt, b"12345", start);
        let got = outcome_of(strip(kind, &mut cursor));
        assert_is_at(rt, (name, start), (got, cursor.position()), (want, place));
    }
}

#[test]
fn strips(rt: HostRuntime) {
    for (name, kind) in KINDS {
        check_strip(&rt, name, kind);
    }
}

#[test]
fn writes_taken_back(rt: HostRuntime) {
    let mut buffer = Vec::from_slice(rt.alloc(), b"12345").expect(&rt, "memory");
    assert!(rt; undo_on_refusal(&mut buffer, 2, Ok(())).is_ok());
    assert_is(&rt, buffer.as_slice(), b"12345".as_slice());
    let refused = undo_on_refusal(&mut buffer, 2, Err(SerError::Memory));
    assert!(rt; matches!(refused, Err(SerError::Memory)));
    assert_is(&rt, buffer.as_slice(), b"12".as_slice());
}
