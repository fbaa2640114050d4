//! Results of the calls when an allocation is refused. `rt try --test --fail-alloc N` refuses the Nth one of each test;
//! the tests of this file pass with every N, and without.

use super::support::{Refusal, assert_is, assert_lent, assert_list, assert_read, assert_text};
use neli::err::{DeError, MsgError, SerError, UninitializedFieldError};
use neli::implementing::{read_all, write_all};
use neli::{Cursor, FromBytesWithInput, ToBytes};
use std::alloc::{AllocError, Global};
use std::marker::PhantomData;
use std::process::Abort;

// The value is written as nothing, whatever memory is there.
fn check_nothing<T: ToBytes>(rt: &impl Abort, alloc: Global, value: &T) {
    let mut buffer = Vec::new(alloc);
    assert!(rt; value.to_bytes(&mut buffer).is_ok());
    assert!(rt; value.pad(&mut buffer).is_ok());
    assert_is(rt, buffer.len(), 0);
}

#[test]
fn nothing_to_write_takes_no_memory(rt: HostRuntime) {
    let alloc = rt.alloc();
    check_nothing(&rt, alloc, &());
    let marker: PhantomData<u8> = PhantomData;
    check_nothing(&rt, alloc, &marker);
    check_nothing(&rt, alloc, &b"".as_slice());
    check_nothing(&rt, alloc, b"");
    let list: Vec<u32> = Vec::new(alloc);
    check_nothing(&rt, alloc, &list);
    let nothings: &[()] = &[(), ()];
    let mut buffer = Vec::new(alloc);
    assert!(rt; write_all(nothings, &mut buffer).is_ok());
    assert_is(&rt, buffer.len(), 0);
}

#[test]
fn reads_that_take_no_memory(rt: HostRuntime) {
    assert_read(&rt, rt.alloc(), b"\x01\x02ab", Ok(0x0201u16), 2);
    assert_lent(&rt, b"ab", 2, Ok("ab"));
    assert_read(&rt, rt.alloc(), b"ab", Ok(*b"ab"), 2);
}

// An empty list is read without memory. An input past the bytes, or of no byte for a text that needs one, is refused
// before memory is taken.
#[test]
fn inputs_that_take_no_memory(rt: HostRuntime) {
    let mut cursor = Cursor::new(b"ab");
    for (n, want) in [(0usize, Ok([].as_slice())), (3, Err(Refusal::Input(3)))] {
        let list: Result<Vec<u8>, DeError> = Vec::from_bytes_with_input(rt.alloc(), &mut cursor, n);
        assert_list(&rt, &list, want);
        let text = String::from_bytes_with_input(rt.alloc(), &mut cursor, n);
        assert_text(&rt, &text, Err(Refusal::Input(n)));
    }
}

fn check_copy(rt: &impl Abort, words: MsgError) {
    assert!(rt; words.try_clone().is_ok());
}

#[test]
fn fixed_words_take_no_memory(rt: HostRuntime) {
    check_copy(&rt, MsgError::from_static("too long"));
    check_copy(&rt, UninitializedFieldError::new("nla_type").into());
}

// This was read, or memory ran out and the cursor stayed.
fn read_or_out_of_memory<T: Copy>(
    is_memory: bool,
    value: T,
    place: usize,
) -> (Result<T, Refusal>, usize) {
    if is_memory {
        (Err(Refusal::Memory), 0)
    } else {
        (Ok(value), place)
    }
}

#[test]
fn a_list_read_or_out_of_memory(rt: HostRuntime) {
    let mut cursor = Cursor::new(&[1u8, 0, 2, 0]);
    let read: Result<Vec<u16>, DeError> = Vec::from_bytes_with_input(rt.alloc(), &mut cursor, 4);
    let is_memory = matches!(&read, Err(DeError::Memory));
    let (want, place) = read_or_out_of_memory(is_memory, [1u16, 2].as_slice(), 4);
    assert_list(&rt, &read, want);
    assert_is(&rt, cursor.position(), place);
}

#[test]
fn all_bytes_read_or_out_of_memory(rt: HostRuntime) {
    let read: Result<Vec<u32>, DeError> = read_all(rt.alloc(), &[1, 0, 0, 0]);
    let is_memory = matches!(&read, Err(DeError::Memory));
    let (want, _) = read_or_out_of_memory(is_memory, [1u32].as_slice(), 4);
    assert_list(&rt, &read, want);
}

#[test]
fn a_text_read_or_out_of_memory(rt: HostRuntime) {
    let mut cursor = Cursor::new(b"AAAAA\0");
    let read = String::from_bytes_with_input(rt.alloc(), &mut cursor, 6);
    let is_memory = matches!(&read, Err(DeError::Memory));
    let (want, place) = read_or_out_of_memory(is_memory, "AAAAA", 6);
    assert_text(&rt, &read, want);
    assert_is(&rt, cursor.position(), place);
}

// The value is written as these bytes after one that stands there, or memory ran out and the buffer is as it
// was. The buffer itself may be refused.
fn check_written<T: ToBytes>(rt: &impl Abort, alloc: Global, value: &T, want: &[u8]) {
    let Ok(mut buffer) = Vec::from_slice(alloc, b"x") else {
        return;
    };
    let written = match value.to_bytes(&mut buffer) {
        Ok(()) => want.len(),
        Err(error) => {
            assert!(rt; matches!(error, SerError::Memory));
            0
        }
    };
    let parts = (buffer.get(..1), buffer.get(1..));
    assert_is(rt, parts, (Some(b"x".as_slice()), want.get(..written)));
}

#[test]
fn values_written_or_out_of_memory(rt: HostRuntime) {
    let alloc = rt.alloc();
    check_written(&rt, alloc, &0x0102u16, &[2, 1]);
    check_written(&rt, alloc, b"CCCCCCCCCCCC", b"CCCCCCCCCCCC");
    check_written(&rt, alloc, &"AAAAAAAAAAAA", b"AAAAAAAAAAAA\0");
    if let Ok(list) = Vec::from_slice(alloc, &["AAAA", "BBBBBBBBBB", "C"]) {
        check_written(&rt, alloc, &list, b"AAAA\0BBBBBBBBBB\0C\0");
    }
}

// Only running out of memory stops a message and its copy from being made.
#[test]
fn words_or_out_of_memory(rt: HostRuntime) {
    let Ok(words) = MsgError::new(rt.alloc(), "too long") else {
        return;
    };
    let Ok(copy) = words.try_clone() else {
        return;
    };
    let text: Result<String, AllocError> = copy.to_string(rt.alloc());
    if let Ok(text) = &text {
        assert_is(&rt, text.as_str(), "too long");
    }
}
