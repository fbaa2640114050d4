//! The text of every error: a prefix of our own, and then the text of its cause.
//!
//! No contract states the standard library's text for an `ErrorKind` or a `Utf8Error`, so the tests print the cause
//! itself and compare it with the text after the prefix.

use super::support::assert_is_at;
use neli::err::{
    BuildError, DeError, MsgError, NoMemory, SerError, SocketError, UninitializedFieldError, Utf8,
};
use std::alloc::Global;
use std::fmt::Display;
use std::io::ErrorKind;
use std::process::Abort;
use std::str::Utf8Error;

// Asserts that the value prints the prefix and then the text of its cause.
fn check<D: Display + Drop, C: Display>(
    rt: &impl Abort,
    alloc: Global,
    value: D,
    prefix: &str,
    cause: &C,
) {
    let text = value.to_string(alloc).expect(rt, "memory");
    let cause = cause.to_string(alloc).expect(rt, "memory");
    assert_is_at(rt, prefix, text.strip_prefix(prefix), Some(cause.as_str()));
}

const WRITTEN: &str = "Serialization error: IO error: ";

const READ: &str = "Deserialization error: IO error: ";

// A failure of a link or of a file, alone and below a reader or a writer.
fn check_failure(rt: &impl Abort, alloc: Global, kind: ErrorKind) {
    check(rt, alloc, SerError::Io(kind), "IO error: ", &kind);
    check(rt, alloc, DeError::Io(kind), "IO error: ", &kind);
    check(rt, alloc, SocketError::Io(kind), "IO error: ", &kind);
    let written = SocketError::Ser(SerError::Io(kind));
    check(rt, alloc, written, WRITTEN, &kind);
    let read = SocketError::De(DeError::Io(kind));
    check(rt, alloc, read, READ, &kind);
}

#[test]
fn failures(rt: HostRuntime) {
    for kind in [
        ErrorKind::UnexpectedEof,
        ErrorKind::BrokenPipe,
        ErrorKind::WouldBlock,
        ErrorKind::ConnectionReset,
        ErrorKind::Other,
    ] {
        check_failure(&rt, rt.alloc(), kind);
    }
}

// A place where bytes stop being a text: the byte ff is in none (RFC 3629 section 3).
fn no_text(rt: &impl Abort, bytes: &[u8]) -> Utf8Error {
    str::from_utf8(bytes).err().expect(rt, "bytes of no text")
}

fn check_texts(rt: &impl Abort, alloc: Global, text: Utf8, cause: Utf8Error) {
    check(rt, alloc, text, "", &cause);
    check(rt, alloc, SerError::Utf8(text), "UTF error: ", &cause);
    check(rt, alloc, DeError::Utf8(text), "UTF8 error: ", &cause);
    let written = SocketError::Ser(SerError::Utf8(text));
    let prefix = "Serialization error: UTF error: ";
    check(rt, alloc, written, prefix, &cause);
    let read = SocketError::De(DeError::Utf8(text));
    let prefix = "Deserialization error: UTF8 error: ";
    check(rt, alloc, read, prefix, &cause);
}

#[test]
fn texts_that_are_no_text(rt: HostRuntime) {
    for bytes in [b"\xff".as_slice(), b"abc\xff", b"ab\xc3"] {
        let cause = no_text(&rt, bytes);
        check_texts(&rt, rt.alloc(), Utf8::Str(cause), cause);
        check_texts(&rt, rt.alloc(), Utf8::String(cause), cause);
    }
}

fn copy_of(rt: &impl Abort, words: &MsgError) -> MsgError {
    words.try_clone().expect(rt, "memory")
}

// The words of a `MsgError`, alone and in each refusal that can hold it.
fn check_words(rt: &impl Abort, alloc: Global, words: &MsgError, want: &str) {
    check(rt, alloc, copy_of(rt, words), "", &want);
    let written = SerError::Msg(copy_of(rt, words));
    check(rt, alloc, written, "", &want);
    let read = DeError::Msg(copy_of(rt, words));
    check(rt, alloc, read, "", &want);
    let socket = SocketError::Msg(copy_of(rt, words));
    check(rt, alloc, socket, "", &want);
    let written = SocketError::Ser(SerError::Msg(copy_of(rt, words)));
    check(rt, alloc, written, "Serialization error: ", &want);
    let read = SocketError::De(DeError::Msg(copy_of(rt, words)));
    check(rt, alloc, read, "Deserialization error: ", &want);
}

// Fixed words, words that were made, and those that name a missing field.
#[test]
fn words(rt: HostRuntime) {
    let alloc = rt.alloc();
    check_words(&rt, alloc, &MsgError::from_static("too long"), "too long");
    let made = MsgError::new(alloc, "no such family").expect(&rt, "memory");
    check_words(&rt, alloc, &made, "no such family");
    let made = MsgError::new(alloc, 7u8).expect(&rt, "memory");
    check_words(&rt, alloc, &made, "7");
    let missing = MsgError::from(UninitializedFieldError::new("nla_type"));
    check_words(&rt, alloc, &missing, "`nla_type` must be initialized");
}

#[test]
fn words_of_each_refusal(rt: HostRuntime) {
    let alloc = rt.alloc();
    let written = SerError::new(alloc, 7u8).expect(&rt, "memory");
    check(&rt, alloc, written, "", &"7");
    let read = DeError::new(alloc, 7u8).expect(&rt, "memory");
    check(&rt, alloc, read, "", &"7");
    let socket = SocketError::new(alloc, 7u8).expect(&rt, "memory");
    check(&rt, alloc, socket, "", &"7");
}

#[test]
fn counts_that_do_not_fit(rt: HostRuntime) {
    let alloc = rt.alloc();
    for count in [0usize, 20, usize::MAX] {
        let prefix = "Invalid input was provided: ";
        check(&rt, alloc, DeError::InvalidInput(count), prefix, &count);
        let read = SocketError::De(DeError::InvalidInput(count));
        let prefix = "Deserialization error: Invalid input was provided: ";
        check(&rt, alloc, read, prefix, &count);
    }
}

#[test]
fn missing_memory_and_fields(rt: HostRuntime) {
    let alloc = rt.alloc();
    check(&rt, alloc, NoMemory, "Out of memory", &"");
    check(&rt, alloc, SerError::Memory, "Out of memory", &"");
    check(&rt, alloc, DeError::Memory, "Out of memory", &"");
    check(&rt, alloc, SocketError::Memory, "Out of memory", &"");
    let builder: BuildError<1> = BuildError::Memory;
    check(&rt, alloc, builder, "Out of memory", &"");
    let missing: BuildError<1> = BuildError::UninitializedField("nla_type");
    check(&rt, alloc, missing, "", &"`nla_type` must be initialized");
    let invalid: BuildError<1> = BuildError::ValidationError("Length does not fit its field");
    check(&rt, alloc, invalid, "", &"Length does not fit its field");
    let missing = UninitializedFieldError::new("nla_type");
    check(&rt, alloc, missing, "", &"`nla_type` must be initialized");
}
