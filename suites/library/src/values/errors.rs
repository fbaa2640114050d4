//! The parts of refusals.

use super::support::{Refusal, assert_is, refusal_of, refusal_to_write};
use neli::err::{DeError, MsgError, NoMemory, SerError, UninitializedFieldError};
use std::alloc::{AllocError, AllocFailed, Global};
use std::io;
use std::io::ErrorKind;
use std::process::Abort;
use std::string::FromUtf8Error;

// The refusal of the byte ff, which is in no text (RFC 3629 section 3).
fn no_text(rt: &impl Abort, alloc: Global) -> FromUtf8Error {
    let bytes = Vec::from_slice(alloc, &[0xffu8]).expect(rt, "memory");
    String::from_utf8(bytes)
        .err()
        .expect(rt, "the byte ff is no text")
}

// The refusal has this cause, and so has its copy.
fn check_to_write(rt: &impl Abort, error: SerError, want: Refusal) {
    let copy = error.try_clone().expect(rt, "memory");
    let causes = (refusal_to_write(&error), refusal_to_write(&copy));
    assert_is(rt, causes, (want, want));
}

fn check_to_read(rt: &impl Abort, error: DeError, want: Refusal) {
    let copy = error.try_clone().expect(rt, "memory");
    let causes = (refusal_of(&error), refusal_of(&copy));
    assert_is(rt, causes, (want, want));
}

#[test]
fn refusals_to_write(rt: HostRuntime) {
    let words = SerError::new(rt.alloc(), 7u8).expect(&rt, "memory");
    check_to_write(&rt, words, Refusal::Words);
    let words = MsgError::from_static("7");
    check_to_write(&rt, SerError::from(words), Refusal::Words);
    let broken = io::Error::from(ErrorKind::BrokenPipe);
    let cause = Refusal::Io(ErrorKind::BrokenPipe);
    check_to_write(&rt, SerError::from(broken), cause);
    let owned = no_text(&rt, rt.alloc());
    let lent = owned.utf8_error();
    check_to_write(&rt, SerError::from(lent), Refusal::Lent(0));
    check_to_write(&rt, SerError::from(owned), Refusal::Owned(0));
    check_to_write(&rt, SerError::from(NoMemory), Refusal::Memory);
    check_to_write(&rt, SerError::from(AllocError), Refusal::Memory);
    let failed = AllocFailed { value: 7u8 };
    check_to_write(&rt, SerError::from(failed), Refusal::Memory);
}

#[test]
fn refusals_to_read(rt: HostRuntime) {
    let words = DeError::new(rt.alloc(), 7u8).expect(&rt, "memory");
    check_to_read(&rt, words, Refusal::Words);
    let words = MsgError::from_static("7");
    check_to_read(&rt, DeError::from(words), Refusal::Words);
    let broken = io::Error::from(ErrorKind::BrokenPipe);
    let cause = Refusal::Io(ErrorKind::BrokenPipe);
    check_to_read(&rt, DeError::from(broken), cause);
    let owned = no_text(&rt, rt.alloc());
    let lent = owned.utf8_error();
    check_to_read(&rt, DeError::from(lent), Refusal::Lent(0));
    check_to_read(&rt, DeError::from(owned), Refusal::Owned(0));
    check_to_read(&rt, DeError::InvalidInput(9), Refusal::Input(9));
    check_to_read(&rt, DeError::from(NoMemory), Refusal::Memory);
    check_to_read(&rt, DeError::from(AllocError), Refusal::Memory);
    let failed = AllocFailed { value: 7u8 };
    check_to_read(&rt, DeError::from(failed), Refusal::Memory);
}

#[test]
fn missing_memory_and_fields(rt: HostRuntime) {
    assert_is(&rt, NoMemory::from(AllocError), NoMemory);
    assert_is(&rt, NoMemory::from(AllocFailed { value: 7u8 }), NoMemory);
    for name in ["", "nla_type"] {
        assert_is(&rt, UninitializedFieldError::new(name).field_name(), name);
    }
}
