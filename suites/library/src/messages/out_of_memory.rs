//! Each allocation may be refused in these tests: then the call reports that memory ran out, and nothing has changed.
//! They run with each allocation refused in turn.

use super::kinds::ERROR;
use super::retyping::typed_message;
use super::support::{Raw, Refusal, assert_is, error_in};
use neli::err::{DeError, SerError, SocketError};
use neli::iter::NlBufferIter;
use neli::types::Buffer;
use neli::{Cursor, FromBytes, ToBytes};
use std::alloc::Global;
use std::process::Abort;

/// The code in the next message, or why there is none.
fn next_code(
    rt: &impl Abort,
    alloc: Global,
    messages: &mut NlBufferIter<'_, u16, Buffer>,
) -> Option<Result<i32, Refusal>> {
    match &messages.next(alloc) {
        None => None,
        Some(Ok(message)) => Some(Ok(*error_in(rt, message).error())),
        Some(Err(SocketError::Memory)) => Some(Err(Refusal::Memory)),
        Some(Err(_)) => Some(Err(Refusal::Other)),
    }
}

#[test]
fn a_message_or_out_of_memory_and_then_the_message(rt: HostRuntime) {
    let mut messages: NlBufferIter<'_, u16, Buffer> = NlBufferIter::new(&ERROR);
    let mut code = next_code(&rt, rt.alloc(), &mut messages);
    if let Some(Err(Refusal::Memory)) = code {
        code = next_code(&rt, rt.alloc(), &mut messages);
    }
    assert_is(&rt, code, Some(Ok(-22)));
    assert_is(&rt, next_code(&rt, rt.alloc(), &mut messages), None);
}

/// The message of [`ERROR`], or None if memory ran out.
fn read_error(rt: &impl Abort, alloc: Global) -> Option<Raw> {
    let mut cursor = Cursor::new(&ERROR);
    match Raw::from_bytes(alloc, &mut cursor) {
        Ok(raw) => {
            assert_is(rt, cursor.position(), ERROR.len());
            Some(raw)
        }
        Err(error) => {
            assert!(rt; matches!(error, DeError::Memory));
            assert_is(rt, cursor.position(), 0);
            None
        }
    }
}

#[test]
fn a_typed_message_or_out_of_memory(rt: HostRuntime) {
    let Some(raw) = read_error(&rt, rt.alloc()) else {
        return;
    };
    match typed_message::<u16, Vec<u8>>(rt.alloc(), &raw) {
        Ok(typed) => assert_is(&rt, *typed.nl_len(), 52),
        Err(refusal) => assert_is(&rt, refusal, Refusal::Memory),
    }
}

#[test]
fn a_message_is_written_or_out_of_memory(rt: HostRuntime) {
    let alloc = rt.alloc();
    let Some(raw) = read_error(&rt, alloc) else {
        return;
    };
    let mut bytes = Vec::new(alloc);
    match raw.to_bytes(&mut bytes) {
        Ok(()) => assert_is(&rt, bytes.as_slice(), ERROR.as_slice()),
        Err(error) => {
            assert!(rt; matches!(error, SerError::Memory));
            assert!(rt; bytes.is_empty());
        }
    }
}
