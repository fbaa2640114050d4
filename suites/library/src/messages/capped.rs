//! Capped errors: removed from their message, retyped, copied, built and printed.

use super::kinds::{CAPPED, ERROR};
use super::support::{Raw, assert_is, assert_prints, assert_written, numbers_of, raw_message};
use neli::consts::nl::{NlmF, Nlmsg};
use neli::err::{Nlmsgerr, NlmsgerrBuilder, NlmsghdrAck, RouterError};
use neli::nl::{NlPayload, NlmsghdrBuilder};
use neli::types::Buffer;
use std::alloc::Global;
use std::process::Abort;

/// A capped error with a number as the request's type.
type Capped = Nlmsgerr<NlmsghdrAck<u16>>;

/// The capped error of [`CAPPED`], removed from its message.
fn capped(rt: &impl Abort, alloc: Global) -> Capped {
    let mut message = raw_message(rt, alloc, &CAPPED);
    message.get_capped().expect(rt, "a capped error")
}

/// Asserts that this is the error -22 of a request of 32 bytes, with one attribute.
fn assert_capped<T>(rt: &impl Abort, error: &Nlmsgerr<NlmsghdrAck<T>>) {
    assert_is(rt, *error.error(), -22);
    assert_is(rt, *error.nlmsg().nl_len(), 32);
    assert_is(rt, error.ext_ack().len(), 1);
}

#[test]
fn a_capped_error_is_taken_out(rt: HostRuntime) {
    let mut message = raw_message(&rt, rt.alloc(), &CAPPED);
    let taken = message.get_capped().expect(&rt, "a capped error");
    assert_capped(&rt, &taken);
    assert!(rt; matches!(message.nl_payload(), NlPayload::Empty));
    assert_is(&rt, numbers_of(&message), [16, 0x300, 0, 0]);
}

#[test]
fn another_error_is_no_capped_one(rt: HostRuntime) {
    let mut message = raw_message(&rt, rt.alloc(), &ERROR);
    assert!(rt; message.get_capped().is_none());
    assert_is(&rt, *message.nl_len(), 52);
}

#[test]
fn a_capped_error_is_written_again(rt: HostRuntime) {
    let message = raw_message(&rt, rt.alloc(), &CAPPED);
    assert_written(&rt, rt.alloc(), &message, &CAPPED);
    let copy = message.try_clone().expect(&rt, "memory");
    assert!(rt; copy == message);
}

#[test]
fn a_retyped_capped_error_keeps_what_it_says(rt: HostRuntime) {
    let message = raw_message(&rt, rt.alloc(), &CAPPED);
    let typed = message.to_typed::<Nlmsg, Vec<u8>>(rt.alloc());
    let typed = typed.expect(&rt, "a message");
    assert_is(&rt, numbers_of(&typed), [44, 0x300, 0, 0]);
    match typed.nl_payload() {
        NlPayload::Capped(error) => assert_capped(&rt, error),
        _ => rt.panic("no capped error"),
    }
}

#[test]
fn a_capped_error_is_built(rt: HostRuntime) {
    let alloc = rt.alloc();
    let header = *capped(&rt, alloc).nlmsg();
    let error = NlmsgerrBuilder::default()
        .error(-22)
        .nlmsg(header)
        .build(alloc)
        .expect(&rt, "an error");
    let message: Raw = NlmsghdrBuilder::default()
        .nl_type(2)
        .nl_flags(NlmF::CAPPED)
        .nl_payload(NlPayload::Capped(error))
        .build()
        .expect(&rt, "a message");
    assert_is(&rt, numbers_of(&message), [36, 0x100, 0, 0]);
}

#[test]
fn a_router_reports_a_capped_error(rt: HostRuntime) {
    let alloc = rt.alloc();
    let error: RouterError<u16, Buffer> = RouterError::Capped(capped(&rt, alloc));
    let text = "Application error was returned by netlink: netlink error -22";
    assert_prints(&rt, alloc, &error, text);
    match error.to_typed::<Nlmsg, Vec<u8>>(alloc) {
        Ok(RouterError::Capped(typed)) => assert_capped(&rt, &typed),
        _ => rt.panic("no capped error"),
    }
}
