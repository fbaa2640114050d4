//! Untyped messages and a router's errors as ones of other types, and the calls that remove or replace a payload.

use super::kinds::ERROR;
use super::support::{Raw, RawError, Refusal, assert_is, error_in, raw_message, router_refusal};
use neli::consts::netfilter::NetfilterMsg;
use neli::consts::nl::{NlType, NlTypeWrapper, NlmF, NlmsgerrAttr};
use neli::consts::rtnl::{RtAddrFamily, Rtm};
use neli::err::{Nlmsgerr, NlmsghdrErr, NoMemory, RouterError};
use neli::nl::{NlPayload, Nlmsghdr, NlmsghdrBuilder};
use neli::rtnl::{Ifinfomsg, IfinfomsgBuilder};
use neli::types::{Buffer, FrameList, TryClone};
use neli::{FromBytesWithInput, Size};
use std::alloc::Global;
use std::fmt::Debug;
use std::process::Abort;

type Untyped = RouterError<u16, Buffer>;

type TypedError = RouterError<NlTypeWrapper, Vec<u8>>;

type TypedEcho = NlmsghdrErr<NlTypeWrapper, Vec<u8>>;

/// The value, or why it is refused.
fn or_refusal<V: Drop, T: Drop, P: Drop>(
    typed: Result<V, RouterError<T, P>>,
) -> Result<V, Refusal> {
    match typed {
        Ok(value) => Ok(value),
        Err(error) => Err(router_refusal(&error)),
    }
}

/// The echo in the answer, with other types.
fn typed_echo<T: NlType + Drop, P: FromBytesWithInput + Size + Drop>(
    alloc: Global,
    answer: &RawError,
) -> Result<NlmsghdrErr<T, P>, Refusal> {
    or_refusal(answer.nlmsg().to_typed(alloc))
}

/// The answer with other types.
fn typed_answer<T: NlType + Drop, P: FromBytesWithInput + Size + Drop>(
    alloc: Global,
    answer: &RawError,
) -> Result<Nlmsgerr<NlmsghdrErr<T, P>>, Refusal> {
    or_refusal(answer.to_typed(alloc))
}

/// The message with other types.
pub fn typed_message<T: NlType + Drop, P: FromBytesWithInput + Size + Drop>(
    alloc: Global,
    message: &Raw,
) -> Result<Nlmsghdr<T, P>, Refusal> {
    or_refusal(message.to_typed(alloc))
}

/// A router's error with other types.
pub fn typed_error<T: NlType + Drop, P: FromBytesWithInput + Size + Drop>(
    alloc: Global,
    error: &Untyped,
) -> Result<RouterError<T, P>, Refusal> {
    match error.to_typed(alloc) {
        Ok(typed) => Ok(typed),
        Err(error) => Err(router_refusal(&error)),
    }
}

/// Asserts that this is the echo in [`ERROR`], with a type that is known and a length that is rounded up.
fn assert_echo(rt: &impl Abort, echo: &TypedEcho) {
    let log = NlTypeWrapper::NetfilterMsg(NetfilterMsg::LogPacket);
    assert_is(rt, *echo.nl_type(), log);
    assert_is(rt, *echo.nl_flags(), NlmF::REQUEST | NlmF::ACK);
    let numbers = [*echo.nl_len(), *echo.nl_seq(), *echo.nl_pid()];
    assert_is(rt, numbers, [24, 0, 0]);
    assert_is(rt, echo.nl_payload().as_slice(), b"abcde".as_slice());
}

/// Asserts that this is the error in [`ERROR`], with its attribute and its echo.
fn assert_answer(rt: &impl Abort, answer: &Nlmsgerr<TypedEcho>) {
    assert_is(rt, *answer.error(), -22);
    assert_is(rt, answer.ext_ack().len(), 1);
    assert_echo(rt, answer.nlmsg());
}

#[test]
fn an_echo_and_an_error_are_typed(rt: HostRuntime) {
    let raw = raw_message(&rt, rt.alloc(), &ERROR);
    let answer = error_in(&rt, &raw);
    let echo = typed_echo(rt.alloc(), answer);
    assert_echo(&rt, &echo.expect(&rt, "an echo"));
    let error = typed_answer(rt.alloc(), answer);
    assert_answer(&rt, &error.expect(&rt, "an error"));
}

#[test]
fn a_typed_error_is_taken_out_once(rt: HostRuntime) {
    let raw = raw_message(&rt, rt.alloc(), &ERROR);
    let typed = typed_message::<NlTypeWrapper, Vec<u8>>(rt.alloc(), &raw);
    let mut typed = typed.expect(&rt, "a typed message");
    assert_is(&rt, *typed.nl_len(), 52);
    assert_answer(&rt, error_in(&rt, &typed));
    let taken = typed.get_err().expect(&rt, "an error");
    assert_is(&rt, *taken.error(), -22);
    assert_is(&rt, *typed.nl_len(), 16);
    assert!(rt; matches!(typed.nl_payload(), NlPayload::Empty));
    assert!(rt; typed.get_err().is_none());
}

#[test]
fn another_payload_is_put_in(rt: HostRuntime) {
    let raw = raw_message(&rt, rt.alloc(), &ERROR);
    let typed = typed_message::<NlTypeWrapper, Vec<u8>>(rt.alloc(), &raw);
    let mut typed = typed.expect(&rt, "a typed message");
    let body = b"12345".to_vec(rt.alloc()).expect(&rt, "memory");
    typed
        .set_payload(NlPayload::Payload(body))
        .expect(&rt, "a payload that fits");
    assert_is(&rt, *typed.nl_len(), 24);
    assert_is(&rt, typed.get_payload().expect(&rt, "a payload").len(), 5);
}

/// A message with the body `abc` and a byte of padding.
const THREE_BYTES: [u8; 20] = [
    19, 0, 0, 0, 0, 4, 0, 0, 0, 0, 0, 0, 0, 0, 0, 0, 0x61, 0x62, 0x63, 0,
];

/// The answer that [`ERROR`] is, as a router's error.
fn answer(rt: &impl Abort, alloc: Global) -> Untyped {
    let mut raw = raw_message(rt, alloc, &ERROR);
    RouterError::Nlmsgerr(raw.get_err().expect(rt, "an error"))
}

/// The message of [`THREE_BYTES`], as a router's error.
fn stray(rt: &impl Abort, alloc: Global) -> Untyped {
    RouterError::BadSeqOrPid(raw_message(rt, alloc, &THREE_BYTES))
}

/// The error as one of known types.
fn typed(rt: &impl Abort, alloc: Global, error: Untyped) -> TypedError {
    typed_error(alloc, &error).expect(rt, "a typed error")
}

#[test]
fn an_answer_is_typed(rt: HostRuntime) {
    match &typed(&rt, rt.alloc(), answer(&rt, rt.alloc())) {
        RouterError::Nlmsgerr(typed) => assert_answer(&rt, typed),
        _ => rt.panic("no answer"),
    }
}

#[test]
fn a_stray_message_is_typed(rt: HostRuntime) {
    match &typed(&rt, rt.alloc(), stray(&rt, rt.alloc())) {
        RouterError::BadSeqOrPid(typed) => {
            let body = typed.get_payload().expect(&rt, "a body");
            assert_is(&rt, *typed.nl_len(), 20);
            assert_is(&rt, body.as_slice(), b"abc".as_slice());
        }
        _ => rt.panic("no message"),
    }
}

type Numbers = Vec<u32>;

/// Asserts that a value is refused for a count of bytes that does not fit.
fn assert_refused<V: Drop>(rt: &impl Abort, typed: Result<V, Refusal>, count: usize) {
    match typed {
        Ok(_) => rt.panic("no refusal"),
        Err(refusal) => assert_is(rt, refusal, Refusal::Input(count)),
    }
}

// A body of three bytes, or of five, is no numbers of four, whether it is the message's or the echoed one. A
// refusal leaves the message as it was.
#[test]
fn a_refusal_is_that_of_the_body(rt: HostRuntime) {
    let alloc = rt.alloc();
    let body = raw_message(&rt, alloc, &THREE_BYTES);
    let raw = raw_message(&rt, alloc, &ERROR);
    let answer = error_in(&rt, &raw);
    assert_refused(&rt, typed_echo::<u16, Numbers>(alloc, answer), 5);
    assert_refused(&rt, typed_answer::<u16, Numbers>(alloc, answer), 5);
    assert_refused(&rt, typed_message::<u16, Numbers>(alloc, &raw), 5);
    assert_refused(&rt, typed_message::<u16, Numbers>(alloc, &body), 3);
    assert_is(&rt, body.get_payload().expect(&rt, "a body").len(), 3);
}

/// Asserts that the error is refused as its message is.
fn assert_error_refused(rt: &impl Abort, alloc: Global, error: Untyped, count: usize) {
    assert_refused(rt, typed_error::<u16, Numbers>(alloc, &error), count);
}

#[test]
fn an_error_that_cannot_be_typed_is_refused_as_its_message(rt: HostRuntime) {
    assert_error_refused(&rt, rt.alloc(), answer(&rt, rt.alloc()), 5);
    assert_error_refused(&rt, rt.alloc(), stray(&rt, rt.alloc()), 3);
}

#[test]
fn the_first_bytes_of_a_body_are_typed(rt: HostRuntime) {
    let message = raw_message(&rt, rt.alloc(), &THREE_BYTES);
    let first = message
        .nl_payload()
        .to_typed::<u16, Vec<u16>>(rt.alloc(), 2)
        .expect(&rt, "a typed payload");
    match &first {
        NlPayload::Payload(numbers) => assert_is(&rt, numbers.as_slice(), &[0x6261u16]),
        _ => rt.panic("no body"),
    }
}

/// Asserts that the copy equals its original.
pub fn assert_copy<V: PartialEq + Debug + Drop>(
    rt: &impl Abort,
    copy: Result<V, NoMemory>,
    of: &V,
) {
    assert_is(rt, &copy.expect(rt, "memory"), of);
}

#[test]
fn copies_are_equal(rt: HostRuntime) {
    let raw = raw_message(&rt, rt.alloc(), &ERROR);
    assert_copy(&rt, raw.try_clone(), &raw);
    assert_copy(&rt, raw.nl_payload().try_clone(), raw.nl_payload());
    let answer = error_in(&rt, &raw);
    assert_copy(&rt, answer.try_clone(), answer);
    assert_copy(&rt, answer.nlmsg().try_clone(), answer.nlmsg());
    let handle = answer.ext_ack().get_attr_handle();
    assert!(rt; handle.get_attribute(NlmsgerrAttr::Msg).is_some());
}

/// A message of one link.
fn message_of_a_link(rt: &impl Abort, alloc: Global) -> Nlmsghdr<Rtm, Ifinfomsg> {
    let link = IfinfomsgBuilder::default()
        .ifi_family(RtAddrFamily::Unspecified)
        .ifi_index(3)
        .build(alloc)
        .expect(rt, "a link");
    NlmsghdrBuilder::default()
        .nl_type(Rtm::Newlink)
        .nl_flags(NlmF::empty())
        .nl_payload(NlPayload::Payload(link))
        .build()
        .expect(rt, "a message")
}

/// A copy that is made through the trait.
fn generic_copy<V: TryClone>(value: &V) -> Result<V, NoMemory> {
    value.try_clone()
}

#[test]
fn copies_of_typed_messages_are_equal(rt: HostRuntime) {
    let alloc = rt.alloc();
    let message = message_of_a_link(&rt, alloc);
    assert_copy(&rt, message.try_clone(), &message);
    assert_copy(
        &rt,
        generic_copy(message.nl_payload()),
        message.nl_payload(),
    );
    let mut list = FrameList::new(alloc);
    list.push(message).expect(&rt, "memory");
    assert_copy(&rt, generic_copy(&list), &list);
}

// The parts of an error, through the trait: the answer, its echo, and the header of another answer.
#[test]
fn copies_of_answers_are_equal(rt: HostRuntime) {
    let alloc = rt.alloc();
    let raw = raw_message(&rt, alloc, &ERROR);
    let answer = error_in(&rt, &raw);
    assert_copy(&rt, generic_copy(answer), answer);
    assert_copy(&rt, generic_copy(answer.nlmsg()), answer.nlmsg());
    let stray = RouterError::BadSeqOrPid(message_of_a_link(&rt, alloc));
    match generic_copy(&stray).expect(&rt, "memory") {
        RouterError::BadSeqOrPid(copy) => assert_is(&rt, &copy, &message_of_a_link(&rt, alloc)),
        _ => rt.panic("another error"),
    }
}
