//! The text of errors, and their parts.

use super::kinds::ERROR;
use super::retyping::typed_error;
use super::support::{Refusal, assert_is, assert_prints, raw_message, router_refusal};
use neli::Cursor;
use neli::consts::nl::NlTypeWrapper;
use neli::err::{
    BuildError, BuilderError, DeError, MsgError, NlmsghdrAck, NoMemory, RouterError, SerError,
    SocketError, Utf8, of,
};
use neli::lent::{LentAttr, LentMessage};
use neli::types::Buffer;
use std::alloc::{AllocError, AllocFailed, Global};
use std::fmt::{Debug, Display};
use std::io;
use std::io::ErrorKind;
use std::process::Abort;

type Error = RouterError<u16, Buffer>;

type Typed = RouterError<NlTypeWrapper, Vec<u8>>;

/// The words of ours, and then what a cause prints by itself: no contract says what that is.
fn words_and<C: Display>(rt: &impl Abort, alloc: Global, words: &str, cause: &C) -> String {
    format!(in alloc; "{words}{cause}").expect(rt, "memory")
}

/// Asserts that what was made of an error prints this.
fn made_prints<D: Display + Drop, E: Debug + Drop>(
    rt: &impl Abort,
    alloc: Global,
    made: Result<D, E>,
    want: &str,
) {
    assert_prints(rt, alloc, &made.expect(rt, "an error of this one"), want);
}

/// Asserts that the error prints this, and its copy too.
fn link_prints(rt: &impl Abort, alloc: Global, error: SocketError, want: &str) {
    assert_prints(rt, alloc, &error, want);
    made_prints(rt, alloc, error.try_clone(), want);
}

/// Asserts that the error prints these words and then the cause, and its copy too.
fn assert_link<C: Display>(
    rt: &impl Abort,
    alloc: Global,
    error: SocketError,
    words: &str,
    cause: &C,
) {
    let text = words_and(rt, alloc, words, cause);
    link_prints(rt, alloc, error, &text);
}

/// Asserts that the error prints this, and so do its copy and the error of other types.
fn router_prints(rt: &impl Abort, alloc: Global, error: Error, want: &str) {
    assert_prints(rt, alloc, &error, want);
    made_prints(rt, alloc, error.try_clone(), want);
    let typed: Result<Typed, Refusal> = typed_error(alloc, &error);
    made_prints(rt, alloc, typed, want);
}

/// Asserts that the error prints these words and then the cause, and so do its copy and the error of other types.
fn assert_router<C: Display>(rt: &impl Abort, alloc: Global, error: Error, words: &str, cause: &C) {
    let text = words_and(rt, alloc, words, cause);
    router_prints(rt, alloc, error, &text);
}

/// Kinds of failures of a link, an input or an output.
const KINDS: [ErrorKind; 4] = [
    ErrorKind::UnexpectedEof,
    ErrorKind::WouldBlock,
    ErrorKind::ConnectionReset,
    ErrorKind::Other,
];

#[test]
fn errors_of_a_link_print_a_failure(rt: HostRuntime) {
    let alloc = rt.alloc();
    for kind in &KINDS {
        let failed = SocketError::Io(*kind);
        assert_link(&rt, alloc, failed, "IO error: ", kind);
        let failed = SocketError::from(DeError::Io(*kind));
        let words = "Deserialization error: IO error: ";
        assert_link(&rt, alloc, failed, words, kind);
    }
}

#[test]
fn errors_of_a_router_print_a_failure(rt: HostRuntime) {
    let alloc = rt.alloc();
    for kind in &KINDS {
        let failed = RouterError::Io(*kind);
        assert_router(&rt, alloc, failed, "IO error: ", kind);
        let failed = RouterError::De(DeError::Io(*kind));
        let words = "Deserialization failed: IO error: ";
        assert_router(&rt, alloc, failed, words, kind);
        let failed = RouterError::Socket(SocketError::Io(*kind));
        assert_router(&rt, alloc, failed, "Socket error: IO error: ", kind);
        let failed = RouterError::Socket(SocketError::Ser(SerError::Io(*kind)));
        let words = "Socket error: Serialization error: IO error: ";
        assert_router(&rt, alloc, failed, words, kind);
        let failed = RouterError::Socket(SocketError::De(DeError::Io(*kind)));
        let words = "Socket error: Deserialization error: IO error: ";
        assert_router(&rt, alloc, failed, words, kind);
    }
}

// The byte ff is in no text (RFC 3629 section 3).
#[test]
fn errors_of_a_router_print_where_a_text_ends(rt: HostRuntime) {
    let alloc = rt.alloc();
    let cause = str::from_utf8(b"abc\xff").err().expect(&rt, "no text");
    for place in [Utf8::Str(cause), Utf8::String(cause)] {
        let failed = RouterError::De(DeError::Utf8(place));
        let words = "Deserialization failed: UTF8 error: ";
        assert_router(&rt, alloc, failed, words, &cause);
        let failed = RouterError::Socket(SocketError::Ser(SerError::Utf8(place)));
        let words = "Socket error: Serialization error: UTF error: ";
        assert_router(&rt, alloc, failed, words, &cause);
        let failed = RouterError::Socket(SocketError::De(DeError::Utf8(place)));
        let words = "Socket error: Deserialization error: UTF8 error: ";
        assert_router(&rt, alloc, failed, words, &cause);
    }
}

#[test]
fn errors_of_a_link_print_words_or_their_cause(rt: HostRuntime) {
    let alloc = rt.alloc();
    let words = MsgError::from_static("no link");
    link_prints(&rt, alloc, SocketError::from(words), "no link");
    let number = SocketError::new(alloc, &7u8).expect(&rt, "memory");
    link_prints(&rt, alloc, number, "7");
    let memory = SocketError::from(SerError::Memory);
    link_prints(&rt, alloc, memory, "Out of memory");
    let memory = SocketError::from(DeError::Memory);
    link_prints(&rt, alloc, memory, "Out of memory");
    let cause = SerError::Msg(MsgError::from_static("too long"));
    let want = "Serialization error: too long";
    link_prints(&rt, alloc, SocketError::from(cause), want);
    let cause = DeError::InvalidInput(15);
    let want = "Deserialization error: Invalid input was provided: 15";
    link_prints(&rt, alloc, SocketError::from(cause), want);
}

#[test]
fn errors_of_a_router_print_words_or_their_cause(rt: HostRuntime) {
    let alloc = rt.alloc();
    let words = MsgError::from_static("no link");
    router_prints(&rt, alloc, RouterError::from(words), "no link");
    let number = RouterError::new(alloc, &7u8).expect(&rt, "memory");
    router_prints(&rt, alloc, number, "7");
    let memory = RouterError::from(DeError::Memory);
    router_prints(&rt, alloc, memory, "Out of memory");
    let memory = RouterError::from(SocketError::Memory);
    router_prints(&rt, alloc, memory, "Out of memory");
    let cause = DeError::InvalidInput(15);
    let want = "Deserialization failed: Invalid input was provided: 15";
    router_prints(&rt, alloc, RouterError::from(cause), want);
    let cause = SocketError::De(DeError::InvalidInput(15));
    let want = "Socket error: Deserialization error: Invalid input was provided: 15";
    router_prints(&rt, alloc, RouterError::from(cause), want);
    let cause = DeError::Msg(MsgError::from_static("no such attribute"));
    let want = "Deserialization failed: no such attribute";
    router_prints(&rt, alloc, RouterError::from(cause), want);
}

#[test]
fn errors_of_a_router_print_what_happened(rt: HostRuntime) {
    let alloc = rt.alloc();
    router_prints(&rt, alloc, RouterError::NoAck, "No ACK received");
    let want = "ACK received when none was expected";
    router_prints(&rt, alloc, RouterError::UnexpectedAck, want);
    let want = "A channel required for message processing closed";
    router_prints(&rt, alloc, RouterError::ClosedChannel, want);
    let want = "Sequence number 3 is in use";
    router_prints(&rt, alloc, RouterError::SeqInUse(3), want);
    router_prints(&rt, alloc, RouterError::Memory, "Out of memory");
}

#[test]
fn errors_of_a_router_print_what_was_received(rt: HostRuntime) {
    let alloc = rt.alloc();
    let mut message = raw_message(&rt, alloc, &ERROR);
    let answer = message.get_err().expect(&rt, "an error");
    let want = "Application error was returned by netlink: netlink error -22";
    router_prints(&rt, alloc, RouterError::Nlmsgerr(answer), want);
    let want = "A bad sequence number or PID was received: number 0, port 0";
    router_prints(&rt, alloc, RouterError::BadSeqOrPid(message), want);
}

#[test]
fn errors_of_builders_become_words(rt: HostRuntime) {
    let alloc = rt.alloc();
    let missing = "`nl_type` must be initialized";
    let error = BuilderError::from(BuildError::<{ of::NLMSGHDR }>::UninitializedField("nl_type"));
    assert_prints(&rt, alloc, &error, missing);
    assert_prints(&rt, alloc, &SocketError::from(error), missing);
    let error = BuilderError::from(BuildError::<{ of::NLATTR }>::ValidationError("too long"));
    assert_prints(&rt, alloc, &DeError::from(error), "too long");
    let error = BuilderError::from(BuildError::<{ of::NLMSGERR }>::Memory);
    assert_is(&rt, router_refusal(&Error::from(error)), Refusal::Memory);
}

// Without the error that is one for most builders.
#[test]
fn an_error_of_one_builder_becomes_words(rt: HostRuntime) {
    let alloc = rt.alloc();
    let missing = "`id` must be initialized";
    let error = BuildError::<{ of::CN_MSG }>::UninitializedField("id");
    assert_prints(&rt, alloc, &SocketError::from(error), missing);
    let error = BuildError::<{ of::FIBMSG }>::UninitializedField("id");
    router_prints(&rt, alloc, Error::from(error), missing);
    assert!(rt; is_memory(SocketError::from(BuildError::<{ of::CN_MSG }>::Memory)));
    let error = BuildError::<{ of::FIBMSG }>::Memory;
    assert_is(&rt, router_refusal(&Error::from(error)), Refusal::Memory);
}

/// Whether the error reports that memory ran out.
fn is_memory(error: SocketError) -> bool {
    matches!(error, SocketError::Memory)
}

#[test]
fn causes_of_errors_of_a_link_are_kept(rt: HostRuntime) {
    let link = SocketError::from(io::Error::from(ErrorKind::ConnectionReset));
    assert!(rt; matches!(link, SocketError::Io(ErrorKind::ConnectionReset)));
    assert!(rt; is_memory(SocketError::from(NoMemory)));
    assert!(rt; is_memory(SocketError::from(AllocError)));
    assert!(rt; is_memory(SocketError::from(AllocFailed { value: 7u8 })));
}

#[test]
fn causes_of_errors_of_a_router_are_kept(rt: HostRuntime) {
    let memory = [
        router_refusal(&Error::from(NoMemory)),
        router_refusal(&Error::from(AllocError)),
        router_refusal(&Error::from(AllocFailed { value: 7u8 })),
    ];
    assert_is(&rt, memory, [Refusal::Memory; 3]);
    let failed = RouterError::Io(ErrorKind::UnexpectedEof);
    let typed: Result<Typed, Refusal> = typed_error(rt.alloc(), &failed);
    assert!(rt; matches!(typed, Ok(RouterError::Io(ErrorKind::UnexpectedEof))));
}

/// Asserts that this is what is shown of the value with its name and fields.
fn assert_shows<D: Debug>(rt: &impl Abort, alloc: Global, value: &D, want: &str) {
    let text = format!(in alloc; "{value:?}").expect(rt, "memory");
    assert_is(rt, text.as_str(), want);
}

/// A message of 20 bytes, with type 16, REQUEST and DUMP (0x301), number 7 and port 9.
const MESSAGE: [u8; 20] = [20, 0, 0, 0, 16, 0, 1, 3, 7, 0, 0, 0, 9, 0, 0, 0, 1, 2, 3, 4];

/// An attribute of type 1 with two bytes.
const ATTRIBUTE: [u8; 8] = [6, 0, 1, 0, 0xaa, 0xbb, 0, 0];

#[test]
fn headers_and_what_is_lent_show_their_fields(rt: HostRuntime) {
    let alloc = rt.alloc();
    let want =
        "NlmsghdrAck { len: 20, message_type: 16, flags: NlmF(769), sequence_number: 7, port: 9 }";
    let header = NlmsghdrAck::<u16>::of_bytes(&MESSAGE[..16]).expect(&rt, "a header");
    assert_shows(&rt, alloc, &header, want);
    let message = LentMessage::<'_, u16>::lend(&mut Cursor::new(&MESSAGE)).expect(&rt, "a message");
    let want = format!(in alloc; "LentMessage {{ header: {want}, payload: [1, 2, 3, 4] }}");
    assert_shows(&rt, alloc, &message, want.expect(&rt, "memory").as_str());
    let attr = LentAttr::<'_, u16>::lend(&mut Cursor::new(&ATTRIBUTE)).expect(&rt, "an attribute");
    let want = "LentAttr { len: 6, kind: 1, payload: [170, 187] }";
    assert_shows(&rt, alloc, &attr, want);
}
