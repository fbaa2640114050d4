//! The parts of messages by themselves: a header, and answers.

use super::kinds::assert_error;
use super::retyping::assert_copy;
use super::support::{Raw, assert_is};
use neli::consts::nl::{GenlId, NlTypeWrapper, NlmF};
use neli::err::{Nlmsgerr, NlmsghdrAck};
use neli::nl::{NlPayload, Nlmsghdr};
use neli::types::Buffer;
use neli::{Cursor, FromBytesWithInput, Header};
use std::process::Abort;

/// A code that is no error, and the header of a message of 32 bytes, type 16, REQUEST and ACK, number 3,
/// port 7.
const ANSWER: [u8; 20] = [0, 0, 0, 0, 32, 0, 0, 0, 16, 0, 5, 0, 3, 0, 0, 0, 7, 0, 0, 0];

/// The header in [`ANSWER`].
fn header(rt: &impl Abort) -> NlmsghdrAck<u16> {
    NlmsghdrAck::of_bytes(&ANSWER[4..]).expect(rt, "16 bytes")
}

/// The numbers in a header but its type: length, flags, number and port.
fn numbers_of<T>(header: &NlmsghdrAck<T>) -> [u32; 4] {
    let flags = u32::from(u16::from(*header.nl_flags()));
    [*header.nl_len(), flags, *header.nl_seq(), *header.nl_pid()]
}

#[test]
fn a_header_is_read_of_bytes_and_typed(rt: HostRuntime) {
    let header = header(&rt);
    assert_is(&rt, *header.nl_type(), 16);
    assert_is(&rt, numbers_of(&header), [32, 5, 3, 7]);
    assert!(rt; NlmsghdrAck::<u16>::of_bytes(&ANSWER[5..]).is_none());
    let typed = header.to_typed::<NlTypeWrapper>();
    assert_is(&rt, *typed.nl_type(), NlTypeWrapper::GenlId(GenlId::Ctrl));
    assert_is(&rt, numbers_of(&typed), [32, 5, 3, 7]);
    assert_is(&rt, <Raw as Header>::header_size(), 16);
}

// The length stays, whatever the payload is.
#[test]
fn a_message_has_the_header_that_is_given(rt: HostRuntime) {
    let empty: NlPayload<u16, Buffer> = NlPayload::Empty;
    assert!(rt; matches!(empty, NlPayload::Empty));
    let message: Raw = Nlmsghdr::from_header(header(&rt), empty);
    assert!(rt; matches!(message.nl_payload(), NlPayload::Empty));
    assert_is(&rt, *message.nl_type(), 16);
    assert_is(&rt, *message.nl_flags(), NlmF::REQUEST | NlmF::ACK);
    let numbers = [*message.nl_len(), *message.nl_seq(), *message.nl_pid()];
    assert_is(&rt, numbers, [32, 3, 7]);
}

#[test]
fn an_acknowledgement_is_typed(rt: HostRuntime) {
    let alloc = rt.alloc();
    let read = Nlmsgerr::from_bytes_with_input(alloc, &mut Cursor::new(&ANSWER), 20);
    let answer: Nlmsgerr<NlmsghdrAck<u16>> = read.expect(&rt, "an acknowledgement");
    let typed = answer.to_typed::<NlTypeWrapper>().expect(&rt, "memory");
    assert_is(&rt, *typed.error(), 0);
    assert_is(&rt, typed.ext_ack().len(), 0);
    let header = typed.nlmsg();
    assert_is(&rt, *header.nl_type(), NlTypeWrapper::GenlId(GenlId::Ctrl));
    assert_is(&rt, numbers_of(header), [32, 5, 3, 7]);
}

#[test]
fn an_end_of_a_dump_is_copied(rt: HostRuntime) {
    let bytes = [0xea, 0xff, 0xff, 0xff, 8, 0, 1, 0, 0x62, 0x61, 0x64, 0];
    let read = Nlmsgerr::from_bytes_with_input(rt.alloc(), &mut Cursor::new(&bytes), 12);
    let end: Nlmsgerr<()> = read.expect(&rt, "an end of a dump");
    assert_error(&rt, end.try_clone(), -22, 1);
    assert_copy(&rt, end.try_clone(), &end);
}
