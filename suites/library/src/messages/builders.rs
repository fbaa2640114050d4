//! Results of builders, and written bytes.

use super::kinds::ERROR;
use super::reading::ONE;
use super::retyping::assert_copy;
use super::support::{assert_is, assert_is_at, assert_prints, assert_written, raw_message};
use neli::Size;
use neli::consts::nl::{NlmF, NlmsgerrAttr};
use neli::err::{
    BuildError, Nlmsgerr, NlmsgerrBuilder, NlmsghdrAck, NlmsghdrAckBuilder, NlmsghdrErrBuilder,
};
use neli::nl::{NlPayload, NlmsghdrBuilder};
use neli::types::{Buffer, GenlBuffer};

// `NLMSG_ALIGN` of linux/netlink.h: a body of five bytes takes eight.
#[test]
fn a_length_is_rounded_up(rt: HostRuntime) {
    let alloc = rt.alloc();
    let body = Buffer::from_slice(alloc, b"abcde").expect(&rt, "memory");
    let message = NlmsghdrBuilder::default()
        .nl_type(1024u16)
        .nl_flags(NlmF::REQUEST)
        .nl_payload(NlPayload::Payload(body))
        .build()
        .expect(&rt, "a message");
    let want = [
        0x18, 0, 0, 0, 0, 4, 1, 0, 0, 0, 0, 0, 0, 0, 0, 0, 0x61, 0x62, 0x63, 0x64, 0x65, 0, 0, 0,
    ];
    assert_written(&rt, alloc, &message, &want);
    assert_is(&rt, message.unpadded_size(), 21);
    assert_is(&rt, message.padded_size(), 24);
}

/// [`ERROR`] with other values in the first and the last byte of padding after the echo.
const NOISY: [u8; 52] = [
    0x34, 0, 0, 0, 2, 0, 0, 2, 0, 0, 0, 0, 0, 0, 0, 0, 0xea, 0xff, 0xff, 0xff, 0x15, 0, 0, 0, 0, 4,
    5, 0, 0, 0, 0, 0, 0, 0, 0, 0, 0x61, 0x62, 0x63, 0x64, 0x65, 7, 0, 9, 8, 0, 1, 0, 0x62, 0x61,
    0x64, 0,
];

/// [`ONE`] with zeros for padding.
const ONE_WITH_ZEROS: [u8; 20] = [
    0x11, 0, 0, 0, 0, 4, 0, 0, 0, 0, 0, 0, 0, 0, 0, 0, 0x61, 0, 0, 0,
];

/// Messages, and the bytes written for each after reading: padding of any value is written as zeros.
const WRITTEN: [(&[u8], &[u8]); 3] = [
    (&ERROR, &ERROR),
    (&NOISY, &ERROR),
    // A payload of one byte, whose three padding bytes were ff.
    (&ONE, &ONE_WITH_ZEROS),
];

#[test]
fn what_is_read_is_written_with_zeros_for_padding(rt: HostRuntime) {
    for (bytes, want) in WRITTEN {
        let message = raw_message(&rt, rt.alloc(), bytes);
        assert_written(&rt, rt.alloc(), &message, want);
    }
}

/// The field that a builder names as missing.
fn missing_of<T: Drop, const OF: u8>(built: Result<T, BuildError<OF>>) -> &'static str {
    match built {
        Err(BuildError::UninitializedField(name)) => name,
        _ => "no field",
    }
}

#[test]
fn the_first_missing_field_is_named(rt: HostRuntime) {
    let echo = NlmsghdrErrBuilder::<u16, Vec<u8>>::default().nl_type(1);
    let answer = NlmsgerrBuilder::<()>::default().error(-22);
    let message = NlmsghdrBuilder::<u16, Vec<u8>>::default().nl_type(1);
    let rows = [
        ("an echo", missing_of(echo.build()), "nl_payload"),
        ("an answer", missing_of(answer.build(rt.alloc())), "nlmsg"),
        ("a message", missing_of(message.build()), "nl_flags"),
    ];
    for (row, missing, want) in rows {
        assert_is_at(&rt, row, missing, want);
    }
    let header = NlmsghdrAckBuilder::<u16>::default().build();
    let error = header.err().expect(&rt, "a field is missing");
    assert_prints(&rt, rt.alloc(), &error, "`nl_len` must be initialized");
}

#[test]
fn an_acknowledgement_is_built(rt: HostRuntime) {
    let alloc = rt.alloc();
    let header = NlmsghdrAckBuilder::default()
        .nl_len(32)
        .nl_type(16u16)
        .nl_flags(NlmF::ACK)
        .nl_seq(1)
        .nl_pid(2)
        .build()
        .expect(&rt, "a header");
    assert_is(&rt, header.written_size(), 16);
    let answer: Nlmsgerr<NlmsghdrAck<u16>> = NlmsgerrBuilder::default()
        .error(-1)
        .nlmsg(header)
        .ext_ack(GenlBuffer::<NlmsgerrAttr, Buffer>::new(alloc))
        .build(alloc)
        .expect(&rt, "an answer");
    let want = [
        0xff, 0xff, 0xff, 0xff, 0x20, 0, 0, 0, 16, 0, 4, 0, 1, 0, 0, 0, 2, 0, 0, 0,
    ];
    assert_written(&rt, alloc, &answer, &want);
    assert_prints(&rt, alloc, &answer, "netlink error -1");
    assert_copy(&rt, answer.try_clone(), &answer);
}

#[test]
fn an_echo_is_built(rt: HostRuntime) {
    let echo = NlmsghdrErrBuilder::default()
        .nl_type(16u16)
        .nl_flags(NlmF::ACK)
        .nl_seq(3)
        .nl_pid(4)
        .nl_payload(7u8)
        .build()
        .expect(&rt, "an echo");
    let numbers = [*echo.nl_len(), *echo.nl_seq(), *echo.nl_pid()];
    assert_is(&rt, numbers, [20, 3, 4]);
}
