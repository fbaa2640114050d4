//! Single replies and notifications, and the kinds of requests.

use super::support::{assert_bytes, decoded, request};
use neli::consts::nl::NlmF;
use neli::simulator::notification;

/// A notification that a link's settings changed: datagram 0001, of group 24.
const NOTIFICATION: &str =
    "240000005000000000000000000000000200000008000100feffffff0800020001000000";

#[test]
fn a_recorded_notification_is_built_again(rt: HostRuntime) {
    let want = decoded(&rt, rt.alloc(), NOTIFICATION);
    let body = decoded(&rt, rt.alloc(), "0200000008000100feffffff0800020001000000");
    let bytes = notification(rt.alloc(), 80u16, NlmF::empty(), 0, 0, body).expect(&rt, "memory");
    assert_bytes(&rt, "0001", bytes.as_slice(), want.as_slice());
}

/// The request for the number of a namespace, and the reply: datagrams 0212 and 0213.
const ASKED: &str = "1c0000005a0001002304000000000000000000000800020032310000";

const REPLY: &str = "1c0000005800000023040000e9729683000000000800010000000000";

#[test]
fn a_recorded_reply_is_built_again(rt: HostRuntime) {
    let asked = decoded(&rt, rt.alloc(), ASKED);
    let want = decoded(&rt, rt.alloc(), REPLY);
    let request = request(&rt, 2207675113, asked.as_slice());
    let body = decoded(&rt, rt.alloc(), "000000000800010000000000");
    let bytes = request.reply(rt.alloc(), 88u16, NlmF::empty(), body);
    let bytes = bytes.expect(&rt, "memory");
    assert_bytes(&rt, "0213", bytes.as_slice(), want.as_slice());
}

/// The first 16 bytes of recorded requests, and whether each is handled, and requests an acknowledgement, a dump, an
/// echo: REQUEST is 1, ACK 4, ECHO 8, DUMP 0x300.
const HEADERS: [(&str, [u8; 16], [bool; 4]); 4] = [
    (
        "0184, a dump",
        *b"\x14\0\0\0\x5a\0\x01\x03\x03\x04\0\0\0\0\0\0",
        [true, false, true, false],
    ),
    (
        "0395, echoed",
        *b"\x24\0\0\0\x19\0\x0d\0\xc0\x04\0\0\0\0\0\0",
        [true, true, false, true],
    ),
    (
        "0516, without REQUEST",
        *b"\x20\0\0\0\x12\0\x04\0\x1d\x04\0\0\0\0\0\0",
        [false, true, false, false],
    ),
    (
        "0572, no operation",
        *b"\x10\0\0\0\x01\0\x05\0\x55\x04\0\0\0\0\0\0",
        [false, true, false, false],
    ),
];

#[test]
fn a_request_says_what_it_asks_for(rt: HostRuntime) {
    for (row, mut header, want) in HEADERS {
        // Each has only its header here, so it states 16 bytes.
        header[0] = 16;
        let request = request(&rt, 7, &header);
        let got = [
            request.is_handled(),
            request.wants_acknowledgement(),
            request.wants_dump(),
            request.wants_echo(),
        ];
        assert_eq!(rt; got, want, "at {row}");
        assert_eq!(rt; request.port(), 7, "at {row}");
        assert!(rt; request.payload().is_empty(), "{row}: a payload");
    }
}
