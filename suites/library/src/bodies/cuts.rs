//! Bodies that are cut, each at each length, and wrong lengths of attributes: the refusal, and the unchanged cursor.

use super::support::{assert_is_at, bytes_of, count_of, read_whole, recorded};
use neli::connector::{CnMsg, ProcEvent, ProcEventHeader};
use neli::consts::connector::{CnMsgIdx, CnMsgVal};
use neli::err::DeError;
use neli::genl::Genlmsghdr;
use neli::rtnl::{Fibmsg, Ifaddrmsg, Ifinfomsg, NdaCacheinfo, Ndmsg, Rtgenmsg, Rtmsg, Tcmsg};
use neli::types::Buffer;
use neli::{Cursor, FromBytes, FromBytesWithInput, Size};
use std::alloc::Global;
use std::fmt::Display;
use std::io::ErrorKind;
use std::process::Abort;

/// A process runs a program, as the connector reports it.
const EXEC: &str = "01000000010000008302000000000000280000000200000001000000b834541947020000\
    7f1600007f160000";

/// Asserts that a read with input `n` is refused with `InvalidInput` of `want`, and that the cursor stays.
fn assert_refused<B: FromBytesWithInput>(
    rt: &impl Abort,
    alloc: Global,
    what: &str,
    bytes: &[u8],
    n: usize,
    want: usize,
) {
    let mut cursor = Cursor::new(bytes);
    let refused = B::from_bytes_with_input(alloc, &mut cursor, n).err();
    let found = (refused.and_then(count_of), cursor.position());
    assert_is_at(rt, (what, bytes.len(), n), found, (Some(want), 0));
}

/// Asserts that the first k bytes, read with input k, are refused with `InvalidInput` of `want`; and with
/// that number where the input is k + 1.
fn cut<B: FromBytesWithInput>(
    rt: &impl Abort,
    alloc: Global,
    what: &str,
    bytes: &[u8],
    k: usize,
    want: usize,
) {
    let part = bytes.get(..k).expect(rt, what);
    let more = k.saturating_add(1);
    assert_refused::<B>(rt, alloc, what, part, k, want);
    assert_refused::<B>(rt, alloc, what, part, more, more);
}

// It is written again as it was.
#[test]
fn a_process_event(rt: HostRuntime) {
    let m: CnMsg<ProcEventHeader> = recorded(&rt, rt.alloc(), "an event", EXEC);
    let to = (*m.idx(), *m.val(), *m.seq(), *m.len());
    let want = (CnMsgIdx::Proc, CnMsgVal::Proc, 643, 40);
    assert_is_at(&rt, "its header", to, want);
    let event = m.payload();
    let found = (event.cpu, event.timestamp_ns);
    assert_is_at(&rt, "its time", found, (1, 2504390882488));
    let is_exec = matches!(
        event.event,
        ProcEvent::Exec {
            process_pid: 5759,
            process_tgid: 5759
        }
    );
    assert_is_at(&rt, "its fields", is_exec, true);
    assert!(rt; event.try_clone().expect(&rt, "memory") == *event);
    assert!(rt; m.try_clone().expect(&rt, "memory") == m);
    assert!(rt; event.event != ProcEvent::Ack { err: 0 });
}

// The reading of a process event that is cut to `k` bytes.
#[test]
fn a_process_event_that_is_cut(rt: HostRuntime) {
    let bytes = bytes_of(&rt, rt.alloc(), "an event", EXEC);
    for k in 0..44usize {
        let want = if k < 20 { k } else { k - 20 };
        cut::<CnMsg<ProcEventHeader>>(&rt, rt.alloc(), "an event", &bytes, k, want);
    }
}

// The payload is what the input leaves of it, whatever the header states.
#[test]
fn a_process_event_as_bytes(rt: HostRuntime) {
    let m: CnMsg<Buffer> = recorded(&rt, rt.alloc(), "Buffer", EXEC);
    assert_is_at(&rt, "Buffer", m.payload().len(), 24);
    let m: CnMsg<Vec<u8>> = recorded(&rt, rt.alloc(), "Vec", EXEC);
    assert_is_at(&rt, "Vec", m.payload().len(), 24);
}

/// A header of `size` bytes and an attribute of 8.
fn header_and_attribute(rt: &impl Abort, alloc: Global, size: u8) -> Vec<u8> {
    let mut bytes = vec![in alloc; 0x77u8; usize::from(size)].expect(rt, "memory");
    bytes
        .extend_from_slice(&[8, 0, 1, 0, 1, 2, 3, 4])
        .expect(rt, "memory");
    bytes
}

/// Asserts that `k` bytes are read, and that the cursor moves past them.
fn assert_read<B: FromBytesWithInput>(
    rt: &impl Abort,
    alloc: Global,
    what: &str,
    bytes: &[u8],
    k: usize,
) {
    let mut cursor = Cursor::new(bytes);
    let is_read = B::from_bytes_with_input(alloc, &mut cursor, k).is_ok();
    assert_is_at(rt, (what, k), (is_read, cursor.position()), (true, k));
}

/// Lengths that the attribute states in place of 8, and the refusal: a length below that of its header, or the number
/// of payload bytes that are not all there. One that ends in its header leaves the payload as the next one, which
/// states 513 bytes.
const LENGTHS: [(u16, Option<usize>); 9] = [
    (0, Some(0)),
    (1, Some(1)),
    (3, Some(3)),
    (4, Some(509)),
    (5, None),
    (7, None),
    (8, None),
    (9, Some(5)),
    (65535, Some(65531)),
];

/// A header of `size` bytes and an attribute of 8 that states each of these lengths.
fn lengths<B: FromBytesWithInput>(rt: &impl Abort, alloc: Global, what: &str, size: u8) {
    let mut bytes = header_and_attribute(rt, alloc, size);
    let size = usize::from(size);
    for (length, want) in LENGTHS {
        for (byte, digit) in bytes.iter_mut().skip(size).zip(length.to_le_bytes()) {
            *byte = digit;
        }
        match want {
            Some(count) => assert_refused::<B>(rt, alloc, what, &bytes, size + 8, count),
            None => assert_read::<B>(rt, alloc, what, &bytes, size + 8),
        }
    }
}

/// A header of `size` bytes and an attribute of 8: cut in the header, after it, and in the attribute.
fn cuts<B: FromBytesWithInput>(rt: &impl Abort, alloc: Global, what: &str, size: u8) {
    let bytes = header_and_attribute(rt, alloc, size);
    let size = usize::from(size);
    for k in 0..size {
        cut::<B>(rt, alloc, what, &bytes, k, k);
    }
    for k in size + 1..size + 4 {
        cut::<B>(rt, alloc, what, &bytes, k, k - size);
    }
    // The attribute states 4 bytes of payload that are not there.
    for k in size + 4..size + 8 {
        cut::<B>(rt, alloc, what, &bytes, k, 4);
    }
    assert_read::<B>(rt, alloc, what, &bytes, size);
    assert_read::<B>(rt, alloc, what, &bytes, size + 8);
}

/// Cuts a body of a header of `size` bytes and an attribute, and has the attribute state wrong lengths.
fn hostile<B: FromBytesWithInput>(rt: &impl Abort, alloc: Global, what: &str, size: u8) {
    cuts::<B>(rt, alloc, what, size);
    lengths::<B>(rt, alloc, what, size);
}

#[test]
fn bodies_with_attributes(rt: HostRuntime) {
    let alloc = rt.alloc();
    hostile::<Ifinfomsg>(&rt, alloc, "Ifinfomsg", 16);
    hostile::<Ifaddrmsg>(&rt, alloc, "Ifaddrmsg", 8);
    hostile::<Ndmsg>(&rt, alloc, "Ndmsg", 12);
    hostile::<Rtmsg>(&rt, alloc, "Rtmsg", 12);
    hostile::<Tcmsg>(&rt, alloc, "Tcmsg", 20);
    hostile::<Fibmsg>(&rt, alloc, "Fibmsg", 12);
    hostile::<Rtgenmsg>(&rt, alloc, "Rtgenmsg", 4);
    hostile::<Genlmsghdr<u8, u16>>(&rt, alloc, "Genlmsghdr", 4);
    hostile::<Genlmsghdr<u8, u16, u32>>(&rt, alloc, "Genlmsghdr of a family", 8);
}

// Bytes without a meaning are kept.
#[test]
fn skipped_bytes_are_written_as_they_were(rt: HostRuntime) {
    let alloc = rt.alloc();
    let _request: Rtgenmsg = recorded(&rt, alloc, "Rtgenmsg", "09080706");
    let _command: Genlmsghdr<u8, u16> = recorded(&rt, alloc, "Genlmsghdr", "09080706");
}

// A request by family that lacks a byte; and a family's own header that is no multiple of four, which is refused
// whatever the bytes are.
#[test]
fn headers_that_are_too_short(rt: HostRuntime) {
    assert_refused::<Rtgenmsg>(&rt, rt.alloc(), "Rtgenmsg", b"\x02\0\0", 3, 3);
    for n in 0..7 {
        assert_refused::<Genlmsghdr<u8, u16, u16>>(
            &rt,
            rt.alloc(),
            "Genlmsghdr",
            b"\x01\x01\0\0\x07\0",
            n,
            n,
        );
    }
}

#[test]
fn payloads_of_fixed_size(rt: HostRuntime) {
    let bytes = [0u8; 16];
    for k in 0..16 {
        let mut cursor = Cursor::new(&bytes[..k]);
        let read = NdaCacheinfo::from_bytes(rt.alloc(), &mut cursor);
        let is_short = matches!(&read, Err(DeError::Io(ErrorKind::UnexpectedEof)));
        assert_is_at(&rt, k, (is_short, cursor.position()), (true, 0));
    }
}

/// Asserts that the value prints this text.
fn assert_prints<D: Display>(rt: &impl Abort, alloc: Global, value: &D, want: &str) {
    let text = value.to_string(alloc).expect(rt, want);
    assert_is_at(rt, "the text", text.as_str(), want);
}

#[test]
fn an_event_without_a_name(rt: HostRuntime) {
    let alloc = rt.alloc();
    let bytes = *b"\x03\0\0\0\0\0\0\0\0\0\0\0\0\0\0\0";
    let mut cursor = Cursor::new(&bytes);
    let read = ProcEventHeader::from_bytes_with_input(alloc, &mut cursor, 16);
    let error = read.err().expect(&rt, "a refusal");
    assert_is_at(&rt, "the cursor", cursor.position(), 0);
    let want = "Unrecognized Proc event type: 3 (raw value: 3)";
    assert_prints(&rt, alloc, &error, want);
    match &error {
        DeError::Msg(text) => assert_prints(&rt, alloc, text, want),
        _ => rt.panic("another refusal"),
    }
    // Before the event's header is there, its type is not looked at.
    assert_refused::<ProcEventHeader>(&rt, alloc, "an event", &bytes, 15, 15);
}

/// The events of the kernel's linux/cn_proc.h: the name, the number, and how many bytes each has.
const EVENTS: [(&str, u32, u8); 11] = [
    ("PROC_EVENT_NONE", 0, 4),
    ("PROC_EVENT_FORK", 1, 16),
    ("PROC_EVENT_EXEC", 2, 8),
    ("PROC_EVENT_UID", 4, 16),
    ("PROC_EVENT_GID", 0x40, 16),
    ("PROC_EVENT_SID", 0x80, 8),
    ("PROC_EVENT_PTRACE", 0x100, 16),
    ("PROC_EVENT_COMM", 0x200, 24),
    ("PROC_EVENT_COREDUMP", 0x4000_0000, 16),
    ("PROC_EVENT_EXIT", 0x8000_0000, 24),
    ("PROC_EVENT_NONZERO_EXIT", 0x2000_0000, 24),
];

// Each event past its input: 16 bytes of header, and all but the last byte of the event.
#[test]
fn events_past_their_input(rt: HostRuntime) {
    let alloc = rt.alloc();
    for (name, kind, size) in EVENTS {
        let end = 16 + usize::from(size);
        let mut bytes = [0u8; 40];
        bytes[..4].copy_from_slice(&kind.to_le_bytes());
        for n in 0..end {
            assert_refused::<ProcEventHeader>(&rt, alloc, name, &bytes, n, n);
        }
        let event: ProcEventHeader = read_whole(&rt, alloc, name, &bytes);
        assert_is_at(&rt, name, event.written_size(), end);
    }
}
