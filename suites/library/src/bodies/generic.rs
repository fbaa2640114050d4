//! Recorded messages of generic netlink's controller and of the connector: the fields that other readers find in each,
//! and the same bytes when written again.

use super::support::{Row, assert_is_at, assert_written, bytes_of, made, read_whole, recorded};
use neli::Size;
use neli::connector::{CnMsg, ProcEvent, ProcEventHeader};
use neli::consts::Constant;
use neli::consts::connector::{CnMsgIdx, CnMsgVal, ProcEventType};
use neli::consts::genl::{CtrlAttr, CtrlCmd};
use neli::genl::Genlmsghdr;
use neli::types::Buffer;
use std::alloc::Global;
use std::process::Abort;

/// Messages of the controller, with the fields that pyroute2 reads.
const CONTROLLER: [Row<(u8, u8)>; 3] = [
    (
        "0888 message 1",
        "0a0200000600010010000000100009800c0000800800020001000000",
        (10, 2),
        2,
    ),
    (
        "0821",
        "01020000100002007463705f6d65747269637300060001001b000000080003000100000008000400\
        00000000080005000d0000002c000600140001000800010001000000080002000e00000014000200\
        0800010002000000080002000b000000",
        (1, 2),
        6,
    ),
    (
        "0830",
        "010200000b0002006e6c6374726c0000060001001000000008000300020000000800040000000000\
        08000500000000002c000600140001000800010003000000080002000e0000001400020008000100\
        0a000000080002000c0000001c0007001800010008000200100000000b0001006e6f746966790000",
        (1, 2),
        7,
    ),
];

#[test]
fn controller(rt: HostRuntime) {
    for (label, digits, fields, attributes) in CONTROLLER {
        let m: Genlmsghdr<CtrlCmd, CtrlAttr> = recorded(&rt, rt.alloc(), label, digits);
        assert_is_at(&rt, label, (m.cmd().to_wire(), *m.version()), fields);
        assert_is_at(&rt, label, m.attrs().len(), attributes);
    }
}

/// A message of the connector: where it stands, its bytes as hexadecimal digits, its sequence number, and the
/// processor and the time of its event.
type Event = (&'static str, &'static str, u32, u32, u64);

// Connector messages as they arrived, after the message's header.
const EVENTS: [Event; 7] = [
    (
        "1067, child that ends",
        "010000000100000010000000000000002800000001000000010000003863689e370200004b430000\
        4b43000060430000604300000000000000000000",
        16,
        1,
        2437904098104,
    ),
    (
        "1069, child that runs another program",
        "01000000010000003100000000000000280000000000008001000000a77d5fe73702000088430000\
        8843000000000000110000004b4300004b430000",
        49,
        1,
        2439128251815,
    ),
    (
        "1070, child that ends with 3",
        "010000000100000033000000000000002800000000000080010000006b5778f63702000089430000\
        8943000000030000110000004b4300004b430000",
        51,
        1,
        2439381538667,
    ),
    (
        "1071, child that calls setsid",
        "01000000010000003500000000000000280000008000000001000000a6dc8905380200008a430000\
        8a43000000000000000000000000000000000000",
        53,
        1,
        2439634345126,
    ),
    (
        "1073, child that changes its numbers",
        "01000000010000003c0000000000000028000000040000000200000010532717380200008c430000\
        8c430000feff0000feff00000000000000000000",
        60,
        2,
        2439929877264,
    ),
    (
        "1076, child that aborts",
        "01000000010000001b00000000000000280000000000004000000000cca517393802000092430000\
        924300004b4300004b4300000000000000000000",
        27,
        0,
        2440499275212,
    ),
    (
        "1079, child that traces another",
        "0100000001000000400000000000000028000000000100000100000004e86e573802000095430000\
        9543000094430000944300000000000000000000",
        64,
        1,
        2441008310276,
    ),
];

/// The contents of an event: the type that it is written with, its fields, and its size in bytes.
type Held = (u32, &'static str, u8);

// The contents of the events, by the layout of the kernel's struct.
const HELD: [Held; 7] = [
    (
        0x1,
        "Fork { parent_pid: 17227, parent_tgid: 17227, child_pid: 17248, child_tgid: 17248 }",
        16,
    ),
    (
        0x80000000,
        "Exit { process_pid: 17288, process_tgid: 17288, exit_code: 0, exit_signal: 17, \
        parent_pid: 17227, parent_tgid: 17227 }",
        24,
    ),
    (
        0x20000000,
        "Exit { process_pid: 17289, process_tgid: 17289, exit_code: 768, exit_signal: 17, \
        parent_pid: 17227, parent_tgid: 17227 }",
        24,
    ),
    (0x80, "Sid { process_pid: 17290, process_tgid: 17290 }", 8),
    (
        0x4,
        "Uid { process_pid: 17292, process_tgid: 17292, ruid: 65534, euid: 65534 }",
        16,
    ),
    (
        0x40000000,
        "Coredump { process_pid: 17298, process_tgid: 17298, parent_pid: 17227, parent_tgid: 17227 }",
        16,
    ),
    (
        0x100,
        "Ptrace { process_pid: 17301, process_tgid: 17301, tracer_pid: 17300, tracer_tgid: 17300 }",
        16,
    ),
];

/// Asserts the fields of the message and of its event's header.
fn assert_fields(rt: &impl Abort, m: &CnMsg<ProcEventHeader>, row: Event) {
    let (label, _, seq, cpu, time) = row;
    let to = (*m.idx(), *m.val());
    assert_is_at(rt, label, to, (CnMsgIdx::Proc, CnMsgVal::Proc));
    let fields = (*m.seq(), *m.ack(), *m.len(), *m.flags());
    assert_is_at(rt, label, fields, (seq, 0, 40, 0));
    let event = m.payload();
    assert_is_at(rt, label, (event.cpu, event.timestamp_ns), (cpu, time));
}

/// Asserts the contents of the event.
fn assert_held(rt: &impl Abort, alloc: Global, label: &str, event: &ProcEventHeader, held: Held) {
    let (kind, fields, size) = held;
    let text = format!(in alloc; "{:?}", event.event).expect(rt, "memory");
    assert_is_at(rt, label, text.as_str(), fields);
    assert_is_at(rt, label, ProcEventType::from(&event.event).to_wire(), kind);
    assert_is_at(rt, label, event.written_size(), 16 + usize::from(size));
}

/// The bytes without what follows the event, and with its type.
fn bytes_again(rt: &impl Abort, alloc: Global, bytes: &[u8], held: Held) -> Vec<u8> {
    let (kind, _, size) = held;
    let message = bytes.get(..20).expect(rt, "a message");
    let event = bytes
        .get(24..20 + 16 + usize::from(size))
        .expect(rt, "an event");
    let mut again = Vec::from_slice(alloc, message).expect(rt, "memory");
    again
        .extend_from_slice(&kind.to_le_bytes())
        .expect(rt, "memory");
    again.extend_from_slice(event).expect(rt, "memory");
    again
}

// The kernel sends 40 bytes for every event: the bytes after the event are not kept.
#[test]
fn events(rt: HostRuntime) {
    let alloc = rt.alloc();
    for (row, held) in EVENTS.iter().zip(HELD.iter()) {
        let (label, digits, ..) = *row;
        let bytes = bytes_of(&rt, alloc, label, digits);
        let m: CnMsg<ProcEventHeader> = read_whole(&rt, alloc, label, &bytes);
        assert_fields(&rt, &m, *row);
        assert_held(&rt, alloc, label, m.payload(), *held);
        let again = bytes_again(&rt, alloc, &bytes, *held);
        assert_written(&rt, alloc, label, &m, &again);
    }
}

// The same messages with bytes for a payload, which are written again as they were.
#[test]
fn events_as_bytes(rt: HostRuntime) {
    let alloc = rt.alloc();
    for (label, digits, ..) in EVENTS {
        let m: CnMsg<Buffer> = recorded(&rt, alloc, label, digits);
        assert_is_at(&rt, label, m.payload().len(), 40);
        let bytes = bytes_of(&rt, alloc, label, digits);
        let _copy = made(&rt, alloc, label, m.try_clone(), &bytes);
    }
}
