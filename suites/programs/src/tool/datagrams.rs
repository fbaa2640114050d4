//! A table of recorded datagrams and of libmnl's reading of each.

use super::rules::Fault;
use super::support::{assert_is_at, decoded};
use neli_reader::{NlBufferIter, Nlmsghdr, SocketError};
use neli_wire::DeError;
use std::alloc::Global;
use std::io::ErrorKind;
use std::process::Abort;

/// A message as libmnl reads it: type, flags, sequence number, port, and the payload's length.
pub type Header = (u16, u16, u32, u32, usize);

/// A datagram, its messages, and the bytes after them.
pub struct Row {
    /// A label: the number of the datagram, as suites/README.md has it.
    pub file: &'static str,
    pub hex: &'static str,
    pub messages: &'static [Header],
    /// libmnl names no fault: it follows from the first four bytes after its last message, by hand.
    pub fault: Option<Fault>,
}

/// The result of the reader of a datagram.
type Item = Option<Result<Nlmsghdr<u16, Vec<u8>>, SocketError>>;

/// The fault that a reader of messages returns.
pub fn fault_of(error: &SocketError) -> Option<Fault> {
    match error {
        SocketError::De(DeError::Io(ErrorKind::UnexpectedEof)) => Some(Fault::Short),
        SocketError::De(DeError::InvalidInput(count)) => Some(Fault::Input(*count)),
        _ => None,
    }
}

/// The header of the message that is read.
fn header_of(item: Item) -> Option<Header> {
    let Some(Ok(message)) = item else {
        return None;
    };
    let length = *message.nl_len() as usize;
    Some((
        *message.nl_type(),
        u16::from(*message.nl_flags()),
        *message.nl_seq(),
        *message.nl_pid(),
        length.saturating_sub(16),
    ))
}

/// The fault that is read, if there is one.
fn fault_in(rt: &impl Abort, item: Item) -> Option<Fault> {
    match item {
        None => None,
        Some(Ok(_)) => rt.panic("a message more"),
        Some(Err(error)) => Some(fault_of(&error).expect(rt, "a fault")),
    }
}

/// Asserts that the datagram is read as libmnl reads it, and that nothing is read after its fault.
fn check_row(rt: &impl Abort, alloc: Global, row: &Row) {
    let file = row.file;
    let bytes = decoded(rt, alloc, row.hex);
    let mut found: NlBufferIter<'_, u16, Vec<u8>> = NlBufferIter::new(&bytes);
    for want in row.messages {
        assert_is_at(rt, file, header_of(found.next(alloc)), Some(*want));
    }
    assert_is_at(rt, file, fault_in(rt, found.next(alloc)), row.fault);
    assert_is_at(rt, file, found.next(alloc).is_none(), true);
}

#[test]
fn recorded_datagrams_are_read_as_libmnl_reads_them(rt: HostRuntime) {
    for row in &ROWS {
        check_row(&rt, rt.alloc(), row);
    }
}

/// The answer to a dump of a missing table: recording 0372.
pub const NO_TABLE: &str =
    "3800000003002202a7040000ebd2b981feffffff23000100697076343a20464942207461626c6520\
    646f6573206e6f742065786973740000";

pub const ROWS: [Row; 21] = [
    Row {
        // route: IPv4 settings of a link, notified to a group when loopback was set up
        file: "0001",
        hex: "240000005000000000000000000000000200000008000100feffffff0800020001000000",
        messages: &[(80, 0x0000, 0, 0, 20)],
        fault: None,
    },
    Row {
        // kobject_uevent: a bridge made; the datagram is a text and no message
        file: "0035",
        hex: "616464402f646576696365732f7669727475616c2f6e65742f6272302f7175657565732f74782d30\
            00414354494f4e3d61646400444556504154483d2f646576696365732f7669727475616c2f6e6574\
            2f6272302f7175657565732f74782d300053554253595354454d3d717565756573005345514e554d\
            3d3130323300",
        messages: &[],
        fault: Some(Fault::Input(1080321105)),
    },
    Row {
        // route: a dump of IPv4 addresses, its first datagram
        file: "0155",
        hex: "4c00000014000200ed030000ed1c08fa020880fe01000000080001007f000001080002007f000001\
            070003006c6f0000080008008000000014000600ffffffffffffffff867103008671030058000000\
            14000200ed030000ed1c08fa021880000300000008000100c000020108000200c000020108000400\
            c00002ff0a0003007665746830000000080008008000000014000600ffffffffffffffff44730300\
            447303005000000014000200ed030000ed1c08fa021881000300000008000100c000020208000200\
            c00002020c00030076657468303a7800080008008100000014000600ffffffffffffffff5d730300\
            5d7303005000000014000200ed030000ed1c08fa021800000400000008000100c633640108000200\
            c63364010a0003007665746832000000080008000000000014000600dc030000ac0b000076730300\
            767303005000000014000200ed030000ed1c08fa022080000400000008000100cb00710208000200\
            cb0071010a0003007665746832000000080008008000000014000600ffffffffffffffff8e730300\
            8e7303004c00000014000200ed030000ed1c08fa0210800005000000080001000a09000108000200\
            0a0900010800030062723000080008008000000014000600fffffffffffffffff4730300f4730300",
        messages: &[
            (20, 0x0002, 1005, 4194835693, 60),
            (20, 0x0002, 1005, 4194835693, 72),
            (20, 0x0002, 1005, 4194835693, 64),
            (20, 0x0002, 1005, 4194835693, 64),
            (20, 0x0002, 1005, 4194835693, 64),
            (20, 0x0002, 1005, 4194835693, 60),
        ],
        fault: None,
    },
    Row {
        // route: a dump of proxy neighbours, an entry and the Done after it
        file: "0165",
        hex: "240000001c000200f40300009a413db902000000030000000000080108000100c000024d14000000\
            03000200f40300009a413db900000000",
        messages: &[
            (28, 0x0002, 1012, 3107799450, 20),
            (3, 0x0002, 1012, 3107799450, 4),
        ],
        fault: None,
    },
    Row {
        // route: the addresses of one link, a filtered dump
        file: "0358",
        hex: "58000000140022009b04000085958cf6021880000300000008000100c000020108000200c0000201\
            08000400c00002ff0a0003007665746830000000080008008000000014000600ffffffffffffffff\
            447303004473030050000000140022009b04000085958cf6021881000300000008000100c0000202\
            08000200c00002020c00030076657468303a7800080008008100000014000600ffffffffffffffff\
            5d7303005d730300",
        messages: &[
            (20, 0x0022, 1179, 4136408453, 72),
            (20, 0x0022, 1179, 4136408453, 64),
        ],
        fault: None,
    },
    Row {
        // route: a Done with a code and a text, the answer to a dump of no such table
        file: "0372",
        hex: NO_TABLE,
        messages: &[(3, 0x0222, 1191, 2176439019, 40)],
        fault: None,
    },
    Row {
        // route: an acknowledgement with a warning after it
        file: "0515",
        hex: "24000000020000011a0400002b3100000000000060000000280005041a04000000000000",
        messages: &[(2, 0x0100, 1050, 12587, 20)],
        fault: None,
    },
    Row {
        // generic: an error, the request's header alone after the code
        file: "0884",
        hex: "24000000020000012904000049430000eaffffff10000000100005002904000000000000",
        messages: &[(2, 0x0100, 1065, 17225, 20)],
        fault: None,
    },
    Row {
        // generic: a capped error with an attribute: the echo states 20 bytes, and has 16
        file: "0909",
        hex: "2c000000020000033e04000049430000eaffffff14000000150005003e0400000000000008000500\
            01000000",
        messages: &[(2, 0x0300, 1086, 17225, 28)],
        fault: None,
    },
    Row {
        // route: a capped error without attributes
        file: "0523",
        hex: "2400000002000001220400002b310000eaffffff14000000640005002204000000000000",
        messages: &[(2, 0x0100, 1058, 12587, 20)],
        fault: None,
    },
    Row {
        // route: an acknowledgement with a text
        file: "0597",
        hex: "50000000020000036c0400002b3100000000000028000000130005006c040000000000002c000100\
            6279746573206c6566746f7665722061667465722070617273696e67206174747269627574657300",
        messages: &[(2, 0x0300, 1132, 12587, 64)],
        fault: None,
    },
    Row {
        // generic: the devices of the family netdev, all of a dump in one datagram
        file: "0970",
        hex: "400000001400000075040000494300000101000008000100010000000c0003000000000000000000\
            0c00050000000000000000000c000600000000000000000040000000140000007504000049430000\
            0101000008000100020000000c00030023000000000000000c00050007000000000000000c000600\
            0000000000000000400000001400000075040000494300000101000008000100030000000c000300\
            23000000000000000c00050007000000000000000c00060000000000000000001400000003000200\
            750400004943000000000000",
        messages: &[
            (20, 0x0000, 1141, 17225, 48),
            (20, 0x0000, 1141, 17225, 48),
            (20, 0x0000, 1141, 17225, 48),
            (3, 0x0002, 1141, 17225, 4),
        ],
        fault: None,
    },
    Row {
        // netfilter: a request whose length is no multiple of four
        file: "0998",
        hex: "1100000001010500fb0300000000000002000000",
        messages: &[(257, 0x0005, 1019, 0, 1)],
        fault: None,
    },
    Row {
        // netfilter: a batch of three requests
        file: "1004",
        hex: "140000001000010015000000000000000000000a1c000000020a0500160000000000000001000000\
            0700010074330000140000001100010017000000000000000000000a",
        messages: &[
            (16, 0x0001, 21, 0, 4),
            (2562, 0x0005, 22, 0, 12),
            (17, 0x0001, 23, 0, 4),
        ],
        fault: None,
    },
    Row {
        // netfilter: two notifications in one datagram
        file: "1029",
        hex: "30000000050a00001600000013c75ec30100000b070001007433000006000300630000000c000200\
            000000000000000130000000020a00001600000013c75ec30100000b070001007433000008000300\
            000000000c0004000000000000000003",
        messages: &[
            (2565, 0x0000, 22, 3277768467, 32),
            (2562, 0x0000, 22, 3277768467, 32),
        ],
        fault: None,
    },
    Row {
        // sock_diag: a dump of unix sockets
        file: "1036",
        hex: "64000000140002000f0400004a430000010101008f4f010006000000000000000800020000000000\
            0c000400000000000000000028000500000000000040030000000000004003000000000000000000\
            000000000000000000000000050006000000000078000000140002000f0400004a43000001010a00\
            8e4f01000700000000000000120000000061627374726163742d6e616d650000080003008f4f0100\
            0c000400010000000100000028000500000000000040030000000000004003000000000000000000\
            0000000000000000000000000500060000000000",
        messages: &[
            (20, 0x0002, 1039, 17226, 84),
            (20, 0x0002, 1039, 17226, 104),
        ],
        fault: None,
    },
    Row {
        // xfrm: all policies removed, notified to a group
        file: "1065",
        hex: "1c0000001d000000af98026b000000000a0010000000000000000000",
        messages: &[(29, 0x0000, 1795332271, 0, 12)],
        fault: None,
    },
    Row {
        // usersock: a text of five bytes from one program to another
        file: "1066",
        hex: "68656c6c6f",
        messages: &[],
        fault: Some(Fault::Short),
    },
    Row {
        // connector: a process event
        file: "1067",
        hex: "4c000000030000001000000000000000010000000100000010000000000000002800000001000000\
            010000003863689e370200004b4300004b43000060430000604300000000000000000000",
        messages: &[(3, 0x0000, 16, 0, 60)],
        fault: None,
    },
    Row {
        // route: a request by iproute2 with 128 zeros after it
        file: "1111",
        hex: "180000006a0001036c99026b00000000000000000000000000000000000000000000000000000000\
            00000000000000000000000000000000000000000000000000000000000000000000000000000000\
            00000000000000000000000000000000000000000000000000000000000000000000000000000000\
            0000000000000000000000000000000000000000000000000000000000000000",
        messages: &[(106, 0x0301, 1795332460, 0, 8)],
        fault: Some(Fault::Input(0)),
    },
    Row {
        // fib_lookup: a request by libnl
        file: "1196",
        hex: "24000000000005006f99026bb913c0557f00000100000000000000000000000000000000",
        messages: &[(0, 0x0005, 1795332463, 1438651321, 20)],
        fault: None,
    },
];
