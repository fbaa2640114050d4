//! The attributes of datagrams that were recorded from Linux 6.18, compared with the readings of libmnl and pyroute2.
//! Each row is the part of a message after the header of its body, named by the number of its datagram in
//! suites/README.md.

use super::support::{
    assert_is, assert_is_at, assert_lent, assert_number, assert_text, assert_written, read_list,
};
use neli::attr::TypedPayload;
use neli::consts::genl::{CtrlAttr, CtrlAttrMcastGrp, Index};
use neli::consts::rtnl::{Ifa, Ifla, Rta};
use neli::err::DeError;
use neli::genl::Nlattr;
use neli::rtnl::Rtattr;
use neli::types::{Buffer, FrameList, GenlBuffer, RtBuffer};
use neli::{FromBytes, ToBytes};
use std::alloc::Global;
use std::process::Abort;

/// The bytes that lines of hexadecimal digits spell.
fn decoded(rt: &impl Abort, alloc: Global, lines: &[&str]) -> Vec<u8> {
    let mut bytes = Vec::new(alloc);
    for line in lines {
        let part = hex::decode(alloc, *line).expect(rt, "digits");
        bytes.extend_from_slice(&part).expect(rt, "memory");
    }
    bytes
}

/// An attribute as libmnl reads it: the type without its two upper bits, the length of the payload, and whether it is
/// marked as nested.
type Seen = (u16, usize, bool);

/// Recorded attributes, and libmnl's reading.
type Row = (&'static str, &'static [&'static str], &'static [Seen]);

const R0004: Row = (
    "loopback set up",
    &[
        "080001007f000001080002007f000001070003006c6f0000080008008000000014000600ffffffffffffffff86710300",
        "86710300",
    ],
    &[
        (1, 4, false),
        (2, 4, false),
        (3, 3, false),
        (8, 4, false),
        (6, 16, false),
    ],
);

const R0005: Row = (
    "loopback set up",
    &["08000f00ff000000080001007f000000080007007f0000010800040001000000"],
    &[(15, 4, false), (1, 4, false), (7, 4, false), (4, 4, false)],
);

const R0017: Row = (
    "other veth end set up",
    &[
        "08000f00fe00000014000100fe8000000000000000000000000000000800060000010000080004000200000024000c00",
        "00000000000000000000000000000000000000000000000000000000000000000500140000000000",
    ],
    &[
        (15, 4, false),
        (1, 16, false),
        (6, 4, false),
        (4, 4, false),
        (12, 32, false),
        (20, 1, false),
    ],
);

const R0024: Row = (
    "veth pair with one end in another namespace",
    &["0800010000000000"],
    &[(1, 4, false)],
);

const R0205: Row = (
    "v4 lookup of loopback",
    &[
        "08000f00ff000000080001007f0000010800040001000000080007007f000001080019000000000024000c0002000000",
        "00000000000000000000000000000000000000000000000000000000",
    ],
    &[
        (15, 4, false),
        (1, 4, false),
        (4, 4, false),
        (7, 4, false),
        (25, 4, false),
        (12, 32, false),
    ],
);

const R0277: Row = (
    "v6 lookup (ext, strict, buffer 8192)",
    &[
        "08000f00fe0000001400010020010db80010000000000000000000051400020000000000000000000000000000000000",
        "1400070020010db800000000000000000000000108000600000400001400050020010db8000000000000000000000009",
        "080004000300000024000c00020000000000000000000000000000000000000000000000000000000000000005001400",
        "00000000",
    ],
    &[
        (15, 4, false),
        (1, 16, false),
        (2, 16, false),
        (7, 16, false),
        (6, 4, false),
        (5, 16, false),
        (4, 4, false),
        (12, 32, false),
        (20, 1, false),
    ],
);

const R0281: Row = (
    "one neighbour (ext, strict, buffer 8192)",
    &[
        "08000100c00002090a000200020000000099000008000400000000001400030010040000100400001004000001000000",
    ],
    &[(1, 4, false), (2, 6, false), (4, 4, false), (3, 16, false)],
);

const R0396: Row = (
    "route removed, echoed",
    &["08000f00fe000000080001000a32000008000500c00002090800040003000000"],
    &[(15, 4, false), (1, 4, false), (5, 4, false), (4, 4, false)],
);

const R0402: Row = (
    "rule removed, echoed",
    &["08000f00fe00000008000e00ffffffff05001500000000000800060009030000"],
    &[
        (15, 4, false),
        (14, 4, false),
        (21, 1, false),
        (6, 4, false),
    ],
);

const R0152: Row = (
    "bridge ports (family 7)",
    &[
        "0a000300766574683100000008000a000500000008000400dc05000005001000060000000a0001000200000000020000",
        "080005000300000050010c80050001000300000006000200200000000800030002000000050004000000000005000500",
        "000000000500060000000000050007000000000005001c00000000000500080001000000050009000100000005001b00",
        "0100000005001e000100000005000a000000000005000c00000000000c000d0080000200000000100c000e0080000200",
        "0000001006000f0001800000060010000000000006001100018000000600120001000000050013000000000005001400",
        "0000000005001d000000000006001f000000000005002000000000000500230000000000050024000000000005002100",
        "000000000500270000000000050028000000000005002b00000000000c00150000000000000000000c00160000000000",
        "000000000c00170000000000000000000500190001000000080025000002000008002600000000000800290005000000",
        "08002a0000000000",
    ],
    &[
        (3, 6, false),
        (10, 4, false),
        (4, 4, false),
        (16, 1, false),
        (1, 6, false),
        (5, 4, false),
        (12, 332, true),
    ],
);

const R0821: Row = (
    "family tcp_metrics",
    &[
        "100002007463705f6d65747269637300060001001b00000008000300010000000800040000000000080005000d000000",
        "2c000600140001000800010001000000080002000e000000140002000800010002000000080002000b000000",
    ],
    &[
        (2, 12, false),
        (1, 2, false),
        (3, 4, false),
        (4, 4, false),
        (5, 4, false),
        (6, 40, false),
    ],
);

const R0867: Row = (
    "family IOAM6 (cap, ext)",
    &[
        "0a000200494f414d36000000060001001e00000008000300010000000800040000000000080005000000000090000600",
        "140001000800010001000000080002000b000000140002000800010002000000080002000b0000001400030008000100",
        "030000000800020005000000140004000800010004000000080002000b00000014000500080001000500000008000200",
        "0b0000001400060008000100060000000800020005000000140007000800010007000000080002000b00000024000700",
        "20000100080002000a00000011000100696f616d365f6576656e747300000000",
    ],
    &[
        (2, 6, false),
        (1, 2, false),
        (3, 4, false),
        (4, 4, false),
        (5, 4, false),
        (6, 140, false),
        (7, 32, false),
    ],
);

const R0869: Row = (
    "family TASKSTATS (cap, ext)",
    &[
        "0e0002005441534b5354415453000000060001001f000000080003000100000008000400000000000800050000000000",
        "2c000600140001000800010001000000080002000b000000140002000800010004000000080002000a000000",
    ],
    &[
        (2, 10, false),
        (1, 2, false),
        (3, 4, false),
        (4, 4, false),
        (5, 4, false),
        (6, 40, false),
    ],
);

const ROWS: [Row; 13] = [
    R0004, R0005, R0017, R0024, R0205, R0277, R0281, R0396, R0402, R0152, R0821, R0867, R0869,
];

/// The attributes of a row.
fn read_row<I: FromBytes>(rt: &impl Abort, alloc: Global, row: Row) -> FrameList<I> {
    read_list(rt, alloc, &decoded(rt, alloc, row.1))
}

/// The same, which is written as the row's bytes.
fn both_ways<I: FromBytes + ToBytes>(rt: &impl Abort, alloc: Global, row: Row) -> FrameList<I> {
    let list = read_row(rt, alloc, row);
    assert_written(rt, alloc, &list, &decoded(rt, alloc, row.1));
    list
}

/// Asserts that these are the attributes of a row, as libmnl reads them.
fn assert_seen(rt: &impl Abort, alloc: Global, list: GenlBuffer<u16, Buffer>, row: Row) {
    let mut seen = Vec::new(alloc);
    for attr in list.iter() {
        let field = attr.nla_type();
        let length = attr.nla_payload().len();
        seen.push((*field.nla_type(), length, *field.nla_nested()))
            .expect(rt, "memory");
    }
    assert_is_at(rt, row.0, seen.as_slice(), row.2);
}

// Every attribute of each row, as a generic one and as a routing one, and written again.
#[test]
fn attributes_are_as_libmnl_reads_them(rt: HostRuntime) {
    let alloc = rt.alloc();
    for row in ROWS {
        assert_seen(&rt, alloc, both_ways(&rt, alloc, row), row);
        let routes: RtBuffer<u16, Buffer> = both_ways(&rt, alloc, row);
        assert_is_at(&rt, row.0, routes.len(), row.2.len());
    }
}

/// Asserts that each type that libmnl reads is found whatever its flags are, with the payload of the first.
fn assert_found(rt: &impl Abort, list: RtBuffer<u16, Buffer>, row: Row) {
    let handle = list.get_attr_handle();
    for seen in row.2 {
        let kind = seen.0;
        let first = row.2.iter().find(|other| other.0 == kind);
        let found = handle.get_attribute_masked(kind);
        let length = found.map(|attr| attr.rta_payload().len());
        assert_is_at(rt, row.0, length, first.map(|other| other.1));
    }
}

#[test]
fn attributes_are_found_as_libmnl_reads_them(rt: HostRuntime) {
    for row in ROWS {
        assert_found(&rt, read_row(&rt, rt.alloc(), row), row);
    }
}

/// Asserts a text and a number in the attributes of a row.
fn assert_values<I: FromBytes + TypedPayload, R: FromBytes + Copy + PartialEq>(
    rt: &impl Abort,
    alloc: Global,
    row: Row,
    text: (I::Kind, &str),
    number: (I::Kind, R),
) {
    let list: FrameList<I> = read_row(rt, alloc, row);
    let handle = list.get_attr_handle();
    assert_text(rt, alloc, &handle, text.0, text.1);
    assert_number(rt, alloc, &handle, number.0, number.1);
}

// Values that pyroute2 reads in an address, in a link, and in the family IOAM6.
#[test]
fn names_and_numbers(rt: HostRuntime) {
    let alloc = rt.alloc();
    assert_values::<Rtattr<Ifa, Buffer>, u32>(
        &rt,
        alloc,
        R0004,
        (Ifa::Label, "lo"),
        (Ifa::Flags, 128),
    );
    assert_values::<Rtattr<Ifla, Buffer>, u32>(
        &rt,
        alloc,
        R0152,
        (Ifla::Ifname, "veth1"),
        (Ifla::Mtu, 1500),
    );
    assert_values::<Nlattr<CtrlAttr, Buffer>, u16>(
        &rt,
        alloc,
        R0867,
        (CtrlAttr::FamilyName, "IOAM6"),
        (CtrlAttr::FamilyId, 30),
    );
}

// The address itself.
#[test]
fn a_local_address(rt: HostRuntime) {
    let address: RtBuffer<Ifa, Buffer> = read_row(&rt, rt.alloc(), R0004);
    let handle = address.get_attr_handle();
    assert_lent(&rt, &handle, Ifa::Local, &[127, 0, 0, 1]);
}

// Values that pyroute2 reads in a route.
#[test]
fn values_of_a_route(rt: HostRuntime) {
    let alloc = rt.alloc();
    let route: RtBuffer<Rta, Buffer> = read_row(&rt, alloc, R0277);
    let handle = route.get_attr_handle();
    assert_number(&rt, alloc, &handle, Rta::Table, 254u32);
    assert_number(&rt, alloc, &handle, Rta::Priority, 1024u32);
    assert_number(&rt, alloc, &handle, Rta::Oif, 3u32);
    let gateway = b"\x20\x01\x0d\xb8\0\0\0\0\0\0\0\0\0\0\0\x09";
    assert_lent(&rt, &handle, Rta::Gateway, gateway);
    assert!(rt; handle.get_attribute(Rta::Metrics).is_none());
}

/// Two numbers of a nested attribute.
fn numbers(rt: &impl Abort, alloc: Global, attr: &Nlattr<Index, Buffer>) -> (u32, u32) {
    let fields = attr.get_attr_handle::<u16>(alloc).expect(rt, "a list");
    let first: Result<u32, DeError> = fields.get_attr_payload_as(alloc, 1);
    let second: Result<u32, DeError> = fields.get_attr_payload_as(alloc, 2);
    (first.expect(rt, "a number"), second.expect(rt, "a number"))
}

/// Asserts that these are the operations.
fn assert_operations(
    rt: &impl Abort,
    alloc: Global,
    operations: &[Nlattr<Index, Buffer>],
    want: &[(u32, u32)],
) {
    let mut seen = Vec::new(alloc);
    for operation in operations {
        seen.push(numbers(rt, alloc, operation))
            .expect(rt, "memory");
    }
    assert_is(rt, seen.as_slice(), want);
}

/// Asserts the number and the name of the group `ioam6_events`.
fn assert_group(rt: &impl Abort, alloc: Global, group: &Nlattr<Index, Buffer>) {
    let fields = group
        .get_attr_handle::<CtrlAttrMcastGrp>(alloc)
        .expect(rt, "a list");
    assert_number(rt, alloc, &fields, CtrlAttrMcastGrp::Id, 10u32);
    assert_text(rt, alloc, &fields, CtrlAttrMcastGrp::Name, "ioam6_events");
}

// The operations of the family IOAM6, each a number and its flags.
#[test]
fn operations_of_a_generic_family(rt: HostRuntime) {
    let family: GenlBuffer<CtrlAttr, Buffer> = read_row(&rt, rt.alloc(), R0867);
    let handle = family.get_attr_handle();
    let operations = handle
        .get_nested_attributes::<Index>(rt.alloc(), CtrlAttr::Ops)
        .expect(&rt, "operations");
    let want = [(1, 11), (2, 11), (3, 5), (4, 11), (5, 11), (6, 5), (7, 11)];
    assert_operations(&rt, rt.alloc(), operations.get_attrs(), &want);
}

// The multicast group of the family IOAM6.
#[test]
fn groups_of_a_generic_family(rt: HostRuntime) {
    let family: GenlBuffer<CtrlAttr, Buffer> = read_row(&rt, rt.alloc(), R0867);
    let handle = family.get_attr_handle();
    let groups = handle
        .get_nested_attributes::<Index>(rt.alloc(), CtrlAttr::McastGroups)
        .expect(&rt, "groups");
    assert_is(&rt, groups.get_attrs().len(), 1);
    for group in groups.iter() {
        assert_group(&rt, rt.alloc(), group);
    }
}
