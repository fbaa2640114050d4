//! Why the kernel refuses: the attributes after an error's echo, and after the code of a dump's end.

use super::datagrams::NO_TABLE;
use super::support::{assert_is_at, decoded};
use neli_attr::{Buffer, GenlBuffer};
use neli_consts::NlmsgerrAttr;
use neli_reader::{NlPayload, Nlmsghdr, cut};
use std::alloc::Global;
use std::process::Abort;

/// An attribute as libmnl reads it: its type, how many bytes its payload has, and whether it is marked as
/// nested.
type Header = (u16, usize, bool);

struct Row {
    /// A label: the recordings were numbered as they were made.
    file: &'static str,
    hex: &'static str,
    code: i32,
    attributes: &'static [Header],
    /// The payload of the attribute of type 1, with its last zero.
    text: &'static str,
}

const ROWS: [Row; 3] = [
    Row {
        // route: the end of a dump
        file: "0372",
        hex: NO_TABLE,
        code: -2,
        attributes: &[(1, 31, false)],
        text: "ipv4: FIB table does not exist\0",
    },
    Row {
        // route: an error, the answer to a request of an unknown type
        file: "0579",
        hex: "44000000020000025b0400002b310000eaffffff14000000640005005b0400000000000000000000\
            1a000100496e76616c696420686561646572206c656e677468000000",
        code: -22,
        attributes: &[(1, 22, false)],
        text: "Invalid header length\0",
    },
    Row {
        // route: an error, the answer to an MTU of two bytes; the third attribute is the policy that it broke
        file: "0593",
        hex: "9000000002000002680400002b310000deffffff2800000013000500680400000000000000000000\
            03000000000000000000000006000400dc05000027000100417474726962757465206661696c6564\
            20706f6c6963792076616c69646174696f6e00000800020020000000240004800c00040000000000\
            000000000c000500ffffffff000000000800010004000000",
        code: -34,
        attributes: &[(1, 35, false), (2, 4, false), (4, 32, true)],
        text: "Attribute failed policy validation\0",
    },
];

/// The attributes after a message's code.
type Reasons = GenlBuffer<NlmsgerrAttr, Buffer>;

/// The code of a message, and the attributes after it.
fn refusal_of<'m>(rt: &impl Abort, message: &'m Nlmsghdr<u16, Vec<u8>>) -> (i32, &'m Reasons) {
    match message.nl_payload() {
        NlPayload::Err(answer) => (*answer.error(), answer.ext_ack()),
        NlPayload::DumpExtAck(end) => (*end.error(), end.ext_ack()),
        _ => rt.panic("no refusal"),
    }
}

fn check_attributes(rt: &impl Abort, row: &Row, reasons: &Reasons) {
    let file = row.file;
    for (attribute, want) in reasons.iter().zip(row.attributes) {
        let kind = attribute.nla_type();
        let found = (
            u16::from(*kind.nla_type()),
            attribute.nla_payload().len(),
            *kind.nla_nested(),
        );
        assert_is_at(rt, file, found, *want);
    }
}

fn check_row(rt: &impl Abort, alloc: Global, row: &Row) {
    let file = row.file;
    let bytes = decoded(rt, alloc, row.hex);
    let (messages, _) = cut::<u16, Vec<u8>>(alloc, &bytes).expect(rt, file);
    let (code, reasons) = refusal_of(rt, messages.first().expect(rt, file));
    check_attributes(rt, row, reasons);
    let found = (code, reasons.len());
    let want = (row.code, row.attributes.len());
    assert_is_at(rt, file, found, want);
    let handle = reasons.get_attr_handle();
    let text: &str = handle
        .get_attr_payload_as_with_len_borrowed(NlmsgerrAttr::Msg)
        .expect(rt, file);
    assert_is_at(rt, file, text, row.text);
}

#[test]
fn recorded_refusals_say_why(rt: HostRuntime) {
    for row in &ROWS {
        check_row(&rt, rt.alloc(), row);
    }
}
