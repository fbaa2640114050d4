//! Dumps.

use super::support::{Attrs, NOTHING, assert_bytes, decoded, ext_ack, request};
use neli::consts::nl::NlmF;
use neli::err::SerError;
use neli::simulator::Dump;
use std::alloc::Global;
use std::process::Abort;

/// A dump: the request, its port; the type, the flags beside MULTI, and the bodies of the messages; whether the end has
/// a datagram of its own, its code and its attributes; the datagrams.
#[derive(Clone, Copy)]
struct Row {
    number: &'static str,
    request: &'static str,
    port: u32,
    kind: u16,
    flags: u16,
    bodies: &'static [&'static str],
    is_end_alone: bool,
    code: i32,
    attrs: Attrs,
    datagrams: &'static [&'static str],
}

/// No flag beside MULTI.
const NO_FLAGS: u16 = 0;

/// `NLM_F_DUMP_FILTERED`.
const FILTERED: u16 = 0x20;

/// The recordings.
const ROWS: [Row; 5] = [
    // Namespace numbers.
    Row {
        number: "0185",
        request: "140000005a000103030400000000000000000000",
        port: 2858274492,
        kind: 88,
        flags: NO_FLAGS,
        bodies: &["000000000800010000000000"],
        is_end_alone: false,
        code: 0,
        attrs: NOTHING,
        datagrams: &[
            "\
                1c0000005800020003040000bcce5daa000000000800010000000000140000000300020003040000bcce5daa00000000",
        ],
    },
    // V4 addresses of a link.
    Row {
        number: "0358",
        request: "18000000160001039b040000000000000200000003000000",
        port: 4136408453,
        kind: 20,
        flags: FILTERED,
        bodies: &[
            "\
                021880000300000008000100c000020108000200c000020108000400c00002ff0a000300766574683000000008000800\
                8000000014000600ffffffffffffffff4473030044730300",
            "\
                021881000300000008000100c000020208000200c00002020c00030076657468303a7800080008008100000014000600\
                ffffffffffffffff5d7303005d730300",
        ],
        is_end_alone: true,
        code: 0,
        attrs: NOTHING,
        datagrams: &[
            "\
                58000000140022009b04000085958cf6021880000300000008000100c000020108000200c000020108000400c00002ff\
                0a0003007665746830000000080008008000000014000600ffffffffffffffff44730300447303005000000014002200\
                9b04000085958cf6021881000300000008000100c000020208000200c00002020c00030076657468303a780008000800\
                8100000014000600ffffffffffffffff5d7303005d730300",
            "14000000030022009b04000085958cf600000000",
        ],
    },
    // Tables (cap, ext).
    Row {
        number: "1020",
        request: "14000000010a0103080400000000000000000000",
        port: 3682409011,
        kind: 2560,
        flags: NO_FLAGS,
        bodies: &[
            "0100000d060001007400000008000300000000030c00040000000000000000010800020000000000",
        ],
        is_end_alone: true,
        code: 0,
        attrs: NOTHING,
        datagrams: &[
            "\
                38000000000a020008040000331a7ddb0100000d060001007400000008000300000000030c0004000000000000000001\
                0800020000000000",
            "140000000300020008040000331a7ddb00000000",
        ],
    },
    // V4 routes of no such table (strict).
    Row {
        number: "0364",
        request: "240000001a0001039f0400000000000002000000000000000000000008000f000f270000",
        port: 3764743970,
        kind: 0,
        flags: FILTERED,
        bodies: &[],
        is_end_alone: false,
        code: -2,
        attrs: NOTHING,
        datagrams: &["14000000030022009f040000226f65e0feffffff"],
    },
    // V4 routes of no such table (ext, strict).
    Row {
        number: "0372",
        request: "240000001a000103a70400000000000002000000000000000000000008000f000f270000",
        port: 2176439019,
        kind: 0,
        flags: FILTERED,
        bodies: &[],
        is_end_alone: false,
        code: -2,
        attrs: Attrs {
            text: Some("ipv4: FIB table does not exist"),
            offset: None,
            missing: None,
        },
        datagrams: &[
            "\
                3800000003002202a7040000ebd2b981feffffff23000100697076343a20464942207461626c6520646f6573206e6f74\
                2065786973740000",
        ],
    },
];

/// Puts the messages of a row in.
fn push_all(rt: &impl Abort, alloc: Global, dump: &mut Dump<'_>, row: &Row) {
    for body in row.bodies {
        let body = decoded(rt, alloc, body);
        dump.push(alloc, row.kind, NlmF::from(row.flags), body)
            .expect(rt, row.number);
    }
}

/// Asserts that these are the datagrams.
fn assert_datagrams(rt: &impl Abort, alloc: Global, row: &str, got: &[Vec<u8>], want: &[&str]) {
    assert_eq!(rt; got.len(), want.len(), "at {row}");
    for (datagram, digits) in got.iter().zip(want) {
        let want = decoded(rt, alloc, digits);
        assert_bytes(rt, row, datagram.as_slice(), want.as_slice());
    }
}

#[test]
fn recorded_dumps_are_built_again(rt: HostRuntime) {
    for row in ROWS {
        let asked = decoded(&rt, rt.alloc(), row.request);
        let request = request(&rt, row.port, asked.as_slice());
        let mut dump = request.dump(rt.alloc(), 3776);
        push_all(&rt, rt.alloc(), &mut dump, &row);
        if row.is_end_alone {
            dump.begin_datagram(rt.alloc()).expect(&rt, row.number);
        }
        let attrs = ext_ack(&rt, rt.alloc(), row.attrs);
        let datagrams = dump.finish(rt.alloc(), NlmF::from(row.flags), row.code, attrs);
        let datagrams = datagrams.expect(&rt, row.number);
        assert_datagrams(
            &rt,
            rt.alloc(),
            row.number,
            datagrams.as_slice(),
            row.datagrams,
        );
    }
}

#[test]
fn recorded_dumps_are_handed_out_datagram_by_datagram(rt: HostRuntime) {
    for row in ROWS {
        let asked = decoded(&rt, rt.alloc(), row.request);
        let request = request(&rt, row.port, asked.as_slice());
        let mut dump = request.dump(rt.alloc(), 3776);
        push_all(&rt, rt.alloc(), &mut dump, &row);
        if row.is_end_alone {
            dump.begin_datagram(rt.alloc()).expect(&rt, row.number);
        }
        let attrs = ext_ack(&rt, rt.alloc(), row.attrs);
        dump.push_end(rt.alloc(), NlmF::from(row.flags), row.code, attrs)
            .expect(&rt, row.number);
        for (k, digits) in row.datagrams.iter().enumerate() {
            let want = decoded(&rt, rt.alloc(), digits);
            let datagram = dump.datagram(k).expect(&rt, row.number);
            assert_bytes(&rt, row.number, datagram, want.as_slice());
        }
        assert!(rt;
            dump.datagram(row.datagrams.len()).is_none(),
            "at {}",
            row.number
        );
    }
}

/// Four bytes of a body make a message of 20; the end has 20 too.
#[test]
fn a_message_longer_than_a_datagram_is_refused(rt: HostRuntime) {
    let alloc = rt.alloc();
    let asked = decoded(&rt, alloc, ROWS[0].request);
    let mut dump = request(&rt, ROWS[0].port, asked.as_slice()).dump(alloc, 40);
    let fits = dump.push(alloc, 88u16, NlmF::empty(), [0u8; 24]);
    fits.expect(&rt, "a message of 40 bytes");
    match dump.push(alloc, 88u16, NlmF::empty(), [0u8; 25]) {
        Err(SerError::Msg(message)) => {
            let text = message.to_string(alloc).expect(&rt, "memory");
            assert_eq!(rt; text.as_str(), "Message does not fit a datagram");
        }
        _ => rt.panic("a message of 44 bytes"),
    }
    let small = dump.push(alloc, 88u16, NlmF::empty(), [0u8; 4]);
    small.expect(&rt, "a message of 20 bytes");
    let attrs = ext_ack(&rt, alloc, NOTHING);
    let datagrams = dump.finish(alloc, NlmF::empty(), 0, attrs);
    let datagrams = datagrams.expect(&rt, "an end");
    let sizes: [usize; 2] = [datagrams[0].len(), datagrams[1].len()];
    assert_eq!(rt; datagrams.len(), 2);
    assert_eq!(rt; sizes, [40, 40]);
}
