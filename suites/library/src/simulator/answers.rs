//! Acknowledgements and errors.

use super::support::{Attrs, NOTHING, assert_bytes, decoded, ext_ack, request};
use neli::simulator::{Request, read_ext_ack};

/// The echoed part of the request.
#[derive(Clone, Copy, Debug)]
enum Echo {
    /// All of it.
    Whole,
    /// Its header, as `NETLINK_CAP_ACK` requests.
    Header,
}

/// An acknowledgement or an error: the request, its port, the code, the echo, the attributes, the
/// answer.
#[derive(Clone, Copy)]
struct Row {
    number: &'static str,
    request: &'static str,
    port: u32,
    code: i32,
    echo: Echo,
    attrs: Attrs,
    answer: &'static str,
}

/// The recordings.
const ROWS: [Row; 10] = [
    // Request flag missing.
    Row {
        number: "0517",
        request: "20000000120004001d0400000000000000000000030000000000000000000000",
        port: 12587,
        code: 0,
        echo: Echo::Header,
        attrs: NOTHING,
        answer: "24000000020000011d0400002b3100000000000020000000120004001d04000000000000",
    },
    // Queue class, rate far too small (kept, with a warning) (ext, strict).
    Row {
        number: "0799",
        request: "\
            600000002800050436050000000000000000000003000000010001000000010000000000080001006874620034000280\
            3000010000010000ffff00000100000000010000ffff000001000000e8030000e8030000000000000000000000000000",
        port: 12587,
        code: 0,
        echo: Echo::Header,
        attrs: Attrs {
            text: Some("sch_htb: quantum of class 10001 is small. Consider r2q change."),
            offset: None,
            missing: None,
        },
        answer: "\
            6800000002000003360500002b3100000000000060000000280005043605000000000000430001007363685f6874623a\
            207175616e74756d206f6620636c61737320313030303120697320736d616c6c2e20436f6e7369646572207232712063\
            68616e67652e0000",
    },
    // Removal of a missing link (ext, strict).
    Row {
        number: "0475",
        request: "2000000011000500f203000000000000000000009f8601000000000000000000",
        port: 12587,
        code: -19,
        echo: Echo::Whole,
        attrs: NOTHING,
        answer: "\
            3400000002000000f20300002b310000edffffff2000000011000500f203000000000000000000009f86010000000000\
            00000000",
    },
    // Link that is there.
    Row {
        number: "0477",
        request: "\
            3c00000010000506f403000000000000000000000000000000000000000000000a000300766574683000000010001280\
            090001007665746800000000",
        port: 12587,
        code: -17,
        echo: Echo::Whole,
        attrs: NOTHING,
        answer: "\
            5000000002000000f40300002b310000efffffff3c00000010000506f403000000000000000000000000000000000000\
            000000000a000300766574683000000010001280090001007665746800000000",
    },
    // Removal of a missing link (cap).
    Row {
        number: "0531",
        request: "20000000110005002b04000000000000000000009f8601000000000000000000",
        port: 12587,
        code: -19,
        echo: Echo::Header,
        attrs: NOTHING,
        answer: "24000000020000012b0400002b310000edffffff20000000110005002b04000000000000",
    },
    // No such link, unaligned attribute at the end (cap, ext, strict).
    Row {
        number: "0701",
        request: "2700000012000500d404000000000000000000009f86010000000000000000000700030061620000",
        port: 12587,
        code: -19,
        echo: Echo::Header,
        attrs: NOTHING,
        answer: "2400000002000001d40400002b310000edffffff2700000012000500d404000000000000",
    },
    // No such link, unaligned attribute at the end (ext, strict).
    Row {
        number: "0757",
        request: "27000000120005000d05000000000000000000009f86010000000000000000000700030061620000",
        port: 12587,
        code: -19,
        echo: Echo::Whole,
        attrs: NOTHING,
        answer: "\
            3c000000020000000d0500002b310000edffffff27000000120005000d05000000000000000000009f86010000000000\
            000000000700030061620000",
    },
    // Unknown type, 6 bytes of body (ext, strict).
    Row {
        number: "0753",
        request: "160000006400050009050000000000006162636465660000",
        port: 12587,
        code: -22,
        echo: Echo::Whole,
        attrs: Attrs {
            text: Some("Invalid header length"),
            offset: None,
            missing: None,
        },
        answer: "\
            4800000002000002090500002b310000eaffffff1600000064000500090500000000000061626364656600001a000100\
            496e76616c696420686561646572206c656e677468000000",
    },
    // Ethtool, no such link (ext, strict).
    Row {
        number: "0964",
        request: "20000000150005006e04000000000000020100000c000180080001000f270000",
        port: 17225,
        code: -19,
        echo: Echo::Whole,
        attrs: Attrs {
            text: Some("no device matches ifindex"),
            offset: Some(24),
            missing: None,
        },
        answer: "\
            5c000000020000026e04000049430000edffffff20000000150005006e04000000000000020100000c00018008000100\
            0f2700001e0001006e6f20646576696365206d617463686573206966696e6465780000000800020018000000",
    },
    // Ethtool, header missing (cap, ext).
    Row {
        number: "0909",
        request: "14000000150005003e0400000000000002010000",
        port: 17225,
        code: -22,
        echo: Echo::Header,
        attrs: Attrs {
            text: None,
            offset: None,
            missing: Some(1),
        },
        answer: "2c000000020000033e04000049430000eaffffff14000000150005003e040000000000000800050001000000",
    },
];

#[test]
fn recorded_answers_are_built_again(rt: HostRuntime) {
    for row in ROWS {
        let asked = decoded(&rt, rt.alloc(), row.request);
        let want = decoded(&rt, rt.alloc(), row.answer);
        let request = request(&rt, row.port, asked.as_slice());
        let attrs = ext_ack(&rt, rt.alloc(), row.attrs);
        let answer = match (row.code, row.echo) {
            (0, _) => request.acknowledgement(rt.alloc(), attrs),
            (code, Echo::Header) => request.capped_error(rt.alloc(), code, attrs),
            (code, Echo::Whole) => request.error(rt.alloc(), code, attrs),
        };
        let answer = answer.expect(&rt, row.number);
        assert_bytes(&rt, row.number, answer.as_slice(), want.as_slice());
    }
}

/// The attributes of an answer that echoes the header alone begin at byte 36.
#[test]
fn recorded_answers_are_built_again_from_their_parts(rt: HostRuntime) {
    for row in ROWS {
        let asked = decoded(&rt, rt.alloc(), row.request);
        let want = decoded(&rt, rt.alloc(), row.answer);
        let asked = request(&rt, row.port, asked.as_slice());
        let request = Request::from_parts(row.port, *asked.header(), asked.payload());
        let answer = match row.echo {
            Echo::Header => {
                let attrs = read_ext_ack(rt.alloc(), &want[36..]).expect(&rt, row.number);
                if row.code == 0 {
                    request.acknowledgement(rt.alloc(), attrs)
                } else {
                    request.capped_error(rt.alloc(), row.code, attrs)
                }
            }
            Echo::Whole => {
                let attrs = ext_ack(&rt, rt.alloc(), row.attrs);
                request.error(rt.alloc(), row.code, attrs)
            }
        };
        let answer = answer.expect(&rt, row.number);
        assert_bytes(&rt, row.number, answer.as_slice(), want.as_slice());
    }
}
