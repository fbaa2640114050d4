//! Files: pcap, and raw bytes.

use super::reading::{assert_is_at, listed};
use neli_inputs::pcap::{Order, order_of, read_pcap};
use neli_inputs::{Input, read_input};
use std::test::Fail;

/// The name of a file, its bytes in hexadecimal, and its items.
const ROWS: [(&str, &str, &str); 10] = [
    (
        "microseconds, the low byte first",
        "d4c3b2a1020004000000000000000000ffff0000fd00000000f1536505000000240000002400000000040338\
             0000000000000000000000001400000064000500e9030000000000000000000000f153650500000038000000\
             38000000000003380000000000000000000000002800000002000000e90300002b310000eaffffff14000000\
             64000500e90300000000000000000000",
        "24 Some(0) 1400000064000500e90300000000000000000000\n76 Some(0) 2800000002000000e90300002b310000eaffffff1400000064000500e90300000000000000000000\n",
    ),
    (
        "nanoseconds, the high byte first",
        "a1b23c4d0002000400000000000000000000ffff000000fd6553f10000000005000000240000002400040338\
             0000000000000000000000101400000064000500e903000000000000000000006553f1000000000500000038\
             00000038000403380000000000000000000000002800000002000000e90300002b310000eaffffff14000000\
             64000500e90300000000000000000000",
        "24 Some(16) 1400000064000500e90300000000000000000000\n76 Some(0) 2800000002000000e90300002b310000eaffffff1400000064000500e90300000000000000000000\n",
    ),
    (
        "cut short when it was recorded",
        "4d3cb2a1020004000000000000000000ffff0000fd00000000f15365050000001e0000002400000000040338\
             0000000000000000000000001400000064000500e9030000000000f153650500000038000000380000000004\
             03380000000000000000000000002800000002000000e90300002b310000eaffffff1400000064000500e903\
             00000000000000000000",
        "24 a packet cut short from 36 bytes\n70 Some(0) 2800000002000000e90300002b310000eaffffff1400000064000500e90300000000000000000000\n",
    ),
    (
        "of another device",
        "d4c3b2a1020004000000000000000000ffff0000fd00000000f1536505000000240000002400000000040001\
             0000000000000000000000001400000064000500e90300000000000000000000",
        "24 a packet that is not of netlink\n",
    ),
    (
        "ends inside the bytes of a record",
        "d4c3b2a1020004000000000000000000ffff0000fd00000000f1536505000000240000002400000000040338\
             0000000000000000000000001400000064000500e9030000000000000000000000f153650500000038000000\
             380000000000033800000000",
        "24 Some(0) 1400000064000500e90300000000000000000000\n76 the input ends after 8 bytes of a record\n",
    ),
    (
        "ends inside a record's header",
        "d4c3b2a1020004000000000000000000ffff0000fd00000000f1536505000000240000002400000000040338\
             0000000000000000000000001400000064000500e9030000000000000000000000f15365",
        "24 Some(0) 1400000064000500e90300000000000000000000\n76 the input ends inside a record's header\n",
    ),
    (
        "ends inside the file's header",
        "d4c3b2a1020004000000000000000000ffff0000fd0000",
        "0 the input ends inside a file's header\n",
    ),
    (
        "of Ethernet",
        "d4c3b2a1020004000000000000000000ffff000001000000",
        "20 a file of link type 1\n",
    ),
    (
        "without a record",
        "d4c3b2a1020004000000000000000000ffff0000fd000000",
        "",
    ),
    (
        "raw",
        "2800000002000000e90300002b310000eaffffff1400000064000500e90300000000000000000000",
        "0 None 2800000002000000e90300002b310000eaffffff1400000064000500e90300000000000000000000\n",
    ),
];

#[test]
fn files_are_cut(rt: HostRuntime) -> Result<(), Fail> {
    let alloc = rt.alloc();
    for (what, digits, wanted) in ROWS {
        let input = read_input(alloc, hex::decode(alloc, digits)?)?;
        assert_is_at(&rt, what, listed(&rt, alloc, &input).as_str(), wanted);
    }
    Ok(())
}

#[test]
fn pcap_is_read_by_its_order(rt: HostRuntime) -> Result<(), Fail> {
    let alloc = rt.alloc();
    for (what, digits, wanted) in ROWS {
        let bytes = hex::decode(alloc, digits)?;
        let Some(order) = order_of(&bytes) else {
            assert_is_at(&rt, what, what, "raw");
            continue;
        };
        let is_big = order == Order::Big;
        assert_is_at(
            &rt,
            what,
            is_big,
            what == "nanoseconds, the high byte first",
        );
        let items = read_pcap(alloc, order, &bytes)?;
        let input = Input { bytes, items };
        assert_is_at(&rt, what, listed(&rt, alloc, &input).as_str(), wanted);
    }
    Ok(())
}
