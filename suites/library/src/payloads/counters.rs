//! The counters of links.

use super::support::{assert_is, read_whole};
use neli_payloads::LinkStats64;
use std::process::Abort;

/// Bytes in which field n, counted from 1, is n, and then 8 more of them.
fn counted() -> [u8; 208] {
    let mut bytes = [0; 208];
    for field in 0..26 {
        bytes[field * 8] = field as u8 + 1;
    }
    bytes
}

/// Asserts the reading of the first `count` bytes: the first and the last field, and two between.
fn assert_fields(rt: &impl Abort, count: usize, want: (u64, u64, u64, u64)) {
    let bytes = counted();
    let stats = LinkStats64::from_bytes(bytes.get(..count).expect(rt, "so many bytes"));
    let got = (
        stats.rx_packets,
        stats.multicast,
        stats.rx_nohandler,
        stats.rx_otherhost_dropped,
    );
    assert_is(rt, got, want);
}

// All of the struct, a struct that is longer, that of kernels before 5.19, and one that ends within a field.
#[test]
fn lengths(rt: HostRuntime) {
    assert_fields(&rt, 200, (1, 9, 24, 25));
    assert_fields(&rt, 208, (1, 9, 24, 25));
    assert_fields(&rt, 192, (1, 9, 24, 0));
    assert_fields(&rt, 191, (1, 9, 0, 0));
    assert_fields(&rt, 0, (0, 0, 0, 0));
}

// The order of `struct rtnl_link_stats64` in linux/if_link.h.
#[test]
fn each_counter_has_its_place(rt: HostRuntime) {
    let stats = LinkStats64::from_bytes(&counted());
    let fields = [
        stats.rx_packets,
        stats.tx_packets,
        stats.rx_bytes,
        stats.tx_bytes,
        stats.rx_errors,
        stats.tx_errors,
        stats.rx_dropped,
        stats.tx_dropped,
        stats.multicast,
        stats.collisions,
        stats.rx_length_errors,
        stats.rx_over_errors,
        stats.rx_crc_errors,
        stats.rx_frame_errors,
        stats.rx_fifo_errors,
        stats.rx_missed_errors,
        stats.tx_aborted_errors,
        stats.tx_carrier_errors,
        stats.tx_fifo_errors,
        stats.tx_heartbeat_errors,
        stats.tx_window_errors,
        stats.rx_compressed,
        stats.tx_compressed,
        stats.rx_nohandler,
        stats.rx_otherhost_dropped,
    ];
    for (place, field) in fields.iter().enumerate() {
        assert_is(&rt, *field, place as u64 + 1);
    }
}

// The counters of the link in datagram 0080: 14 packets and 1440 bytes received, 8 and 916 sent.
#[test]
fn recorded(rt: HostRuntime) {
    let mut bytes = [0; 200];
    bytes[0] = 0x0e;
    bytes[8] = 0x08;
    bytes[16..18].copy_from_slice(&[0xa0, 0x05]);
    bytes[24..26].copy_from_slice(&[0x94, 0x03]);
    let stats: LinkStats64 = read_whole(rt.alloc(), &bytes).expect(&rt, "counters");
    let got = (
        stats.rx_packets,
        stats.tx_packets,
        stats.rx_bytes,
        stats.tx_bytes,
    );
    assert_is(&rt, got, (14, 8, 1440, 916));
    assert_is(&rt, stats == LinkStats64::from_bytes(&bytes), true);
    assert_is(&rt, stats == LinkStats64::from_bytes(&[]), false);
}
