//! `peer FILE..` times how long netlink-packet-route takes to read each message of a dump into a value of its own, with
//! its attributes. The file is repeated up to 1 MB; a time is the best of many rounds, in nanoseconds a message.

use netlink_packet_core::{NetlinkMessage, NetlinkPayload};
use netlink_packet_route::RtnlMessage;
use std::time::{Duration, Instant};

const SIZE: usize = 1 << 20;
const ROUNDS: usize = 40;

/// Reads all messages of a buffer, and returns how many they are and how many of them it refuses.
fn read(data: &[u8]) -> (u32, u32) {
    let (mut at, mut messages, mut refused) = (0, 0, 0);
    while at < data.len() {
        match NetlinkMessage::<RtnlMessage>::deserialize(&data[at..]) {
            Ok(message) => refused += u32::from(!matches!(message.payload, NetlinkPayload::InnerMessage(_))),
            Err(_) => refused += 1,
        }
        let length = data[at..at + 4].try_into().expect("a header");
        at += (u32::from_ne_bytes(length) as usize + 3) & !3;
        messages += 1;
    }
    (messages, refused)
}

fn main() {
    for file in std::env::args().skip(1) {
        let one = std::fs::read(&file).expect("a dump");
        let data = one.repeat(SIZE.div_ceil(one.len()));
        let (messages, refused) = read(&data);
        let mut best = Duration::MAX;
        for _ in 0..ROUNDS {
            let start = Instant::now();
            assert_eq!(read(&data).0, messages);
            best = best.min(start.elapsed());
        }
        let each = best.as_nanos() as f64 / f64::from(messages);
        println!("{file}: netlink-packet {each:.1} ns a message, {refused} of {messages} refused");
    }
}
