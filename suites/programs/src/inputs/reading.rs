//! An input as a test reads it.

use neli_inputs::Input;
use std::alloc::Global;
use std::fmt::Debug;
use std::process::Abort;

/// The items of an input, a line each: the place, and the family and the bytes in hexadecimal, or the refusal.
pub fn listed(rt: &impl Abort, alloc: Global, input: &Input) -> String {
    let mut text = String::new(alloc);
    for item in &input.items {
        let place = item.place;
        let line = match item.packet {
            Ok(packet) => {
                let bytes = input
                    .bytes
                    .get(packet.start..packet.end)
                    .expect(rt, "within");
                let digits = hex::encode(alloc, bytes).expect(rt, "memory");
                let family = packet.family;
                format!(in alloc; "{place} {family:?} {digits}\n")
            }
            Err(refusal) => format!(in alloc; "{place} {refusal}\n"),
        };
        text.push_str(&line.expect(rt, "memory"))
            .expect(rt, "memory");
    }
    text
}

/// What is recorded of the items of an input, a line each: the place, and of a datagram the kind, the time and the
/// interface.
pub fn recorded(rt: &impl Abort, alloc: Global, input: &Input) -> String {
    let mut text = String::new(alloc);
    for item in &input.items {
        let place = item.place;
        let line = match item.packet {
            Ok(packet) => {
                let (kind, time, interface) = (packet.kind, packet.time, packet.interface);
                format!(in alloc; "{place} {kind:?} {time:?} {interface:?}\n")
            }
            Err(_) => format!(in alloc; "{place}\n"),
        };
        text.push_str(&line.expect(rt, "memory"))
            .expect(rt, "memory");
    }
    text
}

/// Asserts that this is the expected value, in the row of a table that has this name.
pub fn assert_is_at<T: Copy + PartialEq + Debug>(rt: &impl Abort, row: &str, got: T, want: T) {
    assert_eq!(rt; got, want, "at {row}");
}
