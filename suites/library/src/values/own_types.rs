//! A user's own types, those of `example_body`.

use super::support::{Refusal, assert_is, assert_is_at, assert_sizes, assert_written, refusal_of};
use example_body::{Gauge, GaugeHeader, Probe, ProbeBuilder, ProbeBuilderError, Watch};
use neli::err::BuildError;
use neli::short::{Lookup, Put};
use neli::types::RtBuffer;
use neli::{Cursor, FromBytesWithInput, Header};
use std::test::Fail;

/// The port 1337 and the levels 1 and 2.
const WATCH: [u8; 10] = [0x39, 5, 1, 0, 0, 0, 2, 0, 0, 0];

#[test]
fn a_watch_both_ways(rt: HostRuntime) {
    let mut cursor = Cursor::new(&WATCH);
    let watch = Watch::from_bytes_with_input(rt.alloc(), &mut cursor, 10).expect(&rt, "a value");
    let fields = (watch.port, watch.levels.as_slice());
    assert_is(&rt, fields, (1337, [1u32, 2].as_slice()));
    assert_sizes(&rt, &watch, (10, 12, 10));
    assert_written(&rt, rt.alloc(), &watch, &WATCH);
}

#[test]
fn a_watch_refused(rt: HostRuntime) {
    for (n, want) in [
        (1usize, Refusal::Input(1)),
        (5, Refusal::Input(3)),
        (11, Refusal::Input(11)),
    ] {
        let mut cursor = Cursor::new(&WATCH);
        let read = Watch::from_bytes_with_input(rt.alloc(), &mut cursor, n);
        let refused = match &read {
            Ok(_) => None,
            Err(error) => Some(refusal_of(error)),
        };
        assert_is_at(&rt, n, (refused, cursor.position()), (Some(want), 0));
    }
}

// Port 1337 is 0x0539.
#[test]
fn a_probe_of_all_fields(rt: HostRuntime) {
    let probe = ProbeBuilder::default()
        .hops(3)
        .kind(7)
        .port(1337)
        .payload("up")
        .build()
        .expect(&rt, "all fields");
    let numbers = (*probe.hops(), *probe.kind(), *probe.port());
    assert_is(&rt, (numbers, *probe.payload()), ((3, 7, 1337), "up"));
    assert_sizes(&rt, &probe, (7, 8, 7));
    assert_is(&rt, Probe::<&str>::header_size(), 4);
    assert_written(&rt, rt.alloc(), &probe, b"\x03\x07\x39\x05up\0");
}

#[test]
fn a_probe_of_default_hops(rt: HostRuntime) {
    let probe = ProbeBuilder::default()
        .kind(7)
        .port(1337)
        .payload(())
        .build()
        .expect(&rt, "all fields");
    assert_written(&rt, rt.alloc(), &probe, &[64, 7, 0x39, 5]);
}

// The field in the error.
fn missing_of(built: Result<Probe<u8>, ProbeBuilderError>) -> &'static str {
    match built {
        Err(BuildError::UninitializedField(name)) => name,
        _ => "no field",
    }
}

#[test]
fn fields_that_a_probe_misses(rt: HostRuntime) {
    let builder: ProbeBuilder<u8> = ProbeBuilder::default();
    assert_is(&rt, missing_of(builder.build()), "kind");
    let builder = ProbeBuilder::<u8>::default().kind(7);
    assert_is(&rt, missing_of(builder.build()), "port");
    let builder = ProbeBuilder::<u8>::default().kind(7).port(1337);
    assert_is(&rt, missing_of(builder.build()), "payload");
}

/// Gauge 7 of unit 2 and scale 1000, and attribute 5, the number 9.
const GAUGE: [u8; 16] = [7, 0, 0, 0, 2, 0, 0xe8, 3, 8, 0, 5, 0, 9, 0, 0, 0];

#[test]
fn a_gauge_both_ways(rt: HostRuntime) -> Result<(), Fail> {
    let mut attrs = RtBuffer::new(rt.alloc());
    attrs.put(rt.alloc(), 5u16, 9u32)?;
    let fields = GaugeHeader {
        number: 7,
        unit: 2,
        scale: 1000,
    };
    let gauge = Gauge::new(fields, attrs);
    assert_sizes(&rt, &gauge, (16, 16, 16));
    assert_written(&rt, rt.alloc(), &gauge, &GAUGE);
    let read = Gauge::from_bytes_with_input(rt.alloc(), &mut Cursor::new(&GAUGE), 16)?;
    assert!(rt; read == gauge);
    let number: Option<u32> = read.rtattrs().get(rt.alloc(), 5u16)?;
    assert_is(&rt, number, Some(9));
    Ok(())
}
