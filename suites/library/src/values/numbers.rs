//! The integer types.

use super::support::{Refusal, SHORT, assert_is, assert_is_at, assert_read, assert_written};
use neli::consts::{Constant, WireNumber};
use neli::{BeU64, Size, TypeSize};
use std::alloc::Global;
use std::process::Abort;

/// A number of one of the types.
#[derive(Clone, Copy)]
enum Number {
    U8(u8),
    U16(u16),
    U32(u32),
    U64(u64),
    U128(u128),
    I8(i8),
    I16(i16),
    I32(i32),
    I64(i64),
    I128(i128),
    Be(u64),
}

// The number by the calls of the wire traits: its sizes, its bytes after others, and what is read.
fn by_traits<T: Constant + PartialEq>(rt: &impl Abort, alloc: Global, value: T, bytes: &[u8]) {
    let sizes = (value.unpadded_size(), value.written_size(), T::type_size());
    let n = bytes.len();
    assert_is_at(rt, value, sizes, (n, n, n));
    assert_written(rt, alloc, &value, bytes);
    assert_read(rt, alloc, bytes, Ok(value), n);
}

// The number by the calls of its own type, and by those of the traits.
fn check<N: WireNumber + PartialEq>(rt: &impl Abort, alloc: Global, value: N, bytes: &[u8]) {
    assert!(rt; N::count() == bytes.len());
    assert_is(rt, N::number(bytes), value);
    let mut buffer = Vec::new(alloc);
    value.append(&mut buffer).expect(rt, "memory");
    assert_is_at(rt, value, buffer.as_slice(), bytes);
    by_traits(rt, alloc, value, bytes);
}

fn check_row(rt: &impl Abort, alloc: Global, number: Number, bytes: &[u8]) {
    match number {
        Number::U8(n) => check(rt, alloc, n, bytes),
        Number::U16(n) => check(rt, alloc, n, bytes),
        Number::U32(n) => check(rt, alloc, n, bytes),
        Number::U64(n) => check(rt, alloc, n, bytes),
        Number::U128(n) => check(rt, alloc, n, bytes),
        Number::I8(n) => check(rt, alloc, n, bytes),
        Number::I16(n) => check(rt, alloc, n, bytes),
        Number::I32(n) => check(rt, alloc, n, bytes),
        Number::I64(n) => check(rt, alloc, n, bytes),
        Number::I128(n) => check(rt, alloc, n, bytes),
        Number::Be(n) => {
            let big = BeU64::new(n);
            assert_is(rt, big.as_ne_u64(), n);
            check(rt, alloc, big, bytes);
        }
    }
}

/// Numbers of neli's own tests, their bytes as two's complement gives them; and then, by hand, a one at the lowest
/// place and at the highest, and negative numbers.
const NUMBERS: [(Number, &[u8]); 19] = [
    (Number::U8(5), &[5]),
    (Number::U16(6000), &[112, 23]),
    (Number::U32(600_000), &[192, 39, 9, 0]),
    (Number::I32(600_000), &[192, 39, 9, 0]),
    (Number::I32(-600_000), &[0x40, 0xd8, 0xf6, 0xff]),
    (
        Number::U64(12_345_678_901_234),
        &[242, 47, 206, 115, 58, 11, 0, 0],
    ),
    (
        Number::U128(123_456_789_012_345_678_901_234_567_890_123_456_789),
        &[
            21, 129, 57, 174, 40, 163, 223, 170, 197, 254, 21, 96, 165, 233, 224, 92,
        ],
    ),
    (Number::U8(0x81), &[0x81]),
    (Number::U16(0x8102), &[2, 0x81]),
    (Number::U32(0x8102_0304), &[4, 3, 2, 0x81]),
    (Number::U64(0x81), &[0x81, 0, 0, 0, 0, 0, 0, 0]),
    (Number::I8(-2), &[0xfe]),
    (Number::I16(-2), &[0xfe, 0xff]),
    (Number::I32(-2), &[0xfe, 0xff, 0xff, 0xff]),
    (
        Number::I64(-2),
        &[0xfe, 0xff, 0xff, 0xff, 0xff, 0xff, 0xff, 0xff],
    ),
    (Number::I128(-1), &[0xff; 16]),
    (Number::U128(0), &[0; 16]),
    // The highest byte first: a number of neli's own tests with its bytes, and one by hand.
    (
        Number::Be(571_987_654),
        &[0, 0, 0, 0, 0x22, 0x17, 0xd6, 0xc6],
    ),
    (Number::Be(0x81), &[0, 0, 0, 0, 0, 0, 0, 0x81]),
];

#[test]
fn numbers(rt: HostRuntime) {
    for (number, bytes) in NUMBERS {
        check_row(&rt, rt.alloc(), number, bytes);
    }
}

// A number is a constant that means itself.
#[test]
fn numbers_mean_themselves(rt: HostRuntime) {
    for number in [0u16, 1, 0x0102, u16::MAX] {
        let both_ways = (u16::from_wire(number), number.to_wire());
        assert_is(&rt, both_ways, (number, number));
    }
}

#[test]
fn missing_bytes(rt: HostRuntime) {
    let rows: [&[u8]; 4] = [&[], &[1], &[1, 2], &[1, 2, 3]];
    let short: Result<u32, Refusal> = Err(SHORT);
    for bytes in rows {
        assert_read(&rt, rt.alloc(), bytes, short, 0);
    }
}
