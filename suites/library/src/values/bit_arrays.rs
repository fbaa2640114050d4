//! Bit arrays.

use super::support::{assert_is, assert_is_at};
use neli::err::SerError;
use neli::utils::NetlinkBitArray;
use std::alloc::Global;
use std::process::Abort;

// The array with these numbers set, of those that it has room for.
fn array_with(rt: &impl Abort, alloc: Global, bits: usize, numbers: &[u32]) -> NetlinkBitArray {
    let mut array = NetlinkBitArray::new(alloc, bits).expect(rt, "memory");
    for n in numbers {
        let n = *n as usize;
        if n <= array.len_bits() {
            array.set(n);
        }
    }
    array
}

// The lengths of the array in bytes and in bits, and the numbers that are set.
fn assert_array(
    rt: &impl Abort,
    alloc: Global,
    array: &NetlinkBitArray,
    lengths: (usize, usize),
    numbers: &[u32],
) {
    assert_is(rt, (array.len(), array.len_bits()), lengths);
    let list = array.to_vec(alloc).expect(rt, "memory");
    assert_is(rt, list.as_slice(), numbers);
}

#[test]
fn lengths(rt: HostRuntime) {
    let rows = [
        (0, (0, 0)),
        (1, (4, 32)),
        (7, (4, 32)),
        (32, (4, 32)),
        (33, (8, 64)),
        (96, (12, 96)),
    ];
    for (bits, lengths) in rows {
        let array = array_with(&rt, rt.alloc(), bits, &[]);
        assert_array(&rt, rt.alloc(), &array, lengths, &[]);
    }
}

#[test]
fn set_numbers(rt: HostRuntime) {
    let rows: [(usize, (usize, usize), &[u32], &[u32]); 5] = [
        (7, (4, 32), &[4], &[4]),
        (96, (12, 96), &[68, 4, 36], &[4, 36, 68]),
        (32, (4, 32), &[32, 1, 32], &[1, 32]),
        (64, (8, 64), &[33, 64], &[33, 64]),
        (32, (4, 32), &[0], &[]),
    ];
    for (bits, lengths, numbers, want) in rows {
        let array = array_with(&rt, rt.alloc(), bits, numbers);
        assert_array(&rt, rt.alloc(), &array, lengths, want);
        for n in 0u32..100 {
            let place = n as usize;
            let is_set = place <= array.len_bits() && array.is_set(place);
            assert_is_at(&rt, (numbers, n), is_set, want.contains(&n));
        }
    }
}

/// The length for an array.
#[derive(Clone, Copy)]
enum Length {
    Bytes(usize),
    Bits(usize),
}

fn resize(array: &mut NetlinkBitArray, length: Length) -> Result<(), SerError> {
    match length {
        Length::Bytes(bytes) => array.resize(bytes),
        Length::Bits(bits) => array.resize_bits(bits),
    }
}

/// The new size of an array, its lengths then, and the numbers that are still set.
type Step = (Length, (usize, usize), &'static [u32]);

// A number stays where the new capacity has it, and what was cut off does not come back.
const RESIZED: [(usize, &[u32], [Step; 3]); 3] = [
    (
        33,
        &[],
        [
            (Length::Bytes(1), (4, 32), &[]),
            (Length::Bytes(9), (12, 96), &[]),
            (Length::Bytes(0), (0, 0), &[]),
        ],
    ),
    (
        32,
        &[],
        [
            (Length::Bits(32), (4, 32), &[]),
            (Length::Bits(33), (8, 64), &[]),
            (Length::Bits(1), (4, 32), &[]),
        ],
    ),
    (
        96,
        &[4, 36, 68],
        [
            (Length::Bytes(12), (12, 96), &[4, 36, 68]),
            (Length::Bits(33), (8, 64), &[4, 36]),
            (Length::Bytes(12), (12, 96), &[4, 36]),
        ],
    ),
];

#[test]
fn resized(rt: HostRuntime) {
    for (bits, numbers, steps) in RESIZED {
        let mut array = array_with(&rt, rt.alloc(), bits, numbers);
        for (length, lengths, want) in steps {
            resize(&mut array, length).expect(&rt, "memory");
            assert_array(&rt, rt.alloc(), &array, lengths, want);
        }
    }
}

fn assert_too_long<T: Drop>(rt: &impl Abort, alloc: Global, tried: Result<T, SerError>) {
    let error = tried.err().expect(rt, "it is not refused");
    let text = error.to_string(alloc).expect(rt, "memory");
    assert_is(rt, text.as_str(), "bit array too long");
}

// 134217727 words are 4294967264 bits, or 536870908 bytes.
#[test]
fn too_long_from_the_start(rt: HostRuntime) {
    for bits in [4294967265usize, 4294967296, usize::MAX] {
        let made = NetlinkBitArray::new(rt.alloc(), bits);
        assert_too_long(&rt, rt.alloc(), made);
    }
}

#[test]
fn too_long_when_resized(rt: HostRuntime) {
    let mut array = array_with(&rt, rt.alloc(), 32, &[5]);
    for length in [
        Length::Bits(4294967265),
        Length::Bits(4294967296),
        Length::Bits(usize::MAX),
        Length::Bytes(536870909),
        Length::Bytes(usize::MAX),
    ] {
        assert_too_long(&rt, rt.alloc(), resize(&mut array, length));
        assert_array(&rt, rt.alloc(), &array, (4, 32), &[5]);
    }
}
