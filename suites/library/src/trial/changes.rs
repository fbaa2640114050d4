//! Datagrams that are changed at random.

use neli::err::NoMemory;
use rand::RngExt;
use rand::rngs::SmallRng;
use std::alloc::Global;

/// A number up to this one, without it; 0 where it is 0.
pub fn below(random: &mut SmallRng, end: usize) -> usize {
    if end == 0 {
        0
    } else {
        random.random_range(0..end)
    }
}

/// One of the recorded datagrams; none where there are none.
pub fn one_of<'a>(random: &mut SmallRng, recorded: &'a [Vec<u8>]) -> &'a [u8] {
    match recorded.get(below(random, recorded.len())) {
        Some(bytes) => bytes.as_slice(),
        None => &[],
    }
}

/// A wrong number for a length.
fn wrong(random: &mut SmallRng, right: u32) -> u32 {
    match below(random, 9) {
        0 => 0,
        1 => right.wrapping_sub(1),
        2 => right.wrapping_add(1),
        3 => right.wrapping_add(4),
        4 => right.wrapping_sub(4),
        5 => u32::MAX,
        6 => random.random_range(0..20),
        7 => random.random_range(0..70000),
        _ => random.random(),
    }
}

/// Sets two or four bytes at a place, where there may be a length, to another number.
fn set_number(random: &mut SmallRng, bytes: &mut [u8]) {
    let at = below(random, bytes.len()) / 4 * 4;
    let count = if random.random() { 2 } else { 4 };
    let mut right = [0; 4];
    for (digit, byte) in right.iter_mut().zip(bytes.iter().skip(at).take(count)) {
        *digit = *byte;
    }
    let digits = wrong(random, u32::from_le_bytes(right)).to_le_bytes();
    for (byte, digit) in bytes.iter_mut().skip(at).take(count).zip(digits) {
        *byte = digit;
    }
}

/// Flips a bit.
fn flip(random: &mut SmallRng, bytes: &mut [u8]) {
    let at = below(random, bytes.len());
    let bit: u32 = random.random_range(0..8);
    if let Some(byte) = bytes.get_mut(at) {
        *byte ^= 1u8.wrapping_shl(bit);
    }
}

/// Changes the bytes once: cuts them, sets a number, flips a bit, puts another datagram behind them, or a part of it.
fn change(
    random: &mut SmallRng,
    bytes: &mut Vec<u8>,
    recorded: &[Vec<u8>],
) -> Result<(), NoMemory> {
    match below(random, 10) {
        0 => bytes.truncate(below(random, bytes.len().saturating_add(1))),
        1 => bytes.truncate(below(random, bytes.len().saturating_add(1)) / 4 * 4),
        2..=5 => set_number(random, bytes),
        6 | 7 => flip(random, bytes),
        8 => bytes.extend_from_slice(one_of(random, recorded))?,
        _ => {
            let other = one_of(random, recorded);
            let from = below(random, other.len()) / 4 * 4;
            bytes.extend_from_slice(other.get(from..).unwrap_or(&[]))?;
        }
    }
    Ok(())
}

/// One of the recorded datagrams, changed up to four times.
pub fn changed(
    alloc: Global,
    random: &mut SmallRng,
    recorded: &[Vec<u8>],
) -> Result<Vec<u8>, NoMemory> {
    let mut bytes = Vec::from_slice(alloc, one_of(random, recorded))?;
    for _ in 0..below(random, 5) {
        change(random, &mut bytes, recorded)?;
    }
    Ok(bytes)
}
