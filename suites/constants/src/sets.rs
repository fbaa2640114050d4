//! The lines of one flag set.

use bitflags::Flags;
use neli_wire::Constant;
use std::io::{self, Write};
use std::ops::{
    BitAnd, BitAndAssign, BitOr, BitOrAssign, BitXor, BitXorAssign, Not, Sub, SubAssign,
};

/// A line for each flag of the set: its bits, its number on the wire and by `From`.
pub fn write_flags<T, N, Bits>(out: &mut impl Write, set: &str, bits: Bits) -> io::Result<()>
where
    T: Flags + Constant<Number = N> + Copy,
    N: From<T> + Into<u32>,
    Bits: Fn(&T) -> N + Drop,
    requires { Bits.IsAlwaysCallable bits }
{
    for flag in T::flags() {
        let value = flag.value;
        let numbers: [u32; 3] = [
            bits(&value).into(),
            value.to_wire().into(),
            N::from(value).into(),
        ];
        let [bits, wire, number] = numbers;
        writeln!(out, "{set} {} {bits:#x} {wire:#x} {number:#x}", flag.name)?;
    }
    Ok(())
}

/// Some values of a set.
#[derive(Drop)]
pub struct Samples<T> {
    /// The set without any bit.
    pub empty: T,
    /// The result of `From` for the first number.
    pub named: T,
    /// The reading of the first number.
    pub first: T,
    /// The reading of the second.
    pub second: T,
}

/// The lines of the operators: the result of each for the first and the second value, and then that
/// of its assigning form.
pub fn write_operators<T, N, Bits>(
    out: &mut impl Write,
    set: &str,
    samples: &Samples<T>,
    bits: Bits,
) -> io::Result<()>
where
    T: Copy + BitAnd<Output = T> + BitOr<Output = T> + BitXor<Output = T> + Sub<Output = T>,
    T: BitAndAssign + BitOrAssign + BitXorAssign + SubAssign + Not<Output = T>,
    N: Into<u32>,
    Bits: Fn(&T) -> N + Drop,
    requires callable { Bits.IsAlwaysCallable bits }
    requires and { (a b : T) → T.can_bitand a b × T.can_bitand_assign a b }
    requires or { (a b : T) → T.can_bitor a b × T.can_bitor_assign a b }
    requires xor { (a b : T) → T.can_bitxor a b × T.can_bitxor_assign a b }
    requires difference { (a b : T) → T.can_sub a b × T.can_sub_assign a b }
    requires complement { (a : T) → T.can_not a }
{
    let (a, b) = (samples.first, samples.second);
    let (mut and, mut or, mut xor, mut difference) = (a, a, a, a);
    and &= b;
    or |= b;
    xor ^= b;
    difference -= b;
    write_operator(out, set, "and", bits(&a), bits(&b))?;
    write_operator(out, set, "&", bits(&(a & b)), bits(&and))?;
    write_operator(out, set, "|", bits(&(a | b)), bits(&or))?;
    write_operator(out, set, "^", bits(&(a ^ b)), bits(&xor))?;
    write_operator(out, set, "-", bits(&(a - b)), bits(&difference))?;
    write_operator(out, set, "!", bits(&!a), bits(&!samples.empty))?;
    write_operator(out, set, "From", bits(&samples.named), bits(&samples.empty))
}

/// The line of one operator.
fn write_operator<N: Into<u32>>(
    out: &mut impl Write,
    set: &str,
    operator: &str,
    first: N,
    second: N,
) -> io::Result<()> {
    let first: u32 = first.into();
    let second: u32 = second.into();
    writeln!(out, "{set} {operator} {first:#x} {second:#x}")
}
