//! The lines of one table.

ghost use Rattle.std.specs.Iterator.{IsFinite};

use neli_wire::Constant;
use std::fmt::Debug;
use std::io::{self, Write};

/// A line for each of these numbers that is read as a value with a name.
pub fn write_rows<T, N, I, Unnamed>(
    out: &mut impl Write,
    table: &str,
    numbers: I,
    is_unnamed: Unnamed,
) -> io::Result<()>
where
    N: From<T> + Debug,
    T: Constant<Number = N> + From<N>,
    I: Iterator<Item = N> + Drop,
    Unnamed: Fn(&T) -> bool + Drop,
    requires can { I.can_next numbers }
    requires ends { IsFinite (I.remaining numbers) }
    requires callable { Unnamed.IsAlwaysCallable is_unnamed }
{
    for number in numbers {
        let value = T::from_wire(number);
        if !is_unnamed(&value) {
            let other = T::from(number);
            write!(out, "{table} {number:?} {value:?} {other:?}")?;
            writeln!(out, " {:?} {:?}", value.to_wire(), N::from(value))?;
        }
    }
    Ok(())
}

/// The line of a value that is no number's reading.
pub fn write_name<T, N>(out: &mut impl Write, table: &str, value: T) -> io::Result<()>
where
    N: From<T> + Debug,
    T: Constant<Number = N>,
{
    writeln!(
        out,
        "{table} {value:?} {:?} {:?}",
        value.to_wire(),
        N::from(value)
    )
}
