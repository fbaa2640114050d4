//! Tests of `neli_tables_check`: what is wrong with a body, and the attribute at an offset.
//!
//! - [`recorded`]: requests that a kernel refused, and the offsets that it stated. [`policies`]: what its own policies
//!   refuse. [`violations`]: what rows do not
//!   allow. [`offsets`]: each offset of bodies.

mod offsets;
mod policies;
mod recorded;
mod violations;
