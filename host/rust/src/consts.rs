//! The numbers of netlink by name, as the tables of the proved library have them.
//!
//! A number without a name is kept as it is: of an enum as `UnrecognizedConst`, of a set of flags as its bits.

use crate::ffi;

/// An enum over the numbers of one table. The second list has further names of numbers of the first.
macro_rules! numbers {
    ($name:ident: $kind:ty { $($variant:ident = $number:literal,)* } { $($other:ident = $same:literal,)* }) => {
        #[doc = concat!("The numbers of the table `", stringify!($name), "`.")]
        #[derive(Clone, Copy, Debug, PartialEq, Eq, Hash)]
        #[non_exhaustive]
        pub enum $name {
            $(#[doc = concat!("Number ", $number, ".")] $variant,)*
            /// A number without a name.
            UnrecognizedConst($kind),
        }

        #[allow(non_upper_case_globals)]
        impl $name {
            $(
                #[doc = concat!("Another name of number ", $same, ".")]
                pub const $other: $name = Self::of($same);
            )*

            /// The variant of a number.
            pub const fn of(number: $kind) -> Self {
                match number {
                    $($number => $name::$variant,)*
                    other => $name::UnrecognizedConst(other),
                }
            }
        }

        impl From<$kind> for $name {
            fn from(number: $kind) -> Self {
                Self::of(number)
            }
        }

        impl From<$name> for $kind {
            fn from(value: $name) -> Self {
                match value {
                    $($name::$variant => $number,)*
                    $name::UnrecognizedConst(other) => other,
                }
            }
        }
    };
}

/// A set of the flags of one table.
macro_rules! flags {
    ($name:ident: $kind:ty { $($flag:ident = $bits:literal,)* } { }) => {
        #[doc = concat!("Sets of the flags of the table `", stringify!($name), "`.")]
        #[derive(Clone, Copy, PartialEq, Eq, Hash, Default)]
        pub struct $name($kind);

        impl $name {
            $(
                #[doc = concat!("Bits ", $bits, ".")]
                pub const $flag: $name = $name($bits);
            )*

            /// No flag.
            pub const fn empty() -> Self {
                $name(0)
            }

            /// The bits, those without a name too.
            pub const fn bits(self) -> $kind {
                self.0
            }

            /// The set with these bits.
            pub const fn from_bits_retain(bits: $kind) -> Self {
                $name(bits)
            }

            /// Whether every flag of the other set is in this one.
            pub const fn contains(self, other: Self) -> bool {
                self.0 & other.0 == other.0
            }

            /// Whether it has no flag.
            pub const fn is_empty(self) -> bool {
                self.0 == 0
            }
        }

        impl std::ops::BitOr for $name {
            type Output = Self;

            fn bitor(self, other: Self) -> Self {
                $name(self.0 | other.0)
            }
        }

        impl std::fmt::Debug for $name {
            fn fmt(&self, f: &mut std::fmt::Formatter<'_>) -> std::fmt::Result {
                write!(f, concat!(stringify!($name), "({:#x})"), self.0)
            }
        }
    };
}

include!(concat!(env!("OUT_DIR"), "/consts.rs"));

/// What Linux 6.1 added. These are no variants, so that a `match` on `UnrecognizedConst` stays whole.
#[allow(non_upper_case_globals)]
impl nl::NlmsgerrAttr {
    /// `NLMSGERR_ATTR_MISS_TYPE`: the number of an attribute that the request lacks.
    pub const MissType: Self = Self::of(ffi::ANSWER_MISSING);
    /// `NLMSGERR_ATTR_MISS_NEST`: the place in the request of the nest that lacks it.
    pub const MissNest: Self = Self::of(ffi::ANSWER_MISSING_NEST);
}
