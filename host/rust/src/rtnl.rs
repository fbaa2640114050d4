//! Bodies of routing: links, addresses, routes and neighbours, with their builders.

use crate::attr::RtBuffer;
use crate::consts::rtnl::{
    Arphrd, Ifa, IfaF, Iff, Ifla, Nda, Ntf, Nud, RtAddrFamily, RtScope, RtTable, Rta, RtmF, Rtn, Rtprot,
};
use crate::err::{BuildError, DeError, SerError, UninitializedFieldError};
use crate::types::Buffer;
use crate::{Fields, FromBytes, ToBytes};

pub use crate::attr::{RtAttrHandle, Rtattr, RtattrBuilder};

/// The size of a body's header, by the types of routing without their last two bits, in their order from 16 on; none of
/// a type that Linux does not have.
const HEADERS: [usize; 27] =
    [16, 8, 12, 12, 12, 20, 20, 20, 4, 12, 8, 8, 4, 0, 12, 4, 1, 8, 1, 12, 1, 20, 8, 16, 8, 8, 8];

/// The body of a request for all objects: a header of zeros. Linux does not answer a get without a header. None of
/// another type than that of a get.
pub(crate) fn default_body(kind: u16) -> &'static [u8] {
    let place = kind.checked_sub(16).filter(|it| it % 4 == 2).map(|it| usize::from(it / 4));
    &[0; 20][..place.and_then(|it| HEADERS.get(it)).map_or(0, |it| *it)]
}

/// A body of fields and attributes, its getters, its builder, and its reading and writing. A field is `name: type as
/// number`; `gap` is the number of zeros before it.
macro_rules! body {
    (
        $(#[$doc:meta])*
        $body:ident, $builder:ident, $size:literal bytes, attributes $attribute:ty;
        $($(#[$says:meta])* $([gap $gap:literal])? $field:ident: $kind:ty as $number:ty $(= $default:expr)?,)*
    ) => {
        $(#[$doc])*
        #[derive(Clone, Debug, PartialEq, Eq)]
        pub struct $body {
            $($field: $kind,)*
            rtattrs: RtBuffer<$attribute, Buffer>,
        }

        impl $body {
            $(
                $(#[$says])*
                pub fn $field(&self) -> &$kind {
                    &self.$field
                }
            )*

            /// The attributes.
            pub fn rtattrs(&self) -> &RtBuffer<$attribute, Buffer> {
                &self.rtattrs
            }
        }

        #[doc = concat!("Makes an [`", stringify!($body), "`].")]
        #[derive(Clone, Debug, Default)]
        pub struct $builder {
            $($field: Option<$kind>,)*
            rtattrs: RtBuffer<$attribute, Buffer>,
        }

        impl $builder {
            $(
                $(#[$says])*
                pub fn $field(mut self, value: $kind) -> Self {
                    self.$field = Some(value);
                    self
                }
            )*

            /// The attributes; none, if they are not given.
            pub fn rtattrs(mut self, attributes: RtBuffer<$attribute, Buffer>) -> Self {
                self.rtattrs = attributes;
                self
            }

            /// Returns the body, if each field without a default was given; else refused as
            /// [`BuildError::Uninitialized`] with the first that was not.
            pub fn build(self) -> Result<$body, BuildError> {
                Ok($body {
                    $($field: body!(@field self.$field, stringify!($field) $(, $default)?),)*
                    rtattrs: self.rtattrs,
                })
            }
        }

        impl ToBytes for $body {
            fn to_bytes(&self, out: &mut Vec<u8>) -> Result<(), SerError> {
                $(
                    $(out.extend([0; $gap]);)?
                    <$number>::from(self.$field).to_bytes(out)?;
                )*
                self.rtattrs.to_bytes(out)
            }
        }

        impl FromBytes for $body {
            fn from_bytes(bytes: &[u8]) -> Result<Self, DeError> {
                let (mut fields, rest) = Fields::of(bytes, $size)?;
                $(
                    $(let _: [u8; $gap] = fields.next()?;)?
                    let $field = fields.next::<$number>()?.into();
                )*
                Ok($body { $($field,)* rtattrs: RtBuffer::from_bytes(rest)? })
            }
        }
    };
    (@field $value:expr, $name:expr) => {
        $value.ok_or(UninitializedFieldError($name))?
    };
    (@field $value:expr, $name:expr, $default:expr) => {
        $value.unwrap_or($default)
    };
}

/// `From` both ways between sets of flags and their bits.
macro_rules! sets {
    ($($set:ident as $number:ty),*) => {
        $(impl From<$set> for $number {
            fn from(flags: $set) -> $number {
                flags.bits()
            }
        }

        impl From<$number> for $set {
            fn from(bits: $number) -> $set {
                $set::from_bits_retain(bits)
            }
        })*
    };
}

sets!(Iff as u32, IfaF as u8, RtmF as u32, Nud as u16, Ntf as u8);

body! {
    /// A link: `struct ifinfomsg`, 16 bytes, and attributes.
    Ifinfomsg, IfinfomsgBuilder, 16 bytes, attributes Ifla;
    /// The address family.
    ifi_family: RtAddrFamily as u8,
    /// The hardware's type; none, if it is not given.
    [gap 1] ifi_type: Arphrd as u16 = Arphrd::of(0),
    /// The index; 0, which is none, if it is not given.
    ifi_index: i32 as i32 = 0,
    /// The flags; none, if they are not given.
    ifi_flags: Iff as u32 = Iff::empty(),
    /// The mask of flags to change; none, if they are not given.
    ifi_change: Iff as u32 = Iff::empty(),
}

impl IfinfomsgBuilder {
    /// Sets the link up.
    pub fn up(mut self) -> Self {
        self.ifi_flags = Some(self.ifi_flags.unwrap_or_default() | Iff::UP);
        self.ifi_change = Some(self.ifi_change.unwrap_or_default() | Iff::UP);
        self
    }

    /// Sets the link down.
    pub fn down(mut self) -> Self {
        let flags = self.ifi_flags.unwrap_or_default().bits() & !Iff::UP.bits();
        self.ifi_flags = Some(Iff::from_bits_retain(flags));
        self.ifi_change = Some(self.ifi_change.unwrap_or_default() | Iff::UP);
        self
    }
}

body! {
    /// An address of a link: `struct ifaddrmsg`, 8 bytes, and attributes.
    Ifaddrmsg, IfaddrmsgBuilder, 8 bytes, attributes Ifa;
    /// The address family.
    ifa_family: RtAddrFamily as u8,
    /// The number of the address's bits that are those of the net.
    ifa_prefixlen: u8 as u8,
    /// The flags; none, if they are not given.
    ifa_flags: IfaF as u8 = IfaF::empty(),
    /// The scope in which the address is valid.
    ifa_scope: RtScope as u8,
    /// The index of the link.
    ifa_index: u32 as u32,
}

body! {
    /// A route: `struct rtmsg`, 12 bytes, and attributes.
    Rtmsg, RtmsgBuilder, 12 bytes, attributes Rta;
    /// The address family.
    rtm_family: RtAddrFamily as u8,
    /// The number of bits of the destination that count.
    rtm_dst_len: u8 as u8,
    /// The number of bits of the source that count.
    rtm_src_len: u8 as u8,
    /// The type of service.
    rtm_tos: u8 as u8,
    /// The table.
    rtm_table: RtTable as u8,
    /// The origin of the route.
    rtm_protocol: Rtprot as u8,
    /// The distance of the destination.
    rtm_scope: RtScope as u8,
    /// The treatment of a packet.
    rtm_type: Rtn as u8,
    /// The flags; none, if they are not given.
    rtm_flags: RtmF as u32 = RtmF::empty(),
}

body! {
    /// A neighbour: `struct ndmsg`, 12 bytes, and attributes.
    Ndmsg, NdmsgBuilder, 12 bytes, attributes Nda;
    /// The address family.
    ndm_family: RtAddrFamily as u8,
    /// The index of the link.
    [gap 3] ndm_index: i32 as i32,
    /// The states.
    ndm_state: Nud as u16,
    /// The flags; none, if they are not given.
    ndm_flags: Ntf as u8 = Ntf::empty(),
    /// The type.
    ndm_type: Rtn as u8,
}
