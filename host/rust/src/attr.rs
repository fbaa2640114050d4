//! Attributes: a length, a type and a payload, one after the other; and lists of attributes as payloads.

use crate::err::{BuildError, DeError, SerError, UninitializedFieldError, done, refused};
use crate::ffi;
use crate::payload::Payload;
use crate::types::Buffer;
use crate::{FromBytes, ToBytes};
use std::marker::PhantomData;

/// The flag of a type field for a payload that lists attributes.
const NESTED: u16 = 0x8000;
/// The flag of a type field for a payload in network order.
const NETWORK_ORDER: u16 = 0x4000;
/// Both flags of a type field.
const FLAGS: u16 = NESTED | NETWORK_ORDER;

/// The number of attributes that one call reads.
const AT_ONCE: usize = 16;

/// The number of an attribute's kind.
pub trait AttrNumber: Copy + From<u16> + Into<u16> {}

impl<T: Copy + From<u16> + Into<u16>> AttrNumber for T {}

/// An attribute of routing or of generic netlink.
pub trait Attribute: Sized {
    /// The kind of its number.
    type Number: AttrNumber;

    /// The attribute with this type field and these bytes as its payload.
    fn of_field(field: u16, payload: &[u8]) -> Self;

    /// The type field: the number, and two flags.
    fn field(&self) -> u16;

    /// The payload.
    fn payload(&self) -> &[u8];

    /// The payload as a value. Refused as [`FromBytes::from_bytes`] refuses it.
    fn get_payload_as<R: FromBytes>(&self) -> Result<R, DeError> {
        R::from_bytes(self.payload())
    }

    /// The payload as a value, as of a text. Refused as [`FromBytes::from_bytes`] refuses it.
    fn get_payload_as_with_len<R: FromBytes>(&self) -> Result<R, DeError> {
        self.get_payload_as()
    }
}

/// Appends an attribute and its padding.
fn put(out: &mut Vec<u8>, field: u16, payload: &[u8]) -> Result<(), SerError> {
    let start = out.len();
    let mut writer = ffi::Writer { start, end: start };
    out.resize(start + 4 + payload.len().next_multiple_of(4), 0);
    let written = done(ffi::put_attribute(out, &mut writer, field, payload));
    out.truncate(writer.end);
    Ok(written?)
}

/// A payload with one more attribute behind it.
fn with(payload: &[u8], field: u16, more: &[u8]) -> Result<Payload, SerError> {
    let mut bytes = payload.to_vec();
    put(&mut bytes, field, more)?;
    Ok(bytes.as_slice().into())
}

/// A list of attributes.
#[derive(Clone, Debug, PartialEq, Eq)]
pub struct AttrList<A>(Vec<A>);

/// Attributes of routing.
pub type RtBuffer<T, P = Buffer> = AttrList<Rtattr<T, P>>;

/// Attributes of generic netlink.
pub type GenlBuffer<T, P = Buffer> = AttrList<Nlattr<T, P>>;

impl<A> AttrList<A> {
    /// No attribute.
    pub fn new() -> Self {
        AttrList(Vec::new())
    }

    /// Appends an attribute.
    pub fn push(&mut self, attribute: A) {
        self.0.push(attribute);
    }

    /// The attributes in their order.
    pub fn iter(&self) -> std::slice::Iter<'_, A> {
        self.0.iter()
    }

    /// Returns the number of attributes.
    pub fn len(&self) -> usize {
        self.0.len()
    }

    /// Whether the list is empty.
    pub fn is_empty(&self) -> bool {
        self.0.is_empty()
    }

    /// Looks attributes up.
    pub fn get_attr_handle(&self) -> AttrHandle<'_, A> {
        AttrHandle { attributes: Held::Lent(&self.0) }
    }
}

impl<A> Default for AttrList<A> {
    fn default() -> Self {
        AttrList::new()
    }
}

impl<A> FromIterator<A> for AttrList<A> {
    fn from_iter<I: IntoIterator<Item = A>>(attributes: I) -> Self {
        AttrList(attributes.into_iter().collect())
    }
}

impl<'a, A> IntoIterator for &'a AttrList<A> {
    type Item = &'a A;
    type IntoIter = std::slice::Iter<'a, A>;

    fn into_iter(self) -> Self::IntoIter {
        self.iter()
    }
}

impl<A: Attribute> ToBytes for AttrList<A> {
    fn to_bytes(&self, out: &mut Vec<u8>) -> Result<(), SerError> {
        self.iter().try_for_each(|it| put(out, it.field(), it.payload()))
    }
}

impl<A: Attribute> FromBytes for AttrList<A> {
    fn from_bytes(bytes: &[u8]) -> Result<Self, DeError> {
        let mut list = AttrList::new();
        let mut walk = ffi::Walk { place: 0, end: bytes.len() };
        let mut room = [ffi::Attribute::default(); AT_ONCE];
        loop {
            match ffi::next_attributes(bytes, &mut walk, &mut room) {
                (ffi::ITEM, found) => {
                    list.0
                        .extend(found.iter().map(|it| A::of_field(it.kind, &bytes[it.payload..][..it.payload_length])));
                }
                (ffi::END, _) => return Ok(list),
                (code, _) => return Err(refused(code).into()),
            }
        }
    }
}

#[derive(Clone, Debug)]
enum Held<'a, A> {
    Lent(&'a [A]),
    Owned(Vec<A>),
}

/// Looks attributes of a list up by their numbers.
#[derive(Clone, Debug)]
pub struct AttrHandle<'a, A> {
    attributes: Held<'a, A>,
}

/// The handle of a list of routing.
pub type RtAttrHandle<'a, T> = AttrHandle<'a, Rtattr<T>>;

/// The handle of a list of generic netlink.
pub type GenlAttrHandle<'a, T> = AttrHandle<'a, Nlattr<T>>;

impl<A: Attribute> AttrHandle<'_, A> {
    /// The attributes in their order.
    pub fn get_attrs(&self) -> &[A] {
        match &self.attributes {
            Held::Lent(attributes) => attributes,
            Held::Owned(attributes) => attributes,
        }
    }

    /// The attributes in their order.
    pub fn iter(&self) -> std::slice::Iter<'_, A> {
        self.get_attrs().iter()
    }

    /// The first attribute with this number.
    pub fn get_attribute(&self, number: A::Number) -> Option<&A> {
        self.iter().find(|it| it.field() & !FLAGS == number.into())
    }

    fn wanted(&self, number: A::Number) -> Result<&A, DeError> {
        self.get_attribute(number).ok_or(DeError::Missing(number.into()))
    }

    /// The payload of the first attribute with this number, as a value. Refused as [`DeError::Missing`] if there is
    /// none, and as [`FromBytes::from_bytes`] refuses the payload.
    pub fn get_attr_payload_as<R: FromBytes>(&self, number: A::Number) -> Result<R, DeError> {
        self.wanted(number)?.get_payload_as()
    }

    /// The payload of the first attribute with this number, as a value, as of a text. Refused as
    /// [`get_attr_payload_as`](AttrHandle::get_attr_payload_as) is.
    pub fn get_attr_payload_as_with_len<R: FromBytes>(&self, number: A::Number) -> Result<R, DeError> {
        self.get_attr_payload_as(number)
    }
}

impl<T: AttrNumber> RtAttrHandle<'_, T> {
    /// Looks up in the list in an attribute's payload. Refused as [`DeError::Missing`] if no attribute has this number,
    /// and as [`DeError::Refused`] at the first one of the payload that can't be read.
    pub fn get_nested_attributes<S: AttrNumber>(&self, number: T) -> Result<RtAttrHandle<'_, S>, DeError> {
        self.wanted(number)?.get_attr_handle()
    }
}

impl<T: AttrNumber> GenlAttrHandle<'_, T> {
    /// Looks up in the list in an attribute's payload. Refused as [`DeError::Missing`] if no attribute has this number,
    /// and as [`DeError::Refused`] at the first one of the payload that can't be read.
    pub fn get_nested_attributes<S: AttrNumber>(&self, number: T) -> Result<GenlAttrHandle<'_, S>, DeError> {
        self.wanted(number)?.get_attr_handle()
    }
}

fn handle_in<'a, A: Attribute>(payload: &[u8]) -> Result<AttrHandle<'a, A>, DeError> {
    let AttrList(attributes) = AttrList::from_bytes(payload)?;
    Ok(AttrHandle { attributes: Held::Owned(attributes) })
}

/// An attribute of routing. Its type is a number; the two flags of the type field are beside it.
#[derive(Clone, Debug, PartialEq, Eq)]
pub struct Rtattr<T, P = Buffer> {
    rta_type: T,
    flags: u16,
    payload: Payload,
    of: PhantomData<P>,
}

impl<T: AttrNumber> Attribute for Rtattr<T> {
    type Number = T;

    fn of_field(field: u16, payload: &[u8]) -> Self {
        Rtattr { rta_type: T::from(field & !FLAGS), flags: field & FLAGS, payload: payload.into(), of: PhantomData }
    }

    fn field(&self) -> u16 {
        self.rta_type.into() | self.flags
    }

    fn payload(&self) -> &[u8] {
        &self.payload
    }
}

impl<T: AttrNumber> Rtattr<T> {
    /// The number of its kind.
    pub fn rta_type(&self) -> &T {
        &self.rta_type
    }

    /// Whether it is marked as nested, by `NLA_F_NESTED`.
    pub fn rta_nested(&self) -> bool {
        self.flags & NESTED != 0
    }

    /// Whether its payload is marked as in network order, by `NLA_F_NET_BYTEORDER`.
    pub fn rta_network_order(&self) -> bool {
        self.flags & NETWORK_ORDER != 0
    }

    /// The payload.
    pub fn rta_payload(&self) -> &[u8] {
        &self.payload
    }

    /// The attribute, marked as nested, with another one appended to its payload. Refused as [`SerError::Refused`] if
    /// the payload of that one has more than 65531 bytes.
    pub fn nest<S: AttrNumber>(mut self, attribute: &Rtattr<S>) -> Result<Self, SerError> {
        self.payload = with(&self.payload, attribute.field(), attribute.payload())?;
        self.flags |= NESTED;
        Ok(self)
    }

    /// Looks up in the list in the payload. Refused as [`DeError::Refused`] at its first attribute that can't be read.
    pub fn get_attr_handle<S: AttrNumber>(&self) -> Result<RtAttrHandle<'_, S>, DeError> {
        handle_in(&self.payload)
    }
}

/// The type field of an attribute of generic netlink: a number and two flags.
#[derive(Clone, Copy, Debug, PartialEq, Eq)]
pub struct AttrType<T> {
    nla_nested: bool,
    nla_network_order: bool,
    nla_type: T,
}

impl<T> AttrType<T> {
    /// Whether the payload lists attributes.
    pub fn nla_nested(&self) -> bool {
        self.nla_nested
    }

    /// Whether the payload is in network order.
    pub fn nla_network_order(&self) -> bool {
        self.nla_network_order
    }

    /// The number.
    pub fn nla_type(&self) -> &T {
        &self.nla_type
    }
}

/// Makes an [`AttrType`].
#[derive(Clone, Debug)]
pub struct AttrTypeBuilder<T> {
    nla_nested: bool,
    nla_network_order: bool,
    nla_type: Option<T>,
}

impl<T> Default for AttrTypeBuilder<T> {
    fn default() -> Self {
        AttrTypeBuilder { nla_nested: false, nla_network_order: false, nla_type: None }
    }
}

impl<T> AttrTypeBuilder<T> {
    /// Whether the payload lists attributes.
    pub fn nla_nested(mut self, is_nested: bool) -> Self {
        self.nla_nested = is_nested;
        self
    }

    /// Whether the payload is in network order.
    pub fn nla_network_order(mut self, is_network_order: bool) -> Self {
        self.nla_network_order = is_network_order;
        self
    }

    setters! {
        /// The number.
        nla_type: T,
    }

    /// Returns the type, if a number was given; else refused as [`BuildError::Uninitialized`].
    pub fn build(self) -> Result<AttrType<T>, BuildError> {
        let nla_type = self.nla_type.ok_or(UninitializedFieldError("nla_type"))?;
        Ok(AttrType { nla_nested: self.nla_nested, nla_network_order: self.nla_network_order, nla_type })
    }
}

/// An attribute of generic netlink.
#[derive(Clone, Debug, PartialEq, Eq)]
pub struct Nlattr<T, P = Buffer> {
    nla_type: AttrType<T>,
    payload: Payload,
    of: PhantomData<P>,
}

impl<T: AttrNumber> Attribute for Nlattr<T> {
    type Number = T;

    fn of_field(field: u16, payload: &[u8]) -> Self {
        let nla_type = AttrType {
            nla_nested: field & NESTED != 0,
            nla_network_order: field & NETWORK_ORDER != 0,
            nla_type: T::from(field & !FLAGS),
        };
        Nlattr { nla_type, payload: payload.into(), of: PhantomData }
    }

    fn field(&self) -> u16 {
        let AttrType { nla_nested, nla_network_order, nla_type } = self.nla_type;
        nla_type.into() | if nla_nested { NESTED } else { 0 } | if nla_network_order { NETWORK_ORDER } else { 0 }
    }

    fn payload(&self) -> &[u8] {
        &self.payload
    }
}

impl<T: AttrNumber> Nlattr<T> {
    /// The number of its kind, and its flags.
    pub fn nla_type(&self) -> &AttrType<T> {
        &self.nla_type
    }

    /// The payload.
    pub fn nla_payload(&self) -> &[u8] {
        &self.payload
    }

    /// The attribute, marked as nested, with another one appended to its payload. Refused as [`SerError::Refused`] if
    /// the payload of that one has more than 65531 bytes.
    pub fn nest<S: AttrNumber>(mut self, attribute: &Nlattr<S>) -> Result<Self, SerError> {
        self.payload = with(&self.payload, attribute.field(), attribute.payload())?;
        self.nla_type.nla_nested = true;
        Ok(self)
    }

    /// Looks up in the list in the payload. Refused as [`DeError::Refused`] at its first attribute that can't be read.
    pub fn get_attr_handle<S: AttrNumber>(&self) -> Result<GenlAttrHandle<'_, S>, DeError> {
        handle_in(&self.payload)
    }
}

/// Makes an [`Rtattr`].
#[derive(Clone, Debug)]
pub struct RtattrBuilder<T, P> {
    rta_type: Option<T>,
    flags: u16,
    rta_payload: Option<P>,
}

impl<T, P> Default for RtattrBuilder<T, P> {
    fn default() -> Self {
        RtattrBuilder { rta_type: None, flags: 0, rta_payload: None }
    }
}

impl<T: AttrNumber, P: ToBytes> RtattrBuilder<T, P> {
    setters! {
        /// The number of its kind.
        rta_type: T,
    }

    /// Whether it is marked as nested, by `NLA_F_NESTED`, as Linux requires it of newer attributes; it is not, if this
    /// is not given. [`nest`](Rtattr::nest) marks it.
    pub fn rta_nested(mut self, is_nested: bool) -> Self {
        self.flags = self.flags & !NESTED | if is_nested { NESTED } else { 0 };
        self
    }

    setters! {
        /// The payload.
        rta_payload: P,
    }

    /// Returns the attribute. Refused as [`BuildError::Uninitialized`] with the first of both that was not given, and
    /// else as [`BuildError::Ser`] if the payload can't be written.
    pub fn build(self) -> Result<Rtattr<T>, BuildError> {
        let rta_type = self.rta_type.ok_or(UninitializedFieldError("rta_type"))?;
        let payload = self.rta_payload.ok_or(UninitializedFieldError("rta_payload"))?;
        Ok(Rtattr { rta_type, flags: self.flags, payload: bytes_of(&payload)?, of: PhantomData })
    }
}

/// Makes an [`Nlattr`].
#[derive(Clone, Debug)]
pub struct NlattrBuilder<T, P> {
    nla_type: Option<AttrType<T>>,
    nla_payload: Option<P>,
}

impl<T, P> Default for NlattrBuilder<T, P> {
    fn default() -> Self {
        NlattrBuilder { nla_type: None, nla_payload: None }
    }
}

impl<T: AttrNumber, P: ToBytes> NlattrBuilder<T, P> {
    setters! {
        /// The number of its kind, and its flags.
        nla_type: AttrType<T>,

        /// The payload.
        nla_payload: P,
    }

    /// Returns the attribute. Refused as [`BuildError::Uninitialized`] with the first of both that was not given, and
    /// else as [`BuildError::Ser`] if the payload can't be written.
    pub fn build(self) -> Result<Nlattr<T>, BuildError> {
        let nla_type = self.nla_type.ok_or(UninitializedFieldError("nla_type"))?;
        let payload = self.nla_payload.ok_or(UninitializedFieldError("nla_payload"))?;
        Ok(Nlattr { nla_type, payload: bytes_of(&payload)?, of: PhantomData })
    }
}

fn bytes_of(payload: &impl ToBytes) -> Result<Payload, SerError> {
    let mut bytes = Vec::new();
    payload.to_bytes(&mut bytes)?;
    Ok(bytes.as_slice().into())
}
