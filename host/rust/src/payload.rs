//! The bytes of a payload, of which short ones take no memory of their own.

use std::fmt;
use std::ops::Deref;

/// As many bytes as fit beside the tag where a longer payload has its place and its length.
const SHORT: usize = 22;

/// The bytes of a payload. Most attributes have a number or a name.
#[derive(Clone)]
pub(crate) enum Payload {
    Short { length: u8, bytes: [u8; SHORT] },
    Long(Box<[u8]>),
}

impl Deref for Payload {
    type Target = [u8];

    fn deref(&self) -> &[u8] {
        match self {
            Payload::Short { length, bytes } => &bytes[..usize::from(*length)],
            Payload::Long(bytes) => bytes,
        }
    }
}

impl From<&[u8]> for Payload {
    fn from(payload: &[u8]) -> Payload {
        if payload.len() > SHORT {
            return Payload::Long(payload.into());
        }
        let mut bytes = [0; SHORT];
        bytes[..payload.len()].copy_from_slice(payload);
        Payload::Short { length: payload.len() as u8, bytes }
    }
}

impl fmt::Debug for Payload {
    fn fmt(&self, f: &mut fmt::Formatter<'_>) -> fmt::Result {
        (**self).fmt(f)
    }
}

impl PartialEq for Payload {
    fn eq(&self, other: &Payload) -> bool {
        **self == **other
    }
}

impl Eq for Payload {}

#[cfg(test)]
mod tests {
    use super::{Payload, SHORT};

    #[test]
    fn a_payload_has_its_bytes() {
        assert_eq!(size_of::<Payload>(), 24);
        for length in [0, 1, SHORT - 1, SHORT, SHORT + 1, 70000] {
            let bytes: Vec<u8> = (0..length).map(|it| (it % 251) as u8 + 1).collect();
            let payload = Payload::from(&bytes[..]);
            assert_eq!((&payload[..], format!("{payload:?}")), (&bytes[..], format!("{bytes:?}")));
            assert_eq!((payload.clone() == payload, payload == Payload::from(&[0; 2][..])), (true, false));
        }
    }
}
