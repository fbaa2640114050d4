//! The body of the connector: its receiver, and bytes.

use crate::consts::connector::{CnMsgIdx, CnMsgVal};
use crate::err::{BuildError, DeError, SerError, UninitializedFieldError};
use crate::{Fields, FromBytes, ToBytes};

/// A body of the connector: `struct cn_msg`, 20 bytes, and a payload.
#[derive(Clone, Debug, PartialEq, Eq)]
pub struct CnMsg<P> {
    idx: CnMsgIdx,
    val: CnMsgVal,
    seq: u32,
    ack: u32,
    flags: u16,
    payload: P,
}

impl<P> CnMsg<P> {
    /// The receiver.
    pub fn idx(&self) -> CnMsgIdx {
        self.idx
    }

    /// The receiver's part.
    pub fn val(&self) -> CnMsgVal {
        self.val
    }

    /// A number that the sender counts.
    pub fn seq(&self) -> u32 {
        self.seq
    }

    /// The acknowledged number.
    pub fn ack(&self) -> u32 {
        self.ack
    }

    /// The flags.
    pub fn flags(&self) -> u16 {
        self.flags
    }

    /// The payload.
    pub fn payload(&self) -> &P {
        &self.payload
    }
}

impl<P: ToBytes> ToBytes for CnMsg<P> {
    fn to_bytes(&self, out: &mut Vec<u8>) -> Result<(), SerError> {
        let mut payload = Vec::new();
        self.payload.to_bytes(&mut payload)?;
        for number in [self.idx.into(), self.val.into(), self.seq, self.ack] {
            number.to_bytes(out)?;
        }
        let length = u16::try_from(payload.len()).map_err(|_| SerError::Refused(crate::err::Refusal::LENGTH))?;
        length.to_bytes(out)?;
        self.flags.to_bytes(out)?;
        payload.to_bytes(out)
    }
}

impl<P: FromBytes> FromBytes for CnMsg<P> {
    fn from_bytes(bytes: &[u8]) -> Result<Self, DeError> {
        let (mut fields, rest) = Fields::of(bytes, 20)?;
        let [idx, val, seq, ack]: [u32; 4] = [fields.next()?, fields.next()?, fields.next()?, fields.next()?];
        let length = usize::from(fields.next::<u16>()?);
        let flags = fields.next()?;
        let payload = rest.get(..length).ok_or(DeError::InvalidInput(bytes.len()))?;
        Ok(CnMsg { idx: idx.into(), val: val.into(), seq, ack, flags, payload: P::from_bytes(payload)? })
    }
}

/// Makes a [`CnMsg`].
#[derive(Clone, Debug)]
pub struct CnMsgBuilder<P> {
    idx: Option<CnMsgIdx>,
    val: Option<CnMsgVal>,
    payload: Option<P>,
}

impl<P> Default for CnMsgBuilder<P> {
    fn default() -> Self {
        CnMsgBuilder { idx: None, val: None, payload: None }
    }
}

impl<P> CnMsgBuilder<P> {
    setters! {
        /// The receiver.
        idx: CnMsgIdx,

        /// The receiver's part.
        val: CnMsgVal,

        /// The payload.
        payload: P,
    }

    /// Returns the body, if each of these was given; its numbers and flags are 0. Else refused as
    /// [`BuildError::Uninitialized`] with the first that was not.
    pub fn build(self) -> Result<CnMsg<P>, BuildError> {
        let idx = self.idx.ok_or(UninitializedFieldError("idx"))?;
        let val = self.val.ok_or(UninitializedFieldError("val"))?;
        let payload = self.payload.ok_or(UninitializedFieldError("payload"))?;
        Ok(CnMsg { idx, val, seq: 0, ack: 0, flags: 0, payload })
    }
}
