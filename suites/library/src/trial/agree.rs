//! Common facts of all readings of a datagram.

use super::zeroed::clear_padding;
use neli::connector::{CnMsg, ProcEventHeader};
use neli::err::{DeError, NoMemory, RouterError, SerError};
use neli::genl::Genlmsghdr;
use neli::iter::cut;
use neli::lent::LentMessages;
use neli::nl::{NlPayload, Nlmsghdr};
use neli::rtnl::{Ifinfomsg, Rtmsg};
use neli::types::Buffer;
use neli::{FromBytesWithInput, ToBytes};
use std::alloc::{AllocError, AllocFailed, Global};
use std::fmt::Display;

/// A message with untyped payload.
type Raw = Nlmsghdr<u16, Buffer>;

/// Why a datagram is rejected.
#[derive(Clone, Copy)]
pub enum Trouble {
    /// Memory ran out.
    Memory,
    /// Two readings differ, or the written bytes do.
    Differs(&'static str),
}

impl From<NoMemory> for Trouble {
    fn from(_: NoMemory) -> Trouble {
        Trouble::Memory
    }
}

impl<V: Drop> From<AllocFailed<V>> for Trouble {
    fn from(_: AllocFailed<V>) -> Trouble {
        Trouble::Memory
    }
}

impl From<AllocError> for Trouble {
    fn from(_: AllocError) -> Trouble {
        Trouble::Memory
    }
}

/// The number of messages and faults read.
#[derive(Clone, Copy, Default)]
pub struct Counts {
    pub messages: u64,
    pub faults: u64,
}

/// Differs by this, unless it is the same.
pub fn agree(is_same: bool, what: &'static str) -> Result<(), Trouble> {
    if is_same {
        Ok(())
    } else {
        Err(Trouble::Differs(what))
    }
}

/// The text of an error; none where there is no error.
fn text_of<E: Display>(alloc: Global, error: Option<&E>) -> Result<String, Trouble> {
    match error {
        Some(error) => Ok(error.to_string(alloc)?),
        None => Ok(String::new(alloc)),
    }
}

/// The bytes that a value is written as.
fn written<V: ToBytes>(alloc: Global, value: &V) -> Result<Vec<u8>, Trouble> {
    let mut bytes = Vec::new(alloc);
    match value.to_bytes(&mut bytes) {
        Ok(()) => Ok(bytes),
        Err(SerError::Memory) => Err(Trouble::Memory),
        Err(_) => Err(Trouble::Differs("a value that was read is not written")),
    }
}

/// A walk over lent messages returns the owned ones, and the same fault.
fn lent(
    alloc: Global,
    bytes: &[u8],
    messages: &[Raw],
    fault: Option<&DeError>,
) -> Result<(), Trouble> {
    let mut walk = LentMessages::<'_, u16>::new(bytes);
    for message in messages {
        let Some(Ok(lent)) = walk.next() else {
            return Err(Trouble::Differs("a lent message is missing"));
        };
        match lent.to_nlmsghdr::<Buffer>(alloc) {
            Ok(owned) => agree(owned == *message, "a lent message is another one")?,
            Err(DeError::Memory) => return Err(Trouble::Memory),
            Err(_) => return Err(Trouble::Differs("a lent message is refused")),
        }
    }
    // The walk does not read payloads: it continues past a refused one, and reports the padding after it first.
    let refusal = match walk.next() {
        None => None,
        Some(Err(_)) if bytes.len() % 4 != 0 => return agree(fault.is_some(), "a lent fault"),
        Some(Err(error)) => Some(error),
        Some(Ok(lent)) => lent.to_nlmsghdr::<Buffer>(alloc).err(),
    };
    let refusal = text_of(alloc, refusal.as_ref())?;
    agree(refusal == text_of(alloc, fault)?, "the lent fault")
}

/// The cause of a refusal to retype, as a reader would return it.
fn cause<T: Drop, P: Drop>(error: RouterError<T, P>) -> Result<DeError, Trouble> {
    match error {
        RouterError::De(DeError::Memory) | RouterError::Memory => Err(Trouble::Memory),
        RouterError::De(error) => Ok(error),
        _ => Err(Trouble::Differs("a message is not retyped for another cause")),
    }
}

/// The bytes of a message except its length and that of an echoed one, which retyping rounds up.
fn without_lengths<P: ToBytes>(
    alloc: Global,
    message: &Nlmsghdr<u16, P>,
) -> Result<Vec<u8>, Trouble> {
    let mut bytes = written(alloc, message)?;
    for byte in bytes.iter_mut().take(4) {
        *byte = 0;
    }
    if let NlPayload::Err(_) = message.nl_payload() {
        for byte in bytes.iter_mut().skip(20).take(4) {
            *byte = 0;
        }
    }
    Ok(bytes)
}

/// The message that was read is the one that was retyped.
fn same_typed<P: ToBytes>(
    alloc: Global,
    retyped: &Nlmsghdr<u16, P>,
    read: Option<&Nlmsghdr<u16, P>>,
) -> Result<(), Trouble> {
    let Some(read) = read else {
        return Err(Trouble::Differs("a typed message is missing"));
    };
    let is_same = without_lengths(alloc, retyped)? == without_lengths(alloc, read)?;
    agree(is_same, "a typed message is another one")
}

/// Reading as messages with a `P` returns the results of retyping, up to the first that is refused. If reading ends in
/// a fault, so does this; which fault is open, since a body may be refused earlier.
fn typed<P: FromBytesWithInput + ToBytes>(
    alloc: Global,
    bytes: &[u8],
    messages: &[Raw],
    fault: Option<&DeError>,
) -> Result<(), Trouble> {
    let (found, refusal) = cut::<u16, P>(alloc, bytes)?;
    let mut count = 0usize;
    for message in messages {
        match message.to_typed::<u16, P>(alloc) {
            Ok(retyped) => same_typed(alloc, &retyped, found.get(count))?,
            Err(error) => {
                agree(found.len() == count, "a typed message too many")?;
                let cause = cause(error)?;
                let refusal = text_of(alloc, refusal.as_ref())?;
                return agree(refusal == text_of(alloc, Some(&cause))?, "the typed fault");
            }
        }
        count = count.saturating_add(1);
    }
    agree(found.len() == count, "a typed message too many")?;
    agree(refusal.is_some() == fault.is_some(), "a typed fault")
}

/// Whether bytes of the message were not read.
fn has_tail(message: &Raw) -> bool {
    match message.nl_payload() {
        NlPayload::Ack(_) | NlPayload::Capped(_) => {
            *message.nl_len() > 36 && u16::from(*message.nl_flags()) & 0x300 != 0x300
        }
        _ => false,
    }
}

/// The messages are written as the datagram with zeros for its padding, and these bytes are read as the messages.
fn again(alloc: Global, bytes: &[u8], messages: &Vec<Raw>) -> Result<(), Trouble> {
    let mut zeroed = Vec::from_slice(alloc, bytes)?;
    clear_padding(&mut zeroed);
    let written = written(alloc, messages)?;
    agree(written == zeroed, "what is written again")?;
    let (read, fault) = cut::<u16, Buffer>(alloc, &written)?;
    agree(fault.is_none(), "what is written again has a fault")?;
    agree(read == *messages, "what is written again is read otherwise")
}

/// Checks all this for a datagram.
pub fn check(alloc: Global, bytes: &[u8], counts: &mut Counts) -> Result<(), Trouble> {
    let (messages, fault) = cut::<u16, Buffer>(alloc, bytes)?;
    let fault = fault.as_ref();
    counts.messages = counts.messages.saturating_add(messages.len() as u64);
    counts.faults = counts.faults.saturating_add(u64::from(fault.is_some()));
    lent(alloc, bytes, &messages, fault)?;
    typed::<Vec<u8>>(alloc, bytes, &messages, fault)?;
    typed::<Ifinfomsg>(alloc, bytes, &messages, fault)?;
    typed::<Rtmsg>(alloc, bytes, &messages, fault)?;
    typed::<Genlmsghdr<u8, u16>>(alloc, bytes, &messages, fault)?;
    typed::<CnMsg<ProcEventHeader>>(alloc, bytes, &messages, fault)?;
    if fault.is_none() && !messages.iter().any(has_tail) {
        again(alloc, bytes, &messages)?;
    }
    Ok(())
}
