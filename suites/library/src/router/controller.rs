//! Look-ups in messages of the controller of generic netlink.

use super::script::bytes_of;
use neli::consts::genl::{CtrlAttr, CtrlCmd};
use neli::consts::nl::GenlId;
use neli::err::{DeError, NoMemory, RouterError};
use neli::genl::Genlmsghdr;
use neli::nl::Nlmsghdr;
use neli::router::synchronous::{
    CtrlError, CtrlItem, find_genl_family, find_genl_family_and_group, find_nl_mcast_group,
    lookup_id, resolve_genl_family, resolve_nl_mcast_group,
};
use neli::{Cursor, FromBytes};
use std::alloc::Global;
use std::fmt::Display;

/// A message of the controller.
type CtrlMessage = Nlmsghdr<GenlId, Genlmsghdr<CtrlCmd, CtrlAttr>>;

/// The subject of a look-up.
#[derive(Clone, Copy)]
pub enum Lookup {
    /// The number of a family.
    Family(&'static str),
    /// The number of a group: of this family, by its name.
    Group(&'static str, &'static str),
    /// The names of a family and of its group with this number.
    Names(u32),
}

/// The outcome of a look-up.
#[derive(Clone, Copy, Debug, PartialEq, Eq)]
pub enum Cause {
    /// Found.
    Found,
    Msg,
    /// The attributes cannot be read: the text with the reason.
    DeMsg,
    /// It cannot be read: a count that does not fit.
    DeInput(usize),
    NoAck,
    Other,
}

/// The message that these bytes are, in hexadecimal.
fn message_of(alloc: Global, text: &str) -> Result<CtrlMessage, CtrlError> {
    let bytes = bytes_of(alloc, text)?;
    Ok(Nlmsghdr::from_bytes(alloc, &mut Cursor::new(&bytes))?)
}

/// The items that these bytes are, each a message, and after them so many errors: `NoAck`, and `ClosedChannel`.
pub fn items(alloc: Global, frames: &[&str], errors: usize) -> Result<Vec<CtrlItem>, CtrlError> {
    let mut list = Vec::new(alloc);
    for frame in frames {
        list.push(Ok(message_of(alloc, frame)?))?;
    }
    if 0 < errors {
        list.push(Err(RouterError::NoAck))?;
    }
    if 1 < errors {
        list.push(Err(RouterError::ClosedChannel))?;
    }
    Ok(list)
}

/// The cause of a resolver's error.
fn cause_of(error: &CtrlError) -> Cause {
    match error {
        RouterError::Msg(_) => Cause::Msg,
        RouterError::De(DeError::Msg(_)) => Cause::DeMsg,
        RouterError::De(DeError::InvalidInput(count)) => Cause::DeInput(*count),
        RouterError::NoAck => Cause::NoAck,
        _ => Cause::Other,
    }
}

/// The names of a family and of its group, in words.
fn names(alloc: Global, number: u32, list: Vec<CtrlItem>) -> Result<String, CtrlError> {
    let (family, group) = lookup_id(alloc, number, list)?;
    Ok(format!(in alloc; "{family} {group}")?)
}

/// An outcome, and the text of the result or of the error.
///
/// Refused only if memory runs out.
fn said<T: Display + Drop>(
    alloc: Global,
    outcome: Result<T, CtrlError>,
) -> Result<(Cause, String), NoMemory> {
    match outcome {
        Ok(found) => Ok((Cause::Found, found.to_string(alloc)?)),
        Err(RouterError::Memory) => Err(NoMemory),
        Err(error) => Ok((cause_of(&error), error.to_string(alloc)?)),
    }
}

/// The outcome of a look-up in these items, and the text of the result or of the error.
///
/// Refused only if memory runs out.
pub fn answer(
    alloc: Global,
    lookup: Lookup,
    list: Vec<CtrlItem>,
) -> Result<(Cause, String), NoMemory> {
    match lookup {
        Lookup::Family(name) => said(alloc, resolve_genl_family(alloc, name, list)),
        Lookup::Group(family, name) => {
            said(alloc, resolve_nl_mcast_group(alloc, family, name, list))
        }
        Lookup::Names(number) => said(alloc, names(alloc, number, list)),
    }
}

/// The same for lent items; names have no such call, since it takes the items.
///
/// Refused only if memory runs out.
pub fn lent_answer(
    alloc: Global,
    lookup: Lookup,
    list: &[CtrlItem],
) -> Result<Option<(Cause, String)>, NoMemory> {
    match lookup {
        Lookup::Family(name) => Ok(Some(said(alloc, find_genl_family(alloc, name, list))?)),
        Lookup::Group(family, name) => {
            let found = find_nl_mcast_group(alloc, family, name, list);
            Ok(Some(said(alloc, found)?))
        }
        Lookup::Names(_) => Ok(None),
    }
}

/// The numbers of a family and of its group in one reply, or why there are none.
pub fn both_numbers(
    alloc: Global,
    family: &str,
    group: &str,
    list: &[CtrlItem],
) -> Result<(u16, u32), Cause> {
    match find_genl_family_and_group(alloc, family, group, list) {
        Ok(numbers) => Ok(numbers),
        Err(error) => Err(cause_of(&error)),
    }
}
