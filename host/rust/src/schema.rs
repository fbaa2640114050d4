//! Messages by name: as JSON and as text, their attributes one by one, and what is wrong with them.
//!
//! A [`Schema`] has the tables of families (`docs/TABLES.md`): those that the library has, and texts of yours. It reads
//! a [`Message`] by them. What is printed is what `neli_show` prints (`docs/SHOW.md`), and proved with the library.
//!
//! ```
//! use neli::consts::socket::NlFamily;
//! use neli::schema::Schema;
//!
//! # fn main() -> Result<(), Box<dyn std::error::Error>> {
//! # let datagram = [
//! #     0x28, 0, 0, 0, 16, 0, 0, 0, 1, 0, 0, 0, 0, 0, 0, 0, 0, 0, 4, 3, 1, 0, 0, 0, 0x49, 0, 1, 0, 0, 0, 0, 0,
//! #     8, 0, 4, 0, 0xdc, 5, 0, 0u8,
//! # ];
//! let schema = Schema::built_in()?;
//! for message in schema.messages(NlFamily::Route, &datagram) {
//!     let message = message?;
//!     message.check()?;
//!     println!("{}", message.to_json()?);
//!     for attribute in message.attributes()? {
//!         assert_eq!((attribute.path(), attribute.value()), ("IFLA_MTU", "1500"));
//!     }
//! }
//! # Ok(())
//! # }
//! ```

mod checked;
mod written;

pub use checked::{KernelRefusal, Validation, Violation};
pub use written::{WriteError, Written};

use crate::consts::socket::NlFamily;
use crate::err::{DeError, Refusal, done, refused};
use crate::ffi;
use crate::ffi::tables::{Named, Sought, Tables};
use std::error::Error;
use std::fmt;
use std::sync::{Mutex, MutexGuard, PoisonError};

/// Why a table is not added.
#[derive(Clone, Debug, PartialEq, Eq)]
pub enum SchemaError {
    /// The first line that is bad.
    Line {
        /// Its number, counted from 1.
        number: usize,
        /// Why, in words.
        reason: String,
    },
    /// The library refuses, as where memory ran out.
    Refused(Refusal),
}

impl fmt::Display for SchemaError {
    fn fmt(&self, f: &mut fmt::Formatter<'_>) -> fmt::Result {
        match self {
            SchemaError::Line { number, reason } => write!(f, "line {number}: {reason}"),
            SchemaError::Refused(refusal) => write!(f, "{refusal}"),
        }
    }
}

impl Error for SchemaError {}

impl From<Refusal> for SchemaError {
    fn from(refusal: Refusal) -> Self {
        SchemaError::Refused(refusal)
    }
}

/// Tables of families, by which messages are read. Threads may share it; one call at a time goes to the library.
#[derive(Debug)]
pub struct Schema(Mutex<Tables>);

/// The text that a call writes, which is made again where it had no room; and the code of the call.
fn text_of(mut call: impl FnMut(&mut [u8], &mut usize) -> i32) -> (i32, String) {
    let (mut out, mut size) = (vec![0; 1024], 0);
    let mut code = call(&mut out, &mut size);
    if out.len() < size {
        out.resize(size, 0);
        code = call(&mut out, &mut size);
    }
    out.truncate(size);
    (code, String::from_utf8(out).unwrap_or_else(|text| String::from_utf8_lossy(text.as_bytes()).into_owned()))
}

impl Schema {
    /// The tables of all families that the library has. Refused as [`SchemaError::Refused`] if memory runs out, or a
    /// text that is built in can't be read.
    pub fn built_in() -> Result<Schema, SchemaError> {
        Ok(Schema(Mutex::new(Tables::built_in().map_err(refused)?)))
    }

    /// No tables. Refused as [`SchemaError::Refused`] if memory runs out.
    pub fn empty() -> Result<Schema, SchemaError> {
        Ok(Schema(Mutex::new(Tables::new().map_err(refused)?)))
    }

    fn tables(&self) -> MutexGuard<'_, Tables> {
        self.0.lock().unwrap_or_else(PoisonError::into_inner)
    }

    /// Adds the table of a family behind the others, from its text (`docs/TABLES.md`). Refused as [`SchemaError::Line`]
    /// at the first bad line, and as [`SchemaError::Refused`] if memory runs out; then nothing is added.
    ///
    /// ```
    /// use neli::schema::{Schema, SchemaError};
    ///
    /// let schema = Schema::empty()?;
    /// schema.add("family example 16\nmessage EXAMPLE_CMD_GET 1\n")?;
    /// let bad = schema.add("family example 16\nmessage EXAMPLE_CMD_GET\n");
    /// assert_eq!(bad.map_err(|it| it.to_string()), Err("line 2: a number is missing".to_owned()));
    /// # Ok::<(), SchemaError>(())
    /// ```
    pub fn add(&self, text: impl Into<Vec<u8>>) -> Result<(), SchemaError> {
        let (mut number, mut length, mut out) = (0, 0, [0; 256]);
        match self.tables().add(text.into().into_boxed_slice(), &mut number, &mut out, &mut length) {
            ffi::TABLE => {
                let reason = out.get(..length).unwrap_or(&out);
                Err(SchemaError::Line { number, reason: String::from_utf8_lossy(reason).into_owned() })
            }
            code => Ok(done(code)?),
        }
    }

    /// Learns that the family of generic netlink with this name has this number, as
    /// [`resolve_genl_family`](crate::router::synchronous::NlRouter::resolve_genl_family) returns it. Refused as
    /// [`SchemaError::Refused`] if memory runs out; then nothing is learnt.
    pub fn learn(&self, id: u16, name: &str) -> Result<(), SchemaError> {
        Ok(done(self.tables().learn(id, name.as_bytes()))?)
    }

    /// The messages of a datagram. Bytes that are no message end them, with why.
    pub fn messages<'s>(&'s self, family: NlFamily, datagram: &'s [u8]) -> Messages<'s> {
        let walk = ffi::Walk { place: 0, end: datagram.len() };
        Messages { schema: self, protocol: protocol_of(family), datagram, walk }
    }

    /// The first message of these bytes, as those of an [`Nlmsghdr`](crate::nl::Nlmsghdr) are one. Refused as
    /// [`DeError::Refused`] if they do not begin with a message.
    pub fn message<'s>(&'s self, family: NlFamily, bytes: &'s [u8]) -> Result<Message<'s>, DeError> {
        self.messages(family, bytes).next().unwrap_or(Err(Refusal::SHORT.into()))
    }

    /// The messages of a datagram as lines of JSON, and one more for the fault behind them, if there is one. Refused
    /// only as [`Refusal::LENGTH`] if these have more bytes than a `usize` counts.
    pub fn datagram_json(&self, family: NlFamily, datagram: &[u8]) -> Result<String, Refusal> {
        let mut tables = self.tables();
        whole(text_of(|out, size| tables.datagram_json(protocol_of(family), datagram, out, size)))
    }

    /// The same as lines of text. Refused as [`datagram_json`](Schema::datagram_json) is.
    pub fn datagram_text(&self, family: NlFamily, datagram: &[u8]) -> Result<String, Refusal> {
        let mut tables = self.tables();
        whole(text_of(|out, size| tables.datagram_text(protocol_of(family), datagram, out, size)))
    }
}

fn protocol_of(family: NlFamily) -> u16 {
    i32::from(family) as u16
}

/// The text of a call that prints and finds nothing.
fn whole((code, text): (i32, String)) -> Result<String, Refusal> {
    done(code)?;
    Ok(text)
}

/// The messages of a datagram, in order.
#[derive(Clone, Debug)]
#[must_use = "messages are read one by one"]
pub struct Messages<'s> {
    schema: &'s Schema,
    protocol: u16,
    datagram: &'s [u8],
    walk: ffi::Walk,
}

impl<'s> Iterator for Messages<'s> {
    type Item = Result<Message<'s>, DeError>;

    fn next(&mut self) -> Option<Self::Item> {
        let mut message = ffi::Message::default();
        match ffi::next_message(self.datagram, &mut self.walk, &mut message) {
            ffi::ITEM => {
                let sought = Sought { protocol: self.protocol, bytes: self.datagram, message };
                Some(Ok(Message { schema: self.schema, sought }))
            }
            ffi::END => None,
            code => {
                self.walk.place = self.walk.end;
                Some(Err(refused(code).into()))
            }
        }
    }
}

/// A message, by the tables of a [`Schema`].
#[derive(Clone, Copy, Debug)]
pub struct Message<'s> {
    schema: &'s Schema,
    sought: Sought<'s>,
}

impl<'s> Message<'s> {
    /// Its type.
    pub fn nl_type(&self) -> u16 {
        self.sought.message.kind
    }

    /// As one object of JSON. Refused as [`Schema::datagram_json`] is.
    pub fn to_json(&self) -> Result<String, Refusal> {
        let mut tables = self.schema.tables();
        whole(text_of(|out, size| tables.message_json(&self.sought, out, size)))
    }

    /// As lines of text. Refused as [`Schema::datagram_json`] is.
    pub fn to_text(&self) -> Result<String, Refusal> {
        let mut tables = self.schema.tables();
        whole(text_of(|out, size| tables.message_text(&self.sought, out, size)))
    }

    /// Its attributes by name, those in a nest behind the nest. There are none where no table knows the message. It is
    /// walked once, so that the time grows with its length. Refused as [`Refusal::SHORT`] where its body is shorter than
    /// the structure before them, and for their texts as [`Schema::datagram_json`] is.
    pub fn attributes(&self) -> Result<Attributes<'s>, Refusal> {
        let (mut items, mut text) = (vec![Named::default(); 64], vec![0; 4096]);
        let (mut count, mut size) = (0, 0);
        let mut tables = self.schema.tables();
        loop {
            match tables.named_items(&self.sought, &mut items, &mut count, &mut text, &mut size) {
                ffi::ROOM => {
                    items.resize(count.max(items.len()), Named::default());
                    text.resize(size.max(text.len()), 0);
                }
                ffi::KIND => break,
                code => {
                    done(code)?;
                    break;
                }
            }
        }
        items.truncate(count);
        Ok(Attributes { bytes: self.sought.bytes, text, items: items.into_iter() })
    }

    /// Learns the number of the family of generic netlink that this message of the controller names; of any other
    /// nothing. Refused only if memory runs out; then nothing is learnt.
    pub fn learn(&self) -> Result<(), Refusal> {
        done(self.schema.tables().learn_from(&self.sought))
    }
}

/// As lines of text.
impl fmt::Display for Message<'_> {
    fn fmt(&self, f: &mut fmt::Formatter<'_>) -> fmt::Result {
        f.write_str(&self.to_text().map_err(|_| fmt::Error)?)
    }
}

/// The attributes of a message by name.
#[derive(Clone, Debug)]
#[must_use = "attributes are read one by one"]
pub struct Attributes<'s> {
    bytes: &'s [u8],
    text: Vec<u8>,
    items: std::vec::IntoIter<Named>,
}

/// The part of these bytes at a place.
fn part(bytes: &[u8], place: usize, length: usize) -> &[u8] {
    bytes.get(place..).and_then(|it| it.get(..length)).unwrap_or_default()
}

impl<'s> Iterator for Attributes<'s> {
    type Item = Attribute<'s>;

    fn next(&mut self) -> Option<Self::Item> {
        let named = self.items.next()?;
        let printed = |place, length| String::from_utf8_lossy(part(&self.text, place, length)).into_owned();
        Some(Attribute {
            path: printed(named.path, named.path_length),
            value: printed(named.value, named.value_length),
            payload: part(self.bytes, named.payload, named.payload_length),
            named,
        })
    }

    fn size_hint(&self) -> (usize, Option<usize>) {
        self.items.size_hint()
    }
}

impl ExactSizeIterator for Attributes<'_> {}

/// What an item of a walk by name is, by the numbers of `enum neli_kind` of `neli.h`.
#[derive(Clone, Copy, Debug, PartialEq, Eq)]
pub struct Kind(u8);

impl Kind {
    /// Bytes: no row says what they are.
    pub const NONE: Kind = Kind(0);
    /// Attributes, which come next, one deeper.
    pub const NEST: Kind = Kind(27);
    /// Structures with attributes, each an item, which come next.
    pub const HOPS: Kind = Kind(28);
    /// A structure with attributes, which come next.
    pub const HOP: Kind = Kind(32);
    /// Bytes behind the attributes of a list, which are none.
    pub const REST: Kind = Kind(35);

    /// The number.
    pub fn number(self) -> u8 {
        self.0
    }
}

/// An attribute of a message by name; or a hop, or what is left behind the attributes of a list.
#[derive(Clone, Debug)]
pub struct Attribute<'s> {
    named: Named,
    path: String,
    value: String,
    payload: &'s [u8],
}

impl<'s> Attribute<'s> {
    /// The names from the outside in, with dots between them: a number where there is no row.
    pub fn path(&self) -> &str {
        &self.path
    }

    /// Its own name, or its number.
    pub fn name(&self) -> &str {
        self.path.rsplit('.').next().unwrap_or_default()
    }

    /// Its number; 0 of a hop and of a rest.
    pub fn number(&self) -> u16 {
        self.named.number
    }

    /// What it is.
    pub fn kind(&self) -> Kind {
        Kind(self.named.kind)
    }

    /// 1 in the message's own list, and one more in each nest.
    pub fn depth(&self) -> u8 {
        self.named.depth
    }

    /// Its payload.
    pub fn payload(&self) -> &'s [u8] {
        self.payload
    }

    /// Its value in JSON: by what its row says that it is, or else its bytes.
    pub fn value(&self) -> &str {
        &self.value
    }
}
