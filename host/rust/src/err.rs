//! Why a call is refused.

use crate::ffi;
use crate::nl::Nlmsgerr;
use crate::socket::synchronous::is_end_of_wait;
use std::error::Error;
use std::fmt;
use std::io;

/// A refusal of the proved library, by its code in `neli.h`.
#[derive(Clone, Copy, PartialEq, Eq)]
pub struct Refusal(i32);

impl Refusal {
    /// The bytes end too early.
    pub const SHORT: Refusal = Refusal(ffi::SHORT);
    /// A stated length does not fit.
    pub const LENGTH: Refusal = Refusal(ffi::LENGTH);
    /// The sequence number belongs to a request that is not closed.
    pub const IN_USE: Refusal = Refusal(ffi::IN_USE);
    /// A datagram is not made of messages to its end.
    pub const BYTES: Refusal = Refusal(ffi::BYTES);

    /// The code in `neli.h`.
    pub fn code(self) -> i32 {
        self.0
    }
}

impl fmt::Display for Refusal {
    fn fmt(&self, f: &mut fmt::Formatter<'_>) -> fmt::Result {
        f.write_str(&ffi::error_text(self.0))
    }
}

impl fmt::Debug for Refusal {
    fn fmt(&self, f: &mut fmt::Formatter<'_>) -> fmt::Result {
        write!(f, "Refusal({}: {self})", self.0)
    }
}

impl Error for Refusal {}

/// Whether a call that only does something has done it.
pub(crate) fn done(code: i32) -> Result<(), Refusal> {
    if code == ffi::END { Ok(()) } else { Err(Refusal(code)) }
}

pub(crate) fn refused(code: i32) -> Refusal {
    Refusal(code)
}

/// Why bytes are not read.
#[derive(Clone, Debug, PartialEq, Eq)]
pub enum DeError {
    /// The library refuses them: they end too early, or a length does not fit.
    Refused(Refusal),
    /// A payload has another length than its value.
    InvalidInput(usize),
    /// A text is not UTF-8, or has no zero byte at its end.
    Utf8,
    /// No attribute of this number is there.
    Missing(u16),
}

/// Why something is not written.
#[derive(Clone, Debug, PartialEq, Eq)]
pub enum SerError {
    /// The library refuses it, as where a length does not fit its field.
    Refused(Refusal),
}

/// A field that a builder was not given.
#[derive(Clone, Debug, PartialEq, Eq)]
pub struct UninitializedFieldError(pub(crate) &'static str);

/// Why a builder makes nothing.
#[derive(Clone, Debug, PartialEq, Eq)]
pub enum BuildError {
    /// A field was not given.
    Uninitialized(UninitializedFieldError),
    /// A payload is not written.
    Ser(SerError),
}

/// Why a socket gives nothing.
#[derive(Debug)]
pub enum SocketError {
    /// The system refuses.
    Io(io::Error),
    /// A datagram was longer than the room for it, and its rest is lost.
    Truncated {
        /// How many bytes were sent.
        length: usize,
        /// How many bytes there was room for.
        room: usize,
    },
    /// What came cannot be read.
    De(DeError),
    /// What is to be sent cannot be written.
    Ser(SerError),
    /// A recording has no such request.
    Unrecorded(Unrecorded),
    /// Nothing more can come, as where a recording goes on with a request that was not sent.
    Ended,
}

impl SocketError {
    /// The system's number, if the system refuses.
    pub(crate) fn raw_os_error(&self) -> Option<i32> {
        if let SocketError::Io(it) = self { it.raw_os_error() } else { None }
    }

    /// Whether it is a fault of the link, which its readers are told.
    pub(crate) fn is_fault(&self) -> bool {
        self.raw_os_error().is_some() || matches!(self, SocketError::Truncated { .. })
    }

    /// The same error once more.
    pub(crate) fn again(&self) -> SocketError {
        match self {
            SocketError::Io(it) => match it.raw_os_error() {
                Some(number) => io::Error::from_raw_os_error(number).into(),
                None => io::Error::new(it.kind(), it.to_string()).into(),
            },
            SocketError::Truncated { length, room } => SocketError::Truncated { length: *length, room: *room },
            SocketError::De(it) => SocketError::De(it.clone()),
            SocketError::Ser(it) => SocketError::Ser(it.clone()),
            SocketError::Unrecorded(it) => SocketError::Unrecorded(*it),
            SocketError::Ended => SocketError::Ended,
        }
    }
}

/// Why a recording has no such request.
#[derive(Clone, Copy, Debug, PartialEq, Eq)]
pub enum Unrecorded {
    /// All of its requests were sent before.
    Past,
    /// The request is not that of the recording which comes next.
    Differs {
        /// The first byte that differs, or that one of them lacks, from the front of the datagram.
        at: usize,
    },
}

/// What a router says in place of a message.
#[derive(Debug)]
pub enum RouterError {
    /// The kernel answers with an error.
    Nlmsgerr(Nlmsgerr<u16>),
    /// The socket failed; what was on its way may be lost.
    Socket(SocketError),
    /// A reply cannot be read.
    De(DeError),
    /// A request cannot be written.
    Ser(SerError),
    /// A message came with a sequence number or a port that no request has. A router over a socket takes such messages
    /// out, so that this ends no request of it.
    BadSeqOrPid,
    /// An acknowledgement was asked for, and something else came: not of a router of this crate, which reads on up to the
    /// acknowledgement.
    NoAck,
    /// An acknowledgement came that was not asked for: not of a router of this crate, which returns it as a reply.
    UnexpectedAck,
    /// The handle is closed.
    ClosedChannel,
    /// The next sequence number belongs to a request that is not closed.
    SeqInUse,
    /// The proved library found no memory. Nothing is lost: the same call can be made again.
    Memory,
    /// In words: what was looked for is not there.
    Msg(String),
}

impl RouterError {
    /// The error with these words.
    pub fn new(text: impl Into<String>) -> Self {
        RouterError::Msg(text.into())
    }

    /// Whether an answer may go on after it.
    pub(crate) fn is_unended(&self) -> bool {
        match self {
            RouterError::Socket(error) => is_end_of_wait(error),
            error => matches!(error, RouterError::Memory),
        }
    }

    /// The number by which the kernel refuses, above 0, where it does.
    pub fn errno(&self) -> Option<i32> {
        match self {
            RouterError::Nlmsgerr(answer) => answer.error().checked_neg().filter(|it| *it > 0),
            _ => None,
        }
    }

    /// The name of that number, as `ENODEV`; `None` where it has none.
    pub fn errno_name(&self) -> Option<&'static str> {
        match self {
            RouterError::Nlmsgerr(answer) => answer.errno_name(),
            _ => None,
        }
    }
}

impl fmt::Display for DeError {
    fn fmt(&self, f: &mut fmt::Formatter<'_>) -> fmt::Result {
        match self {
            DeError::Refused(refusal) => write!(f, "{refusal}"),
            DeError::InvalidInput(length) => write!(f, "a payload of {length} bytes has another length than its value"),
            DeError::Utf8 => write!(f, "a text is not UTF-8, or has no zero byte at its end"),
            DeError::Missing(number) => write!(f, "there is no attribute {number}"),
        }
    }
}

impl fmt::Display for SerError {
    fn fmt(&self, f: &mut fmt::Formatter<'_>) -> fmt::Result {
        let SerError::Refused(refusal) = self;
        write!(f, "{refusal}")
    }
}

impl fmt::Display for UninitializedFieldError {
    fn fmt(&self, f: &mut fmt::Formatter<'_>) -> fmt::Result {
        write!(f, "`{}` must be initialized", self.0)
    }
}

impl fmt::Display for BuildError {
    fn fmt(&self, f: &mut fmt::Formatter<'_>) -> fmt::Result {
        match self {
            BuildError::Uninitialized(error) => write!(f, "{error}"),
            BuildError::Ser(error) => write!(f, "{error}"),
        }
    }
}

impl fmt::Display for SocketError {
    fn fmt(&self, f: &mut fmt::Formatter<'_>) -> fmt::Result {
        match self {
            SocketError::Io(error) => write!(f, "{error}"),
            SocketError::Truncated { length, room } => {
                write!(f, "a datagram of {length} bytes was cut to {room}")
            }
            SocketError::De(error) => write!(f, "{error}"),
            SocketError::Ser(error) => write!(f, "{error}"),
            SocketError::Unrecorded(error) => write!(f, "{error}"),
            SocketError::Ended => write!(f, "nothing more comes: the link has ended"),
        }
    }
}

impl fmt::Display for Unrecorded {
    fn fmt(&self, f: &mut fmt::Formatter<'_>) -> fmt::Result {
        match self {
            Unrecorded::Past => write!(f, "the recording has no further request"),
            Unrecorded::Differs { at } => {
                write!(f, "the request differs at byte {at} from the one that the recording has next")
            }
        }
    }
}

impl fmt::Display for RouterError {
    fn fmt(&self, f: &mut fmt::Formatter<'_>) -> fmt::Result {
        match self {
            RouterError::Nlmsgerr(answer) => write!(f, "{answer}"),
            RouterError::Socket(error) => write!(f, "{error}"),
            RouterError::De(error) => write!(f, "{error}"),
            RouterError::Ser(error) => write!(f, "{error}"),
            RouterError::BadSeqOrPid => write!(f, "a message came that no request has asked for"),
            RouterError::NoAck => write!(f, "no acknowledgement came"),
            RouterError::UnexpectedAck => write!(f, "an acknowledgement came that was not asked for"),
            RouterError::ClosedChannel => write!(f, "the handle is closed"),
            RouterError::SeqInUse => write!(f, "the next sequence number is in use"),
            RouterError::Memory => write!(f, "memory ran out"),
            RouterError::Msg(text) => write!(f, "{text}"),
        }
    }
}

impl Error for DeError {}
impl Error for SerError {}
impl Error for UninitializedFieldError {}
impl Error for BuildError {}
impl Error for Unrecorded {}

impl Error for SocketError {
    fn source(&self) -> Option<&(dyn Error + 'static)> {
        match self {
            SocketError::Io(error) => Some(error),
            _ => None,
        }
    }
}

impl Error for RouterError {
    fn source(&self) -> Option<&(dyn Error + 'static)> {
        match self {
            RouterError::Socket(SocketError::Io(error)) => Some(error),
            _ => None,
        }
    }
}

/// `From` for errors that one variant carries.
macro_rules! carries {
    ($($outer:ident::$variant:ident($inner:ty),)*) => {
        $(impl From<$inner> for $outer {
            fn from(error: $inner) -> Self {
                $outer::$variant(error)
            }
        })*
    };
}

carries! {
    DeError::Refused(Refusal),
    SerError::Refused(Refusal),
    BuildError::Uninitialized(UninitializedFieldError),
    BuildError::Ser(SerError),
    SocketError::Io(io::Error),
    SocketError::De(DeError),
    SocketError::Ser(SerError),
    SocketError::Unrecorded(Unrecorded),
    RouterError::Socket(SocketError),
    RouterError::De(DeError),
    RouterError::Ser(SerError),
}

/// What a session refuses.
impl From<Refusal> for RouterError {
    fn from(refusal: Refusal) -> Self {
        match refusal.0 {
            ffi::MEMORY => RouterError::Memory,
            ffi::HANDLE => RouterError::ClosedChannel,
            ffi::IN_USE => RouterError::SeqInUse,
            ffi::KIND => RouterError::new("two dumps in one datagram"),
            _ => RouterError::De(refusal.into()),
        }
    }
}

/// In words.
impl From<BuildError> for RouterError {
    fn from(error: BuildError) -> Self {
        RouterError::new(error.to_string())
    }
}

impl From<io::Error> for RouterError {
    fn from(error: io::Error) -> Self {
        RouterError::Socket(error.into())
    }
}
