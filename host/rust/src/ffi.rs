//! All that is unsafe: the exports of the proved library, as `include/neli.h` declares them, and the calls of the C
//! library that std links and does not offer. What it hands out is safe.
#![allow(unsafe_code)]

pub mod kernel;
pub mod tables;

use crate::lent::LentMessage;
use std::ffi::{c_int, c_uint, c_ulong, c_void};
use std::io;
use std::os::fd::{AsRawFd, FromRawFd, OwnedFd, RawFd};

// ---- The proved library ----

pub const ITEM: i32 = 1;
pub const END: i32 = 0;
pub const WAITS: i32 = 2;
pub const KERNEL_ERROR: i32 = 3;
pub const INTERRUPTED: i32 = 4;
pub const VIOLATION: i32 = 6;
pub const SHORT: i32 = -1;
pub const LENGTH: i32 = -2;
pub const MEMORY: i32 = -3;
pub const ROOM: i32 = -4;
pub const HANDLE: i32 = -6;
pub const IN_USE: i32 = -7;
pub const LINK: i32 = -11;
pub const BYTES: i32 = -12;
pub const KIND: i32 = -15;
pub const TABLE: i32 = -17;
pub const UNENDED: i32 = -18;

// `enum neli_reader`.
const READER_REQUEST: u32 = 0;
const READER_MULTICAST: u32 = 1;
const READER_UNASKED: u32 = 2;

// What Linux 6.1 added to an extended acknowledgement.
pub const ANSWER_MISSING: u16 = 5;
pub const ANSWER_MISSING_NEST: u16 = 6;

/// `struct neli_walk`: bytes `place` to `end`.
#[repr(C)]
#[derive(Clone, Copy, Debug, Default)]
pub struct Walk {
    pub place: usize,
    pub end: usize,
}

/// `struct neli_message`.
#[repr(C)]
#[derive(Clone, Copy, Debug, Default)]
pub struct Message {
    pub length: u32,
    pub kind: u16,
    pub flags: u16,
    pub number: u32,
    pub port: u32,
    pub payload: usize,
    pub payload_length: usize,
}

/// `struct neli_attribute`.
#[repr(C)]
#[derive(Clone, Copy, Debug, Default)]
pub struct Attribute {
    pub length: u16,
    pub kind: u16,
    pub number: u16,
    pub flags: u16,
    pub payload: usize,
    pub payload_length: usize,
}

/// `struct neli_answer`.
#[repr(C)]
#[derive(Clone, Copy, Debug, Default)]
pub struct Answer {
    pub code: i32,
    pub echo_length: u32,
    pub echo_type: u16,
    pub echo_flags: u16,
    pub echo_number: u32,
    pub echo_port: u32,
    pub attributes: Walk,
}

/// `struct neli_writer`.
#[repr(C)]
#[derive(Clone, Copy, Debug, Default)]
pub struct Writer {
    pub start: usize,
    pub end: usize,
}

/// `struct neli_lent`. Its pointer is not null.
#[repr(C)]
#[derive(Clone, Copy, Debug)]
pub struct RawLent {
    pub message: Message,
    bytes: *const u8,
    length: usize,
    error: i32,
}

/// `struct neli_bytes`. Its pointer is not null.
#[repr(C)]
#[derive(Clone, Copy, Debug)]
struct Bytes {
    bytes: *const u8,
    length: usize,
}

/// No bytes.
const NONE: &[u8] = &[];

/// `struct neli_verdict`.
#[repr(C)]
#[derive(Clone, Copy, Debug, Default)]
pub struct Verdict {
    pub error: i32,
    pub filtered: u8,
}

/// `struct neli_session`, `struct neli_kernel_dump` and `struct neli_tables`: what the library alone looks into.
#[repr(C)]
#[derive(Debug)]
struct Opaque {
    is_open: bool,
    state: *mut c_void,
}

impl Opaque {
    const CLOSED: Opaque = Opaque { is_open: false, state: std::ptr::null_mut() };
}

unsafe extern "C" {
    fn neli_c_error_text(code: i32, out: *mut u8, room: usize, length: *mut usize) -> i32;
    fn neli_c_next_message(bytes: *const u8, length: usize, walk: *mut Walk, message: *mut Message) -> i32;
    fn neli_c_next_attributes(
        bytes: *const u8,
        length: usize,
        walk: *mut Walk,
        attributes: *mut Attribute,
        room: usize,
        count: *mut usize,
    ) -> i32;
    fn neli_c_get_answer(bytes: *const u8, length: usize, message: *const Message, answer: *mut Answer) -> i32;
    fn neli_c_begin_message(
        out: *mut u8,
        room: usize,
        writer: *mut Writer,
        kind: u16,
        flags: u16,
        number: u32,
        port: u32,
    ) -> i32;
    fn neli_c_put_bytes(out: *mut u8, room: usize, writer: *mut Writer, bytes: *const u8, length: usize) -> i32;
    fn neli_c_put_attribute(
        out: *mut u8,
        room: usize,
        writer: *mut Writer,
        kind: u16,
        payload: *const u8,
        payload_length: usize,
    ) -> i32;
    fn neli_c_end_message(out: *mut u8, room: usize, writer: *const Writer) -> i32;
    fn neli_c_session_new(session: *mut Opaque, protocol: i32, port: u32, keeps_unasked: u8) -> i32;
    fn neli_c_session_free(session: *mut Opaque) -> i32;
    fn neli_c_session_send_all(session: *mut Opaque, requests: *const u8, length: usize) -> i32;
    fn neli_c_session_next_outgoing(session: *mut Opaque) -> i32;
    fn neli_c_session_outgoing(session: *mut Opaque, bytes: *mut Bytes) -> i32;
    fn neli_c_session_sent(session: *mut Opaque) -> i32;
    fn neli_c_session_not_sent(session: *mut Opaque, error_number: i32) -> i32;
    fn neli_c_session_receive(
        session: *mut Opaque,
        bytes: *const u8,
        length: usize,
        group: u32,
        is_joined: u8,
        taken: *mut usize,
    ) -> i32;
    fn neli_c_session_fault(session: *mut Opaque, error_number: i32) -> i32;
    fn neli_c_session_quiet(session: *mut Opaque) -> i32;
    fn neli_c_session_is_ready(session: *mut Opaque, reader: u32, number: u32) -> i32;
    fn neli_c_session_next(session: *mut Opaque, reader: u32, number: u32, lent: *mut RawLent) -> i32;
    fn neli_c_session_pass(session: *mut Opaque, reader: u32, number: u32) -> i32;
    fn neli_c_session_verdict(session: *mut Opaque, number: u32, verdict: *mut Verdict) -> i32;
    fn neli_c_session_close(session: *mut Opaque, number: u32) -> i32;
    fn neli_c_session_close_multicast(session: *mut Opaque) -> i32;
    fn neli_c_is_passing(code: i32, error: i32) -> i32;
}

/// Whether a list with this verdict's code and error may be complete when it is requested again.
pub fn is_passing(code: i32, error: i32) -> bool {
    // SAFETY: two numbers are passed.
    unsafe { neli_c_is_passing(code, error) != 0 }
}

/// The text of a code.
pub fn error_text(code: i32) -> String {
    let mut out = [0; 80];
    let mut length = 0;
    // SAFETY: pointer and size are those of one array, and `length` is this function's; nothing is kept.
    unsafe { neli_c_error_text(code, out.as_mut_ptr(), out.len(), &mut length) };
    String::from_utf8_lossy(out.get(..length).unwrap_or_default()).into_owned()
}

/// The next message of a walk over these bytes.
pub fn next_message(bytes: &[u8], walk: &mut Walk, message: &mut Message) -> i32 {
    // SAFETY: pointer and length are those of one slice, and the others are exclusive borrows; nothing is kept.
    unsafe { neli_c_next_message(bytes.as_ptr(), bytes.len(), walk, message) }
}

/// The code, and the next attributes of a walk over these bytes, as many as there is room for.
pub fn next_attributes<'a>(bytes: &[u8], walk: &mut Walk, room: &'a mut [Attribute]) -> (i32, &'a [Attribute]) {
    let mut count = 0;
    let (at, length) = (room.as_mut_ptr(), room.len());
    // SAFETY: each pointer and its length are those of one slice, and all but `bytes` are exclusive borrows.
    let code = unsafe { neli_c_next_attributes(bytes.as_ptr(), bytes.len(), walk, at, length, &mut count) };
    (code, room.get(..count).unwrap_or_default())
}

/// The contents of an error, an acknowledgement or the end of a dump.
pub fn get_answer(bytes: &[u8], message: &Message, answer: &mut Answer) -> i32 {
    // SAFETY: pointer and length are those of one slice, and the others are borrows, that of `answer` exclusive.
    unsafe { neli_c_get_answer(bytes.as_ptr(), bytes.len(), message, answer) }
}

/// The messages of a datagram, each with its place, up to what is none.
pub fn messages(datagram: &[u8]) -> impl Iterator<Item = (usize, Message)> {
    let mut walk = Walk { place: 0, end: datagram.len() };
    std::iter::from_fn(move || {
        let (place, mut message) = (walk.place, Message::default());
        (next_message(datagram, &mut walk, &mut message) == ITEM).then_some((place, message))
    })
}

/// Begins a message at the writer's end.
pub fn begin_message(out: &mut [u8], writer: &mut Writer, head: &Message) -> i32 {
    // SAFETY: pointer and length are those of one exclusive slice, and `writer` is an exclusive borrow.
    unsafe { neli_c_begin_message(out.as_mut_ptr(), out.len(), writer, head.kind, head.flags, head.number, head.port) }
}

/// Appends bytes and their padding.
pub fn put_bytes(out: &mut [u8], writer: &mut Writer, bytes: &[u8]) -> i32 {
    // SAFETY: each pointer and its length are those of one slice; that of `out` is exclusive, so they are apart.
    unsafe { neli_c_put_bytes(out.as_mut_ptr(), out.len(), writer, bytes.as_ptr(), bytes.len()) }
}

/// Appends an attribute and its padding.
pub fn put_attribute(out: &mut [u8], writer: &mut Writer, kind: u16, payload: &[u8]) -> i32 {
    // SAFETY: each pointer and its length are those of one slice; that of `out` is exclusive, so they are apart.
    unsafe { neli_c_put_attribute(out.as_mut_ptr(), out.len(), writer, kind, payload.as_ptr(), payload.len()) }
}

/// Sets the length of the message that was begun last.
pub fn end_message(out: &mut [u8], writer: &Writer) -> i32 {
    // SAFETY: pointer and length are those of one exclusive slice, and `writer` is a borrow.
    unsafe { neli_c_end_message(out.as_mut_ptr(), out.len(), writer) }
}

/// Whose reads these are.
#[derive(Clone, Copy, Debug, PartialEq, Eq, Hash)]
pub enum Reader {
    /// The answer to the request with this number.
    Request(u32),
    /// What came to groups.
    Multicast,
    /// What answers no request.
    Unasked,
}

impl Reader {
    /// One of `enum neli_reader`, and of a request its number.
    fn raw(self) -> (u32, u32) {
        match self {
            Reader::Request(number) => (READER_REQUEST, number),
            Reader::Multicast => (READER_MULTICAST, 0),
            Reader::Unasked => (READER_UNASKED, 0),
        }
    }
}

/// A session of the library that is open until it is dropped. Each call is `&mut`, so that no two overlap, and forgets
/// what is lent, so that it is read only until then.
#[derive(Debug)]
pub struct Session {
    raw: Opaque,
    lent: Option<RawLent>,
}

// SAFETY: the state is memory of the C library's heap, which any thread may use and free, and the library keeps nothing
// of a thread. It is reached by `&mut` alone, and what is lent of it by a borrow of the session.
unsafe impl Send for Session {}

impl Session {
    /// A session of a protocol and a port that also keeps what answers no request, or the code of a refusal.
    pub fn new(protocol: i32, port: u32) -> Result<Session, i32> {
        let mut raw = Opaque::CLOSED;
        // SAFETY: all bytes of a closed session are zero, and the library keeps nothing of its address, so that it may
        // be moved afterwards; it is neither `Copy` nor `Clone`.
        match unsafe { neli_c_session_new(&mut raw, protocol, port, 1) } {
            END => Ok(Session { raw, lent: None }),
            code => Err(code),
        }
    }

    /// The session for a call, which ends what is lent.
    fn raw(&mut self) -> &mut Opaque {
        self.lent = None;
        &mut self.raw
    }

    /// Queues requests as one datagram: whole messages with numbers of their own.
    pub fn send_all(&mut self, requests: &[u8]) -> i32 {
        // SAFETY: the session is open, and borrowed exclusively; pointer and length are those of one slice, which the
        // library copies.
        unsafe { neli_c_session_send_all(self.raw(), requests.as_ptr(), requests.len()) }
    }

    /// The datagram to send next, if one may go out now.
    pub fn outgoing(&mut self) -> Option<&[u8]> {
        let mut bytes = Bytes { bytes: NONE.as_ptr(), length: 0 };
        // SAFETY: the session is open, and borrowed exclusively, as `bytes` is, whose pointer is not null. What is
        // written there is the place of bytes that stay until the next call, which the returned borrow excludes.
        unsafe {
            if neli_c_session_next_outgoing(self.raw()) != ITEM
                || neli_c_session_outgoing(self.raw(), &mut bytes) != ITEM
            {
                return None;
            }
            Some(std::slice::from_raw_parts(bytes.bytes, bytes.length))
        }
    }

    /// That datagram was sent.
    pub fn sent(&mut self) {
        // SAFETY: the session is open, and borrowed exclusively.
        unsafe { neli_c_session_sent(self.raw()) };
    }

    /// That datagram was not sent.
    pub fn not_sent(&mut self, error_number: i32) {
        // SAFETY: the session is open, and borrowed exclusively.
        unsafe { neli_c_session_not_sent(self.raw(), error_number) };
    }

    /// Takes in a datagram of a group: the code, and how many of its bytes were taken in.
    pub fn receive(&mut self, bytes: &[u8], group: u32, is_joined: bool) -> (i32, usize) {
        let mut taken = 0;
        // SAFETY: the session is open, and borrowed exclusively, as `taken` is; pointer and length are those of one
        // slice, of which the library copies what it keeps.
        let code = unsafe {
            neli_c_session_receive(self.raw(), bytes.as_ptr(), bytes.len(), group, is_joined.into(), &mut taken)
        };
        (code, taken)
    }

    /// Takes in a fault of the link.
    pub fn fault(&mut self, error_number: i32) -> i32 {
        // SAFETY: the session is open, and borrowed exclusively.
        unsafe { neli_c_session_fault(self.raw(), error_number) }
    }

    /// The link was seen empty.
    pub fn quiet(&mut self) {
        // SAFETY: the session is open, and borrowed exclusively.
        unsafe { neli_c_session_quiet(self.raw()) };
    }

    /// Whether a reader has something: an item, a loss or the end.
    pub fn is_ready(&mut self, reader: Reader) -> bool {
        let (reader, number) = reader.raw();
        // SAFETY: the session is open, and borrowed exclusively.
        unsafe { neli_c_session_is_ready(self.raw(), reader, number) == ITEM }
    }

    /// The code of a reader's next item, and the error beside it. A message is lent: `lent` returns it, until the next
    /// call.
    pub fn next(&mut self, reader: Reader) -> (i32, i32) {
        let (reader, number) = reader.raw();
        let mut lent = RawLent { message: Message::default(), bytes: NONE.as_ptr(), length: 0, error: 0 };
        // SAFETY: the session is open, and borrowed exclusively, as `lent` is, whose pointer is not null. What is
        // written there is kept as long as no other call is made.
        let code = unsafe { neli_c_session_next(self.raw(), reader, number, &mut lent) };
        self.lent = matches!(code, ITEM | KERNEL_ERROR).then_some(lent);
        (code, lent.error)
    }

    /// The item that the last call has lent, if it was `next` and there was one.
    pub fn lent(&self) -> Option<LentMessage<'_>> {
        let lent = self.lent.as_ref()?;
        // SAFETY: the library keeps these bytes until the next call of the session, which takes `&mut self`, and each
        // sets `lent` to none before. So they stay while this borrow of the session does.
        Some(LentMessage::new(&lent.message, unsafe { std::slice::from_raw_parts(lent.bytes, lent.length) }))
    }

    /// Goes on to a reader's next item.
    pub fn pass(&mut self, reader: Reader) {
        let (reader, number) = reader.raw();
        // SAFETY: the session is open, and borrowed exclusively.
        unsafe { neli_c_session_pass(self.raw(), reader, number) };
    }

    /// Goes on past all that a reader has.
    pub fn pass_all(&mut self, reader: Reader) {
        while self.is_ready(reader) {
            self.pass(reader);
        }
    }

    /// The code of the verdict on the answer to a request, and what stands beside it; on what others read there is none.
    pub fn verdict(&mut self, reader: Reader) -> (i32, Verdict) {
        let mut verdict = Verdict::default();
        let Reader::Request(number) = reader else { return (WAITS, verdict) };
        // SAFETY: the session is open, and borrowed exclusively, as `verdict` is.
        (unsafe { neli_c_session_verdict(self.raw(), number, &mut verdict) }, verdict)
    }

    /// Nobody reads here any more; what answers no request is only passed.
    pub fn close(&mut self, reader: Reader) {
        // SAFETY: the session is open, and borrowed exclusively.
        match reader {
            Reader::Request(number) => unsafe { neli_c_session_close(self.raw(), number) },
            Reader::Multicast => unsafe { neli_c_session_close_multicast(self.raw()) },
            Reader::Unasked => {
                self.pass_all(reader);
                END
            }
        };
    }
}

impl Drop for Session {
    fn drop(&mut self) {
        // SAFETY: the session is open, and nobody uses it afterwards.
        unsafe { neli_c_session_free(self.raw()) };
    }
}

// ---- Sockets, by the C library of Linux on x86-64 ----

const AF_NETLINK: u16 = 16;
const SOCK_RAW: c_int = 3;
const SOCK_CLOEXEC: c_int = 0o2_000_000;
const SOL_NETLINK: c_int = 270;
const NETLINK_PKTINFO: c_int = 3;
const NETLINK_LIST_MEMBERSHIPS: c_int = 9;
const MSG_TRUNC: c_int = 0x20;
const MSG_DONTWAIT: c_int = 0x40;
const POLLIN: i16 = 1;
const EFD_CLOEXEC: c_int = 0o2_000_000;
const EFD_NONBLOCK: c_int = 0o4000;

/// `struct sockaddr_nl`.
#[repr(C)]
#[derive(Clone, Copy, Debug, Default)]
struct Address {
    family: u16,
    pad: u16,
    port: u32,
    groups: u32,
}

const ADDRESS_SIZE: c_uint = size_of::<Address>() as c_uint;

/// `struct iovec`.
#[repr(C)]
struct Slice {
    base: *mut c_void,
    length: usize,
}

/// `struct msghdr`.
#[repr(C)]
struct Header {
    name: *mut Address,
    name_size: c_uint,
    slices: *mut Slice,
    slice_count: usize,
    control: *mut Control,
    control_size: usize,
    flags: c_int,
}

/// A `struct cmsghdr` with a `struct nl_pktinfo`, with its padding: the one control message that is requested.
#[repr(C, align(8))]
#[derive(Clone, Copy, Debug, Default)]
struct Control {
    size: usize,
    level: c_int,
    kind: c_int,
    group: u32,
    pad: u32,
}

/// `struct pollfd`.
#[repr(C)]
struct Watched {
    fd: c_int,
    events: i16,
    found: i16,
}

/// The bytes of a `struct cmsghdr` and a `struct nl_pktinfo` without the padding.
const CONTROL_SIZE: usize = size_of::<Control>() - size_of::<u32>();

unsafe extern "C" {
    fn socket(domain: c_int, kind: c_int, protocol: c_int) -> c_int;
    fn bind(fd: c_int, address: *const Address, size: c_uint) -> c_int;
    fn getsockname(fd: c_int, address: *mut Address, size: *mut c_uint) -> c_int;
    fn setsockopt(fd: c_int, level: c_int, name: c_int, value: *const c_void, size: c_uint) -> c_int;
    fn getsockopt(fd: c_int, level: c_int, name: c_int, value: *mut c_void, size: *mut c_uint) -> c_int;
    fn sendto(fd: c_int, bytes: *const u8, length: usize, flags: c_int, address: *const Address, size: c_uint)
    -> isize;
    fn recvmsg(fd: c_int, header: *mut Header, flags: c_int) -> isize;
    fn poll(watched: *mut Watched, count: c_ulong, milliseconds: c_int) -> c_int;
    fn eventfd(count: c_uint, flags: c_int) -> c_int;
    fn write(fd: c_int, bytes: *const c_void, length: usize) -> isize;
    fn read(fd: c_int, bytes: *mut c_void, length: usize) -> isize;
}

fn checked(result: c_int) -> io::Result<c_int> {
    if result < 0 { Err(io::Error::last_os_error()) } else { Ok(result) }
}

/// A length that a system call returned, or its error.
fn counted(result: isize) -> io::Result<usize> {
    usize::try_from(result).map_err(|_| io::Error::last_os_error())
}

/// A received datagram: its length as it was sent, the sender's port, and the group for which it arrived, or 0.
#[derive(Clone, Copy, Debug, PartialEq, Eq)]
pub struct Received {
    pub length: usize,
    pub port: u32,
    pub group: u32,
}

/// A netlink socket of a family, bound to a port, or to one of the kernel's choice if it is 0.
pub fn open(family: i32, port: u32) -> io::Result<OwnedFd> {
    let address = Address { family: AF_NETLINK, port, ..Address::default() };
    // SAFETY: no pointer is passed, and the new descriptor is this function's alone. The pointer is to `address`, with
    // its size.
    unsafe {
        let fd = OwnedFd::from_raw_fd(checked(socket(c_int::from(AF_NETLINK), SOCK_RAW | SOCK_CLOEXEC, family))?);
        checked(bind(fd.as_raw_fd(), &address, ADDRESS_SIZE))?;
        set_netlink_option(fd.as_raw_fd(), NETLINK_PKTINFO, 1)?;
        Ok(fd)
    }
}

/// The port that a socket is bound to.
pub fn port_of(fd: RawFd) -> io::Result<u32> {
    let mut address = Address::default();
    let mut size = ADDRESS_SIZE;
    // SAFETY: the pointers are to `address` and `size`, and `size` is that of `address`.
    checked(unsafe { getsockname(fd, &mut address, &mut size) })?;
    Ok(address.port)
}

/// Sets an option of 4 bytes of the netlink level.
pub fn set_netlink_option(fd: RawFd, name: c_int, value: c_int) -> io::Result<()> {
    set_option(fd, SOL_NETLINK, name, value)
}

/// Sets an option of 4 bytes.
pub fn set_option(fd: RawFd, level: c_int, name: c_int, value: c_int) -> io::Result<()> {
    // SAFETY: pointer and size are those of `value`.
    let result = unsafe { setsockopt(fd, level, name, (&raw const value).cast(), size_of::<c_int>() as c_uint) };
    checked(result).map(|_| ())
}

/// An option of 4 bytes of the netlink level.
pub fn netlink_option(fd: RawFd, name: c_int) -> io::Result<c_int> {
    let mut value: c_int = 0;
    let mut size = size_of::<c_int>() as c_uint;
    // SAFETY: the pointers are to `value` and `size`, and `size` is that of `value`.
    checked(unsafe { getsockopt(fd, SOL_NETLINK, name, (&raw mut value).cast(), &mut size) })?;
    Ok(value)
}

/// The groups that a socket is in, a bit each. The kernel fills the room that there is; before Linux 6.4 the size that
/// it returns may be too small.
pub fn memberships(fd: RawFd) -> io::Result<Vec<u32>> {
    let mut words: Vec<u32> = vec![0; 64];
    loop {
        let room = size_of_val(&words[..]);
        let mut size = room as c_uint;
        // SAFETY: pointer and size are those of the words; the kernel writes no more than `size` says.
        checked(unsafe {
            getsockopt(fd, SOL_NETLINK, NETLINK_LIST_MEMBERSHIPS, words.as_mut_ptr().cast(), &mut size)
        })?;
        if size as usize <= room {
            return Ok(words);
        }
        words.resize((size as usize).div_ceil(4), 0);
    }
}

/// Sends a datagram to a port: 0 is the kernel's.
pub fn send(fd: RawFd, bytes: &[u8], port: u32) -> io::Result<usize> {
    let address = Address { family: AF_NETLINK, port, ..Address::default() };
    // SAFETY: pointer and length are those of one slice, and the other pointer is to `address`, with its size.
    counted(unsafe { sendto(fd, bytes.as_ptr(), bytes.len(), 0, &address, ADDRESS_SIZE) })
}

/// Receives the datagram that has arrived into these bytes, and does not wait for one. A longer one loses its rest, and
/// its whole length is returned.
pub fn receive(fd: RawFd, bytes: &mut [u8]) -> io::Result<Received> {
    let mut from = Address::default();
    let mut control = Control::default();
    let mut slice = Slice { base: bytes.as_mut_ptr().cast(), length: bytes.len() };
    let mut header = Header {
        name: &mut from,
        name_size: ADDRESS_SIZE,
        slices: &mut slice,
        slice_count: 1,
        control: &mut control,
        control_size: size_of::<Control>(),
        flags: 0,
    };
    // SAFETY: each pointer of the header is to a value of this function, or to the exclusive slice, with its size.
    let length = counted(unsafe { recvmsg(fd, &mut header, MSG_TRUNC | MSG_DONTWAIT) })?;
    let is_group = header.control_size >= CONTROL_SIZE
        && control.size >= CONTROL_SIZE
        && (control.level, control.kind) == (SOL_NETLINK, NETLINK_PKTINFO);
    Ok(Received { length, port: from.port, group: if is_group { control.group } else { 0 } })
}

/// A counter of the kernel, which can be waited for: at first 0, which can't be read.
pub fn event() -> io::Result<OwnedFd> {
    // SAFETY: no pointer is passed, and the new descriptor is this function's alone.
    unsafe { Ok(OwnedFd::from_raw_fd(checked(eventfd(0, EFD_CLOEXEC | EFD_NONBLOCK))?)) }
}

/// Makes a counter unreadable.
pub fn reset(event: RawFd) {
    let mut count: u64 = 0;
    // SAFETY: pointer and size are those of `count`. A counter that was not readable is as it was.
    unsafe { read(event, (&raw mut count).cast(), size_of::<u64>()) };
}

/// Makes a counter readable.
pub fn signal(event: RawFd) -> io::Result<usize> {
    let one: u64 = 1;
    // SAFETY: pointer and size are those of `one`.
    counted(unsafe { write(event, (&raw const one).cast(), size_of::<u64>()) })
}

/// Waits until one of three descriptors can be read, at most so many milliseconds, or without end below 0: returns
/// whether one can. A descriptor below 0 is none.
pub fn wait(fds: [RawFd; 3], milliseconds: c_int) -> io::Result<bool> {
    let mut watched = fds.map(|fd| Watched { fd, events: POLLIN, found: 0 });
    // SAFETY: pointer and count are those of one array of this function.
    let found = checked(unsafe { poll(watched.as_mut_ptr(), 3, milliseconds) })?;
    Ok(found > 0)
}

#[cfg(test)]
#[path = "ffi_tests.rs"]
mod tests;
