//! The kernel to test against, as `include/neli.h` declares it.

use super::{END, Message, Opaque, Walk};

/// `struct neli_request`.
#[repr(C)]
#[derive(Clone, Copy, Debug, Default)]
pub struct Request {
    pub message: Message,
    pub port: u32,
    pub is_handled: u8,
    pub wants_acknowledgement: u8,
    pub wants_dump: u8,
    pub wants_routing_dump: u8,
    pub wants_echo: u8,
}

unsafe extern "C" {
    fn neli_c_next_request(bytes: *const u8, length: usize, walk: *mut Walk, port: u32, request: *mut Request) -> i32;
    fn neli_c_kernel_ack(
        request: *const Request,
        ext_ack: *const u8,
        ext_ack_length: usize,
        out: *mut u8,
        room: usize,
        length: *mut usize,
    ) -> i32;
    fn neli_c_kernel_capped_error(
        request: *const Request,
        code: i32,
        ext_ack: *const u8,
        ext_ack_length: usize,
        out: *mut u8,
        room: usize,
        length: *mut usize,
    ) -> i32;
    fn neli_c_kernel_error(
        sent: *const u8,
        sent_length: usize,
        request: *const Request,
        code: i32,
        ext_ack: *const u8,
        ext_ack_length: usize,
        out: *mut u8,
        room: usize,
        length: *mut usize,
    ) -> i32;
    fn neli_c_kernel_reply(
        request: *const Request,
        kind: u16,
        flags: u16,
        body: *const u8,
        body_length: usize,
        out: *mut u8,
        room: usize,
        length: *mut usize,
    ) -> i32;
    fn neli_c_kernel_notification(
        kind: u16,
        flags: u16,
        number: u32,
        port: u32,
        body: *const u8,
        body_length: usize,
        out: *mut u8,
        room: usize,
        length: *mut usize,
    ) -> i32;
    fn neli_c_kernel_dump_new(dump: *mut Opaque, request: *const Request, limit: usize) -> i32;
    fn neli_c_kernel_dump_free(dump: *mut Opaque) -> i32;
    fn neli_c_kernel_dump_push(dump: *mut Opaque, kind: u16, flags: u16, body: *const u8, body_length: usize) -> i32;
    fn neli_c_kernel_dump_push_reply(
        dump: *mut Opaque,
        kind: u16,
        flags: u16,
        body: *const u8,
        body_length: usize,
    ) -> i32;
    fn neli_c_kernel_dump_begin_datagram(dump: *mut Opaque) -> i32;
    fn neli_c_kernel_dump_finish(
        dump: *mut Opaque,
        flags: u16,
        code: i32,
        ext_ack: *const u8,
        ext_ack_length: usize,
    ) -> i32;
    fn neli_c_kernel_dump_next(dump: *mut Opaque, out: *mut u8, room: usize, length: *mut usize) -> i32;
}

/// The next message of a walk over these bytes, as a request from the socket of this port.
pub fn next_request(bytes: &[u8], walk: &mut Walk, port: u32, request: &mut Request) -> i32 {
    // SAFETY: pointer and length are those of one slice, and the others are exclusive borrows; nothing is kept.
    unsafe { neli_c_next_request(bytes.as_ptr(), bytes.len(), walk, port, request) }
}

/// The acknowledgement of a request.
pub fn ack(request: &Request, ext_ack: &[u8], out: &mut [u8], length: &mut usize) -> i32 {
    let (at, room) = (out.as_mut_ptr(), out.len());
    // SAFETY: each pointer and its length are those of one slice; that of `out` is exclusive, so they are apart.
    unsafe { neli_c_kernel_ack(request, ext_ack.as_ptr(), ext_ack.len(), at, room, length) }
}

/// The error with this code and the request's header.
pub fn capped_error(request: &Request, code: i32, ext_ack: &[u8], out: &mut [u8], length: &mut usize) -> i32 {
    let (at, room) = (out.as_mut_ptr(), out.len());
    // SAFETY: each pointer and its length are those of one slice; that of `out` is exclusive, so they are apart.
    unsafe { neli_c_kernel_capped_error(request, code, ext_ack.as_ptr(), ext_ack.len(), at, room, length) }
}

/// The error with this code and the request, which lies in `sent`.
pub fn error(sent: &[u8], request: &Request, code: i32, ext_ack: &[u8], out: &mut [u8], length: &mut usize) -> i32 {
    let (at, room) = (out.as_mut_ptr(), out.len());
    let (list, list_length) = (ext_ack.as_ptr(), ext_ack.len());
    // SAFETY: each pointer and its length are those of one slice; that of `out` is exclusive, so they are apart.
    unsafe { neli_c_kernel_error(sent.as_ptr(), sent.len(), request, code, list, list_length, at, room, length) }
}

/// One reply with the type and the flags of this header.
pub fn reply(request: &Request, head: &Message, body: &[u8], out: &mut [u8], length: &mut usize) -> i32 {
    let (at, room) = (out.as_mut_ptr(), out.len());
    let (kind, flags) = (head.kind, head.flags);
    // SAFETY: each pointer and its length are those of one slice; that of `out` is exclusive, so they are apart.
    unsafe { neli_c_kernel_reply(request, kind, flags, body.as_ptr(), body.len(), at, room, length) }
}

/// A message to groups with the type, the flags, the number and the port of this header.
pub fn notification(head: &Message, body: &[u8], out: &mut [u8], length: &mut usize) -> i32 {
    let (at, room) = (out.as_mut_ptr(), out.len());
    let (kind, flags) = (head.kind, head.flags);
    let (from, from_length) = (body.as_ptr(), body.len());
    // SAFETY: each pointer and its length are those of one slice; that of `out` is exclusive, so they are apart.
    unsafe { neli_c_kernel_notification(kind, flags, head.number, head.port, from, from_length, at, room, length) }
}

/// A dump of the library that is open until it is dropped. Each call is `&mut`, so that no two overlap.
#[derive(Debug)]
pub struct Dump(Opaque);

// SAFETY: the state is memory of the C library's heap, which any thread may use and free, and the library keeps nothing
// of a thread. It is reached by `&mut` alone.
unsafe impl Send for Dump {}

impl Dump {
    /// A dump that answers a request, or the code of a refusal.
    pub fn new(request: &Request, limit: usize) -> Result<Dump, i32> {
        let mut raw = Opaque::CLOSED;
        // SAFETY: all bytes of a closed dump are zero, and the library keeps nothing of its address or the request's, so
        // that it may be moved afterwards; it is neither `Copy` nor `Clone`.
        match unsafe { neli_c_kernel_dump_new(&mut raw, request, limit) } {
            END => Ok(Dump(raw)),
            code => Err(code),
        }
    }

    /// One message more, with these flags and MULTI.
    pub fn push(&mut self, kind: u16, flags: u16, body: &[u8]) -> i32 {
        // SAFETY: the dump is open, and borrowed exclusively; pointer and length are those of one slice.
        unsafe { neli_c_kernel_dump_push(&mut self.0, kind, flags, body.as_ptr(), body.len()) }
    }

    /// One message more, with these flags alone.
    pub fn push_reply(&mut self, kind: u16, flags: u16, body: &[u8]) -> i32 {
        // SAFETY: the dump is open, and borrowed exclusively; pointer and length are those of one slice.
        unsafe { neli_c_kernel_dump_push_reply(&mut self.0, kind, flags, body.as_ptr(), body.len()) }
    }

    /// Begins a datagram, unless the last one is empty.
    pub fn begin_datagram(&mut self) -> i32 {
        // SAFETY: the dump is open, and borrowed exclusively.
        unsafe { neli_c_kernel_dump_begin_datagram(&mut self.0) }
    }

    /// Puts the end in.
    pub fn finish(&mut self, flags: u16, code: i32, ext_ack: &[u8]) -> i32 {
        // SAFETY: the dump is open, and borrowed exclusively; pointer and length are those of one slice.
        unsafe { neli_c_kernel_dump_finish(&mut self.0, flags, code, ext_ack.as_ptr(), ext_ack.len()) }
    }

    /// The next datagram of a finished dump.
    pub fn next(&mut self, out: &mut [u8], length: &mut usize) -> i32 {
        // SAFETY: the dump is open, and borrowed exclusively; pointer and length are those of one exclusive slice.
        unsafe { neli_c_kernel_dump_next(&mut self.0, out.as_mut_ptr(), out.len(), length) }
    }
}

impl Drop for Dump {
    fn drop(&mut self) {
        // SAFETY: the dump is open, and nobody uses it afterwards.
        unsafe { neli_c_kernel_dump_free(&mut self.0) };
    }
}
