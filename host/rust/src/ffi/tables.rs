//! Tables of families, as `include/neli.h` declares them.

use super::{END, Message, Opaque};

/// `struct neli_named`.
#[repr(C)]
#[derive(Clone, Copy, Debug, Default)]
pub struct Named {
    pub number: u16,
    pub kind: u8,
    pub depth: u8,
    pub payload: usize,
    pub payload_length: usize,
    pub path: usize,
    pub path_length: usize,
    pub value: usize,
    pub value_length: usize,
}

unsafe extern "C" {
    fn neli_c_tables_new(tables: *mut Opaque) -> i32;
    fn neli_c_tables_built_in(tables: *mut Opaque) -> i32;
    fn neli_c_tables_free(tables: *mut Opaque) -> i32;
    fn neli_c_tables_add(
        tables: *mut Opaque,
        text: *const u8,
        text_length: usize,
        line: *mut usize,
        out: *mut u8,
        room: usize,
        length: *mut usize,
    ) -> i32;
    fn neli_c_tables_learn(tables: *mut Opaque, id: u16, name: *const u8, name_length: usize) -> i32;
    fn neli_c_tables_learn_from(
        tables: *mut Opaque,
        protocol: u16,
        bytes: *const u8,
        length: usize,
        message: *const Message,
    ) -> i32;
    fn neli_c_message_text(
        tables: *mut Opaque,
        protocol: u16,
        bytes: *const u8,
        length: usize,
        message: *const Message,
        out: *mut u8,
        room: usize,
        size: *mut usize,
    ) -> i32;
    fn neli_c_message_json(
        tables: *mut Opaque,
        protocol: u16,
        bytes: *const u8,
        length: usize,
        message: *const Message,
        out: *mut u8,
        room: usize,
        size: *mut usize,
    ) -> i32;
    fn neli_c_datagram_text(
        tables: *mut Opaque,
        protocol: u16,
        bytes: *const u8,
        length: usize,
        out: *mut u8,
        room: usize,
        size: *mut usize,
    ) -> i32;
    fn neli_c_datagram_json(
        tables: *mut Opaque,
        protocol: u16,
        bytes: *const u8,
        length: usize,
        out: *mut u8,
        room: usize,
        size: *mut usize,
    ) -> i32;
    fn neli_c_named_items(
        tables: *mut Opaque,
        protocol: u16,
        bytes: *const u8,
        length: usize,
        message: *const Message,
        items: *mut Named,
        item_room: usize,
        count: *mut usize,
        out: *mut u8,
        room: usize,
        size: *mut usize,
    ) -> i32;
    fn neli_c_check(
        tables: *mut Opaque,
        protocol: u16,
        bytes: *const u8,
        length: usize,
        message: *const Message,
        out: *mut u8,
        room: usize,
        size: *mut usize,
    ) -> i32;
    fn neli_c_check_as(
        tables: *mut Opaque,
        validation: i32,
        protocol: u16,
        bytes: *const u8,
        length: usize,
        message: *const Message,
        out: *mut u8,
        room: usize,
        size: *mut usize,
    ) -> i32;
    fn neli_c_write_json(
        tables: *mut Opaque,
        protocol: u16,
        json: *const u8,
        json_length: usize,
        out: *mut u8,
        room: usize,
        size: *mut usize,
    ) -> i32;
    fn neli_c_diagnosis(
        tables: *mut Opaque,
        protocol: u16,
        bytes: *const u8,
        length: usize,
        message: *const Message,
        code: i32,
        ext_ack: *const u8,
        ext_ack_length: usize,
        out: *mut u8,
        room: usize,
        size: *mut usize,
    ) -> i32;
    fn neli_c_path_at(
        tables: *mut Opaque,
        protocol: u16,
        bytes: *const u8,
        length: usize,
        message: *const Message,
        offset: usize,
        out: *mut u8,
        room: usize,
        size: *mut usize,
    ) -> i32;
    fn neli_c_refusal_text(
        tables: *mut Opaque,
        protocol: u16,
        bytes: *const u8,
        length: usize,
        message: *const Message,
        code: i32,
        text: *const u8,
        text_length: usize,
        offset: usize,
        out: *mut u8,
        room: usize,
        size: *mut usize,
    ) -> i32;
}

/// A message of a protocol, and the bytes that it was read from.
#[derive(Clone, Copy, Debug)]
pub struct Sought<'b> {
    pub protocol: u16,
    pub bytes: &'b [u8],
    pub message: Message,
}

/// Tables of the library that are open until they are dropped. Each call is `&mut`, so that no two overlap.
#[derive(Debug)]
pub struct Tables {
    raw: Opaque,
    /// The texts that the library reads in place. A boxed slice stays where it is while this list grows.
    texts: Vec<Box<[u8]>>,
}

// SAFETY: the state is memory of the C library's heap, which any thread may use and free, and the library keeps nothing
// of a thread. It is reached by `&mut` alone.
unsafe impl Send for Tables {}

impl Tables {
    fn opened(open: unsafe extern "C" fn(*mut Opaque) -> i32) -> Result<Tables, i32> {
        let mut raw = Opaque::CLOSED;
        // SAFETY: all bytes of closed tables are zero, and the library keeps nothing of their address, so that they may
        // be moved afterwards; they are neither `Copy` nor `Clone`.
        match unsafe { open(&mut raw) } {
            END => Ok(Tables { raw, texts: Vec::new() }),
            code => Err(code),
        }
    }

    /// Tables without a family, or the code of a refusal.
    pub fn new() -> Result<Tables, i32> {
        Tables::opened(neli_c_tables_new)
    }

    /// The tables that the library has.
    pub fn built_in() -> Result<Tables, i32> {
        Tables::opened(neli_c_tables_built_in)
    }

    /// Adds the table of a text; of a bad one the number of the line, and the length of why it is bad.
    pub fn add(&mut self, text: Box<[u8]>, line: &mut usize, out: &mut [u8], length: &mut usize) -> i32 {
        self.texts.push(text);
        let text = &self.texts[self.texts.len() - 1];
        let (from, size) = (text.as_ptr(), text.len());
        // SAFETY: the tables are open, and borrowed exclusively; each pointer and its length are those of one slice. The
        // text is kept until the tables are freed, at its place: it is boxed, and nothing changes it.
        unsafe { neli_c_tables_add(&mut self.raw, from, size, line, out.as_mut_ptr(), out.len(), length) }
    }

    /// Learns the number of the family with this name.
    pub fn learn(&mut self, id: u16, name: &[u8]) -> i32 {
        // SAFETY: the tables are open, and borrowed exclusively; pointer and length are those of one slice.
        unsafe { neli_c_tables_learn(&mut self.raw, id, name.as_ptr(), name.len()) }
    }

    /// Learns the number of the family that a message of the controller names.
    pub fn learn_from(&mut self, of: &Sought<'_>) -> i32 {
        let (bytes, length) = (of.bytes.as_ptr(), of.bytes.len());
        // SAFETY: the tables are open, and borrowed exclusively; pointer and length are those of one slice.
        unsafe { neli_c_tables_learn_from(&mut self.raw, of.protocol, bytes, length, &of.message) }
    }

    /// A message as lines of text.
    pub fn message_text(&mut self, of: &Sought<'_>, out: &mut [u8], size: &mut usize) -> i32 {
        let (bytes, length, at, room) = (of.bytes.as_ptr(), of.bytes.len(), out.as_mut_ptr(), out.len());
        // SAFETY: the tables are open, and borrowed exclusively; each pointer and its length are those of one slice, and
        // that of `out` is exclusive, so they are apart.
        unsafe { neli_c_message_text(&mut self.raw, of.protocol, bytes, length, &of.message, at, room, size) }
    }

    /// A message as one object of JSON.
    pub fn message_json(&mut self, of: &Sought<'_>, out: &mut [u8], size: &mut usize) -> i32 {
        let (bytes, length, at, room) = (of.bytes.as_ptr(), of.bytes.len(), out.as_mut_ptr(), out.len());
        // SAFETY: as for `message_text`.
        unsafe { neli_c_message_json(&mut self.raw, of.protocol, bytes, length, &of.message, at, room, size) }
    }

    /// The messages of a datagram as lines of text.
    pub fn datagram_text(&mut self, protocol: u16, bytes: &[u8], out: &mut [u8], size: &mut usize) -> i32 {
        let (length, at, room) = (bytes.len(), out.as_mut_ptr(), out.len());
        // SAFETY: as for `message_text`.
        unsafe { neli_c_datagram_text(&mut self.raw, protocol, bytes.as_ptr(), length, at, room, size) }
    }

    /// The messages of a datagram as lines of JSON.
    pub fn datagram_json(&mut self, protocol: u16, bytes: &[u8], out: &mut [u8], size: &mut usize) -> i32 {
        let (length, at, room) = (bytes.len(), out.as_mut_ptr(), out.len());
        // SAFETY: as for `message_text`.
        unsafe { neli_c_datagram_json(&mut self.raw, protocol, bytes.as_ptr(), length, at, room, size) }
    }

    /// The items of a message by name, and their texts; how many there are, and how long the texts.
    pub fn named_items(
        &mut self,
        of: &Sought<'_>,
        items: &mut [Named],
        count: &mut usize,
        out: &mut [u8],
        size: &mut usize,
    ) -> i32 {
        let (bytes, length, at, room) = (of.bytes.as_ptr(), of.bytes.len(), out.as_mut_ptr(), out.len());
        let (to, item_room) = (items.as_mut_ptr(), items.len());
        let (raw, message) = (&mut self.raw, &of.message);
        // SAFETY: as for `message_text`, of `items` too.
        unsafe { neli_c_named_items(raw, of.protocol, bytes, length, message, to, item_room, count, at, room, size) }
    }

    /// The first violation of a message.
    pub fn check(&mut self, of: &Sought<'_>, out: &mut [u8], size: &mut usize) -> i32 {
        let (bytes, length, at, room) = (of.bytes.as_ptr(), of.bytes.len(), out.as_mut_ptr(), out.len());
        // SAFETY: as for `message_text`.
        unsafe { neli_c_check(&mut self.raw, of.protocol, bytes, length, &of.message, at, room, size) }
    }

    /// The same, by the parser with this number.
    pub fn check_as(&mut self, validation: i32, of: &Sought<'_>, out: &mut [u8], size: &mut usize) -> i32 {
        let (bytes, length, at, room) = (of.bytes.as_ptr(), of.bytes.len(), out.as_mut_ptr(), out.len());
        let (raw, message) = (&mut self.raw, &of.message);
        // SAFETY: as for `message_text`.
        unsafe { neli_c_check_as(raw, validation, of.protocol, bytes, length, message, at, room, size) }
    }

    /// The message that a text of JSON is, or why it is none.
    pub fn write_json(&mut self, protocol: u16, json: &[u8], out: &mut [u8], size: &mut usize) -> i32 {
        let (at, room) = (out.as_mut_ptr(), out.len());
        // SAFETY: as for `message_text`.
        unsafe { neli_c_write_json(&mut self.raw, protocol, json.as_ptr(), json.len(), at, room, size) }
    }

    /// A refusal of a request in a line, by the attributes of its acknowledgement.
    pub fn diagnosis(&mut self, of: &Sought<'_>, code: i32, ext_ack: &[u8], out: &mut [u8], size: &mut usize) -> i32 {
        let (bytes, length, at, room) = (of.bytes.as_ptr(), of.bytes.len(), out.as_mut_ptr(), out.len());
        let (raw, message, said, said_length) = (&mut self.raw, &of.message, ext_ack.as_ptr(), ext_ack.len());
        // SAFETY: as for `message_text`.
        unsafe { neli_c_diagnosis(raw, of.protocol, bytes, length, message, code, said, said_length, at, room, size) }
    }

    /// The path to the attribute at an offset of a message.
    pub fn path_at(&mut self, of: &Sought<'_>, offset: usize, out: &mut [u8], size: &mut usize) -> i32 {
        let (bytes, length, at, room) = (of.bytes.as_ptr(), of.bytes.len(), out.as_mut_ptr(), out.len());
        // SAFETY: as for `message_text`.
        unsafe { neli_c_path_at(&mut self.raw, of.protocol, bytes, length, &of.message, offset, at, room, size) }
    }

    /// A refusal of a request in a line.
    pub fn refusal_text(
        &mut self,
        of: &Sought<'_>,
        (code, text, offset): (i32, &[u8], usize),
        out: &mut [u8],
        size: &mut usize,
    ) -> i32 {
        let (bytes, length, at, room) = (of.bytes.as_ptr(), of.bytes.len(), out.as_mut_ptr(), out.len());
        let (raw, message, said, said_length) = (&mut self.raw, &of.message, text.as_ptr(), text.len());
        // SAFETY: as for `message_text`.
        unsafe {
            neli_c_refusal_text(
                raw,
                of.protocol,
                bytes,
                length,
                message,
                code,
                said,
                said_length,
                offset,
                at,
                room,
                size,
            )
        }
    }
}

impl Drop for Tables {
    fn drop(&mut self) {
        // SAFETY: the tables are open, and nobody uses them afterwards; the texts are dropped after this.
        unsafe { neli_c_tables_free(&mut self.raw) };
    }
}
