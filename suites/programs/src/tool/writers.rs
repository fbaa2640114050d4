//! Writers that take little at a time, or fail.

use std::io;
use std::io::{ErrorKind, Write};

/// A writer that keeps a byte at each call, 1024 in all, without taking memory.
#[derive(Drop)]
pub struct Kept {
    bytes: [u8; 1024],
    count: usize,
    flushed: usize,
}

impl Kept {
    /// One that has kept nothing.
    pub fn new() -> Kept {
        Kept {
            bytes: [0; 1024],
            count: 0,
            flushed: 0,
        }
    }

    /// The bytes kept at the last flush.
    pub fn text(&self) -> &[u8] {
        self.bytes.get(..self.flushed).unwrap_or(&[])
    }
}

impl Write for Kept {
    fn write(&mut self, buf: &[u8]) -> io::Result<usize> {
        if buf.is_empty() || self.count >= 1024 {
            return Ok(0);
        }
        self.bytes[self.count] = buf[0];
        self.count += 1;
        Ok(1)
    }

    fn flush(&mut self) -> io::Result<()> {
        self.flushed = self.count;
        Ok(())
    }
}

/// A writer that takes so many bytes and then fails, and whose flush may fail.
#[derive(Drop)]
pub struct Narrow {
    pub room: usize,
    pub flushes: bool,
}

impl Write for Narrow {
    fn write(&mut self, buf: &[u8]) -> io::Result<usize> {
        if self.room == 0 {
            return Err(io::Error::from(ErrorKind::StorageFull));
        }
        let count = buf.len().min(self.room);
        self.room -= count;
        Ok(count)
    }

    fn flush(&mut self) -> io::Result<()> {
        if self.flushes {
            Ok(())
        } else {
            Err(io::Error::from(ErrorKind::StorageFull))
        }
    }
}
