//! Readers that return a byte at each call.

use std::io;
use std::io::{ErrorKind, Read};

/// A reader that returns its bytes, and then ends or fails.
#[derive(Drop)]
pub struct Drip<'b> {
    pub rest: &'b [u8],
    pub fails: bool,
}

impl Read for Drip<'_> {
    fn read(&mut self, buf: &mut [u8]) -> io::Result<usize> {
        if self.rest.is_empty() || buf.is_empty() {
            return if self.fails {
                Err(io::Error::from(ErrorKind::Other))
            } else {
                Ok(0)
            };
        }
        buf[0] = self.rest[0];
        self.rest = &self.rest[1..];
        Ok(1)
    }
}

/// A reader that returns a zero byte at each call, until it ends or fails at a call.
#[derive(Drop)]
pub struct Trickle {
    pub calls: u32,
    pub last: u32,
    pub fails: bool,
}

impl Read for Trickle {
    fn read(&mut self, buf: &mut [u8]) -> io::Result<usize> {
        self.calls = self.calls.saturating_add(1);
        if self.calls >= self.last {
            return if self.fails {
                Err(io::Error::from(ErrorKind::Other))
            } else {
                Ok(0)
            };
        }
        if buf.is_empty() {
            return Ok(0);
        }
        buf[0] = 0;
        Ok(1)
    }
}
