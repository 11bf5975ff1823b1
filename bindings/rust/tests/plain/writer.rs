//! Writing the fields of a packet one after the other, of the second implementation of document 01
//! that is written apart from the library, for comparison and as the benchmark's baseline.

use super::fields::NULL;
use super::{Refusal, MAX_PACKET};

/// Writes fields one after the other into a buffer that has room for them.
pub(super) struct Writer<'a> {
    buffer: &'a mut [u8],
    at: usize,
}

impl<'a> Writer<'a> {
    /// A writer at a place of the buffer, where so many bytes fit into a packet and the buffer.
    pub(super) fn new(buffer: &'a mut [u8], at: usize, size: usize) -> Result<Writer<'a>, Refusal> {
        let end = at + size;
        if end > MAX_PACKET {
            return Err(Refusal::TOO_LONG);
        }
        let buffer = buffer.get_mut(..end).ok_or(Refusal::NO_ROOM)?;
        Ok(Writer { buffer, at })
    }

    /// How many bytes stand before the next one.
    pub(super) fn written(&self) -> usize {
        self.at
    }

    /// The place of the next byte.
    pub(super) fn place(&self) -> u16 {
        // A packet is at most 8192 bytes.
        self.at as u16
    }

    /// Writes bytes.
    pub(super) fn bytes(&mut self, bytes: &[u8]) {
        let end = self.at + bytes.len();
        self.buffer[self.at..end].copy_from_slice(bytes);
        self.at = end;
    }

    /// Writes a byte.
    pub(super) fn u8(&mut self, byte: u8) {
        self.buffer[self.at] = byte;
        self.at += 1;
    }

    /// Writes an integer.
    pub(super) fn u16(&mut self, number: u16) {
        self.bytes(&number.to_be_bytes());
    }

    /// Writes a string.
    pub(super) fn string(&mut self, string: Option<&[u8]>) {
        match string {
            Some(text) => {
                self.u16(text.len() as u16);
                self.bytes(text);
                self.u8(0);
            }
            None => self.u16(NULL),
        }
    }
}

/// The bytes that a string takes; one that fits into no packet counts as one such.
pub(super) fn string_size(string: Option<&[u8]>) -> usize {
    match string {
        Some(text) => 2 + text.len().min(MAX_PACKET) + 1,
        None => 2,
    }
}
