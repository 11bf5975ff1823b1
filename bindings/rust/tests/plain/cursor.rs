//! Taking the fields of a packet one after the other, of the second implementation of document 01
//! that is written apart from the library, for comparison and as the benchmark's baseline.

use super::fields::{self, NULL};
use super::Refusal;

/// A whole packet and the place in it that is read next.
pub(super) struct Cursor<'a> {
    bytes: &'a [u8],
    at: usize,
}

impl<'a> Cursor<'a> {
    /// A cursor at the payload of a whole packet.
    pub(super) fn new(packet: &'a [u8]) -> Cursor<'a> {
        Cursor {
            bytes: packet,
            at: 4,
        }
    }

    /// The place of the next byte, counted from the packet's first.
    pub(super) fn place(&self) -> u16 {
        // A packet is at most 8192 bytes.
        self.at as u16
    }

    /// Whether no byte is left.
    pub(super) fn is_at_end(&self) -> bool {
        self.at == self.bytes.len()
    }

    /// Refuses bytes left after the last field.
    pub(super) fn finish(&self) -> Result<(), Refusal> {
        if self.is_at_end() {
            Ok(())
        } else {
            Err(Refusal::BYTES_LEFT)
        }
    }

    /// Takes the next bytes.
    pub(super) fn take(&mut self, count: usize) -> Result<&'a [u8], Refusal> {
        let end = self.at + count;
        let taken = self.bytes.get(self.at..end).ok_or(Refusal::CUT_OFF)?;
        self.at = end;
        Ok(taken)
    }

    /// Takes a byte.
    pub(super) fn u8(&mut self) -> Result<u8, Refusal> {
        let byte = *self.bytes.get(self.at).ok_or(Refusal::CUT_OFF)?;
        self.at += 1;
        Ok(byte)
    }

    /// Takes an integer.
    pub(super) fn u16(&mut self) -> Result<u16, Refusal> {
        match *self.take(2)? {
            [high, low] => Ok(u16::from_be_bytes([high, low])),
            _ => Err(Refusal::CUT_OFF),
        }
    }

    /// Takes a boolean.
    pub(super) fn boolean(&mut self) -> Result<bool, Refusal> {
        fields::boolean(self.u8()?.into())
    }

    /// Takes a string that may be null or empty.
    pub(super) fn string(&mut self) -> Result<Option<&'a [u8]>, Refusal> {
        match self.u16()? {
            NULL => Ok(None),
            length => self.string_of(length).map(Some),
        }
    }

    /// Takes a string that may be neither null nor empty.
    pub(super) fn required_string(&mut self) -> Result<&'a [u8], Refusal> {
        let length = self.u16()?;
        self.required_string_of(length)
    }

    /// Takes the rest of a string that may be neither null nor empty, after its length.
    pub(super) fn required_string_of(&mut self, length: u16) -> Result<&'a [u8], Refusal> {
        match length {
            0 | NULL => Err(Refusal::STRING),
            _ => self.string_of(length),
        }
    }

    /// Takes a string's bytes and its last zero, after its length.
    fn string_of(&mut self, length: u16) -> Result<&'a [u8], Refusal> {
        match self.take(usize::from(length) + 1)? {
            [text @ .., 0] if fields::is_text(text) => Ok(text),
            _ => Err(Refusal::STRING),
        }
    }
}
