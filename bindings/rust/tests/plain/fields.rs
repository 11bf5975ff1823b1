//! The rules of single fields, the same for reading and for building, of the second implementation
//! of document 01 that is written apart from the library, for comparison and as the benchmark's
//! baseline.

use super::names;
use super::Refusal;

/// A string's length that says it is null.
pub(super) const NULL: u16 = 0xFFFF;

/// The code of a request's content-length.
const CONTENT_LENGTH: u16 = 0xA008;

/// Whether a byte may stand in a header name (a token byte of RFC 9110).
fn is_token_byte(byte: &u8) -> bool {
    matches!(
        byte,
        b'!' | b'#'
            | b'$'
            | b'%'
            | b'&'
            | b'\''
            | b'*'
            | b'+'
            | b'-'
            | b'.'
            | b'^'
            | b'_'
            | b'`'
            | b'|'
            | b'~'
            | b'0'..=b'9'
            | b'A'..=b'Z'
            | b'a'..=b'z'
    )
}

/// Whether a string's bytes are those that a string may have: no zero, no carriage return and no line feed.
pub(super) fn is_text(bytes: &[u8]) -> bool {
    !bytes.iter().any(|byte| matches!(byte, 0 | b'\r' | b'\n'))
}

/// Refuses a string with a zero or a line end inside.
pub(super) fn check_string(value: Option<&[u8]>) -> Result<(), Refusal> {
    match value {
        Some(text) if !is_text(text) => Err(Refusal::STRING),
        _ => Ok(()),
    }
}

/// The bytes of a string that may be neither null nor empty nor have a zero or a line end inside.
pub(super) fn required(value: Option<&[u8]>) -> Result<&[u8], Refusal> {
    match value {
        Some(text) if !text.is_empty() && is_text(text) => Ok(text),
        _ => Err(Refusal::STRING),
    }
}

/// Refuses a method that has no name.
pub(super) fn check_method(method: u16) -> Result<(), Refusal> {
    match method {
        1..=27 => Ok(()),
        _ => Err(Refusal::RANGE),
    }
}

/// Refuses a status that no response has.
pub(super) fn check_status(status: u16) -> Result<(), Refusal> {
    match status {
        100..=599 => Ok(()),
        _ => Err(Refusal::RANGE),
    }
}

/// The truth value of a boolean, which is 0 or 1.
pub(super) fn boolean(number: u16) -> Result<bool, Refusal> {
    match number {
        0 => Ok(false),
        1 => Ok(true),
        _ => Err(Refusal::RANGE),
    }
}

/// The number that a content-length says.
pub(super) fn content_length(value: Option<&[u8]>) -> Result<u32, Refusal> {
    let digits = value.unwrap_or_default();
    if !(1..=10).contains(&digits.len()) || !digits.iter().all(u8::is_ascii_digit) {
        return Err(Refusal::CONTENT_LENGTH);
    }
    let number = digits
        .iter()
        .fold(0, |number, digit| number * 10 + u64::from(digit - b'0'));
    u32::try_from(number).map_err(|_| Refusal::CONTENT_LENGTH)
}

/// Which packet's headers: a request's or a response's.
#[derive(Clone, Copy, Debug, PartialEq, Eq)]
pub(super) enum Headers {
    Request,
    Response,
}

impl Headers {
    /// The code of a listed name.
    pub(super) fn code(self, name: &[u8]) -> Option<u16> {
        match self {
            Headers::Request => names::request_header_code(name),
            Headers::Response => names::response_header_code(name),
        }
    }

    /// Whether this code is the one whose value says how long the body is.
    pub(super) fn is_content_length(self, code: u16) -> bool {
        self == Headers::Request && code == CONTENT_LENGTH
    }

    /// Refuses a code that no name is listed for.
    pub(super) fn check_code(self, code: u16) -> Result<(), Refusal> {
        let name = match self {
            Headers::Request => names::request_header_name(code),
            Headers::Response => names::response_header_name(code),
        };
        match name {
            Some(_) => Ok(()),
            None => Err(Refusal::HEADER_NAME),
        }
    }

    /// Refuses a spelled name that is not a token, is listed, or may not be used.
    pub(super) fn check_spelled(self, name: &[u8]) -> Result<(), Refusal> {
        if !name.iter().all(is_token_byte) || self.code(name).is_some() {
            return Err(Refusal::HEADER_NAME);
        }
        if self == Headers::Request && name.eq_ignore_ascii_case(b"transfer-encoding") {
            return Err(Refusal::TRANSFER_ENCODING);
        }
        Ok(())
    }
}

/// What an attribute's code is followed by.
#[derive(Clone, Copy, Debug, PartialEq, Eq)]
pub(super) enum AttributeKind {
    Text,
    Integer,
    Pair,
}

/// The kind of an attribute code that is served.
pub(super) fn attribute_kind(code: u16) -> Result<AttributeKind, Refusal> {
    match code {
        0x03..=0x09 | 0x0C | 0x0D => Ok(AttributeKind::Text),
        0x0A => Ok(AttributeKind::Pair),
        0x0B => Ok(AttributeKind::Integer),
        _ => Err(Refusal::ATTRIBUTE),
    }
}
