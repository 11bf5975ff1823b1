//! Refusals.

use core::error::Error;
use core::fmt;

use crate::raw;

/// Why a packet was not accepted, or not written. A refusal changes nothing: connection, table, buffer and building
/// record are as before. Also the fault of a capture, which [`Checked`](crate::Checked) tells.
///
/// ```
/// use ajp13::{Connection, Refusal};
///
/// let mut connection = Connection::fresh();
/// let mut buffer = [0; 16];
/// // No request is under way that could be ended.
/// let refusal = connection.end(&mut buffer, true).unwrap_err();
/// assert_eq!(refusal, Refusal::NotNow);
/// assert_eq!(refusal.number(), 13);
/// assert_eq!(refusal.to_string(), "refusal 13: not allowed in this state");
/// ```
#[derive(Clone, Copy, Debug, PartialEq, Eq, Hash, PartialOrd, Ord)]
#[repr(u8)]
// A later version may have more.
#[non_exhaustive]
pub enum Refusal {
    /// The leading bytes are wrong for this direction.
    LeadingWrong = 1,
    /// The payload's length is above 8188, or what was given to write is too long.
    TooLong = 2,
    /// The payload ends inside a field, or before a code that is due.
    CutShort = 3,
    /// The packet's code is not one of this direction.
    CodeWrong = 4,
    /// Shutdown or Ping, which are not served.
    CodeNotServed = 5,
    /// A string that is null or empty where it may not be, that holds a zero or a line end (a line feed, a carriage
    /// return), or whose last byte is not zero; also a body chunk's last byte.
    StringWrong = 6,
    /// A method, a boolean or a status out of range.
    OutOfRange = 7,
    /// A header's name: a code that is not listed, not a token, or listed but spelled out.
    NameWrong = 8,
    /// An attribute's code is not served, has another kind of value, or comes again.
    AttributeWrong = 9,
    /// content-length is no such number, null, or there twice; or there is a transfer-encoding.
    ContentLengthWrong = 10,
    /// Over 100 headers or over 64 attributes.
    TooMany = 11,
    /// Bytes are left after the last field.
    LeftOver = 12,
    /// Not allowed in this state of the connection.
    NotNow = 13,
    /// A body packet of another size than the cycle allows now, or a chunk with bytes where the request is a HEAD.
    BodySizeWrong = 14,
    /// The lent buffer, or the lent table, is too short.
    BufferTooShort = 15,
    /// A header after an attribute, an attribute on a Send Headers, or an impossible building record.
    RecordWrong = 16,
    /// A capture's last packet is not whole. Only the checker tells it.
    UnfinishedPacket = 17,
    /// A capture has over [`MAX_CAPTURE`](crate::MAX_CAPTURE) bytes, and those judged show no other fault. Only the
    /// checker tells it.
    CaptureTooLong = 18,
}

impl Refusal {
    /// All refusals, in the order of their numbers. A later version may have more, and numbers may be left out, so a
    /// place in this list says nothing of a number.
    pub const ALL: &'static [Refusal] = &[
        Refusal::LeadingWrong,
        Refusal::TooLong,
        Refusal::CutShort,
        Refusal::CodeWrong,
        Refusal::CodeNotServed,
        Refusal::StringWrong,
        Refusal::OutOfRange,
        Refusal::NameWrong,
        Refusal::AttributeWrong,
        Refusal::ContentLengthWrong,
        Refusal::TooMany,
        Refusal::LeftOver,
        Refusal::NotNow,
        Refusal::BodySizeWrong,
        Refusal::BufferTooShort,
        Refusal::RecordWrong,
        Refusal::UnfinishedPacket,
        Refusal::CaptureTooLong,
    ];

    /// The refusal's number.
    #[inline]
    pub const fn number(self) -> u8 {
        self as u8
    }

    /// The refusal with a number.
    #[inline]
    pub fn from_number(number: u32) -> Option<Refusal> {
        Self::ALL
            .iter()
            .copied()
            .find(|refusal| u32::from(refusal.number()) == number)
    }

    /// The refusal that a call of the library answered.
    #[inline]
    pub(crate) fn from_status(status: u32) -> Refusal {
        match Self::from_number(status) {
            Some(refusal) => refusal,
            None => impossible(status),
        }
    }
}

/// Done, or the refusal that a call of the library answered.
#[inline]
pub(crate) fn done(status: u32) -> Result<(), Refusal> {
    if status == raw::DONE {
        Ok(())
    } else {
        Err(Refusal::from_status(status))
    }
}

/// The 16-bit number that a call of the library answered.
#[inline]
pub(crate) fn number(answer: u32) -> u16 {
    match u16::try_from(answer) {
        Ok(number) => number,
        Err(_) => impossible(answer),
    }
}

/// The types of this crate give the library only arrays of the right lengths with words in range, so it answers them
/// with no error.
#[cold]
#[inline(never)]
pub(crate) fn impossible(status: u32) -> ! {
    panic!("the AJP13 library answered {status:#x}, which is none for arrays of the right lengths and words in range")
}

impl fmt::Display for Refusal {
    fn fmt(&self, f: &mut fmt::Formatter<'_>) -> fmt::Result {
        let text = match self {
            Refusal::LeadingWrong => "wrong leading bytes",
            Refusal::TooLong => "packet too long",
            Refusal::CutShort => "cut short",
            Refusal::CodeWrong => "code not of this direction",
            Refusal::CodeNotServed => "code not served",
            Refusal::StringWrong => "bad string, or a zero or a line end in one",
            Refusal::OutOfRange => "number out of range",
            Refusal::NameWrong => "bad header name",
            Refusal::AttributeWrong => "bad attribute code",
            Refusal::ContentLengthWrong => "bad content-length, or transfer-encoding",
            Refusal::TooMany => "too many headers or attributes",
            Refusal::LeftOver => "bytes left after the last field",
            Refusal::NotNow => "not allowed in this state",
            Refusal::BodySizeWrong => "wrong body size",
            Refusal::BufferTooShort => "lent table or buffer too short",
            Refusal::RecordWrong => "building record does not allow this",
            Refusal::UnfinishedPacket => "unfinished packet",
            Refusal::CaptureTooLong => "capture too long",
        };
        write!(f, "refusal {}: {text}", self.number())
    }
}

impl Error for Refusal {}
