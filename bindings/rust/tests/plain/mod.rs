//! A second implementation of document 01 (both ends of an AJP13 connection) and of the checker of
//! document 02, written apart from the library: it is compared with the library case by case, and
//! is the benchmark's baseline of hand-written safe Rust.
//!
//! Nothing here allocates, and any bytes, record, table or buffer get an answer.

#![allow(dead_code, unused_imports)]

mod build;
mod check;
mod connection;
mod cursor;
mod fields;
mod names;
mod read;
mod send;
mod writer;

pub use build::{
    attribute_integer, attribute_pair, attribute_text, begin_forward, begin_send_headers, close,
    header_coded, header_named, header_spelled, Added, Building, BuildingKind,
};
pub use check::{check, judge, verdict, Checked, Figures, Judged, Stop, MAX_CAPTURE};
pub use connection::{Connection, State};
pub use names::{
    attribute_code, attribute_name, method_code, method_name, request_header_code,
    request_header_name, response_header_code, response_header_name,
};
pub use read::{read, text_at, End, Forward, Packet, Received};
pub use send::{body, body_chunk, cping, cpong, end, get_body, Sent};

/// The longest whole packet.
const MAX_PACKET: usize = 8192;
/// The longest payload: a packet without its 4 leading bytes.
const MAX_PAYLOAD: usize = 8188;
/// The most bytes that a body packet holds.
const MAX_BODY: u16 = 8186;
/// The most bytes that a body chunk holds.
const MAX_CHUNK: usize = 8184;
/// The most headers of a packet.
const MAX_HEADERS: u16 = 100;
/// The most attributes of a Forward Request.
const MAX_ATTRIBUTES: u16 = 64;
/// The most places that a packet fills in the lent table.
const MAX_PLACES: usize = 2 * (MAX_HEADERS as usize + MAX_ATTRIBUTES as usize);

/// The two bytes that lead a packet from server to container.
const TO_CONTAINER: [u8; 2] = [0x12, 0x34];
/// The two bytes that lead a packet from container to server.
const TO_SERVER: [u8; 2] = [0x41, 0x42];

/// The codes that begin a payload.
mod code {
    pub const FORWARD: u8 = 0x02;
    pub const BODY_CHUNK: u8 = 0x03;
    pub const SEND_HEADERS: u8 = 0x04;
    pub const END: u8 = 0x05;
    pub const GET_BODY: u8 = 0x06;
    pub const SHUTDOWN: u8 = 0x07;
    pub const PING: u8 = 0x08;
    pub const CPONG: u8 = 0x09;
    pub const CPING: u8 = 0x0A;
    /// Stands after the last attribute.
    pub const NO_MORE_ATTRIBUTES: u8 = 0xFF;
}

/// The last number of a refusal. No number from 1 to it is left out.
pub const LAST_REFUSAL: u8 = Refusal::CAPTURE_TOO_LONG.0;

/// Whether a number is that of a refusal.
pub fn is_refusal(number: u32) -> bool {
    (1..=LAST_REFUSAL.into()).contains(&number)
}

/// Why a packet, a call or a capture was refused, by the number that documents 01 and 02 give it.
#[derive(Clone, Copy, Debug, PartialEq, Eq)]
struct Refusal(u8);

impl Refusal {
    const LEADING_BYTES: Refusal = Refusal(1);
    const TOO_LONG: Refusal = Refusal(2);
    const CUT_OFF: Refusal = Refusal(3);
    const CODE: Refusal = Refusal(4);
    const NOT_SERVED: Refusal = Refusal(5);
    const STRING: Refusal = Refusal(6);
    const RANGE: Refusal = Refusal(7);
    const HEADER_NAME: Refusal = Refusal(8);
    const ATTRIBUTE: Refusal = Refusal(9);
    const CONTENT_LENGTH: Refusal = Refusal(10);
    const TRANSFER_ENCODING: Refusal = Refusal(10);
    const TOO_MANY: Refusal = Refusal(11);
    const BYTES_LEFT: Refusal = Refusal(12);
    const STATE: Refusal = Refusal(13);
    const BODY_SIZE: Refusal = Refusal(14);
    const NO_ROOM: Refusal = Refusal(15);
    const BUILDING: Refusal = Refusal(16);
    const UNFINISHED: Refusal = Refusal(17);
    const CAPTURE_TOO_LONG: Refusal = Refusal(18);
}
