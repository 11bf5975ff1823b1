//! What calls are given and lent: connections, building records, arrays and strings of every kind.

use super::calls::{Array, Text};
use super::packets::{Kind, Packet};
use super::rng::Rng;
use super::strings;
use ajp13::raw::{
    BUILDING_COUNT_PLACE, BUILDING_HEADERS, BUILDING_NEXT, CONNECTION_ASKED, CONNECTION_DUE,
    CONNECTION_HEAD, CONNECTION_HEADERS, CONNECTION_LEFT, CONNECTION_STATE, KIND_FORWARD,
    KIND_SEND_HEADERS, MAX_BODY, MAX_PACKET, SIZE_ANSWER, SIZE_BUILDING, SIZE_CONNECTION,
    STATE_BUSY, STATE_CLOSED, STATE_IDLE, STATE_PINGED,
};
use ajp13::Method;

/// The words of a connection.
pub type Connection = [u32; SIZE_CONNECTION];

/// Any connection without an error. What does not count in its state may be any word.
pub fn connection(rng: &mut Rng) -> Connection {
    let state = rng.of(&[
        STATE_IDLE,
        STATE_PINGED,
        STATE_BUSY,
        STATE_BUSY,
        STATE_BUSY,
        STATE_CLOSED,
    ]);
    let (due, headers) = (rng.one_in(2), rng.one_in(2));
    connection_in(rng, state, due, headers)
}

/// A connection in a state: in Busy with a body packet due or not, with headers sent or not, and at times of a HEAD.
pub fn connection_in(rng: &mut Rng, state: u32, due: bool, headers: bool) -> Connection {
    let busy = state == STATE_BUSY;
    let mut words = [0; SIZE_CONNECTION];
    words[CONNECTION_STATE] = state;
    // At times nothing but what counts.
    let bare = rng.one_in(3);
    if (busy && due) || !bare {
        words[CONNECTION_LEFT] = left(rng);
    }
    for (at, counts, word) in [
        (CONNECTION_DUE, busy, due.into()),
        (CONNECTION_ASKED, busy && due, asked(rng)),
        (CONNECTION_HEADERS, busy, headers.into()),
        (CONNECTION_HEAD, busy, rng.one_in(3).into()),
    ] {
        words[at] = match counts {
            true => word,
            false if bare => 0,
            false => uncounted(rng),
        };
    }
    words
}

/// A connection on which a kind of packet is allowed; what does not count is anything.
pub fn connection_for(rng: &mut Rng, kind: Kind) -> Connection {
    let (due, headers) = (rng.one_in(2), rng.one_in(2));
    match kind {
        Kind::CPing | Kind::Forward => connection_in(rng, STATE_IDLE, due, headers),
        Kind::CPong => connection_in(rng, STATE_PINGED, due, headers),
        Kind::Body => connection_in(rng, STATE_BUSY, true, headers),
        Kind::GetBody => connection_in(rng, STATE_BUSY, false, headers),
        Kind::SendHeaders => connection_in(rng, STATE_BUSY, due, false),
        Kind::BodyChunk => connection_in(rng, STATE_BUSY, due, true),
        Kind::End => connection_in(rng, STATE_BUSY, false, true),
    }
}

/// A connection on which a kind of packet is allowed, or any.
pub fn connection_mostly_for(rng: &mut Rng, kind: Kind) -> Connection {
    if rng.percent(80) {
        connection_for(rng, kind)
    } else {
        connection(rng)
    }
}

/// A method, often HEAD.
pub fn method(rng: &mut Rng) -> u8 {
    match rng.one_in(4) {
        true => Method::HEAD.code() as u8,
        false => rng.between(1, 27) as u8,
    }
}

/// How many bytes a chunk has on a connection: where the request is a HEAD often none.
pub fn chunk_size(rng: &mut Rng, connection: &Connection) -> usize {
    let is_head = connection[CONNECTION_STATE] == STATE_BUSY && connection[CONNECTION_HEAD] == 1;
    match is_head && rng.one_in(2) {
        true => 0,
        false => rng.length(),
    }
}

/// A word that does not count: one that could, or one that would be out of range where it counted.
fn uncounted(rng: &mut Rng) -> u32 {
    match rng.below(6) {
        0 => rng.of(&[0, 1]),
        1 => rng.of(&[2, 9, 8186, 65535]),
        2 => rng.word(),
        3 => asked(rng),
        _ => {
            let low = rng.of(&[0, 1, 8186]);
            above_16_bits(rng, low)
        }
    }
}

/// A word above 65535, at times one whose low half is the given word, so that it would be that one
/// where its upper half were cut off.
pub fn above_16_bits(rng: &mut Rng, low: u32) -> u32 {
    match rng.below(4) {
        0 => rng.of(&[65536, 70_000, u32::MAX]),
        1 => rng.word().max(65536),
        _ => 65536 * rng.of(&[1, 2, 0xFFFF]) + low % 65536,
    }
}

/// A word above 1, at times one whose low half is 0 or 1.
pub fn above_1(rng: &mut Rng) -> u32 {
    match rng.below(3) {
        0 => rng.of(&[2, 3, 255, 256, 257, 65535]),
        _ => {
            let low = rng.below(2) as u32;
            above_16_bits(rng, low)
        }
    }
}

/// Bytes of a body still left.
fn left(rng: &mut Rng) -> u32 {
    match rng.below(6) {
        0 => 0,
        1 => rng.of(&[1, 2, 8185, 8186, 8187, 65535, 65536, u32::MAX]),
        2 => rng.word(),
        _ => rng.below(60) as u32,
    }
}

/// Bytes asked for.
fn asked(rng: &mut Rng) -> u32 {
    match rng.below(6) {
        0 => 0,
        1 => rng.of(&[1, 2, 8185, 8186, 8187, 65535]),
        2 => rng.short().into(),
        3 => 8186,
        _ => rng.below(60) as u32,
    }
}

/// The size of a body packet on a connection: mostly one that is allowed, or just not.
pub fn body_size(rng: &mut Rng, connection: &Connection) -> usize {
    let left = connection[CONNECTION_LEFT];
    let asked = connection[CONNECTION_ASKED];
    let most = (left.min(asked) as usize).min(MAX_BODY);
    match rng.below(12) {
        0 => most + 1,
        1 => 0,
        _ if most == 0 => 0,
        2 | 3 => most,
        // A body packet whose first byte is that of a Forward.
        4 if most >= 522 => 522,
        // Large ones are no better than small ones, most of the time.
        5 => rng.between(1, most),
        _ => rng.between(1, most.min(30)),
    }
}

/// The length of an array of which so many elements are needed: just so many, one less, none, or
/// more.
pub fn array_length(rng: &mut Rng, needed: usize) -> usize {
    match rng.below(20) {
        0 => 0,
        1 => rng.below(needed + 1),
        2 | 3 => needed.saturating_sub(1),
        4..=8 => needed,
        _ => needed + rng.between(1, 24),
    }
}

/// A buffer of a length, with any old contents.
pub fn buffer(rng: &mut Rng, length: usize) -> Array<u8> {
    Array::holding(&rng.bytes(length))
}

/// A table of a length, with any old contents.
pub fn table(rng: &mut Rng, length: usize) -> Array<u16> {
    let contents: Vec<u16> = (0..length).map(|_| rng.short()).collect();
    Array::holding(&contents)
}

/// Any words.
pub fn words(rng: &mut Rng, count: usize) -> Array<u32> {
    let contents: Vec<u32> = (0..count).map(|_| rng.word()).collect();
    Array::holding(&contents)
}

/// An array for an answer, with any old contents.
pub fn answer(rng: &mut Rng) -> Array<u32> {
    words(rng, SIZE_ANSWER)
}

/// A string as an argument. Where it is null, its bytes are anything.
pub fn text(rng: &mut Rng) -> Text {
    match rng.below(40) {
        // A zero or a line end inside.
        0 | 1 => Text::of(&strings::barred_text(rng)),
        // Longer than any packet.
        2 if rng.one_in(12) => {
            let length = rng.of(&[8185, 8192, 65534, 65535, 65536, 70_000]);
            Text::of(&strings::text_of(rng, length))
        }
        _ => match strings::string(rng) {
            Some(bytes) => Text::of(&bytes),
            None => Text {
                bytes: if rng.one_in(2) {
                    strings::text(rng)
                } else {
                    strings::barred_text(rng)
                },
                null: 1,
            },
        },
    }
}

/// A string that may be neither null nor empty; it is at times.
pub fn required_text(rng: &mut Rng, usual: &[u8]) -> Text {
    if rng.one_in(8) {
        text(rng)
    } else {
        Text::of(usual)
    }
}

/// The building record of a Forward or a Send Headers that was built up to its end, and the bytes
/// from the packet's first to that end. Neither its length nor its number of headers is set yet.
pub fn built(packet: &Packet) -> ([u32; SIZE_BUILDING], Vec<u8>) {
    let mut bytes = packet.bytes.clone();
    let mut kind = KIND_SEND_HEADERS;
    if packet.kind == Kind::Forward {
        kind = KIND_FORWARD;
        // Closing sets the FF, which a fault may have left out.
        if bytes.last() == Some(&0xFF) {
            bytes.pop();
        }
    }
    bytes[2..4].fill(0);
    bytes[packet.count_place..packet.count_place + 2].fill(0);
    let record = [
        kind,
        bytes.len() as u32,
        packet.count_place as u32,
        packet.headers as u32,
        u32::from(packet.attributes > 0),
    ];
    (record, bytes)
}

/// Any building record without an error, mostly one that is possible in a buffer.
pub fn building(rng: &mut Rng, buffer: usize) -> [u32; SIZE_BUILDING] {
    let most = buffer.min(MAX_PACKET);
    let next = match rng.below(8) {
        0 => rng.short().into(),
        1 => most,
        2 => most + 1,
        _ => rng.below(most + 1),
    };
    let count = match rng.below(8) {
        0 => rng.short().into(),
        1 => rng.below(6),
        2 => next.saturating_sub(1),
        3 => next.saturating_sub(2),
        _ => rng.between(4, next.max(6) - 2),
    };
    let headers = match rng.below(6) {
        0 => rng.of(&[99, 100, 101, 65535]),
        _ => rng.below(101),
    };
    let mut words = [
        rng.of(&[KIND_FORWARD, KIND_SEND_HEADERS]),
        next as u32,
        count as u32,
        headers as u32,
        rng.below(2) as u32,
    ];
    if rng.one_in(8) {
        let word = rng.of(&[BUILDING_NEXT, BUILDING_COUNT_PLACE, BUILDING_HEADERS]);
        words[word] = above_16_bits(rng, words[word]);
    }
    words
}
