//! Cases of packets that are built in pieces: pieces, what they are added to, and closing.

use super::calls::{Array, Call, Lent, Text};
use super::packets::{self, Kind};
use super::rng::Rng;
use super::strings;
use super::words;
use ajp13::raw::{BUILDING_ATTRIBUTES, BUILDING_KIND, KIND_FORWARD, SIZE_BUILDING};

/// How a Forward begins.
pub fn begin_forward(rng: &mut Rng) -> Call {
    let strings = [
        words::required_text(rng, b"HTTP/1.1"),
        words::required_text(rng, b"/index.html"),
        words::text(rng),
        words::text(rng),
        words::text(rng),
    ];
    let mut method = words::method(rng).into();
    match rng.below(24) {
        0 => method = rng.of(&[0, 28, 255, 256, 257, 65535]),
        1 => method = words::above_16_bits(rng, method),
        _ => {}
    }
    let is_ssl = match rng.below(16) {
        0 => words::above_1(rng),
        _ => rng.below(2) as u32,
    };
    let mut fixed = vec![method, rng.short().into(), is_ssl];
    fixed.extend(strings.iter().map(|string| string.null));
    Call::BeginForward {
        fixed,
        strings: strings.map(|string| string.bytes),
    }
}

/// How a Send Headers begins.
pub fn begin_send_headers(rng: &mut Rng) -> Call {
    let mut status = rng.between(100, 599) as u32;
    match rng.below(24) {
        0 => status = rng.of(&[0, 99, 600, 65535]),
        1 => status = words::above_16_bits(rng, status),
        _ => {}
    }
    let message = words::text(rng);
    Call::BeginSendHeaders { status, message }
}

/// A header of a Forward or a Send Headers.
pub fn header(rng: &mut Rng, kind: Kind) -> Call {
    let value = words::text(rng);
    let name = match rng.below(10) {
        0 => words::text(rng).bytes,
        1 | 2 => strings::bad_name(rng, kind),
        3 | 4 => strings::listed_name(rng, kind),
        _ => strings::token(rng, kind),
    };
    match rng.below(4) {
        // A content-length, by its code or by its name.
        0 => {
            let value = match strings::bad_content_length(rng) {
                _ if rng.one_in(2) => Text::of(&strings::content_length(rng)),
                Some(bytes) => Text::of(&bytes),
                None => Text::null(),
            };
            if rng.one_in(2) {
                let code = 0xA008;
                Call::HeaderCoded { code, value }
            } else {
                let name = strings::other_case(rng, b"content-length");
                Call::HeaderNamed { name, value }
            }
        }
        1 => {
            let mut code = strings::header_code(rng, kind).into();
            match rng.below(15) {
                0 => code = rng.of(&[0, 1, 0xA000, 0xA00C, 0xA00F, 0xA0FF, 0xA101]),
                1 => code = rng.short().into(),
                2 => code = words::above_16_bits(rng, code),
                _ => {}
            }
            Call::HeaderCoded { code, value }
        }
        2 => {
            let null = u32::from(rng.one_in(30));
            let name = Text { bytes: name, null };
            Call::HeaderSpelled { name, value }
        }
        _ => Call::HeaderNamed { name, value },
    }
}

/// An attribute.
pub fn attribute(rng: &mut Rng) -> Call {
    let which = rng.below(3);
    let usual = match which {
        0 => rng.of(&[3, 4, 5, 6, 7, 8, 9, 12, 13]),
        1 => 0x0B,
        _ => 0x0A,
    };
    let code = match rng.below(18) {
        0 => rng.of(&[0, 1, 2, 0x0E, 0xFF, 0x103, 0x10A, 0x10B, 65535]),
        1 => rng.between(3, 13) as u32,
        2 => words::above_16_bits(rng, usual),
        _ => usual,
    };
    let value = words::text(rng);
    match which {
        0 => Call::AttributeText { code, value },
        1 => Call::AttributeInteger {
            code,
            value: rng.short().into(),
        },
        _ => Call::AttributePair {
            code,
            name: words::required_text(rng, b"name"),
            value,
        },
    }
}

/// A header or an attribute of a few bytes.
pub fn short_piece(is_header: bool) -> Call {
    let value = Text::of(b"b");
    if is_header {
        Call::HeaderNamed {
            name: b"a".to_vec(),
            value,
        }
    } else {
        Call::AttributePair {
            code: 0x0A,
            name: Text::of(b"a"),
            value,
        }
    }
}

/// A header or an attribute with the given value.
pub fn long_piece(kind: Kind, value: Vec<u8>) -> Call {
    let value = Text::of(&value);
    match kind {
        Kind::Forward => Call::AttributeText { code: 5, value },
        _ => Call::HeaderCoded {
            code: 0xA001,
            value,
        },
    }
}

/// How many bytes a string takes in a packet.
fn string_bytes(text: &Text) -> usize {
    if text.null == 1 {
        2
    } else {
        2 + text.bytes.len() + 1
    }
}

/// How many bytes a piece takes in a packet, a header by its name as if it were spelled.
fn piece_bytes(call: &Call) -> usize {
    match call {
        Call::BeginForward { fixed, strings } => {
            let strings = strings.iter().zip(&fixed[3..]).map(|(bytes, null)| {
                if *null == 1 {
                    2
                } else {
                    2 + bytes.len() + 1
                }
            });
            6 + strings.sum::<usize>() + 5
        }
        Call::BeginSendHeaders { message, .. } => 7 + string_bytes(message) + 2,
        Call::HeaderCoded { value, .. } => 2 + string_bytes(value),
        Call::HeaderSpelled { name, value } => string_bytes(name) + string_bytes(value),
        Call::HeaderNamed { name, value } => 2 + name.len() + 1 + string_bytes(value),
        Call::AttributeText { value, .. } => 1 + string_bytes(value),
        Call::AttributeInteger { .. } => 3,
        Call::AttributePair { name, value, .. } => 1 + string_bytes(name) + string_bytes(value),
        _ => 0,
    }
}

/// A piece, and a building record and a buffer that are lent to it.
pub fn single_piece(rng: &mut Rng) -> (Call, Lent) {
    let mut kind = rng.of(&[Kind::Forward, Kind::SendHeaders]);
    let call = match rng.below(10) {
        0 => begin_forward(rng),
        1 => begin_send_headers(rng),
        2..=6 => header(rng, kind),
        _ => {
            // Only a Forward has attributes.
            if !rng.one_in(8) {
                kind = Kind::Forward;
            }
            attribute(rng)
        }
    };
    let lent = if call.begins() {
        // The building record is only written.
        let length = words::array_length(rng, piece_bytes(&call));
        Lent {
            building: words::words(rng, SIZE_BUILDING),
            buffer: words::buffer(rng, length),
            ..Lent::default()
        }
    } else if rng.percent(70) {
        behind_pieces(rng, kind, &call)
    } else {
        any_building(rng)
    };
    (call, lent)
}

/// The building record and the buffer of a packet that was built so far, for another piece.
fn behind_pieces(rng: &mut Rng, kind: Kind, call: &Call) -> Lent {
    let packet = packets::right(rng, kind, 0);
    let (mut building, mut bytes) = words::built(&packet);
    // Headers are mostly added where no attributes are.
    let is_header = matches!(
        call,
        Call::HeaderCoded { .. } | Call::HeaderSpelled { .. } | Call::HeaderNamed { .. }
    );
    if is_header && !rng.one_in(6) {
        building[BUILDING_ATTRIBUTES] = 0;
    }
    if rng.one_in(8) {
        let other = words::building(rng, bytes.len());
        let word = rng.below(SIZE_BUILDING);
        building[word] = other[word];
    }
    let length = words::array_length(rng, bytes.len() + piece_bytes(call));
    let behind = rng.bytes(length.saturating_sub(bytes.len()));
    bytes.extend(behind);
    bytes.truncate(length);
    Lent {
        building: Array::holding(&building),
        buffer: Array::holding(&bytes),
        ..Lent::default()
    }
}

/// Any building record and any buffer, mostly with the code of a Forward or a Send Headers in it.
fn any_building(rng: &mut Rng) -> Lent {
    let length = match rng.below(8) {
        0 => rng.below(16),
        1 | 2 => rng.of(&[8191, 8192, 8193, 8300]),
        _ => rng.length(),
    };
    let building = words::building(rng, length);
    let mut bytes = rng.bytes(length);
    if let (Some(code), false) = (bytes.get_mut(4), rng.one_in(8)) {
        *code = if building[BUILDING_KIND] == KIND_FORWARD {
            0x02
        } else {
            0x04
        };
    }
    Lent {
        building: Array::holding(&building),
        buffer: Array::holding(&bytes),
        ..Lent::default()
    }
}

/// A connection, a building record and a buffer for closing.
pub fn to_close(rng: &mut Rng) -> Lent {
    let kind = rng.of(&[Kind::Forward, Kind::Forward, Kind::SendHeaders]);
    let packet = if rng.percent(50) {
        packets::right(rng, kind, 0)
    } else {
        packets::faulty(rng, kind, 0)
    };
    let (mut building, mut bytes) = words::built(&packet);
    match rng.below(12) {
        0 | 1 => {
            let other = words::building(rng, bytes.len());
            let word = rng.below(SIZE_BUILDING);
            building[word] = other[word];
        }
        // A word of the record changed by one.
        2 => {
            let word = rng.between(1, 3);
            building[word] = match rng.below(2) {
                0 => building[word] + 1,
                _ => building[word].saturating_sub(1),
            };
        }
        // A byte of the buffer changed.
        3 | 4 => {
            let first = if rng.one_in(2) { 8 } else { bytes.len() };
            let at = rng.below(first);
            bytes[at] = rng.byte();
        }
        5 => building = words::building(rng, bytes.len()),
        _ => {}
    }
    let needed = bytes.len() + usize::from(kind == Kind::Forward);
    let length = words::array_length(rng, needed);
    let behind = rng.bytes(length.saturating_sub(bytes.len()));
    bytes.extend(behind);
    bytes.truncate(length);
    Lent {
        connection: Array::holding(&words::connection_mostly_for(rng, kind)),
        building: Array::holding(&building),
        buffer: Array::holding(&bytes),
        answer: words::answer(rng),
        ..Lent::default()
    }
}
