//! Cases of views at places of bytes, and of names and codes.

use super::calls::{Call, Lent};
use super::damage::damage;
use super::packets::{self, Kind};
use super::rng::Rng;
use super::strings;
use super::words;
use crate::plain;
use ajp13::raw::{MAX_PLACES, SIZE_NAME, SIZE_TEXT};

/// A view at a place of bytes: at those that reading told, or at any.
pub fn view(rng: &mut Rng) -> (Call, Lent) {
    let kind = rng.of(&[Kind::Forward, Kind::Forward, Kind::SendHeaders]);
    let mut packet = match rng.below(5) {
        0 => {
            let length = rng.length();
            rng.bytes(length)
        }
        _ => packets::right(rng, kind, 0).bytes,
    };
    if rng.one_in(4) {
        damage(rng, &mut packet);
    }
    let place = match rng.below(8) {
        0 => rng.short().into(),
        1 => (packet.len() + 3).saturating_sub(rng.below(6)),
        2..=4 => told_place(rng, &packet),
        _ => rng.below(packet.len() + 3),
    };
    let place = place.min(65535) as u32;
    let lent = Lent {
        text: words::words(rng, SIZE_TEXT),
        ..Lent::default()
    };
    let call = match rng.below(6) {
        0 => Call::TextAt { packet, place },
        1 => Call::AttributeNameAt { packet, place },
        2 => Call::IntegerAt { packet, place },
        3 => Call::HeaderCodeAt { packet, place },
        4 => Call::AttributeCodeAt { packet, place },
        _ => Call::AttributeKindAt { packet, place },
    };
    (call, lent)
}

/// One of the places that reading the packet tells, where it can be read.
fn told_place(rng: &mut Rng, packet: &[u8]) -> usize {
    let mut table = [0; MAX_PLACES];
    let mut connection = plain::Connection::fresh();
    let end = if packet.first() == Some(&0x12) {
        plain::End::Container
    } else {
        connection.state = plain::State::Busy;
        plain::End::Server
    };
    let places = match plain::read(end, connection, packet, &mut table) {
        plain::Received::Accepted { packet, .. } => match packet {
            plain::Packet::Forward(forward) => 2 * (forward.headers + forward.attributes),
            plain::Packet::SendHeaders { headers, .. } => 2 * headers,
            _ => 0,
        },
        _ => 0,
    };
    if places == 0 {
        return rng.below(packet.len() + 1);
    }
    table[rng.below(places.into())].into()
}

/// A look-up of a name or of a code.
pub fn name_or_code(rng: &mut Rng) -> (Call, Lent) {
    let list = rng.below(4) as u32;
    let first = [1, 0xA001, 0xA001, 3][list as usize];
    let mut code = first + rng.below(29) as u32 - 1;
    match rng.below(8) {
        0 | 1 => code = rng.short().into(),
        2 => code = words::above_16_bits(rng, code),
        _ => {}
    }
    let lent = Lent {
        name: words::buffer(rng, SIZE_NAME),
        ..Lent::default()
    };
    if rng.one_in(2) {
        return (Call::Name { list, code }, lent);
    }
    // A name of this list or another, as it stands or changed.
    let listed = rng.below(4);
    let code = [1, 0xA001, 0xA001, 3][listed] + rng.below([27, 14, 11, 11][listed]) as u16;
    let name = match listed {
        0 => plain::method_name(code),
        1 => plain::request_header_name(code),
        2 => plain::response_header_name(code),
        _ => plain::attribute_name(code),
    };
    let mut text = name.unwrap_or_default().as_bytes().to_vec();
    match rng.below(10) {
        0 => damage(rng, &mut text),
        1 => text = strings::text(rng),
        2 => text.push(rng.of(b"\0 2s-")),
        3 => {
            text.pop();
        }
        4 | 5 => text = strings::other_case(rng, &text),
        6 | 7 => strings::change(rng, &mut text),
        _ => {}
    }
    (Call::Code { list, text }, lent)
}
