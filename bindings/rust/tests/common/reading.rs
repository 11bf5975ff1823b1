//! Cases of reading: what is read, the connection, and the table.

use super::calls::{Array, Lent};
use super::damage::damage;
use super::packets::{self, Kind, Packet};
use super::rng::Rng;
use super::words;
use ajp13::raw::MAX_PLACES;

/// The packets that the container's end reads, as often as each is tried.
pub const TO_CONTAINER: [Kind; 6] = [
    Kind::Forward,
    Kind::Forward,
    Kind::Forward,
    Kind::Body,
    Kind::Body,
    Kind::CPing,
];

/// The packets that the server's end reads, as often as each is tried.
pub const TO_SERVER: [Kind; 7] = [
    Kind::SendHeaders,
    Kind::SendHeaders,
    Kind::SendHeaders,
    Kind::BodyChunk,
    Kind::GetBody,
    Kind::End,
    Kind::CPong,
];

/// A packet of a kind, right or with a fault, and what is lent to read it.
pub fn packet_and_connection(rng: &mut Rng, kind: Kind) -> (Packet, Lent) {
    let connection = words::connection_mostly_for(rng, kind);
    let body = match kind {
        Kind::Body => words::body_size(rng, &connection),
        Kind::BodyChunk if rng.one_in(50) => rng.of(&[8183, 8184, 8185]),
        Kind::BodyChunk => words::chunk_size(rng, &connection).min(8184),
        _ => rng.length().min(8184),
    };
    let packet = if rng.percent(45) {
        packets::right(rng, kind, body)
    } else {
        packets::faulty(rng, kind, body)
    };
    let places = match rng.below(4) {
        0 => MAX_PLACES,
        _ => words::array_length(rng, packet.places()),
    };
    let lent = Lent {
        connection: Array::holding(&connection),
        table: words::table(rng, places),
        answer: words::answer(rng),
        ..Lent::default()
    };
    (packet, lent)
}

/// Bytes to read, and what is lent: mostly a packet of a kind, at times damaged, cut off, with
/// others behind it, or no packet at all.
pub fn reading(rng: &mut Rng, kind: Kind) -> (Vec<u8>, Lent) {
    let (packet, lent) = packet_and_connection(rng, kind);
    let mut bytes = packet.bytes;
    match rng.below(30) {
        0..=4 => {
            for _ in 0..rng.between(1, 3) {
                damage(rng, &mut bytes);
            }
        }
        // Any bytes, mostly behind the right leading ones and with a right length.
        5 => {
            let leading = [bytes[0], bytes[1]];
            let length = rng.length();
            bytes = rng.bytes(length);
            if bytes.len() >= 4 && !rng.one_in(4) {
                bytes[..2].copy_from_slice(&leading);
                packets::set_length(&mut bytes);
            }
        }
        // The other direction's packet, with this direction's leading bytes or its own.
        6 => {
            let leading = [bytes[0], bytes[1]];
            let other = match kind {
                Kind::Forward | Kind::Body | Kind::CPing => rng.of(&TO_SERVER),
                _ => rng.of(&TO_CONTAINER),
            };
            bytes = packets::right(rng, other, 5).bytes;
            if rng.one_in(2) {
                bytes[..2].copy_from_slice(&leading);
            }
        }
        _ => {}
    }
    match rng.below(12) {
        0 => {
            let length = rng.below(bytes.len() + 1);
            bytes.truncate(length);
        }
        // What follows a packet does not matter.
        1 => {
            let behind = rng.of(&[Kind::Forward, Kind::Body, Kind::End, Kind::GetBody]);
            bytes.extend(packets::right(rng, behind, 3).bytes);
        }
        2 => {
            let length = rng.length();
            bytes.extend(rng.bytes(length));
        }
        _ => {}
    }
    (bytes, lent)
}
