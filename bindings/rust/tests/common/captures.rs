//! Cases of the checker: captures, checks on the way, and sizes.

use super::calls::{Array, Call, Lent};
use super::damage::damage;
use super::packets::{self, Kind};
use super::reading::{TO_CONTAINER, TO_SERVER};
use super::rng::Rng;
use super::words;
use crate::plain::{self, Connection, End, Received, State};
use ajp13::raw::{
    CHECKING_BODY, CHECKING_PACKETS, CHECKING_PLACE, CHECKING_REFUSAL, CHECKING_REQUESTS,
    MAX_CAPTURE, MAX_CHUNK, MAX_PACKET, MAX_PLACES, SIZE_CHECKED, SIZE_CHECKING, SIZE_CONNECTION,
};

/// The words of a check on the way.
type Checking = [u32; SIZE_CHECKING];

/// The two bytes that lead a packet, for each direction.
const LEADING: [[u8; 2]; 2] = [[0x12, 0x34], [0x41, 0x42]];

/// A capture: packets of both directions that step one connection from a fresh one on. Half of the
/// captures are right; the others have a fault somewhere, or end anywhere.
pub fn capture(rng: &mut Rng) -> Vec<u8> {
    let packets = rng.below(14);
    let mut packets = course(rng, Connection::fresh(), packets);
    if rng.one_in(2) {
        spoil(rng, Connection::fresh(), &mut packets);
    }
    let mut capture = packets.concat();
    if rng.one_in(6) {
        let length = rng.below(capture.len() + 1);
        capture.truncate(length);
    }
    capture
}

/// Packets that a connection may get one after the other, at most so many. None follows where it is
/// closed.
fn course(rng: &mut Rng, mut connection: Connection, packets: usize) -> Vec<Vec<u8>> {
    let mut course = Vec::new();
    while course.len() < packets && connection.state != State::Closed {
        let kind = next_kind(rng, &connection);
        let body = match kind {
            Kind::Body => body_size(rng, &connection),
            Kind::BodyChunk if connection.head => 0,
            _ => rng.length().min(MAX_CHUNK),
        };
        let packet = packets::right(rng, kind, body).bytes;
        // One with a header or an attribute too many, or one that is too long, is left out.
        if let Some(after) = stepped(connection, &packet) {
            connection = after;
            course.push(packet);
        }
    }
    course
}

/// A kind of packet that a connection may get.
fn next_kind(rng: &mut Rng, connection: &Connection) -> Kind {
    match connection.state {
        State::Idle if rng.one_in(4) => Kind::CPing,
        State::Idle | State::Closed => Kind::Forward,
        State::Pinged => Kind::CPong,
        State::Busy => {
            let mut kinds = match connection.due {
                true => vec![Kind::Body, Kind::Body],
                false => vec![Kind::GetBody],
            };
            match connection.headers {
                true => kinds.push(Kind::BodyChunk),
                false => kinds.push(Kind::SendHeaders),
            }
            if connection.headers && !connection.due {
                kinds.push(Kind::End);
            }
            rng.of(&kinds)
        }
    }
}

/// The size of a body packet that a connection may get.
fn body_size(rng: &mut Rng, connection: &Connection) -> usize {
    match connection.body_limit() as usize {
        0 => 0,
        most if rng.one_in(12) => most,
        most => rng.between(1, most.min(30)),
    }
}

/// The connection after a packet, where it is accepted.
fn stepped(connection: Connection, packet: &[u8]) -> Option<Connection> {
    let end = match packet.starts_with(&LEADING[0]) {
        true => End::Container,
        false => End::Server,
    };
    match plain::read(end, connection, packet, &mut [0; MAX_PLACES]) {
        Received::Accepted { connection, .. } => Some(connection),
        _ => None,
    }
}

/// Makes something wrong at one of the packets that a connection may get one after the other.
fn spoil(rng: &mut Rng, connection: Connection, packets: &mut Vec<Vec<u8>>) {
    let at = rng.below(packets.len() + 1);
    match rng.below(12) {
        // A packet of a kind that may come there, with a fault in its fields.
        0..=4 => {
            let before = packets[..at]
                .iter()
                .try_fold(connection, |connection, packet| stepped(connection, packet))
                .expect("the connection may get these packets");
            let kind = next_kind(rng, &before);
            let body = rng.length().min(MAX_CHUNK);
            let mut packet = packets::faulty(rng, kind, body).bytes;
            while stepped(before, &packet).is_some() {
                packet = packets::faulty(rng, kind, body).bytes;
            }
            packets.insert(at, packet);
        }
        // A packet of any kind, or one that is not served.
        5 => {
            let kind = any_kind(rng);
            let mut packet = packets::right(rng, kind, 3).bytes;
            if rng.one_in(4) {
                packet = vec![0x12, 0x34, 0, 1, rng.of(&[7, 8])];
            }
            packets.insert(at, packet);
        }
        // No packet at all.
        6 => {
            let length = rng.between(1, 6);
            packets.insert(at, rng.bytes(length));
        }
        // A length that no packet has, or that is not there.
        7 => {
            let mut start = rng.of(&LEADING).to_vec();
            start.extend(rng.of(&[0x1FFC, 0x1FFD, 0x2000, 0xFFFF_u16]).to_be_bytes());
            start.truncate(rng.between(1, 4));
            packets.insert(at, start);
        }
        change => {
            let Some(packet) = packets.get_mut(at) else {
                return;
            };
            match change {
                // A packet that is damaged.
                8 | 9 => damage(rng, packet),
                // Leading bytes of the other direction, of both, or of none.
                10 => {
                    let [other, own] = [rng.of(&LEADING), [packet[0], packet[1]]];
                    let leading = match rng.below(5) {
                        0 => other,
                        1 => [own[0], other[1]],
                        2 => [other[0], own[1]],
                        3 => [rng.byte(), own[1]],
                        _ => [own[0], rng.byte()],
                    };
                    packet[..2].copy_from_slice(&leading);
                }
                // A packet that is not there, or comes twice.
                _ if rng.one_in(2) => {
                    packets.remove(at);
                }
                _ => {
                    let again = packet.clone();
                    packets.insert(at, again);
                }
            }
        }
    }
}

/// Any kind of packet, of either direction.
fn any_kind(rng: &mut Rng) -> Kind {
    match rng.one_in(2) {
        true => rng.of(&TO_CONTAINER),
        false => rng.of(&TO_SERVER),
    }
}

/// A capture cut into parts, which may be of one byte where it is short; some of them are empty.
pub fn parts(rng: &mut Rng, capture: &[u8]) -> Vec<Vec<u8>> {
    let most = rng
        .of(&[1, 2, 5, 20, 100, MAX_PACKET])
        .max(capture.len() / 16);
    let mut parts = Vec::new();
    let mut rest = capture;
    while !rest.is_empty() {
        let length = rng.below(most + 1).min(rest.len());
        let (part, behind) = rest.split_at(length);
        parts.push(part.to_vec());
        rest = behind;
    }
    parts
}

/// A check on the way without an error, and bytes of the capture from its place on. Mostly its
/// connection may get the first packet of them. At times its place is so near to the most bytes of
/// a capture that not all of them are judged, and at times it has a refusal.
fn on_the_way(rng: &mut Rng) -> (Checking, Vec<u8>) {
    let kind = any_kind(rng);
    let connection = words::connection_mostly_for(rng, kind);
    let mut bytes = match rng.below(8) {
        // A capture from its first packet on.
        0 | 1 => capture(rng),
        // Any bytes.
        2 => {
            let length = rng.length();
            rng.bytes(length)
        }
        _ => {
            let body = match kind {
                Kind::Body => words::body_size(rng, &connection),
                Kind::BodyChunk => words::chunk_size(rng, &connection).min(MAX_CHUNK),
                _ => rng.length().min(MAX_CHUNK),
            };
            let packet = match rng.one_in(4) {
                true => packets::faulty(rng, kind, body),
                false => packets::right(rng, kind, body),
            };
            let mut bytes = packet.bytes;
            // Others behind it, which the connection may get then.
            if let Some(after) = stepped(plain_connection(&connection), &bytes) {
                let packets = rng.below(4);
                let mut behind = course(rng, after, packets);
                if rng.one_in(3) {
                    spoil(rng, after, &mut behind);
                }
                bytes.extend(behind.concat());
            }
            bytes
        }
    };
    if rng.one_in(8) {
        let length = rng.below(bytes.len() + 1);
        bytes.truncate(length);
    }

    let place = match rng.below(6) {
        0 => 0,
        1 => rng.word(),
        2 => rng.below(100) as u32,
        // The most bytes of a capture end among these bytes, or a few bytes before or behind them.
        _ => MAX_CAPTURE - rng.below(bytes.len() + 12) as u32,
    };
    let mut checking = [0; SIZE_CHECKING];
    checking[..SIZE_CONNECTION].copy_from_slice(&connection);
    for figure in [CHECKING_PACKETS, CHECKING_REQUESTS, CHECKING_BODY] {
        checking[figure] = match rng.below(4) {
            0 => 0,
            1 => place,
            _ => rng.below(place as usize + 1) as u32,
        };
    }
    checking[CHECKING_PLACE] = place;
    if rng.one_in(8) {
        checking[CHECKING_REFUSAL] = rng.between(1, plain::LAST_REFUSAL.into()) as u32;
    }
    (checking, bytes)
}

/// The connection that words without an error say, for the plain implementation.
fn plain_connection(words: &words::Connection) -> Connection {
    let &[state, left, due, asked, headers, head, ..] = words;
    let states = [State::Idle, State::Pinged, State::Busy, State::Closed];
    Connection {
        state: states[state as usize],
        left,
        due: due == 1,
        asked: asked as u16,
        headers: headers == 1,
        head: head == 1,
    }
}

/// The size of a capture that is at an end: mostly the place of the check or a few bytes more, or
/// one that is about the most bytes of a capture.
fn size(rng: &mut Rng, checking: &Checking) -> u64 {
    let place = u64::from(checking[CHECKING_PLACE]);
    let most = u64::from(MAX_CAPTURE);
    match rng.below(9) {
        0..=2 => place,
        3 => place + 1,
        4 => place + rng.below(MAX_PACKET) as u64,
        // No such capture has so many bytes of packets.
        5 => place.saturating_sub(rng.below(9) as u64),
        6 => most - rng.below(3) as u64,
        7 => most + rng.between(1, 3) as u64,
        // One whose low half is the place.
        _ => (u64::from(rng.word().max(1)) << 32) + place,
    }
}

/// A call of the checker, and what is lent to it.
pub fn any_check(rng: &mut Rng) -> (Call, Lent) {
    let (checking, bytes) = on_the_way(rng);
    let lent = Lent {
        checking: Array::holding(&checking),
        checked: words::words(rng, SIZE_CHECKED),
        ..Lent::default()
    };
    let call = match rng.below(8) {
        0 => Call::Check(capture(rng)),
        1 => Call::CheckBegin,
        2..=5 => Call::CheckGoOn(bytes),
        _ => Call::CheckFinish(size(rng, &checking)),
    };
    (call, lent)
}

/// Whether a call would have answered otherwise if a capture could have more bytes: the same bytes
/// at a place far before the most of them are taken otherwise, or refused otherwise.
pub fn limit_decides(call: &Call, before: &Lent, after: &Lent) -> bool {
    /// How far before.
    const FAR: u32 = 1 << 20;
    let Call::CheckGoOn(_) = call else {
        return false;
    };
    let taken = |before: &Lent, after: &Lent| {
        let [before, after] = [before, after].map(|lent| lent.checking.get());
        let taken = after[CHECKING_PLACE] - before[CHECKING_PLACE];
        (taken, after[CHECKING_REFUSAL])
    };
    let mut elsewhere = before.clone();
    let words = elsewhere.checking.lend();
    for at in [
        CHECKING_PACKETS,
        CHECKING_REQUESTS,
        CHECKING_BODY,
        CHECKING_PLACE,
    ] {
        words[at] = words[at].saturating_sub(FAR);
    }
    let mut then = elsewhere.clone();
    call.at_plain(&mut then);
    taken(before, after) != taken(&elsewhere, &then)
}
