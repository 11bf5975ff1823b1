//! Cases of the six calls that write a whole packet, and of how many bytes a body packet may hold.

use super::calls::{Array, Call, Lent};
use super::packets::Kind;
use super::rng::Rng;
use super::words;

/// One of the six calls that write a packet, or the one that tells how many bytes a body packet
/// may hold, and what is lent to it.
pub fn one_call(rng: &mut Rng) -> (Call, Lent) {
    if rng.one_in(9) {
        let kind = rng.of(&[Kind::Body, Kind::Body, Kind::GetBody, Kind::CPing]);
        let lent = Lent {
            connection: Array::holding(&words::connection_mostly_for(rng, kind)),
            ..Lent::default()
        };
        return (Call::LargestBody, lent);
    }
    let kind = rng.of(&[
        Kind::CPing,
        Kind::CPong,
        Kind::Body,
        Kind::Body,
        Kind::BodyChunk,
        Kind::BodyChunk,
        Kind::GetBody,
        Kind::End,
    ]);
    let connection = words::connection_mostly_for(rng, kind);
    let (call, needed) = match kind {
        Kind::CPing => (Call::CPing, 5),
        Kind::CPong => (Call::CPong, 5),
        Kind::Body => {
            let size = match rng.below(300) {
                0 => rng.of(&[8186, 8187, 65535, 65536, 70_000]),
                _ => words::body_size(rng, &connection),
            };
            let needed = if size == 0 { 4 } else { 6 + size };
            (Call::Body(rng.bytes(size)), needed)
        }
        Kind::BodyChunk => {
            let size = match rng.below(100) {
                0 => rng.of(&[8183, 8184, 8185, 8186, 65535, 65536, 70_000]),
                _ => words::chunk_size(rng, &connection),
            };
            (Call::BodyChunk(rng.bytes(size)), 8 + size)
        }
        Kind::GetBody => (Call::GetBody(rng.short().into()), 7),
        _ => {
            let reuse = match rng.below(8) {
                0 => words::above_1(rng),
                _ => rng.below(2) as u32,
            };
            (Call::End(reuse), 6)
        }
    };
    let length = words::array_length(rng, needed);
    let lent = Lent {
        connection: Array::holding(&connection),
        buffer: words::buffer(rng, length),
        answer: words::answer(rng),
        ..Lent::default()
    };
    (call, lent)
}
