//! Damage to bytes that were a packet.

use super::packets::set_length;
use super::rng::Rng;

/// Changes something in the bytes; where their number changes, the length mostly with it.
pub fn damage(rng: &mut Rng, bytes: &mut Vec<u8>) {
    if bytes.is_empty() {
        return;
    }
    match rng.below(11) {
        // A bit or a whole byte.
        0 => {
            let at = place(rng, bytes);
            bytes[at] ^= 1 << rng.below(8);
        }
        1 => {
            let at = place(rng, bytes);
            bytes[at] = rng.byte();
        }
        // A byte that means something at many places.
        2 | 3 => {
            let at = place(rng, bytes);
            bytes[at] = rng.of(&[0, 1, 2, 3, 8, 0x0A, 0x0B, 0x0D, 0xA0, 0xFF]);
        }
        // A length, or any other number, changed by one.
        4 => {
            let at = place(rng, bytes);
            bytes[at] = bytes[at].wrapping_add(1);
        }
        5 => {
            let at = place(rng, bytes);
            bytes[at] = bytes[at].wrapping_sub(1);
        }
        // The payload's length.
        6 => {
            let at = rng.below(bytes.len().min(4));
            bytes[at] = match rng.below(3) {
                0 => bytes[at].wrapping_add(1),
                1 => bytes[at].wrapping_sub(1),
                _ => rng.byte(),
            };
        }
        // Some bytes dropped, doubled or put in.
        7 => {
            let (from, to) = span(rng, bytes);
            bytes.drain(from..to);
            set_length_mostly(rng, bytes);
        }
        8 => {
            let (from, to) = span(rng, bytes);
            let again = bytes[from..to].to_vec();
            bytes.splice(to..to, again);
            set_length_mostly(rng, bytes);
        }
        9 => {
            let at = place(rng, bytes);
            let count = rng.between(1, 4);
            let other = rng.bytes(count);
            bytes.splice(at..at, other);
            set_length_mostly(rng, bytes);
        }
        // The payload ends early, and its length says so.
        _ => {
            let length = rng.below(bytes.len());
            bytes.truncate(length);
            set_length_mostly(rng, bytes);
        }
    }
}

/// A place; one of the first bytes as often as any other.
fn place(rng: &mut Rng, bytes: &[u8]) -> usize {
    if rng.one_in(2) {
        rng.below(bytes.len().min(40))
    } else {
        rng.below(bytes.len())
    }
}

/// From where to where a few bytes stand.
fn span(rng: &mut Rng, bytes: &[u8]) -> (usize, usize) {
    let from = place(rng, bytes);
    let to = (from + rng.between(1, 12)).min(bytes.len());
    (from, to)
}

/// Sets the length to what is there, but not always.
fn set_length_mostly(rng: &mut Rng, bytes: &mut [u8]) {
    if !rng.one_in(6) {
        set_length(bytes);
    }
}
