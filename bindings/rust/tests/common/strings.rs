//! Strings, header names and content-lengths, right ones and others.

use super::packets::Kind;
use super::rng::Rng;
use crate::plain;

/// The bytes that no string may hold: a zero, a line feed, a carriage return.
pub const BARRED: [u8; 3] = [0, b'\n', b'\r'];

/// Bytes that are close to those, as numbers or by what they are for, and may stand in any string.
const NEAR: [u8; 9] = [1, b'\t', 11, 12, 14, 15, 0x7F, 0x85, 0x8D];

/// Text that may stand in any string: letters mostly; at times any bytes but the barred ones, or bytes close to those.
pub fn text(rng: &mut Rng) -> Vec<u8> {
    let length = rng.length();
    text_of(rng, length)
}

/// Such a text of so many bytes.
pub fn text_of(rng: &mut Rng, length: usize) -> Vec<u8> {
    let mut text = rng.bytes(length);
    match rng.below(16) {
        0 | 1 => {
            for byte in &mut text {
                if BARRED.contains(byte) {
                    *byte = rng.of(&NEAR);
                }
            }
        }
        2 => {
            for byte in &mut text {
                *byte = rng.of(&NEAR);
            }
        }
        _ => {
            for byte in &mut text {
                *byte = b'a' + *byte % 26;
            }
        }
    }
    text
}

/// A text with a byte in it that no string may hold.
pub fn barred_text(rng: &mut Rng) -> Vec<u8> {
    let mut text = text(rng);
    text.push(b'a');
    bar(rng, &mut text);
    text
}

/// Puts a byte that no string may hold into a text that is not empty.
pub fn bar(rng: &mut Rng, text: &mut [u8]) {
    let at = rng.below(text.len());
    text[at] = rng.of(&BARRED);
}

/// A string for a field that may be null or empty.
pub fn string(rng: &mut Rng) -> Option<Vec<u8>> {
    match rng.below(8) {
        0 => None,
        1 => Some(Vec::new()),
        _ => Some(text(rng)),
    }
}

/// A spelled name that a packet may have: a token, or one that is close to a listed name, or a name that the other list has.
pub fn token(rng: &mut Rng, kind: Kind) -> Vec<u8> {
    const BYTES: &[u8] =
        b"!#$%&'*+-.^_`|~0123456789ABCDEFGHIJKLMNOPQRSTUVWXYZabcdefghijklmnopqrstuvwxyz";
    let list = rng.of(&[Kind::Forward, Kind::SendHeaders]);
    let name = match rng.below(8) {
        0 => {
            let mut close = listed_name(rng, list);
            if rng.one_in(2) {
                close.pop();
            }
            close.push(b'~');
            close
        }
        1 | 2 => {
            let mut close = listed_name(rng, list);
            let at = place_to_change(rng, &close);
            close[at] = match rng.below(3) {
                0 => rng.of(BYTES),
                // A byte close to it as a number: mostly the next letter or the one before.
                1 => close[at] + 1,
                _ => close[at] - 1,
            };
            close
        }
        3 => match kind {
            Kind::Forward => listed_name(rng, Kind::SendHeaders),
            _ => listed_name(rng, Kind::Forward),
        },
        _ => (0..rng.between(1, 12)).map(|_| rng.of(BYTES)).collect(),
    };
    // What became a name of this packet's list, or no token, is no such name.
    let is_token = name.iter().all(|byte| BYTES.contains(byte));
    if !is_token || is_listed(kind, &name) {
        return b"x-valve".to_vec();
    }
    name
}

/// Whether a name is listed for a packet, by the names alone: what is compared here is how they are found.
fn is_listed(kind: Kind, name: &[u8]) -> bool {
    let listed = |code: u16| match kind {
        Kind::Forward => plain::request_header_name(code),
        _ => plain::response_header_name(code),
    };
    let mut names = (0xA001..).map_while(listed);
    names.any(|listed| listed.as_bytes().eq_ignore_ascii_case(name))
}

/// A place in a name: the last one, the first one, one that has no letter, or any.
fn place_to_change(rng: &mut Rng, name: &[u8]) -> usize {
    let is_letter = |at: &usize| name[*at].is_ascii_alphabetic();
    let other = (0..name.len()).find(|at| !is_letter(at));
    match (rng.below(4), other) {
        (0, _) => name.len() - 1,
        (1, _) => 0,
        (2, Some(other)) => other,
        _ => rng.below(name.len()),
    }
}

/// Changes one byte of a text that is not empty: to one that differs in a bit, mostly in that by which letters differ in case, so that
/// a - becomes a carriage return and a 2 becomes 12; or to one close to it as a number, or to any.
pub fn change(rng: &mut Rng, text: &mut [u8]) {
    let at = place_to_change(rng, text);
    text[at] = match rng.below(6) {
        0 | 1 => text[at] ^ 0x20,
        2 => text[at] ^ (1 << rng.below(8)),
        3 => text[at].wrapping_add(1),
        4 => text[at].wrapping_sub(1),
        _ => rng.byte(),
    };
}

/// A code that the headers of a packet may have.
pub fn header_code(rng: &mut Rng, kind: Kind) -> u16 {
    let last = match kind {
        Kind::Forward => 14,
        _ => 11,
    };
    0xA000 + rng.between(1, last) as u16
}

/// A listed header name, with some of its letters in the other case.
pub fn listed_name(rng: &mut Rng, kind: Kind) -> Vec<u8> {
    let code = header_code(rng, kind);
    let name = match kind {
        Kind::Forward => plain::request_header_name(code),
        _ => plain::response_header_name(code),
    };
    let name = name.expect("every code that is chosen is listed");
    other_case(rng, name.as_bytes())
}

/// A name with some of its letters in the other case.
pub fn other_case(rng: &mut Rng, name: &[u8]) -> Vec<u8> {
    let mut name = name.to_vec();
    if rng.one_in(2) {
        for byte in &mut name {
            if byte.is_ascii_alphabetic() && rng.one_in(3) {
                *byte ^= 0x20;
            }
        }
    }
    name
}

/// A spelled name that is refused: no token, listed for this packet, transfer-encoding, or one with a barred byte, beside which it may have
/// a fault of its own. A listed one with a byte changed may be right.
pub fn bad_name(rng: &mut Rng, kind: Kind) -> Vec<u8> {
    match rng.below(6) {
        0 => listed_name(rng, kind),
        1 => other_case(rng, b"transfer-encoding"),
        2 => other_case(rng, b"Content-Length"),
        3 => {
            let mut name = match rng.below(3) {
                0 => listed_name(rng, kind),
                1 => b"not a token".to_vec(),
                _ => token(rng, kind),
            };
            bar(rng, &mut name);
            name
        }
        4 => {
            let mut name = listed_name(rng, kind);
            change(rng, &mut name);
            name
        }
        _ => {
            let mut name = token(rng, kind);
            let at = rng.below(name.len());
            name[at] = rng.of(b" \t\"(),/:;<=>?@[\\]{}\x01\x0b\x0c\x0e\x1f\x7f\x80\xa0\xff");
            name
        }
    }
}

/// A content-length that is accepted.
pub fn content_length(rng: &mut Rng) -> Vec<u8> {
    let number = match rng.below(8) {
        0 => 0,
        1 => u64::from(u32::MAX),
        2 => u64::from(rng.word()),
        3 => rng.below(20_000) as u64,
        _ => rng.below(30) as u64,
    };
    match rng.below(6) {
        0 => format!("{number:010}").into_bytes(),
        _ => number.to_string().into_bytes(),
    }
}

/// A content-length that is refused, by its own rule or by that of strings.
pub fn bad_content_length(rng: &mut Rng) -> Option<Vec<u8>> {
    let text: &[u8] = match rng.below(16) {
        0 => return None,
        1 => b"",
        2 => b"4294967296",
        3 => b"9999999999",
        4 => b"00000000001",
        5 => b"+1",
        6 => b"-1",
        7 => b"1 ",
        8 => b"0x10",
        9 => b"1,2",
        10 => b"/",
        11 => b"1\t",
        12 => b"1\n",
        13 => b"\r1",
        14 => b"+1\r\n",
        _ => b":",
    };
    Some(text.to_vec())
}
