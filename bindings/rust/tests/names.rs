//! Names and their codes: the library's look-up and the plain implementation's, over every listed name, over texts that are close to
//! one, over all short texts and over random ones. Then headers with such names, built and read by both.
//!
//! What is listed is told by the library, and how many names a list has stands here. Every test counts what was found.

mod common {
    // Not every call is made here.
    #[allow(dead_code)]
    pub mod by_plain;
    pub mod rng;
    pub mod settings;
}
mod plain;

use ajp13::raw;
use common::by_plain;
use common::rng::Rng;
use common::settings;
use std::collections::BTreeMap;

/// A list: its number, its first code, how many names it has, and whether case counts.
struct List {
    number: u32,
    first: u32,
    names: usize,
    case_counts: bool,
}

const LISTS: [List; 4] = [
    List {
        number: raw::LIST_METHODS,
        first: 1,
        names: 27,
        case_counts: true,
    },
    List {
        number: raw::LIST_REQUEST_HEADERS,
        first: 0xA001,
        names: 14,
        case_counts: false,
    },
    List {
        number: raw::LIST_RESPONSE_HEADERS,
        first: 0xA001,
        names: 11,
        case_counts: false,
    },
    List {
        number: raw::LIST_ATTRIBUTES,
        first: 3,
        names: 11,
        case_counts: true,
    },
];

/// The name that a request may not have, whatever the lists say.
const TRANSFER_ENCODING: &[u8] = b"transfer-encoding";

impl List {
    /// The name of a code, where both have one, which is the same.
    fn name(&self, code: u32) -> Option<Vec<u8>> {
        let mut name = [0; raw::SIZE_NAME];
        let mut other = [0; raw::SIZE_NAME];
        let length = raw::name(self.number, code, &mut name);
        let other_length = by_plain::name(self.number, code, &mut other);
        assert_eq!((length, name), (other_length, other), "code {code}");
        (length > 0).then(|| name[..length as usize].to_vec())
    }

    /// Its names, in the order of their codes.
    fn names(&self) -> Vec<Vec<u8>> {
        let names: Vec<_> = (self.first..).map_while(|code| self.name(code)).collect();
        assert_eq!(names.len(), self.names);
        names
    }
}

/// All listed names.
fn all_names() -> Vec<Vec<u8>> {
    LISTS.iter().flat_map(List::names).collect()
}

/// How many texts were looked up in each list, and in how many of them a code was found.
#[derive(Default)]
struct LookedUp {
    texts: u64,
    found: [u64; 4],
}

impl LookedUp {
    /// Looks a text up in every list, by both.
    fn text(&mut self, text: &[u8]) {
        self.texts += 1;
        for list in &LISTS {
            let code = raw::code(list.number, text);
            let other = by_plain::code(list.number, text);
            assert_eq!(code, other, "{:?} in {}", text.escape_ascii(), list.number);
            self.found[list.number as usize] += u64::from(code != 0);
        }
    }
}

/// Every text with one byte of the name replaced by each of the 256, which is the name itself once for each of its bytes.
fn replaced(name: &[u8]) -> impl Iterator<Item = Vec<u8>> + '_ {
    (0..name.len()).flat_map(move |at| {
        (0..=255).map(move |byte| {
            let mut text = name.to_vec();
            text[at] = byte;
            text
        })
    })
}

/// The name with a byte left out, with one doubled, and with one more at either end; and its beginnings and its ends.
fn of_other_lengths(name: &[u8]) -> Vec<Vec<u8>> {
    let mut texts = Vec::new();
    for at in 0..name.len() {
        texts.push([&name[..at], &name[at + 1..]].concat());
        texts.push([&name[..=at], &name[at..]].concat());
        texts.push(name[..at].to_vec());
        texts.push(name[at + 1..].to_vec());
    }
    for byte in 0..=255 {
        texts.push([&[byte], name].concat());
        texts.push([name, &[byte]].concat());
    }
    texts
}

/// The name with two of its bytes exchanged, and with the same bit changed in two of them.
fn of_two_changes(name: &[u8]) -> Vec<Vec<u8>> {
    let mut texts = Vec::new();
    for second in 0..name.len() {
        for first in 0..second {
            let mut text = name.to_vec();
            text.swap(first, second);
            texts.push(text);
            for bit in 0..8 {
                let mut text = name.to_vec();
                text[first] ^= 1 << bit;
                text[second] ^= 1 << bit;
                texts.push(text);
            }
        }
    }
    texts
}

/// The name in the other case.
fn other_case(name: &[u8]) -> Vec<u8> {
    name.iter()
        .map(|byte| match byte {
            b'a'..=b'z' | b'A'..=b'Z' => byte ^ 0x20,
            _ => *byte,
        })
        .collect()
}

/// Every listed name in every list: it is found under its own code, headers in other case too.
#[test]
fn every_listed_name() {
    for list in &LISTS {
        for (code, name) in (list.first..).zip(list.names()) {
            let lower = name.to_ascii_lowercase();
            let upper = name.to_ascii_uppercase();
            for text in [&name, &lower, &upper, &other_case(&name)] {
                let expected = if list.case_counts && *text != name {
                    0
                } else {
                    code
                };
                assert_eq!(raw::code(list.number, text), expected);
                assert_eq!(by_plain::code(list.number, text), expected);
            }
        }
    }
    let mut looked_up = LookedUp::default();
    for name in all_names() {
        looked_up.text(&name);
    }
    // Two names are in both header lists, content-type and content-length.
    assert_eq!((looked_up.texts, looked_up.found), (63, [27, 16, 13, 11]));
}

/// Every listed name with one byte replaced by every other.
#[test]
fn every_byte_replaced() {
    let mut looked_up = LookedUp::default();
    for name in all_names() {
        for text in replaced(&name) {
            looked_up.text(&text);
        }
        for text in replaced(&other_case(&name)) {
            looked_up.text(&text);
        }
    }
    // Each place of a name finds it once; in the header lists, where it is a letter, twice. Both spellings are tried; where case
    // counts, the other one finds nothing.
    let mut expected = [0; 4];
    for list in &LISTS {
        for name in all_names() {
            let is_listed = list.names().iter().any(|listed| {
                if list.case_counts {
                    *listed == name
                } else {
                    listed.eq_ignore_ascii_case(&name)
                }
            });
            if is_listed {
                let letters = name
                    .iter()
                    .filter(|byte| byte.is_ascii_alphabetic())
                    .count();
                expected[list.number as usize] += if list.case_counts {
                    name.len() as u64
                } else {
                    2 * (name.len() + letters) as u64
                };
            }
        }
    }
    // And POST and host are one letter apart: HOST becomes POST, and both spellings of POST become host in two ways.
    expected[0] += 1;
    expected[1] += 4;
    assert_eq!(looked_up.found, expected);
}

/// Every listed name a byte shorter or longer, and with two bytes changed.
#[test]
fn other_lengths_and_two_changes() {
    let mut looked_up = LookedUp::default();
    for name in all_names() {
        for text in of_other_lengths(&name) {
            looked_up.text(&text);
        }
        for text in of_two_changes(&name) {
            looked_up.text(&text);
        }
    }
    let LookedUp { texts, found } = looked_up;
    println!("{texts} texts, of which {found:?} were found");
    // A 2 less or more at cookie and Set-Cookie; two letters in the other case; two equal letters exchanged.
    assert!(found.iter().all(|found| *found > 0), "{found:?}");
}

/// A listed name with many bytes more before it or behind it, so that the lengths are the same in their last bits.
#[test]
fn much_longer_texts() {
    let mut looked_up = LookedUp::default();
    for name in all_names() {
        for more in (0..=17).map(|bit| 1 << bit) {
            for byte in [0, b' ', b'e', name[0]] {
                let bytes = vec![byte; more];
                looked_up.text(&[&name[..], &bytes].concat());
                looked_up.text(&[&bytes[..], &name].concat());
            }
        }
    }
    assert_eq!((looked_up.texts, looked_up.found), (9072, [0; 4]));
}

/// The first part of a listed name and the rest of another one of the same length, and of the same name in the other case.
#[test]
fn parts_of_two_names() {
    let names = all_names();
    let mut spelled: Vec<Vec<u8>> = names.iter().map(|name| other_case(name)).collect();
    spelled.extend(names);
    let mut looked_up = LookedUp::default();
    for first in &spelled {
        for second in &spelled {
            if first.len() != second.len() {
                continue;
            }
            for at in 0..=first.len() {
                looked_up.text(&[&first[..at], &second[at..]].concat());
            }
        }
    }
    let LookedUp { texts, found } = looked_up;
    println!("{texts} texts, of which {found:?} were found");
    assert!(found.iter().all(|found| *found > 50), "{found:?}");
}

/// Every text of up to two bytes, and every one of three letters.
#[test]
fn every_short_text() {
    let mut looked_up = LookedUp::default();
    looked_up.text(b"");
    for first in 0..=255 {
        looked_up.text(&[first]);
        for second in 0..=255 {
            looked_up.text(&[first, second]);
        }
    }
    assert_eq!((looked_up.texts, looked_up.found), (65793, [0; 4]));
    let letters = || (b'A'..=b'Z').chain(b'a'..=b'z');
    for first in letters() {
        for second in letters() {
            for third in letters() {
                looked_up.text(&[first, second, third]);
            }
        }
    }
    // GET, PUT and ACL.
    assert_eq!(looked_up.found, [3, 0, 0, 0]);
}

/// Random texts over the bytes of the names: any of them, and such that each byte stands in a listed name of this length at this
/// place.
#[test]
fn random_texts() {
    let seed = settings::seed();
    println!("AJP13_SEED={seed}");
    let mut rng = Rng::new(seed);
    let names = all_names();
    let bytes: Vec<u8> = {
        let mut bytes = names.concat();
        bytes.extend(other_case(&bytes));
        bytes.sort_unstable();
        bytes.dedup();
        bytes
    };
    let mut looked_up = LookedUp::default();
    for _ in 0..500_000 {
        let length = rng.below(21);
        let text: Vec<u8> = (0..length).map(|_| rng.of(&bytes)).collect();
        looked_up.text(&text);

        // A listed name with some bytes of others of its length, with some letters in the other case.
        let name = &names[rng.below(names.len())];
        let of_length: Vec<&Vec<u8>> = names
            .iter()
            .filter(|other| other.len() == name.len())
            .collect();
        let [mixes, flips] = [rng.one_in(2), rng.one_in(2)];
        let text: Vec<u8> = (0..name.len())
            .map(|at| {
                let mixed = mixes && rng.one_in(name.len());
                let byte = if mixed {
                    rng.of(&of_length)[at]
                } else {
                    name[at]
                };
                let flip = flips && byte.is_ascii_alphabetic() && rng.one_in(2);
                byte ^ if flip { 0x20 } else { 0 }
            })
            .collect();
        looked_up.text(&text);
    }
    let LookedUp { texts, found } = looked_up;
    println!("{texts} texts, of which {found:?} were found");
    assert!(found.iter().all(|found| *found > 1000), "{found:?}");
}

/// Texts that are easily taken for listed ones, and names that are in one header list alone.
#[test]
fn texts_that_are_easily_mistaken() {
    let request = raw::LIST_REQUEST_HEADERS;
    let response = raw::LIST_RESPONSE_HEADERS;
    let cases: &[(&[u8], u32, u32)] = &[
        (b"", 0, 0),
        (b"content-type", 0xA007, 0xA001),
        (b"CONTENT-TYPE", 0xA007, 0xA001),
        (b"content\rtype", 0, 0),
        (b"content\x0d\x54ype", 0, 0),
        (b"Content\rLanguage", 0, 0),
        (b"content-length", 0xA008, 0xA003),
        (b"CONTENT-LENGTH", 0xA008, 0xA003),
        (b"content\rlength", 0, 0),
        (b"content-lengti", 0, 0),
        (b"contenu-length", 0, 0),
        (b"dontent-length", 0, 0),
        (b"accept-language", 0xA004, 0),
        (b"accept-languagf", 0, 0),
        (b"accept\rlanguage", 0, 0),
        (b"cookie", 0xA009, 0),
        (b"cookie2", 0xA00A, 0),
        (b"cookie\x12", 0, 0),
        (b"cookieR", 0, 0),
        (b"cookier", 0, 0),
        (b"Set-Cookie2", 0, 0xA008),
        (b"Set-Cookie\x12", 0, 0),
        (b"Set\rCookie2", 0, 0),
        (b"user-agent", 0xA00E, 0),
        (b"user\ragent", 0, 0),
        (b"set-cookie", 0, 0xA007),
        (b"host", 0xA00B, 0),
        (b"date", 0, 0xA004),
        (b"location", 0, 0xA006),
        (b"www-authenticate", 0, 0xA00B),
        (b"www\rauthenticate", 0, 0),
        (TRANSFER_ENCODING, 0, 0),
        (b"Transfer-Encoding", 0, 0),
        (b"accept\0", 0, 0),
        (b"\0accept", 0, 0),
        (b"accept ", 0, 0),
        (b"GET", 0, 0),
    ];
    for (text, in_request, in_response) in cases {
        for (list, expected) in [(request, *in_request), (response, *in_response)] {
            let told = format!("{} in {list}", text.escape_ascii());
            assert_eq!(raw::code(list, text), expected, "library: {told}");
            assert_eq!(by_plain::code(list, text), expected, "plain: {told}");
        }
    }
    let mut looked_up = LookedUp::default();
    for text in replaced(TRANSFER_ENCODING) {
        looked_up.text(&text);
    }
    for text in of_other_lengths(TRANSFER_ENCODING) {
        looked_up.text(&text);
    }
    assert_eq!(looked_up.found, [0; 4]);
}

/// What a header with a name came to, each outcome and how often.
type Outcomes = BTreeMap<(&'static str, u32), u64>;

/// The names that headers are built and read with: those of both header lists and transfer-encoding, as they stand and changed, or
/// longer by 256 bytes.
fn header_names() -> Vec<Vec<u8>> {
    let mut names = vec![Vec::new()];
    let mut listed = LISTS[1].names();
    listed.extend(LISTS[2].names());
    listed.push(TRANSFER_ENCODING.to_vec());
    for name in &listed {
        names.push(other_case(name));
        names.extend(replaced(name));
        names.extend(of_other_lengths(name));
        names.push([&name[..], &[b'e'; 256]].concat());
    }
    names
}

/// Begins a packet that has no header yet, by the library.
fn begun(is_response: bool, buffer: &mut [u8]) -> [u32; raw::SIZE_BUILDING] {
    let mut building = [0; raw::SIZE_BUILDING];
    let status = if is_response {
        raw::begin_send_headers(&mut building, buffer, 200, b"OK", 0)
    } else {
        let fixed = [2, 80, 0, 0, 0, 1, 1, 1];
        raw::begin_forward(
            &mut building,
            buffer,
            &fixed,
            b"HTTP/1.1",
            b"/",
            b"",
            b"",
            b"",
        )
    };
    assert_eq!(status, raw::DONE);
    building
}

/// A header with each of these names, added by its name and as a spelled one: both implementations refuse it with the same number or
/// write the same bytes, and where it is added by its name, these have the code exactly where the name is listed.
#[test]
fn headers_built_by_names() {
    let names = header_names();
    for is_response in [false, true] {
        let mut outcomes = Outcomes::new();
        let mut before = [0xEE; 400];
        let building = begun(is_response, &mut before);
        let next = building[raw::BUILDING_NEXT] as usize;
        let list = 1 + u32::from(is_response);
        for name in &names {
            for value in [b"5", b"v"] {
                let mut both = [(building, before); 2];
                let [(record, buffer), (other_record, other_buffer)] = &mut both;
                let status = raw::header_named(record, buffer, name, value, 0);
                let other = by_plain::header_named(other_record, other_buffer, name, value, 0);
                let told = name.escape_ascii();
                assert_eq!(status, other, "by its name: {told}");
                assert!(both[0] == both[1], "by its name: {told}");
                let is_coded = both[0].1[next] == 0xA0;
                let is_listed = raw::code(list, name) != 0;
                let outcome = match (status, is_coded) {
                    (raw::DONE, true) => "by its code",
                    (raw::DONE, false) => "spelled",
                    _ => "by its name",
                };
                if status == raw::DONE {
                    assert_eq!(is_coded, is_listed, "{told}");
                }
                *outcomes.entry((outcome, status)).or_default() += 1;

                let mut both = [(building, before); 2];
                let [(record, buffer), (other_record, other_buffer)] = &mut both;
                let status = raw::header_spelled(record, buffer, name, 0, value, 0);
                let other = by_plain::header_spelled(other_record, other_buffer, name, 0, value, 0);
                assert_eq!(status, other, "as a spelled one: {told}");
                assert!(both[0] == both[1], "as a spelled one: {told}");
                assert!(status != raw::DONE || !is_listed, "{told}");
                *outcomes.entry(("as a spelled one", status)).or_default() += 1;
            }
        }
        println!("response: {is_response}, {outcomes:?}");
        let mut expected = vec![
            ("as a spelled one", raw::DONE),
            ("as a spelled one", 6),
            ("as a spelled one", 8),
            ("by its code", raw::DONE),
            ("by its name", 6),
            ("by its name", 8),
            ("spelled", raw::DONE),
        ];
        // A content-length that is none, and transfer-encoding.
        if !is_response {
            expected.extend([("as a spelled one", 10), ("by its name", 10)]);
            expected.sort_unstable();
        }
        assert!(outcomes.keys().eq(&expected), "{outcomes:?}");
    }
}

/// A packet with one header, whose name is spelled.
fn packet_with(is_response: bool, name: &[u8]) -> Vec<u8> {
    let mut packet: Vec<u8> = if is_response {
        b"\x41\x42\0\0\x04\0\xc8\0\x02OK\0\0\x01".to_vec()
    } else {
        b"\x12\x34\0\0\x02\x02\0\x08HTTP/1.1\0\0\x01/\0\xff\xff\xff\xff\xff\xff\0\x50\0\0\x01"
            .to_vec()
    };
    packet.extend((name.len() as u16).to_be_bytes());
    packet.extend(name);
    packet.extend(b"\0\0\x015\0");
    if !is_response {
        packet.push(0xFF);
    }
    let length = (packet.len() - 4) as u16;
    packet[2..4].copy_from_slice(&length.to_be_bytes());
    packet
}

/// A Forward and a Send Headers with each of these names spelled, read by both.
#[test]
fn spelled_names_read() {
    let names = header_names();
    for is_response in [false, true] {
        let mut outcomes = Outcomes::new();
        let mut connection = [0; raw::SIZE_CONNECTION];
        assert_eq!(raw::fresh(&mut connection), raw::DONE);
        if is_response {
            connection[raw::CONNECTION_STATE] = raw::STATE_BUSY;
        }
        let list = 1 + u32::from(is_response);
        for name in &names {
            let packet = packet_with(is_response, name);
            let before = (connection, [0xABCD; 4], [0; raw::SIZE_ANSWER]);
            let mut both = [before; 2];
            let [(at_end, table, answer), (other_end, other_table, other_answer)] = &mut both;
            let (status, other) = if is_response {
                (
                    raw::read_at_server(at_end, &packet, table, answer),
                    by_plain::read_at_server(other_end, &packet, other_table, other_answer),
                )
            } else {
                (
                    raw::read_at_container(at_end, &packet, table, answer),
                    by_plain::read_at_container(other_end, &packet, other_table, other_answer),
                )
            };
            assert_eq!(status, other, "{}", name.escape_ascii());
            assert!(both[0] == both[1], "{}", name.escape_ascii());
            if raw::code(list, name) != 0 {
                assert_eq!(status, 8, "{}", name.escape_ascii());
            }
            *outcomes.entry(("read", status)).or_default() += 1;
        }
        println!("response: {is_response}, {outcomes:?}");
        let expected: &[u32] = if is_response {
            &[raw::DONE, 6, 8]
        } else {
            &[raw::DONE, 6, 8, 10]
        };
        assert!(
            outcomes.keys().map(|(_, status)| status).eq(expected),
            "{outcomes:?}"
        );
    }
}
