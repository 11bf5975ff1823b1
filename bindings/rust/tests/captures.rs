//! Captures of real peers, checked by the library, as a whole and in parts, and by the plain
//! implementation; and captures of the greatest size.
//!
//! The captures are those of the program `check_capture`, in its folder `captures`. What the checker
//! writes of each is in `expected.tsv` there: the file's name, a tab, and the lines joined by
//! semicolons. A line that begins with `#` tells nothing.
//!
//! The parts follow from a seed, which the environment sets (`AJP13_SEED`).

mod common {
    pub mod rng;
    pub mod settings;
}
mod plain;

use ajp13::{check, Checked, Checking, Refusal, State, MAX_CAPTURE, MAX_CHUNK, MAX_PACKET};
use common::rng::Rng;
use common::settings;
use std::fs;
use std::path::{Path, PathBuf};

/// How often each capture is cut into random parts.
const ROUNDS: u64 = 1000;

const CPING: &[u8] = b"\x12\x34\x00\x01\x0A";
const CPONG: &[u8] = b"\x41\x42\x00\x01\x09";
/// GET /, port 80.
const FORWARD: &[u8] = b"\x12\x34\x00\x1D\x02\x02\x00\x08HTTP/1.1\0\x00\x01/\0\
    \xFF\xFF\xFF\xFF\xFF\xFF\x00\x50\x00\x00\x00\xFF";
/// 200 OK.
const SEND_HEADERS: &[u8] = b"\x41\x42\x00\x0A\x04\x00\xC8\x00\x02OK\0\x00\x00";

/// The chunk "ok".
const CHUNK: &[u8] = b"\x41\x42\x00\x06\x03\x00\x02ok\0";

/// A capture of a real peer, and what the checker writes of it.
struct Capture {
    name: String,
    bytes: Vec<u8>,
    expected: String,
}

/// The captures that are listed. Each file of the folder is listed once.
fn captures() -> Vec<Capture> {
    let folder = Path::new(env!("CARGO_MANIFEST_DIR")).join("../../crates/check_capture/data");
    let text = fs::read_to_string(folder.join("expected.tsv")).expect("the list can be read");
    let listed = text.lines().filter(|line| !line.starts_with('#'));
    let captures: Vec<Capture> = listed
        .map(|line| line.split_once('\t').expect("a name and what is written"))
        .map(|(name, expected)| Capture {
            name: name.to_string(),
            bytes: fs::read(folder.join(name)).expect("a listed capture can be read"),
            expected: expected.to_string(),
        })
        .collect();
    let mut names: Vec<&str> = captures.iter().map(|capture| &*capture.name).collect();
    names.sort_unstable();
    assert_eq!(names, files(&folder), "the list and the folder");
    assert!(!names.is_empty());
    captures
}

/// The names of the captures in a folder, in order.
fn files(folder: &Path) -> Vec<String> {
    let paths = fs::read_dir(folder).expect("the folder can be read");
    let paths = paths.map(|entry| entry.expect("an entry can be read").path());
    let paths = paths.filter(|path| path.extension().is_some_and(|end| end == "ajp"));
    let name = |path: PathBuf| path.file_name().unwrap().to_string_lossy().into_owned();
    let mut names: Vec<String> = paths.map(name).collect();
    names.sort_unstable();
    names
}

/// What the plain implementation says of a capture, in the lines that the checker writes.
fn by_plain(capture: &[u8]) -> String {
    let checked = plain::check(capture);
    let state = match checked.state {
        plain::State::Idle => "idle",
        plain::State::Pinged => "pinged",
        plain::State::Busy => "busy",
        plain::State::Closed => "closed",
    };
    let plain::Figures {
        packets,
        requests,
        body,
    } = checked.figures;
    format!(
        "packets={packets}\nrequests={requests}\nbody={body}\nstate={state}\nrefusal={}\nplace={}",
        checked.refusal, checked.place
    )
}

/// Checks a capture in parts that end at these places, each of them with what the check had not
/// taken before it.
fn in_parts(capture: &[u8], ends: impl IntoIterator<Item = usize>) -> Checked {
    let mut checking = Checking::begin();
    for end in ends {
        let before = checking.clone();
        let start = checking.place() as usize;
        let taken = checking.go_on(&capture[start..end]);
        assert_eq!(checking.place() as usize, start + taken);
        // A window of the longest packet's size has room for more; and nothing goes on behind a
        // fault.
        match before.refusal() {
            None => assert!(end - start - taken < MAX_PACKET || checking.refusal().is_some()),
            Some(_) => assert_eq!(checking, before),
        }
    }
    checking.finish(capture.len() as u64)
}

#[test]
fn each_capture_gives_what_is_expected() {
    for Capture {
        name,
        bytes,
        expected,
    } in captures()
    {
        let lines = expected.replace(';', "\n");
        assert_eq!(check(&bytes).to_string(), lines, "{name}");
        assert_eq!(by_plain(&bytes), lines, "{name}, plain");
    }
}

#[test]
fn each_capture_cut_at_every_place() {
    for Capture { name, bytes, .. } in captures() {
        let whole = check(&bytes);
        for cut in 0..=bytes.len() {
            // The first part alone, as a capture.
            let first = &bytes[..cut];
            assert_eq!(check(first).to_string(), by_plain(first), "{name} {cut}");
            // And the second one behind it.
            let parts = in_parts(&bytes, [cut, bytes.len()]);
            assert_eq!(parts, whole, "{name} {cut}");
        }
        let single_bytes = in_parts(&bytes, 1..=bytes.len());
        assert_eq!(single_bytes, whole, "{name}");
    }
}

#[test]
fn each_capture_in_random_parts() {
    let seed = settings::seed();
    for Capture { name, bytes, .. } in captures() {
        let whole = check(&bytes);
        for round in 0..ROUNDS {
            let mut rng = Rng::of_round(seed, &name, round);
            let most = rng.of(&[3, 20, 200, MAX_PACKET, 3 * MAX_PACKET]);
            let mut ends = Vec::new();
            let mut end = 0;
            while end < bytes.len() {
                end = (end + rng.below(most + 1)).min(bytes.len());
                ends.push(end);
            }
            let parts = in_parts(&bytes, ends);
            assert_eq!(parts, whole, "{name} AJP13_SEED={seed} round {round}");
        }
    }
}

/// A capture is read in a window of constant size, as the examples read it.
#[test]
fn each_capture_in_a_window() {
    for Capture { name, bytes, .. } in captures() {
        let mut checking = Checking::begin();
        let mut window = [0; MAX_PACKET];
        let mut there = 0;
        let mut rest = &bytes[..];
        while checking.refusal().is_none() && !rest.is_empty() {
            assert!(there < window.len(), "{name}");
            let came = rest.len().min(window.len() - there);
            window[there..there + came].copy_from_slice(&rest[..came]);
            rest = &rest[came..];
            there += came;
            let taken = checking.go_on(&window[..there]);
            window.copy_within(taken..there, 0);
            there -= taken;
        }
        let size = u64::from(checking.place()) + there as u64;
        assert_eq!(checking.finish(size), check(&bytes), "{name}");
    }
}

/// What the checker writes of short captures, the lines joined by semicolons.
#[test]
fn short_captures() {
    for (packets, lines) in [
        (
            &[][..],
            "packets=0;requests=0;body=0;state=idle;refusal=0;place=0",
        ),
        (
            &[CPING, CPONG],
            "packets=2;requests=0;body=0;state=idle;refusal=0;place=10",
        ),
        // Not at an end of a cycle: it passes.
        (
            &[CPING],
            "packets=1;requests=0;body=0;state=pinged;refusal=0;place=5",
        ),
        (
            &[FORWARD, SEND_HEADERS, CHUNK],
            "packets=3;requests=1;body=0;state=busy;refusal=0;place=57",
        ),
        // A packet that is not whole is told before it is judged.
        (
            &[b"\x12"],
            "packets=0;requests=0;body=0;state=idle;refusal=17;place=0",
        ),
        (
            &[b"\x41"],
            "packets=0;requests=0;body=0;state=idle;refusal=17;place=0",
        ),
        (
            &[b"\x12\x34\xFF"],
            "packets=0;requests=0;body=0;state=idle;refusal=17;place=0",
        ),
        (
            &[b"\x41\x42\x00\x05\x03"],
            "packets=0;requests=0;body=0;state=idle;refusal=17;place=0",
        ),
        (
            &[CPING, b"\x41\x42"],
            "packets=1;requests=0;body=0;state=pinged;refusal=17;place=5",
        ),
        // Leading bytes of neither direction, and a length that no packet has.
        (
            &[b"\x13"],
            "packets=0;requests=0;body=0;state=idle;refusal=1;place=0",
        ),
        (
            &[b"\x12\x42"],
            "packets=0;requests=0;body=0;state=idle;refusal=1;place=0",
        ),
        (
            &[b"\x41\x34"],
            "packets=0;requests=0;body=0;state=idle;refusal=1;place=0",
        ),
        (
            &[b"\x12\x34\x1F\xFD"],
            "packets=0;requests=0;body=0;state=idle;refusal=2;place=0",
        ),
        // The state is the one before the refused packet.
        (
            &[CPING, CPING],
            "packets=1;requests=0;body=0;state=pinged;refusal=13;place=5",
        ),
        (
            &[CPONG],
            "packets=0;requests=0;body=0;state=idle;refusal=13;place=0",
        ),
    ] {
        let capture = packets.concat();
        let lines = lines.replace(';', "\n");
        assert_eq!(check(&capture).to_string(), lines, "{capture:02x?}");
        assert_eq!(by_plain(&capture), lines, "{capture:02x?}, plain");
    }
}

/// A Forward with these headers, their number in front of them, and attributes, their end behind
/// them.
fn forward(headers: &[u8], attributes: &[u8]) -> Vec<u8> {
    // What stands before the number of headers, and its length.
    let fixed = &FORWARD[..FORWARD.len() - 3];
    let mut packet = [fixed, headers, attributes].concat();
    let payload = (packet.len() - 4) as u16;
    packet[2..4].copy_from_slice(&payload.to_be_bytes());
    packet
}

/// The bytes of body packets count, also of one that begins as a Forward does. Those of chunks do
/// not.
#[test]
fn body_bytes_are_those_of_body_packets() {
    let post = forward(b"\x00\x01\xA0\x08\x00\x03524\0", b"\xFF");
    let body = [&b"\x12\x34\x02\x0C\x02\x0A"[..], &[0; 522]].concat();
    let get_body = b"\x41\x42\x00\x03\x06\x1F\xFA";
    let rest = b"\x12\x34\x00\x04\x00\x02hi";
    let capture = [&post, &body, SEND_HEADERS, get_body, CHUNK, rest].concat();
    let checked = check(&capture);
    assert!(checked.passes());
    assert_eq!(checked.packets, 6);
    assert_eq!(checked.requests, 1);
    assert_eq!(checked.body, 524);
    assert_eq!(checked.state, State::Busy);
    assert_eq!(checked.to_string(), by_plain(&capture));
}

/// A packet that fills all 328 places of a table is accepted.
#[test]
fn as_many_headers_and_attributes_as_are_allowed() {
    let header = b"\xA0\x01\xFF\xFF";
    let attribute = b"\x0A\x00\x01a\0\xFF\xFF";
    let [headers, attributes] = [header.repeat(100), attribute.repeat(64)];
    let capture = forward(
        &[b"\x00\x64", &headers[..]].concat(),
        &[&attributes[..], b"\xFF"].concat(),
    );
    let checked = check(&capture);
    assert!(checked.passes(), "{checked}");
    assert_eq!(checked.to_string(), by_plain(&capture));
    // One header or one attribute more is too many.
    for (headers, attributes) in [(101, 64), (100, 65)] {
        let capture = forward(
            &[&[0, headers][..], &header.repeat(headers.into())].concat(),
            &[&attribute.repeat(attributes)[..], b"\xFF"].concat(),
        );
        assert_eq!(check(&capture).refusal, Some(Refusal::TooMany));
    }
}

/// A Send Body Chunk of so many bytes in all.
fn chunk(length: usize) -> Vec<u8> {
    let overhead = MAX_PACKET - MAX_CHUNK;
    let payload = (length - 4) as u16;
    let bytes = (length - overhead) as u16;
    let mut packet = vec![0; length];
    packet[..2].copy_from_slice(b"\x41\x42");
    packet[2..4].copy_from_slice(&payload.to_be_bytes());
    packet[4] = 3;
    packet[5..7].copy_from_slice(&bytes.to_be_bytes());
    packet
}

/// A request whose response goes on and on in chunks of the greatest size, up to where so many
/// bytes are left of the most that a capture may have.
fn long_check(left: u32) -> Checking {
    let mut checking = Checking::begin();
    assert_eq!(checking.go_on(FORWARD), FORWARD.len());
    assert_eq!(checking.go_on(SEND_HEADERS), SEND_HEADERS.len());
    let mut packets = 2;
    let longest = chunk(MAX_PACKET);
    while MAX_CAPTURE - checking.place() >= left + 2 * MAX_PACKET as u32 {
        assert_eq!(checking.go_on(&longest), MAX_PACKET);
        packets += 1;
    }
    // Two chunks more, of about the same size.
    let room = (MAX_CAPTURE - checking.place() - left) as usize;
    for length in [room / 2, room - room / 2] {
        assert_eq!(checking.go_on(&chunk(length)), length);
        packets += 1;
    }
    assert_eq!(MAX_CAPTURE - checking.place(), left);
    assert_eq!(checking.finish(0).packets, packets);
    checking
}

/// The answer at the end of a capture.
fn ends_as(checking: &Checking, size: u64, refusal: Option<Refusal>, place: u32) {
    let checked = checking.finish(size);
    assert_eq!(checked.refusal, refusal, "{size}");
    assert_eq!(checked.place, place, "{size}");
    assert_eq!(checked.requests, 1);
    assert_eq!(checked.body, 0);
    assert_eq!(checked.state, State::Busy);
}

#[test]
fn a_capture_of_the_most_bytes() {
    let most = u64::from(MAX_CAPTURE);
    let unfinished = Some(Refusal::UnfinishedPacket);
    let too_long = Some(Refusal::CaptureTooLong);

    // Just so many bytes.
    let mut checking = long_check(0);
    ends_as(&checking, most, None, MAX_CAPTURE);
    ends_as(&checking, most + 1, too_long, MAX_CAPTURE);
    ends_as(&checking, u64::MAX, too_long, MAX_CAPTURE);
    // What is behind them is not looked at.
    let full = checking.clone();
    for behind in [&chunk(8)[..], b"\x13", b"GET / HTTP/1.1"] {
        assert_eq!(checking.go_on(behind), 0);
        assert_eq!(checking, full);
    }

    // A packet that has just room, and one that has not.
    let mut checking = long_check(8);
    assert_eq!(checking.go_on(&chunk(9)), 0);
    ends_as(&checking, most, unfinished, MAX_CAPTURE - 8);
    ends_as(&checking, most + 1, too_long, MAX_CAPTURE);
    assert_eq!(checking.refusal(), None);
    assert_eq!(checking.go_on(&[chunk(8), chunk(8)].concat()), 8);
    ends_as(&checking, most, None, MAX_CAPTURE);
    ends_as(&checking, most + 1, too_long, MAX_CAPTURE);

    // A fault before the last byte keeps its number and its place.
    let mut checking = long_check(6);
    assert_eq!(checking.go_on(b"\x41\x42\x00\x02\x05\x02"), 0);
    let place = MAX_CAPTURE - 6;
    ends_as(&checking, most, Some(Refusal::OutOfRange), place);
    ends_as(&checking, most + 9, Some(Refusal::OutOfRange), place);
}
