//! The library and the plain implementation, compared on generated cases: every case is a call made
//! at both, and the status and every element of every lent array afterwards have to be the same.
//!
//! The cases follow from a seed. The environment sets the seed (`AJP13_SEED`), how many cases there
//! are (`AJP13_CASES`) and after how many seconds to stop (`AJP13_SECONDS`). Each test below has a
//! share of them. `cargo test --release --test compare -- --nocapture` prints how often each status
//! was seen, and how often each wrong length and each word out of range decided one.

mod common {
    pub mod by_plain;
    pub mod calls;
    pub mod captures;
    pub mod damage;
    pub mod odd;
    pub mod packets;
    pub mod pieces;
    pub mod reading;
    pub mod rng;
    pub mod run;
    pub mod sending;
    pub mod settings;
    pub mod strings;
    pub mod views;
    pub mod words;
    pub mod wrong;
}
mod plain;

use ajp13::raw::{
    ANSWER_BYTES, BUILDING_NEXT, CHECKING_PLACE, CHECKING_REFUSAL, DONE, ERROR_ANSWER_LENGTH,
    ERROR_ARGUMENT, ERROR_BUILDING_LENGTH, ERROR_BUILDING_WORD, ERROR_CHECKING_LENGTH,
    ERROR_CHECKING_WORD, ERROR_CONNECTION_LENGTH, ERROR_CONNECTION_WORD, ERROR_FIXED_LENGTH,
    ERROR_FIXED_WORD, MAX_PACKET, MAX_PLACES, NEEDS, SIZE_BUILDING, SIZE_CHECKED, SIZE_CHECKING,
};
use common::calls::{Array, Call, Lent};
use common::captures;
use common::odd::{self, Expected, Odd};
use common::packets::{self, Kind};
use common::pieces;
use common::reading::{self, TO_CONTAINER, TO_SERVER};
use common::rng::Rng;
use common::run::{Run, NUMBER, ZERO};
use common::sending;
use common::strings;
use common::views;
use common::words;
use common::wrong;

/// The container's end reads Forward, CPing and body packets.
#[test]
fn reading_at_the_container() {
    let mut run = Run::new("reading at the container", 17);
    while let Some(mut rng) = run.next_round() {
        let kind = rng.of(&TO_CONTAINER);
        let (bytes, lent) = reading::reading(&mut rng, kind);
        run.compare(&Call::ReadAtContainer(bytes), &lent);
    }
    run.finish(&[(
        "read_at_container",
        &[
            DONE, NEEDS, 1, 2, 3, 4, 5, 6, 7, 8, 9, 10, 11, 12, 13, 14, 15,
        ],
    )]);
}

/// The server's end reads Send Headers, chunks, Get, End and CPong.
#[test]
fn reading_at_the_server() {
    let mut run = Run::new("reading at the server", 14);
    while let Some(mut rng) = run.next_round() {
        let kind = rng.of(&TO_SERVER);
        let (bytes, lent) = reading::reading(&mut rng, kind);
        run.compare(&Call::ReadAtServer(bytes), &lent);
    }
    run.finish(&[(
        "read_at_server",
        &[DONE, NEEDS, 1, 2, 3, 4, 6, 7, 8, 11, 12, 13, 14, 15],
    )]);
}

/// A packet that is cut off at any place, first as it stands and then with a length that says so:
/// the first needs more, the second ends inside a field.
#[test]
fn every_prefix() {
    let mut run = Run::new("every prefix", 9);
    while let Some(mut rng) = run.next_round() {
        let at_container = rng.one_in(2);
        let kind = if at_container {
            rng.of(&TO_CONTAINER)
        } else {
            rng.of(&TO_SERVER)
        };
        let (packet, lent) = reading::packet_and_connection(&mut rng, kind);
        if packet.bytes.len() > 300 {
            continue;
        }
        for length in 0..=packet.bytes.len() {
            let prefix = packet.bytes[..length].to_vec();
            let mut whole = prefix.clone();
            packets::set_length(&mut whole);
            for bytes in [prefix, whole] {
                let call = if at_container {
                    Call::ReadAtContainer(bytes)
                } else {
                    Call::ReadAtServer(bytes)
                };
                run.compare(&call, &lent);
            }
        }
    }
    run.finish(&[
        (
            "read_at_container",
            &[DONE, NEEDS, 3, 4, 5, 6, 7, 8, 9, 10, 11, 12, 13, 14, 15],
        ),
        (
            "read_at_server",
            &[DONE, NEEDS, 3, 4, 6, 7, 8, 11, 12, 13, 14, 15],
        ),
    ]);
}

/// The six packets that one call writes, and how many bytes a body packet may hold.
#[test]
fn sending_in_one_call() {
    let mut run = Run::new("sending in one call", 11);
    while let Some(mut rng) = run.next_round() {
        let (call, lent) = sending::one_call(&mut rng);
        run.compare(&call, &lent);
    }
    run.finish(&[
        ("cping", &[DONE, 13, 15]),
        ("cpong", &[DONE, 13, 15]),
        ("body", &[DONE, 13, 14, 15]),
        ("body_chunk", &[DONE, 2, 13, 14, 15]),
        ("get_body", &[DONE, 13, 15]),
        ("end", &[DONE, 7, 13, 15]),
        ("largest_body", &[ZERO, NUMBER]),
    ]);
}

/// A piece of any kind with any building record over any buffer.
#[test]
fn single_pieces() {
    let mut run = Run::new("single pieces", 13);
    while let Some(mut rng) = run.next_round() {
        let (call, lent) = pieces::single_piece(&mut rng);
        run.compare(&call, &lent);
    }
    run.finish(&[
        ("begin_forward", &[DONE, 2, 6, 7, 15]),
        ("begin_send_headers", &[DONE, 2, 6, 7, 15]),
        ("header_coded", &[DONE, 2, 6, 8, 10, 11, 15, 16]),
        ("header_spelled", &[DONE, 2, 6, 8, 10, 11, 15, 16]),
        ("header_named", &[DONE, 2, 6, 8, 10, 11, 15, 16]),
        ("attribute_text", &[DONE, 2, 6, 9, 15, 16]),
        ("attribute_integer", &[DONE, 2, 9, 15, 16]),
        ("attribute_pair", &[DONE, 2, 6, 9, 15, 16]),
    ]);
}

/// A packet piece by piece and its closing, each call with what the one before it left; then the
/// other end reads what was closed.
#[test]
fn whole_packets_in_pieces() {
    let mut run = Run::new("whole packets in pieces", 9);
    while let Some(mut rng) = run.next_round() {
        in_pieces(&mut run, &mut rng);
    }
    run.finish(&[
        ("begin_forward", &[DONE, 2, 6, 7, 15]),
        ("begin_send_headers", &[DONE, 2, 6, 7, 15]),
        ("header_coded", &[DONE, 2, 6, 8, 10, 11, 15, 16]),
        ("header_spelled", &[DONE, 2, 6, 8, 10, 11, 15, 16]),
        ("header_named", &[DONE, 2, 6, 8, 10, 11, 15, 16]),
        ("attribute_text", &[DONE, 2, 6, 9, 15, 16]),
        ("attribute_integer", &[DONE, 2, 9, 15, 16]),
        ("attribute_pair", &[DONE, 2, 6, 9, 15, 16]),
        ("close", &[DONE, 2, 9, 10, 11, 13, 15]),
        ("read_at_container", &[DONE]),
        ("read_at_server", &[DONE]),
    ]);
}

/// Builds a packet in pieces, closes it, and lets the other end read it.
fn in_pieces(run: &mut Run, rng: &mut Rng) {
    let kind = rng.of(&[Kind::Forward, Kind::SendHeaders]);
    let connection = words::connection_mostly_for(rng, kind);
    // A few pieces mostly; at times more headers or attributes than are allowed, short ones.
    let many = rng.one_in(50);
    let (headers, attributes) = match kind {
        Kind::Forward if many && rng.one_in(2) => (0, rng.between(60, 80)),
        _ if many => (rng.between(95, 125), 0),
        _ => (rng.below(6), rng.below(5)),
    };
    let length = match rng.below(6) {
        _ if many => MAX_PACKET,
        0 => rng.length(),
        1 => rng.below(200),
        2 => MAX_PACKET + 8,
        3 => MAX_PACKET,
        _ => 600,
    };
    let mut lent = Lent {
        connection: Array::holding(&connection),
        building: words::words(rng, SIZE_BUILDING),
        buffer: words::buffer(rng, length),
        answer: words::answer(rng),
        ..Lent::default()
    };
    let begin = match kind {
        Kind::Forward => pieces::begin_forward(rng),
        _ => pieces::begin_send_headers(rng),
    };
    let (status, after) = run.compare(&begin, &lent);
    if status != DONE {
        return;
    }
    lent = after;

    for index in 0..headers + attributes {
        let is_header = index < headers;
        let mut piece = match kind {
            _ if many && !rng.one_in(8) => pieces::short_piece(is_header),
            // At times a header after an attribute, and an attribute on Send Headers.
            _ if is_header || rng.one_in(40) => pieces::header(rng, kind),
            Kind::SendHeaders if !rng.one_in(12) => continue,
            _ => pieces::attribute(rng),
        };
        // At times a value that fills the packet to the brim, or just not.
        if rng.one_in(40) && length >= MAX_PACKET && !many {
            let room = MAX_PACKET - lent.building.get()[BUILDING_NEXT] as usize;
            let room = (room + rng.below(3)).saturating_sub(1 + 2 + 3);
            piece = pieces::long_piece(kind, strings::text_of(rng, room));
        }
        lent = run.compare(&piece, &lent).1;
    }

    let (status, after) = run.compare(&Call::Close, &lent);
    if status != DONE {
        return;
    }
    // The other end's connection is the one that the sender's was, and accepts it.
    let length = after.answer.get()[ANSWER_BYTES] as usize;
    let mut bytes = after.buffer.get()[..length].to_vec();
    if rng.one_in(2) {
        bytes.extend(rng.bytes(9));
    }
    let read = match kind {
        Kind::Forward => Call::ReadAtContainer(bytes),
        _ => Call::ReadAtServer(bytes),
    };
    lent.table = words::table(rng, MAX_PLACES);
    let (status, read) = run.compare(&read, &lent);
    assert_eq!(status, DONE);
    assert_eq!(read.answer.get()[ANSWER_BYTES] as usize, length);
    assert!(read.connection == after.connection);
}

/// Closing what is in a buffer: right, with a fault, damaged, or with another building record.
#[test]
fn closing() {
    let mut run = Run::new("closing", 6);
    while let Some(mut rng) = run.next_round() {
        let lent = pieces::to_close(&mut rng);
        run.compare(&Call::Close, &lent);
    }
    run.finish(&[(
        "close",
        &[DONE, 1, 2, 3, 4, 6, 7, 8, 9, 10, 11, 12, 13, 15, 16],
    )]);
}

/// A capture checked as a whole and in parts, each call with what the one before it left. Both give
/// the same answer.
#[test]
fn captures_whole_and_in_parts() {
    let mut run = Run::new("captures whole and in parts", 5);
    while let Some(mut rng) = run.next_round() {
        in_parts(&mut run, &mut rng);
    }
    let refused: &[u32] = &[DONE, 1, 2, 3, 4, 5, 6, 7, 8, 9, 10, 11, 12, 13, 14];
    let told: &[u32] = &[DONE, 1, 2, 3, 4, 5, 6, 7, 8, 9, 10, 11, 12, 13, 14, 17];
    run.finish(&[
        ("check", told),
        ("check_begin", &[DONE]),
        ("check_go_on", refused),
        ("check_finish", told),
    ]);
}

/// Checks a capture as a whole, and then in parts.
fn in_parts(run: &mut Run, rng: &mut Rng) {
    let capture = captures::capture(rng);
    let size = capture.len() as u64;
    let parts = captures::parts(rng, &capture);
    let mut lent = Lent {
        checking: words::words(rng, SIZE_CHECKING),
        checked: words::words(rng, SIZE_CHECKED),
        ..Lent::default()
    };
    let (_, whole) = run.compare(&Call::Check(capture), &lent);

    (_, lent) = run.compare(&Call::CheckBegin, &lent);
    let mut kept = Vec::new();
    for part in parts {
        kept.extend(part);
        let before = lent.checking.get()[CHECKING_PLACE];
        (_, lent) = run.compare(&Call::CheckGoOn(kept.clone()), &lent);
        let taken = lent.checking.get()[CHECKING_PLACE] - before;
        kept.drain(..taken as usize);
        // A window of the longest packet's size has room for more.
        let refusal = lent.checking.get()[CHECKING_REFUSAL];
        assert!(kept.len() < MAX_PACKET || refusal != 0);
    }
    (_, lent) = run.compare(&Call::CheckFinish(size), &lent);
    assert!(lent.checked == whole.checked, "{whole}{lent}");
}

/// A check on the way with any record and any bytes, also where a capture has the most bytes that
/// it may have; and the end of a capture of any size.
#[test]
fn checks_on_the_way() {
    let mut run = Run::new("checks on the way", 3);
    let mut limited = 0;
    while let Some(mut rng) = run.next_round() {
        let (call, lent) = captures::any_check(&mut rng);
        let (_, after) = run.compare(&call, &lent);
        limited += u64::from(captures::limit_decides(&call, &lent, &after));
    }
    let is_full = run.is_full();
    let all: &[u32] = &[
        DONE, 1, 2, 3, 4, 5, 6, 7, 8, 9, 10, 11, 12, 13, 14, 15, 16, 17, 18,
    ];
    run.finish(&[
        (
            "check",
            &[DONE, 1, 2, 3, 4, 5, 6, 7, 8, 9, 10, 11, 12, 13, 14, 17],
        ),
        ("check_begin", &[DONE]),
        ("check_go_on", all),
        ("check_finish", all),
    ]);
    println!("  the most bytes of a capture decided {limited} times");
    assert!(limited > 0 || !is_full);
}

/// Arrays of a wrong length and words out of range: the error that is looked for first is told, or
/// the refusal, and nothing is written. Words that do not count are ignored.
#[test]
fn wrong_arrays_and_words() {
    let mut run = Run::new("wrong arrays and words", 10);
    let mut odd = Odd::default();
    while let Some(mut rng) = run.next_round() {
        let (mut call, mut lent) = wrong::any_call(&mut rng);
        wrong::spoil(&mut rng, &mut call, &mut lent);
        let (status, _) = run.compare(&call, &lent);
        odd.count(&call, &lent, status);
    }
    let is_full = run.is_full();
    let of_connection: &[u32] = &[
        ERROR_CONNECTION_LENGTH,
        ERROR_CONNECTION_WORD,
        ERROR_ANSWER_LENGTH,
    ];
    let of_building: &[u32] = &[ERROR_BUILDING_LENGTH, ERROR_BUILDING_WORD, ERROR_ARGUMENT];
    run.finish_errors(&[
        ("fresh", &[ERROR_CONNECTION_LENGTH]),
        (
            "largest_body",
            &[ERROR_CONNECTION_LENGTH, ERROR_CONNECTION_WORD],
        ),
        ("read_at_container", of_connection),
        ("read_at_server", of_connection),
        ("cping", of_connection),
        ("cpong", of_connection),
        ("body", of_connection),
        ("body_chunk", of_connection),
        (
            "get_body",
            &[
                ERROR_CONNECTION_LENGTH,
                ERROR_CONNECTION_WORD,
                ERROR_ANSWER_LENGTH,
                ERROR_ARGUMENT,
            ],
        ),
        ("end", of_connection),
        (
            "begin_forward",
            &[ERROR_BUILDING_LENGTH, ERROR_FIXED_LENGTH, ERROR_FIXED_WORD],
        ),
        (
            "begin_send_headers",
            &[ERROR_BUILDING_LENGTH, ERROR_ARGUMENT],
        ),
        ("header_coded", of_building),
        ("header_spelled", of_building),
        ("header_named", of_building),
        ("attribute_text", of_building),
        ("attribute_integer", of_building),
        ("attribute_pair", of_building),
        (
            "close",
            &[
                ERROR_CONNECTION_LENGTH,
                ERROR_CONNECTION_WORD,
                ERROR_BUILDING_LENGTH,
                ERROR_BUILDING_WORD,
                ERROR_ANSWER_LENGTH,
            ],
        ),
        ("text_at", &[ERROR_ANSWER_LENGTH, ERROR_ARGUMENT]),
        ("attribute_name_at", &[ERROR_ANSWER_LENGTH, ERROR_ARGUMENT]),
        ("integer_at", &[ERROR_ARGUMENT]),
        ("header_code_at", &[ERROR_ARGUMENT]),
        ("attribute_code_at", &[ERROR_ARGUMENT]),
        ("attribute_kind_at", &[ERROR_ARGUMENT]),
        ("name", &[ERROR_ANSWER_LENGTH, ERROR_ARGUMENT]),
        ("code", &[ERROR_ARGUMENT]),
        ("check", &[ERROR_ANSWER_LENGTH]),
        ("check_begin", &[ERROR_CHECKING_LENGTH]),
        ("check_go_on", &[ERROR_CHECKING_LENGTH, ERROR_CHECKING_WORD]),
        (
            "check_finish",
            &[
                ERROR_ANSWER_LENGTH,
                ERROR_CHECKING_LENGTH,
                ERROR_CHECKING_WORD,
            ],
        ),
    ]);
    odd.finish(is_full, &what_is_odd());
}

/// What has to be seen of wrong lengths and of words out of range, by call.
fn what_is_odd() -> Vec<(&'static str, Vec<Expected>)> {
    use Expected::{Before, Ignored, Tells};
    let lengths = |lengths: odd::Lengths, error: u32| -> Vec<Expected> {
        let tells = lengths.iter().map(|(_, what)| Tells(what, error));
        tells.collect()
    };
    let connection_words = |error: u32| {
        vec![
            Tells("state above 3", error),
            Tells("edition not 0", error),
            Tells("open not 0", error),
            Tells("due above 1 in Busy", error),
            Tells("headers above 1 in Busy", error),
            Tells("head above 1 in Busy", error),
            Tells("asked above 65535 in Busy, due", error),
            Ignored("asked above 65535 in Busy, none due"),
            Ignored("due above 1 outside Busy"),
            Ignored("headers above 1 outside Busy"),
            Ignored("head above 1 outside Busy"),
            Ignored("asked above 65535 outside Busy"),
        ]
    };
    let of_connection = [
        lengths(odd::CONNECTION_LENGTHS, ERROR_CONNECTION_LENGTH),
        connection_words(ERROR_CONNECTION_WORD),
    ]
    .concat();
    let of_checking = [
        lengths(odd::CHECKING_LENGTHS, ERROR_CHECKING_LENGTH),
        connection_words(ERROR_CHECKING_WORD),
        vec![
            Tells("packets above place", ERROR_CHECKING_WORD),
            Tells("requests above place", ERROR_CHECKING_WORD),
            Tells("body above place", ERROR_CHECKING_WORD),
            Tells("refusal of no number", ERROR_CHECKING_WORD),
            Tells("word 13 not 0", ERROR_CHECKING_WORD),
            Tells("word 14 not 0", ERROR_CHECKING_WORD),
            Tells("word 15 not 0", ERROR_CHECKING_WORD),
        ],
    ]
    .concat();
    let of_checked = lengths(odd::CHECKED_LENGTHS, ERROR_ANSWER_LENGTH);
    let of_building = [
        lengths(odd::BUILDING_LENGTHS, ERROR_BUILDING_LENGTH),
        vec![
            Tells("kind of no packet in pieces", ERROR_BUILDING_WORD),
            Tells("attributes above 1", ERROR_BUILDING_WORD),
            Tells("next above 65535", 16),
            Tells("count_place above 65535", 16),
            Tells("headers above 65535", 16),
        ],
    ]
    .concat();
    let of_answer = lengths(odd::ANSWER_LENGTHS, ERROR_ANSWER_LENGTH);
    let of_text = lengths(odd::TEXT_LENGTHS, ERROR_ANSWER_LENGTH);
    let place = Tells("place above 65535", ERROR_ARGUMENT);
    let list = Tells("list above 3", ERROR_ARGUMENT);

    let mut all = vec![
        (
            "fresh",
            lengths(odd::CONNECTION_LENGTHS, ERROR_CONNECTION_LENGTH),
        ),
        ("largest_body", of_connection.clone()),
        (
            "begin_forward",
            [
                lengths(odd::BUILDING_LENGTHS, ERROR_BUILDING_LENGTH),
                lengths(odd::FIXED_LENGTHS, ERROR_FIXED_LENGTH),
                vec![
                    Tells("port above 65535", ERROR_FIXED_WORD),
                    Tells("no_protocol above 1", ERROR_FIXED_WORD),
                    Tells("no_req_uri above 1", ERROR_FIXED_WORD),
                    Tells("no_remote_addr above 1", ERROR_FIXED_WORD),
                    Tells("no_remote_host above 1", ERROR_FIXED_WORD),
                    Tells("no_server_name above 1", ERROR_FIXED_WORD),
                    Before("method above 65535", 7, DONE),
                    Before("method above 65535", 7, 6),
                    Before("is_ssl above 1", 7, DONE),
                    Before("is_ssl above 1", 6, 6),
                    Before("is_ssl above 1", 7, 2),
                    Before("is_ssl above 1", 7, 15),
                ],
            ]
            .concat(),
        ),
        (
            "begin_send_headers",
            [
                lengths(odd::BUILDING_LENGTHS, ERROR_BUILDING_LENGTH),
                vec![
                    Before("status above 65535", 7, DONE),
                    Tells("null above 1", ERROR_ARGUMENT),
                ],
            ]
            .concat(),
        ),
        ("text_at", [&of_text[..], &[place]].concat()),
        ("attribute_name_at", [&of_text[..], &[place]].concat()),
        ("integer_at", vec![place]),
        ("header_code_at", vec![place]),
        ("attribute_code_at", vec![place]),
        ("attribute_kind_at", vec![place]),
        (
            "name",
            [
                lengths(odd::NAME_LENGTHS, ERROR_ANSWER_LENGTH),
                vec![list, Before("code above 65535", ZERO, NUMBER)],
            ]
            .concat(),
        ),
        ("code", vec![list]),
        ("check", of_checked.clone()),
        (
            "check_begin",
            lengths(odd::CHECKING_LENGTHS, ERROR_CHECKING_LENGTH),
        ),
        ("check_go_on", of_checking.clone()),
        (
            "check_finish",
            [
                of_checking,
                of_checked,
                vec![
                    // The errors are looked for in the order of their numbers.
                    Before(
                        "checked of 7 words",
                        ERROR_ANSWER_LENGTH,
                        ERROR_CHECKING_LENGTH,
                    ),
                    Before(
                        "checked of 7 words",
                        ERROR_ANSWER_LENGTH,
                        ERROR_CHECKING_WORD,
                    ),
                ],
            ]
            .concat(),
        ),
    ];
    for (call, more) in [
        ("read_at_container", vec![]),
        ("read_at_server", vec![]),
        ("cping", vec![]),
        ("cpong", vec![]),
        ("body", vec![]),
        ("body_chunk", vec![]),
        ("get_body", vec![Tells("asked above 65535", ERROR_ARGUMENT)]),
        (
            "end",
            vec![
                Before("reuse above 1", 7, DONE),
                Before("reuse above 1", 13, 13),
                Before("reuse above 1", 7, 15),
            ],
        ),
        ("close", of_building.clone()),
    ] {
        all.push((
            call,
            [of_connection.clone(), of_answer.clone(), more].concat(),
        ));
    }
    let null = Tells("null above 1", ERROR_ARGUMENT);
    let noname = Tells("noname above 1", ERROR_ARGUMENT);
    let novalue = Tells("novalue above 1", ERROR_ARGUMENT);
    let code = |number: u32| Before("code above 65535", number, DONE);
    for (call, more) in [
        ("header_coded", vec![code(8), null]),
        ("header_spelled", vec![noname, novalue]),
        ("header_named", vec![null]),
        ("attribute_text", vec![code(9), null]),
        (
            "attribute_integer",
            vec![code(9), Tells("value above 65535", ERROR_ARGUMENT)],
        ),
        ("attribute_pair", vec![code(9), noname, novalue]),
    ] {
        all.push((call, [of_building.clone(), more].concat()));
    }
    all
}

/// Views at any place of any bytes.
#[test]
fn views() {
    let mut run = Run::new("views", 2);
    while let Some(mut rng) = run.next_round() {
        let (call, lent) = views::view(&mut rng);
        run.compare(&call, &lent);
    }
    run.finish(&[
        ("text_at", &[DONE]),
        ("attribute_name_at", &[DONE]),
        ("integer_at", &[ZERO, NUMBER]),
        ("header_code_at", &[ZERO, NUMBER]),
        ("attribute_code_at", &[ZERO, NUMBER]),
        ("attribute_kind_at", &[ZERO, NUMBER]),
    ]);
}

/// Names by codes and codes by names.
#[test]
fn names() {
    let mut run = Run::new("names", 1);
    while let Some(mut rng) = run.next_round() {
        let (call, lent) = views::name_or_code(&mut rng);
        run.compare(&call, &lent);
    }
    run.finish(&[("name", &[ZERO, NUMBER]), ("code", &[ZERO, NUMBER])]);
}
