//! The errors of the C calls: arrays of the wrong length, words and arguments out of range. Each is told before all
//! else, and nothing is written. And beside them what is no error: words that do not count, and numbers of any size
//! that get the refusal of document 01.

use ajp13::raw;

const FRESH: [u32; raw::SIZE_CONNECTION] = [0; raw::SIZE_CONNECTION];

/// A connection with these five words, and 0 in the others.
fn connection(words: [u32; 5]) -> [u32; raw::SIZE_CONNECTION] {
    let [state, left, due, asked, headers] = words;
    [state, left, due, asked, headers, 0, 0, 0]
}

/// A connection with another word at a position.
fn with_word(
    mut words: [u32; raw::SIZE_CONNECTION],
    at: usize,
    word: u32,
) -> [u32; raw::SIZE_CONNECTION] {
    words[at] = word;
    words
}

/// A Forward with its fixed fields written: GET /, nothing else.
fn begun(buffer: &mut [u8]) -> [u32; raw::SIZE_BUILDING] {
    let mut building = [0; raw::SIZE_BUILDING];
    let status = begin(&mut building, buffer, &[2, 80, 0, 0, 0, 1, 1, 1]);
    assert_eq!(status, raw::DONE);
    building
}

/// Begins a Forward with these fixed numbers.
fn begin(building: &mut [u32], buffer: &mut [u8], fixed: &[u32]) -> u32 {
    raw::begin_forward(building, buffer, fixed, b"HTTP/1.1", b"/", b"", b"", b"")
}

/// Every call that has a connection, with this one. The words stay.
fn with_connection(words: &[u32], expected: u32) {
    let mut connection = words.to_vec();
    let c = &mut connection;
    let mut buffer = [7; 64];
    let b = &mut buffer;
    let mut table = [7; 4];
    let t = &mut table;
    let mut answer = [7; raw::SIZE_ANSWER];
    let a = &mut answer;
    // All else is wrong too, but is looked for later.
    let calls = [
        raw::largest_body(c),
        raw::read_at_container(c, b"", t, a),
        raw::read_at_server(c, b"", t, &mut a[..13]),
        raw::cping(c, b, &mut a[..13]),
        raw::cpong(c, b, a),
        raw::body(c, b, b"", &mut a[..13]),
        raw::body_chunk(c, b, b"", a),
        raw::get_body(c, b, 65536, &mut a[..13]),
        raw::end(c, b, 2, a),
        raw::close(c, &[0; 4], b, a),
    ];
    assert_eq!(calls, [expected; 10], "{words:?}");
    assert_eq!(connection, words);
    assert_eq!(buffer, [7; 64]);
    assert_eq!(table, [7; 4]);
    assert_eq!(answer, [7; raw::SIZE_ANSWER]);
}

/// Every call that has a building record of which the words are looked at, with this one.
fn with_building(words: &[u32], expected: u32) {
    let mut building = words.to_vec();
    let r = &mut building;
    let mut buffer = [7; 64];
    let b = &mut buffer;
    let mut connection = FRESH;
    let mut answer = [7; raw::SIZE_ANSWER];
    let calls = [
        raw::header_coded(r, b, 65536, b"", 2),
        raw::header_spelled(r, b, b"a", 2, b"", 0),
        raw::header_named(r, b, b"a", b"", 2),
        raw::attribute_text(r, b, 5, b"", 2),
        raw::attribute_integer(r, b, 0x0B, 65536),
        raw::attribute_pair(r, b, 0x0A, b"a", 0, b"", 2),
        raw::close(&mut connection, r, b, &mut answer[..13]),
    ];
    assert_eq!(calls, [expected; 7], "{words:?}");
    assert_eq!(building, words);
    assert_eq!(buffer, [7; 64]);
    assert_eq!(connection, FRESH);
    assert_eq!(answer, [7; raw::SIZE_ANSWER]);
}

#[test]
fn connections_with_an_error() {
    for length in [0, 5, 7, 9] {
        with_connection(&vec![9; length], raw::ERROR_CONNECTION_LENGTH);
        let mut words = vec![9; length];
        assert_eq!(raw::fresh(&mut words), raw::ERROR_CONNECTION_LENGTH);
        assert_eq!(words, vec![9; length]);
    }
    for words in [
        connection([4, 0, 0, 0, 0]),
        connection([0x10000, 0, 0, 0, 0]),
        // In Busy.
        connection([2, 0, 2, 0, 0]),
        connection([2, 0, 0, 0, 2]),
        with_word(connection([2, 0, 0, 0, 0]), raw::CONNECTION_HEAD, 2),
        with_word(connection([2, 9, 1, 5, 1]), raw::CONNECTION_HEAD, u32::MAX),
        connection([2, 0, 0x10001, 0, 0]),
        connection([2, 0, 1, 65536, 0]),
        connection([2, 9, 1, 70_000, 1]),
        [u32::MAX; raw::SIZE_CONNECTION],
    ] {
        with_connection(&words, raw::ERROR_CONNECTION_WORD);
    }
    // The last two words are 0 in every state.
    for state in 0..=3 {
        for at in [raw::CONNECTION_EDITION, raw::CONNECTION_OPEN] {
            let words = with_word(connection([state, 0, 0, 0, 0]), at, 1);
            with_connection(&words, raw::ERROR_CONNECTION_WORD);
        }
    }
    let mut words = [u32::MAX; raw::SIZE_CONNECTION];
    assert_eq!(raw::fresh(&mut words), raw::DONE);
    assert_eq!(words, FRESH);
}

#[test]
fn words_that_do_not_count() {
    let mut buffer = [7; 64];
    let b = &mut buffer;
    let mut table = [7; 4];
    let t = &mut table;
    let mut answer = [7; raw::SIZE_ANSWER];
    let a = &mut answer;

    // Outside Busy, all but the state.
    let mut c = connection([0, 5, 2, 70_000, 9]);
    assert_eq!(raw::largest_body(&c), 0);
    assert_eq!(raw::end(&mut c, b, 1, a), 13);
    assert_eq!(c, connection([0, 5, 2, 70_000, 9]));
    assert_eq!(raw::cping(&mut c, b, a), raw::DONE);
    assert_eq!(c, connection([1, 0, 0, 0, 0]));
    let mut c = connection([1, u32::MAX, u32::MAX, u32::MAX, u32::MAX]);
    assert_eq!(raw::largest_body(&c), 0);
    let cpong = b"\x41\x42\x00\x01\x09";
    assert_eq!(raw::read_at_server(&mut c, cpong, t, a), raw::DONE);
    assert_eq!(c, FRESH);
    let mut c = connection([3, 1, 2, 65536, 2]);
    assert_eq!(raw::body(&mut c, b, b"", a), 13);

    // In Busy what was asked for, where no body packet is due.
    let mut c = connection([2, 5, 0, 70_000, 0]);
    assert_eq!(raw::largest_body(&c), 0);
    assert_eq!(raw::get_body(&mut c, b, 3, a), raw::DONE);
    assert_eq!(c, connection([2, 5, 1, 3, 0]));
    let mut c = connection([2, 0, 0, u32::MAX, 1]);
    assert_eq!(raw::body_chunk(&mut c, b, b"ok", a), raw::DONE);
    assert_eq!(c, connection([2, 0, 0, 0, 1]));
}

#[test]
fn the_largest_body() {
    for (words, largest) in [
        ([2, 5, 1, 9, 0], 5),
        ([2, 9, 1, 5, 1], 5),
        ([2, 0, 1, 5, 0], 0),
        ([2, 5, 1, 0, 0], 0),
        ([2, u32::MAX, 1, 65535, 0], 8186),
        ([2, 8187, 1, 8187, 0], 8186),
        ([2, 8185, 1, 8186, 0], 8185),
        // None is due.
        ([2, 5, 0, 9, 0], 0),
        ([0, 5, 1, 9, 0], 0),
        ([1, 5, 1, 9, 0], 0),
        ([3, 5, 1, 9, 0], 0),
    ] {
        assert_eq!(raw::largest_body(&connection(words)), largest, "{words:?}");
    }
}

#[test]
fn building_records_with_an_error() {
    for length in [0, 4, 6, 8] {
        let words = vec![9; length];
        with_building(&words, raw::ERROR_BUILDING_LENGTH);

        let mut building = words.clone();
        let mut buffer = [7; 64];
        let status = begin(&mut building, &mut buffer, &[9]);
        assert_eq!(status, raw::ERROR_BUILDING_LENGTH);
        let status = raw::begin_send_headers(&mut building, &mut buffer, 65536, b"", 2);
        assert_eq!(status, raw::ERROR_BUILDING_LENGTH);
        assert_eq!(building, words);
        assert_eq!(buffer, [7; 64]);
    }
    for words in [
        [0; raw::SIZE_BUILDING],
        [4, 6, 4, 0, 0],
        [0x10003, 6, 4, 0, 0],
        [6, 6, 4, 0, 2],
        [3, 65536, 65536, 65536, 0x10001],
    ] {
        with_building(&words, raw::ERROR_BUILDING_WORD);
    }
}

#[test]
fn building_records_of_any_size() {
    let mut buffer = [0; 64];
    let first = begun(&mut buffer);
    let before = buffer;
    let b = &mut buffer;
    let mut answer = [7; raw::SIZE_ANSWER];
    for at in [
        raw::BUILDING_NEXT,
        raw::BUILDING_COUNT_PLACE,
        raw::BUILDING_HEADERS,
    ] {
        // The last would be possible where its upper half were cut off.
        for word in [65536, 70_000, u32::MAX, 65536 + first[at]] {
            let mut building = first;
            building[at] = word;
            let given = building;
            let r = &mut building;
            let calls = [
                raw::header_coded(r, b, 0xA001, b"", 0),
                raw::header_spelled(r, b, b"a", 0, b"", 0),
                raw::header_named(r, b, b"a", b"", 0),
                raw::attribute_text(r, b, 5, b"", 0),
                raw::attribute_integer(r, b, 0x0B, 1),
                raw::attribute_pair(r, b, 0x0A, b"a", 0, b"", 0),
                raw::close(&mut FRESH.clone(), r, b, &mut answer),
            ];
            assert_eq!(calls, [16; 7], "{given:?}");
            assert_eq!(building, given);
        }
    }
    assert_eq!(buffer, before);
    assert_eq!(answer, [7; raw::SIZE_ANSWER]);
}

#[test]
fn fixed_numbers() {
    let begin = |fixed: &[u32]| {
        // Old words of the record do not matter.
        let mut building = [u32::MAX; raw::SIZE_BUILDING];
        let mut buffer = [7; 64];
        let status = begin(&mut building, &mut buffer, fixed);
        if status != raw::DONE {
            assert_eq!(building, [u32::MAX; raw::SIZE_BUILDING]);
            assert_eq!(buffer, [7; 64]);
        }
        status
    };
    for length in [0, 7, 9] {
        assert_eq!(begin(&vec![u32::MAX; length]), raw::ERROR_FIXED_LENGTH);
    }
    let right = [2, 80, 0, 0, 0, 0, 0, 0];
    assert_eq!(begin(&right), raw::DONE);
    for (at, word) in [(1, 65536), (3, 2), (4, 2), (5, 2), (6, 2), (7, 2)] {
        let mut fixed = right;
        fixed[at] = word;
        assert_eq!(begin(&fixed), raw::ERROR_FIXED_WORD);
        // Looked for before the method.
        fixed[raw::FIXED_METHOD] = 70_000;
        assert_eq!(begin(&fixed), raw::ERROR_FIXED_WORD);
    }
    // A method and an is_ssl of any size.
    for (at, word) in [
        (raw::FIXED_METHOD, 28),
        (raw::FIXED_METHOD, 70_000),
        (raw::FIXED_METHOD, 0x10002),
        (raw::FIXED_IS_SSL, 2),
        (raw::FIXED_IS_SSL, 0x10001),
        (raw::FIXED_IS_SSL, u32::MAX),
    ] {
        let mut fixed = right;
        fixed[at] = word;
        assert_eq!(begin(&fixed), 7);
    }
    // A string that is null is not looked at; the protocol may not be null, and that is a refusal. It stands before
    // is_ssl.
    assert_eq!(begin(&[2, 80, 0, 1, 0, 0, 0, 0]), 6);
    assert_eq!(begin(&[2, 80, 2, 1, 0, 0, 0, 0]), 6);
    assert_eq!(begin(&[0x10002, 80, 2, 1, 0, 0, 0, 0]), 7);
}

#[test]
fn is_ssl_before_the_length() {
    let begin = |is_ssl: u32, buffer: &mut [u8], req_uri: &[u8]| {
        let fixed = [2, 80, is_ssl, 0, 0, 0, 0, 0];
        let mut building = [0; raw::SIZE_BUILDING];
        raw::begin_forward(&mut building, buffer, &fixed, b"p", req_uri, b"", b"", b"")
    };
    let long = [b'u'; 9000];
    assert_eq!(begin(0, &mut [0; 64], &long), 2);
    assert_eq!(begin(2, &mut [0; 64], &long), 7);
    assert_eq!(begin(0, &mut [0; 8], b"/"), 15);
    assert_eq!(begin(2, &mut [0; 8], b"/"), 7);
}

#[test]
fn answers_of_the_wrong_length() {
    let mut buffer = [7; 64];
    let b = &mut buffer;
    let mut table = [7; 4];
    let building = begun(&mut [0; 64]);
    for length in [0, 13, 15, 17] {
        let mut answer = vec![7; length];
        let a = &mut answer[..];
        let mut connection = FRESH;
        let c = &mut connection;
        let calls = [
            raw::read_at_container(c, b"\x12\x34\x00\x01\x0A", &mut table, a),
            raw::read_at_server(c, b"", &mut table, a),
            raw::cping(c, b, a),
            raw::cpong(c, b, a),
            raw::body(c, b, b"", a),
            raw::body_chunk(c, b, b"", a),
            raw::get_body(c, b, 65536, a),
            raw::end(c, b, 2, a),
            raw::close(c, &building, b, a),
        ];
        assert_eq!(calls, [raw::ERROR_ANSWER_LENGTH; 9]);
        assert_eq!(connection, FRESH);
        assert_eq!(answer, vec![7; length]);
    }
    for length in [0, 2, 4] {
        let mut text = vec![7; length];
        let calls = [
            raw::text_at(b"", 65536, &mut text),
            raw::attribute_name_at(b"", 65536, &mut text),
        ];
        assert_eq!(calls, [raw::ERROR_ANSWER_LENGTH; 2]);
        assert_eq!(text, vec![7; length]);
    }
    for length in [0, 16, 18] {
        let mut name = vec![7; length];
        assert_eq!(raw::name(4, 65536, &mut name), raw::ERROR_ANSWER_LENGTH);
        assert_eq!(name, vec![7; length]);
    }
    assert_eq!(buffer, [7; 64]);
    assert_eq!(table, [7; 4]);
}

#[test]
fn arguments_out_of_range() {
    let mut buffer = [0; 64];
    let first = begun(&mut buffer);
    let before = buffer;
    let mut building = first;
    let r = &mut building;
    let b = &mut buffer;
    let mut connection = FRESH;
    let c = &mut connection;
    let mut answer = [7; raw::SIZE_ANSWER];
    let a = &mut answer;
    let calls = [
        raw::get_body(c, b, 65536, a),
        raw::begin_send_headers(r, b, 200, b"", 2),
        raw::header_coded(r, b, 0xA001, b"", 2),
        raw::header_spelled(r, b, b"a", 2, b"", 0),
        raw::header_spelled(r, b, b"a", 0, b"", 2),
        raw::header_named(r, b, b"a", b"", 2),
        raw::attribute_text(r, b, 5, b"", 2),
        raw::attribute_integer(r, b, 0x0B, 65536),
        raw::attribute_pair(r, b, 0x0A, b"a", 2, b"", 0),
        raw::attribute_pair(r, b, 0x0A, b"a", 0, b"", 2),
        // Looked for before the refusal of a code.
        raw::attribute_text(r, b, 65536, b"", 2),
        raw::attribute_integer(r, b, 65536, 65536),
    ];
    assert_eq!(calls, [raw::ERROR_ARGUMENT; 12]);

    // Numbers of any size that get the refusal of document 01.
    for word in [65536, 70_000, u32::MAX] {
        assert_eq!(raw::begin_send_headers(r, b, word, b"", 0), 7);
        assert_eq!(raw::header_coded(r, b, word, b"", 0), 8);
        assert_eq!(raw::attribute_text(r, b, word, b"", 0), 9);
        assert_eq!(raw::attribute_integer(r, b, word, 0), 9);
        assert_eq!(raw::attribute_pair(r, b, word, b"a", 0, b"", 0), 9);
        assert_eq!(raw::end(c, b, word, a), 13);
    }
    // Those would be right where their upper half were cut off.
    assert_eq!(raw::begin_send_headers(r, b, 0x100C8, b"", 0), 7);
    assert_eq!(raw::header_coded(r, b, 0x1A001, b"", 0), 8);
    assert_eq!(raw::attribute_text(r, b, 0x10005, b"", 0), 9);
    assert_eq!(raw::attribute_integer(r, b, 0x1000B, 0), 9);
    assert_eq!(raw::attribute_pair(r, b, 0x1000A, b"a", 0, b"", 0), 9);
    assert_eq!(building, first);
    assert_eq!(buffer, before);
    assert_eq!(connection, FRESH);
    assert_eq!(answer, [7; raw::SIZE_ANSWER]);

    let mut text = [7; raw::SIZE_TEXT];
    let calls = [
        raw::text_at(b"", 65536, &mut text),
        raw::attribute_name_at(b"", 65536, &mut text),
        raw::integer_at(b"", 65536),
        raw::header_code_at(b"", 65536),
        raw::attribute_code_at(b"", 65536),
        raw::attribute_kind_at(b"", 65536),
    ];
    assert_eq!(calls, [raw::ERROR_ARGUMENT; 6]);
    assert_eq!(text, [7; raw::SIZE_TEXT]);
    let mut name = [7; raw::SIZE_NAME];
    assert_eq!(raw::name(4, 1, &mut name), raw::ERROR_ARGUMENT);
    assert_eq!(raw::name(0x10000, 1, &mut name), raw::ERROR_ARGUMENT);
    assert_eq!(raw::code(4, b"GET"), raw::ERROR_ARGUMENT);
    // A code of any size that is not listed.
    for code in [65536, 70_000, 0x10002, u32::MAX] {
        assert_eq!(raw::name(raw::LIST_METHODS, code, &mut name), 0);
    }
    assert_eq!(name, [7; raw::SIZE_NAME]);
}

#[test]
fn an_end_with_a_reuse_of_any_size() {
    let ending = connection([2, 0, 0, 0, 1]);
    let mut answer = [7; raw::SIZE_ANSWER];
    for reuse in [2, 255, 256, 0x10001, u32::MAX] {
        for (words, expected) in [
            (FRESH, 13),
            (connection([2, 0, 0, 0, 0]), 13),
            (connection([2, 0, 1, 5, 1]), 13),
            (ending, 7),
        ] {
            let mut c = words;
            let mut buffer = [7; 8];
            assert_eq!(raw::end(&mut c, &mut buffer, reuse, &mut answer), expected);
            assert_eq!(c, words);
            assert_eq!(buffer, [7; 8]);
        }
        // Before a buffer that is too short.
        let status = raw::end(&mut ending.clone(), &mut [], reuse, &mut answer);
        assert_eq!(status, 7);
    }
    assert_eq!(answer, [7; raw::SIZE_ANSWER]);
}

#[test]
fn views_answer_for_any_place() {
    let mut text = [7; raw::SIZE_TEXT];
    // No byte there.
    assert_eq!(raw::text_at(b"", 65535, &mut text), raw::DONE);
    assert_eq!(text, [0, 0, 0]);
    assert_eq!(raw::integer_at(b"", 65535), 0);
    assert_eq!(raw::header_code_at(b"", 65535), 0);
    assert_eq!(raw::attribute_code_at(b"", 65535), 0);
    assert_eq!(raw::attribute_kind_at(b"", 65535), raw::VALUE_NOT_SERVED);
    // A string that runs past the end stops there.
    assert_eq!(raw::text_at(b"\x00\x05ab", 0, &mut text), raw::DONE);
    assert_eq!(text, [2, 2, 0]);
    // Null.
    assert_eq!(raw::text_at(b"\xFF\xFF", 0, &mut text), raw::DONE);
    assert_eq!(text[1..], [0, 1]);
    // A name that no code stands for.
    let mut name = [7; raw::SIZE_NAME];
    assert_eq!(raw::name(raw::LIST_METHODS, 28, &mut name), 0);
    assert_eq!(name, [7; raw::SIZE_NAME]);
    assert_eq!(raw::name(raw::LIST_METHODS, 2, &mut name), 3);
    assert_eq!(&name, b"GET\0\0\0\0\0\0\0\0\0\0\0\0\0\0");
    assert_eq!(raw::code(raw::LIST_REQUEST_HEADERS, b"HOST"), 0xA00B);
    assert_eq!(raw::code(raw::LIST_METHODS, b"get"), 0);
}

/// A check on the way with this connection and these five words, and 0 in the others.
fn checking(connection: [u32; raw::SIZE_CONNECTION], words: [u32; 5]) -> [u32; raw::SIZE_CHECKING] {
    let mut checking = [0; raw::SIZE_CHECKING];
    checking[..raw::SIZE_CONNECTION].copy_from_slice(&connection);
    checking[raw::CHECKING_PACKETS..=raw::CHECKING_REFUSAL].copy_from_slice(&words);
    checking
}

/// Going on with a check on the way and finishing it are this error, and the words stay.
fn with_checking(words: &[u32], expected: u32) {
    let mut checking = words.to_vec();
    let mut checked = [7; raw::SIZE_CHECKED];
    let calls = [
        raw::check_go_on(&mut checking, b"\x12\x34\x00\x01\x0A"),
        raw::check_go_on(&mut checking, b""),
        raw::check_finish(&checking, 5, &mut checked),
    ];
    assert_eq!(calls, [expected; 3], "{words:?}");
    // An answer of the wrong length is looked for first.
    for length in [0, 6, 7] {
        let status = raw::check_finish(&checking, 5, &mut checked[..length]);
        assert_eq!(status, raw::ERROR_ANSWER_LENGTH);
    }
    assert_eq!(checking, words);
    assert_eq!(checked, [7; raw::SIZE_CHECKED]);
}

#[test]
fn checks_with_an_error() {
    for length in [0, 8, 13, 15, 17] {
        // The words are out of range as well.
        let words = vec![u32::MAX; length];
        with_checking(&words, raw::ERROR_CHECKING_LENGTH);
        let mut checking = words.clone();
        let status = raw::check_begin(&mut checking);
        assert_eq!(status, raw::ERROR_CHECKING_LENGTH);
        assert_eq!(checking, words);
    }
    // A connection with a word out of range.
    for words in [
        [4, 0, 0, 0, 0, 0, 0, 0],
        [0x10000, 0, 0, 0, 0, 0, 0, 0],
        [2, 0, 2, 0, 0, 0, 0, 0],
        [2, 0, 0, 0, 2, 0, 0, 0],
        [2, 0, 1, 65536, 0, 0, 0, 0],
        [2, 0, 0, 0, 0, 2, 0, 0],
        [1, 0, 0, 0, 0, 0, 1, 0],
        [3, 0, 0, 0, 0, 0, 0, 0x10000],
    ] {
        let words = checking(words, [0; 5]);
        with_checking(&words, raw::ERROR_CHECKING_WORD);
    }
    // Figures above the place, and refusals that there are not.
    for words in [
        [1, 0, 0, 0, 0],
        [0, 1, 0, 0, 0],
        [0, 0, 1, 0, 0],
        [11, 0, 0, 10, 0],
        [1, 11, 1, 10, 0],
        [1, 1, u32::MAX, u32::MAX - 1, 0],
        [1, 1, 1, 10, 19],
        [1, 1, 1, 10, 256],
        [1, 1, 1, 10, 0x10001],
        [1, 1, 1, 10, u32::MAX],
    ] {
        let words = checking(FRESH, words);
        with_checking(&words, raw::ERROR_CHECKING_WORD);
    }
    // The last three words are 0.
    for at in raw::CHECKING_REFUSAL + 1..raw::SIZE_CHECKING {
        for word in [1, 0x10000, u32::MAX] {
            let mut words = checking(FRESH, [1, 0, 0, 10, 0]);
            words[at] = word;
            with_checking(&words, raw::ERROR_CHECKING_WORD);
        }
    }
    // An answer of the wrong length.
    for length in [0, 6, 7, 9] {
        let mut checked = vec![7; length];
        let begun = [0; raw::SIZE_CHECKING];
        let calls = [
            raw::check(b"\x12\x34\x00\x01\x0A", &mut checked),
            raw::check_finish(&begun, 0, &mut checked),
            raw::check_finish(&begun[..15], 0, &mut checked),
        ];
        assert_eq!(calls, [raw::ERROR_ANSWER_LENGTH; 3]);
        assert_eq!(checked, vec![7; length]);
    }
}

#[test]
fn checks_without_an_error() {
    let mut words = [u32::MAX; raw::SIZE_CHECKING];
    assert_eq!(raw::check_begin(&mut words), raw::DONE);
    assert_eq!(words, [0; raw::SIZE_CHECKING]);

    let finish = |words: &[u32], size: u64| {
        let mut checked = [7; raw::SIZE_CHECKED];
        assert_eq!(raw::check_finish(words, size, &mut checked), raw::DONE);
        checked
    };
    // A check that has a refusal stays as it is, and the refusal is the answer for any size.
    let idle = connection([0, 5, 1, 65535, 1]);
    for refusal in 1..=18 {
        let words = checking(idle, [10, 9, 8, 10, refusal]);
        let mut after = words;
        let status = raw::check_go_on(&mut after, b"\x12\x34\x00\x01\x0A");
        assert_eq!(status, raw::DONE);
        assert_eq!(after, words);
        for size in [0, 10, 11, 0xFFFF_FFFF, 0x1_0000_0000, u64::MAX] {
            assert_eq!(finish(&words, size), [10, 9, 8, 0, refusal, 10, 0, 0]);
        }
    }
    // So does it where no packet is taken: none is there, it is not whole, or it is refused. Words that do not count
    // and are out of range are brought into it, and a step clears them.
    let words = checking(idle, [10, 9, 8, 10, 0]);
    for (bytes, refusal) in [(&b""[..], 0), (b"\x12\x34\x00\x01", 0), (b"\x12\x35", 1)] {
        let mut after = words;
        assert_eq!(raw::check_go_on(&mut after, bytes), raw::DONE);
        assert_eq!(after, checking(idle, [10, 9, 8, 10, refusal]));
        for state in [0, 1, 3] {
            let out_of_range = connection([state, 5, 2, 70_000, 9]);
            let mut after = checking(out_of_range, [10, 9, 8, 10, 13]);
            assert_eq!(raw::check_go_on(&mut after, bytes), raw::DONE);
            let in_range = connection([state, 5, 0, 65535, 0]);
            assert_eq!(after, checking(in_range, [10, 9, 8, 10, 13]));
        }
    }
    let mut after = words;
    let status = raw::check_go_on(&mut after, b"\x12\x34\x00\x01\x0A\x12");
    assert_eq!(status, raw::DONE);
    let pinged = connection([1, 0, 0, 0, 0]);
    assert_eq!(after, checking(pinged, [11, 9, 8, 15, 0]));

    // A size that is the place, another one, and more than a capture may have.
    let most = raw::MAX_CAPTURE;
    for (size, refusal, place) in [
        (10, 0, 10),
        (11, 17, 10),
        (9, 17, 10),
        (0, 17, 10),
        (0xFFFF_FFFF, 17, 10),
        (0x1_0000_0000, 18, most),
        (0x1_0000_000A, 18, most),
        (u64::MAX, 18, most),
    ] {
        assert_eq!(finish(&words, size), [10, 9, 8, 0, refusal, place, 0, 0]);
    }
    let words = checking(FRESH, [1, 1, 1, most, 0]);
    assert_eq!(finish(&words, most.into()), [1, 1, 1, 0, 0, most, 0, 0]);
    assert_eq!(finish(&words, 1 << 32), [1, 1, 1, 0, 18, most, 0, 0]);
}

#[test]
fn a_check_at_the_most_bytes_of_a_capture() {
    let most = raw::MAX_CAPTURE;
    let both = b"\x12\x34\x00\x01\x0A\x41\x42\x00\x01\x09";
    let pinged = connection([1, 0, 0, 0, 0]);
    let go_on = |words: [u32; raw::SIZE_CHECKING], bytes: &[u8]| {
        let mut after = words;
        assert_eq!(raw::check_go_on(&mut after, bytes), raw::DONE);
        after
    };
    // The CPing is the last packet that has room, and all figures may be as great as the place.
    let five_less = most - 5;
    let before = checking(FRESH, [five_less, five_less, five_less, five_less, 0]);
    let after = go_on(before, both);
    let figures = [five_less + 1, five_less, five_less, most, 0];
    assert_eq!(after, checking(pinged, figures));
    // Behind it nothing is looked at.
    assert_eq!(go_on(after, &both[5..]), after);
    assert_eq!(go_on(after, b"GET / HTTP/1.1"), after);

    // A packet that is not whole before the most bytes is not taken, whatever follows.
    for room in 1..5 {
        let before = checking(FRESH, [1, 0, 0, most - room, 0]);
        assert_eq!(go_on(before, both), before);
    }
    // A fault before them is told, and none behind them.
    for (room, bytes, refusal) in [
        (1, &b"\x13"[..], 1),
        (1, b"\x12\x35", 0),
        (2, b"\x12\x35", 1),
        (3, b"\x12\x34\x1F\xFD", 0),
        (4, b"\x12\x34\x1F\xFD", 2),
        (4, b"\x12\x34\x00\x01\x0B", 0),
        (5, b"\x12\x34\x00\x01\x0B", 4),
        (0, b"\x13", 0),
    ] {
        let place = most - room;
        let after = go_on(checking(FRESH, [1, 0, 0, place, 0]), bytes);
        assert_eq!(after, checking(FRESH, [1, 0, 0, place, refusal]));
    }
}
