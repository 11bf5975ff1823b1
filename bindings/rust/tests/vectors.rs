//! The text vectors, a case a line, over the library and the plain implementation. A capture is
//! also checked by the library in parts of one byte each.
//!
//! They are those of the crate `vectors`, in its file `stdin`: a case, a tab and its answer. A line
//! that begins with `#` is none, and so is an empty one. `AJP13_VECTORS` may name a folder with more
//! of them, in files `*.tsv`, at times with a tab and a note behind the answer.
//!
//! Bytes are hexadecimal digits, `-` for none; a string may be `null`. `[6162*3]` stands for
//! `616261626162`, and `"ab"` for `6162`. A connection is `S,left,due,asked,headers[,head[,edition]]`
//! with `S` one of I, P, B, C; where they are left out, `head` is 0 and the edition is `new`, and no
//! others are served. A building record is `K,next,count,headers,attributes` with `K` one of F, H.

mod common {
    pub mod by_plain;
    pub mod calls;
}
mod plain;

use ajp13::raw;
use common::calls::{Array, Call, Lent, Text};
use std::env;
use std::fs;
use std::path::{Path, PathBuf};

#[test]
fn vectors() {
    let listed = Path::new(env!("CARGO_MANIFEST_DIR")).join("../../crates/vectors/stdin");
    run(&listed);
    let Some(folder) = env::var_os("AJP13_VECTORS") else {
        return;
    };
    let files = tsv_files(Path::new(&folder));
    assert!(!files.is_empty(), "there is no file *.tsv in {folder:?}");
    for file in files {
        run(&file);
    }
}

/// Runs the cases of a file.
fn run(file: &Path) {
    let text = fs::read_to_string(file).expect("a file of vectors can be read");
    let mut cases = 0;
    for (number, line) in (1..).zip(text.lines()) {
        if line.is_empty() || line.starts_with('#') {
            continue;
        }
        let mut columns = line.split('\t').map(written_out);
        let (Some(case), Some(expected)) = (columns.next(), columns.next()) else {
            panic!("{}:{number} has no answer", file.display());
        };
        let (call, before) = parse(&case);
        if let Call::Check(capture) = &call {
            let answer = checked_by_bytes(capture);
            let place = format!("{}:{number}, byte by byte", file.display());
            assert!(answer == expected, "{place}\n{case}\n{answer}\n{expected}");
        }
        for at_library in [true, false] {
            let mut lent = before.clone();
            let status = if at_library {
                call.at_library(&mut lent)
            } else {
                call.at_plain(&mut lent)
            };
            let who = if at_library { "library" } else { "plain" };
            let answer = answer(&call, status, &lent);
            let expected = with_whole_connections(&expected);
            let place = format!("{}:{number}, {who}", file.display());
            assert!(answer == expected, "{place}\n{case}\n{answer}\n{expected}");
            // A refusal and a "needs" leave everything but the answer as it was.
            if status != raw::DONE && !call.hands_out_number() {
                lent.answer = before.answer.clone();
                assert!(lent == before, "{place}\n{case}\n{lent}");
            }
        }
        cases += 1;
    }
    println!("{}: {cases} cases", file.display());
}

/// A listed text with its groups and quotes written out.
fn written_out(listed: &str) -> String {
    let mut text = String::new();
    let mut rest = listed;
    while let Some(at) = rest.find(['[', '"']) {
        let (plain, opened) = rest.split_at(at);
        text.push_str(plain);
        let end = if opened.starts_with('[') { ']' } else { '"' };
        let (inside, behind) = opened[1..].split_once(end).expect("a group or quotes end");
        match inside.split_once('*') {
            Some((unit, times)) if end == ']' => {
                text.push_str(&unit.repeat(times.parse().expect("decimal digits")));
            }
            _ => text.extend(inside.bytes().map(|byte| format!("{byte:02x}"))),
        }
        rest = behind;
    }
    text + rest
}

/// The files `*.tsv` of a folder, in the order of their names.
fn tsv_files(folder: &Path) -> Vec<PathBuf> {
    let mut files: Vec<PathBuf> = fs::read_dir(folder)
        .expect("the folder that AJP13_VECTORS names can be read")
        .map(|entry| entry.expect("an entry of the folder can be read").path())
        .filter(|path| path.extension().is_some_and(|end| end == "tsv"))
        .collect();
    files.sort();
    files
}

/// The call that a case is, and what is lent to it.
fn parse(case: &str) -> (Call, Lent) {
    let words: Vec<&str> = case.split(' ').collect();
    let mut lent = Lent {
        answer: Array::holding(&[7; raw::SIZE_ANSWER]),
        building: Array::holding(&[7; raw::SIZE_BUILDING]),
        name: Array::holding(&[7; raw::SIZE_NAME]),
        checked: Array::holding(&[7; raw::SIZE_CHECKED]),
        ..Lent::default()
    };
    let call = match words[..] {
        ["read", end, connection_text, table, bytes_text] => {
            lent.connection = connection(connection_text);
            lent.table = places(table);
            match end {
                "container" => Call::ReadAtContainer(bytes(bytes_text)),
                "server" => Call::ReadAtServer(bytes(bytes_text)),
                _ => panic!("no end: {case}"),
            }
        }
        ["cping", connection_text, buffer] => {
            lent.connection = connection(connection_text);
            lent.buffer = Array::holding(&bytes(buffer));
            Call::CPing
        }
        ["cpong", connection_text, buffer] => {
            lent.connection = connection(connection_text);
            lent.buffer = Array::holding(&bytes(buffer));
            Call::CPong
        }
        [name @ ("body" | "chunk" | "get" | "end"), connection_text, buffer, argument] => {
            lent.connection = connection(connection_text);
            lent.buffer = Array::holding(&bytes(buffer));
            match name {
                "body" => Call::Body(bytes(argument)),
                "chunk" => Call::BodyChunk(bytes(argument)),
                "get" => Call::GetBody(number(argument)),
                _ => Call::End(number(argument)),
            }
        }
        ["forward", buffer, method, protocol, req_uri, addr, host, name, port, ssl] => {
            lent.buffer = Array::holding(&bytes(buffer));
            let strings = [protocol, req_uri, addr, host, name].map(string);
            let mut fixed = vec![number(method), number(port), number(ssl)];
            fixed.extend(strings.iter().map(|string| string.null));
            let strings = strings.map(|string| string.bytes);
            Call::BeginForward { fixed, strings }
        }
        ["sendheaders", buffer, status, message] => {
            lent.buffer = Array::holding(&bytes(buffer));
            Call::BeginSendHeaders {
                status: number(status),
                message: string(message),
            }
        }
        ["header", record, buffer, name, value] => {
            lent.building = building(record);
            lent.buffer = Array::holding(&bytes(buffer));
            let value = string(value);
            match name.split_once(':') {
                Some(("code", code)) => Call::HeaderCoded {
                    code: number(code),
                    value,
                },
                Some(("str", name)) => Call::HeaderSpelled {
                    name: string(name),
                    value,
                },
                _ => panic!("no header name: {case}"),
            }
        }
        ["attribute", record, buffer, code, value] => {
            lent.building = building(record);
            lent.buffer = Array::holding(&bytes(buffer));
            let code = number(code);
            match *value.split(':').collect::<Vec<_>>() {
                ["str", value] => Call::AttributeText {
                    code,
                    value: string(value),
                },
                ["int", value] => Call::AttributeInteger {
                    code,
                    value: number(value),
                },
                ["pair", name, value] => Call::AttributePair {
                    code,
                    name: string(name),
                    value: string(value),
                },
                _ => panic!("no attribute value: {case}"),
            }
        }
        ["close", connection_text, record, buffer] => {
            lent.connection = connection(connection_text);
            lent.building = building(record);
            lent.buffer = Array::holding(&bytes(buffer));
            Call::Close
        }
        ["name", of, code] => Call::Name {
            list: list(of),
            code: number(code),
        },
        ["code", of, name] => Call::Code {
            list: list(of),
            text: bytes(name),
        },
        ["check", capture] => Call::Check(bytes(capture)),
        _ => panic!("no case: {case}"),
    };
    (call, lent)
}

/// The answer as the vectors tell it.
fn answer(call: &Call, status: u32, lent: &Lent) -> String {
    let told = lent.answer.get();
    match call {
        Call::Name { .. } | Call::Code { .. } if status == 0 => return "not listed".to_string(),
        Call::Name { .. } => {
            let name = &lent.name.get()[..status as usize];
            return format!("ok name={}", bytes_text(name));
        }
        Call::Code { .. } => return format!("ok code={status}"),
        Call::Check(_) => {
            assert_eq!(status, raw::DONE);
            return checked_text(lent.checked.get());
        }
        _ => {}
    }
    match status {
        raw::DONE => {}
        raw::NEEDS => return format!("needs {}", told[raw::ANSWER_BYTES]),
        number => return format!("refused {number}"),
    }
    match call {
        Call::ReadAtContainer(_) | Call::ReadAtServer(_) => {
            let (kind, fields) = packet_text(told);
            format!(
                "ok {kind} taken={} conn={}{fields} table={}",
                told[raw::ANSWER_BYTES],
                connection_text(lent),
                places_text(lent.table.get()),
            )
        }
        Call::CPing
        | Call::CPong
        | Call::Body(_)
        | Call::BodyChunk(_)
        | Call::GetBody(_)
        | Call::End(_)
        | Call::Close => format!(
            "ok len={} conn={} buf={}",
            told[raw::ANSWER_BYTES],
            connection_text(lent),
            bytes_text(lent.buffer.get()),
        ),
        _ => format!(
            "ok rec={} buf={}",
            building_text(lent),
            bytes_text(lent.buffer.get())
        ),
    }
}

/// The kind of a packet that was read, and its fields.
fn packet_text(told: &[u32]) -> (&'static str, String) {
    match told[raw::ANSWER_KIND] {
        raw::KIND_CPING => ("cping", String::new()),
        raw::KIND_CPONG => ("cpong", String::new()),
        raw::KIND_FORWARD => (
            "forward",
            format!(
                " method={} protocol={} req_uri={} remote_addr={} remote_host={} server_name={} \
                 port={} ssl={} headers={} attributes={}",
                told[raw::ANSWER_METHOD],
                told[raw::ANSWER_PROTOCOL],
                told[raw::ANSWER_REQ_URI],
                told[raw::ANSWER_REMOTE_ADDR],
                told[raw::ANSWER_REMOTE_HOST],
                told[raw::ANSWER_SERVER_NAME],
                told[raw::ANSWER_SERVER_PORT],
                told[raw::ANSWER_IS_SSL],
                told[raw::ANSWER_HEADERS],
                told[raw::ANSWER_ATTRIBUTES],
            ),
        ),
        raw::KIND_BODY => (
            "body",
            format!(
                " start={} len={}",
                told[raw::ANSWER_START],
                told[raw::ANSWER_LENGTH]
            ),
        ),
        raw::KIND_GET_BODY => ("get", format!(" asked={}", told[raw::ANSWER_ASKED])),
        raw::KIND_SEND_HEADERS => (
            "sendheaders",
            format!(
                " status={} message={} headers={}",
                told[raw::ANSWER_STATUS],
                told[raw::ANSWER_MESSAGE],
                told[raw::ANSWER_HEADERS]
            ),
        ),
        raw::KIND_BODY_CHUNK => (
            "chunk",
            format!(
                " start={} len={}",
                told[raw::ANSWER_START],
                told[raw::ANSWER_LENGTH]
            ),
        ),
        raw::KIND_END => ("end", format!(" reuse={}", told[raw::ANSWER_REUSE])),
        kind => panic!("no kind: {kind}"),
    }
}

/// The checker's answer: its lines, joined by semicolons.
fn checked_text(words: &[u32]) -> String {
    assert!(words[raw::CHECKED_PLACE + 1..]
        .iter()
        .all(|word| *word == 0));
    let state = ["idle", "pinged", "busy", "closed"][words[raw::CHECKED_STATE] as usize];
    format!(
        "packets={};requests={};body={};state={state};refusal={};place={}",
        words[raw::CHECKED_PACKETS],
        words[raw::CHECKED_REQUESTS],
        words[raw::CHECKED_BODY],
        words[raw::CHECKED_REFUSAL],
        words[raw::CHECKED_PLACE],
    )
}

/// What the library's checker answers where the bytes of a capture come one by one.
fn checked_by_bytes(capture: &[u8]) -> String {
    let mut checking = [7; raw::SIZE_CHECKING];
    assert_eq!(raw::check_begin(&mut checking), raw::DONE);
    for end in 1..=capture.len() {
        let place = checking[raw::CHECKING_PLACE] as usize;
        let status = raw::check_go_on(&mut checking, &capture[place..end]);
        assert_eq!(status, raw::DONE);
    }
    let mut checked = [7; raw::SIZE_CHECKED];
    let status = raw::check_finish(&checking, capture.len() as u64, &mut checked);
    assert_eq!(status, raw::DONE);
    checked_text(&checked)
}

/// A list of names from its word.
fn list(text: &str) -> u32 {
    match text {
        "method" => raw::LIST_METHODS,
        "request" => raw::LIST_REQUEST_HEADERS,
        "response" => raw::LIST_RESPONSE_HEADERS,
        "attribute" => raw::LIST_ATTRIBUTES,
        _ => panic!("no list: {text}"),
    }
}

/// Bytes from hexadecimal digits.
fn bytes(text: &str) -> Vec<u8> {
    if text == "-" {
        return Vec::new();
    }
    let byte = |at| u8::from_str_radix(&text[at..at + 2], 16).expect("hexadecimal digits");
    (0..text.len()).step_by(2).map(byte).collect()
}

/// A string from hexadecimal digits, or null.
fn string(text: &str) -> Text {
    match text {
        "null" => Text::null(),
        _ => Text::of(&bytes(text)),
    }
}

/// A number from decimal digits.
fn number(text: &str) -> u32 {
    text.parse().expect("decimal digits")
}

/// A table of places from four hexadecimal digits each.
fn places(text: &str) -> Array<u16> {
    let bytes = bytes(text);
    let places: Vec<u16> = bytes
        .chunks(2)
        .map(|pair| u16::from_be_bytes([pair[0], pair[1]]))
        .collect();
    Array::holding(&places)
}

/// A connection's text with six words: where the sixth is left out it is 0, and the seventh, the edition, says nothing but `new`.
fn whole_connection(text: &str) -> String {
    let text = text.strip_suffix(",new").unwrap_or(text);
    match text.split(',').count() {
        5 => format!("{text},0"),
        6 => text.to_string(),
        _ => panic!("no connection: {text}"),
    }
}

/// An answer in which every connection has its whole text, so that it is compared by what it says.
fn with_whole_connections(answer: &str) -> String {
    let words: Vec<String> = answer
        .split(' ')
        .map(|word| match word.strip_prefix("conn=") {
            Some(text) => format!("conn={}", whole_connection(text)),
            None => word.to_string(),
        })
        .collect();
    words.join(" ")
}

/// A connection from its text.
fn connection(text: &str) -> Array<u32> {
    let states = [
        raw::STATE_IDLE,
        raw::STATE_PINGED,
        raw::STATE_BUSY,
        raw::STATE_CLOSED,
    ];
    let mut words = words(&whole_connection(text), "IPBC", states);
    words.resize(raw::SIZE_CONNECTION, 0);
    Array::holding(&words)
}

/// A building record from its text.
fn building(text: &str) -> Array<u32> {
    let kinds = [raw::KIND_FORWARD, raw::KIND_SEND_HEADERS];
    Array::holding(&words(text, "FH", kinds))
}

/// Words from their text, whose first one is a letter.
fn words<const N: usize>(text: &str, letters: &str, meanings: [u32; N]) -> Vec<u32> {
    let (letter, numbers) = text.split_at(1);
    let first = letters.find(letter).expect("a letter that is listed");
    let mut words = vec![meanings[first]];
    words.extend(numbers.split(',').skip(1).map(number));
    words
}

/// The text of bytes.
fn bytes_text(bytes: &[u8]) -> String {
    match bytes {
        [] => "-".to_string(),
        _ => bytes.iter().map(|byte| format!("{byte:02x}")).collect(),
    }
}

/// The text of a table.
fn places_text(places: &[u16]) -> String {
    match places {
        [] => "-".to_string(),
        _ => places.iter().map(|place| format!("{place:04x}")).collect(),
    }
}

/// The text of a connection.
fn connection_text(lent: &Lent) -> String {
    let &[state, left, due, asked, headers, head, 0, 0] = lent.connection.get() else {
        panic!("a connection has eight words, the last two of them 0");
    };
    let letter = ["I", "P", "B", "C"][state as usize];
    format!("{letter},{left},{due},{asked},{headers},{head}")
}

/// The text of a building record.
fn building_text(lent: &Lent) -> String {
    let &[kind, next, count, headers, attributes] = lent.building.get() else {
        panic!("a building record has five words");
    };
    let letter = if kind == raw::KIND_FORWARD { "F" } else { "H" };
    format!("{letter},{next},{count},{headers},{attributes}")
}
