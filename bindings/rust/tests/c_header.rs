//! The C headers and this crate say the same: the version, every number, every text, and what every call takes.

use std::collections::BTreeMap;
use std::fmt::Debug;

use ajp13::{attribute, raw, Method, NameList, Refusal, State};

/// What a C program uses: names, types, inline calls.
const HEADER: &str = include_str!("../../c/ajp13.h");
/// The exported calls over arrays of words.
const WORDS: &str = include_str!("../../c/ajp13_words.h");
const FFI: &str = include_str!("../src/ffi.rs");

/// A header without its comments.
fn code(header: &str) -> String {
    let mut code = String::new();
    let mut rest = header;
    while let Some(start) = rest.find("/*") {
        code.push_str(&rest[..start]);
        let end = rest[start..].find("*/").expect("a comment ends");
        rest = &rest[start + end + 2..];
    }
    code.push_str(rest);
    code
}

/// All `AJP13_NAME = number` in the enumerations of the header, names without `AJP13_`.
fn numbers() -> BTreeMap<String, u32> {
    let mut found = BTreeMap::new();
    for listed in code(HEADER).split("enum {").skip(1) {
        let (listed, _) = listed.split_once('}').expect("an enumeration ends");
        for constant in listed.split(',').map(str::trim) {
            if constant.is_empty() {
                continue;
            }
            let (name, number) = constant.split_once(" = ").expect("a name and a number");
            let name = name.strip_prefix("AJP13_").expect("a name of the library");
            let number = match number.strip_prefix("0x") {
                Some(hex) => u32::from_str_radix(hex, 16),
                None => number.parse(),
            };
            let number = number.expect("a number");
            assert_eq!(found.insert(name.to_string(), number), None, "{name} twice");
        }
    }
    found
}

/// What the header calls a refusal or a state: its name here in capitals, an underline before each word but the first.
fn in_capitals(value: &impl Debug) -> String {
    let mut name = String::new();
    for letter in format!("{value:?}").chars() {
        if letter.is_uppercase() && !name.is_empty() {
            name.push('_');
        }
        name.push(letter.to_ascii_uppercase());
    }
    name
}

/// What the header defines a name as.
fn defined(name: &str) -> String {
    let start = format!("#define {name} ");
    let line = HEADER.lines().find_map(|line| line.strip_prefix(&start));
    line.unwrap_or_else(|| panic!("no {name}"))
        .trim()
        .to_string()
}

/// All exported functions of a text: the name, and each argument's name and type in Rust's words.
fn calls(text: &str, start: &str) -> BTreeMap<String, Vec<(String, String)>> {
    let mut found = BTreeMap::new();
    for declared in text.split(start).skip(1) {
        let (name, rest) = declared.split_once('(').expect("arguments");
        if !name.starts_with("ajp13_") {
            continue;
        }
        let (arguments, _) = rest.split_once(')').expect("the end of the arguments");
        let arguments = arguments.split(',').map(str::trim);
        let arguments = arguments.filter(|argument| !argument.is_empty());
        let before = found.insert(name.to_string(), arguments.map(argument).collect());
        assert_eq!(before, None, "{name} twice");
    }
    found
}

/// An argument's name and its type in Rust's words, from either language.
fn argument(text: &str) -> (String, String) {
    if let Some((name, kind)) = text.split_once(": ") {
        return (name.to_string(), kind.to_string());
    }
    let (kind, name) = text.rsplit_once([' ', '*']).expect("a type and a name");
    let kind = match (kind.trim(), text.contains('*')) {
        ("size_t", false) => "usize",
        ("uint32_t", false) => "u32",
        ("uint64_t", false) => "u64",
        ("uint8_t", true) => "*mut u8",
        ("uint16_t", true) => "*mut u16",
        ("uint32_t", true) => "*mut u32",
        ("const uint8_t", true) => "*const u8",
        ("const uint32_t", true) => "*const u32",
        other => panic!("{other:?} in {text:?}"),
    };
    (name.to_string(), kind.to_string())
}

#[test]
fn the_version_is_the_same() {
    let version = env!("CARGO_PKG_VERSION");
    assert_eq!(defined("AJP13_VERSION"), format!("{version:?}"));
    for (name, number) in [
        ("AJP13_VERSION_MAJOR", env!("CARGO_PKG_VERSION_MAJOR")),
        ("AJP13_VERSION_MINOR", env!("CARGO_PKG_VERSION_MINOR")),
        ("AJP13_VERSION_PATCH", env!("CARGO_PKG_VERSION_PATCH")),
    ] {
        assert_eq!(defined(name), number);
    }
}

#[test]
fn the_calls_are_the_same() {
    // Those over arrays of words stand in one header, the others in the other or in the same.
    let words = calls(&code(WORDS), "\nuint32_t ");
    let mut headers = calls(&code(HEADER), "\nuint32_t ");
    assert!(headers.keys().all(|name| !name.starts_with("ajp13_words_")));
    headers.extend(words);
    assert_eq!(headers.len(), 31);
    let here = calls(FFI, "pub fn ");
    assert_eq!(headers, here);
    // A call has the prefix where it takes an array of words.
    for (name, arguments) in here {
        let takes_words = arguments.iter().any(|(_, kind)| kind.ends_with(" u32"));
        assert_eq!(name.starts_with("ajp13_words_"), takes_words, "{name}");
    }
}

#[test]
fn the_numbers_are_the_same() {
    let mut header = numbers();
    let mut same = |name: &str, number: u32| {
        assert_eq!(header.remove(name), Some(number), "AJP13_{name}");
    };

    macro_rules! all {
        ($($name:ident)*) => { $( same(stringify!($name), raw::$name as u32); )* };
    }
    all! {
        DONE NEEDS ERROR_CONNECTION_LENGTH ERROR_CONNECTION_WORD ERROR_BUILDING_LENGTH ERROR_BUILDING_WORD
        ERROR_FIXED_LENGTH ERROR_FIXED_WORD ERROR_ANSWER_LENGTH ERROR_ARGUMENT ERROR_CHECKING_LENGTH
        ERROR_CHECKING_WORD
        SIZE_CONNECTION SIZE_BUILDING SIZE_ANSWER SIZE_TEXT SIZE_FIXED SIZE_NAME SIZE_CHECKING SIZE_CHECKED
        MAX_PACKET MAX_PLACES MAX_BODY MAX_CHUNK
        CONNECTION_STATE CONNECTION_LEFT CONNECTION_DUE CONNECTION_ASKED CONNECTION_HEADERS CONNECTION_HEAD
        CONNECTION_EDITION CONNECTION_OPEN
        STATE_IDLE STATE_PINGED STATE_BUSY STATE_CLOSED
        BUILDING_KIND BUILDING_NEXT BUILDING_COUNT_PLACE BUILDING_HEADERS BUILDING_ATTRIBUTES
        ANSWER_KIND ANSWER_BYTES ANSWER_METHOD ANSWER_PROTOCOL ANSWER_REQ_URI ANSWER_REMOTE_ADDR ANSWER_REMOTE_HOST
        ANSWER_SERVER_NAME ANSWER_SERVER_PORT ANSWER_IS_SSL ANSWER_HEADERS ANSWER_ATTRIBUTES ANSWER_DECLARED
        ANSWER_STATUS ANSWER_MESSAGE ANSWER_START ANSWER_LENGTH ANSWER_ASKED ANSWER_REUSE
        KIND_CPING KIND_CPONG KIND_FORWARD KIND_BODY KIND_GET_BODY KIND_SEND_HEADERS KIND_BODY_CHUNK KIND_END
        TEXT_START TEXT_LENGTH TEXT_NULL
        CHECKING_PACKETS CHECKING_REQUESTS CHECKING_BODY CHECKING_PLACE CHECKING_REFUSAL
        CHECKED_PACKETS CHECKED_REQUESTS CHECKED_BODY CHECKED_STATE CHECKED_REFUSAL CHECKED_PLACE
        FIXED_METHOD FIXED_PORT FIXED_IS_SSL FIXED_NO_PROTOCOL FIXED_NO_REQ_URI FIXED_NO_REMOTE_ADDR
        FIXED_NO_REMOTE_HOST FIXED_NO_SERVER_NAME
        VALUE_NOT_SERVED VALUE_TEXT VALUE_INTEGER VALUE_PAIR
        LIST_METHODS LIST_REQUEST_HEADERS LIST_RESPONSE_HEADERS LIST_ATTRIBUTES
    }

    for refusal in Refusal::ALL {
        same(&in_capitals(refusal), refusal.number().into());
    }

    // Methods and attributes go by the names that the library lists.
    for (list, kind, count) in [
        (NameList::Methods, "METHOD", 27),
        (NameList::Attributes, "ATTRIBUTE", 11),
    ] {
        let listed = (0..=u16::MAX).filter_map(|code| Some((code, list.name(code)?)));
        let listed: Vec<_> = listed.collect();
        assert_eq!(listed.len(), count);
        for (code, name) in listed {
            let name = name.as_str().to_ascii_uppercase().replace('-', "_");
            same(&format!("{kind}_{name}"), code.into());
        }
    }

    assert_eq!(header, BTreeMap::new(), "only in the header");

    // No enumeration holds this one.
    let most = format!("UINT32_C({})", raw::MAX_CAPTURE);
    assert_eq!(defined("AJP13_MAX_CAPTURE"), most);
}

#[test]
fn the_texts_are_the_same() {
    // What the functions of the header return for a name.
    let cases = HEADER
        .lines()
        .filter_map(|line| line.trim().strip_prefix("case AJP13_"));
    let mut texts: BTreeMap<String, String> = cases
        .map(|case| case.split_once(": return ").expect("a case returns"))
        .map(|(name, text)| (name.to_string(), text.trim_matches(['"', ';']).to_string()))
        .collect();
    for refusal in Refusal::ALL {
        let text = texts.remove(&in_capitals(refusal)).expect("a text");
        let here = format!("refusal {}: {text}", refusal.number());
        assert_eq!(refusal.to_string(), here);
    }
    for state in [State::Idle, State::Pinged, State::Busy, State::Closed] {
        let text = texts.remove(&format!("STATE_{}", in_capitals(&state)));
        assert_eq!(text, Some(state.to_string()));
    }
    // The others are those of done, needs and every error.
    let errors = numbers()
        .into_keys()
        .filter(|name| name.starts_with("ERROR_"));
    let mut others: Vec<String> = errors.chain(["DONE", "NEEDS"].map(String::from)).collect();
    others.sort();
    assert_eq!(texts.into_keys().collect::<Vec<_>>(), others);
}

#[test]
fn the_constants_have_the_listed_codes() {
    macro_rules! methods {
        ($($name:ident)*) => { [$( (stringify!($name), Method::$name.code()) ),*] };
    }
    let methods = methods! {
        OPTIONS GET HEAD POST PUT DELETE TRACE PROPFIND PROPPATCH MKCOL COPY MOVE LOCK UNLOCK ACL REPORT
        VERSION_CONTROL CHECKIN CHECKOUT UNCHECKOUT SEARCH MKWORKSPACE UPDATE LABEL MERGE BASELINE_CONTROL
        MKACTIVITY
    };
    macro_rules! attributes {
        ($($name:ident)*) => { [$( (stringify!($name), attribute::$name) ),*] };
    }
    let attributes = attributes! {
        REMOTE_USER AUTH_TYPE QUERY_STRING ROUTE SSL_CERT SSL_CIPHER SSL_SESSION REQ_ATTRIBUTE SSL_KEY_SIZE
        SECRET STORED_METHOD
    };
    let header = numbers();
    for (name, code) in methods {
        assert_eq!(header[&format!("METHOD_{name}")], u32::from(code));
    }
    for (name, code) in attributes {
        assert_eq!(header[&format!("ATTRIBUTE_{name}")], u32::from(code));
    }
}
