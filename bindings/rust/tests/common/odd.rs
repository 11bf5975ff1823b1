//! What is odd about a case: arrays of a wrong length, words out of range, words that do not count.
//! For each, the same case is answered once more with that one thing put right, by the plain
//! implementation. So it can be told whether just that decided the answer.

use super::calls::{Array, Call, Lent};
use super::run::{counted, is_error, status_name};
use crate::plain;
use ajp13::raw::{
    BUILDING_ATTRIBUTES, BUILDING_COUNT_PLACE, BUILDING_HEADERS, BUILDING_KIND, BUILDING_NEXT,
    CHECKING_BODY, CHECKING_PACKETS, CHECKING_PLACE, CHECKING_REFUSAL, CHECKING_REQUESTS,
    CONNECTION_ASKED, CONNECTION_DUE, CONNECTION_EDITION, CONNECTION_HEAD, CONNECTION_HEADERS,
    CONNECTION_OPEN, CONNECTION_STATE, FIXED_IS_SSL, FIXED_METHOD, FIXED_NO_PROTOCOL,
    FIXED_NO_REMOTE_ADDR, FIXED_NO_REMOTE_HOST, FIXED_NO_REQ_URI, FIXED_NO_SERVER_NAME, FIXED_PORT,
    KIND_FORWARD, KIND_SEND_HEADERS, SIZE_ANSWER, SIZE_BUILDING, SIZE_CHECKED, SIZE_CHECKING,
    SIZE_CONNECTION, SIZE_FIXED, SIZE_NAME, SIZE_TEXT, STATE_BUSY, STATE_CLOSED,
};
use std::collections::BTreeMap;

/// Wrong lengths of an array, and what each is called here.
pub type Lengths = &'static [(usize, &'static str)];

pub const CONNECTION_LENGTHS: Lengths = &[
    (0, "connection of 0 words"),
    (5, "connection of 5 words"),
    (7, "connection of 7 words"),
    (9, "connection of 9 words"),
];
pub const BUILDING_LENGTHS: Lengths = &[
    (0, "building record of 0 words"),
    (4, "building record of 4 words"),
    (6, "building record of 6 words"),
];
pub const FIXED_LENGTHS: Lengths = &[
    (0, "fixed numbers of 0 words"),
    (7, "fixed numbers of 7 words"),
    (9, "fixed numbers of 9 words"),
];
pub const ANSWER_LENGTHS: Lengths = &[
    (0, "answer of 0 words"),
    (13, "answer of 13 words"),
    (15, "answer of 15 words"),
    (17, "answer of 17 words"),
];
pub const TEXT_LENGTHS: Lengths = &[
    (0, "text of 0 words"),
    (2, "text of 2 words"),
    (4, "text of 4 words"),
];
pub const NAME_LENGTHS: Lengths = &[
    (0, "name of 0 bytes"),
    (16, "name of 16 bytes"),
    (18, "name of 18 bytes"),
];
pub const CHECKING_LENGTHS: Lengths = &[
    (0, "checking of 0 words"),
    (8, "checking of 8 words"),
    (13, "checking of 13 words"),
    (15, "checking of 15 words"),
    (17, "checking of 17 words"),
];
pub const CHECKED_LENGTHS: Lengths = &[
    (0, "checked of 0 words"),
    (6, "checked of 6 words"),
    (7, "checked of 7 words"),
    (9, "checked of 9 words"),
];

/// What has to be seen of something odd.
#[derive(Clone, Copy)]
pub enum Expected {
    /// It decides: this status is told, and another one where it is put right.
    Tells(&'static str, u32),
    /// It does not count: no error is told, and the same where it is put right.
    Ignored(&'static str),
    /// The first status is told, and the second where it is put right: the order of the checks.
    Before(&'static str, u32, u32),
}

/// How often what was seen: by call, by what is odd, by the status told and by the status that is
/// told where it is put right.
#[derive(Default)]
pub struct Odd {
    seen: BTreeMap<(&'static str, &'static str, u32, u32), u64>,
}

impl Odd {
    /// Counts what is odd about a call that was answered with a status.
    pub fn count(&mut self, call: &Call, before: &Lent, told: u32) {
        let mut found = Found {
            call,
            lent: before,
            put_right: Vec::new(),
        };
        found.look();
        for (what, call, mut lent) in found.put_right {
            let right = call.at_plain(&mut lent);
            let [told, right] = [told, right].map(|status| counted(&call, status));
            *self
                .seen
                .entry((call.name(), what, told, right))
                .or_default() += 1;
        }
    }

    /// How often something expected was seen.
    fn times(&self, call: &str, expected: Expected) -> u64 {
        self.seen
            .iter()
            .filter(|((of, seen, told, right), _)| {
                *of == call
                    && match expected {
                        Expected::Tells(what, status) => {
                            *seen == what && *told == status && told != right
                        }
                        Expected::Ignored(what) => {
                            *seen == what && !is_error(*told) && told == right
                        }
                        Expected::Before(what, first, second) => {
                            *seen == what && *told == first && *right == second
                        }
                    }
            })
            .map(|(_, times)| times)
            .sum()
    }

    /// Prints how often everything expected was seen, and checks that it was seen at all.
    pub fn finish(&self, enough: bool, all: &[(&str, Vec<Expected>)]) {
        for (call, list) in all {
            println!("  {call}:");
            for &expected in list {
                let times = self.times(call, expected);
                let what = match expected {
                    Expected::Tells(what, status) => format!("{what}: {}", status_name(status)),
                    Expected::Ignored(what) => format!("{what}: ignored"),
                    Expected::Before(what, first, second) => {
                        let [first, second] = [first, second].map(status_name);
                        format!("{what}: {first}, put right {second}")
                    }
                };
                println!("    {what} {times}");
                assert!(times > 0 || !enough, "{call}: never seen: {what}");
            }
        }
    }
}

/// The odd things of a case, and for each the case with it put right.
struct Found<'a> {
    call: &'a Call,
    lent: &'a Lent,
    put_right: Vec<(&'static str, Call, Lent)>,
}

impl Found<'_> {
    /// Adds the case with the lent arrays put right.
    fn lent(&mut self, what: &'static str, put_right: impl FnOnce(&mut Lent)) {
        let mut lent = self.lent.clone();
        put_right(&mut lent);
        self.put_right.push((what, self.call.clone(), lent));
    }

    /// Adds the case with the arguments put right.
    fn call(&mut self, what: &'static str, put_right: impl FnOnce(&mut Call)) {
        let mut call = self.call.clone();
        put_right(&mut call);
        self.put_right.push((what, call, self.lent.clone()));
    }

    /// Looks for everything.
    fn look(&mut self) {
        if self.call.has_connection() {
            let length = self.lent.connection.get().len();
            if let Some(what) = named(CONNECTION_LENGTHS, length) {
                self.lent(what, |lent| resize(&mut lent.connection, SIZE_CONNECTION));
            } else if length == SIZE_CONNECTION && !matches!(self.call, Call::Fresh) {
                self.connection(|lent| &mut lent.connection);
            }
        }
        if self.call.has_building() {
            let length = self.lent.building.get().len();
            if let Some(what) = named(BUILDING_LENGTHS, length) {
                self.lent(what, |lent| resize(&mut lent.building, SIZE_BUILDING));
            } else if length == SIZE_BUILDING && !self.call.begins() {
                self.building();
            }
        }
        if self.call.has_answer() {
            if let Some(what) = named(ANSWER_LENGTHS, self.lent.answer.get().len()) {
                self.lent(what, |lent| resize(&mut lent.answer, SIZE_ANSWER));
            }
        }
        if self.call.has_text() {
            if let Some(what) = named(TEXT_LENGTHS, self.lent.text.get().len()) {
                self.lent(what, |lent| resize(&mut lent.text, SIZE_TEXT));
            }
        }
        if self.call.has_checking() {
            let length = self.lent.checking.get().len();
            if let Some(what) = named(CHECKING_LENGTHS, length) {
                self.lent(what, |lent| resize(&mut lent.checking, SIZE_CHECKING));
            } else if length == SIZE_CHECKING && !matches!(self.call, Call::CheckBegin) {
                // Its first words are a connection.
                self.connection(|lent| &mut lent.checking);
                self.checking();
            }
        }
        if self.call.has_checked() {
            if let Some(what) = named(CHECKED_LENGTHS, self.lent.checked.get().len()) {
                self.lent(what, |lent| resize(&mut lent.checked, SIZE_CHECKED));
            }
        }
        if let Call::Name { .. } = self.call {
            if let Some(what) = named(NAME_LENGTHS, self.lent.name.get().len()) {
                self.lent(what, |lent| resize(&mut lent.name, SIZE_NAME));
            }
        }
        self.arguments();
    }

    /// Looks at the words of a connection, which stand at the start of an array.
    fn connection(&mut self, array: fn(&mut Lent) -> &mut Array<u32>) {
        let mut lent = self.lent.clone();
        let words = array(&mut lent).get();
        let state = words[CONNECTION_STATE];
        let is_due = words[CONNECTION_DUE] == 1;
        let (due, asked, headers, head) = (
            words[CONNECTION_DUE] > 1,
            words[CONNECTION_ASKED] > 65535,
            words[CONNECTION_HEADERS] > 1,
            words[CONNECTION_HEAD] > 1,
        );
        let busy = state == STATE_BUSY;
        let other = !busy && state <= STATE_CLOSED;
        for (at, is_odd, what) in [
            (CONNECTION_STATE, state > STATE_CLOSED, "state above 3"),
            (
                CONNECTION_EDITION,
                words[CONNECTION_EDITION] > 0,
                "edition not 0",
            ),
            (CONNECTION_OPEN, words[CONNECTION_OPEN] > 0, "open not 0"),
            (CONNECTION_DUE, busy && due, "due above 1 in Busy"),
            (CONNECTION_DUE, other && due, "due above 1 outside Busy"),
            (
                CONNECTION_HEADERS,
                busy && headers,
                "headers above 1 in Busy",
            ),
            (
                CONNECTION_HEADERS,
                other && headers,
                "headers above 1 outside Busy",
            ),
            (CONNECTION_HEAD, busy && head, "head above 1 in Busy"),
            (CONNECTION_HEAD, other && head, "head above 1 outside Busy"),
            (
                CONNECTION_ASKED,
                busy && is_due && asked,
                "asked above 65535 in Busy, due",
            ),
            (
                CONNECTION_ASKED,
                busy && words[CONNECTION_DUE] == 0 && asked,
                "asked above 65535 in Busy, none due",
            ),
            (
                CONNECTION_ASKED,
                other && asked,
                "asked above 65535 outside Busy",
            ),
        ] {
            if is_odd {
                self.lent(what, |lent| array(lent).lend()[at] = 0);
            }
        }
    }

    /// Looks at the words of a check on the way that are not its connection.
    fn checking(&mut self) {
        let words = self.lent.checking.get();
        let place = words[CHECKING_PLACE];
        let refusal = words[CHECKING_REFUSAL];
        for (at, is_odd, what) in [
            (
                CHECKING_PACKETS,
                words[CHECKING_PACKETS] > place,
                "packets above place",
            ),
            (
                CHECKING_REQUESTS,
                words[CHECKING_REQUESTS] > place,
                "requests above place",
            ),
            (
                CHECKING_BODY,
                words[CHECKING_BODY] > place,
                "body above place",
            ),
            (
                CHECKING_REFUSAL,
                refusal != 0 && !plain::is_refusal(refusal),
                "refusal of no number",
            ),
        ] {
            if is_odd {
                self.lent(what, |lent| lent.checking.lend()[at] = 0);
            }
        }
        let kept = ["word 13 not 0", "word 14 not 0", "word 15 not 0"];
        for (at, what) in (CHECKING_REFUSAL + 1..SIZE_CHECKING).zip(kept) {
            if self.lent.checking.get()[at] > 0 {
                self.lent(what, |lent| lent.checking.lend()[at] = 0);
            }
        }
    }

    /// Looks at the words of a building record.
    fn building(&mut self) {
        let words = self.lent.building.get();
        let kind = words[BUILDING_KIND];
        if ![KIND_FORWARD, KIND_SEND_HEADERS].contains(&kind) {
            self.lent("kind of no packet in pieces", |lent| {
                lent.building.lend()[BUILDING_KIND] = KIND_FORWARD;
            });
        }
        if words[BUILDING_ATTRIBUTES] > 1 {
            self.lent("attributes above 1", |lent| {
                lent.building.lend()[BUILDING_ATTRIBUTES] = 0;
            });
        }
        for (at, what) in [
            (BUILDING_NEXT, "next above 65535"),
            (BUILDING_COUNT_PLACE, "count_place above 65535"),
            (BUILDING_HEADERS, "headers above 65535"),
        ] {
            if self.lent.building.get()[at] > 65535 {
                self.lent(what, |lent| cut(&mut lent.building.lend()[at]));
            }
        }
    }

    /// Looks at the arguments.
    fn arguments(&mut self) {
        match self.call.clone() {
            Call::BeginForward { fixed, .. } => self.fixed(&fixed),
            _ => {
                // Each argument by itself, in a copy of the call.
                for (at, (what, most, word)) in arguments(&mut self.call.clone())
                    .into_iter()
                    .map(|(what, most, word)| (what, most, *word))
                    .enumerate()
                {
                    if word > most {
                        self.call(what, |call| {
                            let (_, most, word) = arguments(call).swap_remove(at);
                            if most == 65535 {
                                cut(word);
                            } else {
                                *word = 0;
                            }
                        });
                    }
                }
            }
        }
    }

    /// Looks at the fixed numbers of a Forward.
    fn fixed(&mut self, words: &[u32]) {
        fn set(call: &mut Call, change: impl FnOnce(&mut Vec<u32>)) {
            if let Call::BeginForward { fixed, .. } = call {
                change(fixed);
            }
        }
        if words.len() != SIZE_FIXED {
            if let Some(what) = named(FIXED_LENGTHS, words.len()) {
                self.call(what, |call| set(call, |fixed| fixed.resize(SIZE_FIXED, 0)));
            }
            return;
        }
        for (at, what) in [
            (FIXED_METHOD, "method above 65535"),
            (FIXED_PORT, "port above 65535"),
        ] {
            if words[at] > 65535 {
                self.call(what, |call| set(call, |fixed| cut(&mut fixed[at])));
            }
        }
        for (at, what) in [
            (FIXED_IS_SSL, "is_ssl above 1"),
            (FIXED_NO_PROTOCOL, "no_protocol above 1"),
            (FIXED_NO_REQ_URI, "no_req_uri above 1"),
            (FIXED_NO_REMOTE_ADDR, "no_remote_addr above 1"),
            (FIXED_NO_REMOTE_HOST, "no_remote_host above 1"),
            (FIXED_NO_SERVER_NAME, "no_server_name above 1"),
        ] {
            if words[at] > 1 {
                self.call(what, |call| set(call, |fixed| fixed[at] = 0));
            }
        }
    }
}

/// The number arguments of a call but a Forward's: what is odd about one that is above its most.
fn arguments(call: &mut Call) -> Vec<(&'static str, u32, &mut u32)> {
    match call {
        Call::GetBody(asked) => vec![("asked above 65535", 65535, asked)],
        Call::End(reuse) => vec![("reuse above 1", 1, reuse)],
        Call::BeginSendHeaders { status, message } => vec![
            ("status above 65535", 65535, status),
            ("null above 1", 1, &mut message.null),
        ],
        Call::HeaderCoded { code, value } | Call::AttributeText { code, value } => vec![
            ("code above 65535", 65535, code),
            ("null above 1", 1, &mut value.null),
        ],
        Call::HeaderSpelled { name, value } => vec![
            ("noname above 1", 1, &mut name.null),
            ("novalue above 1", 1, &mut value.null),
        ],
        Call::HeaderNamed { value, .. } => vec![("null above 1", 1, &mut value.null)],
        Call::AttributeInteger { code, value } => vec![
            ("code above 65535", 65535, code),
            ("value above 65535", 65535, value),
        ],
        Call::AttributePair { code, name, value } => vec![
            ("code above 65535", 65535, code),
            ("noname above 1", 1, &mut name.null),
            ("novalue above 1", 1, &mut value.null),
        ],
        Call::TextAt { place, .. }
        | Call::AttributeNameAt { place, .. }
        | Call::IntegerAt { place, .. }
        | Call::HeaderCodeAt { place, .. }
        | Call::AttributeCodeAt { place, .. }
        | Call::AttributeKindAt { place, .. } => vec![("place above 65535", 65535, place)],
        Call::Name { list, code } => {
            vec![("list above 3", 3, list), ("code above 65535", 65535, code)]
        }
        Call::Code { list, .. } => vec![("list above 3", 3, list)],
        Call::BeginForward { .. }
        | Call::Fresh
        | Call::LargestBody
        | Call::ReadAtContainer(_)
        | Call::ReadAtServer(_)
        | Call::CPing
        | Call::CPong
        | Call::Body(_)
        | Call::BodyChunk(_)
        | Call::Close
        | Call::Check(_)
        | Call::CheckBegin
        | Call::CheckGoOn(_)
        | Call::CheckFinish(_) => vec![],
    }
}

/// What a wrong length is called, where it is listed.
fn named(lengths: Lengths, length: usize) -> Option<&'static str> {
    let found = lengths.iter().find(|(listed, _)| *listed == length);
    found.map(|(_, what)| *what)
}

/// Cuts off a word's upper half.
fn cut(word: &mut u32) {
    *word %= 65536;
}

/// Makes an array as long as it should be, with zeros behind what it held.
fn resize<T: Copy + From<u8>>(array: &mut Array<T>, length: usize) {
    let mut contents = array.get().to_vec();
    contents.resize(length, T::from(0));
    *array = Array::holding(&contents);
}
