//! Cases of any call with arrays of a wrong length and with words out of range.

use super::calls::{Array, Call, Lent};
use super::captures::any_check;
use super::odd::{
    Lengths, ANSWER_LENGTHS, BUILDING_LENGTHS, CHECKED_LENGTHS, CHECKING_LENGTHS,
    CONNECTION_LENGTHS, FIXED_LENGTHS, NAME_LENGTHS, TEXT_LENGTHS,
};
use super::packets::Kind;
use super::pieces::{single_piece, to_close};
use super::reading::reading;
use super::rng::Rng;
use super::sending::one_call;
use super::strings;
use super::views::{name_or_code, view};
use super::words::{self, above_1, above_16_bits};
use crate::plain;
use ajp13::raw::{
    BUILDING_ATTRIBUTES, BUILDING_COUNT_PLACE, BUILDING_HEADERS, BUILDING_KIND, BUILDING_NEXT,
    CHECKING_BODY, CHECKING_PACKETS, CHECKING_PLACE, CHECKING_REFUSAL, CHECKING_REQUESTS,
    CONNECTION_ASKED, CONNECTION_DUE, CONNECTION_EDITION, CONNECTION_HEAD, CONNECTION_HEADERS,
    CONNECTION_OPEN, CONNECTION_STATE, FIXED_IS_SSL, FIXED_METHOD, FIXED_PORT, SIZE_BUILDING,
    SIZE_CHECKING, SIZE_CONNECTION, SIZE_FIXED, STATE_BUSY, STATE_CLOSED, STATE_IDLE, STATE_PINGED,
};

/// How often something is made wrong: once in so many times.
const ODDS: usize = 4;

/// Any call of the library, as the other tests make it.
pub fn any_call(rng: &mut Rng) -> (Call, Lent) {
    match rng.below(16) {
        0 => {
            let lent = Lent {
                connection: words::words(rng, SIZE_CONNECTION),
                ..Lent::default()
            };
            (Call::Fresh, lent)
        }
        1 => {
            let (bytes, lent) = reading(rng, Kind::Forward);
            (Call::ReadAtContainer(bytes), lent)
        }
        2 => {
            let (bytes, lent) = reading(rng, Kind::SendHeaders);
            (Call::ReadAtServer(bytes), lent)
        }
        3..=5 => one_call(rng),
        6..=9 => single_piece(rng),
        10 => (Call::Close, to_close(rng)),
        11 => view(rng),
        12 => name_or_code(rng),
        _ => any_check(rng),
    }
}

/// Makes some of the arrays too short or too long and puts some words out of range; each of them
/// not often, so that there is one fault as often as there are more.
pub fn spoil(rng: &mut Rng, call: &mut Call, lent: &mut Lent) {
    if rng.one_in(ODDS) {
        lent.connection = wrong_length(rng, lent.connection.get(), CONNECTION_LENGTHS);
    } else if rng.one_in(2) && lent.connection.get().len() == SIZE_CONNECTION {
        spoil_connection(rng, lent.connection.lend());
    }
    if rng.one_in(ODDS) {
        lent.building = wrong_length(rng, lent.building.get(), BUILDING_LENGTHS);
    } else if rng.one_in(ODDS) && lent.building.get().len() == SIZE_BUILDING {
        spoil_building(rng, lent.building.lend());
    }
    if rng.one_in(ODDS) {
        lent.answer = wrong_length(rng, lent.answer.get(), ANSWER_LENGTHS);
    }
    if rng.one_in(ODDS) {
        lent.text = wrong_length(rng, lent.text.get(), TEXT_LENGTHS);
    }
    if rng.one_in(ODDS) {
        lent.name = wrong_length(rng, lent.name.get(), NAME_LENGTHS);
    }
    if rng.one_in(ODDS) {
        lent.checking = wrong_length(rng, lent.checking.get(), CHECKING_LENGTHS);
    } else if lent.checking.get().len() == SIZE_CHECKING {
        match rng.below(4) {
            0 => spoil_connection(rng, &mut lent.checking.lend()[..SIZE_CONNECTION]),
            1 | 2 => spoil_checking(rng, lent.checking.lend()),
            _ => {}
        }
    }
    if rng.one_in(ODDS) {
        lent.checked = wrong_length(rng, lent.checked.get(), CHECKED_LENGTHS);
    }
    spoil_arguments(rng, call);
}

/// The same array with a wrong length: one of those listed, or one element more or less.
fn wrong_length<T: Copy + From<u8>>(rng: &mut Rng, array: &[T], lengths: Lengths) -> Array<T> {
    if array.is_empty() {
        return Array::holding(&[]);
    }
    let length = match rng.below(4) {
        0 => array.len() - 1,
        1 => array.len() + 1,
        _ => lengths[rng.below(lengths.len())].0,
    };
    let mut contents = array.to_vec();
    contents.resize(length, array[array.len() - 1]);
    Array::holding(&contents)
}

/// Puts a word of a connection out of range, at times two, in a state in which it counts or not.
fn spoil_connection(rng: &mut Rng, words: &mut [u32]) {
    for _ in 0..rng.of(&[1, 1, 1, 2]) {
        let at = rng.of(&[
            CONNECTION_STATE,
            CONNECTION_DUE,
            CONNECTION_DUE,
            CONNECTION_ASKED,
            CONNECTION_ASKED,
            CONNECTION_ASKED,
            CONNECTION_HEADERS,
            CONNECTION_HEADERS,
            CONNECTION_HEAD,
            CONNECTION_HEAD,
            CONNECTION_EDITION,
            CONNECTION_OPEN,
        ]);
        let state = words[CONNECTION_STATE];
        let counts_in_busy = [
            CONNECTION_DUE,
            CONNECTION_ASKED,
            CONNECTION_HEADERS,
            CONNECTION_HEAD,
        ];
        if counts_in_busy.contains(&at) && rng.one_in(2) {
            words[CONNECTION_STATE] = match rng.one_in(2) {
                true => STATE_BUSY,
                false => rng.of(&[STATE_IDLE, STATE_PINGED, STATE_CLOSED]),
            };
            // What was any word may count now.
            if words[CONNECTION_STATE] != state {
                words[CONNECTION_DUE] = rng.below(2) as u32;
                words[CONNECTION_ASKED] = rng.short().into();
                words[CONNECTION_HEADERS] = rng.below(2) as u32;
                words[CONNECTION_HEAD] = rng.below(2) as u32;
            }
        }
        words[at] = match at {
            CONNECTION_STATE if rng.one_in(2) => rng.of(&[4, 5, 255, 256]),
            CONNECTION_STATE => above_16_bits(rng, state),
            CONNECTION_ASKED => above_16_bits(rng, words[at]),
            CONNECTION_DUE | CONNECTION_HEADERS => above_1(rng),
            _ if rng.one_in(2) => 1,
            _ => above_16_bits(rng, 0),
        };
    }
}

/// Puts a word of a building record out of range.
fn spoil_building(rng: &mut Rng, words: &mut [u32]) {
    let at = rng.of(&[
        BUILDING_KIND,
        BUILDING_NEXT,
        BUILDING_COUNT_PLACE,
        BUILDING_HEADERS,
        BUILDING_ATTRIBUTES,
    ]);
    words[at] = match at {
        BUILDING_KIND if rng.one_in(2) => rng.of(&[0, 1, 2, 4, 5, 7, 8, 255]),
        BUILDING_ATTRIBUTES => above_1(rng),
        _ => above_16_bits(rng, words[at]),
    };
}

/// Puts a word of a check on the way out of range that is not one of its connection.
fn spoil_checking(rng: &mut Rng, words: &mut [u32]) {
    let at = rng.between(CHECKING_PACKETS, SIZE_CHECKING - 1);
    match at {
        // A figure above the place; at times the least that is.
        CHECKING_PACKETS | CHECKING_REQUESTS | CHECKING_BODY => {
            let place = words[CHECKING_PLACE].min(u32::MAX - 1);
            words[CHECKING_PLACE] = place;
            words[at] = match rng.one_in(2) {
                true => place + 1,
                false => rng.between(place as usize + 1, u32::MAX as usize) as u32,
            };
        }
        // A place below the figures, at times.
        CHECKING_PLACE => words[at] /= 2,
        CHECKING_REFUSAL => {
            let behind = u32::from(plain::LAST_REFUSAL) + 1;
            words[at] = match rng.below(3) {
                0 => rng.of(&[behind, behind + 1, 255, 256]),
                1 => rng.word().max(behind),
                _ => above_16_bits(rng, behind - 1),
            };
        }
        _ if rng.one_in(2) => words[at] = 1,
        _ => words[at] = above_16_bits(rng, 0),
    }
}

/// Puts some arguments out of range.
fn spoil_arguments(rng: &mut Rng, call: &mut Call) {
    match call {
        Call::GetBody(asked) => number(rng, asked),
        Call::End(reuse) => flag(rng, reuse),
        Call::BeginForward { fixed, strings } => {
            number(rng, &mut fixed[FIXED_METHOD]);
            number(rng, &mut fixed[FIXED_PORT]);
            let at = rng.between(FIXED_IS_SSL, SIZE_FIXED - 1);
            flag(rng, &mut fixed[at]);
            flag(rng, &mut fixed[FIXED_IS_SSL]);
            // A packet that is too long as well.
            if rng.one_in(2 * ODDS) {
                let at = rng.below(strings.len());
                strings[at] = strings::text_of(rng, 8192);
            }
            if rng.one_in(ODDS) {
                *fixed = wrong_length(rng, fixed, FIXED_LENGTHS).get().to_vec();
            }
        }
        Call::BeginSendHeaders { status, message } => {
            number(rng, status);
            flag(rng, &mut message.null);
        }
        Call::HeaderCoded { code, value } | Call::AttributeText { code, value } => {
            number(rng, code);
            flag(rng, &mut value.null);
        }
        Call::HeaderSpelled { name, value } => {
            flag(rng, &mut name.null);
            flag(rng, &mut value.null);
        }
        Call::HeaderNamed { value, .. } => flag(rng, &mut value.null),
        Call::AttributeInteger { code, value } => {
            number(rng, code);
            number(rng, value);
        }
        Call::AttributePair { code, name, value } => {
            number(rng, code);
            flag(rng, &mut name.null);
            flag(rng, &mut value.null);
        }
        Call::TextAt { place, .. }
        | Call::AttributeNameAt { place, .. }
        | Call::IntegerAt { place, .. }
        | Call::HeaderCodeAt { place, .. }
        | Call::AttributeCodeAt { place, .. }
        | Call::AttributeKindAt { place, .. } => number(rng, place),
        Call::Name { list, code } => {
            wrong_list(rng, list);
            number(rng, code);
        }
        Call::Code { list, .. } => wrong_list(rng, list),
        Call::Fresh
        | Call::LargestBody
        | Call::ReadAtContainer(_)
        | Call::ReadAtServer(_)
        | Call::CPing
        | Call::CPong
        | Call::Body(_)
        | Call::BodyChunk(_)
        | Call::Close
        | Call::Check(_)
        | Call::CheckBegin
        | Call::CheckGoOn(_)
        | Call::CheckFinish(_) => {}
    }
}

/// Makes a number above 65535, at times.
fn number(rng: &mut Rng, word: &mut u32) {
    if rng.one_in(ODDS) {
        *word = above_16_bits(rng, *word);
    }
}

/// Makes a flag above 1, at times.
fn flag(rng: &mut Rng, word: &mut u32) {
    if rng.one_in(ODDS) {
        *word = above_1(rng);
    }
}

/// Makes a list one that there is not, at times.
fn wrong_list(rng: &mut Rng, list: &mut u32) {
    if rng.one_in(ODDS) {
        *list = match rng.below(2) {
            0 => rng.of(&[4, 5, 255, 256]),
            _ => above_16_bits(rng, *list),
        };
    }
}
