//! A run over the cases of a theme: compares the library with the plain implementation case by
//! case, counts the statuses, and stops at the count or the time that the environment sets.

// Not every test uses all of it.
#![allow(dead_code)]

use super::calls::{Call, Lent};
use super::rng::Rng;
use super::settings;
use ajp13::raw::{
    CHECKED_REFUSAL, CHECKING_REFUSAL, DONE, ERROR_ANSWER_LENGTH, ERROR_ARGUMENT,
    ERROR_BUILDING_LENGTH, ERROR_BUILDING_WORD, ERROR_CHECKING_LENGTH, ERROR_CHECKING_WORD,
    ERROR_CONNECTION_LENGTH, ERROR_CONNECTION_WORD, ERROR_FIXED_LENGTH, ERROR_FIXED_WORD, NEEDS,
};
use std::collections::BTreeMap;
use std::time::Instant;

/// How many cases all themes together compare, where `AJP13_CASES` sets no other number.
pub const CASES: u64 = 4_000_000;

/// Stands for every number but 0, where a call hands out a number and no status.
pub const NUMBER: u32 = u32::MAX;
/// Stands for 0 there.
pub const ZERO: u32 = u32::MAX - 1;

/// A run over the cases of a theme.
pub struct Run {
    theme: &'static str,
    seed: u64,
    round: u64,
    cases: u64,
    limit: u64,
    /// How many cases the theme has by default: with so many, every status has to be seen.
    enough: u64,
    begun: Instant,
    deadline: Option<Instant>,
    seen: BTreeMap<(&'static str, u32), u64>,
}

impl Run {
    /// A run with a share, in percent, of all cases and of the time.
    pub fn new(theme: &'static str, percent: u32) -> Run {
        let share = |cases: u64| cases * u64::from(percent) / 100;
        let seed = settings::seed();
        println!("{theme}: AJP13_SEED={seed}");
        Run {
            theme,
            seed,
            round: 0,
            cases: 0,
            limit: share(settings::cases(CASES)),
            enough: share(CASES),
            begun: Instant::now(),
            deadline: settings::deadline(percent),
            seen: BTreeMap::new(),
        }
    }

    /// The random numbers of the next round, which compares one case or more; none at the end.
    pub fn next_round(&mut self) -> Option<Rng> {
        let late = self.deadline.is_some_and(|end| Instant::now() >= end);
        if self.cases >= self.limit || late {
            return None;
        }
        self.round += 1;
        Some(Rng::of_round(self.seed, self.theme, self.round))
    }

    /// Makes a call at both, compares the status and all that was lent, and answers the library's.
    pub fn compare(&mut self, call: &Call, before: &Lent) -> (u32, Lent) {
        self.cases += 1;
        let mut library = before.clone();
        let library_status = call.at_library(&mut library);
        let mut plain = before.clone();
        let plain_status = call.at_plain(&mut plain);
        if library_status != plain_status || library != plain {
            panic!(
                "{}: the two differ\n\
                 AJP13_SEED={} round {} case {}\n\
                 {call}\n{before}\
                 library: {}\n{library}\
                 plain: {}\n{plain}",
                self.theme,
                self.seed,
                self.round,
                self.cases,
                status_name(library_status),
                status_name(plain_status),
            );
        }
        let counted = counted(call, library_status);
        let seen = match counted {
            DONE => verdict(call, &library),
            _ => counted,
        };
        *self.seen.entry((call.name(), seen)).or_default() += 1;
        // A refusal and an error write nothing, and so does a number but for that of a name.
        if !matches!(counted, DONE | NEEDS | NUMBER) {
            assert!(library == *before, "{}: {call}", self.theme);
        }
        (library_status, library)
    }

    /// Whether the run has as many cases as it has by default.
    pub fn is_full(&self) -> bool {
        self.cases >= self.enough
    }

    /// Prints how often each status was seen, and checks that those of each call were seen, and no
    /// other. A call of the checker is counted by the refusal that it told in its words.
    pub fn finish(self, expected: &[(&'static str, &[u32])]) {
        self.check_seen(expected, |_| true);
    }

    /// The same, where only errors are listed and checked.
    pub fn finish_errors(self, expected: &[(&'static str, &[u32])]) {
        self.check_seen(expected, is_error);
    }

    /// Checks the statuses that count. In a short run some of them may be missing.
    fn check_seen(self, expected: &[(&'static str, &[u32])], counts: impl Fn(u32) -> bool) {
        let theme = self.theme;
        let seconds = self.begun.elapsed().as_secs_f64();
        println!("{theme}: {} cases in {seconds:.1} s", self.cases);
        for &(call, statuses) in expected {
            let seen: Vec<String> = self
                .seen
                .range((call, 0)..=(call, u32::MAX))
                .map(|((_, status), times)| format!("{} {times}", status_name(*status)))
                .collect();
            println!("  {call}: {}", seen.join(", "));
            for &status in statuses {
                assert!(
                    self.seen.contains_key(&(call, status)) || !self.is_full(),
                    "{theme}: {call} never returned {}",
                    status_name(status)
                );
            }
        }
        for &(call, status) in self.seen.keys().filter(|(_, status)| counts(*status)) {
            let listed = expected
                .iter()
                .any(|(name, statuses)| *name == call && statuses.contains(&status));
            assert!(listed, "{theme}: {call} returned {}", status_name(status));
        }
    }
}

/// What a status is counted as: where a call hands out a number and no status, 0 and all others.
pub fn counted(call: &Call, status: u32) -> u32 {
    match (call.hands_out_number(), status) {
        (true, 0) => ZERO,
        (true, 1..=65535) => NUMBER,
        _ => status,
    }
}

/// The refusal that a call of the checker has told in its words, which is no status of it; `DONE`
/// where it has told none, and for every other call.
fn verdict(call: &Call, lent: &Lent) -> u32 {
    match call {
        Call::Check(_) | Call::CheckFinish(_) => lent.checked.get()[CHECKED_REFUSAL],
        Call::CheckGoOn(_) => lent.checking.get()[CHECKING_REFUSAL],
        _ => DONE,
    }
}

/// Whether a status is an error.
pub fn is_error(status: u32) -> bool {
    (ERROR_CONNECTION_LENGTH..=ERROR_CHECKING_WORD).contains(&status)
}

/// The name of a status; a refusal is told by its number.
pub fn status_name(status: u32) -> String {
    let name = match status {
        DONE => "done",
        NEEDS => "needs",
        ERROR_CONNECTION_LENGTH => "connection-length",
        ERROR_CONNECTION_WORD => "connection-word",
        ERROR_BUILDING_LENGTH => "building-length",
        ERROR_BUILDING_WORD => "building-word",
        ERROR_FIXED_LENGTH => "fixed-length",
        ERROR_FIXED_WORD => "fixed-word",
        ERROR_ANSWER_LENGTH => "answer-length",
        ERROR_ARGUMENT => "argument",
        ERROR_CHECKING_LENGTH => "checking-length",
        ERROR_CHECKING_WORD => "checking-word",
        ZERO => "0",
        NUMBER => "number",
        number => return format!("({number})"),
    };
    name.to_string()
}
