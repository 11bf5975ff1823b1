//! Timing: the three ways of a row take turns, round by round, and the median of the rounds counts. Or counting: only one row is
//! gone through, by the library alone, so often as the environment says, for a tool that counts instructions (`bench/count`).

use std::env;
use std::hint::black_box;
use std::time::{Duration, Instant};

/// How many rounds the three ways of a row take in turn.
pub const ROUNDS: usize = 101;

/// How long one way runs in a round, about.
const NANOSECONDS_A_ROUND: f64 = 1_000_000.0;

/// A row of the table: what was measured, over how many bytes, and the medians in nanoseconds.
pub struct Row {
    pub name: String,
    pub bytes: usize,
    pub library: f64,
    pub plain: f64,
    pub copy: f64,
}

impl Row {
    /// A row that was not timed.
    fn untimed(name: &str, bytes: usize) -> Row {
        Row {
            name: name.to_string(),
            bytes,
            library: 0.0,
            plain: 0.0,
            copy: 0.0,
        }
    }
}

/// The row whose instructions are counted, where the environment names one (`AJP13_COUNT_ROW`; an empty name is no row's).
pub fn counted_row() -> Option<String> {
    env::var("AJP13_COUNT_ROW").ok()
}

/// How often it is gone through (`AJP13_COUNT_CALLS`).
fn counted_calls() -> usize {
    let calls = env::var("AJP13_COUNT_CALLS").ok();
    calls.and_then(|calls| calls.parse().ok()).unwrap_or(0)
}

/// Keeps the processor busy for a while, so that it runs at its full speed when the first row is measured.
pub fn warm_up() {
    let start = Instant::now();
    let mut sum = 0u64;
    while start.elapsed() < Duration::from_secs(2) {
        sum = black_box(sum.wrapping_mul(31).wrapping_add(7));
    }
}

/// Nanoseconds a call, over so many calls.
fn time(way: &mut dyn FnMut(usize), calls: usize) -> f64 {
    let start = Instant::now();
    way(calls);
    start.elapsed().as_nanos() as f64 / calls as f64
}

/// So many calls that a round takes its time.
fn calls(way: &mut dyn FnMut(usize)) -> usize {
    way(100);
    let one = time(way, 1000).max(0.5);
    (NANOSECONDS_A_ROUND / one) as usize + 1
}

fn median(mut times: Vec<f64>) -> f64 {
    times.sort_by(f64::total_cmp);
    times[times.len() / 2]
}

/// Measures a row. Each way is given how often to do its work, and loops by itself, so that the loop is compiled with it.
pub fn measure(
    name: &str,
    bytes: usize,
    mut library: impl FnMut(usize),
    mut plain: impl FnMut(usize),
    mut copy: impl FnMut(usize),
) -> Row {
    if let Some(row) = counted_row() {
        if row == name {
            library(counted_calls());
        }
        return Row::untimed(name, bytes);
    }
    let ways: [&mut dyn FnMut(usize); 3] = [&mut library, &mut plain, &mut copy];
    let mut times: [Vec<f64>; 3] = Default::default();
    let mut counted = Vec::new();
    for way in ways {
        let count = calls(way);
        counted.push((way, count));
    }
    for _ in 0..ROUNDS {
        for (k, (way, count)) in counted.iter_mut().enumerate() {
            times[k].push(time(*way, *count));
        }
    }
    let [library, plain, copy] = times.map(median);
    let row = Row {
        name: name.to_string(),
        bytes,
        library,
        plain,
        copy,
    };
    eprintln!(
        "{:52} {:8.1} ns {:8.1} ns {:8.1} ns  x{:.2}",
        row.name,
        row.library,
        row.plain,
        row.copy,
        row.plain / row.library
    );
    row
}
