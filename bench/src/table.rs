//! The table of results: shown, and put into RESULTS.md between its two marks.

use crate::harness::{Row, ROUNDS};
use std::fmt::Write;
use std::path::Path;
use std::{fs, io};

const BEGIN: &str = "<!-- measured: begin -->\n";
const END: &str = "<!-- measured: end -->\n";

fn gigabytes_a_second(bytes: usize, nanoseconds: f64) -> f64 {
    bytes as f64 / nanoseconds
}

/// The processor's name, as the system tells it.
fn processor() -> String {
    let info = fs::read_to_string("/proc/cpuinfo").unwrap_or_default();
    info.lines()
        .find_map(|line| line.strip_prefix("model name"))
        .map(|rest| rest.trim_start_matches([' ', '\t', ':']).to_string())
        .unwrap_or_else(|| "unknown".to_string())
}

/// The table in Markdown.
pub fn markdown(rows: &[Row]) -> String {
    let mut text = String::new();
    let _ = writeln!(
        text,
        "Processor: {}. One thread; medians of {ROUNDS} rounds in which the library, the plain implementation and the copy take turns; \
packet, table and buffer are warm (in the first-level cache, used again and again).\n",
        processor()
    );
    text.push_str("| row | bytes | library ns | GB/s | plain Rust ns | GB/s | copy ns | GB/s | plain / library | library / copy |\n");
    text.push_str("|---|--:|--:|--:|--:|--:|--:|--:|--:|--:|\n");
    for row in rows {
        let _ = writeln!(
            text,
            "| {} | {} | {:.1} | {:.2} | {:.1} | {:.2} | {:.1} | {:.2} | **{:.2}** | {:.2} |",
            row.name,
            row.bytes,
            row.library,
            gigabytes_a_second(row.bytes, row.library),
            row.plain,
            gigabytes_a_second(row.bytes, row.plain),
            row.copy,
            gigabytes_a_second(row.bytes, row.copy),
            row.plain / row.library,
            row.library / row.copy,
        );
    }
    text
}

/// Puts the table into the file between its marks; what stands around them stays.
pub fn put(path: &Path, table: &str) -> io::Result<()> {
    let old = fs::read_to_string(path)?;
    let (Some(begin), Some(end)) = (old.find(BEGIN), old.find(END)) else {
        return Err(io::Error::other("the file has no marks for the table"));
    };
    let new = format!("{}{}{}", &old[..begin + BEGIN.len()], table, &old[end..]);
    fs::write(path, new)
}
