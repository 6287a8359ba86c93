//! Many seeds in turn.
use crate::difference::{difference, record_places};
use crate::generate;
use crate::shrink::shrink;
use crate::subject::{Independent, Subject};
use std::fmt::{self, Write};

/// A failure shows so many lines of a listing.
const MOST_LINES: usize = 100;

/// The first seed of a sweep whose log was answered otherwise.
pub struct Failure {
    pub seed: u64,
    /// The log made small, and what differs for it.
    pub log: Vec<u8>,
    pub what: String,
}

/// Compares the logs of `count` seeds from `first` on; `progress` is told how many are done.
pub fn sweep(subject: &dyn Subject, first: u64, count: u64, mut progress: impl FnMut(u64)) -> Result<(), Failure> {
    for done in 0..count {
        progress(done);
        let seed = first.wrapping_add(done);
        let log = generate::log(seed);
        if difference(subject, &log).is_some() {
            let log = shrink(&log, |log| difference(subject, log).is_some());
            let what = difference(subject, &log).unwrap_or_default();
            return Err(Failure { seed, log, what });
        }
    }
    Ok(())
}

impl fmt::Display for Failure {
    fn fmt(&self, f: &mut fmt::Formatter<'_>) -> fmt::Result {
        writeln!(f, "seed {}: {}", self.seed, self.what)?;
        writeln!(f, "its log made small, {} bytes, a record a line:", self.log.len())?;
        f.write_str(&by_record(&self.log))?;
        writeln!(f, "the independent model lists it so:")?;
        let lines = Independent.list(&self.log).unwrap_or_default();
        f.write_str(&last_lines(&String::from_utf8_lossy(&lines)))
    }
}

/// The lines, or the last ones where there are many.
fn last_lines(text: &str) -> String {
    let lines: Vec<&str> = text.lines().collect();
    let left_out = lines.len().saturating_sub(MOST_LINES);
    let note = if left_out > 0 {
        format!("({left_out} lines)\n")
    } else {
        String::new()
    };
    note + &lines[left_out..].join("\n") + "\n"
}

/// A log in hex, a record a line, those in a row that are the same on one, and what cannot be read on the last.
fn by_record(log: &[u8]) -> String {
    let mut starts = record_places(log);
    starts.push(log.len());
    let records: Vec<&[u8]> = starts.windows(2).map(|ends| &log[ends[0]..ends[1]]).collect();
    let mut text = String::new();
    for same in records.chunk_by(|a, b| a == b).filter(|same| !same[0].is_empty()) {
        text.push(' ');
        for byte in same[0] {
            write!(text, " {byte:02X}").expect("a string takes all");
        }
        if same.len() > 1 {
            write!(text, "   {} times", same.len()).expect("a string takes all");
        }
        text.push('\n');
    }
    text
}
