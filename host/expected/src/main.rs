//! Writes the cases of a test, or the lines that must come of them, by the independent model of `model`.
#![forbid(unsafe_code)]

mod chance;
mod emc2300_output;
mod emc2305;
mod emc2305_fan;
mod eventlog;
mod events;
mod library;
mod logs;
mod program;
mod script;
mod speeds;
mod windows;

use script::Script;
use std::io::{self, Write};
use std::process::ExitCode;

const USAGE: &str = "usage: expected eventlog|emc2305_fan|emc2305|emc2300_output|library|program|speeds cases|lines";

fn main() -> ExitCode {
    let words: Vec<String> = std::env::args().skip(1).collect();
    let Some(text) = asked(&words) else {
        eprintln!("{USAGE}");
        return ExitCode::FAILURE;
    };
    match io::stdout().lock().write_all(&text) {
        Ok(()) => ExitCode::SUCCESS,
        Err(error) => {
            eprintln!("expected: {error}");
            ExitCode::FAILURE
        }
    }
}

/// What the words of the command line ask for.
fn asked(words: &[String]) -> Option<Vec<u8>> {
    let [test, what] = words else {
        return None;
    };
    let script = script_of(test)?;
    match what.as_str() {
        "cases" => Some(script.cases),
        "lines" => Some(script.lines.into_bytes()),
        _ => None,
    }
}

fn script_of(test: &str) -> Option<Script> {
    match test {
        "eventlog" => Some(eventlog::script()),
        "emc2305_fan" => Some(emc2305_fan::script()),
        "emc2305" => Some(emc2305::script()),
        "emc2300_output" => Some(emc2300_output::script()),
        "library" => Some(library::script()),
        "program" => Some(program::script()),
        "speeds" => Some(speeds::script()),
        _ => None,
    }
}
