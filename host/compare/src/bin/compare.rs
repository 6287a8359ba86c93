//! Compares so many logs, those of a seed and the seeds after it.
use compare::subject::Proved;
use compare::sweep::sweep;
use std::io::{stderr, IsTerminal};
use std::process::ExitCode;
use std::time::{Duration, Instant};

const USAGE: &str = "usage: compare [COUNT [SEED]]     (20000 logs from seed 1 where they are not given)";

fn main() -> ExitCode {
    let given: Vec<String> = std::env::args().skip(1).collect();
    let numbers: Result<Vec<u64>, _> = given.iter().map(|text| text.parse()).collect();
    let (count, first) = match numbers.as_deref() {
        Ok([]) => (20_000, 1),
        Ok([count]) => (*count, 1),
        Ok([count, first]) => (*count, *first),
        _ => {
            eprintln!("{USAGE}");
            return ExitCode::FAILURE;
        }
    };
    let proved = match Proved::built() {
        Ok(proved) => proved,
        Err(missing) => {
            eprintln!("compare: {missing}");
            return ExitCode::FAILURE;
        }
    };
    let (start, terminal) = (Instant::now(), stderr().is_terminal());
    let mut shown = start;
    let swept = sweep(&proved, first, count, |done| {
        if terminal && shown.elapsed() > Duration::from_millis(500) {
            shown = Instant::now();
            eprint!("\r{done} of {count} logs, {:.0} s", start.elapsed().as_secs_f64());
        }
    });
    if terminal {
        eprint!("\r\x1b[K");
    }
    match swept {
        Ok(()) => {
            println!(
                "{count} logs from seed {first}: no difference, {:.1} s",
                start.elapsed().as_secs_f64()
            );
            ExitCode::SUCCESS
        }
        Err(failure) => {
            println!("{failure}");
            println!(
                "to see it again: cargo run --release --manifest-path host/Cargo.toml --bin compare -- 1 {}",
                failure.seed
            );
            ExitCode::FAILURE
        }
    }
}
