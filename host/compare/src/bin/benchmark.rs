//! Measures the proved model beside the independent one, in one process over the same logs, reports beside runs, and both
//! listing programs.
//! Prints tables as docs/PERFORMANCE.md has them.
use compare::logs::{self, Measured};
use compare::subject::{Independent, Proved, Subject};
use std::fs::File;
use std::hint::black_box;
use std::path::{Path, PathBuf};
use std::process::{Command, ExitCode, Stdio};
use std::time::Instant;

/// How often each thing is measured, those that are compared in turn; the median counts.
const REPEATS: usize = 11;
const POLES: u64 = 2;

fn main() -> ExitCode {
    match Proved::built().and_then(|proved| Ok((proved, independent_program()?))) {
        Ok((proved, other)) => {
            runs(&proved);
            reports(&proved);
            growth(&proved);
            listings(&proved, &other);
            ExitCode::SUCCESS
        }
        Err(missing) => {
            eprintln!("benchmark: {missing}");
            ExitCode::FAILURE
        }
    }
}

/// The listing program over the independent model, which cargo lays beside this one.
fn independent_program() -> Result<PathBuf, String> {
    let program = std::env::current_exe()
        .expect("this program has a path")
        .with_file_name("list");
    if program.is_file() {
        Ok(program)
    } else {
        Err(format!(
            "{} is not there: make it with `cargo build --release --manifest-path host/Cargo.toml`",
            program.display()
        ))
    }
}

/// The median of several times, in seconds.
fn median(mut seconds: Vec<f64>) -> f64 {
    seconds.sort_by(f64::total_cmp);
    seconds[seconds.len() / 2]
}

/// The median times of several things, measured in turn.
fn in_turn<const N: usize>(mut things: [&mut dyn FnMut(); N]) -> [f64; N] {
    let mut times = [const { Vec::new() }; N];
    for _ in 0..REPEATS {
        for (thing, times) in things.iter_mut().zip(&mut times) {
            let start = Instant::now();
            thing();
            times.push(start.elapsed().as_secs_f64());
        }
    }
    times.map(median)
}

fn run(subject: &dyn Subject, log: &[u8], replies: &mut [u8]) {
    black_box(subject.run(log, replies));
}

/// The median times of a run over the log, by the proved model and by the independent one.
fn run_times(proved: &Proved, log: &[u8]) -> [f64; 2] {
    let room = cobblehard::replies_room(log.len());
    let (mut replies, mut others) = (vec![0; room], vec![0; room]);
    let times = in_turn([&mut || run(proved, log, &mut replies), &mut || {
        run(&Independent, log, &mut others)
    }]);
    assert!(replies == others, "the models answered otherwise");
    times
}

fn runs(proved: &Proved) {
    println!("| log | records | ticks | | proved | independent | ratio |");
    println!("|---|---|---|---|---|---|---|");
    for Measured {
        name,
        log,
        records,
        ticks,
    } in [
        logs::ticking(2_000),
        logs::transferring(200_000),
        logs::fan_writes(200_000),
        logs::reads(200_000),
        logs::mixed(2_000_000),
    ] {
        let [ours, theirs] = run_times(proved, &log);
        let row = |what: &str, count: u64| {
            let millions = |seconds: f64| count as f64 / seconds / 1e6;
            println!(
                "| {name} | {records} | {ticks} | million {what} a second | {:.2} | {:.2} | {:.2} |",
                millions(ours),
                millions(theirs),
                theirs / ours
            );
        };
        row("records", records);
        if ticks > 0 {
            row("ticks", ticks);
        }
    }
    println!();
}

/// A report for two poles beside a run over the same log, by each model.
fn reports(proved: &Proved) {
    println!("| log | records | | million records a second, run | report | report's time over the run's |");
    println!("|---|---|---|---|---|---|");
    for Measured { name, log, records, .. } in [
        logs::mixed(2_000_000),
        logs::samples(60_000),
        logs::sampled_transfers(20_000),
    ] {
        for (model, (run, report)) in ["proved", "independent"].into_iter().zip(report_times(proved, &log)) {
            let millions = |seconds: f64| records as f64 / seconds / 1e6;
            println!(
                "| {name} | {records} | {model} | {:.2} | {:.2} | {:.2} |",
                millions(run),
                millions(report),
                report / run
            );
        }
    }
    println!();
}

/// The median times of a run and of a report, by the proved model and by the independent one, all four in turn.
fn report_times(proved: &Proved, log: &[u8]) -> [(f64, f64); 2] {
    let room = cobblehard::replies_room(log.len());
    let (mut replies, mut others) = (vec![0; room], vec![0; room]);
    let (mut figures, mut other_figures) = ([0; 25], [0; 25]);
    let (mut end, mut other_end) = ((0, 0, 0), (0, 0, 0));
    let [ran, reported, other_ran, other_reported] = in_turn([
        &mut || run(proved, log, &mut replies),
        &mut || end = proved.speeds(log, POLES, &mut figures),
        &mut || run(&Independent, log, &mut others),
        &mut || other_end = Independent.speeds(log, POLES, &mut other_figures),
    ]);
    assert!(
        (end, figures) == (other_end, other_figures),
        "the models reported otherwise"
    );
    assert!(end.0 == 0, "the report comes to the end of the log");
    [(ran, reported), (other_ran, other_reported)]
}

/// Time a record, as the log grows.
fn growth(proved: &Proved) {
    println!("| log | bytes | records | proved, ns a record | independent, ns a record |");
    println!("|---|---|---|---|---|");
    for bytes in [500_000, 1_000_000, 2_000_000, 4_000_000, 8_000_000] {
        let Measured { name, log, records, .. } = logs::mixed(bytes);
        let [ours, theirs] = run_times(proved, &log);
        let each = |seconds: f64| seconds * 1e9 / records as f64;
        println!(
            "| {name} | {} | {records} | {:.1} | {:.1} |",
            log.len(),
            each(ours),
            each(theirs)
        );
    }
    println!();
}

/// Both programs, from a file and into nothing.
fn listings(proved: &Proved, other: &Path) {
    println!("| log | bytes in | bytes out | | proved | independent | ratio |");
    println!("|---|---|---|---|---|---|---|");
    for Measured { name, log, .. } in [
        logs::short_ticks(2_000_000),
        logs::transferring(1_000_000),
        logs::mixed(16_000_000),
    ] {
        let file = std::env::temp_dir().join(format!("cobblehard-{}.log", std::process::id()));
        std::fs::write(&file, &log).expect("the temporary folder takes a file");
        let lines = Independent.list(&log);
        assert!(proved.list(&log) == lines, "the programs list otherwise");
        let lines = lines.expect("the model lists every log");
        let [ours, theirs] = in_turn([&mut || list(&proved.program, &file), &mut || list(other, &file)]);
        std::fs::remove_file(&file).expect("the file is there");
        for (what, bytes) in [("MB of log", log.len()), ("MB of lines", lines.len())] {
            let speed = |seconds: f64| bytes as f64 / seconds / 1e6;
            println!(
                "| {name} | {} | {} | {what} a second | {:.1} | {:.1} | {:.2} |",
                log.len(),
                lines.len(),
                speed(ours),
                speed(theirs),
                theirs / ours
            );
        }
    }
}

fn list(program: &Path, file: &Path) {
    let input = File::open(file).expect("the log was written");
    let status = Command::new(program).stdin(input).stdout(Stdio::null()).status();
    assert!(
        status.is_ok_and(|status| status.success()),
        "{} failed",
        program.display()
    );
}
