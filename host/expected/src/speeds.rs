//! The logs that tests/speeds_test.py hands to the program emc2305_speeds, and its reports. A case is a name, the program's
//! argument and the log, with tabs between; its line is the report, with `; ` in the place of line ends.
//!
//! A log is in hex, records with spaces between; so many in a row that are the same are written once: `9c460303010100*3`.

use crate::chance::Chance;
use crate::emc2305::{at, FANS, HOME};
use crate::events::LONGEST_RECORD;
use crate::logs::{
    clock, example, other_addresses, part_on, parts, power_on, power_on_at, random_logs, sample, send, send_to, stops,
    sweep, ticks, traffic, truncations, unpowered, wish,
};
use crate::script::{bytes, hex, Script};
use crate::windows::{damaged, filler, in_pieces, WINDOW};
use model::chip::CONFIGURATION_1;
use model::log::read;
use model::speeds::{list, poles, MOST_SAMPLES};

/// Counts at the ends of their range, and some whose speeds are rounded.
const COUNTS: [u16; 8] = [1, 2, 3, 7, 100, 2621, 8190, 8191];

pub fn script() -> Script {
    let mut script = Script::default();
    short_logs(&mut script);
    every_setting(&mut script);
    limits(&mut script);
    long_logs(&mut script);
    script
}

fn add(script: &mut Script, name: &str, argument: &str, log: &[u8]) {
    let report = list(log, poles(argument.as_bytes()));
    script.add_text(
        &format!("{name}\t{argument}\t{}", packed(log)),
        &report.trim_end().replace('\n', "; "),
    );
}

/// A log as a case has it.
fn packed(log: &[u8]) -> String {
    let (mut pieces, mut place): (Vec<(&[u8], usize)>, _) = (Vec::new(), 0);
    while place < log.len() {
        let next = read(log, place).ok().flatten().map_or(log.len(), |(_, next)| next);
        let piece = &log[place..next];
        match pieces.last_mut() {
            Some((last, times)) if *last == piece => *times += 1,
            _ => pieces.push((piece, 1)),
        }
        place = next;
    }
    let words: Vec<String> = pieces.into_iter().map(|(piece, times)| word(piece, times)).collect();
    words.join(" ")
}

fn word(piece: &[u8], times: usize) -> String {
    if times == 1 {
        hex(piece)
    } else {
        format!("{}*{times}", hex(piece))
    }
}

/// Configuration 1 of a fan.
fn configure(fan: u8, byte: u8) -> Vec<u8> {
    send(&[at(fan, CONFIGURATION_1), byte])
}

// ---- short logs ----

/// Samples refused and taken, of count 0 too, with Configuration 1 written between them, a power-on among them, and
/// other records.
fn few() -> Vec<u8> {
    [
        sample(1, 5),
        power_on(),
        sample(1, 2622),
        sample(5, 8191),
        configure(1, 0x78),
        sample(1, 1),
        sample(1, 0),
        send_to(HOME + 1, &[at(1, CONFIGURATION_1), 0x00]),
        ticks(320),
        sample(1, 7),
        power_on_at(HOME + 1),
        sample(2, 0),
        sample(1, 2621),
        clock(32),
        wish(3, 9),
    ]
    .concat()
}

/// Samples of fan 2 on each part and on all five, and of fan 4, which only the five have.
fn on_parts() -> Vec<u8> {
    let each = [part_on(2), part_on(1), part_on(3), power_on()];
    each.map(|start| [start, sample(2, 1000), sample(4, 1)].concat())
        .concat()
}

/// Logs with their reports. The speed of the default fan at two poles is 7864320 over the count, that of m 8 and nine
/// edges 62914560 over it.
fn written_out() -> Vec<(&'static str, &'static str, Vec<u8>, String)> {
    let none = "1 0 0 0 0 0; 2 0 0 0 0 0; 3 0 0 0 0 0; 4 0 0 0 0 0; 5 0 0 0 0 0";
    let few_lines = "1 4 2999 62914560 71908353 1; 2 0 0 0 0 1; 3 0 0 0 0 0; 4 0 0 0 0 0; 5 1 960 960 960 0";
    vec![
        ("document 01's example", "1", example(), format!("{none}; end 18")),
        ("no bytes", "2", vec![], format!("{none}; end 0")),
        ("9C", "3", bytes("9C"), format!("{none}; stop 0 1")),
        ("poles 0", "0", few(), format!("{none}; stop 0 13")),
        (
            "poles 5 of a damaged log",
            "5",
            bytes("9D"),
            format!("{none}; stop 0 13"),
        ),
        (
            "poles 4 of a damaged log",
            "4",
            bytes("9D"),
            format!("{none}; stop 0 2"),
        ),
        ("a few samples", "2", few(), format!("{few_lines}; end 98")),
        (
            "samples on parts",
            "2",
            on_parts(),
            "1 0 0 0 0 0; 2 3 7864 7864 23592 0; 3 0 0 0 0 0; 4 1 7864320 7864320 7864320 0; 5 0 0 0 0 0; end 79"
                .into(),
        ),
        (
            "five fans by kind 6",
            "2",
            bytes("9C 46 06 02 2C 05"),
            format!("{none}; stop 0 15"),
        ),
    ]
}

/// Logs that fit in the window.
fn short_logs(script: &mut Script) {
    for (name, argument, log, _) in written_out() {
        add(script, name, argument, &log);
    }
    for argument in [
        "01", " 1", "1 ", "+1", "-1", "1.0", "0x1", "10", "11", "14", "one", "-", "--help=1",
    ] {
        add(script, &format!("the argument {argument:?}"), argument, &few());
    }
    for (number, log) in stops(&few(), &few()) {
        add(script, &format!("a stop with {number}"), "2", &log);
    }
    for log in truncations(&few()) {
        add(script, &format!("a few samples, cut at {}", log.len()), "3", log);
    }
    add(script, "unpowered", "1", &unpowered());
    add(script, "other addresses", "1", &other_addresses());
    add(script, "sweep", "1", &sweep());
    for argument in ["1", "2", "3", "4"] {
        add(script, &format!("parts, {argument} poles"), argument, &parts());
    }
    for ((name, log), argument) in random_logs(2, 20)
        .into_iter()
        .zip(["1", "2", "3", "4"].into_iter().cycle())
    {
        add(script, &name, argument, &log);
    }
}

/// Each m and edges, each number of poles, on every fan in turn: samples behind each setting, and one of another fan.
fn every_setting(script: &mut Script) {
    for argument in ["1", "2", "3", "4"] {
        let mut log = power_on();
        for bits in 0..16u8 {
            let fan = 1 + bits % 5;
            log.extend(configure(fan, bits << 3 | 0x83));
            log.extend(COUNTS.map(|count| sample(fan, count)).concat());
            log.extend(sample(1 + fan % 5, 1000));
            log.extend(sample(fan, 0));
        }
        add(script, &format!("every setting, {argument} poles"), argument, &log);
        for bits in 0..16u8 {
            let log = [power_on(), configure(4, bits << 3), sample(4, 7)].concat();
            add(script, &format!("setting {bits}, {argument} poles"), argument, &log);
        }
    }
}

// ---- as many samples as there may be ----

/// So many samples of a fan, any counts among them.
fn any_samples(chance: &Chance, fan: u8, count: usize) -> Vec<u8> {
    let counts = |chance: &Chance| chance.among(&[0, 1, 8191, chance.below(8192)]);
    (0..count).flat_map(|_| sample(fan, counts(chance))).collect()
}

/// Logs that come up to the limit, past it, or to a record in the place of the sample past it.
fn limits(script: &mut Script) {
    let full = |fan, count| sample(fan, count).repeat(MOST_SAMPLES);
    let at_limit = [power_on(), full(1, 8191)].concat();
    let zeros = [power_on(), full(3, 0)].concat();
    let both = [power_on(), sample(2, 0).repeat(65_000), sample(2, 1).repeat(535)].concat();
    let past = |before: &[u8], after: &[Vec<u8>]| [before, &after.concat()].concat();
    for (name, log) in [
        ("65,534 samples", [power_on(), sample(5, 1).repeat(65_534)].concat()),
        ("65,535 samples", at_limit.clone()),
        ("65,536 samples", past(&at_limit, &[sample(1, 8191)])),
        ("65,536 samples, the last of count 0", past(&at_limit, &[sample(1, 0)])),
        ("65,537 samples", past(&at_limit, &[sample(1, 1), sample(1, 1)])),
        ("65,535 counts of 0", zeros.clone()),
        ("65,536 counts of 0", past(&zeros, &[sample(3, 0)])),
        ("65,535 counts of 0 and a sample", past(&zeros, &[sample(3, 9)])),
        ("65,535 of both sorts", both.clone()),
        ("65,536 of both sorts", past(&both, &[sample(2, 0)])),
        (
            "65,535 samples of each fan",
            [power_on(), FANS.map(|fan| full(fan, 8)).concat()].concat(),
        ),
        (
            "two fans full, the second stops",
            past(&at_limit, &[full(4, 3), sample(2, 5), sample(4, 3), sample(1, 3)]),
        ),
        (
            "other fans behind a full one",
            past(
                &at_limit,
                &[sample(5, 0), configure(2, 0x00), sample(2, 6), sample(1, 6)],
            ),
        ),
        (
            "a power-on behind a full fan",
            past(&at_limit, &[power_on(), sample(1, 1)]),
        ),
        (
            "a full fan that is absent",
            past(&zeros, &[part_on(2), sample(3, 0).repeat(3), sample(2, 9)]),
        ),
        (
            "a full fan that is absent and back",
            past(&zeros, &[part_on(1), sample(3, 9), part_on(3), sample(3, 9)]),
        ),
        (
            "samples of an absent fan and a full one",
            [part_on(2), sample(3, 1).repeat(9), zeros.clone()].concat(),
        ),
        (
            "65,535 samples on a part",
            [part_on(1), full(1, 8191), part_on(2), sample(2, 1), sample(1, 1)].concat(),
        ),
        (
            "refused samples and a full fan",
            [sample(1, 1).repeat(9), at_limit.clone()].concat(),
        ),
        (
            "a record behind 14",
            past(&at_limit, &[sample(1, 1), sample(2, 1), bytes("9D")]),
        ),
        (
            "the largest total",
            [power_on(), configure(1, 0x78), full(1, 1)].concat(),
        ),
    ] {
        add(script, name, "1", &log);
    }
    for (number, log) in stops(&at_limit, &few()) {
        add(script, &format!("{number} in the place of 14"), "2", &log);
    }
    let any = [power_on(), any_samples(&Chance::new(14), 2, MOST_SAMPLES + 1)].concat();
    add(script, "65,536 samples of any count", "4", &any);
}

// ---- logs that are longer than the window ----

/// Samples that begin up to the longest record's length before the window's edge, damage there, logs of several windows,
/// and logs in pieces.
fn long_logs(script: &mut Script) {
    for offset in 0..=LONGEST_RECORD {
        let log = [filler(WINDOW - offset), few(), few()].concat();
        add(script, &format!("samples {offset} bytes before the edge"), "2", &log);
    }
    for (name, log) in damaged(&few(), &few()) {
        add(script, &name, "2", &log);
    }
    let long = long_log();
    add(script, "a long log", "3", &long);
    for (name, log) in in_pieces(&few(), &long, &few()) {
        add(script, name, "3", &log);
    }
}

/// Some 300 kB with samples of every fan among other records.
fn long_log() -> Vec<u8> {
    let chance = Chance::new(458_750);
    let mut log = power_on();
    while log.len() < 300_000 {
        let fan = chance.among(&FANS);
        log.extend(configure(fan, chance.below(128)));
        for fan in FANS {
            log.extend(any_samples(&chance, fan, chance.below(40)));
        }
        if chance.one_in(8) {
            log.extend(traffic(&chance, 10));
        }
    }
    log
}

#[cfg(test)]
mod tests {
    use super::{few, list, packed, poles, power_on, sample, stops, written_out};

    #[test]
    fn the_model_reports_what_is_written_out() {
        for (name, argument, log, report) in written_out() {
            let text = report.replace("; ", "\n") + "\n";
            assert_eq!(list(&log, poles(argument.as_bytes())), text, "{name}");
        }
    }

    #[test]
    fn a_stop_gets_its_number() {
        for (number, log) in stops(&few(), &few()) {
            let last = format!("\nstop 98 {number}\n");
            assert!(list(&log, 2).ends_with(&last), "{log:02X?}");
        }
    }

    #[test]
    fn records_in_a_row_are_written_once() {
        let log = [power_on(), sample(1, 1).repeat(3), vec![0x9C]].concat();
        assert_eq!(packed(&log), "9c4601012c 9c460303010100*3 9c");
        assert_eq!(packed(&[]), "");
    }
}
