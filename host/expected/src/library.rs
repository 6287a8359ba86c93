//! The cases of host/c/check.c, which calls the C library, and its answers. Each is a line in the words that check.c
//! explains; the numbers that stand for an event are those of include/cobblehard.h.

use crate::chance::Chance;
use crate::emc2305::traffic::any_sent;
use crate::emc2305::{at, CONFIGURATION, FANS, HOME, LOCK};
use crate::events;
use crate::logs::{clock, part_on, power_on, power_on_at, sample, send, send_to, ticks};
use crate::logs::{example, random_logs, short, sprinkled, stops, traffic, truncations, unpowered, written_logs};
use crate::script::{bytes, hex_or, Script};
use model::chip::{CONFIGURATION_1, SETTING};
use model::log::{read, write, Event, ADDRESS, BYTES, COUNT, FAN, NUMBER_OF_FANS, UNKNOWN_KIND};
use model::replay::run;
use model::speeds::{rpm, rpm_by_high_byte, speeds as report};
use std::collections::BTreeSet;
use std::iter::repeat;

/// What check.c lays in buffers and numbers before a call.
const FILL: u8 = 0xEE;
const PRESET_8: u8 = 0xA5;
const PRESET_16: u16 = 0xA5A5;
const PRESET_64: u64 = 0xA5A5_A5A5_A5A5_A5A5;

/// What eventlog_fault answers where nothing is refused.
const NO_FAULT: u64 = u64::MAX;

const LONGEST_REPLY: usize = 32;
/// The most bytes that a transfer has after its address byte.
const MOST_BYTES: usize = 32;

pub fn script() -> Script {
    let (mut script, chance) = (Script::default(), Chance::new(20_262_305));
    let mut logs = written_logs();
    logs.extend(random_logs(5032, 40).into_iter().map(|(_, log)| log));
    logs.extend(truncations(&short()).map(<[u8]>::to_vec));
    logs.extend((0..2).map(|_| traffic(&chance, 1000)));
    for log in &logs {
        run_cases(&mut script, log, &chance);
    }
    all_speeds_cases(&mut script, &logs);
    rpm_cases(&mut script);
    let mut logs = vec![vec![], example(), short()];
    logs.extend(stops(&example()[..5], &short()[..12]).into_iter().map(|(_, log)| log));
    logs.extend((0..6).map(|_| sprinkled(&chance, 100)));
    for log in logs {
        read_cases(&mut script, &log);
    }
    for kind in [0, 1, 2, 3, 4, 5, 6, 7, 255] {
        all_write_cases(&mut script, kind);
    }
    script
}

// ---- runs ----

/// No room, one byte, the replies' own length, one less, plenty, and any.
fn run_cases(script: &mut Script, log: &[u8], chance: &Chance) {
    let exact = run(log, &mut vec![0; LONGEST_REPLY * log.len()]).reply_bytes;
    let any = chance.below(exact as u64 + 2);
    for room in BTreeSet::from([0, 1, exact, exact.saturating_sub(1), exact + 40, any]) {
        let answer = run_answer(log, room);
        for size in rooms(room) {
            for text in slices(log) {
                script.add_text(&format!("run {size} {text}"), &answer);
            }
        }
    }
}

fn run_answer(log: &[u8], room: usize) -> String {
    let mut replies = vec![FILL; room];
    let run = run(log, &mut replies);
    let numbers = format!("{} {} {} {}", run.number, run.place, run.records, run.reply_bytes);
    format!("{numbers} {}", hex_or(".", &replies))
}

// ---- speeds ----

/// In range, out of it, and such that their low bits are in range.
const POLES: [u64; 14] = [
    0,
    1,
    2,
    3,
    4,
    5,
    255,
    256,
    257,    // 1 in 8 bits
    65_538, // 2 in 16 bits
    1 << 32,
    (1 << 32) + 3, // 3 in 32 bits
    1 << 63,
    u64::MAX,
];

/// How many samples a report takes of a fan.
const MOST_SAMPLES: usize = 65_535;

/// All poles and all rooms with a few logs; any with the logs of the runs, with stops, and with samples at random; and fans
/// that have too many samples.
fn all_speeds_cases(script: &mut Script, of_runs: &[Vec<u8>]) {
    for poles in POLES {
        for log in [
            vec![],
            unpowered(),
            measured(),
            measured_parts(),
            every_configuration(),
            bytes("9D"),
        ] {
            speeds_cases(script, poles, 26, &log);
        }
    }
    for room in 0..=27 {
        speeds_cases(script, 3, room, &measured());
    }
    let chance = Chance::new(7_864_320);
    let mut logs = of_runs.to_vec();
    logs.extend(stops(&measured(), &measured()).into_iter().map(|(_, log)| log));
    logs.extend((0..200).map(|_| any_measured(&chance)));
    for log in logs {
        speeds_cases(script, 1 + chance.below::<u64>(4), 20 + chance.below::<usize>(8), &log);
    }
    for log in full_logs() {
        speeds_cases(script, 1, 25, &log);
    }
}

/// One case, or more where the log or the room is none.
fn speeds_cases(script: &mut Script, poles: u64, room: usize, log: &[u8]) {
    let answer = speeds_answer(poles, room, log);
    for size in rooms(room) {
        for text in slices(log) {
            script.add_text(&format!("speeds {poles} {size} {text}"), &answer);
        }
    }
}

/// Entries past the figures stay as they were.
fn speeds_answer(poles: u64, room: usize, log: &[u8]) -> String {
    let report = report(log, poles);
    let entries = report.figures.into_iter().chain(repeat(u64::from_ne_bytes([FILL; 8])));
    let words: Vec<String> = entries.take(room).map(|entry| entry.to_string()).collect();
    let entries = if room == 0 { ".".into() } else { words.join(" ") };
    format!("{} {} {} {entries}", report.number, report.place, report.records)
}

/// Every fan in a way of its own: with its Configuration 1 written in a block, or with the loop, which the watch turns off,
/// or behind a lock, which does not hold it; with zero counts alone; over several power-ons. 6 and 7 are among them.
fn measured() -> Vec<u8> {
    [
        sample(1, 1),
        send(&[at(1, CONFIGURATION_1), 0x78]),
        power_on(),
        sample(1, 1),
        sample(1, 0),
        sample(1, 8191),
        send(&[at(1, SETTING), 0x80, 1, 0x10, 0x28]),
        sample(1, 3000),
        send_to(HOME + 1, &[at(1, CONFIGURATION_1), 0x78]),
        sample(1, 3001),
        send(&[at(2, CONFIGURATION_1), 0xF8]),
        send(&[CONFIGURATION, 0x60]),
        ticks(320),
        sample(2, 2),
        send(&[LOCK, 1]),
        send(&[at(3, CONFIGURATION_1), 0x40]),
        sample(3, 8190),
        clock(32),
        sample(3, 7),
        sample(4, 0).repeat(2),
        sample(5, 7000),
        send(&[at(5, CONFIGURATION_1), 0x00]),
        sample(5, 7000),
        power_on_at(HOME + 1),
        sample(5, 7000),
        power_on(),
        sample(5, 0),
    ]
    .concat()
}

/// A sample of every fan on each part in turn, its Configuration 1 written where there is one, and on all five.
fn measured_parts() -> Vec<u8> {
    let mut log = Vec::new();
    for start in [part_on(1), part_on(2), part_on(3), power_on(), part_on(2)] {
        log.extend(start);
        for fan in FANS {
            log.extend(sample(fan, 700 + u16::from(fan)));
            log.extend(send(&[at(fan, CONFIGURATION_1), 0x08 * fan]));
            log.extend(sample(fan, 900));
            log.extend(sample(fan, 0));
        }
    }
    log
}

/// Every byte of Configuration 1 with a sample, fan by fan.
fn every_configuration() -> Vec<u8> {
    let mut log = power_on();
    for byte in 0..=255 {
        let fan = FANS[usize::from(byte) % FANS.len()];
        log.extend(send(&[at(fan, CONFIGURATION_1), byte]));
        log.extend(sample(fan, 1000 + 7 * u16::from(byte)));
    }
    log
}

/// Samples, and what changes Configuration 1; at times some before power-on.
fn any_measured(chance: &Chance) -> Vec<u8> {
    let mut log = any_measures(chance, chance.among(&[0, 0, 1, 3]));
    log.extend(power_on());
    log.extend(any_measures(chance, chance.below(60)));
    log
}

fn any_measures(chance: &Chance, count: usize) -> Vec<u8> {
    (0..count).flat_map(|_| any_measure(chance)).collect()
}

fn any_measure(chance: &Chance) -> Vec<u8> {
    let fan = chance.among(&FANS);
    match chance.below(20) {
        0u8..10 => sample(fan, chance.among(&[0, 1, 2, 3, 31, 32, 8191, chance.below(8192)])),
        10..14 => send(&[at(fan, CONFIGURATION_1), chance.below(256)]),
        14..17 => send_to(chance.among(&[HOME, HOME, HOME + 1]), &any_sent(chance)),
        17 => ticks(chance.below(400)),
        18 => clock(32),
        19 if chance.one_in(2) => part_on(chance.among(&[1, 2, 3])),
        _ => power_on_at(chance.among(&[HOME, HOME + 1])),
    }
}

/// As many samples as a report takes, and one more: of zero counts alone, of both sorts, of all fans at once; and where those
/// before power-on or of an absent fan are refused, so that there are not too many; and of a fan that is absent for a while.
fn full_logs() -> Vec<Vec<u8>> {
    let zeros = [power_on(), sample(3, 0).repeat(MOST_SAMPLES), sample(3, 9)].concat();
    let both = [sample(5, 0), sample(5, 8191), sample(5, 1)].concat();
    let both = [power_on(), both.repeat(MOST_SAMPLES / 3), sample(5, 0)].concat();
    let all: Vec<u8> = FANS.into_iter().flat_map(|fan| sample(fan, 5)).collect();
    let all = [power_on(), all.repeat(MOST_SAMPLES), sample(4, 5)].concat();
    let early = [sample(2, 1).repeat(MOST_SAMPLES + 1), power_on(), sample(2, 1)].concat();
    let absent = [
        part_on(1),
        sample(2, 1).repeat(MOST_SAMPLES + 1),
        part_on(2),
        sample(2, 1),
    ]
    .concat();
    let gone = [
        zeros[..zeros.len() - 7].to_vec(),
        part_on(2),
        sample(3, 9).repeat(2),
        part_on(3),
    ]
    .concat();
    let back = [&gone[..], &sample(3, 9)].concat();
    [vec![zeros, both, all, early, absent, gone, back], fastest_logs()].concat()
}

/// The greatest total that there is, and behind it no sample, one, one of another fan and one after a power-on, and one that
/// cannot be read.
fn fastest_logs() -> Vec<Vec<u8>> {
    let samples = sample(1, 1).repeat(MOST_SAMPLES);
    let fastest = [power_on(), send(&[at(1, CONFIGURATION_1), 0x78]), samples].concat();
    let behind = [
        vec![],
        sample(1, 1),
        [sample(2, 1), power_on(), sample(1, 0)].concat(),
        bytes("9C46 03 03 01 00 20"),
    ];
    behind.map(|behind| [&fastest[..], &behind].concat()).to_vec()
}

/// Every byte of Configuration 1 with counts in range and past it, and every high byte.
fn rpm_cases(script: &mut Script) {
    for poles in POLES {
        for configuration1 in 0..=255 {
            for count in [0, 1, 2, 3, 7, 1000, 3000, 8191, 8192, 32_768, 65_535] {
                let answer = rpm(poles, configuration1, count).to_string();
                script.add_text(&format!("rpm {poles} {configuration1} {count}"), &answer);
            }
        }
    }
    for byte in 0..=255 {
        script.add_text(&format!("rpm_by_high_byte {byte}"), &rpm_by_high_byte(byte).to_string());
    }
}

// ---- reads ----

/// Every place, some past the end, and the largest.
fn read_cases(script: &mut Script, log: &[u8]) {
    let length = log.len();
    let far = [
        length + (1 << 32),
        1 << 63,
        usize::MAX - length,
        usize::MAX - 1,
        usize::MAX,
    ];
    for place in (0..length + 3).chain(far) {
        let answer = read_answer(log, place);
        for text in slices(log) {
            script.add_text(&format!("read {place} {text}"), &answer);
        }
    }
}

/// A refusal leaves the numbers as they were; at the end all but the place are 0. The last number is the place of the
/// fault, which a function of its own answers.
fn read_answer(log: &[u8], place: usize) -> String {
    let preset = format!("{PRESET_8} {PRESET_8} {PRESET_16} {PRESET_64} {PRESET_64} {PRESET_64}");
    match read(log, place) {
        Ok(Some((event, next))) => format!("0 {} {next} {NO_FAULT}", event_numbers(&event)),
        Ok(None) => format!("0 0 0 0 0 0 {place} {NO_FAULT}"),
        Err(fault) => format!("{} {preset} {}", fault.number, fault.place),
    }
}

/// Kind, unit, value, place and count of the bytes.
fn event_numbers(event: &Event) -> String {
    match *event {
        Event::PowerOn { address } => format!("1 {address} 0 0 0"),
        Event::Ticks { count } => format!("2 0 {count} 0 0"),
        Event::Sample { fan, count } => format!("3 {fan} {count} 0 0"),
        Event::Wish { fan, drive } => format!("4 {fan} {drive} 0 0"),
        Event::Transfer {
            address,
            read,
            place,
            length,
        } => format!("5 {address} {} {place} {length}", u8::from(read)),
        Event::PowerOnPart { address, fans } => format!("6 {address} {fans} 0 0"),
    }
}

// ---- writes ----

/// Every unit and value at its edges, and bytes of several lengths; those of a kind that has none are not looked at.
fn all_write_cases(script: &mut Script, kind: u8) {
    let sent = if kind == 5 {
        sent()
    } else {
        vec![vec![], vec![1], vec![0; 40]]
    };
    for unit in [0, 1, 5, 6, 127, 128, 255] {
        for value in [0, 1, 2, 3, 4, 5, 255, 256, 257, 8191, 8192, 65535] {
            for bytes in &sent {
                write_cases(script, kind, unit, value, bytes);
            }
        }
    }
}

/// What a transfer sends, or the count that it reads.
fn sent() -> Vec<Vec<u8>> {
    let mut sent = Vec::new();
    for length in [1, 2, 32, 33, 40] {
        sent.extend([1, 32].map(|first| std::iter::once(first).chain(1..length).collect()));
    }
    sent.extend([vec![], vec![0x00], vec![0x21], vec![0xFF]]);
    sent
}

/// No room, one byte too few, the record's own length, and plenty.
fn write_cases(script: &mut Script, kind: u8, unit: u8, value: u16, sent: &[u8]) {
    let length = match kind {
        2 | 4 | 6 => 6,
        3 => 7,
        5 => 5 + sent.len(),
        _ => 5,
    };
    for room in [0, length - 1, length, length + 40] {
        let answer = write_answer(kind, unit, value, room, sent);
        for size in rooms(room) {
            for text in slices(sent) {
                script.add_text(&format!("write {kind} {unit} {value} {size} {text}"), &answer);
            }
        }
    }
}

/// A refusal leaves the buffer and the number as they were.
fn write_answer(kind: u8, unit: u8, value: u16, room: usize, sent: &[u8]) -> String {
    let mut buffer = vec![FILL; room];
    let event = event_of_numbers(kind, unit, value, sent.len());
    let numbers = match event.and_then(|event| write(&event, sent, &mut buffer)) {
        Ok(written) => format!("0 {written}"),
        Err(number) => format!("{number} {PRESET_64}"),
    };
    format!("{numbers} {}", hex_or(".", &buffer))
}

/// The event that numbers stand for; 3 for an unknown kind. A drive, a direction or a number of fans that is no byte has the
/// number of its byte in a record, where no earlier byte is at fault: a drive 9, that of what follows the fan; a direction 10,
/// as it shares the address byte; a number of fans 15.
fn event_of_numbers(kind: u8, unit: u8, value: u16, length: usize) -> Result<Event, u8> {
    match (kind, value) {
        (1, _) => Ok(events::power_on(unit)),
        (2, _) => Ok(events::ticks(value)),
        (3, _) => Ok(events::sample(unit, value)),
        (4, 0..=255) => Ok(events::wish(unit, value as u8)),
        (4, _) if !FANS.contains(&unit) => Err(FAN),
        (4, _) => Err(COUNT),
        (5, 0) => Ok(events::send(unit, 0, length)),
        (5, 1) => Ok(events::clock(unit, 0, length)),
        (5, _) if length > MOST_BYTES => Err(BYTES),
        (5, _) => Err(ADDRESS),
        (6, 0..=255) => Ok(events::part_on(unit, value as u8)),
        (6, _) if unit > 127 => Err(ADDRESS),
        (6, _) => Err(NUMBER_OF_FANS),
        _ => Err(UNKNOWN_KIND),
    }
}

// ---- the words of check.c ----

/// Bytes; of none both a pointer to nothing and NULL.
fn slices(bytes: &[u8]) -> Vec<String> {
    or_null(hex_or(".", bytes), bytes.is_empty())
}

/// A room; of none both a pointer to nothing and NULL.
fn rooms(room: usize) -> Vec<String> {
    or_null(room.to_string(), room == 0)
}

fn or_null(text: String, none: bool) -> Vec<String> {
    if none {
        vec![text, "-".into()]
    } else {
        vec![text]
    }
}
