//! What logs make happen to the figures of a report, by CR 2.
use super::{Coverage, ROOM};
use crate::traffic::{FANS, MOST_SAMPLES};
use model::chip::{Chip, CONFIGURATION_1};
use model::log::{read, Event};
use model::speeds::rpm;

/// What is counted by name; each m with each number of edges has a name of its own.
pub const NAMES: [&str; 28] = [
    "sample of count 0 taken",
    "sample of count 0 ahead of any other of its fan",
    "sample of count 1 taken",
    "sample of count 8191 taken",
    "speed rounded down",
    "lowest speed lowered",
    "highest speed raised",
    "speed between the lowest and the highest",
    "sample behind one of the same fan at another setting",
    "sample behind a power-on that is behind a sample of the same fan",
    "sample refused before power-on",
    "sample of an absent fan that has samples",
    "sample of an absent fan that has none",
    "sample on a part behind one of the same fan",
    "sample of a full fan that is absent",
    "number 14 behind a sample of the fan while absent",
    "fan with samples",
    "fan with no samples",
    "fan with zero counts alone",
    "setting changed behind the last sample of a fan",
    "stop behind samples",
    "fan full, none of count 0",
    "fan full, some of count 0",
    "fan full, a power-on among its samples",
    "sample of another fan when one is full",
    "number 14",
    "number 14 for a sample of count 0",
    "another refusal in the place of 14",
];

/// A name for each m and number of edges, by bits 3..6 of Configuration 1.
pub fn setting_names() -> impl Iterator<Item = String> {
    (0..16).map(setting_name)
}

fn setting_name(bits: u8) -> String {
    format!("sample with m {} and {} edges", 1 << (bits >> 2), 3 + 2 * (bits & 3))
}

fn setting(byte: u8) -> u8 {
    byte >> 3 & 0xF
}

/// What the samples of one fan came to.
#[derive(Clone, Copy, Default)]
struct Seen {
    samples: usize,
    zeros: usize,
    lowest: u32,
    highest: u32,
    /// Configuration 1 at the last sample.
    configuration1: Option<u8>,
    /// A power-on came after the last sample, and between two.
    powered_on: bool,
    parted: bool,
    /// A sample of it was refused with 21 since it was full.
    absent: bool,
}

impl Seen {
    fn full(&self) -> bool {
        self.samples + self.zeros == MOST_SAMPLES
    }
}

impl Coverage {
    /// Walks a log as a report does.
    pub(super) fn speeds(&mut self, log: &[u8]) {
        let (mut chip, mut place, mut seen) = (Chip::unpowered(), 0, [Seen::default(); FANS]);
        while let Ok(Some((event, next))) = read(log, place) {
            let taken = chip.step(&event, log, &mut [0; ROOM]).is_ok();
            match event {
                Event::Sample { .. } if chip.address.is_none() => self.count("sample refused before power-on", true),
                Event::Sample { fan, .. } if !taken => self.refused_with_21(&mut seen[usize::from(fan - 1)]),
                Event::Sample { fan, count } => {
                    let index = usize::from(fan - 1);
                    if seen[index].full() {
                        self.count("number 14", true);
                        self.count("number 14 for a sample of count 0", count == 0);
                        self.count("number 14 behind a sample of the fan while absent", seen[index].absent);
                        return;
                    }
                    let others = seen.iter().enumerate().filter(|&(other, _)| other != index);
                    let full = others.filter(|(_, seen)| seen.full()).count() > 0;
                    self.count("sample of another fan when one is full", full);
                    self.count(
                        "sample on a part behind one of the same fan",
                        chip.present < FANS && seen[index].configuration1.is_some(),
                    );
                    self.taken(&mut seen[index], chip.fans[index].registers[CONFIGURATION_1], count);
                }
                Event::PowerOn { .. } | Event::PowerOnPart { .. } => {
                    seen.iter_mut().for_each(|seen| seen.powered_on = true);
                }
                _ => {}
            }
            place = next;
        }
        self.report_end(&chip, &seen, &log[place..]);
    }

    fn refused_with_21(&mut self, seen: &mut Seen) {
        let some = seen.configuration1.is_some();
        self.count("sample of an absent fan that has samples", some);
        self.count("sample of an absent fan that has none", !some);
        self.count("sample of a full fan that is absent", seen.full());
        seen.absent |= seen.full();
    }

    fn taken(&mut self, seen: &mut Seen, configuration1: u8, count: u16) {
        let behind = seen.powered_on && seen.configuration1.is_some();
        self.count(
            "sample behind a power-on that is behind a sample of the same fan",
            behind,
        );
        let other = |before: u8| setting(before) != setting(configuration1);
        self.count(
            "sample behind one of the same fan at another setting",
            seen.configuration1.is_some_and(other),
        );
        seen.parted |= behind;
        seen.powered_on = false;
        seen.configuration1 = Some(configuration1);
        if count == 0 {
            self.count("sample of count 0 taken", true);
            self.count("sample of count 0 ahead of any other of its fan", seen.samples == 0);
            seen.zeros += 1;
        } else {
            self.speed(seen, configuration1, count);
            seen.samples += 1;
        }
        self.count("fan full, none of count 0", seen.full() && seen.zeros == 0);
        self.count("fan full, some of count 0", seen.full() && seen.zeros > 0);
        self.count("fan full, a power-on among its samples", seen.full() && seen.parted);
    }

    /// A sample with a count above 0, of a fan with two poles.
    fn speed(&mut self, seen: &mut Seen, configuration1: u8, count: u16) {
        self.count(&setting_name(setting(configuration1)), true);
        self.count("sample of count 1 taken", count == 1);
        self.count("sample of count 8191 taken", count == 8191);
        let (speed, of_count_1) = (rpm(2, configuration1, count), rpm(2, configuration1, 1));
        self.count("speed rounded down", of_count_1 % u32::from(count) != 0);
        let later = seen.samples > 0;
        self.count("lowest speed lowered", later && speed < seen.lowest);
        self.count("highest speed raised", later && speed > seen.highest);
        self.count(
            "speed between the lowest and the highest",
            seen.lowest < speed && speed < seen.highest,
        );
        seen.lowest = if later { seen.lowest.min(speed) } else { speed };
        seen.highest = seen.highest.max(speed);
    }

    /// The log's end, or a record that cannot be read.
    fn report_end(&mut self, chip: &Chip, seen: &[Seen; FANS], rest: &[u8]) {
        let stopped = !rest.is_empty();
        for (fan, seen) in chip.fans.iter().zip(seen) {
            self.count("fan with samples", seen.samples > 0);
            self.count("fan with no samples", seen.samples + seen.zeros == 0);
            self.count("fan with zero counts alone", seen.samples == 0 && seen.zeros > 0);
            let other = |before: u8| setting(before) != setting(fan.registers[CONFIGURATION_1]);
            self.count(
                "setting changed behind the last sample of a fan",
                seen.configuration1.is_some_and(other),
            );
        }
        self.count(
            "stop behind samples",
            stopped && seen.iter().any(|seen| seen.samples > 0),
        );
        for (fan, seen) in (1..).zip(seen) {
            let sample_of_fan = rest.get(2) == Some(&3) && rest.get(4) == Some(&fan);
            self.count("another refusal in the place of 14", seen.full() && sample_of_fan);
        }
    }
}
