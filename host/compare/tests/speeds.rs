//! The speeds of samples by the proved model and by the independent one; that the comparison of reports is not dull; that
//! it can fail.
use cobblehard::Event;
use compare::difference::difference;
use compare::generate;
use compare::subject::{lay, Independent, Outcome, Reading, Refused, Subject};
use model::chip::{Chip, CONFIGURATION_1};
use model::log;
use model::speeds::{self, Speeds};
use std::cell::RefCell;
use std::collections::BTreeMap;

const LOGS: u64 = 20_000;
/// So many are looked at for what they ask.
const ASKED: u64 = LOGS / 10;
const LIMIT: u64 = 65_535;

// ---- one sample ----

#[test]
fn the_speed_of_every_sample() {
    for poles in [0, 1, 2, 3, 4, 5, 1 << 32 | 1, u64::MAX] {
        // m and edges, and of the bits that have no part in it none and all
        for configuration1 in (0..16).flat_map(|bits| [bits << 3, bits << 3 | 0x87]) {
            for count in 0..=u16::MAX {
                let (expected, got) = (
                    speeds::rpm(poles, configuration1, count),
                    cobblehard::rpm(poles, configuration1, count),
                );
                assert_eq!(expected, got, "{poles} poles, {configuration1:02X}h, count {count}");
            }
        }
    }
}

#[test]
fn the_speed_of_every_high_byte() {
    for byte in 0..=255 {
        assert_eq!(
            speeds::rpm_by_high_byte(byte),
            cobblehard::rpm_by_high_byte(byte),
            "{byte}"
        );
    }
}

// ---- what is asked for ----

/// The independent model, counting the poles, the slices and the arguments that it is asked with.
#[derive(Default)]
struct Counting {
    poles: RefCell<BTreeMap<u64, u64>>,
    entries: RefCell<BTreeMap<usize, u64>>,
    arguments: RefCell<BTreeMap<String, u64>>,
}

impl Subject for Counting {
    fn run(&self, log: &[u8], replies: &mut [u8]) -> Outcome {
        Independent.run(log, replies)
    }

    fn read<'a>(&self, log: &'a [u8], place: usize) -> Reading<'a> {
        Independent.read(log, place)
    }

    fn write(&self, event: &Event, out: &mut [u8]) -> Result<usize, Refused> {
        Independent.write(event, out)
    }

    fn list(&self, log: &[u8]) -> Result<Vec<u8>, String> {
        Independent.list(log)
    }

    fn speeds(&self, log: &[u8], poles: u64, figures: &mut [u64]) -> (u8, usize, usize) {
        *self.poles.borrow_mut().entry(poles).or_default() += 1;
        *self.entries.borrow_mut().entry(figures.len()).or_default() += 1;
        Independent.speeds(log, poles, figures)
    }

    fn report(&self, log: &[u8], poles: &str) -> Result<Vec<u8>, String> {
        *self.arguments.borrow_mut().entry(poles.to_owned()).or_default() += 1;
        Independent.report(log, poles)
    }
}

#[test]
fn every_poles_slice_and_argument_is_asked_with() {
    let counting = Counting::default();
    (1..=ASKED).for_each(|seed| assert_eq!(difference(&counting, &generate::log(seed)), None));
    let (poles, entries) = (counting.poles.into_inner(), counting.entries.into_inner());
    let arguments = counting.arguments.into_inner();
    assert!(
        poles.len() == 10 && (1..=4).all(|right| poles[&right] == ASKED) && poles.values().all(|&times| times >= 5),
        "{poles:?}"
    );
    for length in [0, 1, 24, 25, 26] {
        assert!(entries[&length] >= 100, "{entries:?}");
    }
    assert!(
        arguments.len() == 10 && arguments.values().all(|&times| times >= 5),
        "{arguments:?}"
    );
}

// ---- wrong subjects ----

/// What a wrong subject does otherwise than the independent model, each in one way.
#[derive(Clone, Copy, Debug, PartialEq)]
enum Lie {
    /// Speeds are rounded up.
    RoundsUp,
    /// The quotient is taken before m is multiplied.
    DividesFirst,
    /// m goes by bits 4..5.
    OtherM,
    /// Edges go by bits 2..3.
    OtherEdges,
    /// Edges are not lessened by 1.
    AllEdges,
    /// The count is that of the reading registers, c x 8.
    Register,
    /// Configuration 1 is that of fan 1.
    FirstFan,
    /// Configuration 1 is that of the power-on.
    Default,
    /// Configuration 1 is that of the log's end.
    AtTheEnd,
    /// Samples with count 0 are samples with speed 0.
    ZeroAdded,
    /// Samples with count 0 are not counted.
    ZeroLost,
    /// Samples with count 0 do not count toward the limit.
    ZeroOutside,
    /// Samples before power-on are added.
    RefusedAdded,
    /// A power-on sets the figures to 0.
    PowerOnClears,
    /// A power-on sets the limit back.
    PowerOnLimit,
    /// The limit is one sample more.
    Late,
    /// The limit is one sample less.
    Early,
    /// The limit is that of all fans together.
    OneLimit,
    /// 14 comes ahead of the record's own refusals.
    AheadOfRefusal,
    /// 14 comes when the sample is added.
    Added,
    /// The place of 14 is behind the record.
    PlaceBehind,
    /// The record of 14 is walked.
    Walked,
    /// Samples past the limit are left out and the report goes on.
    GoesOn,
    /// A fan with no samples has the largest lowest speed.
    LowestOfNone,
    /// The lowest speed starts from 0.
    LowestFromZero,
    /// The lowest speed is the first.
    FirstIsLowest,
    /// The highest speed is the last.
    LastIsHighest,
    /// Totals have 32 bits.
    ShortTotal,
    /// What stops a run loses the figures.
    StopClears,
    /// The report stops at 6 and 7.
    StopsAt6,
    /// Five poles are taken.
    FivePoles,
    /// Poles have 32 bits.
    ShortPoles,
    /// A damaged log is refused before its poles.
    LogFirst,
    /// The place of 13 is the log's end.
    PlaceOf13,
    /// Figures stay after 13.
    Kept13,
    /// A slice that is too short gets no figures.
    ShortSlice,
    /// A slice that is too short gives 8.
    NoRoom,
    /// The entry past the figures is touched.
    PastTheFigures,
    /// The program takes ` 1` for 1.
    Trims,
    /// The last line lacks the number.
    LineNumber,
    /// Lines have the highest speed ahead of the lowest.
    LineOrder,
    /// Lines have the fans from 0.
    LineFan,
    /// The lines lack their last line end.
    LastLineEnd,
    /// A program ends badly where poles are wrong.
    Ends,
}

struct Wrong(Lie);

impl Subject for Wrong {
    fn run(&self, log: &[u8], replies: &mut [u8]) -> Outcome {
        Independent.run(log, replies)
    }

    fn read<'a>(&self, log: &'a [u8], place: usize) -> Reading<'a> {
        Independent.read(log, place)
    }

    fn write(&self, event: &Event, out: &mut [u8]) -> Result<usize, Refused> {
        Independent.write(event, out)
    }

    fn list(&self, log: &[u8]) -> Result<Vec<u8>, String> {
        Independent.list(log)
    }

    fn speeds(&self, log: &[u8], poles: u64, figures: &mut [u64]) -> (u8, usize, usize) {
        let Speeds {
            mut number,
            place,
            records,
            ..
        } = laid(self.0, misreport(self.0, log, poles), figures);
        if self.0 == Lie::NoRoom && figures.len() < 25 {
            number = 8;
        }
        (number, place, records)
    }

    fn report(&self, log: &[u8], poles: &str) -> Result<Vec<u8>, String> {
        let lines = String::from_utf8(Independent.report(log, poles)?).expect("lines are plain text");
        let words = |line: &str| line.split(' ').map(str::to_owned).collect::<Vec<String>>();
        let mut rows: Vec<Vec<String>> = lines.lines().map(words).collect();
        match self.0 {
            Lie::Trims => return Independent.report(log, poles.trim()),
            Lie::Ends if lines.ends_with(" 13\n") => return Err("it ended badly".into()),
            Lie::LastLineEnd => return Ok(lines.trim_end().into()),
            Lie::LineNumber => rows[5].truncate(2),
            Lie::LineOrder => rows[..5].iter_mut().for_each(|row| row.swap(2, 3)),
            Lie::LineFan => (0..5).for_each(|fan| rows[fan][0] = fan.to_string()),
            _ => {}
        }
        let lines: Vec<String> = rows.iter().map(|row| row.join(" ") + "\n").collect();
        Ok(lines.concat().into_bytes())
    }
}

/// Lays the figures, and gives the report back.
fn laid(lie: Lie, report: Speeds, figures: &mut [u64]) -> Speeds {
    match lie {
        Lie::ShortSlice if figures.len() < 25 => {}
        Lie::Kept13 if report.number == 13 => {}
        _ => lay(&report, figures),
    }
    if let (Lie::PastTheFigures, Some(entry)) = (lie, figures.get_mut(25)) {
        *entry = 0;
    }
    report
}

/// The report, added up as it goes, with one thing in it otherwise.
fn misreport(lie: Lie, log: &[u8], poles: u64) -> Speeds {
    let mut adding = Adding::new(lie, log, poles);
    if !adding.right_poles() {
        return adding.wrong_poles();
    }
    while adding.record() {}
    adding.end();
    adding.report
}

/// A report in the making.
struct Adding<'a> {
    lie: Lie,
    log: &'a [u8],
    poles: u64,
    chip: Chip,
    report: Speeds,
    /// The samples of each fan that count toward the limit.
    counted: [u64; 5],
    /// Configuration 1 of each fan at the end of the log.
    last: [u8; 5],
}

impl Adding<'_> {
    fn new(lie: Lie, log: &[u8], poles: u64) -> Adding<'_> {
        Adding {
            lie,
            log,
            poles: if lie == Lie::ShortPoles {
                poles & 0xFFFF_FFFF
            } else {
                poles
            },
            chip: Chip::unpowered(),
            report: Speeds {
                number: 0,
                place: 0,
                records: 0,
                figures: [0; 25],
            },
            counted: [0; 5],
            last: if lie == Lie::AtTheEnd { last_of(log) } else { [0x2B; 5] },
        }
    }

    fn right_poles(&self) -> bool {
        let most = if self.lie == Lie::FivePoles { 5 } else { 4 };
        (1..=most).contains(&self.poles)
    }

    fn wrong_poles(&self) -> Speeds {
        let number = match log::read(self.log, 0) {
            Err(fault) if self.lie == Lie::LogFirst => fault.number,
            _ => 13,
        };
        let place = if self.lie == Lie::PlaceOf13 { self.log.len() } else { 0 };
        Speeds {
            number,
            place,
            ..self.report
        }
    }

    /// Walks one record; false at the end and at what stops it.
    fn record(&mut self) -> bool {
        let (event, next) = match log::read(self.log, self.report.place) {
            Ok(Some(found)) => found,
            Ok(None) => return false,
            Err(fault) => return self.unread(fault.number),
        };
        let taken = self.chip.step(&event, self.log, &mut [0; 32]).is_ok();
        let goes_on = match event {
            log::Event::Sample { fan, count } if taken || self.lie == Lie::RefusedAdded => {
                self.sample(usize::from(fan - 1), count, next)
            }
            log::Event::PowerOn { .. } | log::Event::PowerOnPart { .. } => self.power_on(),
            _ if !taken && self.lie == Lie::StopsAt6 => self.stop(6),
            _ => true,
        };
        if goes_on {
            self.report.records += 1;
            self.report.place = next;
        }
        goes_on
    }

    fn stop(&mut self, number: u8) -> bool {
        self.report.number = number;
        false
    }

    fn unread(&mut self, number: u8) -> bool {
        let rest = &self.log[self.report.place..];
        let full = |&fan: &u8| self.counted.get(usize::from(fan).wrapping_sub(1)) == Some(&LIMIT);
        let ahead = self.lie == Lie::AheadOfRefusal && rest.get(2) == Some(&3) && rest.get(4).is_some_and(full);
        if self.lie == Lie::StopClears {
            self.report.figures = [0; 25];
        }
        self.stop(if ahead { 14 } else { number })
    }

    fn power_on(&mut self) -> bool {
        match self.lie {
            Lie::PowerOnClears => self.report.figures = [0; 25],
            Lie::PowerOnLimit => self.counted = [0; 5],
            _ => {}
        }
        true
    }

    fn sample(&mut self, index: usize, count: u16, next: usize) -> bool {
        let most = match self.lie {
            Lie::Late => LIMIT + 1,
            Lie::Early => LIMIT - 1,
            _ => LIMIT,
        };
        let counted = if self.lie == Lie::OneLimit {
            self.counted.iter().sum()
        } else {
            self.counted[index]
        };
        if counted == most {
            return self.past_the_limit(index, count, next);
        }
        self.counted[index] += u64::from(count > 0 || self.lie != Lie::ZeroOutside);
        self.add(index, count);
        true
    }

    fn past_the_limit(&mut self, index: usize, count: u16, next: usize) -> bool {
        match self.lie {
            Lie::GoesOn => return true,
            Lie::Added => self.add(index, count),
            Lie::PlaceBehind => self.report.place = next,
            Lie::Walked => self.report.records += 1,
            _ => {}
        }
        self.stop(14)
    }

    fn add(&mut self, index: usize, count: u16) {
        let speed = self.speed(index, count);
        let lie = self.lie;
        let [samples, lowest, highest, total, zeros] = &mut self.report.figures[5 * index..][..5] else {
            unreachable!("five figures a fan")
        };
        if count == 0 && lie != Lie::ZeroAdded {
            *zeros += u64::from(lie != Lie::ZeroLost);
            return;
        }
        let first = *samples == 0;
        *samples += 1;
        *total += speed;
        if first && lie != Lie::LowestFromZero || speed < *lowest && lie != Lie::FirstIsLowest {
            *lowest = speed;
        }
        if speed > *highest || lie == Lie::LastIsHighest {
            *highest = speed;
        }
    }

    fn speed(&self, index: usize, count: u16) -> u64 {
        let fan = if self.lie == Lie::FirstFan { 0 } else { index };
        let configuration1 = match self.lie {
            Lie::AtTheEnd | Lie::Default => self.last[index],
            _ => self.chip.fans[fan].registers[CONFIGURATION_1],
        };
        let (m_bits, edges_bits) = (
            if self.lie == Lie::OtherM { 4 } else { 5 },
            if self.lie == Lie::OtherEdges { 2 } else { 3 },
        );
        let m = 1 << (configuration1 >> m_bits & 3);
        let edges = 3 + 2 * u64::from(configuration1 >> edges_bits & 3);
        let edges = if self.lie == Lie::AllEdges { edges } else { edges - 1 };
        let count = u64::from(count) * if self.lie == Lie::Register { 8 } else { 1 };
        if count == 0 {
            return 0;
        }
        match self.lie {
            Lie::RoundsUp => (60 * 32768 * edges * m).div_ceil(self.poles * count),
            Lie::DividesFirst => 60 * 32768 * edges / (self.poles * count) * m,
            _ => 60 * 32768 * edges * m / (self.poles * count),
        }
    }

    fn end(&mut self) {
        for figures in self.report.figures.chunks_mut(5) {
            match self.lie {
                Lie::LowestOfNone if figures[0] == 0 => figures[1] = u64::MAX,
                Lie::ShortTotal => figures[3] &= 0xFFFF_FFFF,
                _ => {}
            }
        }
    }
}

/// Configuration 1 of each fan where the log ends or cannot be read.
fn last_of(log: &[u8]) -> [u8; 5] {
    let (mut chip, mut place) = (Chip::unpowered(), 0);
    while let Ok(Some((event, next))) = log::read(log, place) {
        let _ = chip.step(&event, log, &mut [0; 32]);
        place = next;
    }
    chip.fans.map(|fan| fan.registers[CONFIGURATION_1])
}

/// Each lie, and what is said to differ.
const LIES: [(Lie, &str); 44] = [
    (Lie::RoundsUp, "figures"),
    (Lie::DividesFirst, "figures"),
    (Lie::OtherM, "figures"),
    (Lie::OtherEdges, "figures"),
    (Lie::AllEdges, "figures"),
    (Lie::Register, "figures"),
    (Lie::FirstFan, "figures"),
    (Lie::Default, "figures"),
    (Lie::AtTheEnd, "figures"),
    (Lie::ZeroAdded, "figures"),
    (Lie::ZeroLost, "figures"),
    (Lie::ZeroOutside, "number"),
    (Lie::RefusedAdded, "figures"),
    (Lie::PowerOnClears, "figures"),
    (Lie::PowerOnLimit, "number"),
    (Lie::Late, "number"),
    (Lie::Early, "number"),
    (Lie::OneLimit, "number"),
    (Lie::AheadOfRefusal, "number"),
    (Lie::Added, "figures"),
    (Lie::PlaceBehind, "number"),
    (Lie::Walked, "number"),
    (Lie::GoesOn, "number"),
    (Lie::LowestOfNone, "figures"),
    (Lie::LowestFromZero, "figures"),
    (Lie::FirstIsLowest, "figures"),
    (Lie::LastIsHighest, "figures"),
    (Lie::ShortTotal, "figures"),
    (Lie::StopClears, "figures"),
    (Lie::StopsAt6, "number"),
    (Lie::FivePoles, "number"),
    (Lie::ShortPoles, "number"),
    (Lie::LogFirst, "number"),
    (Lie::PlaceOf13, "number"),
    (Lie::Kept13, "figures"),
    (Lie::ShortSlice, "figures"),
    (Lie::NoRoom, "number"),
    (Lie::PastTheFigures, "figures"),
    (Lie::Trims, "line"),
    (Lie::LineNumber, "line"),
    (Lie::LineOrder, "line"),
    (Lie::LineFan, "line"),
    (Lie::LastLineEnd, "its last line end"),
    (Lie::Ends, "not the lines"),
];

/// What differs in the first log that finds a lie; it is not made small, which takes long at the limit.
fn found(lie: Lie) -> String {
    (1..=LOGS)
        .find_map(|seed| difference(&Wrong(lie), &generate::log(seed)))
        .unwrap_or_else(|| panic!("{lie:?} was not found"))
}

/// A lie that the report itself has no part in.
const TOLD_ELSEWHERE: Lie = Lie::LastLineEnd;

#[test]
fn without_a_lie_the_report_is_right() {
    for log in (1..=LOGS / 10).map(generate::log) {
        for poles in 0..=5 {
            assert_eq!(misreport(TOLD_ELSEWHERE, &log, poles), speeds::speeds(&log, poles));
        }
    }
}

#[test]
fn every_lie_is_found() {
    for (lie, says) in LIES {
        let what = found(lie);
        let first = what.lines().next().unwrap_or_default();
        assert!(
            first.contains("the report") && first.contains(says),
            "{lie:?} was found so:\n{what}"
        );
    }
}
