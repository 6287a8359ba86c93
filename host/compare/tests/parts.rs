//! Wrong subjects that break one rule of the parts with fewer fans each, and that the comparison finds them.
use cobblehard::Event;
use compare::difference::difference;
use compare::generate;
use compare::subject::{lay, Independent, Outcome, Reading, Refused, Subject};
use model::chip::{Chip, Watch, CONFIGURATION_1};
use model::log;
use model::replay::Run;
use model::speeds::{self, Speeds};

const LOGS: u64 = 20_000;
const LIMIT: u64 = 65_535;
const LONGEST_REPLY: usize = 32;

/// What a wrong subject does otherwise than the independent model, each in one way.
#[derive(Clone, Copy, Debug, PartialEq)]
enum Lie {
    /// None; the subject is right.
    None,
    /// A part has five fans.
    FiveFans,
    /// Power-on of five fans leaves the part's number.
    PartKept,
    /// A part's power-on is refused with 6 before any power-on.
    NoPowerOn,
    /// A part's power-on leaves the lock.
    LockKept,
    /// A part's power-on leaves the power-up watch off.
    NoWatch,
    /// A sample for an absent fan is taken and does nothing.
    SampleTaken,
    /// A wish for an absent fan is taken and does nothing.
    WishTaken,
    /// 21 is given as 5.
    Gives5,
    /// A run stops at 21.
    StopsAt21,
    /// A run walks on after 15.
    WalksOn,
    /// 21 feeds the continuous watch.
    Feeds,
    /// A refused sample sets the fan's 25h bit.
    StallBit,
    /// An absent fan that is set gets its 26h bit at the next ticks.
    SpinBit,
    /// A Setting write to an absent fan ends the power-up watch.
    EndsWatch,
    /// A loop turned on in an absent fan ends the power-up watch.
    LoopEndsWatch,
    /// Absent registers are read as after power-on.
    Shown,
    /// Absent registers store and show what is written.
    Stored,
    /// Absent registers read FFh.
    ReadsFull,
    /// A transfer that begins at an absent register leaves the pointer.
    PointerStays,
    /// A transfer that begins at an absent register does not feed the continuous watch.
    NotFed,
    /// 29h stores the bits of the fans that there are.
    Masked,
    /// FDh tells the part.
    Identity,
    /// No fan of a part goes to full drive when its watch fires.
    NoFiring,
    /// The last fan of a part has no ticks.
    LastStands,
    /// Reading looks at the number of fans before the address.
    NumberFirst,
    /// Reading takes five fans.
    FiveRead,
    /// Reading takes no fans.
    NoneRead,
    /// The fault of a number of fans is at the address.
    FaultPlace,
    /// The writer looks at the number of fans before the address.
    NumberWrittenFirst,
    /// The writer takes five fans.
    FiveWritten,
    /// Samples of absent fans are added.
    Added,
    /// A report stops at 21.
    ReportStops,
    /// 14 comes ahead of 21.
    AheadOf21,
    /// A part's power-on sets the figures to 0.
    PartClears,
    /// A report has a line for each fan that there is at the end.
    Lines,
}

struct Wrong(Lie);

impl Subject for Wrong {
    fn run(&self, log: &[u8], replies: &mut [u8]) -> Outcome {
        let mut place = Place::start();
        while place.record(self.0, log, &mut *replies, |_, _| {}) {}
        let fault = log::read(log, place.run.place).err().map(|fault| fault.place);
        Outcome { run: place.run, fault }
    }

    fn read<'a>(&self, log: &'a [u8], place: usize) -> Reading<'a> {
        let kind_on = place.checked_add(2).and_then(|at| log.get(at..)).unwrap_or_default();
        match (kind_on, Independent.read(log, place)) {
            (&[6, 2, address, fans, ..], Err(refused)) => self.misread(refused, address, fans, place),
            (_, reading) => reading,
        }
    }

    fn write(&self, event: &Event, out: &mut [u8]) -> Result<usize, Refused> {
        let written = Independent.write(event, out);
        let Event::PowerOnPart { address, fans } = *event else {
            return written;
        };
        match self.0 {
            Lie::NumberWrittenFirst if !(1..=3).contains(&fans) => Err(Refused {
                number: 15,
                fault: None,
            }),
            Lie::FiveWritten if fans == 5 && address <= 127 && out.len() >= 6 => {
                out[..6].copy_from_slice(&[0x9C, 0x46, 6, 2, address, 5]);
                Ok(6)
            }
            _ => written,
        }
    }

    fn list(&self, log: &[u8]) -> Result<Vec<u8>, String> {
        let (mut place, mut lines) = (Place::start(), String::new());
        let mut replies = vec![0; cobblehard::replies_room(log.len())];
        let mut line = |at: usize, number: u8, reply: &[u8]| {
            let bytes: String = reply.iter().map(|byte| format!(" {byte:02X}")).collect();
            lines += &format!("{at} {number}{bytes}\n");
        };
        loop {
            let at = place.run.place;
            let goes_on = place.record(self.0, log, &mut replies, |number, reply| line(at, number, reply));
            if !goes_on {
                break;
            }
        }
        let Run { number, place, .. } = place.run;
        let word = if number == 0 { "end" } else { "stop" };
        Ok((lines + &format!("{word} {place}\n")).into_bytes())
    }

    fn speeds(&self, log: &[u8], poles: u64, figures: &mut [u64]) -> (u8, usize, usize) {
        let report = misreport(self.0, log, poles);
        lay(&report, figures);
        (report.number, report.place, report.records)
    }

    fn report(&self, log: &[u8], poles: &str) -> Result<Vec<u8>, String> {
        let lines = Independent.report(log, poles)?;
        if self.0 != Lie::Lines {
            return Ok(lines);
        }
        let present = Place::at_the_end(log).present;
        let lines = String::from_utf8(lines).expect("lines are plain text");
        let kept = lines.split_inclusive('\n').enumerate();
        let kept = kept.filter(|&(line, _)| line < present || line == 5);
        Ok(kept.map(|(_, line)| line).collect::<String>().into_bytes())
    }
}

impl Wrong {
    /// A part's power-on that is refused by one of its fields.
    fn misread(&self, refused: Refused, address: u8, fans: u8, place: usize) -> Reading<'static> {
        let taken = Ok(Some((Event::PowerOnPart { address, fans }, place + 6)));
        match (self.0, refused.number) {
            (Lie::NumberFirst, 10) if !(1..=3).contains(&fans) => Err(Refused {
                number: 15,
                fault: Some(place + 5),
            }),
            (Lie::FaultPlace, 15) => Err(Refused {
                number: 15,
                fault: Some(place + 4),
            }),
            (Lie::FiveRead, 15) if fans == 5 => taken,
            (Lie::NoneRead, 15) if fans == 0 => taken,
            _ => Err(refused),
        }
    }
}

// ---- runs ----

/// How far a run came, with its chip.
struct Place {
    chip: Chip,
    run: Run,
    /// Bits of absent fans that are to be set.
    spinning: u8,
}

impl Place {
    fn start() -> Place {
        Place {
            chip: Chip::unpowered(),
            run: Run {
                number: 0,
                place: 0,
                records: 0,
                reply_bytes: 0,
            },
            spinning: 0,
        }
    }

    /// The chip where a log ends or cannot be read.
    fn at_the_end(log: &[u8]) -> Chip {
        let mut place = Place::start();
        let mut replies = vec![0; cobblehard::replies_room(log.len())];
        while place.record(Lie::None, log, &mut replies, |_, _| {}) {}
        place.chip
    }

    /// Walks one record and tells its number and reply; false at the end and at what stops it.
    fn record(&mut self, lie: Lie, log: &[u8], replies: &mut [u8], tell: impl FnOnce(u8, &[u8])) -> bool {
        let (event, next) = match log::read(log, self.run.place) {
            Ok(Some(found)) => found,
            Ok(None) => return false,
            Err(fault) if lie == Lie::WalksOn && fault.number == 15 => {
                tell(15, &[]);
                return self.walk(self.run.place + 6);
            }
            Err(fault) => {
                tell(fault.number, &[]);
                self.run.number = fault.number;
                return false;
            }
        };
        let room = &mut replies[self.run.reply_bytes..];
        let (number, laid) = match self.step(lie, &event, log, room) {
            Ok(laid) => (0, laid),
            Err(number) => (number, 0),
        };
        tell(number, &room[..laid]);
        if number == 8 || number == 21 && lie == Lie::StopsAt21 {
            self.run.number = number;
            return false;
        }
        self.run.reply_bytes += laid;
        self.walk(next)
    }

    fn walk(&mut self, next: usize) -> bool {
        self.run.records += 1;
        self.run.place = next;
        true
    }

    fn step(&mut self, lie: Lie, event: &log::Event, log: &[u8], room: &mut [u8]) -> Result<usize, u8> {
        let before = self.chip.clone();
        let chip = &mut self.chip;
        if lie == Lie::NoPowerOn && before.address.is_none() && matches!(event, log::Event::PowerOnPart { .. }) {
            return Err(6);
        }
        let present = chip.present;
        if defined(lie, event) {
            chip.present = 5;
        }
        let answer = chip.step(event, log, room);
        if defined(lie, event) && chip.address.is_some() {
            chip.present = present;
        }
        match *event {
            log::Event::PowerOn { .. } | log::Event::PowerOnPart { .. } => after_power_on(lie, &before, chip),
            log::Event::Ticks { .. } => self.after_ticks(lie, &before),
            log::Event::Sample { fan, count } if lie == Lie::StallBit && answer == Err(21) && count >= 7872 => {
                chip.stall_status |= 1 << (fan - 1);
            }
            log::Event::Transfer {
                read, place, length, ..
            } if answer.is_ok() => self.after_transfer(lie, &before, read, &log[place..place + length], room),
            _ => {}
        }
        self.answered(lie, event, answer)
    }

    /// What is answered for 21.
    fn answered(&mut self, lie: Lie, event: &log::Event, answer: Result<usize, u8>) -> Result<usize, u8> {
        if answer != Err(21) {
            return answer;
        }
        if let (Lie::Feeds, Watch::Continuous { count }) = (lie, &mut self.chip.watch) {
            *count = 0;
        }
        match (lie, event) {
            (Lie::SampleTaken, log::Event::Sample { .. }) | (Lie::WishTaken, log::Event::Wish { .. }) => Ok(0),
            (Lie::Gives5, _) => Err(5),
            _ => answer,
        }
    }

    fn after_ticks(&mut self, lie: Lie, before: &Chip) {
        let (chip, present) = (&mut self.chip, before.present);
        let part = before.address.is_some() && present < 5;
        if lie == Lie::SpinBit {
            chip.spin_status |= std::mem::take(&mut self.spinning);
        }
        if lie == Lie::NoFiring && part && chip.watch_status && !before.watch_status {
            chip.fans = before.fans;
        }
        if lie == Lie::LastStands && part {
            chip.fans[present - 1] = before.fans[present - 1];
        }
    }

    fn after_transfer(&mut self, lie: Lie, before: &Chip, read: bool, bytes: &[u8], room: &mut [u8]) {
        let chip = &mut self.chip;
        let edge = 0x30 + 0x10 * chip.present as u8;
        let first = if read {
            before.pointer
        } else {
            bytes.first().copied().unwrap_or(0)
        };
        let absent = |register: u8| (edge..0x80).contains(&register);
        let power_up = matches!(before.watch, Watch::PowerUp { .. });
        let data = if read {
            &[][..]
        } else {
            bytes.get(1..).unwrap_or_default()
        };
        for (register, byte) in (0..).map(|i| first.wrapping_add(i)).zip(data) {
            let setting = absent(register) && register % 16 == 0;
            let loops = absent(register) && usize::from(register % 16) == CONFIGURATION_1 && byte & 0x80 != 0;
            if power_up && (lie == Lie::EndsWatch && setting || lie == Lie::LoopEndsWatch && loops) {
                chip.watch = Watch::Off;
            }
            if setting && *byte > 0 {
                self.spinning |= 1 << (register / 16 - 3);
            }
        }
        match lie {
            Lie::ReadsFull if read => {
                let registers = (0..).map(|i| first.wrapping_add(i));
                let reply = &mut room[..bytes[0].into()];
                let shown = registers.zip(reply).filter(|&(register, _)| absent(register));
                shown.for_each(|(_, byte)| *byte = 0xFF);
            }
            Lie::Identity if read && bytes[0] == 1 && first == 0xFD && chip.present < 5 => {
                room[0] = 0x38 - chip.present as u8;
            }
            Lie::PointerStays if absent(first) => chip.pointer = first,
            Lie::NotFed if absent(first) => chip.watch = before.watch,
            Lie::Masked => chip.interrupt_enable &= 0xE0 | ((1 << chip.present) - 1),
            _ => {}
        }
    }
}

/// Whether the event meets absent registers as if they were there.
fn defined(lie: Lie, event: &log::Event) -> bool {
    match event {
        log::Event::Transfer { read, .. } => lie == Lie::Stored || lie == Lie::Shown && *read,
        _ => false,
    }
}

fn after_power_on(lie: Lie, before: &Chip, chip: &mut Chip) {
    match lie {
        Lie::FiveFans => chip.present = 5,
        Lie::PartKept if chip.present == 5 => chip.present = before.present,
        Lie::LockKept if chip.present < 5 => chip.lock = before.lock,
        Lie::NoWatch if chip.present < 5 => chip.watch = Watch::Off,
        _ => {}
    }
}

// ---- reports ----

/// The report, added up as it goes.
fn misreport(lie: Lie, log: &[u8], poles: u64) -> Speeds {
    let mut report = Speeds {
        number: 0,
        place: 0,
        records: 0,
        figures: [0; 25],
    };
    if !(1..=4).contains(&poles) {
        report.number = 13;
        return report;
    }
    let mut chip = Chip::unpowered();
    loop {
        let (event, next) = match log::read(log, report.place) {
            Ok(Some(found)) => found,
            Ok(None) => return report,
            Err(fault) => {
                return Speeds {
                    number: fault.number,
                    ..report
                }
            }
        };
        let answer = chip.step(&event, log, &mut [0; LONGEST_REPLY]);
        if lie == Lie::PartClears && matches!(event, log::Event::PowerOnPart { .. }) {
            report.figures = [0; 25];
        }
        if let log::Event::Sample { fan, count } = event {
            let index = usize::from(fan - 1);
            let figures = &mut report.figures[5 * index..][..5];
            let full = figures[0] + figures[4] == LIMIT;
            let counts = answer.is_ok() || lie == Lie::Added && answer == Err(21);
            if full && (counts || lie == Lie::AheadOf21 && answer == Err(21)) {
                return Speeds { number: 14, ..report };
            }
            if counts {
                add(figures, poles, chip.fans[index].registers[CONFIGURATION_1], count);
            }
        }
        if lie == Lie::ReportStops && answer == Err(21) {
            return Speeds { number: 21, ..report };
        }
        report.records += 1;
        report.place = next;
    }
}

fn add(figures: &mut [u64], poles: u64, configuration1: u8, count: u16) {
    if count == 0 {
        figures[4] += 1;
        return;
    }
    let speed = speeds::rpm(poles, configuration1, count).into();
    figures[1] = if figures[0] == 0 { speed } else { figures[1].min(speed) };
    figures[2] = figures[2].max(speed);
    figures[3] += speed;
    figures[0] += 1;
}

// ---- that they are found ----

/// Each lie, and what is said to differ; a number of fans shows in replies or in 21, whichever comes first.
const LIES: [(Lie, &str); 35] = [
    (Lie::FiveFans, ""),
    (Lie::PartKept, ""),
    (Lie::NoPowerOn, "a run"),
    (Lie::LockKept, "the replies"),
    (Lie::NoWatch, "the replies"),
    (Lie::SampleTaken, "line"),
    (Lie::WishTaken, "line"),
    (Lie::Gives5, "line"),
    (Lie::StopsAt21, "a run"),
    (Lie::WalksOn, "a run"),
    (Lie::Feeds, "the replies"),
    (Lie::StallBit, "the replies"),
    (Lie::SpinBit, "the replies"),
    (Lie::EndsWatch, "the replies"),
    (Lie::LoopEndsWatch, "the replies"),
    (Lie::Shown, "the replies"),
    (Lie::Stored, "the replies"),
    (Lie::ReadsFull, "the replies"),
    (Lie::PointerStays, "the replies"),
    (Lie::NotFed, "the replies"),
    (Lie::Masked, "the replies"),
    (Lie::Identity, "the replies"),
    (Lie::NoFiring, "the replies"),
    (Lie::LastStands, "the replies"),
    (Lie::NumberFirst, "reading"),
    (Lie::FiveRead, "reading"),
    (Lie::NoneRead, "reading"),
    (Lie::FaultPlace, "reading"),
    (Lie::NumberWrittenFirst, "writing"),
    (Lie::FiveWritten, "writing"),
    (Lie::Added, "the report"),
    (Lie::ReportStops, "the report"),
    (Lie::AheadOf21, "the report"),
    (Lie::PartClears, "the report"),
    (Lie::Lines, "line"),
];

/// The first seed that finds a lie, and what differs.
fn found(lie: Lie) -> (u64, String) {
    (1..=LOGS)
        .find_map(|seed| Some((seed, difference(&Wrong(lie), &generate::log(seed))?)))
        .unwrap_or_else(|| panic!("{lie:?} was not found"))
}

#[test]
fn without_a_lie_nothing_differs() {
    for seed in 1..=LOGS / 10 {
        assert_eq!(difference(&Wrong(Lie::None), &generate::log(seed)), None, "seed {seed}");
    }
}

/// With `--nocapture` it tells the seed of each.
#[test]
fn every_lie_is_found() {
    for (lie, says) in LIES {
        let (seed, what) = found(lie);
        println!("{lie:?}: seed {seed}");
        assert!(what.starts_with(says), "{lie:?} was found so:\n{what}");
    }
}
