//! The proved model against the independent one over many logs; that the logs are not dull; that a comparison can fail.
use cobblehard::Event;
use compare::coverage::Coverage;
use compare::difference::difference;
use compare::generate;
use compare::subject::{Independent, Outcome, Proved, Reading, Refused, Subject};
use compare::sweep::{sweep, Failure};
use model::chip::Chip;
use model::replay::{self, Run};
use std::cell::RefCell;
use std::collections::BTreeMap;

const LOGS: u64 = 20_000;

#[test]
fn twenty_thousand_logs() {
    let proved = Proved::built().expect("the program is built");
    if let Err(failure) = sweep(&proved, 1, LOGS, |_| {}) {
        panic!("{failure}");
    }
}

// ---- the logs ----

#[test]
fn the_logs_are_not_dull() {
    let mut coverage = Coverage::none();
    (1..=LOGS).for_each(|seed| coverage.add(&generate::log(seed)));
    let dull = coverage.rarer_than(5);
    assert!(dull.is_empty(), "these happened seldom or never:\n{}", dull.join("\n"));
}

#[test]
fn logs_of_every_kind() {
    let (mut empty, mut long, mut over_the_buffer) = (0, 0, 0);
    let mut ends: BTreeMap<u8, u64> = [0, 1, 2, 3, 4, 5, 9, 10, 11, 15].map(|number| (number, 0)).into();
    for seed in 1..=LOGS {
        let log = generate::log(seed);
        let Run { number, place, .. } = replay::run(&log, &mut vec![0; cobblehard::replies_room(log.len())]);
        empty += u64::from(log.is_empty());
        long += u64::from(log.len() > 65_536);
        over_the_buffer += u64::from(number != 0 && place > 65_536 - 40);
        *ends.get_mut(&number).expect("a run with room ends so") += 1;
    }
    assert!(
        empty >= 5 && long >= 5 && over_the_buffer >= 5,
        "{empty} empty, {long} long, {over_the_buffer} of them stop"
    );
    assert!(
        ends.values().all(|&logs| logs >= 100),
        "logs by the number they end with: {ends:?}"
    );
}

#[test]
fn a_seed_has_one_log() {
    assert_eq!(generate::log(5), generate::log(5));
    assert_ne!(generate::log(5), generate::log(6));
}

/// What is at fault in an event that is handed to the writer.
fn faults(event: &Event) -> &'static str {
    let bad_fan = |fan: u8| !(1..=5).contains(&fan);
    match *event {
        Event::PowerOn { address } if address > 127 => "power-on address",
        Event::Wish { fan, .. } if bad_fan(fan) => "wish fan",
        Event::Sample { fan, count } => match (bad_fan(fan), count > 8191) {
            (true, true) => "sample fan and count",
            (true, false) => "sample fan",
            (false, true) => "sample count",
            (false, false) => "nothing",
        },
        Event::Write { address, bytes } => match (bytes.len() > 32, address > 127) {
            (true, true) => "write bytes and address",
            (true, false) => "write bytes",
            (false, true) => "write address",
            (false, false) => "nothing",
        },
        Event::Read { address, count } => match (address > 127, !(1..=32).contains(&count)) {
            (true, true) => "read address and clocked number",
            (true, false) => "read address",
            (false, true) => "read clocked number",
            (false, false) => "nothing",
        },
        Event::PowerOnPart { address, fans } => match (address > 127, !(1..=3).contains(&fans)) {
            (true, true) => "part address and number",
            (true, false) => "part address",
            (false, true) => "part number",
            (false, false) => "nothing",
        },
        _ => "nothing",
    }
}

/// The independent model, counting what is at fault in the events that it is to write.
struct Counting(RefCell<BTreeMap<&'static str, u64>>);

impl Subject for Counting {
    fn run(&self, log: &[u8], replies: &mut [u8]) -> Outcome {
        Independent.run(log, replies)
    }

    fn read<'a>(&self, log: &'a [u8], place: usize) -> Reading<'a> {
        Independent.read(log, place)
    }

    fn write(&self, event: &Event, out: &mut [u8]) -> Result<usize, Refused> {
        *self.0.borrow_mut().entry(faults(event)).or_default() += 1;
        Independent.write(event, out)
    }

    fn list(&self, log: &[u8]) -> Result<Vec<u8>, String> {
        Independent.list(log)
    }

    fn speeds(&self, log: &[u8], poles: u64, figures: &mut [u64]) -> (u8, usize, usize) {
        Independent.speeds(log, poles, figures)
    }

    fn report(&self, log: &[u8], poles: &str) -> Result<Vec<u8>, String> {
        Independent.report(log, poles)
    }
}

#[test]
fn events_of_every_fault_are_written() {
    let counting = Counting(RefCell::default());
    (1..=LOGS / 20).for_each(|seed| assert_eq!(difference(&counting, &generate::log(seed)), None));
    let counts = counting.0.into_inner();
    assert!(
        counts.len() == 15 && counts.values().all(|&count| count >= 20),
        "{counts:?}"
    );
}

// ---- wrong subjects ----

/// What a wrong subject does otherwise than the independent model, each in one way.
#[derive(Clone, Copy, Debug)]
enum Lie {
    /// A stopping run gives the number after its own.
    Number,
    /// A run gives the place before its own.
    Place,
    /// A run that stops counts the stopping record too.
    Records,
    /// A run gives one reply byte fewer.
    ReplyBytes,
    /// One bit of the last reply byte is otherwise.
    ReplyBit,
    /// The byte past the replies is touched.
    PastTheReplies,
    /// A run without room lays a byte of the reply.
    RefusedReply,
    /// The reply of a read of 25h is 0.
    StallStatus,
    /// The second of two reads of 25h in a row is 0.
    SecondRead,
    /// A reading gives the place after the next.
    Next,
    /// The end of the log is refused.
    End,
    /// A place past the end is the end.
    PastTheEnd,
    /// A refused record touches the buffer.
    RefusedRecord,
    /// The last byte of a record is otherwise.
    RecordByte,
    /// A field out of range is refused for the room where that is short too.
    RefusalOrder,
    /// A run stops with 5 at a bad address.
    AddressRun,
    /// A run walks on after a count out of range.
    WalksOn,
    /// The fault of a run that a field stops is at the record's place.
    RunFault,
    /// A run that has no room has a fault.
    RoomFault,
    /// A bad address is read as 5.
    AddressRead,
    /// Of a fan and a count out of range the count is read first.
    CountRead,
    /// Of n and a clocked number out of range the place is the clocked one's.
    ClockedRead,
    /// The fault of a count is at its high byte.
    HighByte,
    /// The fault of a field is at the record's place.
    RecordPlace,
    /// The fault of a wrong mark is at its first byte.
    FirstMark,
    /// The fault of a place past the end is at the end.
    FaultAtTheEnd,
    /// A reading that is refused has no fault.
    NoFault,
    /// A bad address is refused with 5 by the writer.
    AddressWritten,
    /// Of a fan and a count out of range the writer looks at the count first.
    CountWritten,
    /// Of too many bytes and a bad address the writer looks at the address first.
    BytesWritten,
    /// Of a bad address and a clocked number out of range the writer looks at the number first.
    ClockedWritten,
    /// A record that is not written has a fault.
    WrittenFault,
    /// A listing has 5 for 9, 10 and 11.
    ListedNumber,
    /// A listing stops at the place of the fault.
    ListedFault,
    /// A program ends badly where a log stops.
    Ends,
    /// A listing lacks its last line end.
    LastLineEnd,
    /// A listing has small hex digits.
    SmallDigits,
    /// A listing lacks its `stop` line.
    StopLine,
    /// A listing lacks the line of the stopping record.
    StoppingRecord,
}

struct Wrong(Lie);

impl Subject for Wrong {
    fn run(&self, log: &[u8], replies: &mut [u8]) -> Outcome {
        let outcome = Independent.run(log, replies);
        let laid = outcome.run.reply_bytes;
        match self.0 {
            Lie::ReplyBit if laid > 0 => replies[laid - 1] ^= 0x10,
            Lie::PastTheReplies if laid < replies.len() => replies[laid] ^= 1,
            Lie::RefusedReply if outcome.run.number == 8 && laid < replies.len() => replies[laid] = 0xEE,
            Lie::StallStatus => without_stalls(log, replies, false),
            Lie::SecondRead => without_stalls(log, replies, true),
            Lie::WalksOn => return walking_on(log, replies),
            lie => return misrun(lie, outcome),
        }
        outcome
    }

    fn read<'a>(&self, log: &'a [u8], place: usize) -> Reading<'a> {
        match (self.0, Independent.read(log, place)) {
            (Lie::Next, Ok(Some((event, next)))) => Ok(Some((event, next + 1))),
            (Lie::End, Ok(None)) => Err(Refused {
                number: 1,
                fault: Some(place),
            }),
            (Lie::PastTheEnd, _) if place > log.len() => Ok(None),
            (lie, Err(refused)) => Err(misread(lie, refused, log, place)),
            (_, reading) => reading,
        }
    }

    fn write(&self, event: &Event, out: &mut [u8]) -> Result<usize, Refused> {
        match (self.0, Independent.write(event, out)) {
            (Lie::RecordByte, Ok(length)) => {
                out[length - 1] ^= 0x80;
                Ok(length)
            }
            (Lie::RefusedRecord, Err(refused)) if !out.is_empty() => {
                out[0] = 0x9C;
                Err(refused)
            }
            (lie, Err(refused)) => Err(miswritten(lie, refused, event, out.len())),
            (_, written) => written,
        }
    }

    fn list(&self, log: &[u8]) -> Result<Vec<u8>, String> {
        let lines = String::from_utf8(Independent.list(log)?).expect("lines are plain text");
        let kept: Vec<&str> = lines.lines().collect();
        let stopped = kept.last().is_some_and(|line| line.starts_with("stop"));
        let lied = match self.0 {
            Lie::Ends if stopped => return Err("it ended early".into()),
            Lie::LastLineEnd => lines.trim_end().to_owned(),
            Lie::SmallDigits => lines.to_lowercase(),
            Lie::StopLine if stopped => kept[..kept.len() - 1].join("\n") + "\n",
            Lie::StoppingRecord if stopped => {
                [&kept[..kept.len() - 2], &kept[kept.len() - 1..]].concat().join("\n") + "\n"
            }
            Lie::ListedNumber => [9, 10, 11].iter().fold(lines, |lines, number| {
                lines.replace(&format!(" {number}\nstop"), " 5\nstop")
            }),
            Lie::ListedFault if stopped => kept[..kept.len() - 1].join("\n") + &format!("\nstop {}\n", stop_fault(log)),
            _ => lines,
        };
        Ok(lied.into_bytes())
    }

    fn speeds(&self, log: &[u8], poles: u64, figures: &mut [u64]) -> (u8, usize, usize) {
        Independent.speeds(log, poles, figures)
    }

    fn report(&self, log: &[u8], poles: &str) -> Result<Vec<u8>, String> {
        Independent.report(log, poles)
    }
}

/// Numbers of a run that are otherwise.
fn misrun(lie: Lie, outcome: Outcome) -> Outcome {
    let Outcome { mut run, mut fault } = outcome;
    let stopped = run.number != 0;
    match lie {
        Lie::Number if stopped => run.number += 1,
        Lie::Place => run.place = run.place.saturating_sub(1),
        Lie::Records if stopped => run.records += 1,
        Lie::ReplyBytes => run.reply_bytes = run.reply_bytes.saturating_sub(1),
        Lie::AddressRun if run.number == 10 => run.number = 5,
        Lie::RunFault if matches!(run.number, 5 | 9..=11) => fault = Some(run.place),
        Lie::RoomFault if run.number == 8 => fault = Some(run.place),
        _ => {}
    }
    Outcome { run, fault }
}

/// Runs as if samples with a count out of range, of 7 bytes each, were refused as 6 and 7 are.
fn walking_on(log: &[u8], replies: &mut [u8]) -> Outcome {
    let (mut kept, mut walked) = (log.to_vec(), 0);
    loop {
        let Outcome { run, fault } = Independent.run(&kept, replies);
        if run.number != 9 {
            let place = run.place + 7 * walked;
            let records = run.records + walked;
            return Outcome {
                run: Run { place, records, ..run },
                fault: fault.map(|fault| fault + 7 * walked),
            };
        }
        kept.drain(run.place..run.place + 7);
        walked += 1;
    }
}

/// Where the faulty byte of the record is at which a run with room for all replies stops.
fn stop_fault(log: &[u8]) -> usize {
    let outcome = Independent.run(log, &mut vec![0; cobblehard::replies_room(log.len())]);
    outcome.fault.expect("a run with room stops where reading is refused")
}

/// A refusal of reading that is otherwise.
fn misread(lie: Lie, refused: Refused, log: &[u8], place: usize) -> Refused {
    let Refused { number, .. } = refused;
    let at = |fault| Refused {
        number,
        fault: Some(fault),
    };
    match (lie, number) {
        (Lie::AddressRead, 10) => Refused { number: 5, ..refused },
        (Lie::CountRead, 5) if log[place + 2] == 3 && log[place + 6] > 0x1F => Refused {
            number: 9,
            fault: Some(place + 5),
        },
        (Lie::ClockedRead, 11) if log[place + 3] > 2 && !(1..=32).contains(&log[place + 5]) => at(place + 5),
        (Lie::HighByte, 9) => at(place + 6),
        (Lie::RecordPlace, 5 | 9..=11) => at(place),
        (Lie::FirstMark, 2) => at(place),
        (Lie::FaultAtTheEnd, 1) => at(log.len()),
        (Lie::NoFault, _) => Refused { number, fault: None },
        _ => refused,
    }
}

/// A refusal of the writer that is otherwise.
fn miswritten(lie: Lie, refused: Refused, event: &Event, room: usize) -> Refused {
    let number = match (lie, *event) {
        (Lie::RefusalOrder, _) if room < 5 => 8,
        (Lie::AddressWritten, _) if refused.number == 10 => 5,
        (Lie::CountWritten, Event::Sample { count, .. }) if count > 8191 => 9,
        (Lie::BytesWritten, Event::Write { address, .. }) if address > 127 => 10,
        (Lie::ClockedWritten, Event::Read { count, .. }) if !(1..=32).contains(&count) => 11,
        (Lie::WrittenFault, _) => {
            return Refused {
                fault: Some(0),
                ..refused
            }
        }
        _ => refused.number,
    };
    Refused { number, ..refused }
}

/// Runs once more, and lays 0 for what a read of 25h alone replied; or only where the record before it was one too.
fn without_stalls(log: &[u8], replies: &mut [u8], second: bool) {
    let (mut chip, mut place, mut laid, mut again) = (Chip::unpowered(), 0, 0, false);
    while let Ok(Some((event, next))) = model::log::read(log, place) {
        let pointer = chip.pointer;
        match chip.step(&event, log, &mut replies[laid..]) {
            Ok(count) => {
                let alone = count == 1 && pointer == 0x25;
                if alone && (again || !second) {
                    replies[laid] = 0;
                }
                again = alone;
                laid += count;
            }
            Err(8) => return,
            Err(_) => {}
        }
        place = next;
    }
}

/// The first log that finds a lie.
fn found(lie: Lie) -> Failure {
    match sweep(&Wrong(lie), 1, 800, |_| {}) {
        Err(failure) => failure,
        Ok(()) => panic!("{lie:?} was not found"),
    }
}

/// Each lie, and what is said to differ.
const LIES: [(Lie, &str); 39] = [
    (Lie::Number, "a run"),
    (Lie::Place, "a run"),
    (Lie::Records, "a run"),
    (Lie::ReplyBytes, "a run"),
    (Lie::ReplyBit, "the replies"),
    (Lie::PastTheReplies, "the replies"),
    (Lie::RefusedReply, "the replies"),
    (Lie::StallStatus, "the replies"),
    (Lie::SecondRead, "the replies"),
    (Lie::Next, "reading"),
    (Lie::End, "reading"),
    (Lie::PastTheEnd, "reading"),
    (Lie::RefusedRecord, "writing"),
    (Lie::RecordByte, "writing"),
    (Lie::RefusalOrder, "writing"),
    (Lie::AddressRun, "a run"),
    (Lie::WalksOn, "a run"),
    (Lie::RunFault, "a run"),
    (Lie::RoomFault, "a run"),
    (Lie::AddressRead, "reading"),
    (Lie::CountRead, "reading"),
    (Lie::ClockedRead, "reading"),
    (Lie::HighByte, "reading"),
    (Lie::RecordPlace, "reading"),
    (Lie::FirstMark, "reading"),
    (Lie::FaultAtTheEnd, "reading"),
    (Lie::NoFault, "reading"),
    (Lie::AddressWritten, "writing"),
    (Lie::CountWritten, "writing"),
    (Lie::BytesWritten, "writing"),
    (Lie::ClockedWritten, "writing"),
    (Lie::WrittenFault, "writing"),
    (Lie::ListedNumber, "line"),
    (Lie::ListedFault, "line"),
    (Lie::Ends, "not the listing"),
    (Lie::LastLineEnd, "the listing, its last line end"),
    (Lie::SmallDigits, "line"),
    (Lie::StopLine, "line"),
    (Lie::StoppingRecord, "line"),
];

#[test]
fn every_lie_is_found() {
    for (lie, says) in LIES {
        let failure = found(lie);
        assert!(failure.what.starts_with(says), "{lie:?} was found so:\n{failure}");
    }
}

/// The address bytes of a log that is a power-on, of five fans or of a part, and a read of one byte.
fn power_on_and_read(log: &[u8]) -> Option<[u8; 2]> {
    match *log {
        [0x9C, 0x46, 1, 1, address, 0x9C, 0x46, 5, 2, read, 1]
        | [0x9C, 0x46, 6, 2, address, _, 0x9C, 0x46, 5, 2, read, 1] => Some([address, read]),
        _ => None,
    }
}

#[test]
fn a_failure_is_made_small() {
    let failure = found(Lie::ReplyBit);
    let addresses = power_on_and_read(&failure.log);
    assert!(
        addresses.is_some_and(|[address, read]| read == address * 2 + 1),
        "{failure}"
    );
    let stall = found(Lie::StallStatus);
    assert!(stall.log.len() <= 60, "{stall}");
}

#[test]
fn a_failure_tells_its_seed_and_log() {
    let failure = found(Lie::ReplyBit);
    let text = failure.to_string();
    assert!(
        text.starts_with(&format!("seed {}: the replies", failure.seed)),
        "{text}"
    );
    let [_, read] = power_on_and_read(&failure.log).expect("the log is made small");
    assert!(text.contains(&format!("\n  9C 46 05 02 {read:02X} 01\n")), "{text}");
    let log = generate::log(failure.seed);
    assert!(
        difference(&Wrong(Lie::ReplyBit), &log).is_some(),
        "the log of the seed fails too"
    );
}
