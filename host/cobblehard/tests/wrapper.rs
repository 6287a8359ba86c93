//! The safe wrapper, by document 01's own figures.
use cobblehard::{read, records, rpm, rpm_by_high_byte, run, run_into, speeds, speeds_into};
use cobblehard::{Event, Figures, Reason, Refusal, Run, Speeds, LONGEST_RECORD};
use std::collections::BTreeSet;
use std::error::Error;
use std::fmt::Debug;

/// Document 01's log.
const LOG: [u8; 18] = [
    0x9C, 0x46, 0x01, 0x01, 0x2C, 0x9C, 0x46, 0x05, 0x03, 0x58, 0x30, 0x80, 0x9C, 0x46, 0x05, 0x02, 0x59, 0x01,
];

/// Its events.
const EVENTS: [Event<'static>; 3] = [
    Event::PowerOn { address: 0x2C },
    Event::Write {
        address: 0x2C,
        bytes: &[0x30, 0x80],
    },
    Event::Read {
        address: 0x2C,
        count: 1,
    },
];

const HEADER: &str = include_str!("../../../include/cobblehard.h");

/// Every number with its name in the header, and its words.
const NUMBERS: [(u8, &str, &str); 16] = [
    (0, "COBBLEHARD_TAKEN", "taken"),
    (1, "COBBLEHARD_CUT_SHORT", "the log ends inside a record"),
    (2, "COBBLEHARD_WRONG_MARK", "a mark byte is wrong"),
    (3, "COBBLEHARD_UNKNOWN_KIND", "unknown kind"),
    (4, "COBBLEHARD_WRONG_LENGTH", "length not allowed for the kind"),
    (5, "COBBLEHARD_WRONG_FAN", "no such fan"),
    (6, "COBBLEHARD_NO_POWER", "event before any power-on"),
    (7, "COBBLEHARD_ELSEWHERE", "transfer to another address"),
    (8, "COBBLEHARD_NO_ROOM", "buffer too short"),
    (9, "COBBLEHARD_WRONG_COUNT", "count out of range"),
    (10, "COBBLEHARD_WRONG_ADDRESS", "address out of range"),
    (
        11,
        "COBBLEHARD_WRONG_BYTES",
        "length or clocked number of a transfer out of range",
    ),
    (13, "COBBLEHARD_WRONG_POLES", "poles out of range"),
    (14, "COBBLEHARD_TOO_MANY_SAMPLES", "too many samples of a fan"),
    (15, "COBBLEHARD_WRONG_FANS", "number of fans out of range"),
    (21, "COBBLEHARD_ABSENT_FAN", "the part has no such fan"),
];

/// Those behind the first, which is no refusal.
const REASONS: [Reason; 15] = [
    Reason::EndsInsideRecord,
    Reason::WrongMark,
    Reason::UnknownKind,
    Reason::LengthNotAllowed,
    Reason::WrongFan,
    Reason::NoPower,
    Reason::OtherAddress,
    Reason::NoRoom,
    Reason::WrongCount,
    Reason::WrongAddress,
    Reason::WrongBytes,
    Reason::WrongPoles,
    Reason::TooManySamples,
    Reason::WrongFans,
    Reason::AbsentFan,
];

/// What cannot be read: its number, and the place of the first faulty byte. Where there are two faults, reading's order
/// decides and, of fields, the earlier byte: the other fault is named behind "before".
const FAULTS: [(&[u8], u8, usize); 53] = [
    // 1, where the first missing byte would stand
    (&[0x9C], 1, 1),
    (&[0x9C, 0x46], 1, 2),
    (&[0x9C, 0x46, 0x05], 1, 3),
    (&[0x9C, 0x46, 0x09], 1, 3), // before the kind
    (&[0x9C, 0x46, 0x01, 0x01], 1, 4),
    (&[0x9C, 0x46, 0x05, 0x14, 0x58], 1, 5),
    (&[0x9C, 0x46, 0x03, 0x03, 0x00, 0x00], 1, 6), // before the fan
    (&[0x9C, 0x46, 0x05, 0x03, 0x59, 0x00], 1, 6), // before a read's length byte
    (&[0x9C, 0x46, 0x06, 0x02], 1, 4),
    (&[0x9C, 0x46, 0x06, 0x02, 0x80], 1, 5), // before the address
    // 2, the first wrong mark byte
    (&[0x9D], 2, 0),
    (&[0x9C, 0x47], 2, 1),
    (&[0x9D, 0x47, 0x01, 0x01, 0x2C], 2, 0),
    (&[0x46, 0x9C, 0x01, 0x01, 0x2C], 2, 0),
    (&[0x9C, 0x00, 0x07, 0x01, 0x80], 2, 1), // before the kind
    // 3, the kind byte
    (&[0x9C, 0x46, 0x00, 0x01, 0x2C], 3, 2),
    (&[0x9C, 0x46, 0x07, 0x01], 3, 2), // before the payload that is short
    (&[0x9C, 0x46, 0xFF, 0x00], 3, 2), // before the length byte
    // 4, the length byte
    (&[0x9C, 0x46, 0x02, 0x09], 4, 3),             // before the payload that is short
    (&[0x9C, 0x46, 0x01, 0x02, 0x80, 0x00], 4, 3), // before the address
    (&[0x9C, 0x46, 0x03, 0x02, 0x00, 0x00], 4, 3), // before the fan
    (&[0x9C, 0x46, 0x04, 0x00], 4, 3),
    (&[0x9C, 0x46, 0x05, 0x00], 4, 3),
    (&[0x9C, 0x46, 0x05, 0x22, 0x59], 4, 3),
    (&[0x9C, 0x46, 0x06, 0x00], 4, 3),
    (&[0x9C, 0x46, 0x06, 0x01, 0x2C], 4, 3),
    (&[0x9C, 0x46, 0x06, 0x03, 0x80, 0x00, 0x00], 4, 3), // before the address
    (&[0x9C, 0x46, 0x06, 0xFF], 4, 3),                   // before the payload that is short
    // 5, the fan byte
    (&[0x9C, 0x46, 0x03, 0x03, 0x00, 0xFF, 0x1F], 5, 4),
    (&[0x9C, 0x46, 0x03, 0x03, 0x06, 0x00, 0x00], 5, 4),
    (&[0x9C, 0x46, 0x03, 0x03, 0x00, 0x00, 0x20], 5, 4), // before the count
    (&[0x9C, 0x46, 0x04, 0x02, 0x00, 0xFF], 5, 4),
    (&[0x9C, 0x46, 0x04, 0x02, 0x06, 0x00], 5, 4),
    // 9, the count's low byte
    (&[0x9C, 0x46, 0x03, 0x03, 0x01, 0x00, 0x20], 9, 5),
    (&[0x9C, 0x46, 0x03, 0x03, 0x05, 0xFF, 0xFF], 9, 5),
    // 10, the address byte
    (&[0x9C, 0x46, 0x01, 0x01, 0x80], 10, 4),
    (&[0x9C, 0x46, 0x01, 0x01, 0xFF], 10, 4),
    (&[0x9C, 0x46, 0x06, 0x02, 0x80, 0x02], 10, 4),
    (&[0x9C, 0x46, 0x06, 0x02, 0xFF, 0x00], 10, 4), // before the number of fans
    // 11, the length byte of a read where that is not 2
    (&[0x9C, 0x46, 0x05, 0x01, 0x59], 11, 3),
    (&[0x9C, 0x46, 0x05, 0x03, 0x59, 0x01, 0x01], 11, 3),
    (&[0x9C, 0x46, 0x05, 0x03, 0x59, 0x00, 0x00], 11, 3), // before the clocked number
    (&[0x9C, 0x46, 0x05, 0x03, 0xFF, 0x21, 0x01], 11, 3),
    (&LONGEST_READ, 11, 3),
    // 11, else the byte with the clocked number
    (&[0x9C, 0x46, 0x05, 0x02, 0x59, 0x00], 11, 5),
    (&[0x9C, 0x46, 0x05, 0x02, 0x59, 0x21], 11, 5),
    (&[0x9C, 0x46, 0x05, 0x02, 0x01, 0x00], 11, 5),
    (&[0x9C, 0x46, 0x05, 0x02, 0xFF, 0x80], 11, 5),
    (&[0x9C, 0x46, 0x05, 0x02, 0xFF, 0xFF], 11, 5),
    // 15, the byte with the number of fans
    (&[0x9C, 0x46, 0x06, 0x02, 0x2C, 0x00], 15, 5),
    (&[0x9C, 0x46, 0x06, 0x02, 0x00, 0x04], 15, 5),
    (&[0x9C, 0x46, 0x06, 0x02, 0x7F, 0x05], 15, 5),
    (&[0x9C, 0x46, 0x06, 0x02, 0x2C, 0xFF], 15, 5),
];

/// A transfer's length byte at its most, with the direction of a read.
const LONGEST_READ: [u8; LONGEST_RECORD] = {
    let mut record = [0x01; LONGEST_RECORD];
    (record[0], record[1], record[2], record[3], record[4]) = (0x9C, 0x46, 0x05, 0x21, 0x59);
    record
};

/// Number and place of a refusal.
fn refused<T: Debug>(answer: Result<T, Refusal>) -> (u8, Option<usize>) {
    let refusal = answer.expect_err("a refusal");
    (refusal.number(), refusal.place())
}

/// The same of a run's, then the place of its record, the records walked and the reply bytes.
fn stopped(outcome: Run) -> (u8, Option<usize>, [usize; 3]) {
    let (number, fault) = refused(outcome.stop.map_or(Ok(()), Err));
    (number, fault, [outcome.place, outcome.records, outcome.reply_bytes])
}

/// One event of each kind, at the ends of its fields, with its record.
fn each_kind() -> [(Event<'static>, Vec<u8>); 9] {
    const BYTES: [u8; 32] = [0xA5; 32];
    [
        (Event::PowerOn { address: 127 }, vec![0x9C, 0x46, 1, 1, 127]),
        (Event::Ticks { count: 65_535 }, vec![0x9C, 0x46, 2, 2, 0xFF, 0xFF]),
        (
            Event::Sample { fan: 5, count: 7_872 },
            vec![0x9C, 0x46, 3, 3, 5, 0xC0, 0x1E],
        ),
        (Event::Wish { fan: 1, drive: 255 }, vec![0x9C, 0x46, 4, 2, 1, 255]),
        (
            Event::Write {
                address: 0x2C,
                bytes: &[],
            },
            vec![0x9C, 0x46, 5, 1, 0x58],
        ),
        (
            Event::Write {
                address: 127,
                bytes: &BYTES,
            },
            [&[0x9C, 0x46, 5, 33, 254], &BYTES[..]].concat(),
        ),
        (
            Event::Read {
                address: 0x2C,
                count: 32,
            },
            vec![0x9C, 0x46, 5, 2, 0x59, 32],
        ),
        (Event::PowerOnPart { address: 0, fans: 3 }, vec![0x9C, 0x46, 6, 2, 0, 3]),
        (
            Event::PowerOnPart { address: 127, fans: 1 },
            vec![0x9C, 0x46, 6, 2, 127, 1],
        ),
    ]
}

#[test]
fn a_run() {
    let (outcome, replies) = run(&LOG);
    assert_eq!(
        outcome,
        Run {
            stop: None,
            place: 18,
            records: 3,
            reply_bytes: 1
        }
    );
    assert_eq!(outcome.number(), 0);
    assert_eq!(replies, [0xFF]);
}

#[test]
fn a_run_over_an_empty_log() {
    assert_eq!(
        run(&[]),
        (
            Run {
                stop: None,
                place: 0,
                records: 0,
                reply_bytes: 0
            },
            vec![]
        )
    );
}

#[test]
fn a_run_walks_on_after_6_and_7() {
    let log = [&LOG[5..], &LOG[..5], &[0x9C, 0x46, 0x05, 0x01, 0x5A]].concat();
    assert_eq!(
        run(&log).0,
        Run {
            stop: None,
            place: 23,
            records: 4,
            reply_bytes: 0
        }
    );
}

#[test]
fn a_run_without_room_stops() {
    let outcome = run_into(&LOG, &mut []);
    assert_eq!(stopped(outcome), (8, None, [12, 2, 0]));
    assert_eq!(outcome.number(), 8);
}

#[test]
fn a_refused_reply_and_what_is_past_a_reply_leave_the_buffer() {
    let two_reads = [&LOG[..], &[0x9C, 0x46, 0x05, 0x02, 0x59, 0x04]].concat();
    let mut replies = [0xAA; 4];
    let outcome = run_into(&two_reads, &mut replies);
    assert_eq!(stopped(outcome), (8, None, [18, 3, 1]));
    assert_eq!(replies, [0xFF, 0xAA, 0xAA, 0xAA]);
}

#[test]
fn the_records_of_a_log() {
    let expected: Vec<_> = [0, 5, 12].into_iter().zip(EVENTS.map(Ok)).collect();
    assert_eq!(records(&LOG).collect::<Vec<_>>(), expected);
}

#[test]
fn a_refusal_is_the_last_record() {
    let mut log = LOG;
    log[7] = 7;
    let mut found = records(&log);
    assert_eq!(found.next(), Some((0, Ok(EVENTS[0]))));
    let (place, answer) = found.next().expect("the refused record");
    assert_eq!((place, refused(answer)), (5, (3, Some(7))));
    assert_eq!(found.next(), None);
}

#[test]
fn what_cannot_be_read() {
    for (bytes, number, fault) in FAULTS {
        assert_eq!(refused(read(bytes, 0)), (number, Some(fault)), "{bytes:02X?}");
    }
    let numbers: BTreeSet<u8> = FAULTS.map(|(_, number, _)| number).into();
    assert_eq!(numbers, BTreeSet::from([1, 2, 3, 4, 5, 9, 10, 11, 15]));
}

#[test]
fn what_cannot_be_read_behind_other_records() {
    for (bytes, number, fault) in FAULTS {
        let log = [&LOG[..], bytes].concat();
        let expected = (number, Some(18 + fault));
        assert_eq!(refused(read(&log, 18)), expected, "{bytes:02X?}");
        let (place, answer) = records(&log).last().expect("the refused record");
        assert_eq!((place, refused(answer)), (18, expected), "{bytes:02X?}");
    }
}

#[test]
fn what_stands_behind_a_fault_does_not_matter() {
    for (bytes, number, fault) in FAULTS.into_iter().filter(|&(_, number, _)| number != 1) {
        let log = [bytes, &LOG].concat();
        assert_eq!(refused(read(&log, 0)), (number, Some(fault)), "{bytes:02X?}");
    }
}

#[test]
fn what_cannot_be_read_stops_a_run() {
    for (bytes, number, fault) in FAULTS {
        let (outcome, replies) = run(bytes);
        assert_eq!(stopped(outcome), (number, Some(fault), [0, 0, 0]), "{bytes:02X?}");
        assert_eq!((outcome.number(), replies), (number, vec![]), "{bytes:02X?}");
        let (outcome, replies) = run(&[&LOG[..], bytes].concat());
        assert_eq!(stopped(outcome), (number, Some(18 + fault), [18, 3, 1]), "{bytes:02X?}");
        assert_eq!((outcome.number(), replies), (number, vec![0xFF]), "{bytes:02X?}");
    }
}

#[test]
fn the_end_and_past_it() {
    assert_eq!(read(&LOG, 12), Ok(Some((EVENTS[2], 18))));
    assert_eq!(read(&LOG, 18), Ok(None));
    for place in [19, 20, 1 << 32, usize::MAX - 1, usize::MAX] {
        assert_eq!(refused(read(&LOG, place)), (1, Some(place)));
    }
    assert_eq!(refused(read(&[], 1)), (1, Some(1)));
}

#[test]
fn events_written_and_read() {
    for (event, record) in each_kind() {
        let mut out = [0xAA; LONGEST_RECORD + 1];
        assert_eq!(event.write_to(&mut out), Ok(record.len()), "{event:?}");
        assert_eq!(out[..record.len()], record, "{event:?}");
        assert!(out[record.len()..].iter().all(|&byte| byte == 0xAA), "{event:?}");
        assert_eq!(read(&record, 0), Ok(Some((event, record.len()))), "{event:?}");
    }
}

#[test]
fn the_longest_record() {
    assert_eq!(
        each_kind().iter().map(|(_, record)| record.len()).max(),
        Some(LONGEST_RECORD)
    );
}

/// Events with fields out of range, and the number of that whose byte comes first in the record.
const OUT_OF_RANGE: [(Event<'static>, u8); 21] = [
    (Event::PowerOn { address: 128 }, 10),
    (Event::Sample { fan: 0, count: 0 }, 5),
    (Event::Sample { fan: 6, count: 0 }, 5),
    (Event::Sample { fan: 1, count: 8_192 }, 9),
    (Event::Sample { fan: 0, count: 8_192 }, 5),
    (Event::Wish { fan: 0, drive: 0 }, 5),
    (Event::Wish { fan: 6, drive: 0 }, 5),
    (
        Event::Write {
            address: 128,
            bytes: &[],
        },
        10,
    ),
    (
        Event::Write {
            address: 128,
            bytes: &[0; 32],
        },
        10,
    ),
    (
        Event::Write {
            address: 0,
            bytes: &[0; 33],
        },
        11,
    ),
    (
        Event::Write {
            address: 128,
            bytes: &[0; 33],
        },
        11,
    ),
    (Event::Read { address: 128, count: 1 }, 10),
    (Event::Read { address: 0, count: 0 }, 11),
    (
        Event::Read {
            address: 127,
            count: 33,
        },
        11,
    ),
    (Event::Read { address: 128, count: 0 }, 10),
    (
        Event::Read {
            address: 255,
            count: 255,
        },
        10,
    ),
    (Event::PowerOnPart { address: 128, fans: 2 }, 10),
    (Event::PowerOnPart { address: 128, fans: 0 }, 10),
    (Event::PowerOnPart { address: 127, fans: 0 }, 15),
    (Event::PowerOnPart { address: 0, fans: 4 }, 15),
    (Event::PowerOnPart { address: 0, fans: 5 }, 15),
];

#[test]
fn out_of_range_is_refused_before_the_room() {
    for (event, number) in OUT_OF_RANGE {
        for room in [0, 64] {
            let mut out = vec![0xAA; room];
            assert_eq!(refused(event.write_to(&mut out)), (number, None), "{event:?}");
            assert_eq!(out, vec![0xAA; room], "{event:?}");
        }
        let mut log = LOG.to_vec();
        assert_eq!(refused(event.append_to(&mut log)), (number, None), "{event:?}");
        assert_eq!(log, LOG, "{event:?}");
    }
}

#[test]
fn a_record_without_room() {
    for (event, record) in each_kind() {
        let mut out = vec![0xAA; record.len() - 1];
        assert_eq!(refused(event.write_to(&mut out)), (8, None), "{event:?}");
        assert_eq!(out, vec![0xAA; record.len() - 1], "{event:?}");
    }
}

#[test]
fn events_appended() {
    let mut log = Vec::new();
    for event in EVENTS {
        assert_eq!(event.append_to(&mut log), Ok(()));
    }
    assert_eq!(log, LOG);
}

#[test]
fn reasons_with_number_and_words() {
    for ((number, _, words), reason) in NUMBERS.into_iter().skip(1).zip(REASONS) {
        assert_eq!(Reason::of_number(number), Some(reason));
        assert_eq!((reason.number(), reason.words()), (number, words));
    }
    let mut others = (22..=255).chain(16..=20).chain([0, 12]);
    assert!(others.all(|number| Reason::of_number(number).is_none()));
}

#[test]
fn refusals_in_words() {
    let of_reading = read(&[0x9C, 0x46, 0x03, 0x03, 0x01, 0x00, 0x20], 0).unwrap_err();
    assert_eq!(
        (of_reading.reason(), of_reading.words()),
        (Reason::WrongCount, "count out of range")
    );
    assert_eq!(of_reading.to_string(), "refused with 9, count out of range, at byte 5");
    let of_writing = Event::Wish { fan: 6, drive: 0 }.append_to(&mut Vec::new()).unwrap_err();
    assert_eq!(
        (of_writing.reason(), of_writing.words()),
        (Reason::WrongFan, "no such fan")
    );
    assert_eq!(of_writing.to_string(), "refused with 5, no such fan");
    let error: Box<dyn Error + Send + Sync> = Box::new(run_into(&LOG, &mut []).stop.unwrap());
    assert_eq!(error.to_string(), "refused with 8, buffer too short");
}

/// The lines of the header between one that begins so and the brace that closes it.
fn header_lines(first: &str) -> impl Iterator<Item = &'static str> + '_ {
    let from = HEADER.lines().skip_while(move |line| !line.starts_with(first)).skip(1);
    from.take_while(|line| !line.starts_with('}')).map(str::trim)
}

/// Each constant has its number and, before a colon or the end of its comment, the words.
#[test]
fn the_header_has_the_same_numbers() {
    let lines = header_lines("enum cobblehard_number {").filter(|line| line.starts_with("COBBLEHARD_"));
    let constants = lines.map(|line| {
        let (constant, comment) = line.split_once("/* ").expect("a comment");
        let words = comment.split([':', '*']).next().expect("words");
        (constant.trim().trim_end_matches(',').to_string(), words.trim())
    });
    let expected = NUMBERS.map(|(number, name, words)| (format!("{name} = {number}"), words));
    assert_eq!(constants.collect::<Vec<_>>(), expected);
}

/// Those that the events' records have, and 0 for the end.
#[test]
fn the_header_has_the_same_kinds() {
    let constants =
        header_lines("enum cobblehard_kind {").map(|line| line.split([',', '/']).next().expect("a constant"));
    let expected = [
        "COBBLEHARD_END = 0",
        "COBBLEHARD_POWER_ON = 1",
        "COBBLEHARD_TICKS = 2",
        "COBBLEHARD_SAMPLE = 3",
        "COBBLEHARD_WISH = 4",
        "COBBLEHARD_TRANSFER = 5",
        "COBBLEHARD_POWER_ON_PART = 6",
    ];
    assert_eq!(constants.map(str::trim).collect::<Vec<_>>(), expected);
    let kinds: BTreeSet<u8> = each_kind().map(|(_, record)| record[2]).into();
    assert_eq!(kinds, (1..=6).collect());
}

#[test]
fn the_header_has_the_same_words() {
    let cases = header_lines("static inline const char *cobblehard_words(").filter(|line| line.contains("return"));
    let mut expected = NUMBERS
        .map(|(_, name, words)| format!("case {name}: return \"{words}\";"))
        .to_vec();
    expected.push("default: return \"no such number\";".to_string());
    assert_eq!(cases.collect::<Vec<_>>(), expected);
}

// ---- parts ----

fn log_of(events: &[Event]) -> Vec<u8> {
    let mut log = Vec::new();
    for event in events {
        event.append_to(&mut log).expect("an event in range");
    }
    log
}

fn power_on(address: u8) -> Event<'static> {
    Event::PowerOn { address }
}

fn sample(fan: u8, count: u16) -> Event<'static> {
    Event::Sample { fan, count }
}

fn send(bytes: &[u8]) -> Event<'_> {
    Event::Write { address: 0x2C, bytes }
}

fn part(fans: u8) -> Event<'static> {
    Event::PowerOnPart { address: 0x2C, fans }
}

/// What a chip answers to a read of so many bytes from a register on, after these events.
fn shown(events: &[Event], register: u8, count: u8) -> Vec<u8> {
    let read = Event::Read { address: 0x2C, count };
    let log = log_of(&[events, &[send(&[register]), read]].concat());
    let (outcome, replies) = run(&log);
    assert_eq!((outcome.stop, outcome.records), (None, events.len() + 2));
    replies
}

/// 1, 2 and 3 are taken. An address that is out of range is refused before the number is.
#[test]
fn every_number_of_fans() {
    for (address, fans) in [0, 0x2C, 127, 128, 255]
        .into_iter()
        .flat_map(|a| (0..=255).map(move |f| (a, f)))
    {
        let event = Event::PowerOnPart { address, fans };
        let record = [0x9C, 0x46, 6, 2, address, fans];
        let refusal = match (address, fans) {
            (128.., _) => Some((10, 4)),
            (_, 1..=3) => None,
            _ => Some((15, 5)),
        };
        let mut out = [0xAA; 6];
        let written = event.write_to(&mut out);
        if let Some((number, fault)) = refusal {
            assert_eq!((refused(written), out), ((number, None), [0xAA; 6]), "{event:?}");
            assert_eq!(refused(read(&record, 0)), (number, Some(fault)), "{event:?}");
            assert_eq!(stopped(run(&record).0), (number, Some(fault), [0, 0, 0]), "{event:?}");
        } else {
            assert_eq!((written, out), (Ok(6), record), "{event:?}");
            assert_eq!(read(&record, 0), Ok(Some((event, 6))), "{event:?}");
            let outcome = run(&record).0;
            assert_eq!(
                (outcome.number(), outcome.place, outcome.records),
                (0, 6, 1),
                "{event:?}"
            );
        }
    }
}

/// 6, 21 and 7 are walked over, and 15 stops.
#[test]
fn a_run_over_a_part() {
    let mut log = log_of(&[
        sample(5, 2048), // before any power-on
        part(2),
        sample(3, 8191),
        Event::Wish { fan: 5, drive: 255 },
        sample(2, 2048), // 4000h in 4Eh and 4Fh
        send(&[0x4E]),
        Event::Read {
            address: 0x2C,
            count: 4,
        },
        Event::Read {
            address: 0x2D,
            count: 4,
        },
    ]);
    let end = log.len();
    let (outcome, replies) = run(&log);
    assert_eq!((outcome.stop, outcome.place, outcome.records), (None, end, 8));
    assert_eq!(replies, [0x40, 0x00, 0x00, 0x00]);
    log.extend([0x9C, 0x46, 6, 2, 0x2C, 4]);
    let (outcome, replies) = run(&log);
    assert_eq!(stopped(outcome), (15, Some(end + 5), [end, 8, 4]));
    assert_eq!(replies, [0x40, 0x00, 0x00, 0x00]);
    let refusal = outcome.stop.expect("a refusal");
    assert_eq!(refusal.reason(), Reason::WrongFans);
    let words = format!("refused with 15, number of fans out of range, at byte {}", end + 5);
    assert_eq!(refusal.to_string(), words);
}

/// After a power-on, and after a byte is written to 31h, 41h and so on to 71h.
#[test]
fn registers_of_absent_fans() {
    let writes = [0x31, 0x41, 0x51, 0x61, 0x71].map(|register| [register, 0xA5]);
    for (event, fans) in [(part(1), 1), (part(2), 2), (part(3), 3), (power_on(0x2C), 5)] {
        let events = [&[event][..], &writes.each_ref().map(|bytes| send(bytes))].concat();
        for fan in 1..=5 {
            let first = 0x20 + 0x10 * fan;
            let (before, after) = (shown(&events[..1], first, 16), shown(&events, first, 16));
            if fan <= fans {
                assert_eq!(before, shown(&[power_on(0x2C)], 0x30, 16), "{event:?}, fan {fan}");
                assert_eq!(
                    after,
                    [&before[..1], &[0xA5], &before[2..]].concat(),
                    "{event:?}, fan {fan}"
                );
            } else {
                assert_eq!((before, after), (vec![0; 16], vec![0; 16]), "{event:?}, fan {fan}");
            }
        }
        assert_eq!(shown(&events, 0xFC, 4), [0x00, 0x34, 0x5D, 0x80], "{event:?}");
        assert_eq!(shown(&[event, send(&[0x29, 0xFF])], 0x29, 1), [0xFF], "{event:?}");
    }
}

/// Each fan that is there spins up for 40 ticks and fails, since no sample came in: 24h, 25h and 26h show it.
#[test]
fn status_bits_of_absent_fans() {
    let writes = [0x30, 0x40, 0x50, 0x60, 0x70].map(|register| [register, 0x80]);
    for (event, bits) in [
        (part(1), 0x01),
        (part(2), 0x03),
        (part(3), 0x07),
        (power_on(0x2C), 0x1F),
    ] {
        let mut events = vec![event];
        events.extend(writes.each_ref().map(|bytes| send(bytes)));
        events.push(Event::Ticks { count: 40 });
        assert_eq!(shown(&events, 0x24, 3), [0x02, 0x00, bits], "{event:?}");
    }
}

/// A write to an absent fan does not end the power-up watch, and its firing leaves that fan: 24h, 30h and 40h show it.
#[test]
fn the_watch_passes_absent_fans_by() {
    let ticks = Event::Ticks { count: 320 };
    for (event, replies) in [(part(1), [0x80, 0xFF, 0x00]), (part(2), [0x02, 0x00, 0x80])] {
        let events = [event, send(&[0x40, 0x80]), ticks];
        let each = [0x24, 0x30, 0x40].map(|register| shown(&events, register, 1)[0]);
        assert_eq!(each, replies, "{event:?}");
    }
}

/// 41h, which shows 01h where fan 2 is there.
#[test]
fn the_part_is_that_of_the_last_power_on() {
    for (last, byte) in [
        (part(1), 0x00),
        (part(2), 0x01),
        (part(3), 0x01),
        (power_on(0x2C), 0x01),
    ] {
        for first in [part(1), part(2), part(3), power_on(0x2C), power_on(0x2D)] {
            assert_eq!(shown(&[first, last], 0x41, 1), [byte], "{first:?}, {last:?}");
        }
    }
}

/// All 256 registers, after a chip that was used and locked.
#[test]
fn each_power_on_sets_everything_back() {
    let used = [
        send(&[0x20, 0xA0]),
        send(&[0x29, 0xFF, 0x01, 0x02, 0x03, 0x04]),
        send(&[0x30, 0x80]),
        send(&[0x37, 0x20]),
        Event::Ticks { count: 40 },
        sample(1, 2048),
        send(&[0xEF, 0x01]),
    ];
    for last in [part(1), part(2), part(3), power_on(0x2C)] {
        for first in [part(1), part(3), power_on(0x2C)] {
            let events = [&[first][..], &used, &[last]].concat();
            for register in (0..=255).step_by(32) {
                let (after, fresh) = (shown(&events, register, 32), shown(&[last], register, 32));
                assert_eq!(after, fresh, "{first:?}, {last:?}, {register:02X}");
            }
        }
    }
}

// ---- speeds ----

/// Out of range, and what a narrower number would take for one in range.
const WRONG_POLES: [u64; 9] = [0, 5, 255, 256, 257, 65_538, 1 << 32, (1 << 32) + 3, u64::MAX];

fn figures([samples, lowest, highest, total, zeros]: [u64; 5]) -> Figures {
    Figures {
        samples,
        lowest,
        highest,
        total,
        zeros,
    }
}

/// Number and faulty byte of a report, its place and the records walked.
fn ended(report: &Speeds) -> (u8, Option<usize>, usize, usize) {
    let fault = report.stop.and_then(|refusal| refusal.place());
    (report.number(), fault, report.place, report.records)
}

/// 60 x 32768 is 1966080.
#[test]
fn the_speed_of_a_sample() {
    assert_eq!(rpm(1, 0x00, 1), 3_932_160); // x 2 x 1, by 3 edges and m = 1
    assert_eq!(rpm(1, 0x87, 1), 3_932_160); // the other bits do not matter
    assert_eq!(rpm(1, 0x10, 1), 11_796_480); // x 6 x 1
    assert_eq!(rpm(1, 0x18, 1), 15_728_640); // x 8 x 1
    assert_eq!(rpm(1, 0x40, 1), 15_728_640); // x 2 x 4
    assert_eq!(rpm(1, 0x60, 1), 31_457_280); // x 2 x 8
    assert_eq!(rpm(1, 0x78, 1), 125_829_120); // x 8 x 8, the most
    assert_eq!(rpm(2, 0x2B, 3000), 2621); // x 4 x 2 / 6000 = 2621.44
    assert_eq!(rpm(3, 0x2B, 1000), 5242); // x 4 x 2 / 3000 = 5242.88
    assert_eq!(rpm(4, 0x00, 8191), 120); // x 2 x 1 / 32764 = 120.01, the least of a sample
    assert_eq!(rpm(4, 0x00, 65_535), 15); // x 2 x 1 / 262140 = 15.0002
}

#[test]
fn no_speed() {
    assert!((1..=4).all(|poles| rpm(poles, 0x2B, 0) == 0));
    assert!(WRONG_POLES.into_iter().all(|poles| rpm(poles, 0x2B, 1000) == 0));
}

#[test]
fn the_table_by_high_byte() {
    let some = [0, 1, 2, 7, 254, 255].map(rpm_by_high_byte);
    assert_eq!(some, [0, 245_760, 122_880, 35_108, 967, 963]); // 245760 / 7 = 35108.57, / 254 = 967.55, / 255 = 963.76
    assert!((1..=255).all(|byte| rpm_by_high_byte(byte) == rpm(2, 0x2B, 32 * u16::from(byte))));
}

/// Each fan by its own Configuration 1, and samples with count 0 apart.
#[test]
fn a_report() {
    let log = log_of(&[
        power_on(0x2C),
        send(&[0x42, 0x78]),
        send(&[0x50, 0x80, 0x01, 0x00]), // a block up to 52h
        sample(1, 2048),                 // 7864320 / 2048 = 3840
        sample(1, 3000),                 // 7864320 / 3000 = 2621.44
        sample(1, 8191),                 // 7864320 / 8191 = 960.1
        sample(2, 1),                    // 62914560, by 9 edges and m = 8
        sample(2, 0),
        sample(2, 8191), // 62914560 / 8191 = 7680.9
        sample(3, 8191), // 1966080 / 8191 = 240.03, by 3 edges and m = 1
        sample(4, 0),
        sample(4, 0),
    ]);
    let report = speeds(&log, 2);
    assert_eq!(ended(&report), (0, None, log.len(), 12));
    let expected = [
        [3, 960, 3840, 7421, 0],
        [2, 7680, 62_914_560, 62_922_240, 1],
        [1, 240, 240, 240, 0],
        [0, 0, 0, 0, 2],
        [0, 0, 0, 0, 0],
    ];
    assert_eq!(report.fans, expected.map(figures));
    let means = report.fans.map(|fan| fan.mean()); // 7421 / 3 = 2473.67, 62922240 / 2
    assert_eq!(means, [Some(2473), Some(31_461_120), Some(240), None, None]);
}

/// 6 and 7 are walked over and change nothing. A power-on sets Configuration 1 back, and no figure.
#[test]
fn a_report_over_two_power_ons() {
    let log = log_of(&[
        sample(1, 1),
        power_on(0x2D),
        send(&[0x32, 0x78]), // to another address
        sample(1, 4096),     // 15728640 / 4096 = 3840
        power_on(0x2C),
        send(&[0x32, 0x78]),
        sample(1, 4096), // 125829120 / 4096 = 30720
        power_on(0x2C),
        sample(1, 4096), // 3840
    ]);
    let report = speeds(&log, 1);
    assert_eq!(ended(&report), (0, None, log.len(), 9));
    assert_eq!(report.fans[0], figures([3, 3840, 30_720, 38_400, 0]));
    assert_eq!(report.fans[1..], [Figures::default(); 4]);
}

/// Samples for absent fans count nowhere, and a power-on of another part sets no figure to 0.
#[test]
fn a_report_over_parts() {
    let mut log = log_of(&[
        part(1),
        sample(1, 2048), // 7864320 / 2048 = 3840
        sample(2, 2048),
        part(3),
        sample(3, 1024), // 7680
        sample(4, 0),
        power_on(0x2C),
        sample(2, 8191), // 960
        sample(4, 0),
        part(2),
        sample(3, 1),
        sample(5, 0),
    ]);
    let end = log.len();
    let expected = [
        [1, 3840, 3840, 3840, 0],
        [1, 960, 960, 960, 0],
        [1, 7680, 7680, 7680, 0],
        [0, 0, 0, 0, 1],
        [0, 0, 0, 0, 0],
    ];
    let report = speeds(&log, 2);
    assert_eq!(ended(&report), (0, None, end, 12));
    assert_eq!(report.fans, expected.map(figures));
    log.extend([0x9C, 0x46, 6, 2, 0x2C, 5]);
    let report = speeds(&log, 2);
    assert_eq!(ended(&report), (15, Some(end + 5), end, 12));
    assert_eq!(report.fans, expected.map(figures));
}

/// No reply is laid, so that none lacks room.
#[test]
fn a_report_over_reads() {
    let log = LOG.repeat(3);
    assert_eq!(ended(&speeds(&log, 4)), (0, None, 54, 9));
    assert_eq!(speeds_into(&log, 4, &mut []), (0, 54, 9));
    assert_eq!(ended(&speeds(&[], 4)), (0, None, 0, 0));
}

#[test]
fn what_cannot_be_read_ends_a_report() {
    let before = log_of(&[power_on(0x2C), sample(5, 2048)]);
    for (bytes, number, fault) in FAULTS {
        let report = speeds(&[&before, bytes].concat(), 2);
        assert_eq!(ended(&report), (number, Some(12 + fault), 12, 2), "{bytes:02X?}");
        assert_eq!(report.fans[4], figures([1, 3840, 3840, 3840, 0]), "{bytes:02X?}");
    }
}

#[test]
fn wrong_poles_are_refused_before_the_log_is_read() {
    for poles in WRONG_POLES {
        for log in [&LOG[..], &[0x9D], &[]] {
            let report = speeds(log, poles);
            assert_eq!(ended(&report), (13, None, 0, 0), "{poles}");
            assert_eq!(report.fans, [Figures::default(); 5], "{poles}");
            let mut figures = [7; 26];
            assert_eq!(speeds_into(log, poles, &mut figures), (13, 0, 0), "{poles}");
            assert_eq!(figures, [[0; 25].as_slice(), &[7]].concat()[..], "{poles}");
        }
    }
    let refusal = speeds(&LOG, 0).stop.expect("a refusal");
    assert_eq!(refusal.reason(), Reason::WrongPoles);
    assert_eq!(refusal.to_string(), "refused with 13, poles out of range");
}

#[test]
fn as_many_figures_as_have_room() {
    let log = log_of(&[power_on(0x2C), sample(1, 2048), sample(5, 0), sample(5, 1024)]);
    let mut all = [0; 25];
    all[..4].copy_from_slice(&[1, 3840, 3840, 3840]); // 7864320 / 2048
    all[20..].copy_from_slice(&[1, 7680, 7680, 7680, 1]); // 7864320 / 1024
    for room in [0, 1, 4, 5, 6, 24, 25, 26, 100] {
        let mut figures = vec![7; room];
        assert_eq!(speeds_into(&log, 2, &mut figures), (0, 26, 4), "{room}");
        let expected: Vec<u64> = all.into_iter().chain([7; 75]).take(room).collect();
        assert_eq!(figures, expected, "{room}");
    }
}

/// 65,535 samples of fan 1, of which one has count 0 and the others 15728640 / 2 = 7864320 with one pole; then another one.
#[test]
fn the_sample_past_65535() {
    let mut log = log_of(&[power_on(0x2C), sample(1, 0)]);
    log.extend(log_of(&[sample(1, 2)]).repeat(65_534));
    let first = figures([65_534, 7_864_320, 7_864_320, 515_380_346_880, 1]);
    let report_with = |events: &[Event]| speeds(&[&log[..], &log_of(events)].concat(), 1);
    let full = (458_750, 65_536); // 5 + 65535 x 7 bytes, and 1 + 65535 records

    let report = report_with(&[]);
    assert_eq!((ended(&report), report.fans[0]), ((0, None, full.0, full.1), first));
    for count in [0, 2, 8191] {
        let report = report_with(&[sample(1, count), sample(2, 2)]);
        assert_eq!((ended(&report), report.fans[0]), ((14, None, full.0, full.1), first));
        assert_eq!(report.fans[1], Figures::default());
    }
    let report = report_with(&[power_on(0x2D), sample(2, 2), sample(1, 2)]);
    assert_eq!(
        (ended(&report), report.fans[0]),
        ((14, None, full.0 + 12, full.1 + 2), first)
    );
    assert_eq!(report.fans[1], figures([1, 7_864_320, 7_864_320, 7_864_320, 0]));
    let refusal = report.stop.expect("a refusal");
    assert_eq!(refusal.reason(), Reason::TooManySamples);
    assert_eq!(refusal.to_string(), "refused with 14, too many samples of a fan");

    let report = speeds(&[&log[..], &[0x9C, 0x46, 0x03, 0x03, 0x01, 0x00, 0x20]].concat(), 1);
    assert_eq!(ended(&report), (9, Some(full.0 + 5), full.0, full.1));
}

/// 65,535 samples of fan 2 with count 0. The next is refused by a part without that fan, and ends the report with another.
#[test]
fn the_sample_past_65535_of_an_absent_fan() {
    let mut log = log_of(&[power_on(0x2C)]);
    log.extend(log_of(&[sample(2, 0)]).repeat(65_535));
    let (full, records) = (log.len(), 65_536);
    log.extend(log_of(&[part(1), sample(2, 0), part(2), sample(2, 0)]));
    let report = speeds(&log, 1);
    assert_eq!(ended(&report), (14, None, full + 6 + 7 + 6, records + 3));
    assert_eq!(report.fans[1], figures([0, 0, 0, 0, 65_535]));
    let report = speeds(&log[..full + 6 + 7], 1);
    assert_eq!(ended(&report), (0, None, full + 6 + 7, records + 2));
}
