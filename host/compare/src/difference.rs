//! Whether a subject answers as the independent model does, for one log.
use crate::chance::Chance;
use crate::subject::{Independent, Subject};
use cobblehard::{Event, LONGEST_RECORD};
use std::fmt::{Arguments, Debug};

/// Entries around every lent buffer, which nobody may touch.
const MARGIN: usize = 8;

/// What differs, in words; none where nothing does.
pub fn difference(subject: &dyn Subject, log: &[u8]) -> Option<String> {
    runs(subject, log)
        .or_else(|| readings(subject, log))
        .or_else(|| writings(subject, log))
        .or_else(|| reports(subject, log))
        .or_else(|| lists(subject, log))
        .or_else(|| report_lines(subject, log))
}

/// A buffer of a length, within margins, each entry of which tells its place.
fn buffer<N: From<u8>>(length: usize) -> Vec<N> {
    (0..length + 2 * MARGIN).map(|i| N::from((i * 7 + 3) as u8)).collect()
}

/// Lends the middle of such a buffer; gives what was answered, and the buffer with its margins.
fn lent<N: From<u8>, T>(length: usize, call: impl FnOnce(&mut [N]) -> T) -> (T, Vec<N>) {
    let mut whole = buffer(length);
    let answer = call(&mut whole[MARGIN..MARGIN + length]);
    (answer, whole)
}

fn differs(what: Arguments, [expected, got]: [String; 2]) -> String {
    format!("{what}\n  independent model: {expected}\n  compared:          {got}")
}

/// Bytes are shown in hex.
fn unequal<T: PartialEq + Debug>(what: Arguments, expected: T, got: T) -> Option<String> {
    (expected != got).then(|| differs(what, [expected, got].map(|side| format!("{side:X?}"))))
}

/// Numbers are shown in decimal.
fn unequal_numbers<T: PartialEq + Debug>(what: Arguments, expected: T, got: T) -> Option<String> {
    (expected != got).then(|| differs(what, [expected, got].map(|side| format!("{side:?}"))))
}

/// The four numbers, the place of the fault and the whole buffer, with room for all replies and more, just enough, too
/// little and none.
fn runs(subject: &dyn Subject, log: &[u8]) -> Option<String> {
    let all = all_replies(log);
    let mut rooms = vec![all + 33, all, 0];
    if all > 0 {
        rooms.extend([all - 1, Chance::new(log.len() as u64).below(all)]);
    }
    rooms.into_iter().find_map(|room| run_in(subject, log, room))
}

fn run_in(subject: &dyn Subject, log: &[u8], room: usize) -> Option<String> {
    let (expected, whole_expected) = lent(room, |replies| Independent.run(log, replies));
    let (got, whole_got) = lent(room, |replies| subject.run(log, replies));
    unequal(format_args!("a run with room for {room} bytes"), expected, got).or_else(|| {
        unequal(
            format_args!("the replies in a buffer of {room} bytes"),
            whole_expected,
            whole_got,
        )
    })
}

/// How many reply bytes the log has.
fn all_replies(log: &[u8]) -> usize {
    let outcome = Independent.run(log, &mut vec![0; cobblehard::replies_room(log.len())]);
    outcome.run.reply_bytes
}

/// The places to read at: those of the records, some between them, and past the end.
fn places(log: &[u8]) -> Vec<usize> {
    let mut places = record_places(log);
    let mut chance = Chance::new(log.len() as u64);
    places.extend((0..8).map(|_| chance.below(log.len() + 3)));
    places.extend([log.len(), log.len() + 1, usize::MAX]);
    places
}

/// Where the records of a log start, as far as they can be read, and where that ends.
pub fn record_places(log: &[u8]) -> Vec<usize> {
    let mut places = vec![0];
    let mut place = 0;
    while let Ok(Some((_, next))) = model::log::read(log, place) {
        place = next;
        places.push(place);
    }
    places
}

fn readings(subject: &dyn Subject, log: &[u8]) -> Option<String> {
    places(log).into_iter().find_map(|place| {
        unequal(
            format_args!("reading at {place}"),
            Independent.read(log, place),
            subject.read(log, place),
        )
    })
}

/// Writes the events of the log again, and others that may be out of range, with room enough, just enough and too little.
fn writings(subject: &dyn Subject, log: &[u8]) -> Option<String> {
    let mut chance = Chance::new(log.len() as u64 + 1);
    let read = |place: usize| Independent.read(log, place).ok().flatten();
    let events = places(log).into_iter().filter_map(read).map(|(event, _)| event);
    let others: Vec<Vec<u8>> = (0..4).map(|_| any_length(&mut chance)).collect();
    let others: Vec<Event> = others.iter().map(|bytes| any_event(&mut chance, bytes)).collect();
    events
        .chain(others)
        .find_map(|event| written(subject, &event, chance.below(LONGEST_RECORD)))
}

fn written(subject: &dyn Subject, event: &Event, other_room: usize) -> Option<String> {
    let length = Independent.write(event, &mut [0; LONGEST_RECORD]).unwrap_or(other_room);
    [LONGEST_RECORD + 3, length, length.saturating_sub(1), other_room]
        .into_iter()
        .find_map(|room| {
            let expected = lent(room, |out| Independent.write(event, out));
            let got = lent(room, |out| subject.write(event, out));
            unequal(
                format_args!("writing {event:X?} with room for {room} bytes"),
                expected,
                got,
            )
        })
}

fn any_length(chance: &mut Chance) -> Vec<u8> {
    let length = chance.pick(&[0, 1, 31, 32, 33, 40]);
    chance.bytes(length)
}

fn any_event<'a>(chance: &mut Chance, bytes: &'a [u8]) -> Event<'a> {
    let address = chance.pick(&[0, 0x2C, 0x7F, 0x80, 0xFF]);
    let fan = chance.pick(&[0, 1, 5, 6, 0xFF]);
    match chance.below(7) {
        0 => Event::PowerOn { address },
        1 => Event::Ticks {
            count: chance.number() as u16,
        },
        2 => Event::Sample {
            fan,
            count: chance.pick(&[0, 8191, 8192, 0xFFFF]),
        },
        3 => Event::Wish {
            fan,
            drive: chance.byte(),
        },
        4 => Event::Write { address, bytes },
        5 => Event::PowerOnPart {
            address,
            fans: chance.pick(&[0, 1, 2, 3, 4, 5, 0xFF]),
        },
        _ => Event::Read {
            address,
            count: chance.pick(&[0, 1, 32, 33, 0xFF]),
        },
    }
}

/// How many entries the lent slices of figures have, most often as many as there are figures.
const ENTRIES: [usize; 12] = [25, 25, 25, 25, 25, 40, 26, 24, 20, 7, 1, 0];
/// Poles of no fan, some of which end like others.
const WRONG_POLES: [u64; 6] = [0, 5, 6, 1 << 32 | 2, 1 << 63 | 1, u64::MAX];
/// What is no argument of the program; more are tried by tests/speeds_test.py.
const WRONG_ARGUMENTS: [&str; 6] = ["0", "5", "01", " 1", "", "12"];

/// The report for every number of poles and at times a wrong one, in slices of different lengths.
fn reports(subject: &dyn Subject, log: &[u8]) -> Option<String> {
    let mut chance = Chance::new(log.len() as u64 + 2);
    let wrong = chance.one_in(8).then(|| chance.pick(&WRONG_POLES));
    (1..=4)
        .chain(wrong)
        .find_map(|poles| reported(subject, log, poles, chance.pick(&ENTRIES)))
}

fn reported(subject: &dyn Subject, log: &[u8], poles: u64, entries: usize) -> Option<String> {
    let (expected, whole_expected) = lent(entries, |figures| Independent.speeds(log, poles, figures));
    let (got, whole_got) = lent(entries, |figures| subject.speeds(log, poles, figures));
    unequal_numbers(
        format_args!("the report for {poles} poles, number, place and records"),
        expected,
        got,
    )
    .or_else(|| {
        unequal_numbers(
            format_args!("the report for {poles} poles, figures in a slice of {entries}"),
            whole_expected,
            whole_got,
        )
    })
}

fn lists(subject: &dyn Subject, log: &[u8]) -> Option<String> {
    lines("the listing", Independent.list(log), subject.list(log))
}

/// For one number of poles, or now and then what is none.
fn report_lines(subject: &dyn Subject, log: &[u8]) -> Option<String> {
    let mut chance = Chance::new(log.len() as u64 + 3);
    let poles = if chance.one_in(16) {
        chance.pick(&WRONG_ARGUMENTS)
    } else {
        chance.pick(&["1", "2", "3", "4"])
    };
    let what = format!("the lines of the report for {poles:?}");
    lines(&what, Independent.report(log, poles), subject.report(log, poles))
}

/// The first line that differs.
fn lines(what: &str, expected: Result<Vec<u8>, String>, got: Result<Vec<u8>, String>) -> Option<String> {
    let expected = expected.expect("the model lists every log");
    let got = match got {
        Ok(got) if got == expected => return None,
        Ok(got) => got,
        Err(error) => return Some(format!("not {what}: {error}")),
    };
    let (expected, got) = (String::from_utf8_lossy(&expected), String::from_utf8_lossy(&got));
    let line = expected.lines().zip(got.lines()).take_while(|(a, b)| a == b).count();
    let [expected, got] = [expected, got].map(|lines| lines.lines().nth(line).unwrap_or("(no line)").to_owned());
    unequal(format_args!("line {} of {what}", line + 1), expected, got).or(Some(format!("{what}, its last line end")))
}
