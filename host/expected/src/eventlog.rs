//! The cases of the program eventlog_test: reader, writer and range test.

use crate::chance::Chance;
use crate::events::{clock, name, part_on, power_on, sample, send, ticks, wish, words, LARGEST, WRAPPING};
use crate::script::{byte, bytes, code, hex_or, rows, Script};
use model::log::{check, read, write, Event, Fault, MARK};

/// What stands in a lent buffer before the writer is called.
const FILL: u8 = 0xEE;

pub fn script() -> Script {
    let mut script = Script::default();
    reading_cases(&mut script);
    cut_cases(&mut script);
    head_cases(&mut script);
    field_cases(&mut script);
    pair_cases(&mut script);
    edge_cases(&mut script);
    behind_cases(&mut script);
    for record in good_records() {
        again_case(&mut script, &record);
    }
    plain_write_cases(&mut script);
    transfer_write_cases(&mut script);
    pair_write_cases(&mut script);
    part_write_cases(&mut script);
    room_cases(&mut script);
    damaged_cases(&mut script);
    script
}

// ---- the shapes of cases, and their lines ----

/// A transfer's bytes stand after its fields, '?' where they are not within the log.
fn shown(event: &Event, log: &[u8]) -> String {
    let Event::Transfer {
        address, place, length, ..
    } = *event
    else {
        return words(event);
    };
    let sent = place.checked_add(length).and_then(|end| log.get(place..end));
    let sent = sent.map_or("?".into(), |sent| hex_or("-", sent));
    format!("{} {address} at {place} len {length} {sent}", name(event))
}

fn reading(log: &[u8], place: usize) -> String {
    match read(log, place) {
        Ok(Some((event, next))) => format!("0 next {next} {}", shown(&event, log)),
        Ok(None) => "end".into(),
        Err(fault) => refusal(fault),
    }
}

/// A refusal of reading: 'number@place', the place being that of the first faulty byte.
fn refusal(Fault { number, place }: Fault) -> String {
    format!("{number}@{place}")
}

/// What reading the first record answers, without its event: 0, 'end' or a refusal.
fn answer_at_start(log: &[u8]) -> String {
    match read(log, 0) {
        Ok(Some(_)) => "0".into(),
        Ok(None) => "end".into(),
        Err(fault) => refusal(fault),
    }
}

fn read_case(script: &mut Script, log: &[u8], place: usize) {
    let line = format!("read {} at {place}: {}", hex_or("-", log), reading(log, place));
    script.add(b'r', &[&[code(place)], log].concat(), &line);
}

/// Every prefix, the empty one first.
fn cut_case(script: &mut Script, log: &[u8]) {
    let answers: Vec<String> = (0..=log.len()).map(|length| answer_at_start(&log[..length])).collect();
    let line = format!("cut {}: {}", hex_or("-", log), answers.join(" "));
    script.add(b'c', log, &line);
}

/// Every value of one byte: 'v=answer' where the number or the place is not that of the value before.
fn vary_case(script: &mut Script, log: &[u8], at: u8) {
    let mut line = format!("vary {} byte {at}:", hex_or("-", log));
    let (mut varied, mut last) = (log.to_vec(), String::new());
    for value in 0..=255 {
        varied[usize::from(at)] = value;
        let answer = answer_at_start(&varied);
        if answer != last {
            line += &format!(" {value}={answer}");
        }
        last = answer;
    }
    script.add(b'v', &[&[at], log].concat(), &line);
}

/// What the writer answers, the whole lent buffer after it, and what reading it back gives.
fn write_case(script: &mut Script, event: &Event, log: &[u8], room: u8) {
    let mut buffer = vec![FILL; room.into()];
    let range = check(event, log).err().unwrap_or(0);
    let (answer, number) = match write(event, log, &mut buffer) {
        Ok(laid) => ("laid", laid),
        Err(number) => ("refused", number.into()),
    };
    let mut line = format!("write {} room {room}: range {range} ", shown(event, log));
    line += &format!("{answer} {number} {}", hex_or("-", &buffer));
    if answer == "laid" {
        line += &format!(" back {}", reading(&buffer, 0));
    }
    script.add(b'w', &[&[room], &fields(event)[..], log].concat(), &line);
}

/// An event in six bytes: kind, a small field, a count in two, a place, a length. A part's number of fans is the count's low
/// byte. A transfer that reads has 13 for its kind, which is no record's: 7 and those after it are free for kinds to come.
fn fields(event: &Event) -> [u8; 6] {
    match *event {
        Event::PowerOn { address } => [1, address, 0, 0, 0, 0],
        Event::Ticks { count } => [2, 0, count as u8, (count >> 8) as u8, 0, 0],
        Event::Sample { fan, count } => [3, fan, count as u8, (count >> 8) as u8, 0, 0],
        Event::Wish { fan, drive } => [4, fan, drive, 0, 0, 0],
        Event::Transfer {
            address,
            read,
            place,
            length,
        } => [if read { 13 } else { 5 }, address, 0, 0, code(place), code(length)],
        Event::PowerOnPart { address, fans } => [6, address, fans, 0, 0, 0],
    }
}

/// A record that is read and written again.
fn again_case(script: &mut Script, record: &[u8]) {
    let (event, _) = read(record, 0)
        .expect("the record is good")
        .expect("the log has a record");
    let mut buffer = [FILL; 40];
    let laid = write(&event, record, &mut buffer).expect("there is room for a record");
    let (reading, again) = (reading(record, 0), hex_or("-", &buffer[..laid]));
    script.add(b'a', record, &format!("again {reading} laid {laid} {again}"));
}

// ---- the cases ----

/// The log's example in document 01.
const EXAMPLE: &str = "9C46 01 01 2C 9C46 05 03 58 30 80 9C46 05 02 59 01";

/// A head, and a payload of `length` bytes that is in range for every kind as far as the kind looks.
fn headed(head: &str, first: u8, length: usize) -> Vec<u8> {
    let payload = [vec![first, 1], vec![0; 31]].concat();
    [bytes(head), payload[..length].to_vec()].concat()
}

/// A record with its n, whatever its fields are.
fn record(kind: u8, payload: &[u8]) -> Vec<u8> {
    [&[MARK[0], MARK[1], kind, byte(payload.len())], payload].concat()
}

/// A transfer that reads, with an n from 2 on.
fn read_record(n: usize, clocked: u8) -> Vec<u8> {
    record(5, &[vec![0x59, clocked], vec![1; n - 2]].concat())
}

/// The longest record of all.
fn longest_write() -> Vec<u8> {
    [bytes("9C46 05 21 58"), (0..32).collect()].concat()
}

fn good_records() -> Vec<Vec<u8>> {
    let before = rows(
        "9C46 01 01 00, 9C46 01 01 7F, 9C46 02 02 00 00, 9C46 02 02 2C 01, 9C46 02 02 FF FF, 9C46 03 03 01 00 00, \
         9C46 03 03 05 FF 1F, 9C46 04 02 01 00, 9C46 04 02 05 FF, 9C46 05 01 00, 9C46 05 01 FE, 9C46 05 02 58 30",
    );
    let after = rows("9C46 05 02 01 01, 9C46 05 02 FF 20, 9C46 06 02 00 01, 9C46 06 02 2C 02, 9C46 06 02 7F 03");
    [before, vec![longest_write()], after].concat()
}

/// The log that a transfer to be written points into: counts at 0 to 4, then 32 bytes from 5 on.
fn sent() -> Vec<u8> {
    [bytes("00 01 20 21 FF"), (0..32).collect()].concat()
}

fn reading_cases(script: &mut Script) {
    // the document's examples, and its reading order
    for log in
        rows("9C, 9D, 9C46 02 09, 9C46 05 14 58, 9C 47, 46, 9C46 07, 9C46 07 01, 9D46 07 01, 9C46 06, 9C46 06 01")
    {
        read_case(script, &log, 0);
    }
    // places: of each record, within one, at the end, past it
    for place in [0, 5, 12, 1, 17, 18, 19, LARGEST] {
        read_case(script, &bytes(EXAMPLE), place);
    }
    for place in [0, 1, LARGEST] {
        read_case(script, &[], place);
    }
    // a read transfer with n other than 2
    for log in rows("9C46 05 01 59, 9C46 05 02 59 01, 9C46 05 03 59 01 01") {
        read_case(script, &log, 0);
    }
}

fn cut_cases(script: &mut Script) {
    let before = rows(
        "9C46 01 01 2C, 9C46 02 02 2C 01, 9C46 03 03 05 FF 1F, 9C46 04 02 05 FF, 9C46 05 01 58, 9C46 05 03 58 30 80",
    );
    let after = rows("9C46 05 02 59 01, 9C46 06 02 2C 02");
    // records that are refused once enough of them is there
    let refused = rows(
        "9D46 01 01 2C, 9C47 01 01 2C, 9D47 01 01 2C, 9C46 07 01 2C, 9C46 01 02 2C 00, 9C46 01 01 80, \
         9C46 06 01 2C, 9C46 06 02 80 02, 9C46 06 02 80 05, 9C46 06 02 2C 05, 9C46 03 03 00 00 20, 9C46 03 03 01 00 20, 9C46 04 02 06 00, 9C46 05 01 59, 9C46 05 02 59 00, \
         9C46 05 03 59 01 01, 9C46 05 03 59 00 00",
    );
    for record in [before, vec![longest_write()], after, refused].concat() {
        cut_case(script, &record);
    }
}

fn head_cases(script: &mut Script) {
    // mark, kind and n, each over its 256 values
    for (record, at) in [
        ("9C", 0),
        ("9C46", 1),
        ("9C46 02", 2),
        ("9C46 02 09", 2),
        ("9C46 02 02 02 01", 0),
        ("9C46 02 02 02 01", 1),
        ("9C46 02 02 02 01", 2),
    ] {
        vary_case(script, &bytes(record), at);
    }
    for kind in 1..=6 {
        vary_case(script, &headed(&format!("9C46 0{kind} 00"), 2, 33), 3);
    }
    vary_case(script, &headed("9C46 05 00", 3, 33), 3);
    // the same with one payload byte fewer than the longest transfer, and with none
    vary_case(script, &headed("9C46 05 00", 2, 32), 3);
    vary_case(script, &headed("9C46 05 00", 3, 32), 3);
    vary_case(script, &bytes("9C46 05 00"), 3);
    vary_case(script, &bytes("9C46 01 00"), 3);
    vary_case(script, &bytes("9C46 06 00"), 3);
}

fn field_cases(script: &mut Script) {
    for (record, at) in [
        ("9C46 01 01 00", 4),
        ("9C46 02 02 00 00", 4),
        ("9C46 02 02 00 00", 5),
        ("9C46 03 03 01 00 00", 4),
        ("9C46 03 03 01 00 00", 5),
        ("9C46 03 03 01 00 00", 6),
        ("9C46 03 03 01 FF 00", 6),
        ("9C46 04 02 01 00", 4),
        ("9C46 04 02 01 00", 5),
        ("9C46 05 02 58 01", 4),
        ("9C46 05 02 58 01", 5),
        ("9C46 05 02 59 01", 5),
        ("9C46 06 02 00 01", 4),
        ("9C46 06 02 00 01", 5),
        ("9C46 06 02 7F 01", 5),
    ] {
        vary_case(script, &bytes(record), at);
    }
}

/// Two fields at fault in one record, or one of the two: each over its 256 values.
fn pair_cases(script: &mut Script) {
    // fan and count
    for (record, at) in [
        ("9C46 03 03 01 00 20", 4),
        ("9C46 03 03 01 FF FF", 4),
        ("9C46 03 03 00 00 20", 5),
        ("9C46 03 03 01 00 20", 5),
        ("9C46 03 03 01 00 1F", 5),
        ("9C46 03 03 00 00 00", 6),
        ("9C46 03 03 05 00 00", 6),
        ("9C46 03 03 06 FF 00", 6),
        ("9C46 04 02 00 00", 5),
    ] {
        vary_case(script, &bytes(record), at);
    }
    // a part's address and its number of fans
    for fans in [0, 3, 4, 5, 255] {
        vary_case(script, &record(6, &[0, fans]), 4);
    }
    for address in [0x2C, 0x80, 0xFF] {
        vary_case(script, &record(6, &[address, 0]), 5);
    }
    // a read's n and the clocked number
    for n in 2..=33 {
        vary_case(script, &read_record(n, 1), 5);
    }
    for clocked in [0, 32, 33, 255] {
        vary_case(script, &read_record(33, clocked), 3);
        vary_case(script, &read_record(32, clocked), 3);
    }
}

/// Every field on both sides of its edges, with each other field of the record so too.
fn edge_records() -> Vec<Vec<u8>> {
    let mut records: Vec<Vec<u8>> = [0, 127, 128, 255]
        .iter()
        .map(|&address| record(1, &[address]))
        .collect();
    for fan in [0, 1, 5, 6, 255] {
        for [low, high] in [0, 8191, 8192, 8447, 65280, 65535].map(u16::to_le_bytes) {
            records.push(record(3, &[fan, low, high]));
        }
        records.extend([0, 255].map(|drive| record(4, &[fan, drive])));
    }
    for address in [0, 127, 128, 255] {
        records.extend([0, 1, 2, 3, 4, 5, 6, 127, 128, 254, 255].map(|fans| record(6, &[address, fans])));
    }
    records.push(record(5, &[0x59]));
    for clocked in [0, 1, 32, 33, 255] {
        records.extend([2, 3, 4, 32, 33].map(|n| read_record(n, clocked)));
    }
    records
}

fn edge_cases(script: &mut Script) {
    for record in edge_records() {
        read_case(script, &record, 0);
        let before = bytes(EXAMPLE);
        let log = [&before[..], &record, &bytes("9C46 01 01 2C")].concat();
        read_case(script, &log, before.len());
    }
}

/// What is no field, behind other records: the place goes on with theirs.
fn behind_cases(script: &mut Script) {
    for rest in rows(
        "9C, 9C46, 9C46 01, 9C46 06, 9D, 9C47, 9D47, 9C9D 01 01 80, 9C46 00 00, 9C46 07 01 2C, 9C46 01 02 80 00, \
         9C46 06 02, 9C46 06 02 80, 9C46 06 01 80, 9C46 06 03 2C 05 00, 9C46 02 09, 9C46 05 00, 9C46 05 22, 9C46 03 03 00, 9C46 05 14 58, 9C46 05 02 59, 9C46 05 03 59 00",
    ) {
        let before = bytes(EXAMPLE);
        read_case(script, &[&before[..], &rest].concat(), before.len());
    }
}

fn plain_write_cases(script: &mut Script) {
    // every field at its edges, with room past the record
    for address in [0, 127, 128, 255] {
        write_case(script, &power_on(address), &sent(), 8);
    }
    for count in [0, 255, 256, 65535] {
        write_case(script, &ticks(count), &sent(), 9);
    }
    for fan in [0, 1, 5, 6, 255] {
        write_case(script, &sample(fan, 300), &sent(), 10);
    }
    for count in [0, 8191, 8192, 65535] {
        write_case(script, &sample(3, count), &sent(), 10);
    }
    for fan in [0, 1, 5, 6, 255] {
        write_case(script, &wish(fan, 77), &sent(), 9);
    }
    for drive in [0, 255] {
        write_case(script, &wish(2, drive), &sent(), 9);
    }
}

fn transfer_write_cases(script: &mut Script) {
    for address in [0, 127, 128, 255] {
        write_case(script, &send(address, 5, 2), &sent(), 10);
        write_case(script, &clock(address, 1, 1), &sent(), 10);
    }
    // 0, 1, 32 and 33 bytes; bytes that end with the log, and past it; places at which a sum wraps
    for (place, length) in [
        (0, 0),
        (5, 1),
        (5, 32),
        (4, 33),
        (0, 37),
        (36, 1),
        (37, 0),
        (37, 1),
        (38, 0),
        (6, 32),
    ]
    .into_iter()
    .chain(WRAPPING)
    {
        write_case(script, &send(44, place, length), &sent(), 40);
    }
    // the count that a read's one byte holds: 0, 1, 32, 33, 255; other numbers of bytes; places as above
    for (place, length) in [
        (0, 1),
        (1, 1),
        (2, 1),
        (3, 1),
        (4, 1),
        (1, 0),
        (1, 2),
        (1, 32),
        (36, 1),
        (37, 1),
        (37, 0),
        (38, 1),
        (LARGEST, 1),
        (LARGEST, 2),
    ] {
        write_case(script, &clock(44, place, length), &sent(), 9);
    }
}

/// Two fields at fault in one event, or one of the two: the earlier byte's number, whatever the room.
fn pair_write_cases(script: &mut Script) {
    let mut events = Vec::new();
    for fan in [0, 1, 5, 6] {
        events.extend([8191, 8192, 65535].map(|count| sample(fan, count)));
    }
    for address in [127, 128, 255] {
        // over 32 bytes; not wholly within the log
        for (place, length) in [(4, 33), (0, 37), (0, 38), (37, 1), (38, 0), (6, 32), (LARGEST, 2)] {
            events.extend([send, clock].map(|kind| kind(address, place, length)));
        }
        // a read of another number of bytes than one; a clocked number of 0, 33, 255
        events.extend([0, 2, 32, 33].map(|length| clock(address, 1, length)));
        events.extend([0, 3, 4].map(|place| clock(address, place, 1)));
    }
    for event in events {
        write_case(script, &event, &sent(), 40);
        write_case(script, &event, &sent(), 0);
    }
}

/// Every number of fans with addresses on both sides of their edge, whatever the room.
fn part_write_cases(script: &mut Script) {
    for address in [0, 127, 128, 255] {
        for fans in 0..=255 {
            write_case(script, &part_on(address, fans), &[], 8);
        }
        for fans in [0, 1, 3, 4, 5, 255] {
            write_case(script, &part_on(address, fans), &sent(), 0);
        }
    }
}

fn room_cases(script: &mut Script) {
    // one byte too few, exactly enough, none
    for (event, length) in [
        (power_on(44), 5),
        (ticks(300), 6),
        (sample(1, 8191), 7),
        (wish(5, 255), 6),
        (send(44, 5, 0), 5),
        (send(44, 5, 1), 6),
        (send(44, 5, 32), 37),
        (clock(44, 1, 1), 6),
        (part_on(44, 2), 6),
    ] {
        for room in [length - 1, length, 0] {
            write_case(script, &event, &sent(), room);
        }
    }
    // the numbers of the fields before 8
    for event in [
        power_on(128),
        sample(6, 0),
        sample(1, 8192),
        wish(0, 0),
        send(128, 5, 1),
        send(44, 4, 33),
        send(44, 38, 0),
        clock(44, 0, 1),
        part_on(128, 2),
        part_on(44, 5),
    ] {
        write_case(script, &event, &sent(), 0);
    }
    // a transfer without bytes, over an empty log
    write_case(script, &send(44, 0, 0), &[], 8);
    write_case(script, &send(44, 1, 0), &[], 8);
    write_case(script, &clock(44, 0, 1), &[], 8);
}

/// One byte near the front changed, moved by one, taken out or put in.
fn damage(log: &mut Vec<u8>, chance: &Chance) {
    let at: usize = chance.below(log.len().min(8) as u64);
    match chance.below(4) {
        0u8 => log[at] = chance.below(256),
        1 => log[at] = log[at].wrapping_add(chance.among(&[1, 255])),
        2 => drop(log.remove(at)),
        _ => log.insert(at, chance.below(256)),
    }
}

/// Good records, damaged at up to two places, with up to five bytes behind them.
fn damaged_cases(script: &mut Script) {
    let (chance, good) = (Chance::new(2305), good_records());
    for _ in 0..400 {
        let mut log = chance.among(&good);
        for _ in 0..chance.below(3) {
            damage(&mut log, &chance);
        }
        let behind = chance.among(&[0, 0, 1, 5]);
        log.extend(chance.bytes(behind));
        read_case(script, &log, 0);
    }
}
