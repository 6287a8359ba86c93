//! Logs for the C library and for the replay program: some written out, some that look random.

use crate::chance::Chance;
use crate::emc2305::traffic::{any_register, any_sent, mostly};
use crate::emc2305::{at, CONFIGURATION, FANS, HOME, IDENTITY, STALL, STATUS};
use crate::events::{self, record};
use crate::script::{bytes, rows};
use model::chip::SETTING;
use model::log::MARK;

// ---- records ----

pub fn power_on() -> Vec<u8> {
    power_on_at(HOME)
}

pub fn power_on_at(address: u8) -> Vec<u8> {
    record(&events::power_on(address), &[])
}

/// A part with so many fans.
pub fn part_on(fans: u8) -> Vec<u8> {
    record(&events::part_on(HOME, fans), &[])
}

pub fn ticks(count: u16) -> Vec<u8> {
    record(&events::ticks(count), &[])
}

pub fn sample(fan: u8, count: u16) -> Vec<u8> {
    record(&events::sample(fan, count), &[])
}

pub fn wish(fan: u8, drive: u8) -> Vec<u8> {
    record(&events::wish(fan, drive), &[])
}

pub fn send(sent: &[u8]) -> Vec<u8> {
    send_to(HOME, sent)
}

pub fn send_to(address: u8, sent: &[u8]) -> Vec<u8> {
    record(&events::send(address, 0, sent.len()), sent)
}

pub fn clock(count: u8) -> Vec<u8> {
    clock_at(HOME, count)
}

pub fn clock_at(address: u8, count: u8) -> Vec<u8> {
    record(&events::clock(address, 0, 1), &[count])
}

// ---- logs that are written out ----

/// Document 01's example.
pub fn example() -> Vec<u8> {
    bytes("9C 46 01 01 2C 9C 46 05 03 58 30 80 9C 46 05 02 59 01")
}

/// Each kind of record, block reads and writes, 6 and 7 among them.
pub fn short() -> Vec<u8> {
    [
        ticks(1),
        power_on(),
        send(&[at(1, SETTING), 0x80, 2]),
        send(&[at(1, SETTING)]),
        clock(4),
        sample(5, 8191),
        wish(2, 255),
        clock_at(HOME + 1, 2),
        send(&[]),
    ]
    .concat()
}

/// What stops a run, by its number; what gives 1 has to end the log.
pub fn endings() -> Vec<(u8, Vec<Vec<u8>>)> {
    [head_endings(), field_endings()].concat()
}

/// A head, and so many bytes 01 behind it.
fn ones(head: &str, count: usize) -> Vec<Vec<u8>> {
    vec![[bytes(head), vec![1; count]].concat()]
}

/// Endings by the log's end, the mark, the kind and the length.
fn head_endings() -> Vec<(u8, Vec<Vec<u8>>)> {
    let cut = rows(
        "9C, 9C46, 9C46 01, 9C46 07, 9C46 01 01, 9C46 06 02, 9C46 06 02 80, 9C46 02 02, 9C46 02 02 2C, 9C46 03 03 00 FF, 9C46 04 02 06, \
         9C46 05 01, 9C46 05 14 58, 9C46 05 02 59, 9C46 05 03 59 00, 9C46 05 21",
    );
    let marks = rows(
        "9D, 00, 46, FF, 9C47, 9D46, 469C, 9C9C, 9D46 01 01 2C, 9C47 01 01 2C, 9C9C 46 01 01 2C, 9D46 07 00, 9C47 01",
    );
    let kinds = rows(
        "9C46 00 00, 9C46 00 01 2C, 9C46 07 00, 9C46 07 02 2C 02, 9C46 07 FF, 9C46 FF 00, 9C46 9C 46, 9C46 81 01 2C",
    );
    let lengths = rows(
        "9C46 01 00, 9C46 01 02 2C 00, 9C46 01 FF, 9C46 02 01 00, 9C46 02 03 00 00 00, 9C46 02 09, 9C46 03 02 01 00, \
         9C46 03 04 01 00 00 00, 9C46 04 01 01, 9C46 04 03 01 00 00, 9C46 06 00, 9C46 06 01 80, 9C46 06 03 2C 02 00, 9C46 05 00",
    );
    let after_lengths = rows("9C46 05 22, 9C46 05 FF 59 01");
    vec![
        (1, [cut, ones("9C46 05 21 58", 31)].concat()),
        (2, marks),
        (3, kinds),
        (4, [lengths, ones("9C46 05 22 58", 33), after_lengths].concat()),
    ]
}

/// Endings by each field, alone and two at once; reads are to the chip's address and to another one.
fn field_endings() -> Vec<(u8, Vec<Vec<u8>>)> {
    let fans = rows(
        "9C46 03 03 00 00 00, 9C46 03 03 06 00 00, 9C46 03 03 FF FF 1F, 9C46 03 03 00 00 20, 9C46 03 03 06 FF FF, \
         9C46 03 03 FF FF FF, 9C46 04 02 00 00, 9C46 04 02 06 FF, 9C46 04 02 FF 80",
    );
    let counts = rows("9C46 03 03 01 00 20, 9C46 03 03 03 01 20, 9C46 03 03 05 FF FF, 9C46 03 03 02 00 80");
    let addresses = rows("9C46 01 01 FF, 9C46 01 01 AC, 9C46 06 02 80 02, 9C46 06 02 FF 05, 9C46 01 01 80");
    let numbers = rows("9C46 06 02 2C 00, 9C46 06 02 7F FF, 9C46 06 02 00 04, 9C46 06 02 2C 05");
    let reads = rows(
        "9C46 05 01 59, 9C46 05 01 FF, 9C46 05 03 59 01 01, 9C46 05 03 59 00 00, 9C46 05 04 5B 21 01 01, \
         9C46 05 02 59 00, 9C46 05 02 59 21, 9C46 05 02 59 FF, 9C46 05 02 5B 00",
    );
    vec![
        (5, fans),
        (9, counts),
        (10, addresses),
        (11, [ones("9C46 05 21 59", 32), reads].concat()),
        (15, numbers),
    ]
}

/// Each stop behind some records and before others: its number and the log.
pub fn stops(before: &[u8], after: &[u8]) -> Vec<(u8, Vec<u8>)> {
    let mut logs = Vec::new();
    for (number, endings) in endings() {
        let after = if number == 1 { &[] } else { after };
        logs.extend(endings.iter().map(|ending| (number, [before, ending, after].concat())));
    }
    logs
}

/// Every prefix of a log.
pub fn truncations(log: &[u8]) -> impl Iterator<Item = &[u8]> {
    (0..=log.len()).map(|length| &log[..length])
}

/// Every kind before power-on, to several addresses.
pub fn unpowered() -> Vec<u8> {
    [
        ticks(0),
        ticks(65535),
        sample(1, 0),
        wish(5, 9),
        send(&[]),
        send(&[0x30, 0x80]),
        clock(1),
        clock(32),
        clock_at(0, 32),
        send_to(127, &[0x30, 1]),
    ]
    .concat()
}

/// Transfers to several addresses in turn, each of which is the chip's once; the last one is refused.
pub fn other_addresses() -> Vec<u8> {
    const ADDRESSES: [u8; 5] = [0, 1, HOME, 126, 127];
    let mut log = Vec::new();
    for own in ADDRESSES {
        log.extend(power_on_at(own));
        for address in ADDRESSES {
            log.extend(send_to(address, &[0xFD]));
            log.extend(clock_at(address, 2));
            log.extend(send_to(address, &[0x2A, own, address]));
            log.extend(send_to(own, &[0x2A]));
            log.extend(clock_at(own, 2));
        }
    }
    log.extend(clock_at(0, 1));
    log
}

/// Power-on, and all registers in blocks of every length.
pub fn sweep() -> Vec<u8> {
    let mut log = power_on();
    for count in 1..=32 {
        log.extend(send(&[7 * count]));
        log.extend(clock(count));
    }
    log.extend(send(&[0]));
    log.extend(clock(32).repeat(8));
    log
}

/// Each part in turn, and kind 1 between them: all registers, samples and wishes for every fan, writes to every Setting, the
/// status bits, and the watch.
pub fn parts() -> Vec<u8> {
    let mut log = Vec::new();
    for start in [part_on(2), power_on(), part_on(1), part_on(3), part_on(2)] {
        log.extend(start);
        log.extend(send(&[0x24]));
        for fan in FANS {
            log.extend(sample(fan, 100 * u16::from(fan)));
            log.extend(wish(fan, 9));
            log.extend(send(&[at(fan, SETTING), 0x80]));
        }
        log.extend(ticks(40));
        log.extend(FANS.map(|fan| sample(fan, 8191)).concat());
        log.extend(clock(32).repeat(4));
        log.extend(send(&[CONFIGURATION, 0x60]));
        log.extend(ticks(320));
        log.extend(clock(32).repeat(8));
    }
    log
}

// ---- logs that look random ----

fn any_address(chance: &Chance) -> u8 {
    chance.among(&mostly(14, HOME, &[HOME + 1, chance.below(128)]))
}

/// Mostly after the pointer was set, and often over the status registers.
fn any_clock(chance: &Chance) -> Vec<u8> {
    let address = any_address(chance);
    let count = chance.among(&[1, 1, 1, 2, 2, 3, 4, 16, 1 + chance.below::<u8>(32), 32]);
    let pointer = chance.among(&[STATUS, STATUS, STALL, IDENTITY[0], 0x30, any_register(chance)]);
    let mut log = Vec::new();
    if !chance.one_in(4) {
        log.extend(send_to(address, &[pointer]));
    }
    log.extend(clock_at(address, count));
    log
}

/// Few, what ends a spin-up or an update, or enough for the watch.
fn any_ticks(chance: &Chance) -> Vec<u8> {
    let mut counts = vec![0, 1, 8, 20, 40];
    counts.extend((0..8).map(|_| chance.below::<u16>(60)));
    counts.extend([chance.below(200), 319, 320]);
    ticks(chance.among(&counts))
}

/// Around the default threshold, or any count.
fn any_sample(chance: &Chance) -> Vec<u8> {
    let counts = |chance: &Chance| chance.among(&[100, 7871, 7872, 8191, chance.below(8192)]);
    sample(chance.among(&FANS), counts(chance))
}

/// One event, or a pointer set and a read.
fn any_record(chance: &Chance) -> Vec<u8> {
    match chance.below(100) {
        0u8..40 => {
            let sent = any_sent(chance);
            send_to(any_address(chance), &sent)
        }
        40..66 => any_clock(chance),
        66..82 => any_ticks(chance),
        82..90 => any_sample(chance),
        90..96 => wish(chance.among(&FANS), chance.below(256)),
        96 => part_on(chance.among(&[1, 2, 3])),
        _ => power_on_at(chance.among(&[HOME, HOME, chance.below(128)])),
    }
}

fn any_records(chance: &Chance, count: usize) -> Vec<u8> {
    (0..count).flat_map(|_| any_record(chance)).collect()
}

/// Valid events, at times some before power-on, at times with the continuous watch.
pub fn traffic(chance: &Chance, count: usize) -> Vec<u8> {
    let early = any_records(chance, chance.among(&[0, 0, 1, 3]));
    let started = [any_sample(chance), send(&[at(1, SETTING), 0x80])].concat();
    let begun = chance.among(&[vec![], send(&[CONFIGURATION, 0x60]), started]);
    [early, power_on(), begun, any_records(chance, count)].concat()
}

/// The head of a record.
fn head(kind: u8, length: u8) -> Vec<u8> {
    vec![MARK[0], MARK[1], kind, length]
}

/// Bytes with marks, whole heads and whole records among them, from a record on.
pub fn sprinkled(chance: &Chance, length: usize) -> Vec<u8> {
    let mut log = power_on();
    while log.len() < length {
        let kind = chance.below(8);
        let n = chance.among(&[0, 1, 2, 3, chance.below(40)]);
        let head = head(kind, n);
        let whole = any_record(chance);
        let others = [
            [head.clone(), chance.bytes(n.into())].concat(),
            head,
            MARK.to_vec(),
            MARK[..1].to_vec(),
            chance.bytes(chance.below(4)),
        ];
        log.extend(chance.among(&mostly(6, whole, &others)));
    }
    log
}

/// Traffic with one byte set to any value.
fn damaged(chance: &Chance, count: usize) -> Vec<u8> {
    let mut log = traffic(chance, count);
    let value = chance.below(256);
    let at: usize = chance.below(log.len() as u64);
    log[at] = value;
    log
}

/// The logs that are written out.
pub fn written_logs() -> Vec<Vec<u8>> {
    let mut logs = vec![
        example(),
        vec![],
        short(),
        unpowered(),
        other_addresses(),
        sweep(),
        parts(),
        [power_on(), send(&[CONFIGURATION, 0x60]), ticks(65535), clock(32)].concat(),
    ];
    for before in [vec![], power_on(), example(), unpowered()] {
        logs.extend(stops(&before, &example()).into_iter().map(|(_, log)| log));
    }
    logs
}

/// So many logs of each sort that looks random, each with a name.
pub fn random_logs(seed: u64, count: usize) -> Vec<(String, Vec<u8>)> {
    let (chance, mut logs) = (Chance::new(seed), Vec::new());
    for turn in 0..count {
        let mut add = |sort: &str, log: Vec<u8>| logs.push((format!("{sort} {turn}"), log));
        add("traffic", traffic(&chance, 5 + chance.below::<usize>(40)));
        add("damaged", damaged(&chance, 1 + chance.below::<usize>(12)));
        add("sprinkled", sprinkled(&chance, chance.below(120)));
        add("noise", chance.bytes(chance.below(24)));
        let head = head(1 + chance.below::<u8>(6), chance.among(&[1, 2, 2, 3, chance.below(36)]));
        let behind = chance.bytes(chance.among(&[1, 2, 3, 33, chance.below(40)]));
        add("noise behind a head", [head, behind].concat());
    }
    logs
}
