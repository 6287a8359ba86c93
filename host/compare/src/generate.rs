//! Logs by their seeds: traffic, traffic with damage, traffic cut off, and bytes that are no log.
use crate::chance::Chance;
use crate::traffic::{crowd, traffic, Traffic, MARK};

/// One log in so many is long: the programs read a log through a buffer of 65,536 bytes, and a report takes 65,535 samples
/// a fan.
const LONG_ONE_IN: usize = 350;
const LONG: usize = 150_000;
const BUFFER: usize = 65_536;

/// The log of a seed.
pub fn log(seed: u64) -> Vec<u8> {
    let chance = &mut Chance::new(seed);
    if chance.one_in(LONG_ONE_IN) {
        return match chance.below(6) {
            0 => long(chance),
            1 => over_the_buffer(chance),
            _ => crowd(chance).log,
        };
    }
    match chance.below(20) {
        0 => {
            let count = chance.below(80);
            chance.bytes(count)
        }
        1 => near_records(chance),
        2..=3 => cut_off(chance),
        4..=9 => damaged(chance),
        _ => some_traffic(chance).0,
    }
}

/// Traffic, and where its records start.
fn some_traffic(chance: &mut Chance) -> (Vec<u8>, Vec<usize>) {
    let scenes = chance.below(5);
    let Traffic { log, starts, .. } = traffic(chance, scenes);
    (log, starts)
}

fn long(chance: &mut Chance) -> Vec<u8> {
    let mut log = Vec::new();
    while log.len() < LONG {
        log.extend(some_traffic(chance).0);
    }
    let place = chance.between(LONG / 2, log.len() - 1);
    match chance.below(3) {
        0 => log.truncate(place),
        1 => log[place] ^= 1 << chance.below(8),
        _ => {}
    }
    log
}

/// Idle records, and a short log laid so that the program's buffer ends before it, in it or after it.
fn over_the_buffer(chance: &mut Chance) -> Vec<u8> {
    let last = if chance.one_in(2) {
        near_records(chance)
    } else {
        damaged(chance)
    };
    let idle = [MARK[0], MARK[1], 2, 2, 0, 0];
    let before = BUFFER.saturating_sub(chance.below(last.len() + 12));
    let mut log = idle.repeat(before / idle.len());
    log.extend(last);
    log
}

/// Good marks, and anything after them; some end within the first record.
fn near_records(chance: &mut Chance) -> Vec<u8> {
    let mut log = Vec::new();
    for _ in 0..chance.between(1, 6) {
        let length = chance.below(40);
        log.extend(MARK);
        log.extend([chance.below(9) as u8, chance.below(40) as u8]);
        log.extend(chance.bytes(length));
    }
    if chance.one_in(4) {
        log.truncate(chance.between(1, 8));
    }
    log
}

fn cut_off(chance: &mut Chance) -> Vec<u8> {
    let (mut log, _) = some_traffic(chance);
    let end = chance.between(log.len().saturating_sub(40), log.len());
    log.truncate(end);
    log
}

/// Traffic with one thing wrong; seldom in a place where the run does not come to it.
fn damaged(chance: &mut Chance) -> Vec<u8> {
    let (mut log, starts) = some_traffic(chance);
    if starts.is_empty() {
        return log;
    }
    let at = chance.pick(&starts);
    let byte = chance.byte();
    match chance.below(12) {
        0 => log[at] = byte,
        1 => log[at + 1] = byte,
        2 => log[at + 2] = byte,
        3 => log[at + 3] = byte,
        4 => log[at + 3] = log[at + 3].wrapping_add(chance.pick(&[1, 0xFF])),
        5..=8 => out_of_range(&mut log, at, chance),
        9 => log.insert(chance.between(at, log.len()), byte),
        10 => drop(log.remove(chance.between(at, log.len() - 1))),
        _ => {
            let at = chance.below(log.len());
            log[at] ^= 1 << chance.below(8);
        }
    }
    log
}

/// In place of the record, one of the right layout with a field or two out of their ranges or just within them.
fn out_of_range(log: &mut Vec<u8>, at: usize, chance: &mut Chance) {
    let fan = chance.pick(&[0, 1, 5, 6, 0xFF]);
    let byte = chance.byte();
    let (kind, payload) = match chance.below(8) {
        0 => (1, vec![chance.pick(&[0x7F, 0x80, 0xFF])]),
        1 | 2 => {
            let [low, high] = [chance.pick(&[0x00, 0xFF, byte]), chance.pick(&[0x1F, 0x20, 0xFF])];
            (3, vec![fan, low, high])
        }
        3 => (4, vec![fan, byte]),
        4 | 5 => (6, near_part(chance)),
        _ => (5, near_read(chance)),
    };
    let end = at + 4 + usize::from(log[at + 3]);
    let record = [&[MARK[0], MARK[1], kind, payload.len() as u8], &payload[..]].concat();
    log.splice(at..end, record);
}

/// The payload of a part's power-on, with its address or its number of fans out of range, both, or neither.
fn near_part(chance: &mut Chance) -> Vec<u8> {
    let address = chance.pick(&[0x2C, 0x2C, 0x7F, 0x80, 0xFF]);
    let byte = chance.byte();
    vec![address, chance.pick(&[0, 1, 2, 3, 4, 5, 0xFF, byte])]
}

/// The payload of a read from any address, with n or the clocked number out of range, both, or neither.
fn near_read(chance: &mut Chance) -> Vec<u8> {
    let other = chance.between(3, 33);
    let n = chance.pick(&[1, 2, 2, 3, 33, other]);
    let mut payload = chance.bytes(n);
    payload[0] |= 1;
    if let Some(clocked) = payload.get_mut(1) {
        *clocked = chance.pick(&[0, 1, 32, 33, 0xFF]);
    }
    payload
}
