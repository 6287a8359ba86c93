//! The logs that the benchmark measures.
use crate::chance::Chance;
use crate::traffic::{traffic, FANS, MARK};
use model::log::Event;

/// A log, with how many records and ticks it has.
pub struct Measured {
    pub name: &'static str,
    pub log: Vec<u8>,
    pub records: u64,
    pub ticks: u64,
}

impl Measured {
    fn new(name: &'static str, log: Vec<u8>) -> Measured {
        let (mut place, mut records, mut ticks) = (0, 0, 0);
        while let Ok(Some((event, next))) = model::log::read(&log, place) {
            if let Event::Ticks { count } = event {
                ticks += u64::from(count);
            }
            records += 1;
            place = next;
        }
        assert_eq!(place, log.len(), "every record is good");
        Measured {
            name,
            log,
            records,
            ticks,
        }
    }
}

const ADDRESS: u8 = 0x2C;

fn record(log: &mut Vec<u8>, kind: u8, payload: &[u8]) {
    log.extend(MARK);
    log.extend([kind, payload.len() as u8]);
    log.extend(payload);
}

fn ticks(log: &mut Vec<u8>, count: u16) {
    record(log, 2, &count.to_le_bytes());
}

fn write(log: &mut Vec<u8>, bytes: &[u8]) {
    record(log, 5, &[&[ADDRESS * 2], bytes].concat());
}

fn powered() -> Vec<u8> {
    let mut log = Vec::new();
    record(&mut log, 1, &[ADDRESS]);
    log
}

/// Every fan under ramp control with a step of 1, up and down between 1 and 255, so many times.
pub fn ticking(turns: usize) -> Measured {
    let mut log = powered();
    for fan in 0..FANS as u8 {
        let base = 0x30 + 0x10 * fan;
        write(&mut log, &[base, 0x80]);
        write(&mut log, &[base + 7, 0x01]);
        write(&mut log, &[base + 3, 0x68]);
        write(&mut log, &[base + 2, 0x28 + fan]);
    }
    for turn in 0..turns {
        let goal = if turn % 2 == 0 { 255 } else { 1 };
        (0..FANS as u8).for_each(|fan| write(&mut log, &[0x30 + 0x10 * fan, goal]));
        ticks(&mut log, 2_000);
    }
    Measured::new("ticks, five fans ramping", log)
}

/// Block reads and block writes over the whole map, so many of each.
pub fn transferring(transfers: usize) -> Measured {
    let mut chance = Chance::new(7);
    let mut log = powered();
    for _ in 0..transfers {
        let count = chance.between(2, 31);
        let pointer = chance.byte();
        write(&mut log, &[&[pointer][..], &chance.bytes(count)].concat());
        record(&mut log, 5, &[ADDRESS * 2 + 1, 32]);
    }
    Measured::new("block transfers", log)
}

/// Block writes of any bytes to the fans' registers, so many: 2 to 32 bytes sent, the first from 30h to 7Fh.
pub fn fan_writes(transfers: usize) -> Measured {
    let mut chance = Chance::new(13);
    let mut log = powered();
    for _ in 0..transfers {
        let count = chance.between(1, 31);
        let pointer = chance.between(0x30, 0x7F) as u8;
        write(&mut log, &[&[pointer][..], &chance.bytes(count)].concat());
    }
    Measured::new("block writes to fans", log)
}

/// Reads of 1 to 32 bytes from any address, so many, each after a write that sets the pointer alone.
pub fn reads(transfers: usize) -> Measured {
    let mut chance = Chance::new(17);
    let mut log = powered();
    for _ in 0..transfers {
        write(&mut log, &[chance.byte()]);
        record(&mut log, 5, &[ADDRESS * 2 + 1, chance.between(1, 32) as u8]);
    }
    Measured::new("reads from any address", log)
}

fn sample(log: &mut Vec<u8>, fan: usize, count: usize) {
    let [low, high] = (count as u16).to_le_bytes();
    record(log, 3, &[fan as u8 + 1, low, high]);
}

/// Samples of the five fans in turn, so many of each, with any count.
pub fn samples(each: usize) -> Measured {
    let mut chance = Chance::new(19);
    let mut log = powered();
    for _ in 0..each {
        (0..FANS).for_each(|fan| sample(&mut log, fan, chance.below(8_192)));
    }
    Measured::new("samples alone", log)
}

/// So many samples of each fan, and with each a look at its reading and a write to its Configuration 1.
pub fn sampled_transfers(each: usize) -> Measured {
    let mut chance = Chance::new(23);
    let mut log = powered();
    for _ in 0..each {
        for fan in 0..FANS {
            let base = 0x30 + 0x10 * fan as u8;
            sample(&mut log, fan, chance.below(8_192));
            write(&mut log, &[base + 0xE]);
            record(&mut log, 5, &[ADDRESS * 2 + 1, 2]);
            write(&mut log, &[base + 2, chance.byte() & 0x7F]);
        }
    }
    Measured::new("samples among transfers", log)
}

/// Traffic of every kind, of about so many bytes.
pub fn mixed(bytes: usize) -> Measured {
    let mut chance = Chance::new(11);
    let mut log = Vec::new();
    while log.len() < bytes {
        log.extend(traffic(&mut chance, 4).log);
    }
    Measured::new("mixed traffic", log)
}

/// Single ticks, one a record.
pub fn short_ticks(count: usize) -> Measured {
    let mut log = powered();
    (0..count).for_each(|_| ticks(&mut log, 1));
    Measured::new("single ticks", log)
}
