//! Data bytes in turn: which of them a fan takes, which are stored, what programs it.

use super::bench::{fan, Bench, CLOSED_ON, DIRECT, EVERY_OFFSET, RAMPING};
use super::traffic::any_byte;
use super::{CLOSED, OPEN, PLAIN};
use crate::chance::Chance;
use model::chip::{CONFIGURATION_1, SETTING, TARGET_HIGH, UNDEFINED};

/// More bytes than a fan has registers.
const LONG: [u8; 20] = [
    0x80, 0x01, OPEN, PLAIN, 0x44, 0x2A, 0x11, 0x07, 0x66, 0xF0, 0x0A, 0x0B, 0xC0, 0x20, 0xEE, 0xFF, 0x90, 0x91, 0x92,
    0x93,
];

pub fn cases(bench: &mut Bench) {
    bench.title("a block from each offset on: it ends with the last register");
    for offset in EVERY_OFFSET {
        bench.reset();
        bench.block(offset, false, &LONG);
        bench.registers();
    }
    bench.title("a block of each length, and of none");
    for length in 0..=LONG.len() {
        bench.reset();
        bench.block(SETTING, false, &LONG[..length]);
        bench.registers();
    }
    locked(bench);
    programs(bench);
    any(bench);
}

fn locked(bench: &mut Bench) {
    bench.title("locked: 3 and 5 to B store nothing, the others as ever");
    for changes in [DIRECT, RAMPING, CLOSED_ON] {
        bench.load(fan(changes).drive(77).wish(99));
        bench.block(SETTING, true, &LONG);
        bench.registers();
        bench.block(SETTING, false, &LONG);
        bench.registers();
    }
}

fn programs(bench: &mut Bench) {
    bench.title(
        "Setting programs a fan where it is stored, Configuration 1 where the byte has bit 7; nothing else does",
    );
    for lock in [false, true] {
        for changes in [DIRECT, CLOSED_ON] {
            bench.load(fan(changes).drive(77));
            bench.block(SETTING, lock, &[0x00]);
            bench.block(SETTING, lock, &[0x40, 0x01]);
            bench.block(CONFIGURATION_1, lock, &[OPEN]);
            bench.block(CONFIGURATION_1, lock, &[CLOSED, PLAIN]);
            bench.block(CONFIGURATION_1 + 1, lock, &[0xFF; 13]);
            bench.block(SETTING, lock, &[0x40, 0x01, CLOSED]);
            bench.block(SETTING, lock, &[0x40, 0x01, OPEN]);
            bench.block(UNDEFINED, lock, &[0x80]);
        }
    }
    bench.title(
        "within a block each byte meets what the ones before it left: the loop turned on takes the drive as wish",
    );
    bench.load(fan(DIRECT).set(TARGET_HIGH, 0x10));
    bench.block(SETTING, false, &[0x90, 0x01, CLOSED, PLAIN, 0x00, 0x2A, 0x19]);
    bench.block(TARGET_HIGH, false, &[0xFF]);
}

fn any(bench: &mut Bench) {
    bench.title("blocks of likely and of any bytes, locked or not, from any state");
    let chance = Chance::new(29);
    bench.reset();
    for turn in 0..150usize {
        if turn % 25 == 0 {
            bench.reset();
        }
        let first = chance.among(&[chance.below(16), chance.below(16), chance.among(&EVERY_OFFSET)]);
        let length: usize = chance.below(18);
        let bytes: Vec<u8> = (first..first + length)
            .map(|offset| any_byte(&chance, offset))
            .collect();
        bench.block(first, chance.one_in(3), &bytes);
        bench.ticks(chance.among(&[0, 1, chance.below(60)]));
    }
}
