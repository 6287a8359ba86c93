//! Mixed traffic, from power-on and from any state; and what a likely byte for a register is.

use super::bench::{fan, Bench, EVERY_OFFSET};
use crate::chance::Chance;
use model::chip::{
    CONFIGURATION_1, CONFIGURATION_2, MAX_STEP, MINIMUM_DRIVE, SETTING, SPIN_UP, TARGET_HIGH, VALID_COUNT,
};

/// The registers that rules speak of.
pub const OFTEN: [usize; 11] = [
    SETTING,
    SETTING,
    CONFIGURATION_1,
    CONFIGURATION_1,
    CONFIGURATION_2,
    SPIN_UP,
    MAX_STEP,
    MINIMUM_DRIVE,
    VALID_COUNT,
    TARGET_HIGH,
    TARGET_HIGH,
];

/// The bytes that rules speak of, by register.
fn likely(offset: usize) -> &'static [u8] {
    match offset {
        SETTING => &[0, 0, 0x80, 0xFF],
        CONFIGURATION_1 => &[0x2B, 0xAB, 0x28, 0xA8, 0x80],
        CONFIGURATION_2 => &[0x28, 0x68],
        MAX_STEP => &[0, 0x10, 0x3F],
        MINIMUM_DRIVE => &[0, 0, 0x66],
        VALID_COUNT => &[0, 0x80, 0xF5, 0xFF],
        TARGET_HIGH => &[0xFF, 0x10],
        _ => &[],
    }
}

/// A byte for a register: one that a rule speaks of, or any.
pub fn any_byte(chance: &Chance, offset: usize) -> u8 {
    let any = [chance.below(256), chance.below(256)];
    chance.among(&[likely(offset), &any].concat())
}

fn any_write(bench: &mut Bench, chance: &Chance) {
    let offset = chance.among(&[chance.among(&OFTEN), chance.among(&OFTEN), chance.among(&EVERY_OFFSET)]);
    bench.write(offset, any_byte(chance, offset));
}

/// Around the threshold, or any count.
fn any_sample(bench: &mut Bench, chance: &Chance) {
    let edge = u16::from(bench.state.fan.registers[VALID_COUNT]) * 32 + 31;
    let count = chance.among(&[edge, edge + 1, chance.below(8192), 8191, chance.below(65536)]);
    bench.sample_with(count, chance.one_in(4));
}

/// A part of what runs, all of it, or any number.
fn any_ticks(bench: &mut Bench, chance: &Chance) {
    let fan = &bench.state.fan;
    let end = fan.spin_up.map_or(fan.period(), |spin_up| spin_up.length);
    bench.ticks(chance.among(&[1, end / 4, end, chance.below(60), chance.below(60)]));
}

fn any_command(bench: &mut Bench, chance: &Chance) {
    match chance.below(18) {
        0u8..6 => any_write(bench, chance),
        6..11 => any_ticks(bench, chance),
        11..13 => any_sample(bench, chance),
        13..15 => bench.wish(chance.below(256)),
        15 => bench.read_stall(),
        16 => bench.read_spin(),
        _ => bench.watchdog(),
    }
}

/// Every field any number, the registers that rules speak of often what they speak of.
fn any_state(bench: &mut Bench, chance: &Chance) {
    let mut state = fan(&[]);
    for offset in 0..state.fan.registers.len() {
        state = state.set(offset, any_byte(chance, offset));
    }
    let length = chance.among(&[0, 3, 20, 40, chance.below(256)]);
    let spinning = state.spin(chance.below(256), length, chance.one_in(2), chance.below(256));
    let (drive, wish, clock) = (
        chance.among(&[0, chance.below(256)]),
        chance.below(256),
        chance.below(256),
    );
    let state = chance.among(&[state, spinning]).drive(drive).wish(wish).clock(clock);
    bench.load(state.bits(chance.one_in(2), chance.one_in(2)));
}

pub fn cases(bench: &mut Bench) {
    bench.title("mixed traffic from power-on");
    let chance = Chance::new(2305);
    for _ in 0..150 {
        bench.reset();
        for _ in 0..8 {
            any_command(bench, &chance);
        }
        bench.registers();
    }
    bench.title("mixed traffic from any state");
    for _ in 0..150 {
        any_state(bench, &chance);
        for _ in 0..4 {
            any_command(bench, &chance);
        }
        bench.registers();
    }
}
