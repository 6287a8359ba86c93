//! Mixed traffic; and what a likely register and bytes to send are.

use super::bench::{Bench, HEALTHY};
use super::{at, CONFIGURATION, DRIVE_FAIL, ENABLE, FANS, HOME, LOCK, SPIN, STALL, STATUS};
use crate::chance::Chance;
use crate::emc2305_fan::traffic as fan;
use crate::emc2305_fan::ON;
use crate::events::{clock, send, LARGEST};
use model::chip::{SETTING, TARGET_HIGH, VALID_COUNT};

/// The chip's own registers, those that rules speak of more often.
const OWN: [u8; 12] = [
    CONFIGURATION,
    CONFIGURATION,
    STATUS,
    STALL,
    STALL,
    SPIN,
    SPIN,
    DRIVE_FAIL,
    ENABLE,
    ENABLE,
    0x2A,
    0x2D,
];

/// The bytes that rules speak of, by register.
fn likely(register: u8) -> &'static [u8] {
    match register {
        CONFIGURATION => &[0x40, 0x60, 0x20, 0xC0, 0x00, 0x60],
        ENABLE => &[0xFF, 0x1F, 0x01, 0x00],
        LOCK => &[0x00, 0x02, 0x01],
        _ => &[],
    }
}

/// One choice many times, and others.
pub fn mostly<T: Clone>(times: usize, choice: T, others: &[T]) -> Vec<T> {
    [&vec![choice; times][..], others].concat()
}

/// Mostly one that a rule speaks of.
pub fn any_register(chance: &Chance) -> u8 {
    let often = at(chance.among(&FANS), chance.among(&fan::OFTEN));
    let near = chance.among(&[0x1F, 0x21, 0x2E, 0x2F, 0x80, 0xEE, 0xFE, 0xFF, 0x00, LOCK]);
    let others = [
        at(chance.among(&FANS), chance.below(16)),
        chance.among(&OWN),
        chance.among(&OWN),
        near,
        chance.below(256),
    ];
    chance.among(&mostly(5, often, &others))
}

fn any_byte(chance: &Chance, register: u8) -> u8 {
    match register {
        0x30..=0x7F => fan::any_byte(chance, usize::from(register % 16)),
        _ => chance.among(&[likely(register), &[chance.below(256)]].concat()),
    }
}

/// A pointer and some data bytes; at times none, or no pointer.
pub fn any_sent(chance: &Chance) -> Vec<u8> {
    let register = any_register(chance);
    let others = [0, 0, 2, 2, 3, chance.below(9), chance.below(32)];
    let count = chance.among(&mostly(12, 1, &others));
    let mut sent = vec![register];
    sent.extend((0..count).map(|k| any_byte(chance, register.wrapping_add(k))));
    if chance.one_in(40) {
        sent.clear();
    }
    sent
}

/// The address of the chip, or where there is none the usual one.
fn own_address(bench: &Bench) -> u8 {
    bench.chip.address.unwrap_or(HOME)
}

/// The bytes stand somewhere in the log, mostly at its start.
fn any_send(bench: &mut Bench, chance: &Chance) {
    let sent = any_sent(chance);
    let before = chance.bytes(chance.among(&[0, 0, 0, 0, 1, 3]));
    let after = chance.bytes(chance.among(&[0, 0, 0, 0, 1, 3]));
    let address = chance.among(&mostly(15, own_address(bench), &[chance.below(128)]));
    let event = send(address, before.len(), sent.len());
    bench.transfer(&event, &[before, sent, after].concat());
}

/// Mostly after the pointer was set, and often over the status registers.
fn any_clock(bench: &mut Bench, chance: &Chance) {
    let address = own_address(bench);
    if !chance.one_in(3) {
        let pointers = [STATUS, STATUS, STALL, SPIN, 0x22, 0xFE, any_register(chance)];
        bench.send_to(address, &[chance.among(&pointers)]);
    }
    let count = chance.among(&[1, 1, 1, 1, 2, 2, 3, 4, 1 + chance.below::<u8>(32), 32]);
    bench.clock_at(chance.among(&mostly(15, address, &[chance.below(128)])), count);
}

/// Few, what ends a spin-up or an update, or enough for the watch.
fn any_ticks(bench: &mut Bench, chance: &Chance) {
    let mut counts = vec![0, 1, 8, 20, 40];
    counts.extend((0..8).map(|_| chance.below::<u16>(60)));
    counts.extend([chance.below(200), 319, 320, 300 + chance.below::<u16>(400)]);
    bench.ticks(chance.among(&counts));
}

/// Mostly a fan that there is.
fn any_fan(chance: &Chance) -> u8 {
    chance.among(&[&FANS.repeat(3)[..], &[0, 6, chance.below(256)]].concat())
}

/// Around the fan's threshold, or any count; at times out of range.
fn any_sample(bench: &mut Bench, chance: &Chance) {
    let number = any_fan(chance);
    let index = usize::from(number).wrapping_sub(1);
    let powered = bench.chip.address.and(bench.chip.fans.get(index));
    let valid = powered.map_or(0xF5, |fan| fan.registers[VALID_COUNT]);
    let edge = (u16::from(valid) * 32 + 31).min(8190);
    let counts = [
        HEALTHY,
        edge,
        edge + 1,
        edge + 1,
        chance.below(8192),
        8191,
        chance.below(8300),
    ];
    bench.sample(number, chance.among(&counts));
}

fn any_wish(bench: &mut Bench, chance: &Chance) {
    bench.wish(any_fan(chance), chance.among(&[0, 255, chance.below(256)]));
}

/// Any fields over a short log, a few of them good.
fn any_bad_transfer(bench: &mut Bench, chance: &Chance) {
    let length: usize = chance.below(6);
    let any_count = |_| chance.among(&[1, 2, 33, chance.below(256)]);
    let log: Vec<u8> = (0..length).map(any_count).collect();
    let address = chance.among(&mostly(4, own_address(bench), &[chance.below(256)]));
    let place = chance.among(&[0, 0, 1, chance.below(8), LARGEST - chance.below::<usize>(3)]);
    let length = chance.among(&[0, 1, 1, 2, chance.below(8), 33, LARGEST - chance.below::<usize>(3)]);
    let kind = chance.among(&[send, clock]);
    bench.transfer(&kind(address, place, length), &log);
}

fn any_event(bench: &mut Bench, chance: &Chance) {
    match chance.below(100) {
        0u8..38 => any_send(bench, chance),
        38..52 => any_clock(bench, chance),
        52..74 => any_ticks(bench, chance),
        74..84 => any_sample(bench, chance),
        84..91 => any_wish(bench, chance),
        91..95 => any_bad_transfer(bench, chance),
        95..99 => bench.room(chance.among(&[0, 1, 2, 3, 4, 4, 4, 8, 32])),
        _ => bench.power_on_at(chance.among(&[HOME, chance.below(128), chance.below(256)])),
    }
}

/// Most fans at drives of their own, with the loop on or ramp control, and at times the continuous watch.
fn lively(bench: &mut Bench, chance: &Chance) {
    for fan in FANS {
        if !chance.one_in(3) {
            bench.sample(fan, HEALTHY);
            bench.send(&[at(fan, TARGET_HIGH), chance.among(&[ON, ON, 0xFF])]);
            bench.send(&[
                at(fan, SETTING),
                chance.below(256),
                1,
                chance.among(&[0xA8, 0x28, 0xAA]),
                chance.among(&[0x68, 0x28]),
            ]);
        }
    }
    bench.send(&[ENABLE, chance.below(32)]);
    bench.ticks(20 + chance.below::<u16>(80));
    if chance.one_in(3) {
        bench.send(&[CONFIGURATION, 0x60]);
    }
}

pub fn cases(bench: &mut Bench) {
    bench.title("mixed traffic");
    let chance = Chance::new(23_052_305);
    for turn in 0..42 {
        if turn % 8 == 7 {
            bench.fresh();
            for _ in 0..6 {
                any_event(bench, &chance);
            }
        }
        bench.room(4);
        bench.power_on();
        if turn % 4 != 0 {
            lively(bench, &chance);
        }
        for _ in 0..60 {
            any_event(bench, &chance);
        }
    }
    bench.registers();
}

/// Events on parts, with another power-on among them now and then: of any part, of five fans, or refused.
pub fn part_cases(bench: &mut Bench) {
    bench.title("mixed traffic on parts");
    let chance = Chance::new(230_123_022_303);
    for _ in 0..30 {
        bench.room(4);
        bench.part_on(chance.among(&[1, 2, 3]));
        if !chance.one_in(4) {
            lively(bench, &chance);
        }
        for _ in 0..50 {
            if chance.one_in(30) {
                any_power_on(bench, &chance);
            } else {
                any_event(bench, &chance);
            }
        }
    }
    bench.registers();
}

fn any_power_on(bench: &mut Bench, chance: &Chance) {
    let address = chance.among(&mostly(6, HOME, &[chance.below(128), chance.below(256)]));
    match chance.below(5) {
        0u8 => bench.power_on_at(address),
        1 => bench.part_on_at(address, chance.among(&[0, 4, 5, 255])),
        _ => bench.part_on_at(address, chance.among(&[1, 2, 3])),
    }
}
