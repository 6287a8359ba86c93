//! The pointer, the reply in its buffer, and blocks.

use super::bench::{row, Bench, HEALTHY};
use super::{at, LOCK, STATUS};
use crate::emc2305_fan::CLOSED;
use model::chip::{CONFIGURATION_1, GAIN, SETTING, TARGET_LOW};

pub fn cases(bench: &mut Bench) {
    pointer_cases(bench);
    pointer_alone_cases(bench);
    reply_cases(bench);
    block_cases(bench);
}

fn pointer_cases(bench: &mut Bench) {
    bench.title("one data byte, written or read: the pointer stays");
    bench.power_on();
    bench.clock(1);
    for register in [0x2A, 0x00, 0x30, 0x7F, 0x80, 0xFF] {
        bench.send(&[register, 0x21]);
        bench.clock(1);
        bench.clock(1);
    }
    bench.title("two or more: it goes up by one after each");
    bench.room(32);
    for count in [2, 3, 14, 31] {
        bench.send(&row(0x29, 0x10..0x10 + count));
        bench.send(&[0x29]);
        bench.clock(count);
    }
    for count in [2, 1, 3, 31, 32, 1] {
        bench.clock(count);
    }
    bench.title("FFh to 00h: by a read, by a write");
    for (first, count) in [
        (0xFF, 1),
        (0xFF, 2),
        (0xFE, 2),
        (0xFE, 3),
        (0xF0, 16),
        (0xF0, 17),
        (0xE1, 31),
        (0xE0, 32),
        (0xE1, 32),
    ] {
        bench.send(&[first]);
        bench.clock(count);
        bench.send(&row(first, vec![0; usize::from(count.min(31))]));
    }
    bench.send(&row(0xE2, 0x10..0x10 + 31));
    bench.room(1);
}

fn pointer_alone_cases(bench: &mut Bench) {
    bench.title("the bus address alone changes nothing; a pointer byte alone sets the pointer");
    for register in [0x2B, 0xFF, 0x00, 0x25] {
        bench.send(&[register]);
        bench.send(&[]);
    }
    bench.title("data bytes that store nothing still move it: undefined, read only, locked, Setting in closed loop");
    bench.power_on();
    bench.send(&[0x80, 1, 2, 3]);
    bench.send(&[STATUS, 1, 2, 3, 4]);
    bench.send(&[0x3E, 1, 2]);
    bench.send(&[0xFC, 1, 2, 3]);
    bench.send(&[at(1, CONFIGURATION_1), CLOSED]);
    bench.send(&[at(1, SETTING), 0x55, 0x02]);
    bench.send(&[LOCK, 1]);
    bench.send(&[at(1, GAIN), 1, 2, 3, 4]);
    bench.send(&[LOCK, 0, 0]);
}

fn reply_cases(bench: &mut Bench) {
    bench.title("a reply is laid from the start of the buffer, and the rest of it stays");
    for size in [1, 2, 5, 64] {
        bench.room(size);
        bench.send(&[0xFD]);
        bench.clock(1);
        bench.send(&[0xFD]);
        bench.clock(3);
    }
    bench.room(1);
}

fn block_cases(bench: &mut Bench) {
    bench.title("each data byte of a block is a write of its own, in turn");
    bench.power_on();
    bench.sample(1, HEALTHY);
    bench.send(&row(
        at(1, SETTING),
        [
            0x80, 0x05, 0x28, 0x68, 0xFF, 0x11, 0x1C, 0x3F, 0x10, 0xF0, 0x01, 0x02, 0x08, 0x20, 0xEE, 0xEE, 0x40,
        ],
    ));
    bench.ticks(5);
    bench.ticks(35);
    bench.ticks(40);
    bench.registers();
    bench.send(&[at(1, TARGET_LOW), 0x00, 0x20, 0x00, 0x00, 0xC0, 0x01, 0xAB]);
    bench.send(&row(
        at(2, CONFIGURATION_1),
        [
            0xAB, 0x28, 0x00, 0x2A, 0x19, 0x10, 0x66, 0xF5, 0x00, 0x00, 0xF8, 0x20, 0xFF, 0xFF, 0x30, 0x01, 0x2B, 0x68,
        ],
    ));
    bench.ticks(10);
    bench.registers();
}
