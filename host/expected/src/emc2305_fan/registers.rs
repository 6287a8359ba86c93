//! Registers, and what a read of Setting shows.

use super::bench::{fan, Bench, CLOSED_ON, EVERY_OFFSET};
use super::{CLOSED, RAMPED};
use model::chip::{CONFIGURATION_1, CONFIGURATION_2, SETTING, UNDEFINED};

pub fn cases(bench: &mut Bench) {
    register_cases(bench);
    setting_cases(bench);
}

fn register_cases(bench: &mut Bench) {
    bench.title("power-on: every default; which offsets are locked, which store");
    bench.reset();
    bench.registers();
    bench.offsets();
    bench.title("in closed loop Setting stores nothing");
    bench.write(CONFIGURATION_1, CLOSED);
    bench.offsets();
    bench.title("every offset written from power-on");
    for offset in EVERY_OFFSET {
        bench.reset();
        bench.write(offset, 0xA5);
        bench.registers();
    }
    bench.title("all offsets written in turn, bytes stored whole");
    bench.reset();
    for offset in EVERY_OFFSET {
        bench.write(offset, if offset % 2 == 1 { 0xFF } else { 0x7F });
    }
    bench.registers();
    bench.title("an undefined register reads 0, whatever the state holds there");
    bench.load(fan(&[(UNDEFINED, 0xA5)]));
    bench.registers();
}

fn setting_cases(bench: &mut Bench) {
    bench.title("a Setting read shows the present drive and not the stored goal");
    bench.reset();
    bench.write(CONFIGURATION_2, RAMPED);
    bench.write(SETTING, 0x80);
    bench.registers();
    bench.ticks(72);
    bench.registers();
    bench.ticks(32);
    bench.registers();
    bench.title("and in closed loop, where the goal is neither");
    bench.load(fan(CLOSED_ON).set(SETTING, 0x33).drive(77).wish(200));
    bench.registers();
}
