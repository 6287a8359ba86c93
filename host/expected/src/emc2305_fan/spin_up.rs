//! How a spin-up starts, runs and ends.

use super::bench::{fan, Bench, Changes, CLOSED_OFF, CLOSED_ON, DIRECT, EVERY_OFFSET, RAMPING};
use super::{CLOSED, ON, OPEN, PLAIN, RAMPED};
use model::chip::{
    CONFIGURATION_1, CONFIGURATION_2, DIVIDE, GAIN, MINIMUM_DRIVE, READING_HIGH, SETTING, SPIN_UP, TARGET_HIGH,
    VALID_COUNT,
};

pub fn cases(bench: &mut Bench) {
    start_cases(bench);
    byte_cases(bench);
    fixed_cases(bench);
    goal_zero_cases(bench);
    end_cases(bench);
    last_moment_cases(bench);
}

fn start_cases(bench: &mut Bench) {
    bench.title("a spin-up starts at a stored write: drive 0 before it, goal above 0 after it");
    bench.reset();
    bench.write(SETTING, 0);
    bench.write(SETTING, 1);
    bench.title("not from a drive above 0");
    bench.load(fan(&[(SETTING, 1)]).drive(1));
    bench.write(SETTING, 2);
    bench.title("any register: a wish had raised the goal before");
    for offset in EVERY_OFFSET {
        bench.load(fan(CLOSED_ON).set(MINIMUM_DRIVE, 0).wish(200).clock(5));
        bench.write_again(offset);
    }
    bench.title("any register in direct mode, with ramp control and without");
    for offset in (1..14).chain([READING_HIGH, 16]) {
        for mode in [DIRECT, RAMPING] {
            bench.load(fan(mode));
            bench.write_again(offset);
        }
    }
    bench.title("by Minimum Drive, by the target, by the loop going off");
    bench.load(fan(CLOSED_ON).set(MINIMUM_DRIVE, 0));
    bench.write(MINIMUM_DRIVE, 1);
    bench.load(fan(CLOSED_OFF));
    bench.write(TARGET_HIGH, 0);
    bench.load(fan(CLOSED_OFF).set(SETTING, 128));
    bench.write(CONFIGURATION_1, OPEN);
    bench.title("a write to Spin Up itself: the new byte decides");
    bench.load(fan(DIRECT));
    bench.write(SPIN_UP, 0x3F);
    bench.load(fan(DIRECT).set(SPIN_UP, 0x3F));
    bench.write(SPIN_UP, 0x00);
}

fn byte_cases(bench: &mut Bench) {
    bench.title("every length, level and bit 5; bits 6 and 7 do nothing");
    for byte in (0..64).chain([0x59, 0x99, 0xD9, 0xF9, 0xFF]) {
        bench.load(fan(&[(SPIN_UP, byte)]));
        bench.write(SETTING, 0x80);
    }
    bench.title("255 in the first quarter, then the level, to the last tick: every length with bit 5 clear and set");
    for byte in [0x18, 0x19, 0x1A, 0x1B, 0x38, 0x39, 0x3A, 0x3B] {
        bench.load(fan(&[(SPIN_UP, byte)]));
        bench.write(SETTING, 0x80);
        let started = bench.state.fan.spin_up.expect("the write starts a spin-up");
        let quarter = started.length / 4;
        bench.ticks(quarter - 1);
        bench.each_tick(2);
        bench.ticks(3 * quarter - 3);
        bench.each_tick(3);
    }
}

fn fixed_cases(bench: &mut Bench) {
    bench.title("length, bit 5 and level are fixed at the start");
    bench.reset();
    bench.write(SETTING, 0x80);
    bench.ticks(4);
    bench.write(SPIN_UP, 0x3F);
    bench.ticks(5);
    bench.each_tick(2);
    bench.ticks(28);
    bench.each_tick(2);
    bench.title("and anew at a restart");
    bench.load(fan(CLOSED_ON));
    bench.write(GAIN, 1);
    bench.ticks(4);
    bench.write(SPIN_UP, 0x3C);
    bench.ticks(35);
    bench.each_tick(2);
    bench.ticks(17);
    bench.write(SPIN_UP, 0x03);
    bench.each_tick(2);
    bench.title("not in a spin-up that runs: a write starts no other");
    bench.load(fan(DIRECT).spin(7, 40, true, 153));
    bench.write(SETTING, 0x90);
    bench.write(GAIN, 0x90);
}

fn goal_zero_cases(bench: &mut Bench) {
    bench.title("a stored write after which the goal is 0 ends it with drive 0, and nothing is compared");
    bench.reset();
    bench.write(SETTING, 0x80);
    bench.ticks(5);
    bench.write(SETTING, 0);
    bench.ticks(40);
    bench.title("any register: a loaded spin-up with goal 0 goes on until a stored write");
    for offset in EVERY_OFFSET {
        bench.load(fan(&[]).drive(255).clock(5).spin(7, 40, true, 153));
        bench.ticks(1);
        bench.write_again(offset);
    }
    let closed = fan(CLOSED_ON).drive(255).wish(90).spin(7, 40, true, 153);
    bench.title("in closed loop: by Minimum Drive with wish 0; a wish of 0 ends nothing");
    bench.load(closed);
    bench.write(MINIMUM_DRIVE, 0);
    bench.wish(0);
    bench.ticks(1);
    bench.write(DIVIDE, 1);
    bench.title("by the loop going off with Setting 0");
    bench.load(closed);
    bench.write(CONFIGURATION_1, OPEN);
    bench.title("a changed goal above 0 changes nothing until the end");
    bench.reset();
    bench.write(SETTING, 0x80);
    bench.write(SETTING, 0x90);
    bench.ticks(39);
    bench.each_tick(2);
}

fn end_cases(bench: &mut Bench) {
    bench.title("after the last tick: a reading above Valid Count sets the 26h bit; equal is not above");
    for (high, valid) in [
        (0xF5, 0xF5),
        (0xF6, 0xF5),
        (0xF4, 0xF5),
        (0xFF, 0xFF),
        (0, 0),
        (1, 0),
        (255, 254),
    ] {
        for mode in [DIRECT, RAMPING, CLOSED_ON] {
            let last = fan(mode).set(READING_HIGH, high).set(VALID_COUNT, valid);
            bench.load(last.drive(153).clock(5).spin(39, 40, true, 153));
            bench.each_tick(1);
        }
    }
    bench.title("in closed loop a failed one starts again, until a sample is healthy; the ramp goes on from the level");
    bench.load(fan(CLOSED_ON));
    bench.write(GAIN, 1);
    bench.ticks(40);
    bench.each_tick(1);
    bench.ticks(39);
    bench.sample(100);
    bench.ticks(39);
    bench.each_tick(2);
    bench.ticks(30);
    bench.each_tick(1);
}

fn last_moment_cases(bench: &mut Bench) {
    bench.title("a sample in a spin-up is kept, and judged only at its end");
    bench.load(fan(CLOSED_ON));
    bench.write(GAIN, 1);
    bench.sample(100);
    bench.sample(8191);
    bench.registers();
    bench.sample(7871);
    bench.registers();
    bench.ticks(40);
    bench.title("loop, ramp control, goal and Valid Count are those at the end");
    let healthy = |mode: Changes| fan(mode).set(READING_HIGH, 9).drive(255);
    bench.load(healthy(DIRECT).spin(0, 40, true, 153));
    bench.write(CONFIGURATION_2, RAMPED);
    bench.ticks(40);
    bench.load(healthy(RAMPING).spin(0, 40, true, 153));
    bench.write(CONFIGURATION_2, PLAIN);
    bench.ticks(40);
    bench.load(healthy(DIRECT).set(TARGET_HIGH, ON).spin(0, 40, true, 153));
    bench.write(VALID_COUNT, 8);
    bench.write(CONFIGURATION_1, CLOSED);
    bench.ticks(40);
    bench.write(CONFIGURATION_1, OPEN);
    bench.ticks(40);
    bench.title("a bit that stands is kept by a spin-up that does not fail");
    bench.load(healthy(DIRECT).spin(38, 40, true, 153).bits(true, true));
    bench.ticks(2);
}
