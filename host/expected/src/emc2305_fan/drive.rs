//! Ramp updates, the update clock, driver off, the loop, the goal.

use super::bench::{fan, Bench, CLOSED_OFF, CLOSED_ON, DIRECT, EVERY_OFFSET, RAMPING};
use super::{CLOSED, ON, OPEN, PLAIN, RAMPED};
use crate::chance::Chance;
use model::chip::{
    CONFIGURATION_1, CONFIGURATION_2, GAIN, MAX_STEP, MINIMUM_DRIVE, READING_HIGH, SETTING, TARGET_HIGH, TARGET_LOW,
};

pub fn cases(bench: &mut Bench) {
    ramp_update_cases(bench);
    clock_counts_cases(bench);
    step_cases(bench);
    period_cases(bench);
    clock_zero_cases(bench);
    driver_off_cases(bench);
    loop_cases(bench);
    goal_cases(bench);
    turning_on_cases(bench);
}

fn ramp_update_cases(bench: &mut Bench) {
    bench.title("ramp update: the document's examples");
    for (drive, goal, step) in [
        (153, 128, 16),
        (137, 128, 16),
        (255, 0, 63),
        (192, 0, 63),
        (129, 0, 63),
        (66, 0, 63),
        (3, 0, 63),
        (153, 128, 0),
        (128, 128, 16),
        (0, 0, 0),
    ] {
        bench.ramp(drive, goal, step);
    }
    bench.title("ramp update: upward, the last step, and steps that no register gives");
    for (drive, goal, step) in [
        (128, 153, 16),
        (144, 153, 16),
        (0, 255, 63),
        (252, 255, 63),
        (255, 255, 63),
        (128, 153, 0),
        (0, 1, 1),
        (1, 0, 1),
        (0, 255, 255),
        (255, 0, 255),
        (254, 255, 255),
        (100, 164, 64),
        (100, 164, 63),
        (100, 163, 64),
        (1, 254, 253),
    ] {
        bench.ramp(drive, goal, step);
    }
    bench.title("ramp update: generated");
    let chance = Chance::new(301);
    for _ in 0..300 {
        let drive: u8 = chance.below(256);
        let near = (i16::from(drive) + chance.below::<i16>(41) - 20).clamp(0, 255) as u8;
        let goal = chance.among(&[near, chance.below(256)]);
        bench.ramp(drive, goal, chance.among(&[chance.below(64), chance.below(256)]));
    }
}

fn clock_counts_cases(bench: &mut Bench) {
    bench.title("the update clock counts only under ramp control");
    bench.load(fan(DIRECT).drive(153).clock(3));
    bench.ticks(40);
    bench.write(CONFIGURATION_2, RAMPED);
    bench.load(fan(RAMPING).drive(153).clock(3));
    bench.each_tick(33);
    bench.title("and not in spin-up");
    bench.load(fan(RAMPING).drive(255).clock(3).spin(0, 40, true, 153));
    bench.ticks(39);
    bench.each_tick(3);
    bench.title("it counts at the goal, and at step 0, which never moves");
    bench.load(fan(RAMPING).drive(128));
    bench.each_tick(2);
    bench.ticks(30);
    bench.load(fan(RAMPING).set(MAX_STEP, 0xC0).drive(153));
    bench.each_tick(2);
    bench.ticks(30);
}

fn step_cases(bench: &mut Bench) {
    let from_zero = fan(&[(CONFIGURATION_1, 0x28), (CONFIGURATION_2, RAMPED)]);
    bench.title("the last step goes by the distance: 255 to 0 by 63, period 8; then upward");
    bench.load(from_zero.set(MAX_STEP, 0x3F).drive(255));
    for _ in 0..6 {
        bench.ticks(8);
    }
    bench.load(from_zero.set(SETTING, 250).set(MAX_STEP, 0xFF).drive(1));
    for _ in 0..5 {
        bench.ticks(8);
    }
    bench.title("the step is Max Step modulo 64");
    for byte in [0x00, 0x01, 0x3F, 0x40, 0x41, 0x7F, 0xFF] {
        bench.load(from_zero.set(MAX_STEP, byte).drive(200));
        bench.ticks(8);
    }
}

fn period_cases(bench: &mut Bench) {
    bench.title("every period: the drive moves at its last tick");
    for bits in 0..8 {
        bench.load(fan(&[(CONFIGURATION_1, 0x28 + bits), (CONFIGURATION_2, RAMPED)]).drive(200));
        bench.ticks(bench.state.fan.period() - 1);
        bench.each_tick(2);
    }
    bench.title("and in closed loop");
    for bits in 0..8 {
        bench.load(fan(CLOSED_ON).set(CONFIGURATION_1, 0x80 + bits).drive(200));
        bench.ticks(bench.state.fan.period() - 1);
        bench.each_tick(2);
    }
    bench.title("a clock at or past its period acts at the next counted tick");
    for (bits, clock) in [
        (0, 6),
        (0, 7),
        (0, 8),
        (0, 200),
        (0, 254),
        (0, 255),
        (3, 32),
        (7, 126),
        (7, 127),
        (7, 128),
        (7, 255),
    ] {
        let ramping = fan(&[(CONFIGURATION_1, 0x28 + bits), (CONFIGURATION_2, RAMPED)]);
        bench.load(ramping.drive(200).clock(clock));
        bench.each_tick(2);
    }
    bench.title("a period made shorter by a write, which sets the clock to 0");
    let slow = fan(&[(CONFIGURATION_1, 0x2F), (CONFIGURATION_2, RAMPED)]);
    bench.load(slow.drive(200).clock(100));
    bench.write(CONFIGURATION_1, 0x28);
    bench.ticks(7);
    bench.each_tick(1);
}

fn clock_zero_cases(bench: &mut Bench) {
    bench.title("a stored write to Configuration 1 or 2 sets the clock to 0, to another register not");
    for offset in EVERY_OFFSET {
        bench.load(fan(RAMPING).drive(153).clock(5));
        bench.write_again(offset);
    }
    bench.title("the same in closed loop, where Setting stores nothing");
    for offset in EVERY_OFFSET {
        bench.load(fan(CLOSED_ON).drive(153).wish(120).clock(5));
        bench.write_again(offset);
    }
    bench.title("and in spin-up");
    for offset in EVERY_OFFSET {
        bench.load(fan(RAMPING).drive(255).clock(5).spin(3, 40, true, 153));
        bench.write_again(offset);
    }
    bench.title("ticks, samples and wishes leave a clock that doesn't count");
    bench.load(fan(DIRECT).drive(128).clock(5));
    bench.ticks(1);
    bench.sample(100);
    bench.wish(9);
    bench.title("the end of a spin-up sets it to 0: by its last tick, by goal 0, by the watchdog");
    for mode in [DIRECT, RAMPING, CLOSED_ON] {
        let ending = fan(mode).set(READING_HIGH, 0).drive(153).clock(5);
        bench.load(ending.spin(38, 40, true, 153));
        bench.each_tick(3);
    }
    bench.load(fan(DIRECT).drive(153).clock(5).spin(38, 40, true, 153));
    bench.write(SETTING, 0);
    bench.load(fan(DIRECT).drive(153).clock(5).spin(38, 40, true, 153));
    bench.watchdog();
}

fn driver_off_cases(bench: &mut Bench) {
    bench.title("driver off: goal 0, drive 0 at once, no ramp control, clock 0");
    bench.load(fan(CLOSED_ON).drive(153).wish(120).clock(5));
    bench.ticks(3);
    bench.write(TARGET_LOW, 0xFF);
    bench.write(TARGET_HIGH, 0xFE);
    bench.write(TARGET_HIGH, 0xFF);
    bench.ticks(50);
    bench.title("a wish is kept in it and moves nothing; driver on again starts a spin-up");
    bench.wish(180);
    bench.ticks(50);
    bench.write(TARGET_HIGH, ON);
    bench.title("direct mode needs no target: FFh there is no driver off");
    bench.load(fan(RAMPING).drive(153).clock(5));
    bench.write(TARGET_HIGH, 0xFF);
    bench.title("turning the loop on with the target FFh");
    bench.load(fan(DIRECT).drive(128).wish(3).clock(5));
    bench.write(CONFIGURATION_1, CLOSED);
    bench.ticks(2);
    bench.title("and off again: the stored Setting is the goal, from drive 0 a spin-up");
    bench.write(CONFIGURATION_1, OPEN);
    bench.title("a loaded clock in driver off is left by a tick and set to 0 by any stored write");
    bench.load(fan(CLOSED_OFF).clock(9));
    bench.ticks(40);
    bench.write(SETTING, 1);
    bench.write(GAIN, 1);
    bench.title("driver off during a spin-up ends it with drive 0");
    bench.load(fan(CLOSED_ON).drive(255).clock(5).spin(3, 40, true, 153));
    bench.write(TARGET_HIGH, 0xFF);
    bench.ticks(1);
}

fn loop_cases(bench: &mut Bench) {
    bench.title("turning the loop on makes the wish the present drive; 1 written over 1 doesn't");
    bench.load(fan(DIRECT).set(TARGET_HIGH, ON).drive(128).wish(7));
    bench.write(CONFIGURATION_1, CLOSED);
    bench.wish(50);
    bench.write(CONFIGURATION_1, CLOSED);
    bench.wish(240);
    bench.write(CONFIGURATION_1, 0xFF);
    bench.ticks(128);
    bench.title("the loop off and on again: the wish is the drive of then");
    bench.write(CONFIGURATION_1, OPEN);
    bench.wish(9);
    bench.write(CONFIGURATION_1, CLOSED);
    bench.title("a wish outside closed loop does nothing");
    bench.reset();
    bench.wish(200);
    bench.write(SETTING, 0x80);
    bench.wish(201);
    bench.write(CONFIGURATION_2, RAMPED);
    bench.wish(202);
    bench.title(
        "a Setting write in closed loop stores nothing; the stored Setting is goal again when the loop goes off",
    );
    bench.load(fan(DIRECT).set(TARGET_HIGH, ON).drive(128));
    bench.write(CONFIGURATION_1, CLOSED);
    bench.wish(200);
    bench.write(SETTING, 0x20);
    bench.write(SETTING, 0);
    bench.ticks(32);
    bench.write(CONFIGURATION_1, OPEN);
    bench.title("the same with ramp control in direct mode: the drive goes from where it is");
    bench.load(fan(RAMPING).set(TARGET_HIGH, ON).drive(128));
    bench.write(CONFIGURATION_1, CLOSED);
    bench.wish(200);
    bench.ticks(64);
    bench.write(CONFIGURATION_1, OPEN);
    bench.ticks(64);
}

fn goal_cases(bench: &mut Bench) {
    bench.title("the goal in closed loop is the larger of wish and Minimum Drive");
    bench.load(fan(CLOSED_ON).drive(110));
    for drive in [0, 101, 102, 103, 255] {
        bench.wish(drive);
    }
    bench.write(MINIMUM_DRIVE, 0xFF);
    bench.wish(254);
    bench.write(MINIMUM_DRIVE, 0);
    bench.wish(0);
    bench.title("a wish never moves the drive itself, and starts no spin-up: the ramp goes up from 0");
    bench.load(fan(CLOSED_ON).set(MINIMUM_DRIVE, 0));
    bench.wish(200);
    bench.ticks(31);
    bench.each_tick(2);
}

fn turning_on_cases(bench: &mut Bench) {
    bench.title("turning the loop on at drive 0 with the driver on starts a spin-up");
    bench.load(fan(&[(TARGET_HIGH, ON)]).wish(77));
    bench.write(CONFIGURATION_1, CLOSED);
    bench.title("with Minimum Drive 0 it does not: wish and goal are 0");
    bench.load(fan(&[(TARGET_HIGH, ON), (MINIMUM_DRIVE, 0)]).wish(77));
    bench.write(CONFIGURATION_1, CLOSED);
    bench.title("turning the loop on in a spin-up: the wish is its drive");
    let kicking = fan(DIRECT).set(TARGET_HIGH, ON).drive(255);
    bench.load(kicking.spin(9, 40, true, 153));
    bench.write(CONFIGURATION_1, CLOSED);
    bench.wish(3);
    bench.ticks(1);
    bench.write(CONFIGURATION_1, OPEN);
    bench.write(CONFIGURATION_1, CLOSED);
    bench.title("direct mode without ramp control: drive is the goal at once, at a stored write to any register");
    bench.load(fan(DIRECT).drive(128));
    bench.write(SETTING, 200);
    bench.write(SETTING, 0);
    bench.load(fan(RAMPING).set(SETTING, 200).drive(90).clock(5));
    bench.write(CONFIGURATION_2, PLAIN);
}
