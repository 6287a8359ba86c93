//! How a spin-up starts, runs and ends.

use super::bench::{
    absolute_limit, low_limit, range, temperature, Bench, Fields, CLOCK, CONFIGURATION, DUTY, MINIMUM, OPTIONS, OVRID,
    RAMP, SETTING, START,
};
use super::{asking, configuration, started, ALWAYS_FULL, ASKING, DISABLED, MANUAL, NO_LIMIT, SNAP, STEP_DOWN, TWENTY};

/// The ticks of a spin-up by its code.
const LENGTHS: [u16; 8] = [0, 8, 20, 32, 56, 80, 160, 320];

pub fn cases(bench: &mut Bench) {
    length_cases(bench);
    start_cases(bench);
    automatic_start_cases(bench);
    goal_cases(bench);
    zero_cases(bench);
    forced_cases(bench);
    tach_cases(bench);
    write_cases(bench);
    length_zero_cases(bench);
    past_the_end_cases(bench);
}

/// A manual output that stands, with this spin-up code and ramp.
fn standing(code: u8, ramp: u8) -> Fields {
    asking(MANUAL, 0)
        .set(CONFIGURATION, configuration(MANUAL, code))
        .set(RAMP, ramp)
        .set(DUTY, 0)
}

/// A spin-up of 20 ticks, five of them over, in this mode: its goal is 64.
fn five_ticks_in(bench: &mut Bench, mode: u8, ramp: u8) {
    bench.load(asking(mode, 64).set(RAMP, ramp).set(DUTY, 0));
    bench.settle();
    bench.ticks(5);
}

fn length_cases(bench: &mut Bench) {
    bench.title("each length: one tick before its end, at it, after it, with ramp control and without");
    for (code, length) in (0..8).zip(LENGTHS) {
        for ramp in [0x00, 0x08] {
            bench.load(standing(code, ramp).set(CLOCK, 7));
            bench.write(SETTING, 0x40);
            bench.settle();
            bench.ticks(length.saturating_sub(2));
            bench.each_tick(4);
            bench.settle();
        }
    }
    bench.title("bits 4 and 3 of the configuration have no part in it");
    for bits in [0x00, 0x08, 0x10, 0x18] {
        bench.load(standing(TWENTY | bits, 0x00));
        bench.write(SETTING, 1);
    }
}

fn start_cases(bench: &mut Bench) {
    bench.title("from duty 0 to a goal above it, and from nothing else");
    for (duty, goal) in [(0, 0), (0, 1), (0, 255), (1, 2), (1, 0), (255, 1)] {
        for ramp in [0x00, 0x08] {
            bench.load(standing(TWENTY, ramp).set(DUTY, duty).set(CLOCK, 3));
            bench.write(SETTING, goal);
            bench.settle();
        }
    }
    bench.title("after disabled, in each mode; none after full");
    for mode in ASKING {
        bench.load(asking(DISABLED, 64));
        bench.settle();
        bench.write(CONFIGURATION, configuration(mode, 1));
        bench.ticks(7);
        bench.each_tick(2);
        bench.load(asking(ALWAYS_FULL, 64));
        bench.settle();
        bench.write(CONFIGURATION, configuration(mode, 1));
    }
    bench.title("disabled and full in turn: no spin-up, for no duty is asked");
    for mode in [DISABLED, ALWAYS_FULL, DISABLED] {
        bench.write(CONFIGURATION, configuration(mode, 1));
    }
    bench.write(OVRID, 1);
    bench.write(OVRID, 0);
    bench.title("none at power-on, and none when START is written");
    bench.reset();
    bench.write(CONFIGURATION, configuration(MANUAL, TWENTY));
    bench.write(SETTING, 9);
    bench.write(START, 1);
    bench.write(SETTING, 0);
    bench.write(START, 0);
    bench.write(SETTING, 9);
    bench.write(START, 1);
}

fn automatic_start_cases(bench: &mut Bench) {
    bench.title("automatic with minimum 0, at its low limit: what raises the goal starts one");
    let standing = started(0).zone(1, [40, 0x23, 40, 100]).set(MINIMUM, 0).set(DUTY, 0);
    for (field, byte) in [
        (temperature(1), 41),
        (low_limit(1), 39),
        (MINIMUM, 1),
        (CONFIGURATION, configuration(MANUAL, 3)),
    ] {
        bench.load(standing);
        bench.write(range(1), 0xF3);
        bench.write(temperature(2), 99);
        bench.write(field, byte);
        bench.settle();
        bench.ticks(20);
    }
    bench.title("at its absolute limit and at fault it is full without one, and comes down without one");
    for hot in [100, 0x80] {
        bench.load(standing);
        bench.write(temperature(1), hot);
        bench.write(temperature(1), 41);
        bench.settle();
    }
    bench.title("R so wide that a degree asks 255 x 1 / 80 = 3; M 254: the line asks 254 up to R");
    bench.load(standing.zone(1, [40, 0xF0, 40, NO_LIMIT]));
    bench.write(temperature(1), 41);
    bench.ticks(20);
    bench.write(MINIMUM, 254);
    bench.write(temperature(1), 119);
    bench.write(temperature(1), 120);
}

fn goal_cases(bench: &mut Bench) {
    bench.title("goals that change in it do nothing until its end: the goal of that moment, at once");
    for mode in ASKING {
        for ramp in [0x00, 0x0B] {
            five_ticks_in(bench, mode, ramp);
            bench.write(SETTING, 200);
            bench.write(MINIMUM, 100);
            bench.settle();
            bench.ticks(14);
            bench.write(SETTING, 150);
            bench.write(MINIMUM, 50);
            bench.each_tick(2);
            bench.ticks(10);
            bench.settle();
        }
    }
    bench.title("by the zone: what it asks at the last tick");
    let fields = started(0).zone(1, [41, 0x23, 40, 100]).set(MINIMUM, 0).set(DUTY, 0);
    bench.load(fields.set(RAMP, 0x08));
    bench.settle();
    for t in [43, 42, 44, 41] {
        bench.ticks(5);
        bench.write(temperature(1), t);
    }
    bench.ticks(17);
}

fn zero_cases(bench: &mut Bench) {
    bench.title(
        "goal 0 in it ends it with duty 0, clock 0, with SZEN and ramp or not; then another starts from its first tick",
    );
    for mode in ASKING {
        for ramp in [0x00, 0x0B] {
            for options in [SNAP, STEP_DOWN] {
                five_ticks_in(bench, mode, ramp);
                bench.write(OPTIONS, options);
                bench.write(SETTING, 0);
                bench.write(MINIMUM, 0);
                bench.settle();
                bench.ticks(30);
                bench.write(SETTING, 7);
                bench.write(MINIMUM, 7);
            }
        }
    }
}

fn forced_cases(bench: &mut Bench) {
    bench.title("full and off in it end it; back to a duty: from off by another, from full without");
    for mode in ASKING {
        for (field, byte, back) in [
            (START, 0, 1),
            (OVRID, 1, 0),
            (
                CONFIGURATION,
                configuration(ALWAYS_FULL, TWENTY),
                configuration(mode, TWENTY),
            ),
            (
                CONFIGURATION,
                configuration(DISABLED, TWENTY),
                configuration(mode, TWENTY),
            ),
            (temperature(1), 100, 20),
            (temperature(2), 0x80, 20),
            (temperature(3), 0x80, 20),
            (absolute_limit(3), 20, 100),
        ] {
            five_ticks_in(bench, mode, 0x08);
            bench.write(field, byte);
            bench.settle();
            bench.ticks(3);
            bench.write(field, back);
            bench.settle();
            bench.ticks(3);
        }
    }
}

fn tach_cases(bench: &mut Bench) {
    bench.title("ended by its tachs, at each moment: the goal at once, clock 0; out of one nothing changes");
    for ramp in [0x00, 0x0B] {
        for ticks in [0, 1, 10, 19, 20, 21] {
            bench.load(standing(TWENTY, ramp));
            bench.write(SETTING, 0x40);
            bench.ticks(ticks);
            bench.write(SETTING, 0x50);
            bench.spun();
            bench.spun();
            bench.ticks(4);
            bench.settle();
        }
    }
    bench.title("out of one: on the way, at rest, full, off, standing");
    for (fields, ticks) in [
        (asking(MANUAL, 64).set(RAMP, 0x0B).set(DUTY, 70), 6),
        (asking(MANUAL, 64).set(DUTY, 64), 6),
        (asking(ALWAYS_FULL, 64), 6),
        (asking(DISABLED, 64).set(DUTY, 0), 6),
        (standing(TWENTY, 0x0B), 6),
        (standing(TWENTY, 0x0B).set(OPTIONS, STEP_DOWN), 6),
    ] {
        bench.load(fields);
        bench.ticks(ticks);
        bench.spun();
    }
}

fn write_cases(bench: &mut Bench) {
    bench.title("each field written as it stands in it: nothing but the clock rule, and the ticks go on");
    for mode in [0, 6, MANUAL] {
        let fields = asking(mode, 64).set(RAMP, 0x0B).set(DUTY, 0).set(CLOCK, 3).left(9);
        for field in 0..=absolute_limit(3) {
            bench.load(fields);
            bench.write(field, fields.bytes()[usize::from(field)]);
            bench.ticks(1);
        }
    }
    bench.title("its length is that of its start: a longer and a shorter one are for the next");
    for code in [7, 1, 0] {
        five_ticks_in(bench, MANUAL, 0x08);
        bench.write(CONFIGURATION, configuration(MANUAL, code));
        bench.ticks(14);
        bench.each_tick(2);
        bench.write(SETTING, 0);
        bench.write(SETTING, 5);
    }
    bench.title("the write that starts it may bring the length");
    bench.load(asking(DISABLED, 64).set(DUTY, 0));
    bench.write(CONFIGURATION, configuration(MANUAL, 7));
    bench.ticks(319);
    bench.each_tick(2);
    bench.title("ramp control given and taken in it: the clock stays 0 until its end");
    five_ticks_in(bench, MANUAL, 0x00);
    bench.write(RAMP, 0x0F);
    bench.ticks(14);
    bench.write(RAMP, 0x00);
    bench.write(RAMP, 0x08);
    bench.each_tick(3);
}

fn length_zero_cases(bench: &mut Bench) {
    bench.title("length 0: it starts and ends at once, at the goal, ramp control or not");
    for mode in ASKING {
        for ramp in [0x00, 0x0B] {
            let fields = asking(mode, 0).set(CONFIGURATION, configuration(mode, 0));
            bench.load(fields.set(RAMP, ramp).set(DUTY, 0).set(CLOCK, 3));
            bench.write(SETTING, 64);
            bench.write(MINIMUM, 64);
            bench.settle();
            bench.write(SETTING, 70);
            bench.write(MINIMUM, 70);
            bench.ticks(8);
        }
    }
    bench.load(asking(DISABLED, 64).set(DUTY, 0).set(RAMP, 0x0B));
    bench.write(CONFIGURATION, configuration(MANUAL, 0));
}

fn past_the_end_cases(bench: &mut Bench) {
    bench.title("ticks past its end in one go: the ramp's clock counts from the end on, at the goal");
    for count in [19, 20, 21, 36, 37, 38, 65535] {
        for ramp in [0x00, 0x08] {
            bench.load(standing(TWENTY, ramp));
            bench.write(SETTING, 0x40);
            bench.ticks(count);
            bench.write(SETTING, 0x42);
            bench.ticks(17);
        }
    }
}
