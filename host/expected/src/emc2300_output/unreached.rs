//! States that no run reaches.

use super::bench::{temperature, Bench, CLOCK, CONFIGURATION, DUTY, OPTIONS, OVRID, RAMP, SETTING};
use super::ramp::RATES;
use super::{asking, configuration, ramping, ALWAYS_FULL, ASKING, DISABLED, MANUAL, SNAP, STEP_DOWN};

pub fn cases(bench: &mut Bench) {
    clock_cases(bench);
    spin_up_cases(bench);
    left_cases(bench);
    forced_spin_up_cases(bench);
    zero_spin_up_cases(bench);
    rest_cases(bench);
    from_zero_cases(bench);
}

fn clock_cases(bench: &mut Bench) {
    bench.title("a clock at or past the rate's ticks acts at the next counted tick as on reaching it");
    for (rate, ticks) in (0..).zip(RATES) {
        for clock in [ticks - 1, ticks, ticks + 1, 100, 254, 255] {
            for goal in [50, 100, 150] {
                bench.load(ramping(MANUAL, 0x08 | rate, 100, goal).set(CLOCK, clock));
                bench.each_tick(2);
            }
        }
    }
    bench.title("no tick counts: such a clock stays, until it settles without ramp control");
    for ramp in [0x00, 0x08] {
        bench.load(ramping(MANUAL, ramp, 100, 100).set(CLOCK, 200));
        bench.ticks(0);
        bench.settle();
        bench.ticks(1);
    }
}

fn spin_up_cases(bench: &mut Bench) {
    bench.title("a spin-up with a duty and a clock: it reads 00h, its ticks leave both, its end sets both");
    for mode in ASKING {
        for ramp in [0x00, 0x0B] {
            for (duty, clock) in [(0, 9), (77, 0), (255, 255), (64, 3)] {
                let fields = ramping(mode, ramp, duty, 64).set(CLOCK, clock);
                bench.load(fields.left(4));
                bench.each_tick(2);
                bench.settle();
                bench.each_tick(2);
                bench.load(fields.left(4));
                bench.spun();
            }
        }
    }
}

fn left_cases(bench: &mut Bench) {
    bench.title("ticks left that no length gives: 1, past 320, the most");
    for left in [1, 2, 255, 256, 257, 321, 4096, 32768, 65534, 65535] {
        for ramp in [0x00, 0x08] {
            bench.load(ramping(MANUAL, ramp, 9, 64).left(left));
            bench.ticks(left - 1);
            bench.each_tick(2);
            bench.load(ramping(MANUAL, ramp, 9, 64).left(left));
            bench.ticks(left);
            bench.load(ramping(MANUAL, ramp, 9, 64).left(left));
            bench.ticks(65535);
        }
    }
}

fn forced_spin_up_cases(bench: &mut Bench) {
    bench.title("a spin-up of an output that is full or off: ticks go on to its end, tachs end it, settling ends it");
    let faulty = asking(0, 64).set(temperature(1), 0x80);
    let hot = asking(0, 64).set(temperature(3), 100);
    for fields in [
        asking(ALWAYS_FULL, 64),
        asking(DISABLED, 64),
        asking(MANUAL, 64).set(OVRID, 1),
        faulty,
        hot,
    ] {
        let fields = fields.set(RAMP, 0x0B).set(DUTY, 77).set(CLOCK, 5).left(3);
        bench.load(fields);
        bench.each_tick(4);
        bench.load(fields);
        bench.spun();
        bench.load(fields);
        bench.settle();
    }
}

fn zero_spin_up_cases(bench: &mut Bench) {
    bench.title("a spin-up with goal 0: its last tick and its tachs give 0, settling ends it");
    for mode in ASKING {
        for options in [SNAP, STEP_DOWN] {
            let fields = ramping(mode, 0x0B, 77, 0).set(OPTIONS, options).set(CLOCK, 5);
            bench.load(fields.left(2));
            bench.each_tick(3);
            bench.load(fields.left(2));
            bench.spun();
            bench.settle();
            bench.load(fields.left(2));
            bench.settle();
        }
    }
}

fn rest_cases(bench: &mut Bench) {
    bench.title(
        "a duty that is not the goal, without ramp control: ticks leave it, settling sets it, and the clock to 0",
    );
    for mode in 0..8 {
        bench.load(ramping(mode, 0x00, 99, 64).set(CLOCK, 5));
        bench.ticks(400);
        bench.spun();
        bench.settle();
        bench.settle();
    }
    bench.title("full at another duty, off at another duty, also 0 and 255");
    for mode in [ALWAYS_FULL, DISABLED] {
        for duty in [0, 1, 254, 255] {
            bench.load(ramping(mode, 0x08, duty, 64).set(CLOCK, 5));
            bench.each_tick(1);
            bench.settle();
        }
    }
    bench.title("goal 0 with SZEN 1, at a duty above 0: no ramp control, ticks leave it, settling sets it");
    bench.load(ramping(MANUAL, 0x0F, 99, 0));
    bench.each_tick(2);
    bench.settle();
    bench.title("at the goal without ramp control, with a clock: settling sets it to 0");
    bench.load(ramping(MANUAL, 0x00, 64, 64).set(CLOCK, 5));
    bench.settle();
}

fn from_zero_cases(bench: &mut Bench) {
    bench.title("duty 0 and a goal above it without a spin-up: the ramp moves it, settling starts one");
    for mode in ASKING {
        for ramp in [0x00, 0x08, 0x0F] {
            bench.load(ramping(mode, ramp, 0, 64).set(CLOCK, 5));
            bench.settle();
            bench.load(ramping(mode, ramp, 0, 64).set(CLOCK, 5));
            bench.each_tick(1);
            bench.settle();
            bench.ticks(12);
            bench.settle();
        }
    }
    bench.title("with a length of 0 it is at the goal, ramp control or not");
    for ramp in [0x00, 0x08] {
        bench.load(ramping(MANUAL, ramp, 0, 64).set(CLOCK, 5));
        bench.write(CONFIGURATION, configuration(MANUAL, 0));
        bench.write(SETTING, 70);
    }
}
