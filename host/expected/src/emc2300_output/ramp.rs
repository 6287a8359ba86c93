//! The ramp: rates, updates, the clock, new goals, what ends ramp control, SZEN.

use super::bench::{
    absolute_limit, low_limit, temperature, Bench, CLOCK, CONFIGURATION, DUTY, MINIMUM, OPTIONS, OVRID, RAMP, SETTING,
    START,
};
use super::{configuration, ramping, started, ALWAYS_FULL, ASKING, DISABLED, MANUAL, NONE, SNAP, STEP_DOWN, TWENTY};

/// The ticks of one step by the rate.
pub const RATES: [u8; 8] = [17, 9, 6, 4, 3, 2, 1, 1];

pub fn cases(bench: &mut Bench) {
    rate_cases(bench);
    at_once_cases(bench);
    phase_cases(bench);
    number_cases(bench);
    new_goal_cases(bench);
    clock_rule_cases(bench);
    no_control_cases(bench);
    forced_cases(bench);
    to_zero_cases(bench);
    snap_cases(bench);
}

fn rate_cases(bench: &mut Bench) {
    bench.title(
        "each rate, tick by tick, with a goal above and one below: two steps, then it stays and the clock counts",
    );
    for (rate, ticks) in (0..).zip(RATES) {
        for goal in [102, 98] {
            bench.load(ramping(MANUAL, 0x08 | rate, 100, goal));
            bench.each_tick(u16::from(ticks) * 3 + 1);
            bench.settle();
        }
    }
    bench.title("in automatic modes too");
    for mode in ASKING {
        bench.load(ramping(mode, 0x0C, 100, 98));
        bench.each_tick(7);
        bench.settle();
    }
}

fn at_once_cases(bench: &mut Bench) {
    bench.title("many ticks at once: one before the arrival, at it, past it; from end to end");
    for (rate, ticks) in (0..).zip(RATES) {
        for (duty, goal) in [(100, 110), (110, 100), (1, 255), (255, 1), (0, 255)] {
            let distance = u16::from(u8::abs_diff(duty, goal)) * u16::from(ticks);
            bench.load(ramping(MANUAL, 0x08 | rate, duty, goal));
            bench.ticks(distance - 1);
            bench.ticks(1);
            bench.ticks(1);
            bench.ticks(65535);
        }
    }
    bench.title("no ticks at all, and the most");
    for count in [0, 255, 256, 65535] {
        bench.load(ramping(MANUAL, 0x08, 1, 255).set(CLOCK, 3));
        bench.ticks(count);
    }
}

fn phase_cases(bench: &mut Bench) {
    bench.title("each clock of each rate: one tick before the update, at it, after it, three rates on");
    for (rate, ticks) in (0..).zip(RATES) {
        for clock in 0..ticks {
            let left = u16::from(ticks - clock);
            for count in [left - 1, left, left + 1, left + 3 * u16::from(ticks)] {
                bench.load(ramping(MANUAL, 0x08 | rate, 100, 50).set(CLOCK, clock));
                bench.ticks(count);
            }
        }
    }
}

fn number_cases(bench: &mut Bench) {
    bench.title("ramp numbers: without the enable bit no ramp; of larger ones the low four bits count");
    for ramp in (0..16).chain([0x10, 0x18, 0x7B, 0xE0, 0xE8, 0xF7, 0xFF]) {
        bench.load(ramping(MANUAL, 0x08, 100, 50));
        bench.write(RAMP, ramp);
        bench.ticks(17);
    }
}

fn new_goal_cases(bench: &mut Bench) {
    bench.title("a new goal leaves the clock: onward, to where the duty is, back, past it");
    bench.load(ramping(MANUAL, 0x08, 100, 110));
    for goal in [120, 101, 100, 90, 255, 1] {
        bench.ticks(20);
        bench.write(SETTING, goal);
        bench.settle();
    }
    bench.title("and by temperature, low limit and minimum");
    let zone = [54, 0x63, 50, 100];
    bench.load(ramping(0, 0x0B, 191, 128).zone(1, zone));
    for (field, byte) in [
        (temperature(1), 55),
        (temperature(1), 53),
        (low_limit(1), 40),
        (MINIMUM, 10),
        (low_limit(1), 50),
        (temperature(2), 99),
        (temperature(3), 0x80),
    ] {
        bench.ticks(6);
        bench.write(field, byte);
        bench.settle();
    }
    bench.ticks(1000);
    bench.title("it counts at the goal: a goal that comes later finds it where it is");
    for wait in [1, 8, 16, 17, 18, 33, 34] {
        bench.load(ramping(MANUAL, 0x08, 100, 100));
        bench.ticks(wait);
        bench.write(SETTING, 101);
        bench.ticks(16);
        bench.each_tick(1);
    }
}

fn clock_rule_cases(bench: &mut Bench) {
    bench.title("a write of the ramp sets the clock to 0, one of another field does not: each written as it stands");
    for mode in 0..8 {
        let fields = ramping(mode, 0x08, 100, 50).set(CLOCK, 5);
        for field in 0..=absolute_limit(3) {
            bench.load(fields);
            bench.write(field, fields.bytes()[usize::from(field)]);
        }
    }
    bench.title("another rate, faster and slower, with the clock running");
    for (before, after) in [(0x08, 0x0B), (0x0B, 0x08), (0x08, 0x0F), (0x0F, 0x08), (0x08, 0x08)] {
        bench.load(ramping(MANUAL, before, 100, 50));
        bench.ticks(16);
        bench.write(RAMP, after);
        bench.ticks(3);
        bench.ticks(1);
        bench.ticks(13);
    }
    bench.title(
        "a loaded duty that is not the goal: the write that enables the ramp leaves it, and the ramp begins there",
    );
    bench.load(ramping(MANUAL, 0x00, 100, 50).set(CLOCK, 5));
    bench.ticks(40);
    bench.write(RAMP, 0x08);
    bench.ticks(40);
}

fn no_control_cases(bench: &mut Bench) {
    bench.title("ramp control taken away on the way: the duty is the goal at once, clock 0; given back: from there");
    for mode in ASKING {
        bench.load(ramping(mode, 0x09, 100, 50));
        bench.ticks(13);
        bench.write(RAMP, 0x01);
        bench.ticks(13);
        bench.write(RAMP, 0x09);
        bench.write(SETTING, 60);
        bench.write(MINIMUM, 60);
        bench.ticks(13);
    }
}

fn forced_cases(bench: &mut Bench) {
    bench.title("full and off do not ramp, and set the clock to 0; the way back does, after off by a spin-up");
    for mode in ASKING {
        for (field, byte, back) in [
            (START, 0, 1),
            (OVRID, 1, 0),
            (
                CONFIGURATION,
                configuration(ALWAYS_FULL, TWENTY),
                configuration(mode, TWENTY),
            ),
            (
                CONFIGURATION,
                configuration(DISABLED, TWENTY),
                configuration(mode, TWENTY),
            ),
            (temperature(1), 100, 20),
            (temperature(2), 0x80, 20),
            (absolute_limit(3), 20, 100),
        ] {
            bench.load(ramping(mode, 0x0A, 100, 90));
            bench.ticks(8);
            bench.write(field, byte);
            bench.settle();
            bench.ticks(8);
            bench.write(field, back);
            bench.settle();
            bench.ticks(26);
        }
    }
}

fn to_zero_cases(bench: &mut Bench) {
    bench.title(
        "goal 0 with SZEN 1: off at once; with SZEN 0: step by step, then the clock counts; no spin-up at goal 0",
    );
    for mode in ASKING {
        for options in [SNAP, STEP_DOWN, 0x04, 0xFB, 0x00, 0xFF] {
            bench.load(ramping(mode, 0x0D, 3, 3).set(OPTIONS, options));
            bench.ticks(1);
            bench.write(SETTING, 0);
            bench.write(MINIMUM, 0);
            bench.each_tick(8);
            bench.settle();
        }
    }
    bench.title("the same without ramp control");
    for options in [SNAP, STEP_DOWN] {
        bench.load(ramping(MANUAL, 0x05, 3, 3).set(OPTIONS, options));
        bench.write(SETTING, 0);
        bench.each_tick(2);
    }
    bench.title("a new goal at duty 1 on the way down: it turns; at duty 0: a spin-up, and the ramp from its goal");
    for ticks in [4, 6] {
        bench.load(ramping(MANUAL, 0x0D, 3, 0).set(OPTIONS, STEP_DOWN));
        bench.ticks(ticks);
        bench.write(SETTING, 9);
        bench.ticks(20);
        bench.settle();
        bench.write(SETTING, 7);
        bench.ticks(3);
    }
}

fn snap_cases(bench: &mut Bench) {
    bench.title("SZEN set on the way down to 0: off at once; cleared at 0: it stays there");
    for mode in [0, MANUAL] {
        bench.load(ramping(mode, 0x0D, 30, 0).set(OPTIONS, STEP_DOWN));
        bench.ticks(7);
        bench.write(OPTIONS, SNAP);
        bench.ticks(7);
        bench.write(OPTIONS, STEP_DOWN);
        bench.ticks(7);
        bench.settle();
    }
    bench.title("SZEN has no part where the goal is above 0");
    for options in [SNAP, STEP_DOWN] {
        bench.load(ramping(MANUAL, 0x0D, 3, 1).set(OPTIONS, options));
        bench.settle();
        bench.each_tick(5);
    }
    bench.title("automatic with minimum 0: down to the low limit and below it, SZEN 1 and 0");
    for options in [SNAP, STEP_DOWN] {
        let zone = [42, 0x23, 40, 100];
        let fields = started(0)
            .zone(1, zone)
            .set(OPTIONS, options)
            .set(RAMP, 0x0F)
            .set(MINIMUM, 0);
        bench.load(fields.set(DUTY, 153).set(CONFIGURATION, configuration(0, NONE)));
        for t in [41, 40, 39, 40, 41, 42] {
            bench.write(temperature(1), t);
            bench.ticks(50);
        }
    }
}
