//! The page's examples, as far as they speak of one output.

use super::bench::{
    absolute_limit, low_limit, range, temperature, Bench, Fields, CLOCK, CONFIGURATION, MINIMUM, OVRID, RAMP, SETTING,
    START,
};
use super::{configuration, ramping, started, CALM, MANUAL, NONE};

pub fn cases(bench: &mut Bench) {
    duty_examples(bench);
    hottest_example(bench);
    ramp_examples(bench);
    spin_up_examples(bench);
    limit_example(bench);
}

fn duty_examples(bench: &mut Bench) {
    bench.title("a: M 128, L 50, R 8.00; M 0, L 40, R 3.33; M 55, L 20, R 6.67; M 100, L -5, R 2.00");
    for (minimum, low, code, temperatures) in [
        (128, 50, 0x6, vec![49, 50, 51, 54, 57, 58]),
        (0, 40, 0x2, vec![41, 42, 43, 44]),
        (55, 20, 0x5, vec![21]),
        (100, -5, 0x0, vec![-6, -5, -4, -3]),
    ] {
        let low: i8 = low;
        let fields = started(0).set(CONFIGURATION, configuration(0, NONE));
        bench.load(fields.set(MINIMUM, minimum));
        bench.write(low_limit(1), low as u8);
        bench.write(range(1), code << 4 | 3);
        for t in temperatures {
            let t: i8 = t;
            bench.write(temperature(1), t as u8);
            bench.zones();
        }
    }
}

fn hottest_example(bench: &mut Bench) {
    bench.title("b: zones at 52, 50, 60 ask 159, 207, 159: mode 6 gives 207, mode 2 159; zone 1 at 56: 223");
    let zones = started(6)
        .zone(1, [52, 0x63, 50, 100])
        .zone(2, [50, 0xC3, 30, 100])
        .zone(3, [60, 0xF3, 40, 100]);
    bench.load(zones);
    bench.zones();
    bench.settle();
    bench.write(CONFIGURATION, configuration(2, NONE));
    bench.write(CONFIGURATION, configuration(6, NONE));
    bench.write(temperature(1), 56);
    bench.zones();
}

fn ramp_examples(bench: &mut Bench) {
    bench.title("c: manual, 62h 0Bh, 255, setting 250: 255 after 3 ticks, 254 after 4, 251 after 19, 250 after 20");
    bench.load(started(MANUAL));
    bench.write(RAMP, 0x0B);
    bench.write(SETTING, 250);
    bench.each_tick(24);
    bench.ticks(1000);
    bench.title("d: d 100, g 103, u 17: p 16, t 1 gives 101; p 0, t 50 gives 102, t 51 gives 103");
    for (clock, ticks) in [(16, 1), (0, 50), (0, 51)] {
        bench.load(ramping(MANUAL, 0x08, 100, 103).set(CLOCK, clock));
        bench.ticks(ticks);
    }
}

/// Example e up to its spin-up, from power-on.
fn up_to_the_spin_up(bench: &mut Bench) {
    bench.reset();
    for (field, byte) in [
        (MINIMUM, 0),
        (low_limit(1), 40),
        (range(1), 0x23),
        (RAMP, 0x08),
        (CONFIGURATION, 0x02),
        (START, 1),
        (temperature(1), 40),
        (temperature(1), 41),
    ] {
        bench.write(field, byte);
    }
}

fn spin_up_examples(bench: &mut Bench) {
    bench
        .title("e: at 40 duty 0; at 41 a spin-up: reads 00h up to tick 19, 4Ch at tick 20; then 43: 77 after 17 ticks");
    up_to_the_spin_up(bench);
    bench.each_tick(20);
    bench.write(temperature(1), 43);
    bench.each_tick(18);
    bench.title("f: that spin-up, ended by its tachs; and once more when it is over");
    up_to_the_spin_up(bench);
    bench.ticks(7);
    bench.spun();
    bench.spun();
    bench.ticks(17);
}

fn limit_example(bench: &mut Bench) {
    bench.title("g: automatic on zones 1, 2, manual at 40h; zone 3 at 99, at 100, its limit 80h, OVRID, START 0");
    for mode in [0, 1, MANUAL] {
        let fields: Fields = started(mode).zone(3, [20, CALM[1], CALM[2], 0x64]);
        bench.load(fields.set(SETTING, 0x40));
        bench.write(temperature(3), 99);
        bench.write(temperature(3), 100);
        bench.write(absolute_limit(3), 0x80);
        bench.write(OVRID, 1);
        bench.write(OVRID, 0);
        bench.write(START, 0);
        bench.write(START, 1);
    }
}
