//! The document's examples, and states that no run reaches.

use super::bench::{fan, Bench, CLOSED_OFF, CLOSED_ON, DIRECT, RAMPING};
use super::RAMPED;
use model::chip::{CONFIGURATION_2, FAIL_BAND_LOW, READING_HIGH, SETTING, VALID_COUNT};

pub fn cases(bench: &mut Bench) {
    example_cases(bench);
    spin_up_cases(bench);
    odd_spin_up_cases(bench);
    drive_cases(bench);
}

fn example_cases(bench: &mut Bench) {
    bench.title("default fan, Setting 80h at drive 0: 255 for 10 ticks, 153 for 30, then 128");
    bench.reset();
    bench.sample(100);
    bench.write(SETTING, 0x80);
    bench.each_tick(42);
    bench.title("bit 6 set first: 153 at tick 40, 137 at 72, 128 at 104");
    bench.reset();
    bench.sample(100);
    bench.write(CONFIGURATION_2, RAMPED);
    bench.write(SETTING, 0x80);
    bench.each_tick(106);
    bench.title("without a sample the reading is FFh: the same drives, and the 26h bit");
    bench.reset();
    bench.write(SETTING, 0x80);
    bench.ticks(39);
    bench.each_tick(2);
}

fn spin_up_cases(bench: &mut Bench) {
    bench.title("a spin-up at or past its last tick, or of length 0: the next tick ends it");
    for (elapsed, length) in [
        (38, 40),
        (39, 40),
        (40, 40),
        (41, 40),
        (200, 40),
        (255, 40),
        (0, 0),
        (9, 0),
        (255, 255),
        (254, 255),
        (253, 255),
        (0, 1),
        (1, 1),
        (0, 2),
    ] {
        for mode in [DIRECT, RAMPING, CLOSED_ON] {
            let healthy = fan(mode).set(READING_HIGH, 9).drive(255).clock(5);
            bench.load(healthy.spin(elapsed, length, true, 77));
            bench.each_tick(2);
        }
    }
    bench.title("the same where it failed");
    for (elapsed, length) in [(41, 40), (255, 40), (0, 0), (255, 255)] {
        for mode in [DIRECT, CLOSED_ON] {
            bench.load(fan(mode).drive(255).clock(5).spin(elapsed, length, true, 77));
            bench.each_tick(2);
        }
    }
}

fn odd_spin_up_cases(bench: &mut Bench) {
    let healthy = fan(DIRECT).set(READING_HIGH, 9).drive(3);
    bench.title("length 3 has a quarter of 0 ticks, 7 of 1, 255 of 63; levels and drives that no start gives");
    for (length, kick, level) in [
        (3, true, 77),
        (7, true, 77),
        (7, false, 0),
        (4, true, 255),
        (8, true, 1),
    ] {
        bench.load(healthy.spin(0, length, kick, level));
        bench.each_tick(length + 1);
    }
    bench.load(healthy.spin(61, 255, true, 77));
    bench.each_tick(3);
    bench.ticks(189);
    bench.each_tick(3);
}

fn drive_cases(bench: &mut Bench) {
    bench.title(
        "drive unequal to goal, no ramp control, no spin-up: ticks, samples, wishes leave it, a stored write sets it",
    );
    for mode in [DIRECT, CLOSED_OFF] {
        bench.load(fan(mode).drive(50).clock(5));
        bench.ticks(200);
        bench.sample(100);
        bench.wish(99);
        bench.write(READING_HIGH, 1);
        bench.write(VALID_COUNT, 0xF5);
    }
    bench.title("from drive 0 that write starts a spin-up; a stall in direct mode leaves it too");
    bench.load(fan(DIRECT).clock(5));
    bench.ticks(200);
    bench.write(FAIL_BAND_LOW, 7);
    bench.load(fan(DIRECT).drive(50));
    bench.sample(8191);
    bench.ticks(2);
    bench.title("driver off with a spin-up that runs: its ticks go on, in closed loop a failed one starts again");
    let off = fan(CLOSED_OFF).drive(255).clock(5).spin(38, 40, true, 153);
    bench.load(off);
    bench.each_tick(3);
    bench.load(off.set(READING_HIGH, 3));
    bench.each_tick(3);
}
