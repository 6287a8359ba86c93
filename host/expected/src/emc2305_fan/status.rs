//! What a read of 25h or of 26h leaves of the fan's bits.

use super::bench::{fan, Bench, CLOSED_ON, DIRECT, RAMPING};
use model::chip::{CONFIGURATION_1, MAX_STEP, READING_HIGH, SETTING, VALID_COUNT};

pub fn cases(bench: &mut Bench) {
    bench.title("a read clears its own bit, unless the reading is above Valid Count while the drive is above 0");
    for (reading, valid) in [
        (0xF5, 0xF5),
        (0xF6, 0xF5),
        (0x00, 0x00),
        (0x01, 0x00),
        (0xFF, 0xFE),
        (0xFF, 0xFF),
    ] {
        for drive in [0, 1, 255] {
            for bits in [(true, true), (true, false), (false, true), (false, false)] {
                let held = fan(&[(SETTING, drive), (READING_HIGH, reading), (VALID_COUNT, valid)]);
                let held = held.drive(drive).bits(bits.0, bits.1);
                bench.load(held);
                bench.read_stall();
                bench.load(held);
                bench.read_spin();
            }
        }
    }
    held_cases(bench);
    moving_cases(bench);
}

fn held_cases(bench: &mut Bench) {
    bench.title("a rotor that is held, and one that turns again");
    bench.load(fan(DIRECT).drive(128));
    bench.sample(8191);
    for _ in 0..3 {
        bench.read_stall();
    }
    bench.sample(7872);
    bench.read_stall();
    bench.sample(7871);
    bench.read_stall();
    bench.read_stall();
    bench.title("in a spin-up too, in closed loop and in direct mode; Valid Count as it is when the read comes");
    for mode in [DIRECT, CLOSED_ON] {
        bench.load(fan(mode).drive(255).spin(3, 40, true, 153).bits(true, true));
        bench.read_stall();
        bench.read_spin();
        bench.write(VALID_COUNT, 0xFF);
        bench.read_spin();
        bench.write(VALID_COUNT, 0xF5);
        bench.read_stall();
    }
}

fn moving_cases(bench: &mut Bench) {
    bench.title("the drive decides and not the goal: down to goal 0, and up from drive 0");
    bench.load(
        fan(RAMPING)
            .set(CONFIGURATION_1, 0x28)
            .set(MAX_STEP, 10)
            .drive(20)
            .bits(true, true),
    );
    bench.write(SETTING, 0);
    for _ in 0..3 {
        bench.read_stall();
        bench.ticks(8);
    }
    bench.read_spin();
    bench.load(fan(RAMPING).set(CONFIGURATION_1, 0x28).bits(true, true));
    bench.read_spin();
    bench.ticks(8);
    bench.read_stall();
    bench.title("the watchdog drives it");
    bench.load(fan(&[]).bits(true, true));
    bench.watchdog();
    bench.read_stall();
    bench.read_spin();
}
