//! Samples, stalls, and the watchdog's effect on a fan.

use super::bench::{fan, Bench, CLOSED_OFF, CLOSED_ON, DIRECT, RAMPING};
use super::CLOSED;
use model::chip::{CONFIGURATION_1, MINIMUM_DRIVE, SETTING, SPIN_UP, VALID_COUNT};

pub fn cases(bench: &mut Bench) {
    sample_cases(bench);
    judging_cases(bench);
    stall_cases(bench);
    watchdog_cases(bench);
}

fn sample_cases(bench: &mut Bench) {
    bench.title("a sample makes the reading registers the count x 8");
    for count in [0, 1, 31, 32, 33, 4096, 7871, 7872, 8191, 8192, 16384, 65535] {
        bench.reset();
        bench.sample(count);
        bench.registers();
    }
    bench.title("stall: 7871 no, 7872 yes, at drive 128, no spin-up, no watch");
    bench.load(fan(DIRECT).drive(128));
    bench.sample(7871);
    bench.sample(7872);
    bench.title("a healthy sample clears no bit");
    bench.sample(100);
}

fn judging_cases(bench: &mut Bench) {
    bench.title("not at drive 0, not in spin-up, not in the power-up watch");
    bench.load(fan(&[]));
    bench.sample(7872);
    bench.load(fan(DIRECT).drive(255).spin(3, 40, true, 153));
    bench.sample(7872);
    bench.load(fan(DIRECT).drive(128));
    bench.sample_with(7872, true);
    bench.load(fan(CLOSED_ON).drive(128));
    bench.sample_with(7872, true);
    bench.title("a tick never judges, and no write does: only the next sample");
    bench.ticks(1);
    bench.write(VALID_COUNT, 0);
    bench.ticks(40);
    bench.sample(32);
    bench.title("the threshold is Valid Count: 0, 1, 254, 255");
    for valid in [0, 1, 254, 255] {
        let edge = u16::from(valid) * 32 + 31;
        for count in [edge, edge + 1] {
            bench.load(fan(&[(SETTING, 1), (VALID_COUNT, valid)]).drive(1));
            bench.sample(count);
        }
    }
}

fn stall_cases(bench: &mut Bench) {
    bench.title("a stall in closed loop starts a spin-up; the clock stays");
    bench.load(fan(CLOSED_ON).drive(128).wish(128).clock(5));
    bench.sample(7871);
    bench.sample(7872);
    bench.ticks(1);
    bench.sample(8191);
    bench.ticks(39);
    bench.title("with Spin Up's bytes of then");
    bench.load(fan(CLOSED_ON).set(SPIN_UP, 0x20).drive(128).wish(128));
    bench.sample(8191);
    bench.title("in direct mode it sets the bit alone");
    bench.load(fan(RAMPING).drive(128).clock(5));
    bench.sample(8191);
    bench.title("it asks no goal above 0: Minimum Drive 0 and wish 0, and a loaded drive with the driver off");
    bench.load(fan(CLOSED_ON).set(MINIMUM_DRIVE, 0).drive(128));
    bench.sample(8191);
    bench.ticks(39);
    bench.each_tick(1);
    bench.load(fan(CLOSED_OFF).drive(128));
    bench.sample(8191);
    bench.ticks(39);
    bench.each_tick(1);
    bench.sample(0);
    bench.ticks(39);
    bench.each_tick(2);
}

fn watchdog_cases(bench: &mut Bench) {
    bench
        .title("watchdog: Setting FFh, drive 255, loop off, spin-up ended, update clock 0; the wish and the bits stay");
    bench.reset();
    bench.watchdog();
    bench.registers();
    bench.load(fan(RAMPING).drive(153).wish(7).clock(5).bits(true, true));
    bench.watchdog();
    bench.ticks(32);
    bench.registers();
    bench.title("in closed loop: bit 7 of Configuration 1 cleared, its other bits kept");
    for byte in [CLOSED, 0xFF, 0x80] {
        let closed = fan(CLOSED_ON).set(CONFIGURATION_1, byte);
        bench.load(closed.drive(128).wish(9).clock(5));
        bench.watchdog();
        bench.registers();
    }
    bench.title("with the driver off");
    bench.load(fan(CLOSED_OFF).wish(9));
    bench.watchdog();
    bench.write(CONFIGURATION_1, CLOSED);
    bench.title("in a spin-up, direct and closed loop");
    for mode in [DIRECT, CLOSED_ON] {
        bench.load(fan(mode).drive(153).wish(9).clock(5).spin(20, 40, true, 153));
        bench.watchdog();
        bench.ticks(40);
    }
    bench.registers();
}
