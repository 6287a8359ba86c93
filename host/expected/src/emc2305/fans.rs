//! Five fans side by side, the document's examples, many ticks, power-on while powered.

use super::bench::{Bench, HEALTHY, STALLED};
use super::{at, CONFIGURATION, ENABLE, FANS, HOME, LOCK, STALL};
use crate::emc2305_fan::RAMPED;
use model::chip::{CONFIGURATION_1, CONFIGURATION_2, SETTING, SPIN_UP, TARGET_HIGH, VALID_COUNT};

pub fn cases(bench: &mut Bench) {
    one_fan_cases(bench);
    stall_cases(bench);
    example_cases(bench);
    five_fan_cases(bench);
    tick_cases(bench);
    power_cases(bench);
}

fn one_fan_cases(bench: &mut Bench) {
    bench.title("samples and wishes for each fan: only that fan changes");
    bench.settled(&[100, 110, 120, 130, 140]);
    for fan in FANS {
        bench.sample(fan, 1000 * u16::from(fan) + 37);
    }
    for fan in FANS {
        bench.wish(fan, 200 + fan);
    }
    for fan in FANS {
        bench.loop_on(fan);
    }
    for fan in FANS {
        bench.wish(fan, 200 + fan);
        bench.ticks(8);
    }
    for fan in FANS {
        bench.sample(fan, STALLED);
        bench.ticks(3);
    }
    for fan in FANS {
        bench.sample(fan, 0);
        bench.sample(fan, 7871);
    }
    bench.ticks(40);
    bench.registers();
}

fn stall_cases(bench: &mut Bench) {
    bench.title("stall at drive 128: 7871 no, 7872 yes, each fan by its own Valid Count");
    bench.settled(&[128; 5]);
    for fan in FANS {
        bench.sample(fan, 7871);
        bench.sample(fan, 7872);
        bench.send(&[STALL]);
        bench.clock(1);
    }
    for fan in FANS {
        bench.send(&[at(fan, VALID_COUNT), 10 * fan]);
    }
    for fan in FANS {
        bench.sample(fan, 320 * u16::from(fan) + 31);
        bench.sample(fan, 320 * u16::from(fan) + 32);
    }
}

fn example_cases(bench: &mut Bench) {
    bench.title("the document's log: Setting 80h of fan 1 reads FFh");
    bench.power_on_at(0x2C);
    bench.send(&[0x30, 0x80]);
    bench.clock(1);
    bench.title("default fan, Setting 80h at drive 0: 255 for 10 ticks, 153 for 30, then 128");
    bench.power_on();
    bench.send(&[at(3, SETTING), 0x80]);
    for count in [9, 1, 29, 1, 1] {
        bench.ticks(count);
    }
    bench.title("bit 6 set first: 153 at tick 40, 137 at 72, 128 at 104");
    bench.power_on();
    bench.send(&[at(4, CONFIGURATION_2), RAMPED]);
    bench.send(&[at(4, SETTING), 0x80]);
    for count in [10, 29, 1, 31, 1, 31, 1, 96] {
        bench.ticks(count);
    }
    bench.title("locked, write 37h: unchanged; write 30h: stored");
    bench.power_on();
    bench.send(&[LOCK, 1]);
    bench.send(&[0x37, 0x20]);
    bench.send(&[0x30, 0x80]);
}

fn five_fan_cases(bench: &mut Bench) {
    bench.title("five fans with settings of their own, spinning up and ramping at once");
    bench.power_on();
    let settings = [
        (0x28, 0x68, 0x00, 0x3F, 255),
        (0x29, 0x68, 0x25, 0x05, 30),
        (0x2A, 0x28, 0x1E, 0x10, 77),
        (0xAB, 0x28, 0x09, 0x20, 0),
        (0x2C, 0x68, 0x1F, 0x01, 128),
    ];
    for (fan, (configuration_1, configuration_2, spin_up, max_step, setting)) in (1..).zip(settings) {
        bench.sample(fan, 50 * u16::from(fan));
        bench.send(&[at(fan, SPIN_UP), spin_up, max_step]);
        bench.send(&[at(fan, TARGET_HIGH), 0x20]);
        bench.send(&[at(fan, CONFIGURATION_1), configuration_1, configuration_2]);
        bench.send(&[at(fan, SETTING), setting]);
    }
    bench.wish(4, 250);
    for _ in 0..30 {
        bench.ticks(7);
    }
    bench.wish(4, 10);
    for fan in [1, 2, 5] {
        bench.send(&[at(fan, SETTING), 250 - 40 * fan]);
    }
    for _ in 0..20 {
        bench.ticks(13);
    }
}

fn tick_cases(bench: &mut Bench) {
    bench.title("ticks 0 and 65535: with no watch, in the power-up watch, in continuous");
    bench.settled(&[10, 250]);
    bench.send(&[at(1, CONFIGURATION_2), RAMPED]);
    bench.send(&[at(1, SETTING), 240]);
    bench.ticks(0);
    bench.ticks(65535);
    bench.power_on();
    bench.ticks(0);
    bench.ticks(65535);
    bench.send(&[CONFIGURATION, 0x60]);
    for count in [0, 65535, 64, 1] {
        bench.ticks(count);
    }
}

fn power_cases(bench: &mut Bench) {
    bench.title("power-on while powered resets everything, with the new address");
    bench.all_stand();
    for fan in FANS {
        bench.sample(fan, 3 * HEALTHY);
        bench.loop_on(fan);
        bench.wish(fan, 3);
    }
    bench.send(&[ENABLE, 0xFF, 1, 2, 3, 4]);
    bench.send(&[LOCK, 0xFF]);
    bench.ticks(13);
    bench.power_on_at(0x4D);
    bench.registers();
    bench.send_to(HOME, &[]);
    bench.send_to(0x4D, &[0x37, 5]);
    bench.ticks(319);
    bench.ticks(1);
    bench.title("any address 0 to 127 is an ordinary one");
    for address in [0, 1, 0x0C, 126, 127] {
        bench.power_on_at(address);
        bench.send_to(address, &[0xFE]);
        bench.clock_at(address, 1);
        bench.send_to((address + 1) % 128, &[0xFD]);
        bench.send_to(address ^ 0x40, &[0xFD]);
    }
}
