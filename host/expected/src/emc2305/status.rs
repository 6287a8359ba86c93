//! Status registers and the alert line.

use super::bench::{Bench, HEALTHY, STALLED};
use super::{at, CONFIGURATION, DRIVE_FAIL, ENABLE, FANS, LOCK, SPIN, STALL, STATUS};
use model::chip::{Watch, CONFIGURATION_1, CONFIGURATION_2, SETTING, SPIN_UP, VALID_COUNT};

pub fn cases(bench: &mut Bench) {
    bit_cases(bench);
    moment_cases(bench);
    standing_cases(bench);
    held_cases(bench);
    enable_cases(bench);
    mask_cases(bench);
}

fn bit_cases(bench: &mut Bench) {
    bench.title(
        "25h and 26h: bit i - 1 for fan i; 24h has bits 0 and 1 by them; a block read shows each, and clears it once the \
         reading is good",
    );
    bench.room(4);
    for fan in FANS {
        bench.power_on();
        bench.send(&[at(fan, SPIN_UP), 0x18]);
        bench.send(&[at(fan, SETTING), 0x80]);
        bench.ticks(19);
        bench.ticks(1);
        for count in [STALLED, HEALTHY] {
            bench.sample(fan, count);
            for _ in 0..2 {
                bench.send(&[STATUS]);
                bench.clock(4);
            }
        }
    }
    bench.title(
        "24h clears WATCH alone, 25h and 26h their own bits, 27h nothing, reads as 00h; of fans that are stuck none",
    );
    for healthy in [&FANS[..], &[2, 5], &[]] {
        for register in [STATUS, STALL, SPIN, DRIVE_FAIL] {
            bench.all_stand();
            bench.turn(healthy);
            bench.send(&[register]);
            bench.clock(1);
            bench.clock(1);
            bench.send(&[STATUS]);
            bench.clock(4);
            bench.clock(1);
        }
    }
}

fn moment_cases(bench: &mut Bench) {
    bench.title("in a block 24h shows 25h and 26h as they stand at that moment");
    for (first, count) in [(STALL, 2), (SPIN, 3), (0x23, 2), (0x23, 3)] {
        bench.all_stand();
        bench.turn(&[1, 4, 5]);
        bench.send(&[first]);
        bench.clock(count);
        bench.send(&[STATUS]);
        bench.clock(2);
    }
    bench.room(32);
    for first in [CONFIGURATION, 0x06, 0x05, 0x27] {
        bench.all_stand();
        bench.turn(&[3]);
        bench.send(&[first]);
        bench.clock(32);
    }
    bench.room(1);
}

fn standing_cases(bench: &mut Bench) {
    bench.title("a healthy sample, a write, a pointer set to it and a read of any other register clear no bit");
    bench.all_stand();
    bench.turn(&FANS);
    for register in [STATUS, STALL, SPIN] {
        bench.send(&[register]);
        bench.send(&[register, 0xFF]);
    }
    for register in [
        0x23,
        DRIVE_FAIL,
        0x28,
        ENABLE,
        CONFIGURATION,
        0xFF,
        0x00,
        at(1, SETTING),
    ] {
        bench.send(&[register]);
        bench.clock(1);
    }
    bench.title("a bit that was cleared is set again by the next stall, spin-up, firing");
    bench.all_stand();
    bench.turn(&FANS);
    for register in [STATUS, STALL, SPIN] {
        bench.send(&[register]);
        bench.clock(1);
    }
    for fan in [2, 5] {
        bench.sample(fan, STALLED);
    }
    bench.send(&[at(4, SETTING), 0]);
    bench.sample(4, STALLED);
    bench.send(&[at(4, SETTING), 9]);
    bench.ticks(20);
    bench.ticks(299);
    bench.ticks(1);
}

fn held_cases(bench: &mut Bench) {
    bench.title("a rotor that is held: fan 2 of five that turn, read again and again; then it turns");
    bench.settled(&[80; 5]);
    bench.sample(2, STALLED);
    for _ in 0..2 {
        for register in [STALL, SPIN, STATUS, STALL] {
            bench.send(&[register]);
            bench.clock(1);
            bench.ticks(100);
        }
        bench.sample(2, HEALTHY);
    }
    bench.title("each fan by itself: held, good, at drive 0, at the edge of Valid Count, in a spin-up; in any watch");
    for watch in [Watch::Off, Watch::PowerUp { count: 9 }, Watch::Continuous { count: 9 }] {
        for register in [STALL, SPIN] {
            bench.all_stand();
            bench.send(&[at(3, SETTING), 0]);
            bench.sample(2, HEALTHY);
            bench.send(&[at(4, VALID_COUNT), 0xFF]);
            bench.send(&[at(5, SETTING), 0]);
            bench.send(&[at(5, SETTING), 9]);
            bench.send(&[register]);
            bench.watch(watch);
            bench.clock(1);
            bench.clock(1);
            bench.send(&[at(4, VALID_COUNT), 0xFE]);
            bench.send(&[STATUS]);
            bench.clock(3);
            bench.clock(3);
        }
    }
    bench.title("down to goal 0 a fan keeps its bit until the drive is 0");
    bench.settled(&[20]);
    bench.send(&[at(1, CONFIGURATION_1), 0x28]);
    bench.send(&[at(1, CONFIGURATION_2), 0x68]);
    bench.sample(1, STALLED);
    bench.send(&[at(1, SETTING), 0]);
    bench.send(&[STALL]);
    for _ in 0..3 {
        bench.clock(1);
        bench.ticks(8);
    }
    bench.clock(1);
    bench.title("a spin-up that fails again and again: 26h shows it at each read, and not once it did not fail");
    bench.power_on();
    bench.loop_on(1);
    bench.send(&[SPIN]);
    for _ in 0..3 {
        bench.clock(1);
        bench.ticks(40);
    }
    bench.sample(1, HEALTHY);
    bench.ticks(40);
    bench.clock(1);
    bench.clock(1);
}

fn enable_cases(bench: &mut Bench) {
    bench.title("the alert line: a fan's enable bit gates its stall bit, no other does");
    for fan in FANS {
        let bit = 1 << (fan - 1);
        bench.settled(&[80; 5]);
        bench.sample(fan, STALLED);
        for enable in [bit, 0x1F ^ bit, 0xE0, 0xFF, 0x00] {
            bench.send(&[ENABLE, enable]);
        }
    }
    bench.title("and its spin bit");
    for fan in FANS {
        let bit = 1 << (fan - 1);
        bench.power_on();
        bench.send(&[at(fan, SPIN_UP), 0x18]);
        bench.send(&[ENABLE, bit]);
        bench.send(&[at(fan, SETTING), 0x80]);
        bench.ticks(19);
        bench.ticks(1);
        for enable in [0x1F ^ bit, 0xE0, 0xFF, 0x00] {
            bench.send(&[ENABLE, enable]);
        }
    }
    bench.title("the line goes off with the last enabled bit, and stays on for one that stays");
    for healthy in [&FANS[..], &[1, 3, 4, 5]] {
        bench.all_stand();
        bench.turn(healthy);
        bench.send(&[ENABLE, 0x12]);
        for register in [STATUS, STALL, SPIN] {
            bench.send(&[register]);
            bench.clock(1);
        }
    }
}

fn mask_cases(bench: &mut Bench) {
    bench.title("MASK 1 holds the line off, the bits stand");
    bench.settled(&[80]);
    bench.send(&[ENABLE, 0x01]);
    bench.sample(1, STALLED);
    for byte in [0xC0, 0x40, 0x80, 0x00, 0x7F, 0xFF] {
        bench.send(&[CONFIGURATION, byte]);
    }
    bench.send(&[STALL]);
    bench.clock(1);
    bench.title("WATCH is gated by MASK and not by 29h; reading 24h takes it back");
    bench.power_on();
    bench.ticks(320);
    for enable in [0x00, 0x1F, 0xFF, 0x00] {
        bench.send(&[ENABLE, enable]);
    }
    for byte in [0xC0, 0x40] {
        bench.send(&[CONFIGURATION, byte]);
    }
    bench.send(&[STATUS]);
    bench.clock(1);
    bench.title("locked: MASK stays as it is, 29h still gates");
    bench.settled(&[80]);
    bench.send(&[LOCK, 1]);
    bench.sample(1, STALLED);
    for (register, byte) in [(ENABLE, 1), (CONFIGURATION, 0xC0), (ENABLE, 0x1E), (ENABLE, 0xFF)] {
        bench.send(&[register, byte]);
    }
}
