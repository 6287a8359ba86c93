//! The register map: defaults, what is stored, what a read shows, the lock.

use super::bench::{row, Bench, HEALTHY};
use super::{at, CONFIGURATION, DRIVE_FAIL, FANS, HOME, IDENTITY, LOCK, SPIN, STALL, STATUS};
use crate::emc2305_fan::{OPEN, RAMPED};
use model::chip::{CONFIGURATION_1, CONFIGURATION_2, GAIN, MAX_STEP, READING_HIGH, READING_LOW, SETTING, VALID_COUNT};

pub fn cases(bench: &mut Bench) {
    default_cases(bench);
    store_cases(bench);
    unstored_cases(bench);
    setting_cases(bench);
    lock_cases(bench);
    locked_map_cases(bench);
    unlock_cases(bench);
}

fn default_cases(bench: &mut Bench) {
    bench.title("the identity bytes FCh to FFh of Table 5.1: 00 34 5D 80, in a block and one by one");
    bench.room(4);
    bench.power_on();
    bench.send(&[0xFC]);
    bench.clock(4);
    bench.room(1);
    for register in IDENTITY {
        bench.send(&[register]);
        bench.clock(1);
    }
    bench.title("power-on: every default of Table 5.1, and 00h of each undefined register");
    bench.power_on();
    bench.registers();
    bench.title("the same over the bus, in one sweep from pointer 00h back to 00h");
    bench.room(32);
    for _ in 0..8 {
        bench.clock(32);
    }
    bench.room(1);
}

fn store_cases(bench: &mut Bench) {
    for byte in [0xA5, 0x5A] {
        bench.title(&format!(
            "every register written with {byte:02X}h and read back: stored whole, or undefined, or read only"
        ));
        bench.power_on();
        for register in 0..=255 {
            bench.send(&[register, byte]);
            bench.clock(1);
        }
        bench.registers();
    }
}

fn unstored_cases(bench: &mut Bench) {
    bench.title("read-only registers store nothing, and a write clears no status bit");
    bench.all_stand();
    let readings = FANS.map(|fan| [at(fan, READING_HIGH), at(fan, READING_LOW)]);
    let status = [STATUS, STALL, SPIN, DRIVE_FAIL];
    for register in [&status[..], &IDENTITY, &readings.concat()].concat() {
        bench.send(&[register, 0xFF]);
        bench.send(&[register, 0x00]);
    }
    bench.send(&[STATUS, 0xFF, 0xFF, 0xFF, 0xFF]);
    bench.registers();
    bench.title("in closed loop a Setting write stores nothing: the stored Setting is the goal when the loop goes off");
    bench.settled(&[90, 91, 92, 93, 94]);
    for fan in FANS {
        bench.loop_on(fan);
        bench.send(&[at(fan, SETTING), 0x11]);
        bench.send(&[at(fan, CONFIGURATION_1), OPEN]);
    }
}

fn setting_cases(bench: &mut Bench) {
    bench.title("a Setting read shows the present drive and not the stored goal, of each fan");
    for fan in FANS {
        bench.power_on();
        bench.sample(fan, HEALTHY);
        bench.send(&[at(fan, CONFIGURATION_2), RAMPED]);
        bench.send(&[at(fan, SETTING), 0x80]);
        bench.clock(1);
        for count in [40, 32, 32] {
            bench.ticks(count);
            bench.clock(1);
        }
    }
}

fn lock_cases(bench: &mut Bench) {
    bench.title("EFh with bit 0 clear is not locked, and reads back whole");
    bench.power_on();
    for byte in [0x02, 0xFE, 0x80, 0x00] {
        bench.send(&[LOCK, byte]);
        bench.clock(1);
        bench.send(&[at(1, MAX_STEP), byte]);
        bench.clock(1);
    }
    bench.title("bit 0 locks, whatever the other bits: EFh itself too, 37h unchanged, 30h stored");
    for byte in [0x01, 0xFF, 0x83] {
        bench.power_on();
        bench.send(&[LOCK, byte]);
        for again in [0x00, 0x02, 0x7F] {
            bench.send(&[LOCK, again]);
            bench.clock(1);
        }
        bench.send(&[at(1, MAX_STEP), 0x3F]);
        bench.clock(1);
        bench.send(&[at(1, SETTING), 0x80]);
        bench.clock(1);
    }
}

fn locked_map_cases(bench: &mut Bench) {
    bench.title("locked: every register written, the unlocked ones stored");
    bench.power_on();
    bench.send(&[LOCK, 1]);
    // the pages with defined registers
    for register in (0x20..=0x7F).chain(0xE0..=0xFF) {
        bench.send(&[register, 0x3C]);
    }
    bench.registers();
    bench.title("locked: block writes over locked and unlocked registers");
    bench.power_on();
    bench.send(&[LOCK, 1]);
    for fan in [1, 3, 5] {
        bench.send(&row(at(fan, SETTING), 0x40..0x50));
    }
    bench.send(&row(CONFIGURATION, 0x60..0x70));
    bench.registers();
}

fn unlock_cases(bench: &mut Bench) {
    bench.title("unlocked again by power-on alone: not by ticks, a firing, samples, wishes, reads or refusals");
    bench.power_on();
    bench.send(&[LOCK, 0x03]);
    let acts: [fn(&mut Bench); 6] = [
        |bench| bench.ticks(320),
        |bench| bench.sample(1, HEALTHY),
        |bench| bench.wish(1, 1),
        |bench| bench.clock(1),
        |bench| bench.send_to(HOME + 1, &[LOCK, 0]),
        |bench| bench.power_on_at(128),
    ];
    for act in acts {
        act(bench);
        bench.send(&[at(2, GAIN), 0x77]);
    }
    bench.power_on();
    bench.send(&[at(2, GAIN), 0x77]);
    bench.title("a lock set in a block: the bytes after it move the pointer and change nothing");
    bench.power_on();
    bench.send(&[0xEE, 0xFF, 0x01, 0x00, 0x00]);
    bench.send(&[LOCK]);
    bench.clock(1);
    bench.send(&[LOCK, 0x00, 0x00]);
    bench.send(&[at(4, VALID_COUNT), 0x00]);
}
