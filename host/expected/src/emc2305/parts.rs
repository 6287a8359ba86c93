//! The parts with one, two and three fans: absent registers, 21 and 15, both watches, status, power-on of another part.

use super::bench::{row, Bench, HEALTHY, STALLED};
use super::{at, CONFIGURATION, ENABLE, FANS, HOME, LOCK, SPIN, STALL, STATUS};
use crate::emc2305_fan::{CLOSED, ON, RAMPED};
use crate::events::{clock, send};
use model::chip::{
    Watch, CONFIGURATION_1, CONFIGURATION_2, DIVIDE, MAX_STEP, READING_HIGH, SETTING, SPIN_UP, TARGET_HIGH,
};

/// How many fans the parts of kind 6 have.
const PARTS: [u8; 3] = [1, 2, 3];
/// With the part of kind 1.
const NUMBERS: [u8; 4] = [1, 2, 3, 5];

pub fn cases(bench: &mut Bench) {
    default_cases(bench);
    store_cases(bench);
    locked_cases(bench);
    block_cases(bench);
    pointer_cases(bench);
    number_cases(bench);
    absent_fan_cases(bench);
    order_cases(bench);
    fan_cases(bench);
    status_cases(bench);
    enable_cases(bench);
    power_up_cases(bench);
    not_ending_cases(bench);
    continuous_cases(bench);
    past_the_end_cases(bench);
    power_on_cases(bench);
    middle_cases(bench);
    unpowered_cases(bench);
}

impl Bench {
    /// Kind 6, or kind 1 where there are five fans.
    fn start(&mut self, fans: u8) {
        if fans == 5 {
            self.power_on();
        } else {
            self.part_on(fans);
        }
    }

    /// The same, with every fan that there is at a drive of its own in direct mode, the spin-ups past, no watch.
    fn started(&mut self, fans: u8) {
        self.start(fans);
        for fan in 1..=fans {
            self.sample(fan, HEALTHY);
            self.send(&[at(fan, SETTING), 100 + 10 * fan]);
        }
        self.ticks(40);
    }
}

/// The first register past those of a part's fans.
fn edge(fans: u8) -> u8 {
    at(fans, SETTING) + 0x10
}

fn default_cases(bench: &mut Bench) {
    for fans in PARTS {
        bench.title(&format!(
            "a part with {fans}: every default of Table 5.1, and 00h of absent fans' registers"
        ));
        bench.part_on(fans);
        bench.registers();
        bench.room(32);
        for _ in 0..8 {
            bench.clock(32);
        }
        bench.room(1);
        for register in (edge(fans) - 1..=0x80).chain(0xFC..=0xFF) {
            bench.send(&[register]);
            bench.clock(1);
        }
    }
}

fn store_cases(bench: &mut Bench) {
    for fans in PARTS {
        bench.title(&format!(
            "a part with {fans}: registers written and read back, those of absent fans store nothing"
        ));
        bench.part_on(fans);
        for register in (0x20..=0x81).chain([LOCK - 1, LOCK, 0xFC, 0xFD, 0xFE, 0xFF]) {
            bench.send(&[register, 0x5A]);
            bench.clock(1);
        }
        bench.registers();
    }
}

fn locked_cases(bench: &mut Bench) {
    bench.title("locked parts: 37h unchanged, 30h stored, 29h stored, absent registers as ever");
    for fans in PARTS {
        bench.part_on(fans);
        bench.send(&[LOCK, 1]);
        bench.send(&[0x37, 0x3F]);
        bench.send(&[0x30, 0x80]);
        bench.send(&[ENABLE, 0xFF]);
        bench.send(&row(edge(fans) - 8, 0x40..0x50));
        bench.send(&[LOCK, 0]);
        bench.registers();
    }
}

/// Pointers before the edge, at it and past it, and where the absent registers end.
fn near_the_edge(fans: u8) -> [u8; 9] {
    let edge = edge(fans);
    [0x2E, edge - 16, edge - 4, edge - 1, edge, edge + 1, 0x70, 0x7E, 0x7F]
}

fn block_cases(bench: &mut Bench) {
    bench.room(32);
    for fans in PARTS {
        bench.title(&format!(
            "a part with {fans}: blocks before absent registers, into them, within them and out of them"
        ));
        for first in near_the_edge(fans) {
            for count in [2, 3, 31] {
                bench.part_on(fans);
                bench.send(&row(first, 0x41..0x41 + count));
                bench.clock(1);
                bench.send(&[first]);
                bench.clock(count);
                bench.clock(2);
            }
        }
    }
    bench.title("a block that turns the loop on in the last fan and goes on over absent registers, and one from 1Fh");
    for fans in PARTS {
        bench.started(fans);
        bench.send(&row(
            at(fans, DIVIDE),
            [0x01, CLOSED, 0x28].into_iter().chain([0x80; 28]),
        ));
        bench.ticks(9);
        bench.send(&row(0x1F, [0, 0x60].into_iter().chain([0x80; 29])));
        bench.registers();
    }
    bench.room(1);
}

fn pointer_cases(bench: &mut Bench) {
    bench.title("the pointer over absent registers: one data byte leaves it, two or more move it");
    bench.room(32);
    for fans in PARTS {
        bench.part_on(fans);
        for first in [edge(fans) - 2, edge(fans), 0x6F, 0x7D] {
            bench.send(&[first]);
            for count in [1, 1, 3, 1, 2, 17, 32] {
                bench.clock(count);
            }
            bench.send(&[first, 0x33]);
            bench.clock(1);
            bench.send(&[first, 0x33, 0x44]);
            bench.clock(2);
            bench.send(&[]);
        }
    }
    bench.room(1);
}

fn number_cases(bench: &mut Bench) {
    bench.title("15: every number of fans but 1, 2 and 3, before power-on and after");
    bench.fresh();
    for fans in (4..=255).chain(0..=3) {
        bench.part_on(fans);
    }
    bench.started(2);
    for fans in [0, 4, 5, 6, 128, 255] {
        bench.part_on(fans);
    }
    bench.title("10 before 15");
    bench.fresh();
    for address in [128, HOME + 128, 255] {
        for fans in [0, 1, 2, 3, 4, 5, 255] {
            bench.part_on_at(address, fans);
        }
    }
    bench.started(3);
    for address in [128, 255] {
        for fans in [0, 3, 5, 255] {
            bench.part_on_at(address, fans);
        }
    }
    bench.title("parts at any address 0 to 127");
    for (address, fans) in [(0, 1), (1, 2), (0x0C, 3), (126, 1), (127, 2)] {
        bench.part_on_at(address, fans);
        bench.send_to(address, &[0xFD]);
        bench.clock_at(address, 1);
        bench.send_to((address + 1) % 128, &[0xFD]);
    }
}

fn absent_fan_cases(bench: &mut Bench) {
    bench.title("21: a sample or a wish for an absent fan, which changes nothing; in closed loop and in any watch too");
    for fans in NUMBERS {
        bench.start(fans);
        for fan in FANS {
            bench.sample(fan, STALLED);
            bench.wish(fan, 7);
        }
        bench.started(fans);
        bench.loop_on(fans);
        bench.send(&[CONFIGURATION, 0x60]);
        bench.ticks(9);
        for fan in FANS {
            bench.sample(fan, 0);
            bench.sample(fan, STALLED);
            bench.wish(fan, 255);
        }
        bench.ticks(1);
    }
}

fn order_cases(bench: &mut Bench) {
    bench.title("5 and 9 before 21, whatever the fan; 21 whatever the room");
    for fans in PARTS {
        bench.started(fans);
        for size in [0, 1] {
            bench.room(size);
            for fan in [0, 1, 2, 3, 4, 5, 6, 7, 128, 255] {
                bench.sample(fan, 8192);
                bench.sample(fan, 65535);
                bench.sample(fan, HEALTHY);
                bench.wish(fan, 1);
            }
        }
    }
    bench.title("7 and 8 of a part: another address, a read with less room than it clocks, over absent registers too");
    for fans in PARTS {
        bench.started(fans);
        bench.send(&[edge(fans)]);
        bench.room(3);
        for address in [0, HOME - 1, HOME + 1, 127] {
            bench.send_to(address, &[edge(fans), 1]);
            bench.clock_at(address, 4);
        }
        for count in [4, 32, 3] {
            bench.clock(count);
        }
        bench.transfer(&send(HOME, 0, 33), &[0; 40]);
        bench.transfer(&clock(HOME, 0, 1), &[33]);
        bench.room(1);
    }
}

fn fan_cases(bench: &mut Bench) {
    bench.title("every Setting written: the fans that there are spin up and come to it");
    for fans in NUMBERS {
        bench.start(fans);
        for fan in FANS {
            bench.send(&[at(fan, SETTING), 0x80 + fan]);
        }
        for count in [9, 1, 29, 1, 1] {
            bench.ticks(count);
        }
    }
    bench.title("a ramp of the last fan, with traffic for absent fans: 153 at tick 40, 137 at 72, 128 at 104");
    for fans in NUMBERS {
        bench.start(fans);
        bench.send(&[at(fans, CONFIGURATION_2), RAMPED]);
        bench.send(&[at(fans, SETTING), 0x80]);
        for count in [40, 31, 1, 31, 1, 96] {
            bench.ticks(count);
            for fan in fans + 1..=5 {
                bench.wish(fan, 200);
                bench.send(&row(at(fan, SETTING), [0xFF, 1, 0xAB, 0x68]));
            }
        }
    }
    bench.title("the loop of the last fan: wish, driver off and on, a stall that spins up");
    for fans in NUMBERS {
        bench.started(fans);
        bench.loop_on(fans);
        bench.send(&[at(fans, MAX_STEP), 5]);
        bench.wish(fans, 250);
        bench.ticks(20);
        bench.send(&[at(fans, TARGET_HIGH), 0xFF]);
        bench.send(&[at(fans, TARGET_HIGH), ON]);
        bench.ticks(41);
        bench.sample(fans, STALLED);
        bench.ticks(40);
        bench.sample(fans, HEALTHY);
        bench.ticks(60);
    }
    bench.title("65535 ticks");
    for fans in PARTS {
        bench.started(fans);
        bench.send(&[at(fans, CONFIGURATION_2), RAMPED]);
        bench.send(&[at(fans, SETTING), 250]);
        bench.ticks(65535);
        bench.part_on(fans);
        bench.ticks(65535);
    }
}

/// Every bit that can be set: all spin-ups failed, all rotors held, the continuous watch fired.
fn all_stand(bench: &mut Bench, fans: u8) {
    bench.start(fans);
    for fan in FANS {
        bench.send(&[at(fan, SPIN_UP), 0x18]);
        bench.send(&[at(fan, SETTING), 0x80]);
    }
    bench.ticks(20);
    for fan in FANS {
        bench.sample(fan, STALLED);
    }
    bench.send(&[CONFIGURATION, 0x60]);
    bench.ticks(320);
}

fn status_cases(bench: &mut Bench) {
    bench.title("25h and 26h show 0 for absent fans; 24h and what a read keeps go by the fans that there are");
    bench.room(4);
    for fans in NUMBERS {
        for healthy in [&[][..], &[1], &FANS[..usize::from(fans)]] {
            all_stand(bench, fans);
            bench.turn(healthy);
            for _ in 0..2 {
                bench.send(&[STATUS]);
                bench.clock(4);
            }
            for register in [STALL, SPIN, STATUS] {
                bench.send(&[register]);
                bench.clock(1);
            }
        }
    }
    bench.room(1);
    bench.title("writes to 24h, 25h and 26h set nothing");
    for fans in PARTS {
        bench.started(fans);
        bench.send(&[STATUS, 0xFF, 0xFF, 0xFF, 0xFF]);
        bench.send(&[STALL, 0xFF]);
    }
}

fn enable_cases(bench: &mut Bench) {
    bench.title("29h is stored whole, and its bits for absent fans do nothing");
    for fans in PARTS {
        let bits = (1 << fans) - 1;
        for fan in 1..=fans {
            bench.started(fans);
            bench.sample(fan, STALLED);
            for enable in [!bits, 1 << (fan - 1), 0x1F & !bits, 0xE0, 0xFF, bits, 0x00] {
                bench.send(&[ENABLE, enable]);
                bench.clock(1);
            }
        }
        // no bit stands, all enabled; then WATCH alone
        bench.started(fans);
        bench.send(&[ENABLE, 0xFF]);
        for fan in FANS {
            bench.send(&[at(fan, SETTING), 0x90]);
            bench.sample(fan, HEALTHY);
        }
        bench.ticks(50);
        bench.part_on(fans);
        bench.send(&[ENABLE, !bits]);
        bench.ticks(320);
        bench.send(&[STATUS]);
        bench.clock(1);
    }
}

fn power_up_cases(bench: &mut Bench) {
    bench.title("the power-up watch of a part: 319 idle ticks nothing, 320 FFh for the fans that there are, once");
    for fans in PARTS {
        bench.part_on(fans);
        bench.ticks(319);
        bench.ticks(1);
        bench.registers();
        bench.ticks(640);
    }
}

fn not_ending_cases(bench: &mut Bench) {
    bench.title("a write to an absent fan does not end the power-up watch, one to a fan that is there does");
    for fans in PARTS {
        for fan in FANS {
            for sent in [
                [at(fan, SETTING), 0x00],
                [at(fan, SETTING), 0x80],
                [at(fan, CONFIGURATION_1), CLOSED],
            ] {
                bench.part_on(fans);
                bench.ticks(319);
                bench.send(&sent);
                bench.ticks(1);
            }
        }
    }
    bench.title("nor does a block over the edge by its bytes past it, and one into a fan does");
    for fans in PARTS {
        for sent in [
            row(edge(fans) - 1, [0, 0x80, 1, 0xAB]),
            row(at(fans, READING_HIGH), [0x80; 31]),
            row(0x7E, [0x80; 20]),
            row(0x2F, [0, 0x80]),
            row(at(fans, DIVIDE), [0xAB; 31]),
        ] {
            bench.part_on(fans);
            bench.ticks(100);
            bench.send(&sent);
            bench.ticks(220);
        }
    }
}

fn continuous_cases(bench: &mut Bench) {
    bench.title(
        "the continuous watch of a part: fed by a transfer to an absent register, not by 21; it fires again and again",
    );
    for fans in PARTS {
        bench.started(fans);
        bench.loop_on(fans);
        bench.send(&[CONFIGURATION, 0x60]);
        let feeding: [fn(&mut Bench); 4] = [
            |bench| bench.send(&[0x70, 0x80]),
            |bench| bench.send(&[0x72]),
            |bench| bench.clock(1),
            |bench| bench.send(&[0x7E, 1, 2, 3]),
        ];
        for act in feeding {
            bench.ticks(319);
            act(bench);
        }
        bench.ticks(300);
        bench.sample(5, STALLED);
        bench.wish(5, 9);
        bench.part_on(4);
        bench.ticks(19);
        bench.ticks(1);
        bench.registers();
        bench.ticks(320);
        bench.send(&[CONFIGURATION, 0x40]);
        bench.ticks(320);
    }
    bench.title("a firing over a spin-up and a ramp of a part, locked");
    for fans in PARTS {
        bench.started(fans);
        bench.send(&[at(fans, CONFIGURATION_2), RAMPED]);
        bench.send(&[at(1, SETTING), 0]);
        bench.send(&[CONFIGURATION, 0x60]);
        bench.send(&[at(1, SETTING), 0x44]);
        bench.send(&[LOCK, 1]);
        bench.ticks(10);
        bench.ticks(310);
        bench.send(&[at(fans, SETTING), 0x20]);
        bench.ticks(64);
    }
}

fn past_the_end_cases(bench: &mut Bench) {
    bench.title("a watch of a part at or past 320 fires at the next tick");
    for fans in PARTS {
        for watch in [
            Watch::PowerUp { count: 320 },
            Watch::PowerUp { count: 65535 },
            Watch::Continuous { count: 321 },
            Watch::Continuous { count: 65535 },
        ] {
            bench.part_on(fans);
            bench.watch(watch);
            bench.send(&[0x7C]);
            bench.watch(watch);
            bench.ticks(1);
        }
    }
}

/// Registers of every sort changed, fans moving, locked.
fn changed(bench: &mut Bench, fans: u8) {
    bench.started(fans);
    bench.loop_on(fans);
    bench.wish(fans, 3);
    bench.sample(1, STALLED);
    bench.send(&[ENABLE, 0xFF, 1, 2, 3, 4]);
    bench.send(&[CONFIGURATION, 0xE0]);
    bench.send(&[LOCK, 0xFF]);
    bench.ticks(13);
}

fn power_on_cases(bench: &mut Bench) {
    bench.title("each power-on resets everything, to its own number of fans");
    for before in NUMBERS {
        for after in NUMBERS {
            changed(bench, before);
            bench.start(after);
            for fan in FANS {
                bench.sample(fan, HEALTHY);
                bench.send(&[at(fan, SETTING), 0x90]);
            }
            bench.ticks(41);
            bench.registers();
        }
    }
}

fn middle_cases(bench: &mut Bench) {
    bench.title("another part in the middle of spin-ups: none goes on, and those of absent fans do not come back");
    for parts in [[5, 2, 5], [3, 1, 3], [1, 3, 2]] {
        bench.start(parts[0]);
        for fans in parts {
            for fan in FANS {
                bench.send(&[at(fan, SETTING), 0x80]);
            }
            bench.ticks(15);
            bench.start(fans);
            bench.ticks(15);
        }
        bench.ticks(290);
        bench.ticks(15);
    }
    bench.title("at another address: the one before is refused with 7");
    for fans in PARTS {
        changed(bench, 5);
        bench.part_on_at(0x4D, fans);
        bench.send_to(HOME, &[0x30, 0x80]);
        bench.send_to(0x4D, &[0x30, 0x80]);
        bench.sample(5, HEALTHY);
        bench.power_on();
        bench.sample(5, HEALTHY);
    }
}

fn unpowered_cases(bench: &mut Bench) {
    bench.title("unpowered: 6 for every fan, also behind a part that is refused");
    bench.fresh();
    for refused in [4, 0, 5] {
        for fan in FANS {
            bench.sample(fan, HEALTHY);
            bench.wish(fan, 1);
        }
        bench.sample(6, 0);
        bench.sample(5, 8192);
        bench.wish(0, 1);
        bench.part_on(refused);
    }
    bench.part_on_at(128, 1);
    bench.ticks(1);
    bench.part_on(1);
    bench.sample(2, HEALTHY);
}
