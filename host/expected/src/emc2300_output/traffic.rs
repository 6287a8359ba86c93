//! Mixed traffic, from power-on and from any state.

use super::bench::{
    absolute_limit, low_limit, range, temperature, Bench, Fields, CLOCK, CONFIGURATION, DUTY, MINIMUM, OPTIONS, OVRID,
    RAMP, SETTING, START,
};
use super::{configuration, started, ASKING, SNAP, STEP_DOWN};
use crate::chance::Chance;

/// The bytes that rules speak of, by field; temperatures and low limits lie close together, around 40 degrees.
fn likely(chance: &Chance, field: u8) -> u8 {
    let mode = chance.among(&[chance.among(&ASKING), chance.among(&ASKING), chance.below(8)]);
    let spin_up: u8 = chance.below(8);
    match field {
        START => chance.among(&[1, 1, 1, 1, 0]),
        OVRID => chance.among(&[0, 0, 0, 0, 1]),
        SETTING => chance.among(&[0, 0, 1, 40, 64, 255, chance.below(256)]),
        CONFIGURATION => configuration(mode, spin_up),
        RAMP => chance.among(&[0x0, chance.below(16), 8 + chance.below::<u8>(8)]),
        MINIMUM => chance.among(&[0, 0, 1, 0x80, 255, chance.below(256)]),
        OPTIONS => chance.among(&[SNAP, STEP_DOWN]),
        _ => likely_of_zone(chance, field),
    }
}

fn likely_of_zone(chance: &Chance, field: u8) -> u8 {
    let near = 38 + chance.below::<u8>(6);
    for zone in [1, 2, 3] {
        if field == temperature(zone) {
            return chance.among(&[near, near, near, near, 0x80, 0x81, 0x7F, 99, 100]);
        } else if field == range(zone) {
            return chance.among(&[0x03, 0x23, 0x63, 0xF3, chance.below(256)]);
        } else if field == low_limit(zone) {
            return chance.among(&[40, 40, near, 0x80, 0x7F]);
        } else if field == absolute_limit(zone) {
            return chance.among(&[100, 100, 0x80, 0x80, 0x7F, near]);
        }
    }
    chance.below(256)
}

/// A byte for a field: mostly one that a rule speaks of.
fn any_byte(chance: &Chance, field: u8) -> u8 {
    if chance.one_in(8) {
        chance.below(256)
    } else {
        likely(chance, field)
    }
}

/// Any field that is stored, now and then one past them.
fn any_field(chance: &Chance) -> u8 {
    let stored = chance.below(19);
    let often = [
        SETTING,
        MINIMUM,
        RAMP,
        CONFIGURATION,
        temperature(1),
        temperature(2),
        temperature(3),
    ];
    let past = chance.among(&[DUTY, CLOCK, 255]);
    let others = [stored, chance.among(&often), chance.among(&often)];
    if chance.one_in(40) {
        past
    } else {
        chance.among(&others)
    }
}

/// A part of what runs, all of it, past it, or any number.
fn any_ticks(chance: &Chance, bench: &Bench) -> u16 {
    let output = &bench.output;
    let end = if output.in_spin_up() {
        output.spin_up_left
    } else {
        output.rate()
    };
    let many = chance.among(&[chance.below(2000), chance.below(65536)]);
    chance.among(&[
        1,
        end - 1,
        end,
        end.saturating_add(1),
        chance.below(60),
        chance.below(400),
        many,
    ])
}

fn any_command(bench: &mut Bench, chance: &Chance) {
    match chance.below(20) {
        0u8..10 => {
            let field = any_field(chance);
            bench.write(field, any_byte(chance, field));
        }
        10..15 => bench.ticks(any_ticks(chance, bench)),
        15 => bench.each_tick(1 + chance.below::<u16>(4)),
        16 | 17 => bench.settle(),
        18 => bench.spun(),
        _ => bench.zones(),
    }
}

/// Every field any byte, mostly one that a rule speaks of; a spin-up runs in half of them.
fn any_state(chance: &Chance) -> Fields {
    let fields = (0..=absolute_limit(3)).fold(Fields::power_on(), |fields, field| {
        fields.set(field, any_byte(chance, field))
    });
    let duty = chance.among(&[0, 0, 255, chance.below(256), chance.below(256)]);
    let clock = chance.among(&[0, chance.below(20), chance.below(256)]);
    let left = chance.among(&[0, 0, 0, 1, 2, chance.below(330), chance.below(65536)]);
    fields.set(DUTY, duty).set(CLOCK, clock).left(left)
}

pub fn cases(bench: &mut Bench) {
    bench.title("mixed traffic from power-on");
    let chance = Chance::new(2300);
    for _ in 0..60 {
        bench.reset();
        bench.write(START, 1);
        for _ in 0..30 {
            any_command(bench, &chance);
        }
    }
    bench.title("mixed traffic from calm zones");
    for mode in ASKING {
        for _ in 0..15 {
            bench.load(started(mode));
            for _ in 0..30 {
                any_command(bench, &chance);
            }
        }
    }
    bench.title("mixed traffic from power-on, settled again after each command: nothing changes");
    for _ in 0..30 {
        bench.reset();
        bench.settle_again();
        bench.write(START, 1);
        for _ in 0..30 {
            any_command(bench, &chance);
            bench.settle_again();
        }
    }
    bench.title("mixed traffic from any state");
    for _ in 0..400 {
        bench.load(any_state(&chance));
        for _ in 0..6 {
            any_command(bench, &chance);
        }
    }
}
