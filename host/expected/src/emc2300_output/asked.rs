//! What an output is asked for: modes, START and OVRID, absolute limits, faults, the hottest zone.

use super::bench::{
    absolute_limit, low_limit, range, temperature, Bench, CLOCK, CONFIGURATION, DUTY, MINIMUM, OPTIONS, OVRID, RAMP,
    SETTING, START,
};
use super::{asking, configuration, ramping, started, AUTOMATIC, CALM, MANUAL, NONE, NO_LIMIT, TWENTY};

const ZONES: [u8; 3] = [1, 2, 3];

pub fn cases(bench: &mut Bench) {
    mode_cases(bench);
    limit_cases(bench);
    signed_limit_cases(bench);
    fault_cases(bench);
    both_cases(bench);
    hottest_cases(bench);
    field_cases(bench);
}

fn mode_cases(bench: &mut Bench) {
    bench.title("each mode with START and OVRID in all four ways, with ramp control and without");
    for mode in 0..8 {
        for (start, ovrid) in [(0, 0), (0, 1), (1, 0), (1, 1)] {
            for ramp in [0x00, 0x08] {
                let fields = ramping(mode, ramp, 99, 64).set(START, start).set(OVRID, ovrid);
                bench.load(fields.set(CLOCK, 5));
                bench.settle();
            }
        }
    }
    bench.title("START and OVRID written in each mode; the modes in turn");
    for mode in 0..8 {
        bench.load(asking(mode, 64).set(START, 0));
        for (field, byte) in [(START, 1), (OVRID, 1), (START, 0), (OVRID, 0), (START, 1)] {
            bench.write(field, byte);
        }
        bench.settle();
    }
    bench.load(asking(MANUAL, 64));
    for mode in [0, 3, 1, 4, 2, 7, 3, 4, 5, 3, 6, 4, 7, 4, 4, 3, 3, 0] {
        bench.write(CONFIGURATION, configuration(mode, TWENTY));
    }
    bench.title("bits 4 and 3 of the configuration do nothing");
    for bits in [0x00, 0x08, 0x10, 0x18] {
        for mode in 0..8 {
            bench.load(asking(mode, 64).set(CONFIGURATION, configuration(mode, TWENTY) | bits));
        }
    }
}

/// A zone at a low temperature, then at these, each mode in turn.
fn each_mode_at(bench: &mut Bench, zone: u8, limit: u8, temperatures: &[u8]) {
    for mode in 0..8 {
        let fields = asking(mode, 64).set(absolute_limit(zone), limit);
        bench.load(fields.set(CONFIGURATION, configuration(mode, NONE)));
        for &t in temperatures {
            bench.write(temperature(zone), t);
        }
    }
    bench.zones();
}

fn limit_cases(bench: &mut Bench) {
    bench.title(
        "each zone alone one below its absolute limit, at it, one above, and below again: full in automatic modes",
    );
    for zone in ZONES {
        each_mode_at(bench, zone, 100, &[99, 100, 101, 99]);
    }
    bench.title("limits 7Fh, 81h and 80h, which is none");
    for zone in ZONES {
        each_mode_at(bench, zone, 0x7F, &[126, 127, 126]);
        each_mode_at(bench, zone, 0x81, &[0x80, 0x81, 0x82, 0x7F]);
        each_mode_at(bench, zone, NO_LIMIT, &[0x81, 0x7F, 0x00, 0x80]);
    }
    bench.title("a limit that a write moves: full at once, and back");
    for zone in ZONES {
        for mode in [0, 1, 2, MANUAL] {
            bench.load(asking(mode, 64));
            for limit in [20, 21, 19, NO_LIMIT, 0x00, 100] {
                bench.write(absolute_limit(zone), limit);
            }
        }
    }
}

fn signed_limit_cases(bench: &mut Bench) {
    bench.title("temperatures and limits are signed");
    for (limit, temperatures) in [
        (100, [0xFF, 0x81, 0x80]),
        (0, [0xFF, 0x00, 0x01]),
        (0xFF, [0xFE, 0xFF, 0x00]),
        (0xCE, [0xCD, 0xCE, 0x32]),
        (0x82, [0x81, 0x82, 0x7F]),
    ] {
        for t in temperatures {
            let calm = [CALM[0], CALM[1], CALM[2], NO_LIMIT];
            let fields = started(1).zone(2, calm).zone(3, calm);
            bench.load(fields.zone(1, [t, CALM[1], CALM[2], limit]));
            bench.zones();
            bench.settle();
        }
    }
}

fn fault_cases(bench: &mut Bench) {
    bench.title("a fault in each zone: full where it is linked");
    for zone in ZONES {
        each_mode_at(bench, zone, NO_LIMIT, &[0x80, 0x81, 0x80, 20]);
    }
    bench.title("faults in two zones, and in all three");
    for faulty in [[1, 2, 2], [1, 3, 3], [2, 3, 3], [1, 2, 3]] {
        for mode in 0..8 {
            let fields = faulty
                .iter()
                .fold(asking(mode, 64), |fields, &zone| fields.set(temperature(zone), 0x80));
            bench.load(fields);
            bench.settle();
        }
        bench.zones();
    }
    bench.title("a zone at 80h with a low limit of 80h is at fault, whatever it asks");
    bench.load(started(0).zone(1, [0x80, 0x03, 0x80, NO_LIMIT]));
    bench.zones();
    bench.settle();
    bench.write(temperature(1), 0x81);
    bench.zones();
}

fn both_cases(bench: &mut Bench) {
    bench.title("one zone at fault and another at its limit");
    for faulty in ZONES {
        for hot in ZONES {
            for mode in AUTOMATIC {
                let fields = asking(mode, 64).set(temperature(faulty), 0x80);
                bench.load(fields.set(temperature(hot), 100));
                bench.settle();
                bench.write(absolute_limit(hot), NO_LIMIT);
            }
        }
    }
}

fn hottest_cases(bench: &mut Bench) {
    bench.title("zones that ask 143, 191, 239, in each order: what each mode follows");
    let [low, middle, high] = [51, 54, 57].map(|t| [t, 0x63, 50, 100]);
    for [first, second, third] in [
        [low, middle, high],
        [low, high, middle],
        [middle, low, high],
        [middle, high, low],
        [high, low, middle],
        [high, middle, low],
    ] {
        for mode in AUTOMATIC {
            bench.load(started(mode).zone(1, first).zone(2, second).zone(3, third));
            bench.settle();
        }
        bench.zones();
    }
    bench.title("the hottest is the zone that asks most, not the one with the highest temperature");
    let (warm, cool) = ([90, 0xF3, 85, 100], [0xF1, 0x03, 0xF0, 100]);
    for [first, second, third] in [[warm, cool, CALM], [CALM, warm, cool], [cool, CALM, warm]] {
        for mode in AUTOMATIC {
            bench.load(started(mode).zone(1, first).zone(2, second).zone(3, third));
            bench.settle();
        }
        bench.zones();
    }
}

fn field_cases(bench: &mut Bench) {
    bench.title("each field changed and changed back, in each mode, without ramp control");
    for mode in 0..8 {
        bench.load(started(mode).zone(1, [54, 0x63, 50, 100]).set(DUTY, 7));
        for (field, byte, back) in [
            (SETTING, 0x22, 0xFF),
            (MINIMUM, 0x11, 0x80),
            (OPTIONS, 0x00, 0x0C),
            (RAMP, 0xF0, 0x00),
            (temperature(1), 55, 54),
            (range(1), 0x73, 0x63),
            (range(1), 0x6F, 0x63),
            (low_limit(1), 51, 50),
            (absolute_limit(1), 54, 100),
            (temperature(2), 61, 20),
            (range(2), 0x03, 0xC3),
            (low_limit(2), 19, 60),
            (temperature(3), 62, 20),
            (low_limit(3), 0xFF, 60),
            (START, 0, 1),
            (OVRID, 1, 0),
        ] {
            bench.write(field, byte);
            bench.write(field, back);
        }
        bench.settle();
    }
}
