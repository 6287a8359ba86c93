//! What a zone asks: every range, the minima, the edges of temperature and low limit.

use super::bench::{temperature, Bench, CONFIGURATION, MINIMUM};
use super::{configuration, started, CALM, NONE, NO_LIMIT};
use crate::chance::Chance;

/// The first whole degrees above the low limit at which each range gives full.
const FULL_AT: [u8; 16] = [2, 3, 4, 4, 5, 7, 8, 10, 14, 16, 20, 27, 32, 40, 54, 80];
const LOW: u8 = 20;

pub fn cases(bench: &mut Bench) {
    range_cases(bench);
    degree_cases(bench);
    edge_cases(bench);
    any_cases(bench);
}

/// Three zones at a time, and what each asks of an output with this minimum.
fn ask(bench: &mut Bench, minimum: u8, zones: [[u8; 4]; 3]) {
    let [first, second, third] = zones;
    let fields = started(6).zone(1, first).zone(2, second).zone(3, third);
    bench.load(fields.set(MINIMUM, minimum));
    bench.zones();
}

fn range_cases(bench: &mut Bench) {
    bench.title("each range and minimum with T - L of 0, 1, one below R; R, one above it, 255; bits 3..0 do nothing");
    for (code, full_at) in (0..16).zip(FULL_AT) {
        for minimum in [0, 1, 128, 254, 255] {
            let at = |above, bits| [LOW + above, code << 4 | bits, LOW, NO_LIMIT];
            ask(bench, minimum, [at(0, 3), at(1, 0), at(full_at - 1, 15)]);
            let far = [0x7F, code << 4 | 10, 0x80, NO_LIMIT];
            ask(bench, minimum, [at(full_at, 3), at(full_at + 1, 7), far]);
        }
    }
}

fn degree_cases(bench: &mut Bench) {
    bench.title("each range degree by degree, up to full, as an output without ramp control and spin-up follows it");
    for (code, full_at) in (0..16).zip(FULL_AT) {
        // of these, one tells each range from another a hundredth of a degree off
        for minimum in [0, 14, 128] {
            let zone = [LOW - 1, code << 4 | 3, LOW, NO_LIMIT];
            let fields = started(0).set(CONFIGURATION, configuration(0, NONE));
            bench.load(fields.zone(1, zone).set(MINIMUM, minimum));
            for above in 0..=full_at {
                bench.write(temperature(1), LOW + above);
            }
        }
    }
}

fn edge_cases(bench: &mut Bench) {
    bench.title("temperatures and low limits at their edges, each with each");
    let edges = [0x80, 0x81, 0xCF, 0xD0, 0xFF, 0x00, 0x01, 0x7E, 0x7F];
    for low in edges {
        for (code, minimum) in [(0x0, 0), (0xF, 0), (0xF, 200)] {
            for three in edges.chunks(3) {
                let zone = |index: usize| [three[index], code << 4, low, NO_LIMIT];
                ask(bench, minimum, [zone(0), zone(1), zone(2)]);
            }
        }
    }
}

fn any_cases(bench: &mut Bench) {
    bench.title("any zones: temperatures near the low limit, and any bytes");
    let chance = Chance::new(2300);
    for _ in 0..150 {
        let near = |chance: &Chance| {
            let low: u8 = chance.below(256);
            let limit = chance.among(&[NO_LIMIT, CALM[3], chance.below(256)]);
            let above: u8 = chance.below(90);
            [low.wrapping_add(above), chance.below(256), low, limit]
        };
        let any = |chance: &Chance| [(); 4].map(|()| chance.below(256));
        let zones = [(); 3].map(|()| if chance.one_in(4) { any(&chance) } else { near(&chance) });
        ask(
            bench,
            chance.among(&[0, 1, chance.below(256), chance.below(256)]),
            zones,
        );
    }
}
