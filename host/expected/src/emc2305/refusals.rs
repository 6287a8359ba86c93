//! What is refused, with which number first, and that it changes nothing.

use super::bench::{row, Bench, HEALTHY, STALLED};
use super::{CONFIGURATION, ENABLE, FANS, HOME, STALL};
use crate::events::{clock, send, LARGEST, WRAPPING};

pub fn cases(bench: &mut Bench) {
    field_cases(bench);
    taken_cases(bench);
    refusal_6_cases(bench);
    refusal_7_cases(bench);
    refusal_8_cases(bench);
}

/// A log: counts at 0 to 5, a pointer at 6; 40 bytes.
fn sent() -> Vec<u8> {
    [0, 1, 2, 32, 33, 255, 0x2A].into_iter().chain(0x60..0x81).collect()
}

/// A chip with bits standing, the line on, continuous running, the pointer at 25h.
fn alerted(bench: &mut Bench) {
    bench.settled(&[80, 90]);
    bench.send(&[ENABLE, 0x1F]);
    bench.loop_on(2);
    bench.send(&[CONFIGURATION, 0x60]);
    bench.send(&[STALL]);
    bench.sample(1, STALLED);
    bench.sample(1, HEALTHY);
    bench.ticks(9);
}

/// Events with a field out of range, transfers apart.
fn bad_events(bench: &mut Bench) {
    for address in [128, 172, 255] {
        bench.power_on_at(address);
    }
    for fan in [0, 6, 7, 128, 255] {
        bench.sample(fan, HEALTHY);
    }
    for count in [8192, 8292, 16384, 65535] {
        bench.sample(2, count);
    }
    for fan in [0, 6, 7, 128, 255] {
        bench.wish(fan, 200);
    }
}

/// Transfers with a field out of range: address, over 32 bytes, not wholly within the log, a read's own.
fn bad_transfers(bench: &mut Bench) {
    for kind in [send, clock] {
        for address in [128, HOME + 128, 255] {
            bench.transfer(&kind(address, 1, 1), &sent());
        }
        for (place, length) in [(0, 33), (0, 40), (0, 41), (40, 1), (41, 0), (39, 2), (9, 32), (100, 1)]
            .into_iter()
            .chain(WRAPPING)
        {
            bench.transfer(&kind(HOME, place, length), &sent());
        }
        bench.transfer(&kind(HOME, 0, 1), &[]);
        bench.transfer(&kind(HOME, 1, 0), &[]);
    }
    for (place, length) in [(1, 0), (1, 2), (1, 32), (40, 0), (0, 1), (4, 1), (5, 1)] {
        bench.transfer(&clock(HOME, place, length), &sent());
    }
}

/// Events with two fields out of range: a sample's fan and count; a transfer's address, and its bytes or the number
/// that it clocks.
fn bad_pairs(bench: &mut Bench) {
    for fan in [0, 6, 255] {
        for count in [8192, 65535] {
            bench.sample(fan, count);
        }
    }
    for address in [128, HOME + 128, 255] {
        for kind in [send, clock] {
            for (place, length) in [(0, 33), (0, 41), (40, 1), (41, 0), (9, 32), (LARGEST, 2)] {
                bench.transfer(&kind(address, place, length), &sent());
            }
        }
        for length in [0, 2, 32] {
            bench.transfer(&clock(address, 1, length), &sent());
        }
        for place in [0, 4, 5] {
            bench.transfer(&clock(address, place, 1), &sent());
        }
    }
}

fn field_cases(bench: &mut Bench) {
    bench.title("10: address past 127; 5: fan 0 and 6; 9: count 8192");
    alerted(bench);
    bad_events(bench);
    bench.title(
        "10: a transfer to an address past 127; 11: over 32 bytes, not wholly within the log; \
         a read of 0 or 2 bytes, 0 or 33 clocked",
    );
    bench.room(64);
    bad_transfers(bench);
    bench.title("two fields at once: 5 before 9; 11 of the bytes before 10, 10 before 11 of the clocked number");
    bad_pairs(bench);
}

fn taken_cases(bench: &mut Bench) {
    bench.title("taken: the largest of each field, bytes anywhere in the log");
    for (place, length) in [
        (6, 1),
        (6, 2),
        (6, 32),
        (8, 32),
        (38, 2),
        (39, 1),
        (40, 0),
        (0, 0),
        (7, 0),
    ] {
        bench.transfer(&send(HOME, place, length), &sent());
    }
    bench.transfer(&send(HOME, 0, 0), &[]);
    for place in [1, 2, 3] {
        bench.transfer(&clock(HOME, place, 1), &sent());
    }
    bench.transfer(&clock(HOME, 4, 1), &[9, 9, 9, 9, 2]);
    for fan in FANS {
        bench.sample(fan, 8191);
        bench.wish(fan, 255);
    }
    bench.sample(3, 0);
    bench.wish(3, 0);
    bench.room(1);
}

fn refusal_6_cases(bench: &mut Bench) {
    bench.title("6: every kind before power-on, to any address, whatever the room");
    bench.fresh();
    for size in [0, 1] {
        bench.room(size);
        bench.ticks(0);
        bench.ticks(1);
        bench.ticks(65535);
        bench.sample(1, 0);
        bench.wish(5, 9);
        for address in [0, HOME, 127] {
            bench.send_to(address, &[0x30, 0x80]);
            bench.send_to(address, &[]);
            bench.clock_at(address, 1);
            bench.clock_at(address, 32);
        }
    }
    bench.title("5, 9, 10 and 11 before 6, of two fields too");
    bad_events(bench);
    bad_transfers(bench);
    bad_pairs(bench);
    bench.title("a refused power-on powers nothing; a good one does");
    bench.power_on_at(128);
    bench.ticks(1);
    bench.power_on_at(127);
    bench.ticks(1);
    bench.power_on_at(128);
}

fn refusal_7_cases(bench: &mut Bench) {
    bench.title("7: a transfer to another address, which changes nothing");
    alerted(bench);
    for address in [0, HOME - 1, HOME + 1, HOME ^ 0x40, 127] {
        bench.send_to(address, &[]);
        bench.send_to(address, &[0x30]);
        bench.send_to(address, &[0x30, 0x11, 0x22]);
        bench.clock_at(address, 1);
    }
    bench.title("11 before 7, 7 before 8");
    for address in [0, 127] {
        bench.send_to(address, &row(0, 1..33));
        bench.clock_at(address, 0);
        bench.clock_at(address, 33);
        bench.transfer(&send(address, 1, 1), &[0x30]);
        bench.clock_at(address, 2);
        bench.clock_at(address, 32);
    }
    bench.title("the address is that of the last power-on taken");
    bench.power_on_at(200);
    bench.send_to(HOME, &[]);
    bench.power_on_at(HOME + 1);
    bench.send_to(HOME, &[]);
    bench.send_to(HOME + 1, &[]);
}

fn refusal_8_cases(bench: &mut Bench) {
    bench
        .title("8: a read with less room than it clocks: no bit cleared, pointer and watch stay; exact room is enough");
    for (size, count) in [(0, 1), (0, 32), (1, 2), (3, 4), (31, 32), (1, 32)] {
        bench.room(1);
        alerted(bench);
        bench.room(size);
        bench.clock(count);
        bench.clock(count);
        bench.ticks(1);
        bench.room(count);
        bench.clock(count);
    }
    bench.title("writes need no room");
    bench.room(0);
    bench.send(&[]);
    bench.send(&[0x2A]);
    bench.send(&[0x2A, 1]);
    bench.send(&[0x2A, 1, 2, 3]);
    bench.send(&row(0x30, 0..31));
    bench.title("10 and 11 before 8, of two fields too");
    bench.clock(0);
    bench.clock(33);
    bench.transfer(&clock(HOME, 0, 2), &[1, 1]);
    bench.clock_at(HOME + 128, 1);
    bad_pairs(bench);
    bench.room(1);
}
