//! The commands themselves: missing bytes, and what is no command.

use super::bench::{absolute_limit, Bench, Fields, CLOCK, LEFT, RAMP, START};
use super::{ramping, MANUAL};

pub fn cases(bench: &mut Bench) {
    bench.title("power-on, and the same as a state set whole");
    bench.zones();
    bench.settle();
    bench.spun();
    bench.ticks(1);
    bench.write(RAMP, 0x0B);
    bench.reset();
    bench.load(Fields::power_on());
    bench.zones();
    missing_bytes(bench);
    above_the_last(bench);
    bench.title("what is no command");
    for which in [b'?', b'q', b'W', 0, 255] {
        bench.command(which, &[1, 2, 3]);
        bench.command(which, &[]);
    }
    bench.settle();
}

fn missing_bytes(bench: &mut Bench) {
    bench.title("a missing byte counts as 0");
    let fields = ramping(MANUAL, 0x0B, 99, 200).set(CLOCK, 3).left(0x0102);
    for length in [23, 22, 21, 20, 19, 18, 12, 7, 5, 4, 3, 1, 0] {
        bench.command(b'l', &fields.bytes()[..length]);
        bench.zones();
    }
    bench.load(fields.left(0));
    bench.command(b't', &[]);
    bench.command(b't', &[2]);
    bench.command(b'w', &[RAMP]);
    bench.command(b'w', &[]);
    bench.load(fields);
    // no ticks, so no line
    bench.script.cases.extend([b'e', 0, b'e', 1, 0]);
    bench.settle();
}

fn above_the_last(bench: &mut Bench) {
    bench.title("a write above the last stored field changes nothing, and settles");
    for field in [absolute_limit(3) + 1, CLOCK, LEFT, LEFT + 1, 23, 127, 128, 255] {
        bench.load(ramping(MANUAL, 0x00, 99, 200).set(CLOCK, 3));
        bench.write(field, 0xA5);
    }
    bench.title("START and OVRID are 0 or not");
    for byte in [0x00, 0x01, 0x02, 0x80, 0xFF] {
        bench.load(ramping(MANUAL, 0x00, 99, 200));
        bench.write(START, byte);
        bench.load(ramping(MANUAL, 0x00, 99, 200));
        bench.write(START + 1, byte);
    }
}
