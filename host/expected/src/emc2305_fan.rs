//! The cases of the program emc2305_fan_test: one fan, also in states that no log reaches.

mod bench;
mod blocks;
mod drive;
mod registers;
mod spin_up;
mod status;
mod tach;
pub mod traffic;
mod unreached;

use crate::script::Script;
use bench::Bench;

/// Configuration 1 at its default, and with the loop on.
pub const OPEN: u8 = 0x2B;
pub const CLOSED: u8 = 0xAB;
/// Configuration 2 at its default, and with ramp control.
pub const PLAIN: u8 = 0x28;
pub const RAMPED: u8 = 0x68;
/// A target's high byte with the driver on.
pub const ON: u8 = 0x10;

pub fn script() -> Script {
    let mut bench = Bench::new();
    bench.title("numbers of a state: drive wish clock, ticks length level of the spin-up, goal step period");
    bench.title(
        "words of a state: running kick (the spin-up's) stalled failed stuck spin-up ramp (control) loop (closed) \
         off (driver)",
    );
    registers::cases(&mut bench);
    blocks::cases(&mut bench);
    drive::cases(&mut bench);
    spin_up::cases(&mut bench);
    tach::cases(&mut bench);
    status::cases(&mut bench);
    unreached::cases(&mut bench);
    traffic::cases(&mut bench);
    bench.script
}
