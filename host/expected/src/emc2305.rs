//! The cases of the program emc2305_test: steps over one chip, also with a watch that no log reaches.

mod bench;
mod fans;
mod parts;
mod refusals;
mod registers;
mod status;
pub mod traffic;
mod transfers;
mod watches;

use crate::script::Script;
use bench::Bench;

/// The address of most power-ons.
pub const HOME: u8 = 0x2C;

/// The chip's own registers.
pub const CONFIGURATION: u8 = 0x20;
pub const STATUS: u8 = 0x24;
pub const STALL: u8 = 0x25;
pub const SPIN: u8 = 0x26;
pub const DRIVE_FAIL: u8 = 0x27;
pub const ENABLE: u8 = 0x29;
pub const LOCK: u8 = 0xEF;
pub const IDENTITY: [u8; 4] = [0xFC, 0xFD, 0xFE, 0xFF];

pub const FANS: [u8; 5] = [1, 2, 3, 4, 5];

/// The register of a fan.
pub fn at(fan: u8, offset: usize) -> u8 {
    0x30 + 0x10 * (fan - 1) + offset as u8
}

pub fn script() -> Script {
    let mut bench = Bench::new();
    bench.title(
        "an event: number laid buffer, pointer watch, drives, sum of registers, wishes and clocks, alert line if on",
    );
    registers::cases(&mut bench);
    transfers::cases(&mut bench);
    status::cases(&mut bench);
    watches::cases(&mut bench);
    fans::cases(&mut bench);
    refusals::cases(&mut bench);
    traffic::cases(&mut bench);
    parts::cases(&mut bench);
    traffic::part_cases(&mut bench);
    bench.script
}
