//! The cases of the program emc2300_output_test: one output of the EMC2300 with its zones, also in states that no log
//! reaches.

mod asked;
mod bench;
mod commands;
mod examples;
mod ramp;
mod spin_up;
mod traffic;
mod unreached;
mod zones;

use crate::script::Script;
use bench::{Bench, Fields, CONFIGURATION, DUTY, MINIMUM, RAMP, SETTING, START};

/// Modes, in bits 7..5 of the configuration.
pub const ALWAYS_FULL: u8 = 3;
pub const DISABLED: u8 = 4;
pub const MANUAL: u8 = 7;
/// Those in which zones decide.
pub const AUTOMATIC: [u8; 5] = [0, 1, 2, 5, 6];
/// Those in which a duty is asked.
pub const ASKING: [u8; 6] = [0, 1, 2, 5, 6, MANUAL];

/// Spin-up code 2, of 20 ticks, as at power-on.
pub const TWENTY: u8 = 2;
/// Spin-up code 0, which ends at once.
pub const NONE: u8 = 0;

/// Options as at power-on, with SZEN 1, and with SZEN 0.
pub const SNAP: u8 = 0x0C;
pub const STEP_DOWN: u8 = 0x08;

/// No zone is at this absolute limit.
pub const NO_LIMIT: u8 = 0x80;
/// A zone at 20 degrees with its low limit at 60: it asks the minimum.
pub const CALM: [u8; 4] = [20, 0xC3, 60, 100];

/// A configuration: mode and spin-up code.
pub fn configuration(mode: u8, spin_up: u8) -> u8 {
    mode << 5 | spin_up
}

/// START 1 and calm zones, in this mode, else as at power-on.
pub fn started(mode: u8) -> Fields {
    let fields = Fields::power_on().set(START, 1);
    let fields = fields.zone(1, CALM).zone(2, CALM).zone(3, CALM);
    fields.set(CONFIGURATION, configuration(mode, TWENTY))
}

/// An output in this mode that is asked for this goal by setting and minimum alike.
pub fn asking(mode: u8, goal: u8) -> Fields {
    started(mode).set(SETTING, goal).set(MINIMUM, goal)
}

/// The same at a duty, under ramp control by this ramp's number.
pub fn ramping(mode: u8, ramp: u8, duty: u8, goal: u8) -> Fields {
    asking(mode, goal).set(RAMP, ramp).set(DUTY, duty)
}

pub fn script() -> Script {
    let mut bench = Bench::new();
    bench.title("numbers of a state: duty clock left (of the spin-up), reads goal rate length (of a spin-up)");
    bench.title("words of a state: full off asked (for), ramp (control), spin-up");
    commands::cases(&mut bench);
    examples::cases(&mut bench);
    asked::cases(&mut bench);
    zones::cases(&mut bench);
    ramp::cases(&mut bench);
    spin_up::cases(&mut bench);
    unreached::cases(&mut bench);
    traffic::cases(&mut bench);
    bench.script
}
