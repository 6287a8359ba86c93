//! A fan under test: the commands of emc2305_fan_test, and the line of each.

use super::{CLOSED, ON, RAMPED};
use crate::script::{byte, Script};
use model::chip::{moved, Fan, SpinUp, CONFIGURATION_1, CONFIGURATION_2, SETTING, TARGET_HIGH};

/// How many offsets are asked for: two past the last register.
const ASKED: usize = 18;
/// Offsets to write at, the last four far past the registers: from 128 on they are counted down from the largest.
pub const EVERY_OFFSET: [usize; 22] = [
    0, 1, 2, 3, 4, 5, 6, 7, 8, 9, 10, 11, 12, 13, 14, 15, 16, 17, 127, 128, 240, 255,
];

/// How many registers a fan has.
const REGISTERS: usize = 16;

/// The offset that a code of `EVERY_OFFSET` stands for.
fn offset_of(code: usize) -> usize {
    if code < 128 {
        code
    } else {
        usize::MAX - (255 - code)
    }
}

/// Registers that are not at their defaults.
pub type Changes = &'static [(usize, u8)];
pub const DIRECT: Changes = &[(SETTING, 128)];
pub const RAMPING: Changes = &[(SETTING, 128), (CONFIGURATION_2, RAMPED)];
pub const CLOSED_ON: Changes = &[(CONFIGURATION_1, CLOSED), (TARGET_HIGH, ON)];
pub const CLOSED_OFF: Changes = &[(CONFIGURATION_1, CLOSED)];

/// A fan, and its bits of 25h and 26h.
#[derive(Clone, Copy)]
pub struct State {
    pub fan: Fan,
    pub stalled: bool,
    pub failed: bool,
}

/// A fan as power-on leaves it but for some registers.
pub fn fan(changes: &[(usize, u8)]) -> State {
    let mut state = State {
        fan: Fan::power_on(),
        stalled: false,
        failed: false,
    };
    for &(offset, byte) in changes {
        state = state.set(offset, byte);
    }
    state
}

impl State {
    pub fn set(mut self, offset: usize, byte: u8) -> State {
        self.fan.registers[offset] = byte;
        self
    }

    pub fn drive(mut self, drive: u8) -> State {
        self.fan.drive = drive;
        self
    }

    pub fn wish(mut self, wish: u8) -> State {
        self.fan.wish = wish;
        self
    }

    pub fn clock(mut self, clock: u16) -> State {
        self.fan.clock = clock;
        self
    }

    pub fn spin(mut self, elapsed: u16, length: u16, kick: bool, level: u8) -> State {
        self.fan.spin_up = Some(SpinUp {
            elapsed,
            length,
            kick,
            level,
        });
        self
    }

    pub fn bits(mut self, stalled: bool, failed: bool) -> State {
        self.stalled = stalled;
        self.failed = failed;
        self
    }

    /// Nine numbers, then a word for each thing that holds.
    fn line(&self, word: &str) -> String {
        let (fan, spin) = (&self.fan, spin_up_or_zeros(&self.fan));
        let running = fan.spin_up.is_some();
        let mut line = format!("{word}: {} {} {}, ", fan.drive, fan.wish, fan.clock);
        line += &format!("{} {} {}, ", spin.elapsed, spin.length, spin.level);
        line += &format!("{} {} {}", fan.goal(), fan.step(), fan.period());
        for (word, holds) in [
            (" running", running),
            (" kick", spin.kick),
            (" stalled", self.stalled),
            (" failed", self.failed),
            (" stuck", fan.keeps_status()),
            (" spin-up", running),
            (" ramp", fan.ramp_control()),
            (" loop", fan.closed_loop()),
            (" off", fan.driver_off()),
        ] {
            line += if holds { word } else { "" };
        }
        line
    }

    /// A state in the bytes of a command.
    fn bytes(&self) -> Vec<u8> {
        let (fan, spin) = (&self.fan, spin_up_or_zeros(&self.fan));
        let others = [
            fan.drive,
            fan.wish,
            byte(fan.clock),
            fan.spin_up.is_some().into(),
            byte(spin.elapsed),
            byte(spin.length),
            spin.kick.into(),
            spin.level,
            self.stalled.into(),
            self.failed.into(),
        ];
        [&fan.registers[..], &others].concat()
    }
}

/// Where no spin-up runs its numbers are shown as 0.
fn spin_up_or_zeros(fan: &Fan) -> SpinUp {
    fan.spin_up.unwrap_or(SpinUp {
        elapsed: 0,
        length: 0,
        kick: false,
        level: 0,
    })
}

/// Whether the lock guards an offset: it stores, and does not where locked.
fn is_locked(offset: usize) -> bool {
    let fan = Fan::power_on();
    fan.stores(offset, false) && !fan.stores(offset, true)
}

fn spaced(bytes: impl Iterator<Item = u8>) -> String {
    bytes.map(|byte| format!(" {byte:02X}")).collect()
}

fn listed(offsets: impl Iterator<Item = usize>) -> String {
    offsets.map(|offset| format!(" {offset}")).collect()
}

/// Each command acts on the fan that the one before it left.
pub struct Bench {
    pub script: Script,
    pub state: State,
}

impl Bench {
    pub fn new() -> Bench {
        Bench {
            script: Script::default(),
            state: fan(&[]),
        }
    }

    /// A command, and the state after it.
    fn shows(&mut self, which: u8, data: &[u8], word: &str) {
        self.script.add(which, data, &self.state.line(word));
    }

    pub fn title(&mut self, text: &str) {
        self.script.add(b'#', text.as_bytes(), &format!("# {text}"));
    }

    pub fn reset(&mut self) {
        self.state = fan(&[]);
        self.shows(b'r', &[], "reset");
    }

    /// A state set whole.
    pub fn load(&mut self, state: State) {
        self.state = state;
        self.shows(b'l', &state.bytes(), "load");
    }

    /// A write where no lock forbids it, at an offset of `EVERY_OFFSET`.
    pub fn write(&mut self, code: usize, value: u8) {
        let offset = offset_of(code);
        let stores = self.state.fan.stores(offset, false);
        if stores {
            self.state.fan.stored_write(offset, value);
        }
        let stored = if stores { "stored" } else { "not stored" };
        self.shows(
            b'w',
            &[byte(code), value],
            &format!("write {offset} {value:02X} {stored}"),
        );
    }

    /// Data bytes in turn, from an offset of `EVERY_OFFSET` on, with the lock on or off. They end with the last register.
    pub fn block(&mut self, code: usize, locked: bool, bytes: &[u8]) {
        let first = offset_of(code);
        let taken = REGISTERS.saturating_sub(first).min(bytes.len());
        let mut programmed = false;
        for (offset, &value) in (first..).zip(&bytes[..taken]) {
            if self.state.fan.stores(offset, locked) {
                self.state.fan.stored_write(offset, value);
                programmed |= offset == SETTING || offset == CONFIGURATION_1 && value >= 0x80;
            }
        }
        let lock = if locked { " locked" } else { "" };
        let program = if programmed { " programmed" } else { "" };
        self.shows(
            b'b',
            &[&[byte(code), locked.into()], bytes].concat(),
            &format!("block {first} takes {taken}{lock}{program}"),
        );
    }

    /// A write of what stands there already.
    pub fn write_again(&mut self, code: usize) {
        let value = self.state.fan.registers.get(code).copied().unwrap_or(0);
        self.write(code, value);
    }

    fn tick(&mut self) {
        self.state.failed |= self.state.fan.tick();
    }

    /// Some ticks, and the state after them.
    pub fn ticks(&mut self, count: u16) {
        (0..count).for_each(|_| self.tick());
        self.shows(b't', &[byte(count)], &format!("ticks {count}"));
    }

    /// Some ticks, and the state after each.
    pub fn each_tick(&mut self, count: u16) {
        let mut lines = Vec::new();
        for _ in 0..count {
            self.tick();
            lines.push(self.state.line("tick"));
        }
        self.script.add(b'e', &[byte(count)], &lines.join("\n"));
    }

    pub fn sample(&mut self, count: u16) {
        self.sample_with(count, false);
    }

    /// A sample, in the power-up watch or not.
    pub fn sample_with(&mut self, count: u16, power_up_watch: bool) {
        self.state.stalled |= self.state.fan.sample(count, power_up_watch);
        let [low, high] = count.to_le_bytes();
        let watch = if power_up_watch { " watch" } else { "" };
        self.shows(
            b's',
            &[low, high, power_up_watch.into()],
            &format!("sample {count}{watch}"),
        );
    }

    pub fn wish(&mut self, drive: u8) {
        self.state.fan.take_wish(drive);
        self.shows(b'v', &[drive], &format!("wish {drive}"));
    }

    pub fn watchdog(&mut self) {
        self.state.fan.full_drive();
        self.shows(b'd', &[], "watchdog");
    }

    /// A read of 25h: the fan's bit stays or is cleared.
    pub fn read_stall(&mut self) {
        self.state.stalled &= self.state.fan.keeps_status();
        self.shows(b'c', &[0], "read 25h");
    }

    /// A read of 26h.
    pub fn read_spin(&mut self) {
        self.state.failed &= self.state.fan.keeps_status();
        self.shows(b'c', &[1], "read 26h");
    }

    /// What a read of each offset shows, and what the registers hold.
    pub fn registers(&mut self) {
        let fan = &self.state.fan;
        let shows = spaced((0..ASKED).map(|offset| fan.register(offset)));
        let holds = spaced(fan.registers.into_iter());
        self.script.add(b'a', &[], &format!("shows{shows} holds{holds}"));
    }

    /// Which offsets are locked, and which store now.
    pub fn offsets(&mut self) {
        let fan = &self.state.fan;
        let locked = listed((0..ASKED).filter(|&offset| is_locked(offset)));
        let stores = listed((0..ASKED).filter(|&offset| fan.stores(offset, false)));
        self.script.add(b'o', &[], &format!("locked{locked} stores{stores}"));
    }

    pub fn ramp(&mut self, drive: u8, goal: u8, step: u8) {
        let after = moved(drive, goal, step);
        let line = format!("ramp {drive} to {goal} by {step}: {after}");
        self.script.add(b'm', &[drive, goal, step], &line);
    }
}
