//! An output under test: the commands of emc2300_output_test, and the line of each.

use crate::script::{byte, Script};
use model::emc2300::output::{Asked, Output, Shared};

/// The fields of a state, a byte each.
pub const START: u8 = 0;
pub const OVRID: u8 = 1;
pub const SETTING: u8 = 2;
pub const CONFIGURATION: u8 = 3;
pub const RAMP: u8 = 4;
pub const MINIMUM: u8 = 5;
pub const OPTIONS: u8 = 6;
pub const DUTY: u8 = 19;
pub const CLOCK: u8 = 20;
/// The ticks left of a spin-up, low byte first.
pub const LEFT: u8 = 21;
const FIELDS: usize = 23;
/// Where the first zone's four fields begin, and where the last zone's end.
const ZONES: u8 = 7;
const LAST_STORED: u8 = 18;

/// A zone's fields, from its first on.
const TEMPERATURE: u8 = 0;
const RANGE: u8 = 1;
const LOW_LIMIT: u8 = 2;
const ABSOLUTE_LIMIT: u8 = 3;

/// The field of a zone's temperature.
pub fn temperature(zone: u8) -> u8 {
    zone_field(zone, TEMPERATURE)
}

/// The field of a zone's configuration, with its range.
pub fn range(zone: u8) -> u8 {
    zone_field(zone, RANGE)
}

pub fn low_limit(zone: u8) -> u8 {
    zone_field(zone, LOW_LIMIT)
}

pub fn absolute_limit(zone: u8) -> u8 {
    zone_field(zone, ABSOLUTE_LIMIT)
}

fn zone_field(zone: u8, which: u8) -> u8 {
    ZONES + 4 * (zone - 1) + which
}

/// A state, as a command has it.
#[derive(Clone, Copy)]
pub struct Fields([u8; FIELDS]);

impl Fields {
    /// Output 1 at power-on.
    pub fn power_on() -> Fields {
        Fields([
            0, 0, 0xFF, 0x62, 0, 0x80, 0x0C, 0x80, 0xC3, 0x80, 0x64, 0x80, 0xC3, 0x80, 0x64, 0x80, 0xC3, 0x80, 0x64,
            255, 0, 0, 0,
        ])
    }

    pub fn set(mut self, field: u8, byte: u8) -> Fields {
        self.0[usize::from(field)] = byte;
        self
    }

    /// A zone's temperature, configuration, low limit and absolute limit.
    pub fn zone(self, zone: u8, bytes: [u8; 4]) -> Fields {
        (temperature(zone)..)
            .zip(bytes)
            .fold(self, |fields, (field, byte)| fields.set(field, byte))
    }

    /// The ticks left of a spin-up.
    pub fn left(self, ticks: u16) -> Fields {
        let [low, high] = ticks.to_le_bytes();
        self.set(LEFT, low).set(LEFT + 1, high)
    }

    pub fn bytes(&self) -> &[u8] {
        &self.0
    }
}

/// Each command acts on the output that the one before it left.
pub struct Bench {
    pub script: Script,
    pub shared: Shared,
    pub output: Output,
}

impl Bench {
    pub fn new() -> Bench {
        Bench {
            script: Script::default(),
            shared: Shared::power_on(),
            output: Output::power_on(),
        }
    }

    /// Any command, with the bytes that it has; a missing byte counts as 0.
    pub fn command(&mut self, which: u8, data: &[u8]) {
        let at = |index: usize| data.get(index).copied().unwrap_or(0);
        match which {
            b'r' => (self.shared, self.output) = (Shared::power_on(), Output::power_on()),
            b'l' => self.take_fields(at),
            b'w' => self.store(at(0), at(1)),
            b'x' => self.output.end_spin_up(&self.shared),
            _ => {}
        }
        if matches!(which, b'w' | b's') {
            self.output.settle(&self.shared);
        }
        let line = match which {
            b'r' => self.line("reset"),
            b'l' => self.line("load"),
            b'w' => self.line(&format!("write {} {:02X}", at(0), at(1))),
            b's' => self.line("settle"),
            b'x' => self.line("spun"),
            b't' => self.ticks_line(u16::from_le_bytes([at(0), at(1)])),
            b'z' => self.zones_line(),
            _ => "?".into(),
        };
        self.script.add(which, data, &line);
    }

    /// A stored write of a field, the clock rule with it. Fields past the zones' are none of its.
    fn store(&mut self, field: u8, byte: u8) {
        match field {
            START => self.shared.start = byte != 0,
            OVRID => self.shared.ovrid = byte != 0,
            SETTING => self.output.setting = byte,
            CONFIGURATION => self.output.configuration = byte,
            RAMP => self.output.write_ramp(byte),
            MINIMUM => self.output.minimum = byte,
            OPTIONS => self.output.options = byte,
            ZONES..=LAST_STORED => {
                let place = field - ZONES;
                let zone = &mut self.shared.zones[usize::from(place / 4)];
                match place % 4 {
                    TEMPERATURE => zone.temperature = byte,
                    RANGE => zone.configuration = byte,
                    LOW_LIMIT => zone.low_limit = byte,
                    _ => zone.absolute_limit = byte,
                }
            }
            _ => {}
        }
    }

    /// Every field of a state.
    fn take_fields(&mut self, at: impl Fn(usize) -> u8) {
        let at = |field: u8| at(field.into());
        (0..=LAST_STORED).for_each(|field| self.store(field, at(field)));
        self.output.duty = at(DUTY);
        self.output.clock = at(CLOCK).into();
        self.output.spin_up_left = u16::from_le_bytes([at(LEFT), at(LEFT + 1)]);
    }

    /// The words, then seven numbers, then a word for each thing that holds.
    fn line(&self, words: &str) -> String {
        let (output, shared) = (&self.output, &self.shared);
        let mut line = format!("{words}: {} {} {}", output.duty, output.clock, output.spin_up_left);
        line += &format!(", {} {}", output.reads(), output.goal(shared));
        line += &format!(" {} {}", output.rate(), output.spin_up_length());
        line += match output.asked(shared) {
            Asked::Full => " full",
            Asked::Off => " off",
            Asked::Duty(_) => " asked",
        };
        line += word(" ramp", output.ramp_control(shared));
        line + word(" spin-up", output.in_spin_up())
    }

    fn ticks_line(&mut self, count: u16) -> String {
        let mut last = false;
        for _ in 0..count {
            last |= self.output.tick(&self.shared);
        }
        self.line(&format!("ticks {count}{}", word(" last", last)))
    }

    fn zones_line(&self) -> String {
        let mut line = "zones".to_string();
        for zone in &self.shared.zones {
            line += &format!(" {}", zone.asks(self.output.minimum));
            line += word(" limit", zone.is_at_absolute_limit());
            line += word(" fault", zone.is_at_fault());
        }
        line
    }

    pub fn title(&mut self, text: &str) {
        self.script.add(b'#', text.as_bytes(), &format!("# {text}"));
    }

    pub fn reset(&mut self) {
        self.command(b'r', &[]);
    }

    /// A state set whole.
    pub fn load(&mut self, fields: Fields) {
        self.command(b'l', fields.bytes());
    }

    /// A stored write, or a kept temperature sample.
    pub fn write(&mut self, field: u8, byte: u8) {
        self.command(b'w', &[field, byte]);
    }

    pub fn settle(&mut self) {
        self.command(b's', &[]);
    }

    /// Settles where a run came to: "In a state that a run reaches, settling again changes nothing."
    pub fn settle_again(&mut self) {
        let before = self.output;
        self.settle();
        assert_eq!(self.output, before, "in {:?}", self.shared);
    }

    /// The spin-up's end by its tachs.
    pub fn spun(&mut self) {
        self.command(b'x', &[]);
    }

    /// Some ticks, and the state after them.
    pub fn ticks(&mut self, count: u16) {
        self.command(b't', &count.to_le_bytes());
    }

    /// Some ticks, and the state after each.
    pub fn each_tick(&mut self, count: u16) {
        let mut lines = Vec::new();
        for _ in 0..count {
            let last = self.output.tick(&self.shared);
            lines.push(self.line(&format!("tick{}", word(" last", last))));
        }
        self.script.add(b'e', &[byte(count)], &lines.join("\n"));
    }

    /// What each zone asks.
    pub fn zones(&mut self) {
        self.command(b'z', &[]);
    }
}

/// A word where something holds.
fn word(word: &'static str, holds: bool) -> &'static str {
    if holds {
        word
    } else {
        ""
    }
}
