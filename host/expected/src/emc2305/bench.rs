//! A chip under test: the commands of emc2305_test, and the line of each.

use super::{at, CONFIGURATION, FANS, HOME};
use crate::emc2305_fan::ON;
use crate::events::{self, words};
use crate::script::{byte, code, hex_or, Script};
use model::chip::{Chip, Watch, CONFIGURATION_1, SETTING, SPIN_UP, TARGET_HIGH};
use model::log::Event;

/// What stands in the lent buffer before each step.
const FILL: u8 = 0xAA;

/// A count above any Valid Count but FFh, and one below most.
pub const STALLED: u16 = 8191;
pub const HEALTHY: u16 = 100;

/// A register and data bytes.
pub fn row(register: u8, data: impl IntoIterator<Item = u8>) -> Vec<u8> {
    std::iter::once(register).chain(data).collect()
}

/// Each command acts on the chip, and the room for its replies, that the one before it left.
pub struct Bench {
    pub script: Script,
    pub chip: Chip,
    room: usize,
}

impl Bench {
    pub fn new() -> Bench {
        Bench {
            script: Script::default(),
            chip: Chip::unpowered(),
            room: 0,
        }
    }

    /// What a read shows: a copy of the chip is asked, so that nothing is cleared.
    fn shown(&self, address: u8, register: u8) -> u8 {
        let mut copy = Chip {
            pointer: register,
            ..self.chip.clone()
        };
        let mut reply = [0];
        let taken = copy.step(&events::clock(address, 0, 1), &[1], &mut reply);
        assert_eq!(taken, Ok(1), "a powered chip takes a read of one byte");
        reply[0]
    }

    /// Every register, then each fan's wish and update clock, as digits of a number to the base 257; its remainder.
    fn visible_sum(&self, address: u8) -> u32 {
        let registers = (0..=255).map(|register| self.shown(address, register).into());
        let fans = self
            .chip
            .fans
            .iter()
            .flat_map(|fan| [fan.wish.into(), fan.clock.into()]);
        registers
            .chain(fans)
            .fold(0, |sum, digit: u32| (sum * 257 + digit) % 65521)
    }

    /// Pointer, watch, drives, sum, alert line.
    fn state(&self) -> String {
        let Some(address) = self.chip.address else {
            return ", unpowered".into();
        };
        let watch = match self.chip.watch {
            Watch::Off => "off".into(),
            Watch::PowerUp { count } => format!("power-up {count}"),
            Watch::Continuous { count } => format!("continuous {count}"),
        };
        let drives: String = self.chip.fans.iter().map(|fan| format!(" {}", fan.drive)).collect();
        let (pointer, sum) = (self.chip.pointer, self.visible_sum(address));
        let alert = if self.chip.alert() { " alert" } else { "" };
        format!(", {pointer:02x} {watch},{drives}, {sum}{alert}")
    }

    /// One step, and the whole lent buffer after it.
    fn happen(&mut self, which: u8, data: &[u8], event: &Event, log: &[u8]) {
        let mut buffer = vec![FILL; self.room];
        let (number, laid) = match self.chip.step(event, log, &mut buffer) {
            Ok(laid) => (0, laid),
            Err(number) => (number, 0),
        };
        let mut line = words(event);
        if matches!(event, Event::Transfer { .. }) {
            line += &format!(" {}", hex_or("-", log));
        }
        line += &format!(": {number} {laid} {}{}", hex_or("-", &buffer), self.state());
        self.script.add(which, data, &line);
    }

    pub fn title(&mut self, text: &str) {
        self.script.add(b'T', text.as_bytes(), &format!("# {text}"));
    }

    /// A chip that was never powered.
    pub fn fresh(&mut self) {
        self.chip = Chip::unpowered();
        self.script.add(b'N', &[], "new");
    }

    /// How much room replies are lent from now on.
    pub fn room(&mut self, size: u8) {
        self.room = size.into();
        self.script.add(b'B', &[size], &format!("room {size}"));
    }

    /// The watch set alone, also to one that no run reaches.
    pub fn watch(&mut self, watch: Watch) {
        self.chip.watch = watch;
        let (kind, count) = match watch {
            Watch::Off => (0, 0),
            Watch::PowerUp { count } => (1, count),
            Watch::Continuous { count } => (2, count),
        };
        let [low, high] = count.to_le_bytes();
        let line = format!("watch{}", self.state());
        self.script.add(b'V', &[kind, low, high], &line);
    }

    /// All 256 registers, sixteen to a line.
    pub fn registers(&mut self) {
        let address = self.chip.address.expect("the chip is powered");
        let cell = |register| format!("{:02x}", self.shown(address, register));
        let cells: Vec<String> = (0..=255).map(cell).collect();
        let rows: Vec<String> = cells.chunks(16).map(|row| row.join(" ")).collect();
        self.script.add(b'D', &[], &rows.join("\n"));
    }

    pub fn power_on(&mut self) {
        self.power_on_at(HOME);
    }

    pub fn power_on_at(&mut self, address: u8) {
        self.happen(b'P', &[address], &events::power_on(address), &[]);
    }

    pub fn part_on(&mut self, fans: u8) {
        self.part_on_at(HOME, fans);
    }

    pub fn part_on_at(&mut self, address: u8, fans: u8) {
        self.happen(b'Q', &[address, fans], &events::part_on(address, fans), &[]);
    }

    pub fn ticks(&mut self, count: u16) {
        self.happen(b'K', &count.to_le_bytes(), &events::ticks(count), &[]);
    }

    pub fn sample(&mut self, fan: u8, count: u16) {
        let [low, high] = count.to_le_bytes();
        self.happen(b'S', &[fan, low, high], &events::sample(fan, count), &[]);
    }

    pub fn wish(&mut self, fan: u8, drive: u8) {
        self.happen(b'W', &[fan, drive], &events::wish(fan, drive), &[]);
    }

    /// A transfer by its fields, good or not, over a log.
    pub fn transfer(&mut self, event: &Event, log: &[u8]) {
        let Event::Transfer {
            address,
            read,
            place,
            length,
        } = *event
        else {
            panic!("{event:?} is no transfer");
        };
        let head = [byte(read), address, code(place), code(length)];
        self.happen(b'X', &[&head, log].concat(), event, log);
    }

    pub fn send(&mut self, sent: &[u8]) {
        self.send_to(HOME, sent);
    }

    pub fn send_to(&mut self, address: u8, sent: &[u8]) {
        self.transfer(&events::send(address, 0, sent.len()), sent);
    }

    pub fn clock(&mut self, count: u8) {
        self.clock_at(HOME, count);
    }

    pub fn clock_at(&mut self, address: u8, count: u8) {
        self.transfer(&events::clock(address, 0, 1), &[count]);
    }
}

/// Parts of cases.
impl Bench {
    /// Power-on, and the first fans in direct mode at their drives, the spin-ups past, no watch.
    pub fn settled(&mut self, drives: &[u8]) {
        self.power_on();
        for (fan, &drive) in (1..).zip(drives) {
            self.sample(fan, HEALTHY);
            self.send(&[at(fan, SETTING), drive]);
        }
        self.ticks(40);
    }

    /// Closed loop with the driver on, period 8.
    pub fn loop_on(&mut self, fan: u8) {
        self.send(&[at(fan, TARGET_HIGH), ON]);
        self.send(&[at(fan, CONFIGURATION_1), 0xA8]);
    }

    /// A good sample of each of some fans.
    pub fn turn(&mut self, fans: &[u8]) {
        fans.iter().for_each(|&fan| self.sample(fan, HEALTHY));
    }

    /// Every bit of 24h, 25h and 26h that can be set, with the continuous watch; every rotor held.
    pub fn all_stand(&mut self) {
        self.power_on();
        for fan in FANS {
            self.send(&[at(fan, SPIN_UP), 0x18]);
            self.send(&[at(fan, SETTING), 0x80]);
        }
        self.ticks(20);
        for fan in FANS {
            self.sample(fan, STALLED);
        }
        self.send(&[CONFIGURATION, 0x60]);
        self.ticks(320);
    }
}
