//! Traffic: records laid as document 01 says, by its figures, so that the things which its rules speak of happen.
//!
//! A log is a row of scenes. Half of them begin with a power-on, so that they go as meant; the others meet whatever the scenes
//! before them left: a lock, a loop, a spin-up, a watch. One power-on in three is that of a part with fewer fans.
use crate::chance::Chance;

pub const MARK: [u8; 2] = [0x9C, 0x46];
pub const FANS: usize = 5;

const PERIODS: [usize; 8] = [8, 16, 24, 32, 40, 64, 96, 128];
const SPIN_UP_LENGTHS: [usize; 4] = [20, 40, 80, 160];
const WATCH_TICKS: usize = 320;
const LARGEST_SAMPLE: usize = 8191;
/// How many fans the parts of kind 6 have.
const PARTS: [usize; 3] = [1, 2, 3];
/// As many samples a fan as a report takes.
pub const MOST_SAMPLES: usize = 65_535;

/// Steps that the rules or their slips turn on; the two high bits of Max Step do not count.
const STEPS: [u8; 9] = [0, 1, 16, 63, 0x40, 0x41, 0x50, 0x7F, 0xFF];

/// Offsets of a fan's registers.
const SETTING: u8 = 0x0;
const CONFIGURATION_1: u8 = 0x2;
const CONFIGURATION_2: u8 = 0x3;
const SPIN_UP: u8 = 0x6;
const MAX_STEP: u8 = 0x7;
const MINIMUM_DRIVE: u8 = 0x8;
const VALID_COUNT: u8 = 0x9;
const TARGET_HIGH: u8 = 0xD;

/// Other registers.
const CONFIGURATION: u8 = 0x20;
const STATUS: u8 = 0x24;
const ENABLE: u8 = 0x29;
const LOCK: u8 = 0xEF;

/// A log in the making.
pub struct Traffic<'a> {
    pub log: Vec<u8>,
    /// Where its records start.
    pub starts: Vec<usize>,
    address: u8,
    /// How many fans the chip has, as far as the log goes as meant.
    present: usize,
    chance: &'a mut Chance,
}

/// A fan, from 0, and its first register.
#[derive(Clone, Copy)]
struct FanAt {
    fan: usize,
    base: u8,
}

/// A log of so many scenes.
pub fn traffic(chance: &mut Chance, scenes: usize) -> Traffic<'_> {
    let mut traffic = Traffic::none(chance);
    traffic.before_power();
    for _ in 0..scenes {
        traffic.scene();
    }
    traffic
}

/// A log in which one fan has about as many samples as a report takes; whatever comes behind them.
pub fn crowd(chance: &mut Chance) -> Traffic<'_> {
    let mut traffic = Traffic::none(chance);
    traffic.before_power();
    traffic.power_on();
    let at = traffic.any_fan();
    traffic.crowding(at);
    traffic.behind_the_crowd(at);
    traffic
}

// ---- records ----

impl<'a> Traffic<'a> {
    fn none(chance: &'a mut Chance) -> Traffic<'a> {
        Traffic {
            log: Vec::new(),
            starts: Vec::new(),
            address: chance.pick(&[0x2C, 0x2D, 0x00, 0x7F]),
            present: FANS,
            chance,
        }
    }
}

impl Traffic<'_> {
    pub fn record(&mut self, kind: u8, payload: &[u8]) {
        self.starts.push(self.log.len());
        self.log.extend(MARK);
        self.log.extend([kind, payload.len() as u8]);
        self.log.extend(payload);
    }

    /// Of five fans or of a part.
    fn power_on(&mut self) {
        let fans = if self.chance.one_in(3) {
            self.chance.pick(&PARTS)
        } else {
            FANS
        };
        self.power_on_with(fans);
    }

    /// At the address so far, seldom at another one.
    fn power_on_with(&mut self, fans: usize) {
        if self.chance.one_in(8) {
            self.address = self.chance.below(128) as u8;
        }
        self.present = fans;
        if fans == FANS {
            self.record(1, &[self.address]);
        } else {
            self.record(6, &[self.address, fans as u8]);
        }
    }

    fn ticks(&mut self, count: usize) {
        self.record(2, &(count as u16).to_le_bytes());
    }

    fn sample(&mut self, fan: usize, count: usize) {
        let [low, high] = (count as u16).to_le_bytes();
        self.record(3, &[fan as u8 + 1, low, high]);
    }

    fn wish(&mut self, fan: usize, drive: u8) {
        self.record(4, &[fan as u8 + 1, drive]);
    }

    /// A write of bytes, the first of which is the pointer.
    fn write(&mut self, bytes: &[u8]) {
        let mut payload = vec![self.address * 2];
        payload.extend(bytes);
        self.record(5, &payload);
    }

    fn read(&mut self, count: usize) {
        self.record(5, &[self.address * 2 + 1, count as u8]);
    }

    fn set(&mut self, register: u8, byte: u8) {
        self.write(&[register, byte]);
    }

    /// Sets the pointer and reads.
    fn show(&mut self, register: u8, count: usize) {
        self.write(&[register]);
        self.read(count);
    }
}

// ---- scenes ----

impl Traffic<'_> {
    fn before_power(&mut self) {
        if self.chance.one_in(4) {
            for _ in 0..self.chance.between(1, 4) {
                self.small_event();
            }
        }
        if self.chance.one_in(8) {
            let (fan, count) = (self.chance.below(FANS), self.any_count());
            self.sample(fan, count);
        }
        if !self.chance.one_in(16) {
            self.power_on();
        }
    }

    fn scene(&mut self) {
        if self.chance.one_in(2) {
            self.power_on();
        }
        match self.chance.below(21) {
            0 => self.any_write(),
            1 => self.wrapping(),
            2 => self.locking(),
            3 => self.power_up_watch(),
            4 | 5 => self.continuous_watch(),
            6 | 7 => self.spinning_up(),
            8 | 9 => self.stalling(),
            10 | 11 => self.ramping(),
            12 => self.closed_loop(),
            13 => self.resting_loop(),
            14 => self.held_rotor(),
            15 | 16 => self.speeding(),
            17 | 18 => self.part(),
            19 => self.absent_watch(),
            _ => (0..self.chance.between(1, 12)).for_each(|_| self.small_event()),
        }
        match self.chance.below(4) {
            0 => self.whole_map(),
            1 => (0..2).for_each(|_| self.show(STATUS, 4)),
            2 => (0..FANS).for_each(|fan| self.show(fan_at(fan).base, 16)),
            _ => {}
        }
    }

    /// Any event, most of them taken.
    fn small_event(&mut self) {
        match self.chance.below(12) {
            0 => {
                let count = self.some_ticks();
                self.ticks(count);
            }
            1 => {
                let (fan, count) = (self.chance.below(FANS), self.chance.below(LARGEST_SAMPLE + 1));
                self.sample(fan, count);
            }
            2 => {
                let (fan, drive) = (self.chance.below(FANS), self.chance.byte());
                self.wish(fan, drive);
            }
            3 => self.write(&[]),
            4 => {
                let pointer = self.chance.byte();
                self.write(&[pointer]);
            }
            5 | 6 => {
                let count = self.chance.between(1, 32);
                self.read(count);
            }
            7 => self.read(1),
            8 => self.elsewhere(),
            9 => {
                let register = self.chance.pick(&[0x24, 0x25, 0x26, 0x27]);
                self.show(register, 1);
            }
            _ => self.any_write(),
        }
    }

    /// A transfer to another address, a read or a write.
    fn elsewhere(&mut self) {
        let own = self.address;
        self.address = self.chance.pick(&[own ^ 1, own ^ 2, own ^ 0x40]);
        match self.chance.below(3) {
            0 => self.set(0x30, 0x80),
            1 => self.write(&[]),
            _ => self.read(32),
        }
        self.address = own;
    }

    /// A part, with traffic at its edge and past it; at times another power-on behind it, and all Settings.
    fn part(&mut self) {
        let fans = self.chance.pick(&PARTS);
        self.power_on_with(fans);
        for _ in 0..self.chance.between(2, 10) {
            self.absent_event();
        }
        if self.chance.one_in(3) {
            self.power_on();
            for fan in 0..FANS {
                self.set(fan_at(fan).base + SETTING, 0x40);
                self.read(1);
            }
        }
    }

    /// What is aimed at absent fans, or at the edge of the registers that there are; or any event.
    fn absent_event(&mut self) {
        let at = self.absent_fan();
        match self.chance.below(12) {
            0 => {
                let count = self.any_count();
                self.sample(at.fan, count);
            }
            1 => {
                let drive = self.chance.byte();
                self.wish(at.fan, drive);
            }
            2 | 3 => self.absent_register(at),
            4 | 5 => self.edge_block(),
            6 => self.stalled_part(at),
            7 => {
                let enable = self.chance.byte();
                self.set(ENABLE, enable);
                self.read(1);
            }
            8 => self.show(STATUS, 4),
            9 => self.held_rotor(),
            _ => self.small_event(),
        }
    }

    /// A register of an absent fan, written and read.
    fn absent_register(&mut self, at: FanAt) {
        let register = at.base + self.chance.below(16) as u8;
        let byte = self.chance.byte();
        self.set(register, byte);
        self.read(1);
        self.ticks(40);
        self.read(1);
    }

    /// Blocks that go into the absent registers, lie in them or come out of them, written or read.
    fn edge_block(&mut self) {
        let edge = 0x30 + 0x10 * self.present;
        let out = 0x80 - self.chance.between(1, 20);
        let first = self.chance.pick(&[edge - 16, edge - 3, edge - 1, edge, edge + 1, out]);
        let count = self.chance.between(2, 31);
        if self.chance.one_in(2) {
            let bytes = self.chance.bytes(count);
            self.write(&[&[first as u8], &bytes[..]].concat());
            self.read(1);
        }
        self.show(first as u8, count);
        self.read(2);
    }

    /// A fan that there is and an absent one, both set and sampled, all enabled.
    fn stalled_part(&mut self, at: FanAt) {
        let beside = fan_at(self.chance.below(self.present));
        for at in [beside, at] {
            self.set(at.base + SPIN_UP, 0x18);
            self.set(at.base + SETTING, 0x80);
        }
        self.ticks(20);
        for at in [at, beside] {
            self.sample(at.fan, LARGEST_SAMPLE);
        }
        self.set(ENABLE, 0xFF);
        for register in [0x24, 0x25, 0x26] {
            self.show(register, 1);
        }
    }

    /// The power-up watch of a part, with a write to an absent fan that would end it; or the continuous one, which a transfer
    /// to an absent register feeds and what is refused does not.
    fn absent_watch(&mut self) {
        let fans = self.chance.pick(&PARTS);
        self.power_on_with(fans);
        let (at, beside) = (self.absent_fan(), fan_at(self.chance.below(fans)));
        if self.chance.one_in(2) {
            self.set(CONFIGURATION, 0x60);
        }
        let before = self.chance.between(1, WATCH_TICKS - 1);
        self.ticks(before);
        match self.chance.below(6) {
            0 => self.set(at.base + SETTING, 0x80),
            1 => self.set(at.base + SETTING, 0),
            2 => self.set(at.base + CONFIGURATION_1, 0xAB),
            3 => self.write(&[at.base - 1, 0, 0x80, 0x01, 0xAB]),
            4 => self.sample(at.fan, LARGEST_SAMPLE),
            _ => self.wish(at.fan, 0x80),
        }
        let edge = self.chance.pick(&[WATCH_TICKS - before, WATCH_TICKS]);
        self.beside_the_edge(beside, edge);
        self.show(at.base, 16);
    }

    /// Any register, one data byte or a block.
    fn any_write(&mut self) {
        let register = match self.chance.below(3) {
            0 => self.chance.byte(),
            1 => self.chance.between(0x30, 0x7F) as u8,
            _ => self.chance.pick(&[
                0x20, 0x24, 0x25, 0x26, 0x27, 0x28, 0x29, 0x2A, 0x2B, 0x2C, 0x2D, 0xEF, 0xFD,
            ]),
        };
        let count = if self.chance.one_in(4) {
            self.chance.between(2, 31)
        } else {
            1
        };
        let mut bytes = vec![register];
        bytes.extend(self.chance.bytes(count));
        self.write(&bytes);
        if self.chance.one_in(2) {
            self.show(register, count);
        }
    }

    /// Block transfers that go over FFh to 00h and on.
    fn wrapping(&mut self) {
        let pointer = self.chance.between(0xE1, 0xFF) as u8;
        if self.chance.one_in(2) {
            let mut bytes = vec![pointer];
            bytes.extend(self.chance.bytes(31));
            self.write(&bytes);
            self.read(1);
        }
        self.show(pointer, 32);
        self.read(32);
    }

    fn locking(&mut self) {
        let byte = self.chance.pick(&[0x00, 0x01, 0x01, 0xFE, 0xFF]);
        let at = self.any_fan();
        self.set(LOCK, byte);
        if self.chance.one_in(2) {
            for register in [at.base, CONFIGURATION] {
                let bytes = self.chance.bytes(16);
                self.write(&[&[register], &bytes[..]].concat());
            }
        } else {
            for register in [
                at.base + MAX_STEP,
                at.base + CONFIGURATION_2,
                at.base,
                CONFIGURATION,
                LOCK,
            ] {
                let byte = self.chance.byte();
                self.set(register, byte);
            }
        }
        self.show(at.base, 16);
        self.show(CONFIGURATION, 16);
        self.show(LOCK, 1);
    }

    /// The power-up watch with traffic that ends it or does not, up to its firing and past it.
    fn power_up_watch(&mut self) {
        self.power_on();
        let at = self.any_fan();
        self.quick_ramp(at);
        let before = self.chance.below(WATCH_TICKS);
        self.ticks(before);
        match self.chance.below(6) {
            0 => self.set(at.base + SETTING, 0),
            1 => self.set(at.base + CONFIGURATION_1, 0xA8),
            2 => self.set(at.base + CONFIGURATION_1, 0x28),
            3 => self.set(CONFIGURATION, 0x40),
            4 => self.small_event(),
            _ => self.sample(at.fan, LARGEST_SAMPLE),
        }
        self.over_the_edge(at, WATCH_TICKS - before);
        self.after_firing(at);
    }

    /// The continuous watch, fed, ended or left alone, up to its firing, and once more.
    fn continuous_watch(&mut self) {
        let at = self.any_fan();
        self.before_firing(at);
        let byte = self.chance.pick(&[0x20, 0x60, 0xE0, 0xFF]);
        self.set(CONFIGURATION, byte);
        if self.chance.one_in(4) {
            self.set(LOCK, 0x01);
        }
        let before = self.chance.between(1, WATCH_TICKS - 1);
        self.ticks(before);
        match self.chance.below(10) {
            0 => self.write(&[]),
            1 => self.write(&[0x30]),
            2 => self.read(1),
            3 => self.elsewhere(),
            4 => self.sample(at.fan, LARGEST_SAMPLE),
            5 => self.set(CONFIGURATION, 0x40),
            6 => self.power_on(),
            7 => self.set(at.base + SETTING, 0),
            8 => self.wish(at.fan, 0x80),
            _ => self.ticks(0),
        }
        let edge = self.chance.pick(&[WATCH_TICKS - before, WATCH_TICKS]);
        self.beside_the_edge(at, edge);
        self.after_firing(at);
        self.beside_the_edge(at, WATCH_TICKS);
    }

    /// What a firing ends: a spin-up in closed loop that fails again and again, or a ramp.
    fn before_firing(&mut self, at: FanAt) {
        if self.chance.one_in(2) {
            self.quick_ramp(at);
        } else {
            let spin_up = self.chance.byte();
            self.set(at.base + SPIN_UP, spin_up);
            self.loop_on(at);
        }
        let wait = self.chance.below(80);
        self.ticks(wait);
    }

    /// Ramp control in direct mode with the shortest period.
    fn quick_ramp(&mut self, at: FanAt) {
        self.set(at.base + CONFIGURATION_2, 0x68);
        self.set(at.base + CONFIGURATION_1, 0x28);
    }

    /// A ramp from where the firing left the fan and its clock.
    fn after_firing(&mut self, at: FanAt) {
        self.set(at.base + SETTING, 0x10);
        self.over_the_edge(at, PERIODS[0]);
    }

    /// Ticks up to an edge, one fewer or one more, and a look: one only, because it feeds the continuous watch.
    fn beside_the_edge(&mut self, at: FanAt, edge: usize) {
        let count = self.chance.between(edge - 1, edge + 1);
        self.ticks(count);
        self.show(STATUS, 1);
        self.show(at.base, 16);
    }

    /// One tick short of an edge, the edge, and one tick past it, with a look at the fan each time.
    fn over_the_edge(&mut self, at: FanAt, edge: usize) {
        self.ticks(edge - 1);
        self.show(at.base + SETTING, 1);
        for _ in 0..2 {
            self.ticks(1);
            self.read(1);
        }
    }

    /// A spin-up of any setting, with a reading that it is judged by, and the ramp after it.
    fn spinning_up(&mut self) {
        let at = self.any_fan();
        let (byte, goal, idle) = (self.chance.byte(), self.chance.byte().max(1), self.chance.below(8));
        let length = SPIN_UP_LENGTHS[usize::from(byte & 3)];
        let quarter = length / 4;
        self.set(at.base + SPIN_UP, byte);
        if self.chance.one_in(2) {
            self.set(at.base + CONFIGURATION_2, 0x68);
        }
        self.ticks(idle);
        let period = if self.chance.one_in(3) {
            self.loop_on(at)
        } else {
            PERIODS[3]
        };
        self.set(at.base + SETTING, goal);
        if self.chance.one_in(2) {
            self.show(at.base + SETTING, 1);
        }
        self.edge_sample(at, 0xF5);
        self.over_the_edge(at, quarter);
        if self.chance.one_in(3) {
            self.disturb_spin_up(at);
        }
        self.over_the_edge(at, length - quarter - 1);
        self.over_the_edge(at, period - 1);
        self.ticks(length);
        self.read(1);
    }

    /// A fan that spins up meets another setting of it, another goal, the loop, a sample or another Valid Count.
    fn disturb_spin_up(&mut self, at: FanAt) {
        let byte = self.chance.byte();
        match self.chance.below(9) {
            0 => self.set(at.base + SETTING, 0),
            1 => self.set(at.base + SETTING, byte),
            2 => self.set(at.base + SPIN_UP, byte),
            3 => self.set(at.base + TARGET_HIGH, 0xFF),
            4 => {
                self.loop_on(at);
            }
            5 => self.set(at.base + CONFIGURATION_1, 0x2B),
            6 => self.edge_sample(at, 0xF5),
            7 => self.set(at.base + VALID_COUNT, byte),
            _ => self.wish(at.fan, byte),
        }
        self.show(at.base, 16);
    }

    /// Samples on both sides of Valid Count, after a healthy one, and the spin-up that a stall starts.
    fn stalling(&mut self) {
        let at = self.any_fan();
        let valid = self.chance.pick(&[0xF5, 0x00, 0x80, 0xFE, 0xFF]);
        self.set(at.base + VALID_COUNT, valid);
        self.set(at.base + SPIN_UP, 0x18);
        if !self.chance.one_in(3) {
            self.loop_on(at);
        }
        self.set(at.base + SETTING, 0x80);
        self.sample(at.fan, 0);
        let (wait, spin_up) = (self.chance.pick(&[19, 20, 60]), self.chance.byte());
        self.ticks(wait);
        self.set(at.base + SPIN_UP, spin_up);
        for _ in 0..3 {
            self.edge_sample(at, valid);
            self.show(at.base + SETTING, 1);
        }
        self.over_the_edge(at, SPIN_UP_LENGTHS[usize::from(spin_up & 3)] / 4);
        let enable = self.chance.byte();
        self.set(ENABLE, enable);
        self.show(0x24, 4);
        self.show(0x25, 1);
        self.show(0x24, 1);
    }

    /// Two fans with their rotors held and bits of 25h and 26h set: reads, again and again, while one or the other turns or not.
    fn held_rotor(&mut self) {
        let fans = [self.any_fan(), self.any_fan()];
        for at in fans {
            self.set(at.base + SPIN_UP, 0x18);
            self.set(at.base + SETTING, 0x20);
        }
        self.ticks(20);
        let valid = self.chance.pick(&[0xF5, 0xF5, 0x00, 0x80, 0xFE]);
        for at in fans {
            self.set(at.base + VALID_COUNT, valid);
            self.sample(at.fan, LARGEST_SAMPLE);
        }
        for _ in 0..self.chance.between(4, 12) {
            let at = self.chance.pick(&fans);
            self.turn_or_stop(at, valid);
            let (register, count) = self.chance.pick(&[(0x25, 1), (0x26, 1), (0x24, 4), (0x24, 1)]);
            self.show(register, count);
            if self.chance.one_in(2) {
                self.read(count);
            }
        }
    }

    /// What can make a fan keep its bits or not: its reading, Valid Count, its drive, and its goal, which cannot.
    fn turn_or_stop(&mut self, at: FanAt, valid: u8) {
        match self.chance.below(9) {
            0 | 1 => self.edge_sample(at, valid),
            2 => self.set(at.base + VALID_COUNT, valid),
            3 => self.set(at.base + VALID_COUNT, 0xFF),
            4 => self.set(at.base + SETTING, 0),
            5 => self.set(at.base + SETTING, 0x20),
            6 => {
                self.quick_ramp(at);
                self.set(at.base + SETTING, 0);
            }
            7 => {
                self.set(at.base + MINIMUM_DRIVE, 0);
                self.loop_on(at);
                let drive = self.chance.pick(&[0, 0x80]);
                self.wish(at.fan, drive);
            }
            _ => self.set(at.base + CONFIGURATION_1, 0x2B),
        }
        let wait = self.chance.pick(&[0, 0, 8, 20, 40]);
        self.ticks(wait);
    }

    /// Samples of one fan or two at any setting of Configuration 1, with what changes it between them and what does not.
    fn speeding(&mut self) {
        let fans = [self.any_fan(), self.any_fan()];
        for _ in 0..self.chance.between(1, 12) {
            let at = self.chance.pick(&fans);
            self.change_configuration(at);
            for _ in 0..self.chance.below(5) {
                let count = self.any_count();
                self.sample(at.fan, count);
            }
        }
    }

    /// Configuration 1 of a fan alone or in a block, or something else.
    fn change_configuration(&mut self, at: FanAt) {
        let (byte, own) = (self.chance.byte(), self.address);
        match self.chance.below(10) {
            0..=3 => self.set(at.base + CONFIGURATION_1, byte),
            4 => {
                let bytes = self.chance.bytes(24);
                self.write(&[&[at.base - 8], &bytes[..]].concat());
            }
            5 => self.set(at.base + CONFIGURATION_2, byte),
            6 => {
                self.address ^= 1;
                self.set(at.base + CONFIGURATION_1, byte);
                self.address = own;
            }
            7 => self.power_on(),
            8 => self.ticks(WATCH_TICKS),
            _ => {}
        }
    }

    /// None, few, many or any.
    fn any_count(&mut self) -> usize {
        let any = self.chance.below(LARGEST_SAMPLE + 1);
        let few = self.chance.between(1, 20);
        self.chance
            .pick(&[0, 1, 2, 3, few, any, any, any, LARGEST_SAMPLE - 1, LARGEST_SAMPLE])
    }

    /// As many samples of a fan as a report takes, seldom one fewer: many in a row that are the same, and other records
    /// between them.
    fn crowding(&mut self, at: FanAt) {
        let mut left = MOST_SAMPLES - usize::from(self.chance.one_in(8));
        while left > 0 {
            self.bring_back(at);
            let (many, count) = (self.chance.between(1, left), self.any_count());
            (0..many).for_each(|_| self.sample(at.fan, count));
            left -= many;
            self.change_configuration(at);
            let (fan, count) = ((at.fan + self.chance.between(1, 4)) % FANS, self.any_count());
            self.sample(fan, count);
        }
    }

    /// A power-on of enough fans where this one is absent, which a sample shows first.
    fn bring_back(&mut self, at: FanAt) {
        if at.fan >= self.present {
            self.sample(at.fan, LARGEST_SAMPLE);
            let fans: Vec<usize> = [1, 2, 3, FANS].into_iter().filter(|&fans| at.fan < fans).collect();
            let fans = self.chance.pick(&fans);
            self.power_on_with(fans);
        }
    }

    /// One sample more of the fan, one while it is absent, one that is damaged, other records, or a log that ends inside it.
    fn behind_the_crowd(&mut self, at: FanAt) {
        let any = self.any_count();
        let count = self.chance.pick(&[0, any]);
        match self.chance.below(12) {
            0 => {}
            1 => self.record(3, &[at.fan as u8 + 1, 0x00, 0x20]),
            2 => self.record(3, &[at.fan as u8 + 1, 0x00]),
            3 => {
                self.sample(at.fan, count);
                self.log.pop();
            }
            4..=7 => {
                let fans = self.chance.between(1, at.fan.clamp(1, 3));
                self.power_on_with(fans);
                self.sample(at.fan, count);
                self.bring_back(at);
                self.sample(at.fan, count);
            }
            _ => {
                self.small_event();
                (0..2).for_each(|_| self.sample(at.fan, count));
                self.small_event();
            }
        }
    }

    /// The largest sample that is no stall, the smallest that is one, or any.
    fn edge_sample(&mut self, at: FanAt, valid: u8) {
        let least = (usize::from(valid) + 1) * 32;
        let any = self.chance.below(LARGEST_SAMPLE + 1);
        let count = self.chance.pick(&[least - 1, least, any, LARGEST_SAMPLE]);
        self.sample(at.fan, count.min(LARGEST_SAMPLE));
    }

    /// A ramp in direct mode, looked at on both sides of its updates, with a fan beside it.
    fn ramping(&mut self) {
        let (at, beside) = (self.any_fan(), self.any_fan());
        let configuration = self.chance.byte() & 0x7F;
        let period = PERIODS[usize::from(configuration & 7)];
        let (step, from, to) = (self.any_step(), self.chance.byte().max(1), self.chance.byte());
        self.set(at.base + SPIN_UP, 0x18);
        self.set(at.base + SETTING, from);
        self.ticks(20);
        self.set(at.base + MAX_STEP, step);
        self.set(at.base + CONFIGURATION_2, 0x68);
        self.set(at.base + CONFIGURATION_1, configuration);
        let idle = self.chance.below(period);
        self.ticks(idle);
        self.set(at.base + SETTING, to);
        self.over_the_edge(at, period - idle);
        if self.chance.one_in(3) {
            self.disturb_ramp(at, beside);
        }
        self.over_the_edge(at, period);
        let rest = self.chance.below(20 * period);
        self.ticks(rest);
        self.show(at.base, 16);
    }

    fn disturb_ramp(&mut self, at: FanAt, beside: FanAt) {
        let step = self.any_step();
        match self.chance.below(7) {
            0 => self.set(at.base + MAX_STEP, step),
            1 => self.set(at.base + CONFIGURATION_2, 0x28),
            2 => self.set(at.base + CONFIGURATION_2, 0x68),
            3 => {
                self.loop_on(at);
            }
            4 => self.wish(at.fan, 0x40),
            5 => self.sample(at.fan, LARGEST_SAMPLE),
            _ => self.set(beside.base + SETTING, 0x55),
        }
        self.show(at.base + SETTING, 1);
    }

    /// Closed loop with wishes, driver off and on, a stall that spins up, and the loop off again.
    fn closed_loop(&mut self) {
        let at = self.any_fan();
        let (step, least) = (self.any_step(), self.chance.byte());
        self.set(at.base + MAX_STEP, step);
        self.set(at.base + MINIMUM_DRIVE, least);
        self.loop_on(at);
        for _ in 0..self.chance.between(1, 6) {
            let (wish, wait) = (self.chance.byte(), self.chance.below(200));
            match self.chance.below(8) {
                0 => self.set(at.base + TARGET_HIGH, 0xFF),
                1 => self.set(at.base + TARGET_HIGH, 0x12),
                2 => self.set(at.base + CONFIGURATION_1, 0x2B),
                3 => self.set(at.base + CONFIGURATION_1, 0xA8),
                4 => self.edge_sample(at, 0xF5),
                5 => self.set(at.base + SETTING, wish),
                _ => self.wish(at.fan, wish),
            }
            self.ticks(wait);
            self.show(at.base + SETTING, 1);
        }
    }

    /// A loop that rests at drive 0 until a wish moves it: what starts a spin-up there, what ends it, and its clock.
    fn resting_loop(&mut self) {
        self.power_on();
        let at = self.any_fan();
        self.set(at.base + MINIMUM_DRIVE, 0);
        self.set(at.base + TARGET_HIGH, 0x12);
        self.set(at.base + CONFIGURATION_1, 0xA8);
        for _ in 0..self.chance.between(3, 12) {
            // Of these Setting, the undefined one and the readings store nothing, Gain and the fail band only unlocked.
            let register = at.base + self.chance.pick(&[SETTING, 0x4, 0x5, 0xB, 0xE, 0xF]);
            match self.chance.below(10) {
                0 | 1 => self.wish(at.fan, 0),
                2 | 3 => self.wish(at.fan, 0x80),
                4 => self.set(at.base + TARGET_HIGH, 0xFF),
                5 => self.set(at.base + TARGET_HIGH, 0x12),
                6 => self.edge_sample(at, 0xF5),
                7 if self.chance.one_in(3) => self.set(LOCK, 0x01),
                _ => self.set(register, 0x77),
            }
            let wait = self.chance.below(12);
            self.ticks(wait);
            self.show(at.base + SETTING, 1);
        }
    }

    /// Turns the loop on with the driver on or off; gives its period.
    fn loop_on(&mut self, at: FanAt) -> usize {
        let period = self.chance.below(8);
        let target = self.chance.pick(&[0x00, 0x34, 0xFE, 0xFF]);
        self.set(at.base + TARGET_HIGH, target);
        self.set(at.base + CONFIGURATION_1, 0xA8 + period as u8);
        PERIODS[period]
    }

    /// All 256 registers, in blocks of 32 or each alone.
    fn whole_map(&mut self) {
        if self.chance.one_in(4) {
            (0..=255).for_each(|register| self.show(register, 1));
        } else {
            self.write(&[0x00]);
            (0..8).for_each(|_| self.read(32));
        }
    }

    /// Mostly one that there is.
    fn any_fan(&mut self) -> FanAt {
        let fans = if self.chance.one_in(8) { FANS } else { self.present };
        fan_at(self.chance.below(fans))
    }

    /// An absent one; where there are five, the last.
    fn absent_fan(&mut self) -> FanAt {
        let first = self.present.min(FANS - 1);
        fan_at(self.chance.between(first, FANS - 1))
    }

    fn any_step(&mut self) -> u8 {
        if self.chance.one_in(3) {
            self.chance.byte()
        } else {
            self.chance.pick(&STEPS)
        }
    }

    /// Few ticks mostly, many seldom.
    fn some_ticks(&mut self) -> usize {
        match self.chance.below(100) {
            0 => 65_535,
            1..=5 => self.chance.below(2_000),
            6..=15 => 0,
            _ => self.chance.below(170),
        }
    }
}

fn fan_at(fan: usize) -> FanAt {
    FanAt {
        fan,
        base: 0x30 + 0x10 * fan as u8,
    }
}
