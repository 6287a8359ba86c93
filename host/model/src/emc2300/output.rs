//! One output: what it is asked for, its ramp and its spin-up.

use super::zones::Zone;

/// Ramp: "a fixed table of ticks for one step of 1".
const RATES: [u16; 8] = [17, 9, 6, 4, 3, 2, 1, 1];
/// Spin-up: "a fixed table of ticks".
const SPIN_UP_LENGTHS: [u16; 8] = [0, 8, 20, 32, 56, 80, 160, 320];
/// Registers: of an output's ramp "bit 3 enable, 2..0 rate".
const ENABLE: u8 = 0x08;
/// Registers: "options of outputs 1 to 3, bit 2 SZEN".
const SZEN: u8 = 0x04;
/// Full: the largest duty.
const FULL: u8 = 255;

/// What all outputs go by: bits 0 and 3 of 40h, and the three zones.
#[derive(Clone, Copy, Debug, PartialEq, Eq)]
pub struct Shared {
    pub start: bool,
    pub ovrid: bool,
    pub zones: [Zone; 3],
}

impl Shared {
    /// Registers: 40h "reads 04h" at power-on, so that START and OVRID are 0.
    pub fn power_on() -> Shared {
        Shared {
            start: false,
            ovrid: false,
            zones: [Zone::power_on(); 3],
        }
    }
}

/// Duty: "What an output is asked for": full, off, or a duty, by its setting or automatic.
#[derive(Clone, Copy, Debug, PartialEq, Eq)]
pub enum Asked {
    Full,
    Off,
    Duty(u8),
}

/// One output: its registers 30h (the setting), 5Ch, 64h and 94h, each + i - 1 for output i; its own half of 62h or 63h, of
/// which the low four bits count; its duty, its ramp clock and how many ticks are left of its spin-up, 0 where none runs.
#[derive(Clone, Copy, Debug, PartialEq, Eq)]
pub struct Output {
    pub setting: u8,
    pub configuration: u8,
    pub ramp: u8,
    pub minimum: u8,
    pub options: u8,
    pub duty: u8,
    pub clock: u16,
    pub spin_up_left: u16,
}

impl Output {
    /// Registers: "every output at duty 255, no spin-up, clocks 0"; 62h is E0h and 63h 00h, so that each ramp is 0.
    pub fn power_on() -> Output {
        Output {
            setting: 0xFF,
            configuration: 0x62,
            ramp: 0x0,
            minimum: 0x80,
            options: 0x0C,
            duty: 255,
            clock: 0,
            spin_up_left: 0,
        }
    }

    /// Registers: "bits 7..5 mode".
    fn mode(&self) -> u8 {
        self.configuration >> 5
    }

    /// Duty: "the first that holds: 1. START 0 or OVRID 1: full. 2. Mode 3: full. 3. Mode 4: off. 4. Mode 7 (manual): its
    /// setting. 5. Automatic."
    pub fn asked(&self, shared: &Shared) -> Asked {
        if !shared.start || shared.ovrid {
            return Asked::Full;
        }
        let [zone1, zone2, zone3] = shared.zones;
        match self.mode() {
            0 => self.automatic(shared, &[zone1]),
            1 => self.automatic(shared, &[zone2]),
            2 => self.automatic(shared, &[zone3]),
            3 => Asked::Full,
            4 => Asked::Off,
            5 => self.automatic(shared, &[zone2, zone3]),
            6 => self.automatic(shared, &[zone1, zone2, zone3]),
            _ => Asked::Duty(self.setting),
        }
    }

    /// Duty: "Full if any of the three zones, linked or not, is at or above its absolute limit [...]; full if a linked zone is
    /// at 80h; else the largest of what the linked zones ask."
    fn automatic(&self, shared: &Shared, linked: &[Zone]) -> Asked {
        if shared.zones.iter().any(Zone::is_at_absolute_limit) || linked.iter().any(Zone::is_at_fault) {
            return Asked::Full;
        }
        let asks = linked.iter().map(|zone| zone.asks(self.minimum));
        Asked::Duty(asks.max().expect("a zone is linked"))
    }

    /// Duty: "The goal is 255 for full, 0 for off, else the duty asked."
    pub fn goal(&self, shared: &Shared) -> u8 {
        match self.asked(shared) {
            Asked::Full => FULL,
            Asked::Off => 0,
            Asked::Duty(duty) => duty,
        }
    }

    /// Ramp: "Rate, a fixed table of ticks".
    pub fn rate(&self) -> u16 {
        RATES[usize::from(self.ramp & 7)]
    }

    /// Ramp control: "a duty is asked (4 or 5, neither full nor off), the output's enable bit is 1, and not (goal 0 and SZEN
    /// 1)".
    pub fn ramp_control(&self, shared: &Shared) -> bool {
        let Asked::Duty(goal) = self.asked(shared) else {
            return false;
        };
        let snaps_to_zero = goal == 0 && self.options & SZEN != 0;
        self.ramp & ENABLE != 0 && !snaps_to_zero
    }

    /// Spin-up: "Length by configuration bits 2..0 at the start".
    pub fn spin_up_length(&self) -> u16 {
        SPIN_UP_LENGTHS[usize::from(self.configuration & 7)]
    }

    pub fn in_spin_up(&self) -> bool {
        self.spin_up_left > 0
    }

    /// Spin-up: "in it 30h + reads 00h"; Registers: out of one 30h shows the duty.
    pub fn reads(&self) -> u8 {
        if self.in_spin_up() {
            0x00
        } else {
            self.duty
        }
    }

    /// Ramp: "A stored write to 62h (output 1) or 63h (2 and 3) sets it to 0", the clock. The output settles after it.
    pub fn write_ramp(&mut self, ramp: u8) {
        self.ramp = ramp;
        self.clock = 0;
    }

    /// Settling, its words in turn.
    pub fn settle(&mut self, shared: &Shared) {
        match self.asked(shared) {
            Asked::Full => self.rest_at(FULL),
            Asked::Off => self.rest_at(0),
            Asked::Duty(0) if self.in_spin_up() => self.rest_at(0),
            Asked::Duty(_) if self.in_spin_up() => {}
            Asked::Duty(g) if self.duty == 0 && g > 0 => self.start_spin_up(g),
            Asked::Duty(g) if !self.ramp_control(shared) => self.rest_at(g),
            Asked::Duty(_) => {}
        }
    }

    /// This duty at once, no spin-up, clock 0.
    fn rest_at(&mut self, duty: u8) {
        self.duty = duty;
        self.clock = 0;
        self.spin_up_left = 0;
    }

    /// Spin-up: "With 0 it starts and ends at once. At its start the clock goes to 0"; the duty is 0 then.
    fn start_spin_up(&mut self, goal: u8) {
        self.clock = 0;
        self.spin_up_left = self.spin_up_length();
        if self.spin_up_left == 0 {
            self.rest_at(goal);
        }
    }

    /// Spin-up: "At its end duty is the goal of that moment, at once, ramp control or not, and the clock is 0."
    pub fn end_spin_up(&mut self, shared: &Shared) {
        if self.in_spin_up() {
            self.rest_at(self.goal(shared));
        }
    }

    /// One tick: of the spin-up, where one runs, else of the ramp. True when it is a spin-up's last.
    pub fn tick(&mut self, shared: &Shared) -> bool {
        if !self.in_spin_up() {
            self.ramp_tick(shared);
            return false;
        }
        let last = self.spin_up_left == 1;
        if last {
            self.end_spin_up(shared);
        } else {
            self.spin_up_left -= 1;
        }
        last
    }

    /// Ramp: "The ramp clock counts up each tick under ramp control [...]; at the rate's ticks it goes to 0 and the duty moves
    /// by 1 toward the goal, or stays there." One that is past them already does the same.
    fn ramp_tick(&mut self, shared: &Shared) {
        if !self.ramp_control(shared) {
            return;
        }
        self.clock = self.clock.saturating_add(1);
        if self.clock >= self.rate() {
            self.clock = 0;
            let goal = self.goal(shared);
            if self.duty < goal {
                self.duty += 1;
            } else if self.duty > goal {
                self.duty -= 1;
            }
        }
    }
}
