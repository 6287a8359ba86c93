//! The chip: registers, drives, spin-up, tachometer and watchdog.

use crate::log::{check, Event, ABSENT_FAN, NO_ROOM, OTHER_ADDRESS, UNPOWERED};

/// Registers: offsets within a fan's sixteen registers.
pub const SETTING: usize = 0x0;
pub const DIVIDE: usize = 0x1;
pub const CONFIGURATION_1: usize = 0x2;
pub const CONFIGURATION_2: usize = 0x3;
pub const UNDEFINED: usize = 0x4;
pub const GAIN: usize = 0x5;
pub const SPIN_UP: usize = 0x6;
pub const MAX_STEP: usize = 0x7;
pub const MINIMUM_DRIVE: usize = 0x8;
pub const VALID_COUNT: usize = 0x9;
pub const FAIL_BAND_LOW: usize = 0xA;
pub const FAIL_BAND_HIGH: usize = 0xB;
pub const TARGET_LOW: usize = 0xC;
pub const TARGET_HIGH: usize = 0xD;
pub const READING_HIGH: usize = 0xE;
pub const READING_LOW: usize = 0xF;

/// Registers: a fan's defaults by offset.
const FAN_DEFAULTS: [u8; 16] = [
    0x00, 0x01, 0x2B, 0x28, 0x00, 0x2A, 0x19, 0x10, 0x66, 0xF5, 0x00, 0x00, 0xF8, 0xFF, 0xFF, 0xF8,
];

/// The datasheet's register table: FCh product features, FDh product ID, FEh manufacturer ID, FFh revision.
const IDENTITY: [u8; 4] = [0x00, 0x34, 0x5D, 0x80];
/// Registers: "20h configuration (40h, locked; bit 7 MASK, bit 5 WD_EN)".
const CONFIGURATION_DEFAULT: u8 = 0x40;
const MASK: u8 = 0x80;
const WD_EN: u8 = 0x20;
/// Registers: "Once bit 0 of EFh is 1".
const LOCK: u8 = 0x01;
/// CR 5: "kind 1 means five".
const MOST_FANS: usize = 5;
/// Drive: "Closed loop is Configuration 1 bit 7."
const LOOP: u8 = 0x80;
/// Drive: "in direct mode when Configuration 2 bit 6 is 1".
const DIRECT_RAMP: u8 = 0x40;
/// Spin-up: "First quarter at 255, unless bit 5 is 1".
const NO_KICK: u8 = 0x20;
/// Drive: the update periods, "a fixed table of ticks".
const PERIODS: [u16; 8] = [8, 16, 24, 32, 40, 64, 96, 128];
/// Spin-up: "Length by Spin Up bits 0..1".
const SPIN_UP_LENGTHS: [u16; 4] = [20, 40, 80, 160];
/// Spin-up: "the level by bits 2..4".
const SPIN_UP_LEVELS: [u8; 8] = [76, 89, 102, 114, 127, 140, 153, 165];
/// Tach and watchdog: "Watchdog, 320 ticks (4 s)".
const WATCH_TICKS: u16 = 320;

/// A spin-up under way: "Length, bit 5 and level are fixed at the start, and anew at a restart."
#[derive(Clone, Copy, Debug, PartialEq, Eq)]
pub struct SpinUp {
    /// Ticks taken since the start.
    pub elapsed: u16,
    pub length: u16,
    /// Whether the first quarter is at 255.
    pub kick: bool,
    pub level: u8,
}

impl SpinUp {
    /// Spin-up: what the Spin Up register says at the start.
    fn new(register: u8) -> SpinUp {
        SpinUp {
            elapsed: 0,
            length: SPIN_UP_LENGTHS[usize::from(register & 3)],
            kick: register & NO_KICK == 0,
            level: SPIN_UP_LEVELS[usize::from(register >> 2 & 7)],
        }
    }

    /// Spin-up: "with a quarter of q ticks it is 255 after 0 to q - 1 ticks and the level from q on".
    fn drive(&self) -> u8 {
        if self.kick && self.elapsed < self.length / 4 {
            255
        } else {
            self.level
        }
    }
}

/// One fan: its registers (at offset 0 the stored Setting), its present drive, the loop's wish, the update clock and
/// the spin-up if one runs. Its rules are public, so that a test can ask them of states that no log reaches.
#[derive(Clone, Copy, Debug, PartialEq, Eq)]
pub struct Fan {
    pub registers: [u8; 16],
    pub drive: u8,
    pub wish: u8,
    pub clock: u16,
    pub spin_up: Option<SpinUp>,
}

/// Step: what a fan's ticks under ramp control go by. They change no register, so that it stays over ticks in a row.
#[derive(Clone, Copy)]
struct Ramp {
    period: u16,
    goal: u8,
    step: u8,
}

impl Fan {
    /// Registers: "Power-on sets every default [...]; [...] drive, wish and update clocks are 0, no spin-up."
    pub fn power_on() -> Fan {
        Fan {
            registers: FAN_DEFAULTS,
            drive: 0,
            wish: 0,
            clock: 0,
            spin_up: None,
        }
    }

    /// Drive: "Closed loop is Configuration 1 bit 7."
    pub fn closed_loop(&self) -> bool {
        self.registers[CONFIGURATION_1] & LOOP != 0
    }

    /// Goal: "closed loop with target high FFh, 0 ('driver off')".
    pub fn driver_off(&self) -> bool {
        self.closed_loop() && self.registers[TARGET_HIGH] == 0xFF
    }

    /// Goal: direct, driver off, and closed loop otherwise.
    pub fn goal(&self) -> u8 {
        if !self.closed_loop() {
            self.registers[SETTING]
        } else if self.driver_off() {
            0
        } else {
            self.wish.max(self.registers[MINIMUM_DRIVE])
        }
    }

    /// Ramp control: "always in closed loop with the driver on; in direct mode when Configuration 2 bit 6 is 1."
    pub fn ramp_control(&self) -> bool {
        if self.closed_loop() {
            !self.driver_off()
        } else {
            self.registers[CONFIGURATION_2] & DIRECT_RAMP != 0
        }
    }

    /// Step: "Max Step modulo 64".
    pub fn step(&self) -> u8 {
        self.registers[MAX_STEP] % 64
    }

    /// Step: "Period by Configuration 1 bits 0..2".
    pub fn period(&self) -> u16 {
        PERIODS[usize::from(self.registers[CONFIGURATION_1] & 7)]
    }

    /// The ramp as the registers have it; none without ramp control.
    fn ramp(&self) -> Option<Ramp> {
        self.ramp_control().then(|| Ramp {
            period: self.period(),
            goal: self.goal(),
            step: self.step(),
        })
    }

    /// Step: "A fan's update clock counts up each tick under ramp control [...]; at the period it goes to 0 and drive
    /// moves".
    fn ramp_tick(&mut self, ramp: Ramp) {
        self.clock = self.clock.saturating_add(1);
        if self.clock >= ramp.period {
            self.clock = 0;
            self.drive = moved(self.drive, ramp.goal, ramp.step);
        }
    }

    /// Spin-up: "The drive is set at the start itself".
    fn start_spin_up(&mut self) {
        let spin_up = SpinUp::new(self.registers[SPIN_UP]);
        self.drive = spin_up.drive();
        self.spin_up = Some(spin_up);
    }

    /// Spin-up: "After the last tick the reading's high byte is compared"; true when it is above Valid Count.
    fn finish_spin_up(&mut self, level: u8) -> bool {
        let failed = self.registers[READING_HIGH] > self.registers[VALID_COUNT];
        if failed && self.closed_loop() {
            self.start_spin_up();
        } else {
            self.spin_up = None;
            self.clock = 0;
            self.drive = if self.ramp_control() { level } else { self.goal() };
        }
        failed
    }

    /// Spin-up: one tick of it, if one runs; true when it failed in it.
    #[inline(never)] // the ticks of ramps are slower otherwise
    fn spin_up_tick(&mut self) -> bool {
        let Some(spin_up) = &mut self.spin_up else {
            return false;
        };
        spin_up.elapsed = spin_up.elapsed.saturating_add(1);
        if spin_up.elapsed >= spin_up.length {
            let level = spin_up.level;
            return self.finish_spin_up(level);
        }
        self.drive = spin_up.drive();
        false
    }

    /// "Each tick a fan takes": one of the spin-up or one of the ramp; true when a spin-up failed in it.
    pub fn tick(&mut self) -> bool {
        self.tick_by(self.ramp())
    }

    /// The same, with the fan's ramp at hand.
    fn tick_by(&mut self, ramp: Option<Ramp>) -> bool {
        if self.spin_up.is_some() {
            return self.spin_up_tick();
        }
        if let Some(ramp) = ramp {
            self.ramp_tick(ramp);
        }
        false
    }

    /// Drive: "A wish is kept only in closed loop, else it is taken and does nothing."
    pub fn take_wish(&mut self, drive: u8) {
        if self.closed_loop() {
            self.wish = drive;
        }
    }

    /// Tach: "A sample c makes the reading registers c x 8", of which a count past 8191 leaves its low 13 bits; true when
    /// it is a stall, which in closed loop starts a spin-up (b).
    pub fn sample(&mut self, count: u16, power_up_watch: bool) -> bool {
        let [high, low] = count.wrapping_mul(8).to_be_bytes();
        self.registers[READING_HIGH] = high;
        self.registers[READING_LOW] = low;
        let judged = self.drive > 0 && self.spin_up.is_none() && !power_up_watch;
        let stall = judged && high > self.registers[VALID_COUNT];
        if stall && self.closed_loop() {
            self.start_spin_up();
        }
        stall
    }

    /// CR 1: "unless its latest reading's high byte is above Valid Count while its drive is above 0".
    pub fn keeps_status(&self) -> bool {
        self.registers[READING_HIGH] > self.registers[VALID_COUNT] && self.drive > 0
    }

    /// Drive: "Reading Setting shows the present drive"; Registers: "Offset 4 is undefined", and so is any past F.
    pub fn register(&self, offset: usize) -> u8 {
        match offset {
            SETTING => self.drive,
            UNDEFINED => 0x00,
            _ => self.registers.get(offset).copied().unwrap_or(0x00),
        }
    }

    /// The registers from this offset up, as many as the row has bytes: all but two read as they are stored.
    fn read_row(&self, offset: usize, row: &mut [u8]) {
        row.copy_from_slice(&self.registers[offset..offset + row.len()]);
        for special in [SETTING, UNDEFINED] {
            if let Some(byte) = special.checked_sub(offset).and_then(|place| row.get_mut(place)) {
                *byte = self.register(special);
            }
        }
    }

    /// Registers and Drive: whether a write at this offset is stored. "Offset 4 is undefined", and so is any past F;
    /// "Offsets 3 and 5 to B are locked. E and F are read only"; "In closed loop a Setting write stores nothing."
    pub fn stores(&self, offset: usize, locked: bool) -> bool {
        match offset {
            SETTING => !self.closed_loop(),
            DIVIDE | CONFIGURATION_1 | TARGET_LOW | TARGET_HIGH => true,
            CONFIGURATION_2 | GAIN..=FAIL_BAND_HIGH => !locked,
            _ => false,
        }
    }

    /// Drive and Spin-up: one stored write to a register of the fan: the byte, the wish at turning the loop on, the
    /// clock, then by the new goal exactly one of spin-up ended, spin-up running on, spin-up started, drive at the
    /// goal without ramp control, or nothing. The offset is one that stores.
    pub fn stored_write(&mut self, offset: usize, byte: u8) {
        if offset == CONFIGURATION_1 && byte & LOOP != 0 && !self.closed_loop() {
            self.wish = self.drive;
        }
        self.registers[offset] = byte;
        if matches!(offset, CONFIGURATION_1 | CONFIGURATION_2) || self.driver_off() {
            self.clock = 0;
        }
        let goal = self.goal();
        if self.spin_up.is_some() {
            if goal == 0 {
                self.spin_up = None;
                self.drive = 0;
                self.clock = 0;
            }
        } else if self.drive == 0 && goal > 0 {
            self.start_spin_up();
        } else if !self.ramp_control() {
            self.drive = goal;
        }
    }

    /// Watchdog: "every fan gets Setting FFh, drive 255, loop off, spin-up ended, update clock 0."
    pub fn full_drive(&mut self) {
        self.registers[SETTING] = 0xFF;
        self.registers[CONFIGURATION_1] &= !LOOP;
        self.drive = 255;
        self.clock = 0;
        self.spin_up = None;
    }
}

/// Step: "drive moves toward the goal by the smaller of step and distance"; "0 never moves."
pub fn moved(drive: u8, goal: u8, step: u8) -> u8 {
    let step = step.min(drive.abs_diff(goal));
    if goal > drive {
        drive + step
    } else {
        drive - step
    }
}

/// Watchdog: "Only one watch runs at a time"; `count` is the ticks it has counted.
#[derive(Clone, Copy, Debug, PartialEq, Eq)]
pub enum Watch {
    Off,
    PowerUp { count: u16 },
    Continuous { count: u16 },
}

/// The chip: "The state of the chip holds its five fans side by side." CR 5: "The chip record carries how many fans it
/// has, 1, 2, 3 or 5"; the others are absent, and nothing changes or shows them.
#[derive(Clone, Debug, PartialEq, Eq)]
pub struct Chip {
    /// The bus address; none before the first power-on.
    pub address: Option<u8>,
    /// How many fans it has, from fan 1 on.
    pub present: usize,
    pub pointer: u8,
    /// 20h.
    pub configuration: u8,
    /// 24h bit 7, WATCH.
    pub watch_status: bool,
    /// 25h.
    pub stall_status: u8,
    /// 26h.
    pub spin_status: u8,
    /// 29h.
    pub interrupt_enable: u8,
    /// 2Ah polarity, 2Bh output, 2Ch and 2Dh base frequency: "stored and do nothing".
    pub pwm: [u8; 4],
    /// EFh.
    pub lock: u8,
    pub watch: Watch,
    pub fans: [Fan; MOST_FANS],
}

impl Chip {
    /// "A run over a whole log begins unpowered." CR 5, as read: "An unpowered chip has five fans".
    pub fn unpowered() -> Chip {
        Chip {
            address: None,
            present: MOST_FANS,
            pointer: 0,
            configuration: CONFIGURATION_DEFAULT,
            watch_status: false,
            stall_status: 0,
            spin_status: 0,
            interrupt_enable: 0,
            pwm: [0; 4],
            lock: 0,
            watch: Watch::Off,
            fans: [Fan::power_on(); MOST_FANS],
        }
    }

    /// A step: the numbers of the fields, then 6, 21, 7, 8; CR 3: "without a place". "A refusal leaves state and buffers
    /// unchanged".
    pub fn step(&mut self, event: &Event, log: &[u8], room: &mut [u8]) -> Result<usize, u8> {
        check(event, log)?;
        self.take(event, log, room)
    }

    /// The rest of a step: an event whose fields are in their ranges, as `log::read` gives it.
    #[inline] // a run is slower without
    pub(crate) fn take(&mut self, event: &Event, log: &[u8], room: &mut [u8]) -> Result<usize, u8> {
        let power_on = matches!(event, Event::PowerOn { .. } | Event::PowerOnPart { .. });
        if self.address.is_none() && !power_on {
            return Err(UNPOWERED);
        }
        match *event {
            Event::PowerOn { address } => self.power_on(address, MOST_FANS),
            Event::PowerOnPart { address, fans } => self.power_on(address, fans.into()),
            Event::Ticks { count } => self.ticks(count),
            Event::Sample { fan, count } => self.sample(self.present_fan(fan)?, count),
            Event::Wish { fan, drive } => self.fans[self.present_fan(fan)?].take_wish(drive),
            Event::Transfer {
                address,
                read,
                place,
                length,
            } => {
                return self.transfer(address, read, &log[place..place + length], room);
            }
        }
        Ok(0)
    }

    /// Status: "The alert line is on when MASK is 0 and WATCH is set or a 25h or 26h bit stands whose fan's bit in 29h
    /// is 1." CR 5, as read: of 29h "its bits for absent fans do nothing."
    pub fn alert(&self) -> bool {
        let fans = (self.stall_status | self.spin_status) & self.interrupt_enable & self.present_bits();
        self.configuration & MASK == 0 && (self.watch_status || fans != 0)
    }

    /// CR 5: "21 for a sample or wish for an absent fan"; the index of one that is present.
    fn present_fan(&self, fan: u8) -> Result<usize, u8> {
        let index = usize::from(fan - 1);
        if index < self.present {
            Ok(index)
        } else {
            Err(ABSENT_FAN)
        }
    }

    /// Status: "bit i - 1 for fan i", of the fans that are present.
    fn present_bits(&self) -> u8 {
        (1 << self.present) - 1
    }

    /// Registers: "Power-on sets every default, unlocked"; Watchdog: "power-up watch starts at power-on". CR 5: "its bytes
    /// are Table 5.1's", of every part.
    fn power_on(&mut self, address: u8, present: usize) {
        *self = Chip {
            address: Some(address),
            present,
            watch: Watch::PowerUp { count: 0 },
            ..Chip::unpowered()
        };
    }

    /// So many ticks, one after the other; the fans' ramps are looked up anew when the watchdog has changed registers.
    fn ticks(&mut self, count: u16) {
        let mut ramps = self.ramps();
        for _ in 0..count {
            if self.tick(&ramps) {
                ramps = self.ramps();
            }
        }
    }

    /// Each fan's ramp, by its registers now.
    fn ramps(&self) -> [Option<Ramp>; MOST_FANS] {
        self.fans.each_ref().map(Fan::ramp)
    }

    /// Watchdog: "In a tick the watchdog acts first; if it fires the fans don't move in it." CR 5: "watchdog and ticks pass"
    /// absent fans by. True when it fires.
    fn tick(&mut self, ramps: &[Option<Ramp>; MOST_FANS]) -> bool {
        if self.watch_expires() {
            self.fire();
            return true;
        }
        for (index, (fan, &ramp)) in self.fans[..self.present].iter_mut().zip(ramps).enumerate() {
            if fan.tick_by(ramp) {
                self.spin_status |= 1 << index;
            }
        }
        false
    }

    /// Watchdog: a running watch counts the tick; true at 320.
    fn watch_expires(&mut self) -> bool {
        match &mut self.watch {
            Watch::Off => false,
            Watch::PowerUp { count } | Watch::Continuous { count } => {
                *count = count.saturating_add(1);
                *count >= WATCH_TICKS
            }
        }
    }

    /// Watchdog: "At 320: WATCH set; every fan [...]. Power-up watch ends; continuous counts again from 0."
    fn fire(&mut self) {
        self.watch_status = true;
        self.fans[..self.present].iter_mut().for_each(Fan::full_drive);
        self.watch = match self.watch {
            Watch::Continuous { .. } => Watch::Continuous { count: 0 },
            Watch::PowerUp { .. } | Watch::Off => Watch::Off,
        };
    }

    /// Tach: "Stall is judged at a taken sample [...], when [...] the power-up watch isn't running".
    fn sample(&mut self, index: usize, count: u16) {
        let power_up_watch = matches!(self.watch, Watch::PowerUp { .. });
        if self.fans[index].sample(count, power_up_watch) {
            self.stall_status |= 1 << index;
        }
    }

    /// A transfer: 7, then 8; Watchdog: "In continuous, each transfer taken sets the count to 0."
    fn transfer(&mut self, address: u8, read: bool, bytes: &[u8], room: &mut [u8]) -> Result<usize, u8> {
        if self.address != Some(address) {
            return Err(OTHER_ADDRESS);
        }
        let mut laid = 0;
        if read {
            laid = usize::from(bytes[0]);
            self.read_bytes(room.get_mut(..laid).ok_or(NO_ROOM)?);
        } else {
            self.write_bytes(bytes);
        }
        if let Watch::Continuous { count } = &mut self.watch {
            *count = 0;
        }
        Ok(laid)
    }

    /// Registers: data bytes read act in turn, here row by row of sixteen registers.
    fn read_bytes(&mut self, reply: &mut [u8]) {
        let data_bytes = reply.len();
        let mut register = self.pointer;
        let mut rest = reply;
        while !rest.is_empty() {
            let (row, next) = rest.split_at_mut(left_in_row(register).min(rest.len()));
            self.read_row(register, row);
            register = register.wrapping_add(row.len() as u8);
            rest = next;
        }
        self.move_pointer(data_bytes);
    }

    /// Registers: bytes read in turn from this register up, within its row: a fan's that is present, one of the three that
    /// have others, or one of undefined registers, which read 00h. CR 5: "Registers of absent fans are undefined".
    fn read_row(&mut self, register: u8, row: &mut [u8]) {
        match register {
            0x30..=0x7F if fan_index(register) < self.present => {
                self.fans[fan_index(register)].read_row(offset(register), row);
            }
            0x20..=0x2F | 0xE0..=0xFF => {
                for (register, byte) in (register..=0xFF).zip(row) {
                    *byte = self.read_register(register);
                }
            }
            _ => row.fill(0x00),
        }
    }

    /// Registers: "A write's first byte sets the pointer; data bytes act in turn"; "A write of the address byte alone
    /// changes no register and not the pointer."
    fn write_bytes(&mut self, bytes: &[u8]) {
        let Some((&pointer, data)) = bytes.split_first() else {
            return;
        };
        self.pointer = pointer;
        let mut register = pointer;
        let mut rest = data;
        while !rest.is_empty() {
            let (row, next) = rest.split_at(left_in_row(register).min(rest.len()));
            self.write_row(register, row);
            register = register.wrapping_add(row.len() as u8);
            rest = next;
        }
        self.move_pointer(data.len());
    }

    /// Registers: "With one data byte, written or read, the pointer stays at that register; with two or more it goes up
    /// by one after each, FFh to 00h."
    fn move_pointer(&mut self, data_bytes: usize) {
        if data_bytes > 1 {
            self.pointer = self.pointer.wrapping_add(data_bytes as u8);
        }
    }

    /// Registers: bytes written in turn from this register up, within its row: a fan's that is present, one of the two that
    /// have other writable ones, or one that stores nothing.
    fn write_row(&mut self, register: u8, row: &[u8]) {
        match register {
            0x30..=0x7F if fan_index(register) < self.present => {
                self.write_fan(fan_index(register), offset(register), row);
            }
            0x20..=0x2F | 0xE0..=0xEF => {
                for (register, &byte) in (register..=0xFF).zip(row) {
                    self.write_register(register, byte);
                }
            }
            _ => {}
        }
    }

    /// Registers: "An undefined register reads 00h"; Status: "reading 24h clears WATCH"; CR 1: "reading 25h clears a fan's
    /// bit unless [...]. Register 26h follows the same test."
    fn read_register(&mut self, register: u8) -> u8 {
        match register {
            0x20 => self.configuration,
            0x24 => self.read_status(),
            0x25 => {
                let kept = self.stall_status & self.fans_that_keep_status();
                std::mem::replace(&mut self.stall_status, kept)
            }
            0x26 => {
                let kept = self.spin_status & self.fans_that_keep_status();
                std::mem::replace(&mut self.spin_status, kept)
            }
            0x29 => self.interrupt_enable,
            0x2A..=0x2D => self.pwm[usize::from(register - 0x2A)],
            0xEF => self.lock,
            0xFC..=0xFF => IDENTITY[usize::from(register - 0xFC)],
            _ => 0x00,
        }
    }

    /// CR 1: bit i - 1 for each fan i whose status a read leaves; CR 5: of absent fans "status bits stay 0".
    fn fans_that_keep_status(&self) -> u8 {
        let bits = self.fans[..self.present].iter().enumerate();
        bits.map(|(index, fan)| u8::from(fan.keeps_status()) << index).sum()
    }

    /// Status: "24h: bit 7 WATCH, bit 1 any of 26h, bit 0 any of 25h"; "reading 24h clears WATCH."
    fn read_status(&mut self) -> u8 {
        let watch = std::mem::take(&mut self.watch_status);
        u8::from(watch) << 7 | u8::from(self.spin_status != 0) << 1 | u8::from(self.stall_status != 0)
    }

    /// Registers: "Writable bytes are stored whole"; a write to an undefined or read-only register stores nothing;
    /// "Once bit 0 of EFh is 1, writes to EFh and to locked registers are acknowledged and store nothing until
    /// power-on."
    fn write_register(&mut self, register: u8, byte: u8) {
        let locked = self.lock & LOCK != 0;
        match register {
            0x20 if !locked => self.configure(byte),
            0x29 => self.interrupt_enable = byte,
            0x2A..=0x2D => self.pwm[usize::from(register - 0x2A)] = byte,
            0xEF if !locked => self.lock = byte,
            _ => {}
        }
    }

    /// Watchdog: "A stored write to 20h with WD_EN 1 starts continuous watch at 0, in place of whichever ran; with
    /// WD_EN 0 ends continuous only."
    fn configure(&mut self, byte: u8) {
        self.configuration = byte;
        if byte & WD_EN != 0 {
            self.watch = Watch::Continuous { count: 0 };
        } else if matches!(self.watch, Watch::Continuous { .. }) {
            self.watch = Watch::Off;
        }
    }

    /// Registers: bytes written in turn to one fan's registers, from this offset up.
    fn write_fan(&mut self, index: usize, offset: usize, row: &[u8]) {
        let locked = self.lock & LOCK != 0;
        let fan = &mut self.fans[index];
        for (offset, &byte) in (offset..).zip(row) {
            if !fan.stores(offset, locked) {
                continue;
            }
            fan.stored_write(offset, byte);
            if matches!(self.watch, Watch::PowerUp { .. }) && ends_power_up(offset, byte) {
                self.watch = Watch::Off;
            }
        }
    }
}

/// Watchdog: "a stored Setting write or a stored write setting Configuration 1 bit 7, on any fan, ends" the power-up
/// watch.
fn ends_power_up(offset: usize, byte: u8) -> bool {
    offset == SETTING || (offset == CONFIGURATION_1 && byte & LOOP != 0)
}

/// Registers: "Fan i has 30h + 10h x (i - 1) and up", for 30h to 7Fh; fan 1 is index 0.
fn fan_index(register: u8) -> usize {
    usize::from((register - 0x30) / 0x10)
}

/// Registers: the offset within a fan's registers.
fn offset(register: u8) -> usize {
    usize::from(register % 0x10)
}

/// How many registers there are from this one to the end of its row of sixteen.
fn left_in_row(register: u8) -> usize {
    0x10 - offset(register)
}
