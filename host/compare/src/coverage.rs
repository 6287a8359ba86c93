//! What logs make happen, counted by the rules of document 01, so that a test can tell whether they are dull.
use model::chip::{
    Chip, Fan, SpinUp, Watch, CONFIGURATION_1, CONFIGURATION_2, MAX_STEP, READING_HIGH, SETTING, SPIN_UP, TARGET_HIGH,
    VALID_COUNT,
};
use model::log::{read, Event, Fault};
use std::collections::BTreeMap;

mod parts;
mod speeds;

/// A reply has at most so many bytes.
const ROOM: usize = 32;
/// Of one event so many ticks are looked at one by one.
const LOOKED_AT: u16 = 1_000;
const PERIODS: [u16; 8] = [8, 16, 24, 32, 40, 64, 96, 128];

/// How often each thing happened.
pub struct Coverage {
    happened: BTreeMap<String, u64>,
    read: [u64; 256],
    /// A data byte was aimed at the register.
    written: [u64; 256],
    /// The stored byte of a fan's register became another.
    changed: [u64; 256],
    /// Spin-ups by bits 0..5 of Spin Up, started by a write (a) and by a stall (b).
    by_write: [u64; 64],
    by_stall: [u64; 64],
    /// A write came that would have ended the power-up watch, had the part had the fan.
    would_have_ended: bool,
}

/// What is counted by name, but for parts and speeds. Numbers, registers, periods and Spin Up settings have names of their own.
const NAMES: [&str; 101] = [
    // The log
    "sample of fan 0",
    "sample of a fan above 5",
    "wish of fan 0",
    "wish of a fan above 5",
    "fan 6",
    "count above 8191",
    "count 8192",
    "count above 8191, its low byte not 0",
    "fan and count out of range",
    "power-on address above 127",
    "power-on address 128",
    "read with n 1",
    "read with n 3 to 33",
    "read with n 33",
    "read of 0 bytes",
    "read of more than 32 bytes",
    "read of 33 bytes",
    "n other than 2 and a clocked number out of range",
    "field out of range before power-on",
    "read out of range from another address",
    "power-on while powered",
    "power-on at another address while powered",
    "0 ticks",
    "65535 ticks",
    // Registers
    "locked register written while locked",
    "20h written while locked",
    "EFh written while locked",
    "open register changes the fan while locked",
    "EFh stored with bit 0 clear",
    "Setting written in closed loop",
    "block read over FFh",
    "block write over FFh",
    "block read into the first fan",
    "block write into the first fan",
    "block read from a fan into the next",
    "block write from a fan into the next",
    "block read past the last fan",
    "block write past the last fan",
    "address byte alone",
    "pointer byte alone",
    "WATCH read and cleared",
    "24h shows a 26h bit",
    "24h shows a 25h bit",
    "25h bit kept by a read",
    "26h bit kept by a read",
    "25h bit cleared by a read",
    "26h bit cleared by a read",
    "bits of one register kept and cleared by one read",
    "bit kept in spin-up",
    "bit kept at goal 0",
    "bit kept by the smallest reading above Valid Count",
    "bit cleared by a reading that is Valid Count",
    "bit cleared at drive 0, the reading above Valid Count",
    "bit cleared at drive 0 and a goal above 0, the reading above Valid Count",
    // Drive
    "loop turned on",
    "loop turned on at a drive above 0",
    "loop turned on in spin-up",
    "loop turned off",
    "1 written over bit 7 that is 1",
    "driver turned off",
    "driver turned off at a clock above 0",
    "wish kept",
    "wish kept in spin-up",
    "wish ignored",
    "clock above 0 cleared by Configuration 1",
    "clock above 0 cleared by Configuration 2",
    "update with step 0, drive off the goal",
    "update with step 1",
    "update with step 16",
    "update with step 63",
    "update with the high bits of Max Step set",
    "update at the goal",
    "update up by less than the step",
    "update down by less than the step",
    // Spin-up
    "spin-up started in closed loop by a write",
    "spin-up started at a clock above 0",
    "spin-up ended healthy, ramp control",
    "spin-up ended healthy, no ramp control",
    "spin-up failed in direct mode",
    "spin-up failed and restarted",
    "spin-up restarted with another setting",
    "spin-up ended by goal 0",
    "Spin Up written in spin-up",
    // Tach and watchdog
    "stall in direct mode",
    "stall in closed loop",
    "smallest sample that stalls",
    "largest sample that does not stall",
    "stalling sample not judged at drive 0",
    "stalling sample not judged in spin-up",
    "power-up watch fired",
    "power-up watch ended by Setting",
    "power-up watch ended by bit 7",
    "power-up watch left by WD_EN 0",
    "continuous watch in place of the power-up watch",
    "continuous watch fired",
    "continuous watch fired after a firing",
    "continuous watch ended by WD_EN 0",
    "continuous watch fed by a write",
    "continuous watch fed by a read",
    "continuous watch not fed by a transfer elsewhere",
    "watch fired in spin-up",
];

impl Coverage {
    /// Nothing happened yet.
    pub fn none() -> Coverage {
        let numbers = (0..=11).chain([15, 21]).map(|number| format!("number {number}"));
        let periods = PERIODS.iter().map(|ticks| format!("update after {ticks} ticks"));
        let names = NAMES.iter().chain(&parts::NAMES).chain(&speeds::NAMES);
        let names = names.map(|name| name.to_string());
        let others = numbers.chain(periods).chain(parts::part_names());
        let others = others.chain(speeds::setting_names());
        Coverage {
            happened: names.chain(others).map(|name| (name, 0)).collect(),
            read: [0; 256],
            written: [0; 256],
            changed: [0; 256],
            by_write: [0; 64],
            by_stall: [0; 64],
            would_have_ended: false,
        }
    }

    /// What happened fewer times than `floor`, with how often it did.
    pub fn rarer_than(&self, floor: u64) -> Vec<String> {
        let writable = (0x30..0x80).filter(|register| !matches!(register % 16, 0x4 | 0xE | 0xF));
        let named = self.happened.iter().map(|(name, &count)| (name.clone(), count));
        named
            .chain(each("read", &self.read, 0..256))
            .chain(each("written", &self.written, 0..256))
            .chain(each("changed", &self.changed, writable))
            .chain(each("in Spin Up, started by a write", &self.by_write, 0..64))
            .chain(each("in Spin Up, started by a stall", &self.by_stall, 0..64))
            .filter(|&(_, count)| count < floor)
            .map(|(name, count)| format!("{name}: {count}"))
            .collect()
    }

    fn count(&mut self, name: &str, happens: bool) {
        let count = self
            .happened
            .get_mut(name)
            .unwrap_or_else(|| panic!("{name} is not among the names"));
        *count += u64::from(happens);
    }

    fn number(&mut self, number: u8) {
        self.count(&format!("number {number}"), true);
    }

    /// Walks a log as a run does and counts what happens, and again as a report does.
    pub fn add(&mut self, log: &[u8]) {
        self.speeds(log);
        let (mut chip, mut place) = (Chip::unpowered(), 0);
        loop {
            match read(log, place) {
                Ok(Some((event, next))) => {
                    self.event(&mut chip, &event, log);
                    place = next;
                }
                Ok(None) => return self.number(0),
                Err(Fault { number, .. }) => {
                    if matches!(number, 5 | 9..=11 | 15) {
                        self.out_of_range(&chip, &log[place..]);
                    }
                    return self.number(number);
                }
            }
        }
    }

    fn event(&mut self, chip: &mut Chip, event: &Event, log: &[u8]) {
        let before = chip.clone();
        if let (Event::Ticks { count }, Some(_)) = (event, chip.address) {
            return self.ticks(chip, *count);
        }
        let answer = chip.step(event, log, &mut [0; ROOM]);
        if let Err(number) = answer {
            self.count(
                "continuous watch not fed by a transfer elsewhere",
                number == 7 && fed_at(&before) > 0,
            );
            if number == 21 {
                self.absent_fan(chip, event);
            }
            return self.number(number);
        }
        match *event {
            Event::PowerOn { .. } | Event::PowerOnPart { .. } => self.power_on(&before, chip),
            Event::Sample { fan, count } => self.sample(&before, usize::from(fan - 1), count),
            Event::Wish { fan, .. } => self.wish(&before.fans[usize::from(fan - 1)]),
            Event::Transfer {
                read, place, length, ..
            } => {
                let bytes = &log[place..place + length];
                if read {
                    self.count("number 8", before.clone().step(event, log, &mut []) == Err(8));
                    self.reads(&before, usize::from(bytes[0]));
                } else {
                    self.writes(&before, bytes);
                }
            }
            Event::Ticks { .. } => {}
        }
    }

    fn power_on(&mut self, before: &Chip, after: &Chip) {
        let powered = before.address.is_some();
        self.count("power-on while powered", powered);
        self.count(
            "power-on at another address while powered",
            powered && before.address != after.address,
        );
        self.part_power_on(before, after);
    }

    fn wish(&mut self, fan: &Fan) {
        self.count("wish kept", closed(fan));
        self.count("wish kept in spin-up", closed(fan) && fan.spin_up.is_some());
        self.count("wish ignored", !closed(fan));
    }

    fn sample(&mut self, chip: &Chip, index: usize, count: u16) {
        let fan = &chip.fans[index];
        let least = (u16::from(fan.registers[VALID_COUNT]) + 1) * 32;
        let power_up = matches!(chip.watch, Watch::PowerUp { .. });
        let judged = fan.drive > 0 && fan.spin_up.is_none() && !power_up;
        let stall = judged && count >= least;
        self.count("stall in direct mode", stall && !closed(fan));
        self.count("stall in closed loop", stall && closed(fan));
        self.count("smallest sample that stalls", judged && count == least);
        self.count("largest sample that does not stall", judged && count == least - 1);
        self.count(
            "stalling sample not judged at drive 0",
            !power_up && fan.drive == 0 && count >= least,
        );
        self.count(
            "stalling sample not judged in spin-up",
            fan.spin_up.is_some() && count >= least,
        );
        self.by_stall[spin_up_setting(fan)] += u64::from(stall && closed(fan));
        self.part_sample(chip, stall, fan);
    }
}

// ---- fields out of range ----

impl Coverage {
    /// A whole record that is refused by its fields; the log goes on behind it.
    fn out_of_range(&mut self, chip: &Chip, log: &[u8]) {
        self.count("field out of range before power-on", chip.address.is_none());
        match (log[2], &log[4..4 + usize::from(log[3])]) {
            (1, &[address]) => {
                self.count("power-on address above 127", address > 127);
                self.count("power-on address 128", address == 128);
            }
            (3, &[fan, low, high]) => {
                self.bad_sample(fan, low, high);
                self.bad_absent_sample(chip, fan);
            }
            (4, &[fan, _]) => {
                self.count("wish of fan 0", fan == 0);
                self.count("wish of a fan above 5", fan > 5);
                self.count("fan 6", fan == 6);
            }
            (6, &[address, fans]) => self.bad_part(chip, address, fans),
            (_, payload) => self.bad_read(chip, payload),
        }
    }

    fn bad_sample(&mut self, fan: u8, low: u8, high: u8) {
        let count = u16::from_le_bytes([low, high]);
        let (bad_fan, bad_count) = (!(1..=5).contains(&fan), count > 8191);
        self.count("sample of fan 0", fan == 0 && !bad_count);
        self.count("sample of a fan above 5", fan > 5 && !bad_count);
        self.count("fan 6", fan == 6);
        self.count("count above 8191", !bad_fan && bad_count);
        self.count("count 8192", !bad_fan && count == 8192);
        self.count(
            "count above 8191, its low byte not 0",
            !bad_fan && bad_count && low != 0,
        );
        self.count("fan and count out of range", bad_fan && bad_count);
    }

    /// The payload of a read: the address byte, the clocked one where there is one, and others.
    fn bad_read(&mut self, chip: &Chip, payload: &[u8]) {
        let (n, clocked) = (payload.len(), payload.get(1).copied());
        let bad = clocked.is_some_and(|clocked| !(1..=32).contains(&clocked));
        self.count("read with n 1", n == 1);
        self.count("read with n 3 to 33", n > 2 && !bad);
        self.count("read with n 33", n == 33);
        self.count("read of 0 bytes", n == 2 && clocked == Some(0));
        self.count("read of more than 32 bytes", n == 2 && clocked > Some(32));
        self.count("read of 33 bytes", n == 2 && clocked == Some(33));
        self.count("n other than 2 and a clocked number out of range", n > 2 && bad);
        let elsewhere = chip.address.is_some_and(|own| own != payload[0] >> 1);
        self.count("read out of range from another address", elsewhere);
    }
}

// ---- ticks ----

impl Coverage {
    fn ticks(&mut self, chip: &mut Chip, count: u16) {
        self.count("0 ticks", count == 0);
        self.count("65535 ticks", count == 65_535);
        let looked_at = count.min(LOOKED_AT);
        for _ in 0..looked_at {
            let before = chip.clone();
            tick(chip, 1);
            self.tick(&before, chip);
        }
        tick(chip, count - looked_at);
    }

    fn tick(&mut self, before: &Chip, after: &Chip) {
        let fans = &before.fans[..before.present];
        match before.watch {
            Watch::PowerUp { count: 319 } => {
                self.count("power-up watch fired", true);
                self.part_fires(before);
            }
            Watch::Continuous { count: 319 } => {
                self.part_fires(before);
                self.count("continuous watch fired", true);
                self.count(
                    "continuous watch fired after a firing",
                    fans.iter().all(|fan| fan.registers[SETTING] == 0xFF),
                );
                self.count("watch fired in spin-up", fans.iter().any(|fan| fan.spin_up.is_some()));
            }
            _ => {
                for (fan, after) in fans.iter().zip(&after.fans) {
                    self.fan_tick(fan, after);
                    self.part_fan_tick(before, fan, after);
                }
            }
        }
    }

    fn fan_tick(&mut self, before: &Fan, after: &Fan) {
        match before.spin_up {
            Some(spin_up) if spin_up.elapsed + 1 == spin_up.length => self.spin_up_end(&spin_up, before, after),
            None if before.clock > 0 && after.clock == 0 => self.update(before, after),
            _ => {}
        }
    }

    fn spin_up_end(&mut self, spin_up: &SpinUp, before: &Fan, after: &Fan) {
        let failed = before.registers[READING_HIGH] > before.registers[VALID_COUNT];
        let ramp = closed(before) || before.registers[CONFIGURATION_2] & 0x40 != 0;
        self.count("spin-up ended healthy, ramp control", !failed && ramp);
        self.count("spin-up ended healthy, no ramp control", !failed && !ramp);
        self.count("spin-up failed in direct mode", failed && !closed(before));
        self.count("spin-up failed and restarted", failed && closed(before));
        let other = after.spin_up.is_some_and(|anew| {
            SpinUp {
                elapsed: spin_up.elapsed,
                ..anew
            } != *spin_up
        });
        self.count("spin-up restarted with another setting", other);
    }

    /// The clock came to the period.
    fn update(&mut self, before: &Fan, after: &Fan) {
        let period = PERIODS[usize::from(before.registers[CONFIGURATION_1] & 7)];
        self.count(&format!("update after {period} ticks"), true);
        let step = before.registers[MAX_STEP] % 64;
        let off_the_goal = !closed(before) && before.drive != before.registers[SETTING];
        self.count("update with step 0, drive off the goal", step == 0 && off_the_goal);
        let moved = after.drive.abs_diff(before.drive);
        self.count("update at the goal", step > 0 && moved == 0);
        for (name, of) in [
            ("update with step 1", 1),
            ("update with step 16", 16),
            ("update with step 63", 63),
        ] {
            self.count(name, step == of && moved > 0);
        }
        self.count(
            "update with the high bits of Max Step set",
            before.registers[MAX_STEP] >= 64 && moved > 0,
        );
        self.count(
            "update up by less than the step",
            after.drive > before.drive && moved < step,
        );
        self.count(
            "update down by less than the step",
            after.drive < before.drive && moved < step,
        );
    }
}

// ---- transfers ----

/// Whether a block goes from the registers of a fan into those of the next that there is.
fn goes_into_the_next(chip: &Chip, first: u8, count: usize) -> bool {
    let last = parts::edge(chip);
    (0x40..last).step_by(16).any(|border| goes_over(first, count, border))
}

/// Whether a block of so many bytes has registers on both sides of a border.
fn goes_over(first: u8, count: usize, border: u8) -> bool {
    first < border && usize::from(first) + count > usize::from(border)
}

impl Coverage {
    fn reads(&mut self, chip: &Chip, count: usize) {
        self.count("continuous watch fed by a read", fed_at(chip) > 0);
        self.count("block read over FFh", usize::from(chip.pointer) + count > 256);
        self.count("block read into the first fan", goes_over(chip.pointer, count, 0x30));
        let next = goes_into_the_next(chip, chip.pointer, count);
        self.count("block read from a fan into the next", next);
        let past = goes_over(chip.pointer, count, parts::edge(chip));
        self.count("block read past the last fan", past);
        self.part_reads(chip, count);
        for register in aimed_at(chip.pointer, count) {
            self.read[usize::from(register)] += 1;
            match register {
                0x24 => self.status(chip),
                0x25 => self.status_read(chip, chip.stall_status, "25h"),
                0x26 => self.status_read(chip, chip.spin_status, "26h"),
                _ => {}
            }
        }
    }

    fn status(&mut self, chip: &Chip) {
        self.count("WATCH read and cleared", chip.watch_status);
        self.count("24h shows a 26h bit", chip.spin_status != 0);
        self.count("24h shows a 25h bit", chip.stall_status != 0);
    }

    /// CR 1: "clears a fan's bit unless its latest reading's high byte is above Valid Count while its drive is above 0".
    fn status_read(&mut self, chip: &Chip, bits: u8, register: &str) {
        let (mut kept, mut cleared) = (0, 0);
        for (index, fan) in chip.fans.iter().enumerate() {
            if bits >> index & 1 == 1 {
                let slow = fan.registers[READING_HIGH] > fan.registers[VALID_COUNT];
                let stays = slow && fan.drive > 0;
                kept += u32::from(stays);
                cleared += u32::from(!stays);
                self.bit_read(fan, slow, stays);
            }
        }
        self.count(&format!("{register} bit kept by a read"), kept > 0);
        self.count(&format!("{register} bit cleared by a read"), cleared > 0);
        self.count(
            "bits of one register kept and cleared by one read",
            kept > 0 && cleared > 0,
        );
    }

    fn bit_read(&mut self, fan: &Fan, slow: bool, stays: bool) {
        let (high, valid) = (fan.registers[READING_HIGH], fan.registers[VALID_COUNT]);
        let at_rest = slow && fan.drive == 0;
        self.count("bit kept in spin-up", stays && fan.spin_up.is_some());
        self.count("bit kept at goal 0", stays && fan.goal() == 0);
        self.count(
            "bit kept by the smallest reading above Valid Count",
            stays && high == valid + 1,
        );
        self.count(
            "bit cleared by a reading that is Valid Count",
            fan.drive > 0 && high == valid,
        );
        self.count("bit cleared at drive 0, the reading above Valid Count", at_rest);
        self.count(
            "bit cleared at drive 0 and a goal above 0, the reading above Valid Count",
            at_rest && fan.goal() > 0,
        );
    }

    fn writes(&mut self, chip: &Chip, bytes: &[u8]) {
        self.count("continuous watch fed by a write", fed_at(chip) > 0);
        self.count("address byte alone", bytes.is_empty());
        self.count("pointer byte alone", bytes.len() == 1);
        let Some((&pointer, data)) = bytes.split_first() else {
            return;
        };
        self.count("block write over FFh", usize::from(pointer) + data.len() > 256);
        self.count("block write into the first fan", goes_over(pointer, data.len(), 0x30));
        let next = goes_into_the_next(chip, pointer, data.len());
        self.count("block write from a fan into the next", next);
        let past = goes_over(pointer, data.len(), parts::edge(chip));
        self.count("block write past the last fan", past);
        self.part_writes(chip, pointer, data.len());
        let mut chip = chip.clone();
        for (register, &byte) in aimed_at(pointer, data.len()).zip(data) {
            let before = chip.clone();
            write(&mut chip, register, byte);
            self.data_byte(&before, register, byte, &chip);
        }
    }

    fn data_byte(&mut self, before: &Chip, register: u8, byte: u8, after: &Chip) {
        self.written[usize::from(register)] += 1;
        self.part_byte(before, register, byte);
        let locked = before.lock & 1 == 1;
        match register {
            0x20 => self.configuration(before, byte, locked),
            0x30..=0x7F if register < parts::edge(before) => {
                let (index, offset) = (usize::from(register / 16 - 3), usize::from(register % 16));
                let (fan_before, fan_after) = (&before.fans[index], &after.fans[index]);
                self.lock(offset, locked, fan_before != fan_after);
                self.power_up_end(before, offset, after);
                self.changed[usize::from(register)] +=
                    u64::from(fan_before.registers[offset] != fan_after.registers[offset]);
                self.fan_write(fan_before, offset, byte, fan_after);
                self.part_fan_write(before, fan_before, fan_after);
            }
            0xEF => {
                self.count("EFh written while locked", locked);
                self.count("EFh stored with bit 0 clear", !locked && byte & 1 == 0 && byte != 0);
            }
            _ => {}
        }
    }

    fn configuration(&mut self, before: &Chip, byte: u8, locked: bool) {
        self.count("20h written while locked", locked);
        let enabled = byte & 0x20 != 0;
        let power_up = matches!(before.watch, Watch::PowerUp { .. });
        let continuous = matches!(before.watch, Watch::Continuous { .. });
        self.count("power-up watch left by WD_EN 0", !locked && power_up && !enabled);
        self.count(
            "continuous watch in place of the power-up watch",
            !locked && power_up && enabled,
        );
        self.count("continuous watch ended by WD_EN 0", !locked && continuous && !enabled);
    }

    fn lock(&mut self, offset: usize, locked: bool, stored: bool) {
        let guarded = matches!(offset, 0x3 | 0x5..=0xB);
        self.count("locked register written while locked", locked && guarded);
        self.count(
            "open register changes the fan while locked",
            locked && !guarded && stored,
        );
    }

    fn power_up_end(&mut self, before: &Chip, offset: usize, after: &Chip) {
        let ended = matches!(before.watch, Watch::PowerUp { .. }) && after.watch == Watch::Off;
        self.count("power-up watch ended by Setting", ended && offset == SETTING);
        self.count("power-up watch ended by bit 7", ended && offset == CONFIGURATION_1);
    }

    fn fan_write(&mut self, before: &Fan, offset: usize, byte: u8, after: &Fan) {
        self.count("Setting written in closed loop", offset == SETTING && closed(before));
        let on = !closed(before) && closed(after);
        self.count("loop turned on", on);
        self.count("loop turned on at a drive above 0", on && before.drive > 0);
        self.count("loop turned on in spin-up", on && before.spin_up.is_some());
        self.count("loop turned off", closed(before) && !closed(after));
        let again = offset == CONFIGURATION_1 && byte & 0x80 != 0 && closed(before);
        self.count("1 written over bit 7 that is 1", again);
        let off = !driver_off(before) && driver_off(after);
        self.count("driver turned off", off);
        self.count(
            "driver turned off at a clock above 0",
            off && offset == TARGET_HIGH && before.clock > 0,
        );
        let cleared = before.clock > 0 && after.clock == 0;
        self.count(
            "clock above 0 cleared by Configuration 1",
            cleared && offset == CONFIGURATION_1,
        );
        self.count(
            "clock above 0 cleared by Configuration 2",
            cleared && offset == CONFIGURATION_2,
        );
        self.spin_up_write(before, offset, after);
    }

    fn spin_up_write(&mut self, before: &Fan, offset: usize, after: &Fan) {
        let started = before.spin_up.is_none() && after.spin_up.is_some();
        self.by_write[spin_up_setting(after)] += u64::from(started);
        self.count("spin-up started in closed loop by a write", started && closed(after));
        self.count("spin-up started at a clock above 0", started && after.clock > 0);
        self.count(
            "spin-up ended by goal 0",
            before.spin_up.is_some() && after.spin_up.is_none(),
        );
        let another = before.registers[SPIN_UP] != after.registers[SPIN_UP];
        self.count(
            "Spin Up written in spin-up",
            offset == SPIN_UP && before.spin_up.is_some() && another,
        );
    }
}

/// The names and counts of some registers or settings.
fn each<'a>(
    what: &'a str,
    counts: &'a [u64],
    which: impl Iterator<Item = usize> + 'a,
) -> impl Iterator<Item = (String, u64)> + 'a {
    which.map(move |i| (format!("{i:02X}h {what}"), counts[i]))
}

/// The registers that so many data bytes are aimed at: one leaves the pointer, more move it.
fn aimed_at(pointer: u8, count: usize) -> impl Iterator<Item = u8> {
    (0..count).map(move |i| pointer.wrapping_add(i as u8))
}

fn closed(fan: &Fan) -> bool {
    fan.registers[CONFIGURATION_1] & 0x80 != 0
}

fn driver_off(fan: &Fan) -> bool {
    closed(fan) && fan.registers[TARGET_HIGH] == 0xFF
}

fn spin_up_setting(fan: &Fan) -> usize {
    usize::from(fan.registers[SPIN_UP] & 0x3F)
}

/// The count of the continuous watch; 0 where it does not run.
fn fed_at(chip: &Chip) -> u16 {
    match chip.watch {
        Watch::Continuous { count } => count,
        _ => 0,
    }
}

fn tick(chip: &mut Chip, count: u16) {
    let taken = chip.step(&Event::Ticks { count }, &[], &mut []);
    assert_eq!(taken, Ok(0), "a powered chip takes ticks");
}

fn write(chip: &mut Chip, register: u8, byte: u8) {
    let address = chip.address.expect("a transfer was taken");
    let event = Event::Transfer {
        address,
        read: false,
        place: 0,
        length: 2,
    };
    let taken = chip.step(&event, &[register, byte], &mut []);
    assert_eq!(taken, Ok(0), "a powered chip takes a write to its address");
}
