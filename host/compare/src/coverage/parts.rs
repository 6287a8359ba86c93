//! What logs make happen to the parts with fewer fans, by CR 5.
use super::{aimed_at, closed, goes_over, Coverage};
use model::chip::{Chip, Fan, Watch, CONFIGURATION_1, SETTING};
use model::log::Event;

/// What is counted by name.
pub const NAMES: [&str; 16] = [
    "part powered on before any power-on",
    "part powered on while another part is",
    "part powered on while five fans are",
    "part powered on at a drive above 0",
    "part powered on while locked",
    "five fans powered on while a part is",
    "number of fans 0",
    "number of fans 4",
    "number of fans 5",
    "number of fans above 5",
    "part's address above 127",
    "part's address 128",
    "part's address and number of fans out of range",
    "number of fans out of range before power-on",
    "number of fans out of range while powered",
    "sample of an absent fan out of range",
];

/// What is counted of each part.
const OF_EACH: [&str; 23] = [
    "powered on",
    "sample refused with 21",
    "wish refused with 21",
    "21 while the continuous watch counts",
    "absent register read",
    "absent register written",
    "absent Setting written",
    "block read into absent registers",
    "block write into absent registers",
    "block read out of absent registers",
    "block write out of absent registers",
    "power-up watch fired",
    "power-up watch fired after a write that would end it, to an absent fan",
    "continuous watch fired",
    "continuous watch fed at an absent register",
    "spin-up started by a write",
    "spin-up started by a stall",
    "spin-up ended",
    "ramp moved the drive",
    "25h bit shown",
    "26h bit shown",
    "WATCH shown",
    "29h bit of an absent fan set while a bit stands",
];

/// A name for each thing of each part.
pub fn part_names() -> impl Iterator<Item = String> {
    (1..=3).flat_map(|fans| OF_EACH.map(|name| part_name(fans, name)))
}

fn part_name(fans: usize, name: &str) -> String {
    format!("part with {fans}: {name}")
}

/// The first register past those of the fans that there are.
pub fn edge(chip: &Chip) -> u8 {
    0x30 + 0x10 * chip.present as u8
}

fn is_part(chip: &Chip) -> bool {
    chip.address.is_some() && chip.present < 5
}

fn absent(chip: &Chip, register: u8) -> bool {
    (edge(chip)..0x80).contains(&register)
}

fn power_up(chip: &Chip) -> bool {
    matches!(chip.watch, Watch::PowerUp { .. })
}

impl Coverage {
    /// Counts what happens on a part, and nothing on five fans.
    fn of_part(&mut self, chip: &Chip, name: &str, happens: bool) {
        if is_part(chip) {
            self.count(&part_name(chip.present, name), happens);
        }
    }

    pub(super) fn part_power_on(&mut self, before: &Chip, after: &Chip) {
        self.would_have_ended = false;
        self.count(
            "five fans powered on while a part is",
            is_part(before) && !is_part(after),
        );
        if !is_part(after) {
            return;
        }
        self.of_part(after, "powered on", true);
        self.count("part powered on before any power-on", before.address.is_none());
        let another = is_part(before) && before.present != after.present;
        self.count("part powered on while another part is", another);
        let five = before.address.is_some() && !is_part(before);
        self.count("part powered on while five fans are", five);
        let moving = before.fans.iter().any(|fan| fan.drive > 0);
        self.count("part powered on at a drive above 0", moving);
        self.count("part powered on while locked", before.lock & 1 == 1);
    }

    /// An event that a step refused with 21.
    pub(super) fn absent_fan(&mut self, chip: &Chip, event: &Event) {
        let sample = matches!(event, Event::Sample { .. });
        self.of_part(chip, "sample refused with 21", sample);
        self.of_part(chip, "wish refused with 21", !sample);
        let counts = matches!(chip.watch, Watch::Continuous { count } if count > 0);
        self.of_part(chip, "21 while the continuous watch counts", counts);
    }

    /// The payload of a part's power-on that reading refuses.
    pub(super) fn bad_part(&mut self, chip: &Chip, address: u8, fans: u8) {
        let (bad_address, bad_number) = (address > 127, !(1..=3).contains(&fans));
        self.count("part's address above 127", bad_address && !bad_number);
        self.count("part's address 128", address == 128);
        self.count(
            "part's address and number of fans out of range",
            bad_address && bad_number,
        );
        let powered = chip.address.is_some();
        for (name, happens) in [
            ("number of fans 0", fans == 0),
            ("number of fans 4", fans == 4),
            ("number of fans 5", fans == 5),
            ("number of fans above 5", fans > 5),
            ("number of fans out of range before power-on", bad_number && !powered),
            ("number of fans out of range while powered", bad_number && powered),
        ] {
            self.count(name, happens && !bad_address);
        }
    }

    /// A sample with its count out of range.
    pub(super) fn bad_absent_sample(&mut self, chip: &Chip, fan: u8) {
        let absent = usize::from(fan) > chip.present && fan <= 5;
        self.count("sample of an absent fan out of range", absent);
    }

    pub(super) fn part_sample(&mut self, chip: &Chip, stall: bool, fan: &Fan) {
        self.of_part(chip, "spin-up started by a stall", stall && closed(fan));
    }

    pub(super) fn part_fires(&mut self, chip: &Chip) {
        self.of_part(chip, "power-up watch fired", power_up(chip));
        self.of_part(chip, "continuous watch fired", !power_up(chip));
        self.of_part(
            chip,
            "power-up watch fired after a write that would end it, to an absent fan",
            power_up(chip) && self.would_have_ended,
        );
    }

    /// A tick of a fan that there is.
    pub(super) fn part_fan_tick(&mut self, chip: &Chip, before: &Fan, after: &Fan) {
        let spinning = before.spin_up.is_some();
        self.of_part(chip, "spin-up ended", spinning && after.spin_up.is_none());
        self.of_part(chip, "ramp moved the drive", !spinning && before.drive != after.drive);
    }

    pub(super) fn part_reads(&mut self, chip: &Chip, count: usize) {
        let first = chip.pointer;
        self.part_transfer(chip, first, count);
        self.of_part(chip, "absent register read", aims_at_absent(chip, first, count));
        self.of_part(
            chip,
            "block read into absent registers",
            goes_over(first, count, edge(chip)),
        );
        self.of_part(
            chip,
            "block read out of absent registers",
            goes_over(first, count, 0x80),
        );
        for register in aimed_at(first, count) {
            self.of_part(chip, "25h bit shown", register == 0x25 && chip.stall_status != 0);
            self.of_part(chip, "26h bit shown", register == 0x26 && chip.spin_status != 0);
            self.of_part(chip, "WATCH shown", register == 0x24 && chip.watch_status);
        }
    }

    pub(super) fn part_writes(&mut self, chip: &Chip, first: u8, count: usize) {
        self.part_transfer(chip, first, count);
        self.of_part(chip, "absent register written", aims_at_absent(chip, first, count));
        self.of_part(
            chip,
            "block write into absent registers",
            goes_over(first, count, edge(chip)),
        );
        self.of_part(
            chip,
            "block write out of absent registers",
            goes_over(first, count, 0x80),
        );
    }

    fn part_transfer(&mut self, chip: &Chip, first: u8, count: usize) {
        let counts = matches!(chip.watch, Watch::Continuous { count } if count > 0);
        self.of_part(
            chip,
            "continuous watch fed at an absent register",
            counts && absent(chip, first) && count > 0,
        );
    }

    /// One data byte written to a part's register.
    pub(super) fn part_byte(&mut self, chip: &Chip, register: u8, byte: u8) {
        let offset = usize::from(register % 16);
        let gone = absent(chip, register);
        self.of_part(chip, "absent Setting written", gone && offset == SETTING);
        let ends = offset == SETTING || offset == CONFIGURATION_1 && byte & 0x80 != 0;
        self.would_have_ended |= gone && ends && power_up(chip);
        let bits = 0x1F & !((1 << chip.present) - 1);
        let stands = chip.stall_status | chip.spin_status != 0;
        self.of_part(
            chip,
            "29h bit of an absent fan set while a bit stands",
            register == 0x29 && byte & bits != 0 && stands,
        );
    }

    pub(super) fn part_fan_write(&mut self, chip: &Chip, before: &Fan, after: &Fan) {
        let started = before.spin_up.is_none() && after.spin_up.is_some();
        self.of_part(chip, "spin-up started by a write", started);
    }
}

fn aims_at_absent(chip: &Chip, first: u8, count: usize) -> bool {
    aimed_at(first, count).any(|register| absent(chip, register))
}
