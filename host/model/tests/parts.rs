//! CR 5's rules: the parts with one, two and three fans, each rule at each number of fans, with figures worked out by hand.

use model::chip::{Chip, Fan, Watch, CONFIGURATION_1, SETTING};
use model::listing;
use model::log::{check, read, write, Event, Fault};
use model::replay::{run, Run};
use model::speeds::{self, speeds, Speeds, MOST_SAMPLES};

const ADDRESS: u8 = 0x2C;
/// How many fans a chip has.
const NUMBERS: [u8; 4] = [1, 2, 3, 5];
/// A fan's registers after power-on.
const FAN: [u8; 16] = [
    0x00, 0x01, 0x2B, 0x28, 0x00, 0x2A, 0x19, 0x10, 0x66, 0xF5, 0x00, 0x00, 0xF8, 0xFF, 0xFF, 0xF8,
];

/// What powers a chip with so many fans on: kind 6, or kind 1 for five.
fn power_on(address: u8, fans: u8) -> Event {
    if fans == 5 {
        Event::PowerOn { address }
    } else {
        Event::PowerOnPart { address, fans }
    }
}

/// A chip with so many fans, just powered on.
fn part(fans: u8) -> Chip {
    let mut chip = Chip::unpowered();
    assert_eq!(chip.step(&power_on(ADDRESS, fans), &[], &mut []), Ok(0));
    chip
}

fn transfer(read: bool, length: usize) -> Event {
    Event::Transfer {
        address: ADDRESS,
        read,
        place: 0,
        length,
    }
}

fn send(chip: &mut Chip, bytes: &[u8]) {
    assert_eq!(chip.step(&transfer(false, bytes.len()), bytes, &mut []), Ok(0));
}

fn clock_in(chip: &mut Chip, count: u8) -> Vec<u8> {
    let mut room = vec![0xAA; count.into()];
    assert_eq!(
        chip.step(&transfer(true, 1), &[count], &mut room),
        Ok(usize::from(count))
    );
    room
}

/// So many bytes from a register on.
fn show(chip: &mut Chip, register: u8, count: u8) -> Vec<u8> {
    send(chip, &[register]);
    clock_in(chip, count)
}

fn ticks(chip: &mut Chip, count: u16) {
    assert_eq!(chip.step(&Event::Ticks { count }, &[], &mut []), Ok(0));
}

fn sample(chip: &mut Chip, fan: u8, count: u16) {
    assert_eq!(chip.step(&Event::Sample { fan, count }, &[], &mut []), Ok(0));
}

/// The first register of a fan.
fn base(fan: u8) -> u8 {
    0x20 + 0x10 * fan
}

/// The first registers of the absent fans: none of five, 40h to 70h of one.
fn absent(fans: u8) -> impl Iterator<Item = u8> {
    (fans + 1..=5).map(base)
}

/// As read: "An absent fan keeps its power-on state".
fn absent_fans_are_as_powered_on(chip: &Chip, fans: u8) {
    for fan in &chip.fans[usize::from(fans)..] {
        assert_eq!(*fan, Fan::power_on(), "{fans} fans");
    }
}

// ---- the log ----

fn record(kind: u8, payload: &[u8]) -> Vec<u8> {
    [&[0x9C, 0x46, kind, payload.len() as u8], payload].concat()
}

/// A log that powers the chip on by kind 1 and reads one byte: 11 bytes, two records, one reply.
fn before() -> Vec<u8> {
    [record(1, &[ADDRESS]), record(5, &[ADDRESS * 2 + 1, 1])].concat()
}

/// Reading refuses the record with this number and place; behind other records a run and a listing stop there.
fn refused(record: &[u8], number: u8, place: usize) {
    assert_eq!(read(record, 0), Err(Fault { number, place }), "{record:02X?}");
    let log = [&before(), record].concat();
    let fault = Fault {
        number,
        place: 11 + place,
    };
    assert_eq!(read(&log, 11), Err(fault), "{record:02X?}");
    let stopped = Run {
        number,
        place: 11,
        records: 2,
        reply_bytes: 1,
    };
    assert_eq!(run(&log, &mut [0; 9]), stopped, "{record:02X?}");
    let mut lines = Vec::new();
    listing::list(&log, &mut lines);
    let expected = format!("0 0\n5 0 00\n11 {number}\nstop 11\n");
    assert_eq!(String::from_utf8(lines).unwrap(), expected, "{record:02X?}");
}

// "Kind 6, two payload bytes (address, number of fans)"; "15 for a number of fans other than 1, 2 or 3, right after 10". As
// read: "5 too: five fans are kind 1".
#[test]
fn every_number_and_address_read() {
    for fans in 0..=255 {
        for address in [0, 1, ADDRESS, 127] {
            let bytes = record(6, &[address, fans]);
            if (1..=3).contains(&fans) {
                let event = Event::PowerOnPart { address, fans };
                assert_eq!(read(&bytes, 0), Ok(Some((event, 6))));
            } else {
                refused(&bytes, 15, 5);
            }
        }
        for address in [128, 172, 255] {
            refused(&record(6, &[address, fans]), 10, 4);
        }
    }
}

// The reading order stays: mark, head, kind, n, payload short, then the fields. A kind that has not landed is unknown.
#[test]
fn other_refusals_of_reading() {
    for (bytes, number, place) in [
        (&[0x9C, 0x46, 0x06][..], 1, 3),
        (&[0x9C, 0x46, 0x06, 0x02], 1, 4),
        (&[0x9C, 0x46, 0x06, 0x02, 0x80], 1, 5),
        (&[0x9D, 0x46, 0x06, 0x02, 0x2C, 0x02], 2, 0),
        (&[0x9C, 0x47, 0x06, 0x02, 0x2C, 0x02], 2, 1),
        (&[0x9C, 0x46, 0x07, 0x02, 0x2C, 0x02], 3, 2),
        (&[0x9C, 0x46, 0x08, 0x03, 0x01, 0x00, 0x00], 3, 2),
        (&[0x9C, 0x46, 0x06, 0x00], 4, 3),
        (&[0x9C, 0x46, 0x06, 0x01, 0x2C], 4, 3),
        (&[0x9C, 0x46, 0x06, 0x01, 0x80], 4, 3),
        (&[0x9C, 0x46, 0x06, 0x03, 0x2C, 0x02, 0x00], 4, 3),
        (&[0x9C, 0x46, 0x06, 0xFF, 0x80, 0x05], 4, 3),
    ] {
        refused(bytes, number, place);
    }
}

// As read: "The event of kind 6 is one of its own, so that reader and writer round-trip it."
#[test]
fn written_and_read_back() {
    for fans in 1..=3 {
        for address in [0, ADDRESS, 127] {
            let event = Event::PowerOnPart { address, fans };
            let mut out = [0xEE; 8];
            assert_eq!(write(&event, &[], &mut out[..5]), Err(8));
            assert_eq!(out, [0xEE; 8]);
            assert_eq!(write(&event, &[], &mut out), Ok(6));
            assert_eq!(out, [0x9C, 0x46, 6, 2, address, fans, 0xEE, 0xEE]);
            assert_eq!(read(&out, 0), Ok(Some((event, 6))));
        }
    }
}

// A step and the writer give 10, then 15, before 6 and 8, and change nothing.
#[test]
fn events_out_of_range() {
    for fans in 0..=255u8 {
        for address in [0, 127, 128, 255] {
            let number = match (address > 127, (1..=3).contains(&fans)) {
                (true, _) => 10,
                (false, false) => 15,
                (false, true) => continue,
            };
            let event = Event::PowerOnPart { address, fans };
            assert_eq!(check(&event, &[]), Err(number), "{event:?}");
            for room in [0, 9] {
                let mut out = vec![0xEE; room];
                assert_eq!(write(&event, &[], &mut out), Err(number), "{event:?}");
                for chip in [Chip::unpowered(), part(2), part(5)] {
                    let mut after = chip.clone();
                    assert_eq!(after.step(&event, &[], &mut out), Err(number), "{event:?}");
                    assert_eq!(after, chip, "{event:?}");
                }
                assert_eq!(out, vec![0xEE; room], "{event:?}");
            }
        }
    }
}

// ---- registers ----

// "Registers of absent fans are undefined"; "its bytes are Table 5.1's", the identity bytes too.
#[test]
fn defaults_of_each_part() {
    for fans in NUMBERS {
        let mut chip = part(fans);
        for register in 0x00..=0xFF {
            let expected = match register {
                0x20 => 0x40,
                0x30..=0x7F if register / 16 - 2 <= fans => FAN[usize::from(register % 16)],
                0xFD => 0x34,
                0xFE => 0x5D,
                0xFF => 0x80,
                _ => 0x00,
            };
            assert_eq!(show(&mut chip, register, 1), [expected], "{register:02X}, {fans} fans");
        }
    }
}

// As read: "20h, 29h to 2Dh, EFh and the identity bytes are there for every part"; "29h is stored whole".
#[test]
fn registers_of_every_part() {
    for fans in NUMBERS {
        let mut chip = part(fans);
        for (register, byte) in (0x29..=0x2D).zip([0xFF, 1, 2, 3, 4]) {
            send(&mut chip, &[register, byte]);
        }
        send(&mut chip, &[0x20, 0xC0]);
        send(&mut chip, &[0xEF, 0x02]);
        assert_eq!(show(&mut chip, 0x29, 5), [0xFF, 1, 2, 3, 4], "{fans} fans");
        assert_eq!(show(&mut chip, 0x20, 1), [0xC0], "{fans} fans");
        assert_eq!(show(&mut chip, 0xEF, 1), [0x02], "{fans} fans");
        assert_eq!(show(&mut chip, 0xFC, 4), [0x00, 0x34, 0x5D, 0x80], "{fans} fans");
        // locked: Max Step of fan 1 stays, its Setting is stored
        send(&mut chip, &[0xEF, 0x01]);
        send(&mut chip, &[0x37, 0x3F]);
        send(&mut chip, &[0x30, 0x80]);
        assert_eq!(show(&mut chip, 0x37, 1), [0x10], "{fans} fans");
        assert_eq!(chip.fans[0].registers[SETTING], 0x80, "{fans} fans");
    }
}

// As read: "A register of an absent fan reads 00h and stores nothing": a write changes the pointer alone.
#[test]
fn writes_to_absent_fans() {
    for fans in NUMBERS {
        for first in absent(fans) {
            for register in first..=first + 0xF {
                let mut chip = part(fans);
                let mut expected = chip.clone();
                send(&mut chip, &[register, 0xFF]);
                expected.pointer = register;
                assert_eq!(chip, expected, "{register:02X}, {fans} fans");
                assert_eq!(clock_in(&mut chip, 1), [0x00], "{register:02X}, {fans} fans");
            }
        }
    }
}

// As read: "a block goes over it", here from fan 2's last registers into fan 3's, which are absent, and back out at 80h.
#[test]
fn blocks_of_a_two_fan_part() {
    let mut chip = part(2);
    assert_eq!(show(&mut chip, 0x4C, 8), [0xF8, 0xFF, 0xFF, 0xF8, 0, 0, 0, 0]);
    assert_eq!(chip.pointer, 0x54);
    send(&mut chip, &[0x4B, 0x77, 0x08, 0x20, 0xEE, 0xEE, 0x80, 0x01, 0x80]);
    assert_eq!(chip.pointer, 0x53);
    assert_eq!(
        show(&mut chip, 0x4B, 8),
        [0x77, 0x08, 0x20, 0xFF, 0xF8, 0x00, 0x00, 0x00]
    );
    absent_fans_are_as_powered_on(&chip, 2);
    // within absent registers, out of them, and one byte, which leaves the pointer
    assert_eq!(show(&mut chip, 0x5E, 4), [0; 4]);
    assert_eq!(chip.pointer, 0x62);
    send(&mut chip, &[0x7E, 1, 2, 3, 4]);
    assert_eq!(chip.pointer, 0x82);
    send(&mut chip, &[0x72, 0x80]);
    assert_eq!(chip.pointer, 0x72);
    assert_eq!(clock_in(&mut chip, 1), [0x00]);
    assert_eq!(chip.pointer, 0x72);
}

// The same at each number, in blocks of 32 from the row before each edge.
#[test]
fn blocks_over_the_edge() {
    for fans in NUMBERS {
        let last = base(fans);
        let mut chip = part(fans);
        let expected = [FAN, [0; 16]].concat();
        assert_eq!(show(&mut chip, last, 32), expected, "{fans} fans");
        assert_eq!(chip.pointer, last + 32, "{fans} fans");
        // Divide, Configuration 1, 2 and so on of the last fan, then what is undefined
        send(&mut chip, &[&[last + 1][..], &[0x05; 31]].concat());
        assert_eq!(chip.pointer, last + 32, "{fans} fans");
        let stored = [
            0x00, 0x05, 0x05, 0x05, 0x00, 0x05, 0x05, 0x05, 0x05, 0x05, 0x05, 0x05, 0x05, 0x05, 0xFF, 0xF8,
        ];
        assert_eq!(
            show(&mut chip, last, 32),
            [stored, [0; 16]].concat(),
            "{fans} fans, written"
        );
        absent_fans_are_as_powered_on(&chip, fans);
        // from 30h on, fan by fan
        let mut chip = part(fans);
        send(&mut chip, &[0x30]);
        for fan in 1..=5 {
            let expected = if fan <= fans { FAN } else { [0; 16] };
            assert_eq!(clock_in(&mut chip, 16), expected, "fan {fan}, {fans} fans");
        }
        assert_eq!(clock_in(&mut chip, 2), [0; 2]);
    }
}

// ---- 21 ----

fn refused_with_21(chip: &mut Chip, event: Event) {
    let before = chip.clone();
    assert_eq!(chip.step(&event, &[], &mut []), Err(21), "{event:?}");
    assert_eq!(*chip, before, "{event:?}");
}

// "21 for a sample or wish for an absent fan"; as read, "a fan outside 1..5 is 5 (CR 3) as before", and a count 9.
#[test]
fn samples_and_wishes() {
    for fans in NUMBERS {
        let mut chip = part(fans);
        for fan in 1..=5 {
            for event in [Event::Sample { fan, count: 8191 }, Event::Wish { fan, drive: 255 }] {
                if fan > fans {
                    refused_with_21(&mut chip, event);
                } else {
                    assert_eq!(chip.step(&event, &[], &mut []), Ok(0), "{event:?}, {fans} fans");
                }
            }
        }
        absent_fans_are_as_powered_on(&chip, fans);
        for (event, number) in [
            (Event::Sample { fan: 0, count: 0 }, 5),
            (Event::Sample { fan: 6, count: 8192 }, 5),
            (Event::Sample { fan: 4, count: 8192 }, 9),
            (Event::Wish { fan: 0, drive: 0 }, 5),
            (Event::Wish { fan: 6, drive: 0 }, 5),
        ] {
            assert_eq!(chip.step(&event, &[], &mut []), Err(number), "{event:?}, {fans} fans");
        }
    }
}

// "21 [...] by the step right after 6"; as read, "An unpowered chip has five fans", so that it never gives 21, and a part
// that was refused powers nothing.
#[test]
fn before_power_on() {
    let mut chip = Chip::unpowered();
    let refused = Event::PowerOnPart { address: 0, fans: 4 };
    assert_eq!(chip.step(&refused, &[], &mut []), Err(15));
    for fan in 1..=5 {
        for event in [Event::Sample { fan, count: 0 }, Event::Wish { fan, drive: 0 }] {
            assert_eq!(chip.step(&event, &[], &mut []), Err(6), "{event:?}");
        }
    }
    assert_eq!(chip, Chip::unpowered());
}

// ---- ticks and watchdog ----

// "watchdog and ticks pass them by": every fan that there is spins up, 255 for 10 ticks, 153 for 30, then its Setting.
#[test]
fn spin_up_on_each_part() {
    for fans in NUMBERS {
        let mut chip = part(fans);
        for fan in 1..=5 {
            send(&mut chip, &[base(fan), 0x80 + fan]);
        }
        for (count, drive) in [(0, 255), (9, 255), (1, 153), (29, 153)] {
            ticks(&mut chip, count);
            for fan in 1..=5 {
                let expected = if fan <= fans { drive } else { 0 };
                assert_eq!(show(&mut chip, base(fan), 1), [expected], "fan {fan}, {fans} fans");
            }
        }
        ticks(&mut chip, 1);
        for fan in 1..=5 {
            let expected = if fan <= fans { 0x80 + fan } else { 0 };
            assert_eq!(show(&mut chip, base(fan), 1), [expected], "fan {fan}, {fans} fans");
        }
        // no sample came: each fails, and no other has a bit
        let bits = [0x00, 0x01, 0x03, 0x07, 0x00, 0x1F][usize::from(fans)];
        assert_eq!(show(&mut chip, 0x24, 3), [0x02, 0x00, bits], "{fans} fans");
        absent_fans_are_as_powered_on(&chip, fans);
    }
}

// Demand 3 on each part, its last fan ramping, with what is refused for absent fans between the ticks: after 40 and 32 and
// 32 ticks it is 153, 137 and 128.
#[test]
fn ramp_on_each_part() {
    for fans in NUMBERS {
        let mut chip = part(fans);
        send(&mut chip, &[base(fans) + 3, 0x68]);
        send(&mut chip, &[base(fans), 0x80]);
        for (count, after) in [(40, 153), (31, 153), (1, 137), (31, 137), (1, 128), (500, 128)] {
            for fan in fans + 1..=5 {
                refused_with_21(&mut chip, Event::Wish { fan, drive: 7 });
                send(&mut chip, &[base(fan) + 2, 0xA8]);
            }
            ticks(&mut chip, count);
            assert_eq!(chip.fans[usize::from(fans) - 1].drive, after, "{fans} fans");
        }
    }
}

/// The drives that reads of the five Settings show.
fn drives(chip: &mut Chip) -> Vec<u8> {
    (1..=5).flat_map(|fan| show(chip, base(fan), 1)).collect()
}

/// FFh for each fan that there is.
fn full_drives(fans: u8) -> Vec<u8> {
    (1..=5).map(|fan| if fan <= fans { 0xFF } else { 0x00 }).collect()
}

// The power-up watch fires at 320 ticks, for the fans that there are.
#[test]
fn power_up_watch_fires() {
    for fans in NUMBERS {
        let mut chip = part(fans);
        ticks(&mut chip, 319);
        assert_eq!(drives(&mut chip), [0; 5], "{fans} fans");
        assert!(!chip.alert());
        ticks(&mut chip, 1);
        assert_eq!(chip.watch, Watch::Off);
        assert!(chip.alert());
        assert_eq!(drives(&mut chip), full_drives(fans), "{fans} fans");
        absent_fans_are_as_powered_on(&chip, fans);
        assert_eq!(show(&mut chip, 0x24, 3), [0x80, 0x00, 0x00], "{fans} fans");
        assert!(!chip.alert());
    }
}

// The continuous watch is fed by a transfer to an absent register and not by what is refused with 21; it fires as above.
#[test]
fn continuous_watch_fires() {
    for fans in NUMBERS {
        let mut chip = part(fans);
        send(&mut chip, &[0x20, 0x60]);
        ticks(&mut chip, 300);
        send(&mut chip, &[0x7D, 0x12]);
        assert_eq!(chip.watch, Watch::Continuous { count: 0 }, "{fans} fans");
        ticks(&mut chip, 319);
        for fan in fans + 1..=5 {
            refused_with_21(&mut chip, Event::Sample { fan, count: 8191 });
            refused_with_21(&mut chip, Event::Wish { fan, drive: 1 });
        }
        ticks(&mut chip, 1);
        assert_eq!(chip.watch, Watch::Continuous { count: 0 }, "{fans} fans");
        assert!(chip.watch_status);
        assert_eq!(drives(&mut chip), full_drives(fans), "{fans} fans");
        absent_fans_are_as_powered_on(&chip, fans);
    }
}

// As read: "no write to it is stored, so none ends the power-up watch."
#[test]
fn what_ends_the_power_up_watch() {
    for fans in NUMBERS {
        for fan in 1..=5 {
            for bytes in [[base(fan), 0x00], [base(fan), 0x80], [base(fan) + 2, 0xAB]] {
                let mut chip = part(fans);
                ticks(&mut chip, 319);
                send(&mut chip, &bytes);
                let expected = if fan <= fans {
                    Watch::Off
                } else {
                    Watch::PowerUp { count: 319 }
                };
                assert_eq!(chip.watch, expected, "{bytes:02X?}, {fans} fans");
                ticks(&mut chip, 1);
                assert_eq!(chip.watch_status, fan > fans, "{bytes:02X?}, {fans} fans");
            }
        }
    }
}

// A block over the edge ends it by its first bytes or not at all.
#[test]
fn blocks_and_the_power_up_watch() {
    let mut chip = part(2);
    send(&mut chip, &[0x4F, 0x00, 0x80, 0x01, 0xAB]);
    assert_eq!(chip.watch, Watch::PowerUp { count: 0 });
    send(&mut chip, &[&[0x3F][..], &[0x00; 31]].concat());
    assert_eq!(chip.watch, Watch::Off);
}

// ---- status and alert line ----

/// Every fan that there is at drive 128, its spin-up past and its rotor held, no watch.
fn held(fans: u8) -> Chip {
    let mut chip = part(fans);
    for fan in 1..=fans {
        sample(&mut chip, fan, 100);
        send(&mut chip, &[base(fan), 0x80]);
    }
    ticks(&mut chip, 40);
    for fan in 1..=fans {
        sample(&mut chip, fan, 7872);
    }
    chip
}

// "their status bits stay 0"; as read, of 29h "its bits for absent fans do nothing. 25h and 26h show 0 for them."
#[test]
fn status_and_alert_on_each_part() {
    for (fans, bits) in [(1, 0x01), (2, 0x03), (3, 0x07), (5, 0x1F)] {
        let mut chip = held(fans);
        for fan in fans + 1..=5 {
            send(&mut chip, &[base(fan), 0x80]);
            refused_with_21(&mut chip, Event::Sample { fan, count: 8191 });
        }
        assert_eq!(show(&mut chip, 0x24, 4), [0x01, bits, 0x00, 0x00], "{fans} fans");
        // the rotors are held: the bits stay
        assert_eq!(show(&mut chip, 0x25, 1), [bits], "{fans} fans");
        send(&mut chip, &[0x29, !bits]);
        assert!(!chip.alert(), "{fans} fans");
        assert_eq!(show(&mut chip, 0x29, 1), [!bits], "{fans} fans");
        send(&mut chip, &[0x29, 0xFF]);
        assert!(chip.alert(), "{fans} fans");
        // all turn: read once more, then none stands
        (1..=fans).for_each(|fan| sample(&mut chip, fan, 100));
        assert_eq!(show(&mut chip, 0x25, 1), [bits], "{fans} fans");
        assert_eq!(show(&mut chip, 0x25, 1), [0x00], "{fans} fans");
        assert!(!chip.alert(), "{fans} fans");
    }
}

// ---- power-on ----

// As read: "Each power-on resets everything: a kind 1 after a kind 6 is a five-fan part again."
#[test]
fn each_power_on_resets_everything() {
    for first in NUMBERS {
        for second in NUMBERS {
            let mut chip = held(first);
            send(&mut chip, &[0x29, 0xFF, 1, 2, 3, 4]);
            send(&mut chip, &[0x32, 0xAB]);
            send(&mut chip, &[0x20, 0xE0]);
            send(&mut chip, &[0xEF, 0x01]);
            ticks(&mut chip, 7);
            assert_eq!(chip.step(&power_on(0x10, second), &[], &mut []), Ok(0));
            let mut expected = part(second);
            expected.address = Some(0x10);
            assert_eq!(chip, expected, "{first} fans, then {second}");
            // a transfer to the address before is for another
            assert_eq!(chip.step(&transfer(true, 1), &[9], &mut []), Err(7));
        }
    }
}

// ---- runs and reports ----

/// A part with two fans, fans 2 and 3 sampled and wished for, a read over the edge, a part with one fan, fan 2 again, then
/// kind 1 and fan 5.
fn parts_in_turn() -> Vec<u8> {
    [
        record(3, &[3, 0x10, 0x00]),
        record(6, &[ADDRESS, 2]),
        record(3, &[2, 0x10, 0x00]),
        record(3, &[3, 0x10, 0x00]),
        record(4, &[3, 0xFF]),
        record(5, &[ADDRESS * 2, 0x4E]),
        record(5, &[ADDRESS * 2 + 1, 4]),
        record(6, &[ADDRESS, 1]),
        record(3, &[2, 0x00, 0x00]),
        record(5, &[ADDRESS * 2 + 3, 4]),
        record(1, &[ADDRESS]),
        record(3, &[5, 0x00, 0x00]),
    ]
    .concat()
}

// 21: "a run walks on"; 15: "a run stops".
#[test]
fn runs_over_parts() {
    let log = parts_in_turn();
    let mut replies = [0xEE; 6];
    let expected = Run {
        number: 0,
        place: 76,
        records: 12,
        reply_bytes: 4,
    };
    assert_eq!(run(&log, &mut replies), expected);
    // 16 x 8 is 0080h
    assert_eq!(replies, [0x00, 0x80, 0x00, 0x00, 0xEE, 0xEE]);
    let text = "0 6\n7 0\n13 0\n20 21\n27 21\n33 0\n39 0 00 80 00 00\n45 0\n51 21\n58 7\n64 0\n69 0\n";
    let mut lines = Vec::new();
    listing::list(&log, &mut lines);
    assert_eq!(String::from_utf8(lines).unwrap(), text.to_owned() + "end 76\n");
    let stopped = [&log, &record(6, &[ADDRESS, 5])[..], &log].concat();
    let mut replies = [0xEE; 6];
    let expected = Run {
        number: 15,
        place: 76,
        records: 12,
        reply_bytes: 4,
    };
    assert_eq!(run(&stopped, &mut replies), expected);
    let mut lines = Vec::new();
    listing::list(&stopped, &mut lines);
    assert_eq!(String::from_utf8(lines).unwrap(), text.to_owned() + "76 15\nstop 76\n");
}

// CR 2, as read: "Samples that a step refuses (6, later 21) count nowhere"; "There are always five lines". 7864320 / 16 is
// 491520.
#[test]
fn report_over_parts() {
    let log = parts_in_turn();
    let mut figures = [0; 25];
    figures[5..9].copy_from_slice(&[1, 491_520, 491_520, 491_520]);
    figures[24] = 1;
    let expected = Speeds {
        number: 0,
        place: 76,
        records: 12,
        figures,
    };
    assert_eq!(speeds(&log, 2), expected);
    let lines = "1 0 0 0 0 0\n2 1 491520 491520 491520 0\n3 0 0 0 0 0\n4 0 0 0 0 0\n5 0 0 0 0 1\n";
    assert_eq!(speeds::list(&log, 2), lines.to_owned() + "end 76\n");
    let stopped = [&log[..], &record(6, &[ADDRESS, 0]), &log].concat();
    assert_eq!(speeds::list(&stopped, 2), lines.to_owned() + "stop 76 15\n");
}

// CR 2: 14 comes "after that record's own refusals": of a fan that is full and then absent a sample is refused with 21, and
// the report goes on; with the fan back it is 14. A part sets no figure to 0.
#[test]
fn absent_fans_and_the_limit() {
    let turn = record(3, &[3, 0xFF, 0x1F]);
    let full = [record(1, &[ADDRESS]), turn.repeat(MOST_SAMPLES)].concat();
    let mut figures = [0; 25];
    figures[10..14].copy_from_slice(&[65_535, 960, 960, 62_913_600]);
    for fans in [1, 2] {
        let log = [&full[..], &record(6, &[ADDRESS, fans]), &turn.repeat(3)].concat();
        let expected = Speeds {
            number: 0,
            place: log.len(),
            records: 65_540,
            figures,
        };
        assert_eq!(speeds(&log, 2), expected, "{fans} fans");
        for back in [record(6, &[ADDRESS, 3]), record(1, &[ADDRESS])] {
            let expected = Speeds {
                number: 14,
                place: log.len() + back.len(),
                records: 65_541,
                figures,
            };
            assert_eq!(speeds(&[&log, &back, &turn[..]].concat(), 2), expected);
        }
    }
}

// Configuration 1 of a sample is that of its fan on the part: the default after its power-on, m 2 and five edges.
#[test]
fn configuration_on_a_part() {
    let mut chip = part(3);
    assert_eq!(chip.fans[2].registers[CONFIGURATION_1], 0x2B);
    send(&mut chip, &[0x52, 0x78]);
    assert_eq!(chip.fans[2].registers[CONFIGURATION_1], 0x78);
    let log = [
        record(1, &[ADDRESS]),
        record(5, &[ADDRESS * 2, 0x52, 0x78]),
        record(6, &[ADDRESS, 3]),
        record(3, &[3, 0x01, 0x00]),
        record(5, &[ADDRESS * 2, 0x52, 0x78]),
        record(3, &[3, 0x01, 0x00]),
    ]
    .concat();
    // 1966080 x 4 x 2 and 1966080 x 8 x 8
    let mut figures = [0; 25];
    figures[10..14].copy_from_slice(&[2, 15_728_640, 125_829_120, 141_557_760]);
    assert_eq!(speeds(&log, 1).figures, figures);
}
