//! Document 01's own examples and rules, with its figures.

use model::chip::{
    Chip, Watch, CONFIGURATION_1, CONFIGURATION_2, MAX_STEP, MINIMUM_DRIVE, READING_HIGH, SETTING, SPIN_UP,
    TARGET_HIGH, VALID_COUNT,
};
use model::listing::list;
use model::log::{check, read, write, Event, Fault};
use model::replay::{run, Run};

const ADDRESS: u8 = 0x2C;
const SAMPLE_LOG: [u8; 18] = [
    0x9C, 0x46, 0x01, 0x01, 0x2C, 0x9C, 0x46, 0x05, 0x03, 0x58, 0x30, 0x80, 0x9C, 0x46, 0x05, 0x02, 0x59, 0x01,
];

/// A chip just powered on.
fn powered() -> Chip {
    let mut chip = Chip::unpowered();
    assert_eq!(chip.step(&Event::PowerOn { address: ADDRESS }, &[], &mut []), Ok(0));
    chip
}

/// A powered chip on which no watch runs.
fn unwatched() -> Chip {
    let mut chip = powered();
    chip.watch = Watch::Off;
    chip
}

fn send(chip: &mut Chip, bytes: &[u8]) {
    let event = Event::Transfer {
        address: ADDRESS,
        read: false,
        place: 0,
        length: bytes.len(),
    };
    assert_eq!(chip.step(&event, bytes, &mut []), Ok(0));
}

fn clock_in(chip: &mut Chip, count: u8) -> Vec<u8> {
    let mut room = vec![0xAA; usize::from(count)];
    let event = Event::Transfer {
        address: ADDRESS,
        read: true,
        place: 0,
        length: 1,
    };
    assert_eq!(chip.step(&event, &[count], &mut room), Ok(usize::from(count)));
    room
}

/// The byte at a register, by a pointer write and a read of one byte.
fn peek(chip: &mut Chip, register: u8) -> u8 {
    send(chip, &[register]);
    clock_in(chip, 1)[0]
}

fn ticks(chip: &mut Chip, count: u16) {
    assert_eq!(chip.step(&Event::Ticks { count }, &[], &mut []), Ok(0));
}

fn sample(chip: &mut Chip, fan: u8, count: u16) {
    assert_eq!(chip.step(&Event::Sample { fan, count }, &[], &mut []), Ok(0));
}

fn wish(chip: &mut Chip, fan: u8, drive: u8) {
    assert_eq!(chip.step(&Event::Wish { fan, drive }, &[], &mut []), Ok(0));
}

/// A chip whose fan 1 is in direct mode under ramp control, no spin-up and no watch, period 8 ticks.
fn ramping(drive: u8, goal: u8, step: u8) -> Chip {
    let mut chip = unwatched();
    let fan = &mut chip.fans[0];
    fan.registers[CONFIGURATION_1] = 0x28;
    fan.registers[CONFIGURATION_2] = 0x68;
    fan.registers[MAX_STEP] = step;
    fan.registers[SETTING] = goal;
    fan.drive = drive;
    chip
}

// Examples: "153 to 128, step 16: 137, 128. 255 to 0, step 63: 192, 129, 66, 3, 0. Step 0: stays. d = g: stays."
#[test]
fn ramp_examples() {
    let cases: [(u8, u8, u8, &[u8]); 6] = [
        (153, 128, 16, &[137, 128, 128]),
        (255, 0, 63, &[192, 129, 66, 3, 0, 0]),
        (153, 128, 0, &[153, 153]),
        (128, 128, 16, &[128, 128]),
        (0, 255, 63, &[63, 126, 189, 252, 255, 255]),
        (153, 128, 64, &[153, 153]),
    ];
    for (drive, goal, step, expected) in cases {
        let mut chip = ramping(drive, goal, step);
        let mut before = drive;
        for &after in expected {
            ticks(&mut chip, 7);
            assert_eq!(chip.fans[0].drive, before, "{drive} to {goal}, step {step}");
            ticks(&mut chip, 1);
            assert_eq!(chip.fans[0].drive, after, "{drive} to {goal}, step {step}");
            before = after;
        }
    }
}

// Demand 3: after t ticks the drive is d moved toward g by the smaller of the distance and s x ((p + t) / u).
#[test]
fn ramp_in_one_formula() {
    const PERIODS: [u16; 8] = [8, 16, 24, 32, 40, 64, 96, 128];
    for (code, period) in (0u8..).zip(PERIODS) {
        for (drive, goal, step, clock, count) in [(200, 10, 7, 5, 1000), (3, 250, 63, 0, 130), (9, 11, 1, 7, 127)] {
            let mut chip = ramping(drive, goal, step);
            chip.fans[0].registers[CONFIGURATION_1] = 0x28 | code;
            chip.fans[0].clock = clock;
            ticks(&mut chip, count);
            let moved = (u32::from(step) * u32::from((clock + count) / period)).min(drive.abs_diff(goal).into()) as u8;
            let expected = if goal > drive { drive + moved } else { drive - moved };
            assert_eq!(chip.fans[0].drive, expected, "period {period}, {drive} to {goal}");
            assert_eq!(
                chip.fans[0].clock,
                (clock + count) % period,
                "period {period}, {drive} to {goal}"
            );
        }
    }
}

// Examples: "default fan, Setting 80h at drive 0: 255 for 10 ticks, 153 for 30, then 128."
#[test]
fn spin_up_of_a_default_fan() {
    let mut chip = powered();
    send(&mut chip, &[0x30, 0x80]);
    for tick in 0..=50 {
        let expected = match tick {
            0..=9 => 255,
            10..=39 => 153,
            _ => 128,
        };
        assert_eq!(peek(&mut chip, 0x30), expected, "after {tick} ticks");
        assert_eq!(chip.fans[0].spin_up.is_some(), tick < 40, "after {tick} ticks");
        ticks(&mut chip, 1);
    }
    assert_eq!(peek(&mut chip, 0x26), 0x01);
}

// Examples: "Bit 6 set first: 153 at tick 40, 137 at 72, 128 at 104."
#[test]
fn spin_up_with_ramp_control() {
    let mut chip = powered();
    send(&mut chip, &[0x33, 0x68]);
    send(&mut chip, &[0x30, 0x80]);
    for (count, before, after) in [(40, 153, 153), (32, 153, 137), (32, 137, 128)] {
        ticks(&mut chip, count - 1);
        assert_eq!(chip.fans[0].drive, before);
        ticks(&mut chip, 1);
        assert_eq!(chip.fans[0].drive, after);
    }
}

// Spin-up: lengths by bits 0..1, levels by bits 2..4, no first quarter with bit 5; all fixed at the start.
#[test]
fn spin_up_by_its_register() {
    let cases = [(0x00, 20, 76), (0x04, 20, 89), (0x0A, 80, 102), (0x0F, 160, 114)];
    let more = [(0x30, 20, 127), (0x35, 40, 140), (0x3A, 80, 153), (0x3F, 160, 165)];
    for (register, length, level) in cases.into_iter().chain(more) {
        let mut chip = powered();
        send(&mut chip, &[0x46, register]);
        send(&mut chip, &[0x40, 0x01]);
        send(&mut chip, &[0x46, 0x19]);
        for tick in 0..length {
            let expected = if register & 0x20 == 0 && tick < length / 4 {
                255
            } else {
                level
            };
            assert_eq!(chip.fans[1].drive, expected, "{register:02X} after {tick} ticks");
            ticks(&mut chip, 1);
        }
        assert_eq!((chip.fans[1].drive, chip.fans[1].spin_up), (1, None), "{register:02X}");
    }
}

// Spin-up: "A stored write to the fan after which its goal is 0 ends it with drive 0."
#[test]
fn spin_up_ended_by_goal_0() {
    let mut chip = powered();
    send(&mut chip, &[0x50, 0x80]);
    ticks(&mut chip, 12);
    send(&mut chip, &[0x51, 0x02]);
    assert!(chip.fans[2].spin_up.is_some());
    send(&mut chip, &[0x50, 0x00]);
    assert_eq!((chip.fans[2].drive, chip.fans[2].spin_up), (0, None));
    ticks(&mut chip, 50);
    assert_eq!(chip.spin_status, 0);
}

// Examples: "default fan at drive 128, no spin-up, no watch: sample 7871 no stall, 7872 stall (F5h)."
#[test]
fn stall_of_a_default_fan() {
    let mut chip = unwatched();
    chip.fans[0].registers[SETTING] = 128;
    chip.fans[0].drive = 128;
    sample(&mut chip, 1, 7871);
    assert_eq!((peek(&mut chip, 0x3E), peek(&mut chip, 0x3F)), (0xF5, 0xF8));
    assert_eq!(peek(&mut chip, 0x25), 0x00);
    sample(&mut chip, 1, 7872);
    assert_eq!((peek(&mut chip, 0x3E), peek(&mut chip, 0x3F)), (0xF6, 0x00));
    assert_eq!((peek(&mut chip, 0x25), peek(&mut chip, 0x25)), (0x01, 0x01));
    assert_eq!((chip.fans[0].drive, chip.fans[0].spin_up), (128, None));
}

// Tach: no stall at drive 0, in a spin-up or in the power-up watch; in continuous watch it is judged.
#[test]
fn stall_not_judged() {
    let mut chip = unwatched();
    sample(&mut chip, 5, 8191);
    assert_eq!(chip.stall_status, 0);
    chip.fans[4].registers[SETTING] = 9;
    chip.fans[4].drive = 9;
    chip.watch = Watch::PowerUp { count: 0 };
    sample(&mut chip, 5, 8191);
    assert_eq!(chip.stall_status, 0);
    chip.watch = Watch::Continuous { count: 0 };
    sample(&mut chip, 5, 8191);
    assert_eq!(chip.stall_status, 0x10);
    send(&mut chip, &[0x40, 0x80]);
    sample(&mut chip, 2, 8191);
    assert_eq!(chip.stall_status, 0x10);
}

// Examples: "319 idle ticks after power-on: nothing; 320: FFh."
#[test]
fn power_up_watch() {
    let mut chip = powered();
    let mut counted = chip.clone();
    counted.watch = Watch::PowerUp { count: 319 };
    ticks(&mut chip, 319);
    assert_eq!(chip, counted);
    ticks(&mut chip, 1);
    assert_eq!(chip.watch, Watch::Off);
    assert!(chip.alert());
    for register in [0x30, 0x40, 0x50, 0x60, 0x70] {
        assert_eq!(peek(&mut chip, register), 0xFF);
    }
    assert_eq!((peek(&mut chip, 0x24), peek(&mut chip, 0x24)), (0x80, 0x00));
    assert!(!chip.alert());
    assert_eq!(chip.fans[3].registers[SETTING], 0xFF);
}

// Slips: "The watchdog reset by any traffic in the power-up watch." Setting 00h and the loop end it, WD_EN 0 doesn't.
#[test]
fn power_up_watch_and_traffic() {
    let mut chip = powered();
    ticks(&mut chip, 300);
    send(&mut chip, &[0x31, 0x05]);
    send(&mut chip, &[0x32, 0x2B]);
    send(&mut chip, &[0x20, 0x40]);
    clock_in(&mut chip, 3);
    assert_eq!(chip.watch, Watch::PowerUp { count: 300 });
    for bytes in [[0x70, 0x00], [0x62, 0x80]] {
        let mut ended = chip.clone();
        send(&mut ended, &bytes);
        assert_eq!(ended.watch, Watch::Off);
    }
}

// Watchdog: continuous watch is fed by each transfer taken and counts again after firing; fans don't move in that tick.
#[test]
fn continuous_watch() {
    let mut chip = powered();
    ticks(&mut chip, 100);
    send(&mut chip, &[0x20, 0x60]);
    assert_eq!(chip.watch, Watch::Continuous { count: 0 });
    ticks(&mut chip, 319);
    send(&mut chip, &[]);
    assert_eq!(chip.watch, Watch::Continuous { count: 0 });
    ticks(&mut chip, 310);
    send(&mut chip, &[0x33, 0x68]);
    send(&mut chip, &[0x3D, 0x10]);
    send(&mut chip, &[0x32, 0xAB]);
    sample(&mut chip, 1, 8191);
    ticks(&mut chip, 320);
    let fan = chip.fans[0];
    assert_eq!((fan.drive, fan.clock, fan.spin_up), (255, 0, None));
    assert_eq!((fan.registers[CONFIGURATION_1], fan.registers[SETTING]), (0x2B, 0xFF));
    assert_eq!((chip.watch, chip.watch_status), (Watch::Continuous { count: 0 }, true));
    send(&mut chip, &[0x20, 0x40]);
    assert_eq!(chip.watch, Watch::Off);
}

/// What reading gives where it refuses.
fn fault(number: u8, place: usize) -> Result<Option<(Event, usize)>, Fault> {
    Err(Fault { number, place })
}

/// The record is refused with this number at this place; behind the sample log too, with the place further on, and
/// there the run stops and the listing has the number, both at the record's own place.
fn refused(record: &[u8], number: u8, place: usize) {
    assert_eq!(read(record, 0), fault(number, place), "{record:02X?}");
    let stop = SAMPLE_LOG.len();
    let log = [&SAMPLE_LOG, record].concat();
    assert_eq!(read(&log, stop), fault(number, stop + place), "{record:02X?}");
    let expected = Run {
        number,
        place: stop,
        records: 3,
        reply_bytes: 1,
    };
    assert_eq!(run(&log, &mut [0; 9]), expected, "{record:02X?}");
    let mut lines = Vec::new();
    list(&log, &mut lines);
    let expected = format!("0 0\n5 0\n12 0 FF\n18 {number}\nstop 18\n");
    assert_eq!(String::from_utf8(lines).unwrap(), expected, "{record:02X?}");
}

// Examples: "`9C` gives 1; `9D` gives 2; `9C 46 02 09` gives 4; `9C 46 05 14 58` gives 1", and the reading order. CR 3,
// as read: the place "of 2 the first wrong mark byte, of 3 the kind byte, of 4 the length byte, of 1 where the first
// missing byte would stand".
#[test]
fn reader_refusals() {
    let cases: [(&[u8], u8, usize); 20] = [
        (&[0x9C], 1, 1),
        (&[0x9D], 2, 0),
        (&[0x9C, 0x46, 0x02, 0x09], 4, 3),
        (&[0x9C, 0x46, 0x05, 0x14, 0x58], 1, 5),
        (&[0x9C, 0x47], 2, 1),
        (&[0x9D, 0x47], 2, 0),
        (&[0x9D, 0x46, 0x09, 0x09], 2, 0),
        (&[0x9C, 0x9C, 0x01, 0x01, 0x80], 2, 1),
        (&[0x9C, 0x46, 0x09], 1, 3),
        (&[0x9C, 0x46, 0x00, 0x01, 0x00], 3, 2),
        (&[0x9C, 0x46, 0x07, 0x63], 3, 2),
        (&[0x9C, 0x46, 0x01, 0x00], 4, 3),
        (&[0x9C, 0x46, 0x05, 0x00], 4, 3),
        (&[0x9C, 0x46, 0x05, 0x22], 4, 3),
        (&[0x9C, 0x46, 0x02, 0x03, 0x00, 0x00, 0x00], 4, 3),
        (&[0x9C, 0x46, 0x03, 0x04, 0x00, 0x00, 0x20, 0x00], 4, 3),
        (&[0x9C, 0x46, 0x04, 0x01, 0x06], 4, 3),
        (&[0x9C, 0x46, 0x01, 0x01], 1, 4),
        (&[0x9C, 0x46, 0x03, 0x03, 0x00, 0x00], 1, 6),
        (&[0x9C, 0x46, 0x05, 0x03, 0x59, 0x00], 1, 6),
    ];
    for (record, number, place) in cases {
        refused(record, number, place);
    }
    assert_eq!(read(&[], 0), Ok(None));
    assert_eq!(read(&SAMPLE_LOG, 18), Ok(None));
    assert_eq!(read(&SAMPLE_LOG, 17), fault(2, 17));
    assert_eq!(read(&SAMPLE_LOG, 19), fault(1, 19));
    assert_eq!(read(&SAMPLE_LOG, usize::MAX), fault(1, usize::MAX));
    assert_eq!(read(&[], 1), fault(1, 1));
}

// CR 3: "5 stays for the fan, 9 is the tach count, 10 the bus address, 11 the read length or the clocked number"; the
// place of a count is "its low byte, for a read transfer with n other than 2 the length byte".
#[test]
fn one_field_out_of_range() {
    let cases: [(&[u8], u8, usize); 19] = [
        (&[0x9C, 0x46, 0x01, 0x01, 0x80], 10, 4),
        (&[0x9C, 0x46, 0x01, 0x01, 0xFF], 10, 4),
        (&[0x9C, 0x46, 0x03, 0x03, 0x00, 0x00, 0x00], 5, 4),
        (&[0x9C, 0x46, 0x03, 0x03, 0x06, 0xFF, 0x1F], 5, 4),
        (&[0x9C, 0x46, 0x03, 0x03, 0xFF, 0x00, 0x00], 5, 4),
        (&[0x9C, 0x46, 0x03, 0x03, 0x05, 0x00, 0x20], 9, 5),
        (&[0x9C, 0x46, 0x03, 0x03, 0x01, 0x01, 0x20], 9, 5),
        (&[0x9C, 0x46, 0x03, 0x03, 0x01, 0x00, 0x80], 9, 5),
        (&[0x9C, 0x46, 0x03, 0x03, 0x01, 0xFF, 0xFF], 9, 5),
        (&[0x9C, 0x46, 0x04, 0x02, 0x00, 0xFF], 5, 4),
        (&[0x9C, 0x46, 0x04, 0x02, 0x06, 0x00], 5, 4),
        (&[0x9C, 0x46, 0x04, 0x02, 0xFF, 0x00], 5, 4),
        (&[0x9C, 0x46, 0x05, 0x01, 0x59], 11, 3),
        (&[0x9C, 0x46, 0x05, 0x01, 0xFF], 11, 3),
        (&[0x9C, 0x46, 0x05, 0x03, 0x59, 0x01, 0x01], 11, 3),
        (&[0x9C, 0x46, 0x05, 0x03, 0x59, 0x20, 0x00], 11, 3),
        (&[0x9C, 0x46, 0x05, 0x02, 0x59, 0x00], 11, 5),
        (&[0x9C, 0x46, 0x05, 0x02, 0x59, 0x21], 11, 5),
        (&[0x9C, 0x46, 0x05, 0x02, 0xFF, 0xFF], 11, 5),
    ];
    for (record, number, place) in cases {
        refused(record, number, place);
    }
    let whole = [&[0x9C, 0x46, 0x05, 0x21, 0x59][..], &[1; 32]].concat();
    refused(&whole, 11, 3);
    refused(&whole[..36], 1, 36);
}

// The log's table: the fields at the ends of their ranges are taken.
#[test]
fn fields_at_the_ends_of_their_ranges() {
    for record in [
        &[0x9C, 0x46, 0x01, 0x01, 0x00][..],
        &[0x9C, 0x46, 0x01, 0x01, 0x7F],
        &[0x9C, 0x46, 0x03, 0x03, 0x01, 0x00, 0x00],
        &[0x9C, 0x46, 0x03, 0x03, 0x05, 0xFF, 0x1F],
        &[0x9C, 0x46, 0x04, 0x02, 0x01, 0x00],
        &[0x9C, 0x46, 0x04, 0x02, 0x05, 0xFF],
        &[0x9C, 0x46, 0x05, 0x02, 0x01, 0x01],
        &[0x9C, 0x46, 0x05, 0x02, 0xFF, 0x20],
        &[0x9C, 0x46, 0x05, 0x01, 0xFE],
        &[0x9C, 0x46, 0x05, 0x02, 0x58, 0x00],
        &[0x9C, 0x46, 0x05, 0x03, 0x58, 0x21, 0xFF],
    ] {
        let next = record.len();
        assert!(
            matches!(read(record, 0), Ok(Some((_, end))) if end == next),
            "{record:02X?}"
        );
    }
}

// CR 3: "where two fields are bad the earlier byte wins"; as read: "A read with n other than 2 is 11 at the length
// byte, whatever its clocked number."
#[test]
fn two_fields_out_of_range() {
    for fan in [0x00, 0x06, 0xFF] {
        for [low, high] in [[0x00, 0x20], [0xFF, 0xFF]] {
            refused(&[0x9C, 0x46, 0x03, 0x03, fan, low, high], 5, 4);
        }
    }
    for n in 3..=33 {
        for clocked in [0x00, 0x01, 0x20, 0x21, 0xFF] {
            let mut record = vec![0x9C, 0x46, 0x05, n, 0x59, clocked];
            record.resize(4 + usize::from(n), 0x00);
            refused(&record, 11, 3);
        }
    }
}

// The log's table: what is written is read back as the same event, and the rest of the buffer stays.
#[test]
fn writer_and_reader() {
    let log: Vec<u8> = (1..=40).collect();
    let cases: [(Event, &[u8]); 6] = [
        (Event::PowerOn { address: 127 }, &[0x9C, 0x46, 0x01, 0x01, 0x7F]),
        (Event::Ticks { count: 0x1234 }, &[0x9C, 0x46, 0x02, 0x02, 0x34, 0x12]),
        (
            Event::Sample { fan: 5, count: 8191 },
            &[0x9C, 0x46, 0x03, 0x03, 0x05, 0xFF, 0x1F],
        ),
        (
            Event::Wish { fan: 1, drive: 255 },
            &[0x9C, 0x46, 0x04, 0x02, 0x01, 0xFF],
        ),
        (
            Event::Transfer {
                address: 0x2C,
                read: false,
                place: 5,
                length: 2,
            },
            &[0x9C, 0x46, 0x05, 0x03, 0x58, 0x06, 0x07],
        ),
        (
            Event::Transfer {
                address: 0x2C,
                read: true,
                place: 31,
                length: 1,
            },
            &[0x9C, 0x46, 0x05, 0x02, 0x59, 0x20],
        ),
    ];
    for (event, record) in cases {
        let mut out = [0xEE; 10];
        assert_eq!(write(&event, &log, &mut out[..record.len() - 1]), Err(8));
        assert_eq!(out, [0xEE; 10]);
        assert_eq!(write(&event, &log, &mut out), Ok(record.len()));
        assert_eq!(&out[..record.len()], record);
        assert!(out[record.len()..].iter().all(|&byte| byte == 0xEE));
        let (again, next) = read(&out, 0).unwrap().unwrap();
        assert_eq!(next, record.len());
        let mut copy = [0xEE; 10];
        assert_eq!(write(&again, &out, &mut copy), Ok(record.len()));
        assert_eq!(copy, out);
    }
}

fn transfer(address: u8, read: bool, place: usize, length: usize) -> Event {
    Event::Transfer {
        address,
        read,
        place,
        length,
    }
}

/// The event is refused with this number: by the writer whatever the room, by a step before power-on and after it.
fn not_taken(event: &Event, log: &[u8], number: u8) {
    assert_eq!(check(event, log), Err(number), "{event:?}");
    for room in [0, 50] {
        let mut out = vec![0xEE; room];
        assert_eq!(write(event, log, &mut out), Err(number), "{event:?}");
        assert_eq!(out, vec![0xEE; room], "{event:?}");
        for before in [Chip::unpowered(), powered()] {
            let mut chip = before.clone();
            assert_eq!(chip.step(event, log, &mut out), Err(number), "{event:?}");
            assert_eq!((chip, &out), (before, &vec![0xEE; room]), "{event:?}");
        }
    }
}

// CR 3: "A step and the writer give the number without a place; a transfer event with over 32 bytes, or bytes not in
// the log, gets 11"; the numbers of the fields come before 6, 7 and 8.
#[test]
fn events_with_one_field_out_of_range() {
    let log = [&[0, 33, 32, 1, 255][..], &[0; 40]].concat();
    let bad = [
        (Event::PowerOn { address: 128 }, 10),
        (Event::PowerOn { address: 255 }, 10),
        (Event::Sample { fan: 0, count: 0 }, 5),
        (Event::Sample { fan: 6, count: 8191 }, 5),
        (Event::Sample { fan: 1, count: 8192 }, 9),
        (Event::Sample { fan: 5, count: 65535 }, 9),
        (Event::Wish { fan: 0, drive: 0 }, 5),
        (Event::Wish { fan: 6, drive: 255 }, 5),
        (transfer(128, false, 0, 0), 10),
        (transfer(255, true, 2, 1), 10),
        (transfer(1, false, 0, 33), 11),
        (transfer(1, false, 46, 0), 11),
        (transfer(1, false, 45, 1), 11),
        (transfer(1, false, 1, usize::MAX), 11),
        (transfer(1, false, usize::MAX, 1), 11),
        (transfer(1, true, 0, 1), 11),
        (transfer(1, true, 1, 1), 11),
        (transfer(1, true, 4, 1), 11),
        (transfer(1, true, 2, 0), 11),
        (transfer(1, true, 2, 2), 11),
        (transfer(1, true, 2, 33), 11),
        (transfer(1, true, 45, 1), 11),
    ];
    for (event, number) in bad {
        not_taken(&event, &log, number);
    }
    assert_eq!(write(&transfer(1, false, 45, 0), &log, &mut [0; 5]), Ok(5));
    let mut longest = [0; 37];
    assert_eq!(write(&transfer(1, false, 0, 32), &log, &mut longest), Ok(37));
    assert_eq!(read(&longest, 0), Ok(Some((transfer(1, false, 5, 32), 37))));
}

// CR 3, as read, of an event handed in: "over 32 bytes, a read with another number of bytes than one, or bytes not in
// the log give 11; then an address above 127 gives 10; then a clocked number outside 1..32 gives 11"; of a sample the
// fan's byte is the earlier one.
#[test]
fn events_with_two_fields_out_of_range() {
    let log = [&[0, 33, 32, 1, 255][..], &[0; 40]].concat();
    for (fan, count) in [(0, 8192), (6, 8192), (255, 65535)] {
        not_taken(&Event::Sample { fan, count }, &log, 5);
    }
    for address in [128, 255] {
        for (place, length) in [(0, 33), (46, 0), (45, 1), (14, 32), (usize::MAX, 2)] {
            not_taken(&transfer(address, false, place, length), &log, 11);
            not_taken(&transfer(address, true, place, length), &log, 11);
        }
        for length in [0, 2, 32, 33] {
            not_taken(&transfer(address, true, 2, length), &log, 11);
        }
        for place in [0, 1, 4] {
            not_taken(&transfer(address, true, place, 1), &log, 10);
        }
    }
}

// CR 3: "9, 10 and 11 stop a run as 5 does": nothing behind them is walked, and before power-on they come too.
#[test]
fn a_run_stops_at_a_field() {
    for (record, number) in [
        (&[0x9C, 0x46, 0x04, 0x02, 0x00, 0x00][..], 5),
        (&[0x9C, 0x46, 0x03, 0x03, 0x05, 0x00, 0x20], 9),
        (&[0x9C, 0x46, 0x01, 0x01, 0x80], 10),
        (&[0x9C, 0x46, 0x05, 0x01, 0x59], 11),
        (&[0x9C, 0x46, 0x05, 0x02, 0x5B, 0x00], 11),
    ] {
        for (before, records) in [(0, 0), (5, 1), (12, 2)] {
            let log = [&SAMPLE_LOG[..before], record, &SAMPLE_LOG].concat();
            let mut replies = [0xEE; 4];
            let expected = Run {
                number,
                place: before,
                records,
                reply_bytes: 0,
            };
            assert_eq!(run(&log, &mut replies), expected, "{record:02X?}");
            assert_eq!(replies, [0xEE; 4], "{record:02X?}");
        }
    }
}

// Numbers given back: 6, 7 and 8 of a step, each leaving state and buffer unchanged.
#[test]
fn step_refusals() {
    let read_two = Event::Transfer {
        address: ADDRESS,
        read: true,
        place: 0,
        length: 1,
    };
    let elsewhere = Event::Transfer {
        address: ADDRESS + 1,
        read: true,
        place: 0,
        length: 1,
    };
    let mut chip = Chip::unpowered();
    for event in [
        read_two,
        elsewhere,
        Event::Ticks { count: 0 },
        Event::Wish { fan: 1, drive: 1 },
    ] {
        assert_eq!(chip.step(&event, &[2], &mut []), Err(6));
        assert_eq!(chip, Chip::unpowered());
    }
    let mut chip = powered();
    ticks(&mut chip, 320);
    send(&mut chip, &[0x20, 0x60]);
    ticks(&mut chip, 5);
    chip.pointer = 0x24;
    let before = chip.clone();
    let mut room = [0xEE];
    assert_eq!(chip.step(&elsewhere, &[2], &mut room), Err(7));
    assert_eq!(chip.step(&read_two, &[2], &mut room), Err(8));
    assert_eq!((&chip, room), (&before, [0xEE]));
    assert_eq!(chip.step(&read_two, &[1], &mut room), Ok(1));
    assert_eq!(room, [0x80]);
    assert_ne!(chip, before);
}

// Examples: "locked, write 37h: unchanged; write 30h: stored."
#[test]
fn lock() {
    let mut chip = powered();
    send(&mut chip, &[0xEF, 0xFE]);
    send(&mut chip, &[0x37, 0x11]);
    assert_eq!((peek(&mut chip, 0xEF), peek(&mut chip, 0x37)), (0xFE, 0x11));
    send(&mut chip, &[0xEF, 0x01]);
    for register in [0x20, 0xEF].into_iter().chain(0x30..=0x7F) {
        let before = peek(&mut chip, register);
        send(&mut chip, &[register, !before]);
        let locked = match register {
            0x20 | 0xEF => true,
            0x30 | 0x40 | 0x50 | 0x60 | 0x70 => continue,
            _ => matches!(register % 16, 3..=0xB | 0xE | 0xF),
        };
        assert_eq!(
            peek(&mut chip, register),
            if locked { before } else { !before },
            "{register:02X}"
        );
    }
    let mut chip = powered();
    send(&mut chip, &[0xEF, 0x01]);
    send(&mut chip, &[0x37, 0x11]);
    send(&mut chip, &[0x30, 0x80]);
    assert_eq!((peek(&mut chip, 0x37), chip.fans[0].registers[SETTING]), (0x10, 0x80));
}

// Registers: every default of the fans and of the datasheet's register table; undefined registers read 00h.
#[test]
fn defaults() {
    const FAN: [u8; 16] = [
        0x00, 0x01, 0x2B, 0x28, 0x00, 0x2A, 0x19, 0x10, 0x66, 0xF5, 0x00, 0x00, 0xF8, 0xFF, 0xFF, 0xF8,
    ];
    let mut chip = powered();
    for register in 0x00..=0xFF {
        let expected = match register {
            0x20 => 0x40,
            0x30..=0x7F => FAN[usize::from(register % 16)],
            0xFD => 0x34,
            0xFE => 0x5D,
            0xFF => 0x80,
            _ => 0x00,
        };
        assert_eq!(peek(&mut chip, register), expected, "{register:02X}");
    }
}

// Registers: which of the others store a byte, whole.
#[test]
fn writable_registers() {
    for register in (0x00..=0x2F).chain(0x80..=0xFF) {
        let mut chip = powered();
        let before = peek(&mut chip, register);
        send(&mut chip, &[register, 0xB6]);
        let writable = matches!(register, 0x20 | 0x29..=0x2D | 0xEF);
        assert_eq!(
            peek(&mut chip, register),
            if writable { 0xB6 } else { before },
            "{register:02X}"
        );
    }
}

// Registers: the pointer stays with one data byte, goes up with two or more, FFh to 00h.
#[test]
fn pointer() {
    let mut chip = powered();
    send(&mut chip, &[0xFE]);
    assert_eq!(chip.pointer, 0xFE);
    assert_eq!(clock_in(&mut chip, 1), [0x5D]);
    assert_eq!(chip.pointer, 0xFE);
    assert_eq!(clock_in(&mut chip, 3), [0x5D, 0x80, 0x00]);
    assert_eq!(chip.pointer, 0x01);
    send(&mut chip, &[0x2A, 0x07]);
    assert_eq!(chip.pointer, 0x2A);
    send(&mut chip, &[0x2C, 0x08, 0x09, 0x0A]);
    assert_eq!((chip.pointer, chip.pwm), (0x2F, [0x07, 0x00, 0x08, 0x09]));
    send(&mut chip, &[]);
    assert_eq!(chip.pointer, 0x2F);
}

// Status: reading 24h, 25h and 26h in turn; MASK and 29h in the alert line.
#[test]
fn status_and_alert() {
    let mut chip = unwatched();
    chip.watch_status = true;
    chip.stall_status = 0x02;
    chip.spin_status = 0x10;
    send(&mut chip, &[0x24]);
    assert_eq!(clock_in(&mut chip, 4), [0x83, 0x02, 0x10, 0x00]);
    send(&mut chip, &[0x24]);
    assert_eq!(clock_in(&mut chip, 4), [0x00; 4]);
    chip.stall_status = 0x02;
    chip.spin_status = 0x10;
    for (enable, alert) in [(0x00, false), (0xED, false), (0x02, true), (0x10, true)] {
        send(&mut chip, &[0x29, enable]);
        assert_eq!(chip.alert(), alert, "{enable:02X}");
    }
    send(&mut chip, &[0x20, 0xC0]);
    assert!(!chip.alert());
    chip.watch_status = true;
    assert!(!chip.alert());
    send(&mut chip, &[0x29, 0x00]);
    send(&mut chip, &[0x20, 0x40]);
    assert!(chip.alert());
}

// CR 1: "A driver author read 25h twice with the rotor held"; fan 4 shows that each fan is tested by itself.
#[test]
fn status_of_a_held_rotor() {
    let mut chip = unwatched();
    for fan in [1, 3] {
        chip.fans[fan].registers[SETTING] = 128;
        chip.fans[fan].drive = 128;
        sample(&mut chip, fan as u8 + 1, 8191);
    }
    sample(&mut chip, 4, 0);
    let shown: Vec<u8> = (0..3).map(|_| peek(&mut chip, 0x25)).collect();
    assert_eq!(shown, [0x0A, 0x02, 0x02]);
    assert_eq!(peek(&mut chip, 0x24), 0x01);
    sample(&mut chip, 2, 7871);
    assert_eq!((peek(&mut chip, 0x24), peek(&mut chip, 0x25)), (0x01, 0x02));
    assert_eq!((peek(&mut chip, 0x24), peek(&mut chip, 0x25)), (0x00, 0x00));
}

// CR 1: "unless its latest reading's high byte is above Valid Count while its drive is above 0. Register 26h follows the
// same test": the reading's edge, drives 0 and 1, in a spin-up, in any watch; each register leaves the other's bits.
#[test]
fn status_kept_and_cleared() {
    for (reading, valid, drive, kept) in [
        (0xF6, 0xF5, 1, true),
        (0xF5, 0xF5, 255, false),
        (0xFF, 0x00, 0, false),
        (0x01, 0x00, 255, true),
        (0xFF, 0xFF, 255, false),
    ] {
        for watch in [Watch::Off, Watch::PowerUp { count: 0 }, Watch::Continuous { count: 0 }] {
            for (register, other) in [(0x25, 0x26), (0x26, 0x25)] {
                let mut chip = powered();
                chip.watch = watch;
                chip.fans[4].registers[READING_HIGH] = reading;
                chip.fans[4].registers[VALID_COUNT] = valid;
                chip.fans[4].drive = drive;
                (chip.stall_status, chip.spin_status) = (0x10, 0x10);
                let after = if kept { 0x10 } else { 0x00 };
                assert_eq!((peek(&mut chip, register), peek(&mut chip, register)), (0x10, after));
                assert_eq!(peek(&mut chip, other), 0x10);
            }
        }
    }
    let mut chip = powered();
    send(&mut chip, &[0x30, 0x80]);
    chip.spin_status = 0x01;
    assert!(chip.fans[0].spin_up.is_some());
    assert_eq!((peek(&mut chip, 0x26), peek(&mut chip, 0x26)), (0x01, 0x01));
}

// CR 1, as read: a fan that ramps down to goal 0 keeps its bit until the drive is 0.
#[test]
fn status_while_ramping_to_0() {
    let mut chip = ramping(20, 0, 16);
    chip.stall_status = 0x01;
    for (drive, shown) in [(4, 0x01), (0, 0x01), (0, 0x00)] {
        ticks(&mut chip, 8);
        assert_eq!((chip.fans[0].drive, peek(&mut chip, 0x25)), (drive, shown));
    }
}

// CR 1: in a block each byte is shown, and then its own test decides what stays.
#[test]
fn status_in_a_block() {
    let mut chip = unwatched();
    chip.watch_status = true;
    chip.fans[1].drive = 9;
    (chip.stall_status, chip.spin_status) = (0x06, 0x0A);
    for shown in [[0x83, 0x06, 0x0A, 0x00], [0x03, 0x02, 0x02, 0x00]] {
        send(&mut chip, &[0x24]);
        assert_eq!(clock_in(&mut chip, 4), shown);
    }
}

// Drive: closed loop, its goal, wish, driver off, and a Setting write that stores nothing.
#[test]
fn closed_loop() {
    let mut chip = ramping(100, 100, 16);
    wish(&mut chip, 1, 7);
    assert_eq!(chip.fans[0].wish, 0);
    chip.fans[0].clock = 3;
    send(&mut chip, &[0x3D, 0x40]);
    assert_eq!(chip.fans[0].clock, 3);
    send(&mut chip, &[0x32, 0xA8]);
    assert_eq!(
        (chip.fans[0].wish, chip.fans[0].drive, chip.fans[0].clock),
        (100, 100, 0)
    );
    send(&mut chip, &[0x30, 0x05]);
    assert_eq!(chip.fans[0].registers[SETTING], 100);
    ticks(&mut chip, 8);
    assert_eq!(chip.fans[0].drive, 0x66);
    wish(&mut chip, 1, 200);
    send(&mut chip, &[0x32, 0xA8]);
    ticks(&mut chip, 12);
    let fan = chip.fans[0];
    assert_eq!(
        (fan.wish, fan.drive, fan.clock, fan.registers[MINIMUM_DRIVE]),
        (200, 118, 4, 0x66)
    );
    send(&mut chip, &[0x3D, 0xFF]);
    assert_eq!((chip.fans[0].drive, chip.fans[0].clock), (0, 0));
    ticks(&mut chip, 20);
    assert_eq!((chip.fans[0].drive, chip.fans[0].clock), (0, 0));
    send(&mut chip, &[0x3D, 0x40]);
    assert_eq!(chip.fans[0].drive, 255);
    assert!(chip.fans[0].spin_up.is_some());
}

// Spin-up: (b) a stall in closed loop; a failed one starts again with the register's new values, a healthy one ends.
#[test]
fn spin_up_in_closed_loop() {
    let mut chip = ramping(100, 100, 16);
    chip.fans[0].registers[TARGET_HIGH] = 0x40;
    chip.fans[0].registers[CONFIGURATION_1] = 0xA8;
    chip.fans[0].wish = 120;
    sample(&mut chip, 1, 7872);
    assert_eq!((chip.stall_status, chip.fans[0].drive), (0x01, 255));
    chip.fans[0].registers[SPIN_UP] = 0x20;
    ticks(&mut chip, 39);
    assert_eq!((chip.spin_status, chip.fans[0].drive), (0x00, 153));
    ticks(&mut chip, 1);
    assert_eq!((chip.spin_status, chip.fans[0].drive), (0x01, 76));
    sample(&mut chip, 1, 7871);
    ticks(&mut chip, 19);
    assert!(chip.fans[0].spin_up.is_some());
    ticks(&mut chip, 1);
    assert_eq!(
        (chip.fans[0].spin_up, chip.fans[0].drive, chip.fans[0].clock),
        (None, 76, 0)
    );
    ticks(&mut chip, 8);
    assert_eq!(chip.fans[0].drive, 92);
}

// Registers: "data bytes act in turn": a block that turns the loop on or locks in the middle.
#[test]
fn blocks_act_byte_by_byte() {
    let mut chip = powered();
    send(&mut chip, &[0x30, 0x80, 0x02, 0xAB, 0x68, 0xFF, 0x2B]);
    assert_eq!(chip.fans[0].registers[..6], [0x80, 0x02, 0xAB, 0x68, 0x00, 0x2B]);
    assert_eq!(
        (chip.fans[0].drive, chip.fans[0].spin_up, chip.fans[0].wish),
        (0, None, 255)
    );
    let mut chip = powered();
    send(&mut chip, &[0xEE, 0x55, 0x01, 0x00]);
    assert_eq!((peek(&mut chip, 0xEE), chip.lock), (0x00, 0x01));
}

// States no run reaches: "a clock at or past its end does at its next counted tick what it does on reaching that end."
#[test]
fn clocks_past_their_end() {
    let mut chip = ramping(153, 128, 16);
    chip.fans[0].clock = u16::MAX;
    ticks(&mut chip, 1);
    assert_eq!((chip.fans[0].drive, chip.fans[0].clock), (137, 0));
    chip.watch = Watch::Continuous { count: u16::MAX };
    ticks(&mut chip, 1);
    assert_eq!((chip.fans[0].drive, chip.watch), (255, Watch::Continuous { count: 0 }));
    let mut chip = powered();
    send(&mut chip, &[0x30, 0x80]);
    chip.fans[0].spin_up.as_mut().unwrap().elapsed = u16::MAX;
    ticks(&mut chip, 1);
    assert_eq!((chip.fans[0].drive, chip.fans[0].spin_up), (128, None));
}

// The program: the sample log's lines, the empty log, 6 and 7 walked past, and a stop.
#[test]
fn program_lines() {
    let mut refused = vec![0x9C, 0x46, 0x02, 0x02, 0x01, 0x00];
    refused.extend(SAMPLE_LOG);
    refused.extend([0x9C, 0x46, 0x05, 0x02, 0x5B, 0x01, 0x9C, 0x46]);
    let cases: [(&[u8], &str); 4] = [
        (&SAMPLE_LOG, "0 0\n5 0\n12 0 FF\nend 18\n"),
        (&[], "end 0\n"),
        (&[0x9D], "0 2\nstop 0\n"),
        (&refused, "0 6\n6 0\n11 0\n18 0 FF\n24 7\n30 1\nstop 30\n"),
    ];
    for (log, expected) in cases {
        let mut out = b"kept ".to_vec();
        list(log, &mut out);
        assert_eq!(String::from_utf8(out).unwrap(), format!("kept {expected}"));
    }
}

// The run: replies one after the other, the stopping record not counted, 6 and 7 walked past.
#[test]
fn runs() {
    let mut log = SAMPLE_LOG.to_vec();
    log.extend([0x9C, 0x46, 0x05, 0x02, 0x59, 0x02]);
    log.extend([0x9C, 0x46, 0x05, 0x02, 0x5B, 0x02]);
    let mut replies = [0xEE; 4];
    assert_eq!(
        run(&log, &mut replies),
        Run {
            number: 0,
            place: 30,
            records: 5,
            reply_bytes: 3
        }
    );
    assert_eq!(replies, [0xFF, 0xFF, 0x01, 0xEE]);
    let mut replies = [0xEE; 3];
    assert_eq!(
        run(&log, &mut replies),
        Run {
            number: 0,
            place: 30,
            records: 5,
            reply_bytes: 3
        }
    );
    let mut replies = [0xEE; 2];
    assert_eq!(
        run(&log, &mut replies),
        Run {
            number: 8,
            place: 18,
            records: 3,
            reply_bytes: 1
        }
    );
    assert_eq!(replies, [0xFF, 0xEE]);
    assert_eq!(
        run(&log[5..], &mut []),
        Run {
            number: 0,
            place: 25,
            records: 4,
            reply_bytes: 0
        }
    );
    assert_eq!(
        run(&log[..20], &mut [0; 9]),
        Run {
            number: 1,
            place: 18,
            records: 3,
            reply_bytes: 1
        }
    );
}

// "Each is given exactly when stated": damaged logs never fault, and run and program tell the same story.
#[test]
fn damaged_logs() {
    let mut seed = 1u32;
    let mut next = move || {
        seed = seed.wrapping_mul(1_664_525).wrapping_add(1_013_904_223);
        (seed >> 16) as usize
    };
    for _ in 0..2000 {
        let mut log = SAMPLE_LOG.repeat(3);
        let (place, length) = (next() % log.len(), next() % log.len());
        log[place] = next() as u8;
        log.truncate(length);
        let outcome = run(&log, &mut [0; 200]);
        let mut out = Vec::new();
        list(&log, &mut out);
        let text = String::from_utf8(out).unwrap();
        let word = if outcome.number == 0 { "end" } else { "stop" };
        assert!(text.ends_with(&format!("{word} {}\n", outcome.place)), "{log:02X?}");
        let extra = if outcome.number == 0 { 1 } else { 2 };
        assert_eq!(text.lines().count(), outcome.records + extra, "{log:02X?}");
    }
}

// Step: "A stored write to Configuration 1 or 2 sets it to 0; so does the end of a spin-up, and driver off."
#[test]
fn update_clock_set_to_0() {
    for (register, byte, expected) in [(0x32, 0x28, 0), (0x33, 0x68, 0), (0x31, 0x01, 5), (0x30, 0x81, 5)] {
        let mut chip = ramping(153, 128, 16);
        ticks(&mut chip, 5);
        send(&mut chip, &[register, byte]);
        assert_eq!(chip.fans[0].clock, expected, "{register:02X}");
    }
    let mut stalled = ramping(153, 128, 16);
    stalled.fans[0].registers[TARGET_HIGH] = 0x40;
    stalled.fans[0].registers[CONFIGURATION_1] = 0xA8;
    ticks(&mut stalled, 5);
    sample(&mut stalled, 1, 7872);
    assert_eq!((stalled.fans[0].clock, stalled.fans[0].drive), (5, 255));
    let mut healthy = stalled.clone();
    sample(&mut healthy, 1, 0);
    ticks(&mut healthy, 40);
    assert_eq!((healthy.fans[0].clock, healthy.fans[0].spin_up), (0, None));
    send(&mut stalled, &[0x38, 0x00]);
    assert_eq!((stalled.fans[0].clock, stalled.fans[0].spin_up), (0, None));
    let mut watched = ramping(153, 128, 16);
    watched.watch = Watch::Continuous { count: 318 };
    ticks(&mut watched, 1);
    assert_eq!((watched.fans[0].clock, watched.fans[0].drive), (1, 153));
    ticks(&mut watched, 1);
    assert_eq!((watched.fans[0].clock, watched.fans[0].drive), (0, 255));
}

// Registers: "Power-on sets every default, unlocked", also while powered.
#[test]
fn power_on_again() {
    let mut chip = powered();
    ticks(&mut chip, 320);
    send(&mut chip, &[0x37, 0x01]);
    send(&mut chip, &[0x32, 0xAB]);
    sample(&mut chip, 1, 8000);
    send(&mut chip, &[0xEF, 0x01]);
    assert_eq!(chip.step(&Event::PowerOn { address: 0x10 }, &[], &mut []), Ok(0));
    let mut expected = powered();
    expected.address = Some(0x10);
    assert_eq!(chip, expected);
}
