//! CR 2's rules, with figures worked out by hand. 60 x 32768 is 1966080.

use model::replay::run;
use model::speeds::{list, poles, rpm, rpm_by_high_byte, speeds, Speeds, MOST_SAMPLES};

const ADDRESS: u8 = 0x2C;
/// The lengths of the records below.
const POWER_ON: usize = 5;
const SAMPLE: usize = 7;
const CONFIGURE: usize = 7;

fn record(kind: u8, payload: &[u8]) -> Vec<u8> {
    [&[0x9C, 0x46, kind, payload.len() as u8], payload].concat()
}

fn power_on() -> Vec<u8> {
    record(1, &[ADDRESS])
}

fn sample(fan: u8, count: u16) -> Vec<u8> {
    let [low, high] = count.to_le_bytes();
    record(3, &[fan, low, high])
}

/// A write transfer to the chip.
fn send(bytes: &[u8]) -> Vec<u8> {
    record(5, &[&[ADDRESS * 2], bytes].concat())
}

/// One byte to Configuration 1 of a fan.
fn configure(fan: u8, byte: u8) -> Vec<u8> {
    send(&[0x32 + 0x10 * (fan - 1), byte])
}

/// A chip just powered on that took so many samples of fan 1, none of count 0.
fn full(samples: usize) -> Vec<u8> {
    [power_on(), sample(1, 8191).repeat(samples)].concat()
}

/// The default fan at two poles makes 7864320 / 8191 of count 8191, which is 960 with 960 left over.
fn figures_of_full(samples: u64) -> [u64; 5] {
    [samples, 960, 960, 960 * samples, 0]
}

/// The figures of some fans; the others have 0 for all.
fn fans(some: &[(usize, [u64; 5])]) -> [u64; 25] {
    let mut figures = [0; 25];
    for &(fan, of_fan) in some {
        figures[5 * (fan - 1)..5 * fan].copy_from_slice(&of_fan);
    }
    figures
}

/// What a report that comes to the log's end gives.
fn ended(log: &[u8], records: usize, figures: [u64; 25]) -> Speeds {
    Speeds {
        number: 0,
        place: log.len(),
        records,
        figures,
    }
}

// ---- one sample ----

// CR 2: "m = 1, 2, 4, 8 by bits 5..6 of Configuration 1 and edges 3, 5, 7, 9 by bits 3..4". A count of 1 at one pole makes
// 1966080 x (edges - 1) x m: for m 1 that is 1966080 x 2, 4, 6 and 8. The other bits of the register have no part in it.
#[test]
fn each_m_and_edges() {
    let by_m = [
        [3_932_160, 7_864_320, 11_796_480, 15_728_640],
        [7_864_320, 15_728_640, 23_592_960, 31_457_280],
        [15_728_640, 31_457_280, 47_185_920, 62_914_560],
        [31_457_280, 62_914_560, 94_371_840, 125_829_120],
    ];
    for (m, by_edges) in (0..).zip(by_m) {
        for (edges, expected) in (0..).zip(by_edges) {
            for others in [0x00, 0x80, 0x07, 0x87, 0x05] {
                let byte = m << 5 | edges << 3 | others;
                assert_eq!(rpm(1, byte, 1), expected, "{byte:02X}");
            }
        }
    }
}

// The default Configuration 1, 2Bh, has m 2 and five edges: 15728640 / (poles x count), so 15728640 / 1000 at one pole and
// count 1000; of two, three and four poles 7864.32, 5242.88 and 3932.16.
#[test]
fn each_number_of_poles() {
    for (poles, expected) in [(1, 15_728), (2, 7_864), (3, 5_242), (4, 3_932)] {
        assert_eq!(rpm(poles, 0x2B, 1000), expected, "{poles} poles");
    }
}

// CR 2: "rounded down"; as read, "one division, rounded down once".
#[test]
fn rounded_down_once() {
    // 7864320 / 2621 is 3000 with 1320 left over, / 2622 is 2999 with 942, / 7 is 1123474 with 2; / 8192 would be 960.
    for (count, expected) in [
        (1, 7_864_320),
        (7, 1_123_474),
        (2621, 3000),
        (2622, 2999),
        (8191, 960),
        (4096, 1920),
    ] {
        assert_eq!(rpm(2, 0x2B, count), expected, "count {count}");
    }
    // m 8, three edges: 1966080 x 2 x 8 / 7 is 4493897 with 1 left over, and 3932160 / 7 is 561737, of which 8 make 1 less.
    assert_eq!(rpm(1, 0x60, 7), 4_493_897);
    // m 1, nine edges, three poles: 15728640 / (3 x 8191) is 640 with 1920 left over.
    assert_eq!(rpm(3, 0x18, 8191), 640);
    // The smallest speed of a sample: 3932160 / (4 x 8191) is 120 with 480 left over.
    assert_eq!(rpm(4, 0x00, 8191), 120);
    // A count past the largest sample goes by the formula too: 3932160 / (4 x 65535) is 15 with 60 left over.
    assert_eq!(rpm(4, 0x00, 65_535), 15);
}

#[test]
fn no_speed() {
    for poles in [0, 5, 1 << 32 | 1, u64::MAX] {
        assert_eq!(rpm(poles, 0x2B, 1), 0, "{poles} poles");
    }
    for poles in 1..=4 {
        assert_eq!(rpm(poles, 0x2B, 0), 0, "{poles} poles");
    }
}

// CR 2: "For the plain two-pole, five-edge, m = 2 case [...] 7864320 / (32 x byte) rounded down", so 245760 / byte; as
// read, "byte 0 answers 0."
#[test]
fn by_high_byte() {
    for (byte, expected) in [
        (0, 0),
        (1, 245_760),
        (2, 122_880),
        (7, 35_108),
        (82, 2_997),
        (128, 1_920),
        (254, 967),
        (255, 963),
    ] {
        assert_eq!(rpm_by_high_byte(byte), expected, "{byte}");
    }
    for byte in 1..=255 {
        assert_eq!(rpm_by_high_byte(byte), rpm(2, 0x2B, 32 * u16::from(byte)), "{byte}");
    }
}

// ---- a report ----

// CR 2: "for each fan, the number of samples, lowest, highest and total of whole RPM"; "Samples with count 0 are left out
// and counted apart". The figures are those of `rounded_down_once`.
#[test]
fn report_of_a_few_samples() {
    let log = [
        power_on(),
        sample(1, 2622),
        sample(5, 1),
        sample(1, 0),
        sample(1, 2621),
        sample(1, 2622),
    ]
    .concat();
    let figures = fans(&[
        (1, [3, 2999, 3000, 8998, 1]),
        (5, [1, 7_864_320, 7_864_320, 7_864_320, 0]),
    ]);
    assert_eq!(speeds(&log, 2), ended(&log, 6, figures));
    let text = "1 3 2999 3000 8998 1\n2 0 0 0 0 0\n3 0 0 0 0 0\n4 0 0 0 0 0\n5 1 7864320 7864320 7864320 0\nend 40\n";
    assert_eq!(list(&log, 2), text);
}

// CR 2: "A fan with no samples shows 0 for all"; as read, "A fan with zero counts alone shows 0 but for that figure."
#[test]
fn no_samples_and_zero_counts_alone() {
    assert_eq!(speeds(&[], 1), ended(&[], 0, [0; 25]));
    let log = [power_on(), sample(4, 0).repeat(3)].concat();
    assert_eq!(speeds(&log, 4), ended(&log, 4, fans(&[(4, [0, 0, 0, 0, 3])])));
}

// CR 2: Configuration 1 "at the time of the sample". At one pole a count of 1000 makes 1966.08 x (edges - 1) x m: 15728 at
// power-on, 3932 with m 1 and three edges, 125829 with m 8 and nine, 7864 with m 1 and five, 62914 with m 8 and five.
#[test]
fn configuration_changed_between_samples() {
    let turn = || sample(3, 1000);
    let log = [
        power_on(),
        turn(),
        configure(3, 0x00),
        turn(),
        configure(3, 0x78),
        turn(),
        // another fan's, another register, another address
        configure(2, 0x00),
        configure(4, 0x00),
        send(&[0x53, 0x00]),
        record(5, &[ADDRESS * 2 + 2, 0x52, 0x00]),
        turn(),
        // as the last byte of a block
        send(&[0x50, 0x00, 0x01, 0x08]),
        turn(),
        power_on(),
        turn(),
        // open though the chip is locked
        send(&[0xEF, 0x01]),
        configure(3, 0xE8),
        turn(),
        configure(3, 0x00),
    ]
    .concat();
    let total = 15_728 + 3_932 + 125_829 + 125_829 + 7_864 + 15_728 + 62_914;
    let figures = fans(&[(3, [7, 3_932, 125_829, total, 0])]);
    assert_eq!(speeds(&log, 1), ended(&log, 19, figures));
}

// The watch takes the loop off, bit 7, and leaves the bits that a speed goes by: m 4, seven edges, so 1966080 x 6 x 4 /
// (2 x 3000), which is 7864.32.
#[test]
fn configuration_after_the_watch() {
    let ticks = record(2, &640u16.to_le_bytes());
    let log = [
        power_on(),
        send(&[0x20, 0x60]),
        configure(1, 0xD3),
        ticks,
        sample(1, 3000),
    ]
    .concat();
    assert_eq!(
        speeds(&log, 2),
        ended(&log, 5, fans(&[(1, [1, 7_864, 7_864, 7_864, 0])]))
    );
}

// CR 2: "refused samples count nowhere", and their records are walked.
#[test]
fn samples_before_power_on() {
    let log = [sample(1, 1), sample(2, 0), power_on(), sample(2, 8191)].concat();
    assert_eq!(speeds(&log, 2), ended(&log, 4, fans(&[(2, figures_of_full(1))])));
}

// As read: "Figures belong to fan 1..5 of the whole log: a power-on, another part or another address sets none to 0."
#[test]
fn power_on_again() {
    let log = [full(2), record(1, &[0x10]), sample(1, 0), sample(1, 8191), power_on()].concat();
    let figures = fans(&[(1, [3, 960, 960, 2_880, 1])]);
    assert_eq!(speeds(&log, 2), ended(&log, 7, figures));
}

// CR 2: "no replies are laid, so never 8".
#[test]
fn replies_have_room() {
    let log = [full(1), record(5, &[ADDRESS * 2 + 1, 32]).repeat(100)].concat();
    assert_eq!(speeds(&log, 2), ended(&log, 102, fans(&[(1, figures_of_full(1))])));
}

// CR 2: "what stops a run end[s] the report with the figures so far"; number, place and records are the run's.
#[test]
fn damaged_records() {
    let before = full(1);
    for (damage, number) in [
        (&[0x9C, 0x46, 0x03, 0x03, 0x01, 0x01][..], 1),
        (&[0x9D, 0x46, 0x03, 0x03, 0x01, 0x01, 0x00], 2),
        (&[0x9C, 0x46, 0x07, 0x03, 0x01, 0x01, 0x00], 3),
        (&[0x9C, 0x46, 0x03, 0x02, 0x01, 0x01], 4),
        (&[0x9C, 0x46, 0x03, 0x03, 0x06, 0x01, 0x00], 5),
        (&[0x9C, 0x46, 0x03, 0x03, 0x01, 0x00, 0x20], 9),
        (&[0x9C, 0x46, 0x01, 0x01, 0x80], 10),
        (&[0x9C, 0x46, 0x05, 0x02, 0x59, 0x00], 11),
        (&[0x9C, 0x46, 0x06, 0x02, 0x2C, 0x05], 15),
    ] {
        let after = if number == 1 { vec![] } else { sample(1, 1) };
        let log = [&before, damage, &after].concat();
        let expected = Speeds {
            number,
            place: POWER_ON + SAMPLE,
            records: 2,
            figures: fans(&[(1, figures_of_full(1))]),
        };
        assert_eq!(speeds(&log, 2), expected, "{damage:02X?}");
        let run = run(&log, &mut []);
        assert_eq!(
            (run.number, run.place, run.records),
            (expected.number, expected.place, expected.records)
        );
        let text = format!("1 1 960 960 960 0\n2 0 0 0 0 0\n3 0 0 0 0 0\n4 0 0 0 0 0\n5 0 0 0 0 0\nstop 12 {number}\n");
        assert_eq!(list(&log, 2), text);
    }
}

// ---- 13 and 14 ----

// CR 2: "13 for poles outside 1 to 4, before the log is read"; as read, "After 13 all are 0, the place too."
#[test]
fn wrong_poles() {
    let expected = Speeds {
        number: 13,
        place: 0,
        records: 0,
        figures: [0; 25],
    };
    for poles in [0, 5, 8, 255, 1 << 32 | 1, u64::MAX] {
        for log in [vec![], vec![0x9D], full(2)] {
            assert_eq!(speeds(&log, poles), expected, "{poles} poles");
        }
    }
    let text = "1 0 0 0 0 0\n2 0 0 0 0 0\n3 0 0 0 0 0\n4 0 0 0 0 0\n5 0 0 0 0 0\nstop 0 13\n";
    assert_eq!(list(&full(2), 0), text);
}

// As read: "exactly one of the texts 1, 2, 3, 4; anything else [...]: 13".
#[test]
fn poles_of_an_argument() {
    for (argument, expected) in [("1", 1), ("2", 2), ("3", 3), ("4", 4)] {
        assert_eq!(poles(argument.as_bytes()), expected);
    }
    for argument in [
        "", "0", "5", "9", "10", "11", "01", "+1", "-1", " 1", "1 ", "1\n", "1.0", "0x1", "one",
    ] {
        assert_eq!(poles(argument.as_bytes()), 0, "{argument:?}");
    }
    assert_eq!(poles(&[b'1', 0xFF]), 0);
}

// CR 2: "The report takes at most 65,535 samples a fan"; "14 at the sample past that many, before any of it is added".
#[test]
fn as_many_as_there_may_be() {
    let log = full(MOST_SAMPLES);
    let figures = fans(&[(1, figures_of_full(65_535))]);
    assert_eq!(speeds(&log, 2), ended(&log, 65_536, figures));
    // 960 x 65535
    assert!(list(&log, 2).starts_with("1 65535 960 960 62913600 0\n"));
    let stopped = Speeds {
        number: 14,
        place: POWER_ON + SAMPLE * 65_535,
        records: 65_536,
        figures,
    };
    for count in [0, 1, 8191] {
        for after in [vec![], sample(1, 1), sample(2, 1), vec![0x9D]] {
            let log = [&log[..], &sample(1, count), &after].concat();
            assert_eq!(speeds(&log, 2), stopped, "count {count}");
            assert!(list(&log, 2).ends_with("\nstop 458750 14\n"));
        }
    }
}

// The largest total: m 8, nine edges, one pole and count 1 make 125829120, of which 65535 are 120 x 2^36 - 125829120.
#[test]
fn largest_total() {
    let log = [power_on(), configure(2, 0x78), sample(2, 1).repeat(MOST_SAMPLES)].concat();
    let figures = fans(&[(2, [65_535, 125_829_120, 125_829_120, 8_246_211_379_200, 0])]);
    assert_eq!(speeds(&log, 1), ended(&log, 65_537, figures));
}

// CR 2: "those with count 0 included".
#[test]
fn zero_counts_at_the_limit() {
    let zeros = [power_on(), sample(1, 0).repeat(MOST_SAMPLES)].concat();
    let both = [&zeros[..POWER_ON + SAMPLE * 65_000], &sample(1, 8191).repeat(535)].concat();
    for (log, figures) in [
        (zeros, [0, 0, 0, 0, 65_535]),
        // 960 x 535
        (both, [535, 960, 960, 513_600, 65_000]),
    ] {
        let figures = fans(&[(1, figures)]);
        assert_eq!(speeds(&log, 2), ended(&log, 65_536, figures));
        for count in [0, 1] {
            let stopped = Speeds {
                number: 14,
                ..ended(&log, 65_536, figures)
            };
            assert_eq!(speeds(&[log.clone(), sample(1, count)].concat(), 2), stopped);
        }
    }
}

// CR 2: 14 comes "after that record's own refusals": those of reading. A step's is 21, which tests/parts.rs has; 6 cannot be,
// as there is no way back to an unpowered chip.
#[test]
fn refusals_of_the_sample_past_the_limit() {
    let before = full(MOST_SAMPLES);
    for (record, number) in [
        (&[0x9C, 0x46, 0x03, 0x03, 0x01, 0x00, 0x20][..], 9),
        (&[0x9C, 0x46, 0x03, 0x03, 0x00, 0x01, 0x00], 5),
        (&[0x9C, 0x46, 0x03, 0x04, 0x01, 0x01, 0x00, 0x00], 4),
        (&[0x9C, 0x47, 0x03, 0x03, 0x01, 0x01, 0x00], 2),
        (&[0x9C, 0x46, 0x03, 0x03, 0x01, 0x01], 1),
        (&[0x9C, 0x46, 0x03, 0x03, 0x01, 0x01, 0x00], 14),
    ] {
        let stopped = Speeds {
            number,
            place: before.len(),
            records: 65_536,
            figures: fans(&[(1, figures_of_full(65_535))]),
        };
        assert_eq!(speeds(&[&before, record].concat(), 2), stopped, "{record:02X?}");
    }
}

// Samples that a step refuses do not count toward the limit either.
#[test]
fn samples_before_power_on_and_the_limit() {
    let early = sample(1, 1).repeat(3);
    let log = [early, full(MOST_SAMPLES)].concat();
    let figures = fans(&[(1, figures_of_full(65_535))]);
    assert_eq!(speeds(&log, 2), ended(&log, 65_539, figures));
    let stopped = Speeds {
        number: 14,
        ..ended(&log, 65_539, figures)
    };
    assert_eq!(speeds(&[log, sample(1, 1)].concat(), 2), stopped);
}

// The limit is each fan's own, and neither a power-on nor a write sets it back.
#[test]
fn other_fans_when_one_is_full() {
    let log = [
        full(MOST_SAMPLES),
        sample(2, 8191),
        power_on(),
        configure(1, 0x00),
        sample(5, 0),
        sample(2, 8191),
    ]
    .concat();
    let figures = fans(&[
        (1, figures_of_full(65_535)),
        (2, figures_of_full(2)),
        (5, [0, 0, 0, 0, 1]),
    ]);
    assert_eq!(speeds(&log, 2), ended(&log, 65_541, figures));
    let stopped = Speeds {
        number: 14,
        place: POWER_ON + SAMPLE * 65_535 + 3 * SAMPLE + POWER_ON + CONFIGURE,
        ..ended(&log, 65_541, figures)
    };
    assert_eq!(speeds(&[log, sample(1, 1), sample(2, 1)].concat(), 2), stopped);
}
