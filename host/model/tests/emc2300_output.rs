//! One output of the EMC2300: the page's examples and each of its rules, with figures worked out by hand.

use model::emc2300::output::{Asked, Output, Shared};
use model::emc2300::zones::Zone;

/// Modes, in bits 7..5 of the configuration; spin-up of 20 ticks, as at power-on.
const ON_ZONE_1: u8 = 0x02;
const ON_ZONE_2: u8 = 0x22;
const ON_ZONE_3: u8 = 0x42;
const ALWAYS_FULL: u8 = 0x62;
const DISABLED: u8 = 0x82;
const HOTTEST_OF_2_3: u8 = 0xA2;
const HOTTEST_OF_ALL: u8 = 0xC2;
const MANUAL: u8 = 0xE2;

/// Options with SZEN 1, as at power-on, and with SZEN 0.
const SNAP: u8 = 0x0C;
const STEP_DOWN: u8 = 0x08;

/// A temperature in degrees, as a register has it.
fn degrees(t: i8) -> u8 {
    t.to_le_bytes()[0]
}

/// A zone with range code and low limit, its absolute limit as at power-on.
fn zone(t: i8, low_limit: i8, range: u8) -> Zone {
    Zone {
        temperature: degrees(t),
        configuration: range << 4 | 3,
        low_limit: degrees(low_limit),
        ..Zone::power_on()
    }
}

/// START 1, every zone at 20 degrees with its low limit at 60: each asks the minimum.
fn started() -> Shared {
    Shared {
        start: true,
        zones: [zone(20, 60, 12); 3],
        ..Shared::power_on()
    }
}

/// An output in this mode, else as at power-on.
fn output(configuration: u8) -> Output {
    Output {
        configuration,
        ..Output::power_on()
    }
}

/// A manual output under ramp control.
fn ramping(ramp: u8, duty: u8, setting: u8) -> Output {
    Output {
        setting,
        ramp,
        duty,
        ..output(MANUAL)
    }
}

/// So many ticks; how often one was the last of a spin-up.
fn ticks(output: &mut Output, shared: &Shared, count: u32) -> usize {
    (0..count).filter(|_| output.tick(shared)).count()
}

// ---- the examples ----

#[test]
fn example_a() {
    let asked = |m, l, range, t| zone(t, l, range).asks(m);
    // 127 x 1 / 8 = 15.875, 127 x 4 / 8 = 63.5, 127 x 7 / 8 = 111.125
    for (t, duty) in [(49, 128), (50, 128), (51, 143), (54, 191), (57, 239), (58, 255)] {
        assert_eq!(asked(128, 50, 6, t), duty, "{t}");
    }
    // 255 x 1 / 3.33 = 76.58, x 2 = 153.15, x 3 = 229.73
    for (t, duty) in [(41, 76), (42, 153), (43, 229), (44, 255)] {
        assert_eq!(asked(0, 40, 2, t), duty, "{t}");
    }
    // 200 x 1 / 6.67 = 29.985; a third of 20 would give 30
    assert_eq!(asked(55, 20, 5, 21), 84);
    // 155 x 1 / 2 = 77.5
    for (t, duty) in [(-6, 100), (-5, 100), (-4, 177), (-3, 255)] {
        assert_eq!(asked(100, -5, 0, t), duty, "{t}");
    }
}

#[test]
fn example_b() {
    let mut shared = Shared {
        zones: [zone(52, 50, 0x6), zone(50, 30, 0xC), zone(60, 40, 0xF)],
        ..started()
    };
    // 127 x 2 / 8 = 31.75, 127 x 20 / 32 = 79.375, 127 x 20 / 80 = 31.75
    assert_eq!(shared.zones.map(|zone| zone.asks(128)), [159, 207, 159]);
    assert_eq!(output(HOTTEST_OF_ALL).goal(&shared), 207);
    assert_eq!(output(ON_ZONE_3).goal(&shared), 159);
    // 127 x 6 / 8 = 95.25
    shared.zones[0].temperature = 56;
    assert_eq!(output(HOTTEST_OF_ALL).goal(&shared), 223);
}

#[test]
fn example_c() {
    let mut output = ramping(0x0B, 255, 250);
    assert_eq!(output.rate(), 4);
    let mut duties = vec![output.duty];
    for _ in 0..40 {
        output.tick(&started());
        duties.push(output.duty);
    }
    assert_eq!((duties[3], duties[4], duties[19], duties[20]), (255, 254, 251, 250));
    assert!(duties[20..].iter().all(|&duty| duty == 250));
}

#[test]
fn example_d() {
    let after = |p, t| {
        let mut output = ramping(0x08, 100, 103);
        output.clock = p;
        ticks(&mut output, &started(), t);
        (output.duty, output.clock)
    };
    assert_eq!(ramping(0x08, 100, 103).rate(), 17);
    assert_eq!(after(16, 1), (101, 0));
    assert_eq!(after(0, 50), (102, 16));
    assert_eq!(after(0, 51), (103, 0));
}

/// Zone 1 of example e at this temperature.
fn example_e_at(t: i8) -> Shared {
    let mut shared = started();
    shared.zones[0] = zone(t, 40, 2);
    shared
}

/// The output of example e, before it settles.
fn example_e_output() -> Output {
    let mut output = Output {
        minimum: 0,
        ..output(0x02)
    };
    output.write_ramp(0x08);
    output
}

#[test]
fn example_e() {
    let mut output = example_e_output();
    output.settle(&example_e_at(40));
    assert_eq!((output.duty, output.reads()), (0, 0x00));
    let shared = example_e_at(41);
    output.settle(&shared);
    assert_eq!(output.spin_up_left, 20);
    for left in (1..20).rev() {
        assert!(!output.tick(&shared));
        assert_eq!((output.reads(), output.spin_up_left), (0x00, left));
    }
    assert!(output.tick(&shared));
    assert_eq!((output.reads(), output.clock, output.spin_up_left), (0x4C, 0, 0));
    assert_eq!(output.duty, 76);
    let shared = example_e_at(43);
    output.settle(&shared);
    assert_eq!(ticks(&mut output, &shared, 16), 0);
    assert_eq!(output.duty, 76);
    output.tick(&shared);
    assert_eq!(output.duty, 77);
}

/// What outputs 1, 2, 3 of example g read once they have settled.
fn example_g_reads(shared: &Shared) -> [u8; 3] {
    let manual = Output {
        setting: 0x40,
        ..output(MANUAL)
    };
    [output(ON_ZONE_1), output(ON_ZONE_2), manual].map(|mut output| {
        output.settle(shared);
        output.reads()
    })
}

#[test]
fn example_g() {
    let mut shared = started();
    shared.zones[2].temperature = 99;
    assert_eq!(example_g_reads(&shared), [0x80, 0x80, 0x40]);
    shared.zones[2].temperature = 100;
    assert_eq!(example_g_reads(&shared), [0xFF, 0xFF, 0x40]);
    shared.zones[2].absolute_limit = 0x80;
    assert_eq!(example_g_reads(&shared), [0x80, 0x80, 0x40]);
    shared.ovrid = true;
    assert_eq!(example_g_reads(&shared), [0xFF; 3]);
    (shared.ovrid, shared.start) = (false, false);
    assert_eq!(example_g_reads(&shared), [0xFF; 3]);
}

// ---- duty ----

#[test]
fn what_is_asked_for_in_each_mode() {
    let manual = Output {
        setting: 0x40,
        ..output(MANUAL)
    };
    for (start, ovrid) in [(false, false), (false, true), (true, true)] {
        let shared = Shared {
            start,
            ovrid,
            ..started()
        };
        for mode in 0..8 {
            assert_eq!(output(mode << 5).asked(&shared), Asked::Full, "mode {mode}");
        }
    }
    let shared = started();
    assert_eq!(output(ALWAYS_FULL).asked(&shared), Asked::Full);
    assert_eq!(output(DISABLED).asked(&shared), Asked::Off);
    assert_eq!(manual.asked(&shared), Asked::Duty(0x40));
    assert_eq!(output(ON_ZONE_1).asked(&shared), Asked::Duty(0x80));
}

// Zones 1, 2, 3 ask 143, 191, 239 of a minimum of 128.
#[test]
fn which_zones_are_linked() {
    let mut shared = started();
    shared.zones = [zone(51, 50, 6), zone(54, 50, 6), zone(57, 50, 6)];
    for (configuration, duty) in [
        (ON_ZONE_1, 143),
        (ON_ZONE_2, 191),
        (ON_ZONE_3, 239),
        (HOTTEST_OF_2_3, 239),
        (HOTTEST_OF_ALL, 239),
    ] {
        assert_eq!(output(configuration).asked(&shared), Asked::Duty(duty));
    }
    shared.zones.reverse();
    assert_eq!(output(HOTTEST_OF_2_3).asked(&shared), Asked::Duty(191));
    assert_eq!(output(HOTTEST_OF_ALL).asked(&shared), Asked::Duty(239));
}

// "80h is a fault in whichever zone"; only of linked ones it makes full.
#[test]
fn a_fault_in_each_zone() {
    for (number, full) in [
        (0, [true, false, false, false, true]),
        (1, [false, true, false, true, true]),
        (2, [false, false, true, true, true]),
    ] {
        let mut shared = started();
        shared.zones[number].temperature = 0x80;
        let modes = [ON_ZONE_1, ON_ZONE_2, ON_ZONE_3, HOTTEST_OF_2_3, HOTTEST_OF_ALL];
        assert_eq!(
            modes.map(|mode| output(mode).asked(&shared) == Asked::Full),
            full,
            "zone at {number}"
        );
        assert_eq!(output(MANUAL).asked(&shared), Asked::Duty(0xFF));
    }
}

#[test]
fn an_absolute_limit() {
    let at = |t, absolute_limit| {
        let zone = Zone {
            absolute_limit,
            ..zone(t, 60, 12)
        };
        zone.is_at_absolute_limit()
    };
    assert!(!at(99, 100) && at(100, 100) && at(101, 100));
    assert!(!at(126, 0x7F) && at(127, 0x7F));
    assert!(!at(-128, 0x81) && at(-127, 0x81) && at(0, 0x81) && at(127, 0x81));
    assert!(!at(-128, 0x80) && !at(0, 0x80) && !at(127, 0x80));
    assert!(!at(-1, 0) && at(0, 0));
}

// T - L of 255: 127 - -128. From L = 80h every range is full from -48 degrees up.
#[test]
fn far_above_the_low_limit() {
    for range in 0..16 {
        assert_eq!(zone(127, -128, range).asks(0), 255);
        assert_eq!(zone(-48, -128, range).asks(3), 255);
        assert_eq!(zone(-128, -128, range).asks(3), 3);
        assert_eq!(zone(-128, 127, range).asks(3), 3);
    }
    // 252 x 79 / 80 = 248.85
    assert_eq!(zone(-49, -128, 15).asks(3), 251);
}

// Table 8.27, and its note: "for 3.33, PWM will be full on at (min. temp + 4)".
#[test]
fn ranges() {
    let full_at = [2, 3, 4, 4, 5, 7, 8, 10, 14, 16, 20, 27, 32, 40, 54, 80];
    for (range, above) in (0..).zip(full_at) {
        assert_eq!(zone(above, 0, range).asks(0), 255, "{range}");
        assert!(zone(above - 1, 0, range).asks(0) < 255, "{range}");
    }
}

// ---- ramp ----

#[test]
fn rates_and_lengths() {
    let rates: Vec<u16> = (0..16).map(|ramp| ramping(ramp, 0, 0).rate()).collect();
    assert_eq!(rates, [17, 9, 6, 4, 3, 2, 1, 1, 17, 9, 6, 4, 3, 2, 1, 1]);
    assert_eq!(ramping(0xFB, 0, 0).rate(), 4);
    let lengths: Vec<u16> = (0..8).map(|bits| output(0xF8 | bits).spin_up_length()).collect();
    assert_eq!(lengths, [0, 8, 20, 32, 56, 80, 160, 320]);
}

#[test]
fn ramp_control() {
    let shared = started();
    assert!(ramping(0x08, 9, 1).ramp_control(&shared));
    assert!(!ramping(0x07, 9, 1).ramp_control(&shared));
    assert!(!ramping(0xF7, 9, 1).ramp_control(&shared));
    let to_zero = |options| Output {
        options,
        ..ramping(0x08, 9, 0)
    };
    assert!(!to_zero(SNAP).ramp_control(&shared));
    assert!(to_zero(STEP_DOWN).ramp_control(&shared));
    let automatic_to_zero = |options| Output {
        minimum: 0,
        configuration: ON_ZONE_1,
        ..to_zero(options)
    };
    assert!(!automatic_to_zero(SNAP).ramp_control(&shared));
    assert!(automatic_to_zero(STEP_DOWN).ramp_control(&shared));
    for configuration in [ALWAYS_FULL, DISABLED] {
        let output = Output {
            configuration,
            ..ramping(0x08, 9, 1)
        };
        assert!(!output.ramp_control(&shared));
    }
    let overridden = Shared { ovrid: true, ..shared };
    assert!(!ramping(0x08, 9, 1).ramp_control(&overridden));
}

// "A new goal leaves the clock, and it counts at the goal."
#[test]
fn the_clock() {
    let shared = started();
    let mut output = ramping(0x08, 100, 100);
    ticks(&mut output, &shared, 20);
    assert_eq!((output.duty, output.clock), (100, 3));
    output.setting = 90;
    output.settle(&shared);
    assert_eq!((output.duty, output.clock), (100, 3));
    ticks(&mut output, &shared, 14);
    assert_eq!((output.duty, output.clock), (99, 0));
    ticks(&mut output, &shared, 5);
    output.write_ramp(0x08);
    output.settle(&shared);
    assert_eq!((output.duty, output.clock), (99, 0));
}

// Demand 3, said again: "d moved toward g by min(|d - g|, floor((p + t) / u)), its clock (p + t) mod u".
#[test]
fn the_law_of_the_ramp() {
    let shared = started();
    for ramp in 0x08..=0x0F {
        for (d, g) in [(100, 103), (103, 100), (1, 255), (255, 1), (7, 7), (254, 255)] {
            let u = ramping(ramp, d, g).rate();
            for p in 0..u {
                let mut output = Output {
                    clock: p,
                    ..ramping(ramp, d, g)
                };
                for t in 1..=60 {
                    assert!(!output.tick(&shared));
                    let moved = u8::try_from((p + t) / u).unwrap().min(d.abs_diff(g));
                    let duty = if d < g { d + moved } else { d - moved };
                    assert_eq!((output.duty, output.clock), (duty, (p + t) % u), "{u} {d} {g} {p} {t}");
                }
            }
        }
    }
}

// "No ramp control: duty g, clock 0."
#[test]
fn without_ramp_control_the_duty_is_the_goal_at_once() {
    let mut output = Output {
        clock: 5,
        ..ramping(0x07, 100, 90)
    };
    ticks(&mut output, &started(), 30);
    assert_eq!((output.duty, output.clock), (100, 5));
    output.settle(&started());
    assert_eq!((output.duty, output.clock), (90, 0));
}

// SZEN 1: off at once; 0: step by step, and no spin-up at the end of it.
#[test]
fn down_to_zero() {
    let shared = started();
    let mut output = ramping(0x0F, 3, 0);
    output.settle(&shared);
    assert_eq!(output.duty, 0);
    let mut output = Output {
        options: STEP_DOWN,
        ..ramping(0x0F, 3, 0)
    };
    output.settle(&shared);
    let duties: Vec<u8> = (0..5)
        .map(|_| {
            output.tick(&shared);
            output.duty
        })
        .collect();
    assert_eq!(duties, [2, 1, 0, 0, 0]);
    output.settle(&shared);
    assert_eq!((output.duty, output.spin_up_left), (0, 0));
}

// ---- spin-up ----

/// A manual output at duty 0 whose setting has just become 40h.
fn spinning_up(spin: u8, ramp: u8) -> Output {
    let mut output = Output {
        configuration: 0xE0 | spin,
        clock: 7,
        ..ramping(ramp, 0, 0x40)
    };
    output.settle(&started());
    output
}

#[test]
fn each_length() {
    for ramp in [0x00, 0x08] {
        for (spin, length) in (1..).zip([8, 20, 32, 56, 80, 160, 320]) {
            let mut output = spinning_up(spin, ramp);
            assert_eq!((output.spin_up_left, output.clock, output.duty), (length, 0, 0));
            assert_eq!(ticks(&mut output, &started(), u32::from(length) - 1), 0);
            assert_eq!((output.reads(), output.clock), (0x00, 0));
            assert!(output.tick(&started()));
            assert_eq!((output.reads(), output.duty, output.clock), (0x40, 0x40, 0));
        }
        let output = spinning_up(0, ramp);
        assert_eq!((output.duty, output.clock, output.spin_up_left), (0x40, 0, 0));
    }
}

// "Length by configuration bits 2..0 at the start"; "duty is the goal of that moment".
#[test]
fn length_of_the_start_and_goal_of_the_end() {
    let shared = started();
    let mut output = spinning_up(2, 0x08);
    output.configuration = 0xE7;
    output.setting = 0x90;
    output.settle(&shared);
    assert_eq!((output.spin_up_left, output.duty), (20, 0));
    assert_eq!(ticks(&mut output, &shared, 20), 1);
    assert_eq!(output.duty, 0x90);
}

#[test]
fn what_ends_a_spin_up_before_its_last_tick() {
    let shared = started();
    let mut zero = spinning_up(2, 0x08);
    zero.setting = 0;
    zero.settle(&shared);
    assert_eq!((zero.duty, zero.clock, zero.spin_up_left), (0, 0, 0));
    let mut full = spinning_up(2, 0x08);
    full.configuration = ALWAYS_FULL;
    full.settle(&shared);
    assert_eq!((full.duty, full.clock, full.spin_up_left), (255, 0, 0));
    let mut off = spinning_up(2, 0x08);
    off.configuration = DISABLED;
    off.settle(&shared);
    assert_eq!((off.duty, off.clock, off.spin_up_left), (0, 0, 0));
    let mut turning = spinning_up(2, 0x08);
    turning.end_spin_up(&shared);
    assert_eq!((turning.duty, turning.clock, turning.spin_up_left), (0x40, 0, 0));
    turning.setting = 0x41;
    turning.end_spin_up(&shared);
    assert_eq!(turning.duty, 0x40);
}

// 7.1.3.3 asks only for duty 00h: "It starts in manual mode and after disabled too". There is none from full.
#[test]
fn what_starts_a_spin_up() {
    let shared = started();
    let mut output = output(DISABLED);
    output.settle(&shared);
    assert_eq!(output.duty, 0);
    output.configuration = ON_ZONE_1;
    output.settle(&shared);
    assert_eq!(output.spin_up_left, 20);
    let mut from_power_on = Output {
        configuration: ON_ZONE_1,
        ..Output::power_on()
    };
    from_power_on.settle(&shared);
    assert_eq!((from_power_on.duty, from_power_on.spin_up_left), (128, 0));
}

// ---- states that no run reaches ----

#[test]
fn a_clock_past_its_end() {
    for clock in [16, 17, 18, 200, u16::MAX] {
        let mut output = Output {
            clock,
            ..ramping(0x08, 100, 103)
        };
        output.tick(&started());
        assert_eq!((output.duty, output.clock), (101, 0), "{clock}");
    }
}

#[test]
fn a_spin_up_with_a_duty_and_a_clock() {
    let shared = started();
    let mut output = Output {
        clock: 9,
        spin_up_left: 1000,
        ..ramping(0x08, 77, 103)
    };
    assert_eq!(output.reads(), 0x00);
    output.tick(&shared);
    output.settle(&shared);
    assert_eq!((output.duty, output.clock, output.spin_up_left), (77, 9, 999));
    assert_eq!(ticks(&mut output, &shared, 999), 1);
    assert_eq!((output.duty, output.clock), (103, 0));
}

// Asked for full or off, a spin-up that was loaded ends with 255 or 0, by its last tick as by its tachs.
#[test]
fn a_spin_up_of_an_output_that_is_full_or_off() {
    for (configuration, duty) in [(ALWAYS_FULL, 255), (DISABLED, 0)] {
        let spinning = Output {
            configuration,
            clock: 9,
            spin_up_left: 2,
            ..ramping(0x08, 77, 103)
        };
        let (mut by_ticks, mut by_tachs) = (spinning, spinning);
        assert_eq!(ticks(&mut by_ticks, &started(), 2), 1);
        by_tachs.end_spin_up(&started());
        for output in [by_ticks, by_tachs] {
            assert_eq!((output.duty, output.clock, output.spin_up_left), (duty, 0, 0));
        }
    }
}
