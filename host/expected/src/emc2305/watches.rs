//! The power-up watch, the continuous watch, and what a firing does.

use super::bench::{row, Bench, HEALTHY, STALLED};
use super::{at, CONFIGURATION, ENABLE, FANS, HOME, LOCK, STATUS};
use crate::emc2305_fan::{CLOSED, ON, RAMPED};
use crate::events::{clock, send};
use model::chip::{
    Watch, CONFIGURATION_1, CONFIGURATION_2, DIVIDE, GAIN, MAX_STEP, READING_HIGH, SETTING, SPIN_UP, TARGET_HIGH,
};

pub fn cases(bench: &mut Bench) {
    power_up_cases(bench);
    power_up_end_cases(bench);
    watch_start_cases(bench);
    watch_change_cases(bench);
    continuous_cases(bench);
    firing_cases(bench);
    after_firing_cases(bench);
    firing_tick_cases(bench);
    past_the_end_cases(bench);
    unreached_cases(bench);
}

fn power_up_cases(bench: &mut Bench) {
    bench.title("the power-up watch: 319 idle ticks nothing, 320 FFh, once");
    bench.power_on();
    bench.ticks(319);
    bench.ticks(1);
    bench.registers();
    bench.ticks(319);
    bench.ticks(1);
    bench.ticks(1000);
    let parts: [&[u16]; 5] = [&[320], &[321], &[640], &[0, 100, 100, 100, 19, 0, 1], &[318, 1, 1, 1]];
    for counts in parts {
        bench.power_on();
        for &count in counts {
            bench.ticks(count);
        }
    }
}

/// What leaves the power-up watch as it is.
const NOT_ENDING: [fn(&mut Bench); 30] = [
    |bench| bench.send(&[]),
    |bench| bench.send(&[0x30]),
    |bench| bench.clock(1),
    |bench| bench.send(&[ENABLE, 0x1F]),
    |bench| bench.send(&[0x2A, 0xFF]),
    |bench| bench.send(&[CONFIGURATION, 0x40]),
    |bench| bench.send(&[CONFIGURATION, 0xDF]),
    |bench| bench.send(&[CONFIGURATION, 0x00]),
    |bench| bench.send(&[0x32, 0x2B]),
    |bench| bench.send(&[0x72, 0x7F]),
    |bench| bench.send(&[0x33, 0x68]),
    |bench| bench.send(&[0x38, 0xFF]),
    |bench| bench.send(&[0x4D, 0x10]),
    |bench| bench.send(&[0x3E, 0x80]),
    |bench| bench.send(&[0x34, 0x80]),
    |bench| bench.send(&[0x82, 0xFF]),
    |bench| bench.send(&[0x80, 0x80]),
    |bench| bench.send(&[LOCK, 0x01]),
    |bench| bench.send(&[STATUS, 0xFF]),
    |bench| bench.send(&[&[0x41, 0x01, 0x7F, 0x68][..], &[0x80; 12]].concat()),
    |bench| bench.sample(1, HEALTHY),
    |bench| bench.sample(5, STALLED),
    |bench| bench.wish(1, 200),
    |bench| bench.ticks(0),
    |bench| bench.send_to(HOME + 1, &[0x30, 0x80]),
    |bench| bench.clock(2),
    |bench| bench.clock(33),
    |bench| bench.transfer(&send(HOME, 0, 3), &[0x30, 0x80]),
    |bench| bench.sample(6, 0),
    |bench| bench.power_on_at(200),
];

/// What is sent to end it, on any fan.
fn ending() -> Vec<Vec<u8>> {
    let each = FANS.map(|fan| {
        [
            vec![at(fan, SETTING), 0x00],
            vec![at(fan, SETTING), 0x80],
            vec![at(fan, CONFIGURATION_1), CLOSED],
        ]
    });
    let others = [
        vec![at(3, CONFIGURATION_1), 0x80],
        vec![0x2F, 0x00, 0x00],
        vec![at(4, DIVIDE), 0x01, 0xAB],
        vec![at(2, READING_HIGH), 1, 2, 0],
    ];
    each.into_iter().flatten().chain(others).collect()
}

fn power_up_end_cases(bench: &mut Bench) {
    bench.title("the power-up watch is not ended or fed by what is not a Setting or a loop turned on");
    for act in NOT_ENDING {
        bench.power_on();
        bench.ticks(100);
        act(bench);
        bench.ticks(219);
        bench.ticks(1);
    }
    bench.title(
        "it is ended by a stored Setting, 00h too, and by a stored write setting Configuration 1 bit 7, on any fan",
    );
    for sent in ending() {
        bench.power_on();
        bench.ticks(319);
        bench.send(&sent);
        bench.ticks(1);
        bench.ticks(320);
    }
    bench.title("locked: 20h starts nothing; Setting and Configuration 1 still end it");
    for sent in [
        [CONFIGURATION, 0x60],
        [at(5, SETTING), 0],
        [at(5, CONFIGURATION_1), CLOSED],
    ] {
        bench.power_on();
        bench.send(&[LOCK, 1]);
        bench.ticks(319);
        bench.send(&sent);
        bench.ticks(1);
    }
}

fn watch_start_cases(bench: &mut Bench) {
    bench.title("WD_EN 1 starts continuous at 0 in place of the power-up watch, with none running, in place of itself");
    bench.power_on();
    bench.ticks(300);
    bench.send(&[CONFIGURATION, 0x60]);
    bench.ticks(300);
    bench.send(&[CONFIGURATION, 0x20]);
    bench.ticks(319);
    bench.ticks(1);
    for byte in [0x20, 0xFF] {
        bench.power_on();
        bench.send(&[at(1, SETTING), 0]);
        bench.ticks(400);
        bench.send(&[CONFIGURATION, byte]);
        bench.ticks(319);
        bench.ticks(1);
    }
    bench.power_on();
    bench.ticks(330);
    bench.send(&[CONFIGURATION, 0x60]);
    bench.ticks(320);
    bench.title("WD_EN 0 ends continuous only");
    bench.power_on();
    bench.send(&[CONFIGURATION, 0x60]);
    bench.ticks(319);
    bench.send(&[CONFIGURATION, 0x40]);
    bench.ticks(640);
    bench.send(&[CONFIGURATION, 0xDF]);
}

fn watch_change_cases(bench: &mut Bench) {
    bench.title(
        "a Setting or a loop turned on does not end continuous, and power-on puts the power-up watch in its place",
    );
    bench.power_on();
    bench.send(&[CONFIGURATION, 0x60]);
    bench.send(&[at(1, SETTING), 0x80]);
    bench.send(&[at(2, CONFIGURATION_1), CLOSED]);
    bench.ticks(320);
    bench.ticks(100);
    bench.power_on();
    bench.ticks(319);
    bench.title("both in one block: 1Fh to 21h, and 2Fh to 32h with the watch as it is");
    bench.power_on();
    bench.ticks(9);
    bench.send(&[0x1F, 1, 0x60, 1]);
    bench.ticks(9);
    bench.send(&[0x2F, 1, 0, 1, 0x80]);
    bench.ticks(9);
    bench.send(&[0x1F, 1, 0x40, 1]);
}

/// Each kind of transfer that is taken.
fn feed(bench: &mut Bench) {
    let acts: [fn(&mut Bench); 13] = [
        |bench| bench.send(&[]),
        |bench| bench.send(&[0x25]),
        |bench| bench.send(&[ENABLE, 0]),
        |bench| bench.send(&[0x21, 1]),
        |bench| bench.send(&[0x3E, 1, 2]),
        |bench| bench.send(&[at(1, SETTING), 0x80]),
        |bench| bench.send(&[at(2, GAIN), 7]),
        |bench| bench.clock(1),
        |bench| bench.send(&[CONFIGURATION, 0x60]),
        |bench| bench.send(&[LOCK, 1]),
        |bench| bench.send(&[LOCK, 0]),
        |bench| bench.send(&[at(5, SETTING), 0x44]),
        |bench| bench.send(&[at(3, MAX_STEP), 1]),
    ];
    for act in acts {
        bench.ticks(319);
        act(bench);
    }
}

/// What is no transfer, and transfers that are refused.
const NOT_FEEDING: [fn(&mut Bench); 17] = [
    |bench| bench.sample(1, HEALTHY),
    |bench| bench.sample(1, STALLED),
    |bench| bench.wish(2, 99),
    |bench| bench.ticks(0),
    |bench| bench.send_to(HOME + 1, &[]),
    |bench| bench.send_to(0, &[0x30, 1]),
    |bench| bench.clock_at(HOME - 1, 1),
    |bench| bench.clock(2),
    |bench| bench.clock(0),
    |bench| bench.clock(33),
    |bench| bench.send(&row(0, 1..33)),
    |bench| bench.transfer(&send(HOME, 1, 0), &[]),
    |bench| bench.transfer(&clock(HOME, 0, 0), &[1]),
    |bench| bench.send_to(HOME + 128, &[]),
    |bench| bench.power_on_at(128),
    |bench| bench.sample(0, 1),
    |bench| bench.wish(6, 1),
];

fn continuous_cases(bench: &mut Bench) {
    bench.title("continuous: fires at 320 idle ticks, and again and again");
    bench.power_on();
    bench.send(&[CONFIGURATION, 0x60]);
    bench.ticks(319);
    bench.ticks(1);
    bench.ticks(319);
    bench.ticks(1);
    bench.send(&[STATUS]);
    bench.clock(1);
    bench.ticks(639);
    bench.ticks(1);
    bench.ticks(960);
    bench.title("each transfer taken sets its count to 0, what it stores or not");
    bench.power_on();
    bench.send(&[at(5, TARGET_HIGH), ON, 0, 0]);
    bench.send(&[at(5, CONFIGURATION_1), CLOSED]);
    bench.send(&[CONFIGURATION, 0x60]);
    feed(bench);
    bench.ticks(320);
    bench.title("samples, wishes, ticks 0 and everything refused do not");
    bench.power_on();
    bench.send(&[CONFIGURATION, 0x60]);
    for act in NOT_FEEDING {
        bench.ticks(20);
        act(bench);
    }
}

fn firing_cases(bench: &mut Bench) {
    bench.title("a firing over fans in closed loop, in spin-up, ramping, driver off, at rest, all locked");
    bench.settled(&[200, 150, 240]);
    for fan in [1, 2] {
        bench.loop_on(fan);
        bench.wish(fan, 90);
    }
    bench.send(&[at(3, CONFIGURATION_2), RAMPED]);
    bench.send(&[at(3, SETTING), 20]);
    bench.send(&[at(4, CONFIGURATION_1), CLOSED]);
    bench.send(&[ENABLE, 0x1F]);
    bench.send(&[CONFIGURATION, 0x60]);
    bench.send(&[LOCK, 1]);
    bench.ticks(310);
    bench.sample(2, STALLED);
    bench.ticks(9);
    bench.registers();
    bench.ticks(1);
    bench.registers();
}

fn after_firing_cases(bench: &mut Bench) {
    bench.title(
        "afterwards: direct mode at 255, the ramp and the loop start from there with the wish that is taken then",
    );
    bench.ticks(100);
    for fan in FANS {
        bench.wish(fan, 7);
    }
    bench.send(&[at(3, SETTING), 100]);
    bench.ticks(64);
    bench.send(&[at(1, CONFIGURATION_1), 0xA8]);
    bench.ticks(8);
    bench.send(&[at(5, SETTING), 0]);
    bench.send(&[at(2, CONFIGURATION_1), 0x2F]);
    bench.ticks(320);
}

fn firing_tick_cases(bench: &mut Bench) {
    bench.title("in the firing tick no fan moves: a spin-up that would fail in it leaves no 26h bit");
    for early in [0, 1] {
        bench.settled(&[80, 80]);
        bench.loop_on(2);
        bench.send(&[at(2, SPIN_UP), 0x18]);
        bench.send(&[CONFIGURATION, 0x60]);
        bench.ticks(300 - early);
        bench.sample(2, STALLED);
        bench.ticks(19 + early);
        bench.ticks(1);
    }
    bench.title("nor does an update clock count in it");
    bench.settled(&[80]);
    bench.send(&[at(1, CONFIGURATION_2), RAMPED]);
    bench.send(&[CONFIGURATION, 0x60]);
    for count in [319, 1, 1, 318, 1] {
        bench.ticks(count);
    }
    bench.title("and of many ticks in one event only the one that fires is taken from the fans");
    for count in [320, 321, 330, 352, 353, 640, 641] {
        bench.settled(&[80]);
        bench.send(&[at(1, CONFIGURATION_2), RAMPED]);
        bench.send(&[CONFIGURATION, 0x60]);
        bench.ticks(count);
    }
}

fn past_the_end_cases(bench: &mut Bench) {
    bench.title("a count at or past 320 fires at the next tick, as on reaching it");
    let counts = [318, 319, 320, 321, 1000, 65534, 65535];
    let power_up = counts.map(|count| Watch::PowerUp { count });
    let continuous = counts.map(|count| Watch::Continuous { count });
    for watch in [power_up, continuous].concat() {
        bench.power_on();
        bench.watch(watch);
        bench.ticks(1);
        bench.ticks(1);
    }
    bench.title("and a transfer in continuous sets it to 0");
    bench.watch(Watch::Continuous { count: 65535 });
    bench.send(&[]);
}

fn unreached_cases(bench: &mut Bench) {
    bench.title("no stall is judged in the power-up watch; in continuous and with none it is");
    for watch in [Watch::PowerUp { count: 7 }, Watch::Continuous { count: 7 }, Watch::Off] {
        bench.settled(&[80, 81]);
        bench.loop_on(2);
        bench.watch(watch);
        bench.sample(1, STALLED);
        bench.sample(2, STALLED);
        bench.ticks(1);
    }
    bench.title("a Setting that is not stored, in closed loop, does not end the power-up watch");
    bench.settled(&[80]);
    bench.loop_on(1);
    bench.watch(Watch::PowerUp { count: 50 });
    bench.send(&[at(1, SETTING), 0x10]);
    bench.send(&[at(2, SETTING), 0x10]);
}
