//! The logs that tests/program_test.py hands to the replay program, and their listings. A case is a name, a tab and the
//! log in hex; its line is the listing in hex.

use crate::chance::Chance;
use crate::events::LONGEST_RECORD;
use crate::logs::{
    clock, example, other_addresses, part_on, parts, power_on, power_on_at, random_logs, sample, send, short, stops,
    sweep, ticks, traffic, truncations, unpowered, wish,
};
use crate::script::{bytes, hex, Script};
use crate::windows::{damaged, filler, in_pieces, WINDOW};
use model::listing::list;
use model::log::MARK;

pub fn script() -> Script {
    let mut script = Script::default();
    short_logs(&mut script);
    edge_logs(&mut script);
    for (name, log) in damaged(&[], &short()) {
        add(&mut script, &name, &log);
    }
    let long = long_log();
    add(&mut script, "a long log", &long);
    for (name, log) in in_pieces(&short(), &long, &longest_writes()) {
        add(&mut script, name, &log);
    }
    script
}

fn listing(log: &[u8]) -> Vec<u8> {
    let mut lines = Vec::new();
    list(log, &mut lines);
    lines
}

fn add(script: &mut Script, name: &str, log: &[u8]) {
    script.add_text(&format!("{name}\t{}", hex(log)), &hex(&listing(log)));
}

// ---- short logs ----

/// Document 01's examples and a few others, with their listings.
fn written_out() -> [(&'static str, Vec<u8>, &'static str); 16] {
    [
        ("document 01's example", example(), "0 0\n5 0\n12 0 FF\nend 18\n"),
        ("no bytes", vec![], "end 0\n"),
        ("9C", bytes("9C"), "0 1\nstop 0\n"),
        ("9D", bytes("9D"), "0 2\nstop 0\n"),
        ("9C 46 02 09", bytes("9C 46 02 09"), "0 4\nstop 0\n"),
        ("9C 46 05 14 58", bytes("9C 46 05 14 58"), "0 1\nstop 0\n"),
        ("fan 0", bytes("9C 46 03 03 00 00 20"), "0 5\nstop 0\n"),
        ("count 8192", bytes("9C 46 03 03 01 00 20"), "0 9\nstop 0\n"),
        ("address 128", bytes("9C 46 01 01 80"), "0 10\nstop 0\n"),
        ("33 bytes clocked", bytes("9C 46 05 02 59 21"), "0 11\nstop 0\n"),
        ("five fans by kind 6", bytes("9C 46 06 02 2C 05"), "0 15\nstop 0\n"),
        ("address 128 and no fans", bytes("9C 46 06 02 80 00"), "0 10\nstop 0\n"),
        ("kind 7", bytes("9C 46 07 02 2C 02"), "0 3\nstop 0\n"),
        (
            "a two-fan part",
            [
                sample(3, 1),
                part_on(2),
                sample(3, 1),
                wish(3, 1),
                send(&[0x4E]),
                clock(4),
            ]
            .concat(),
            "0 6\n7 0\n13 21\n20 21\n26 0\n32 0 FF F8 00 00\nend 38\n",
        ),
        (
            "6 and 7 last",
            [clock(1), power_on_at(5), clock(1)].concat(),
            "0 6\n6 0\n11 7\nend 17\n",
        ),
        (
            "a mark behind an end",
            [example(), MARK.to_vec()].concat(),
            "0 0\n5 0\n12 0 FF\n18 1\nstop 18\n",
        ),
    ]
}

/// Logs that fit in the window.
fn short_logs(script: &mut Script) {
    for (name, log, _) in written_out() {
        add(script, name, &log);
    }
    for (number, log) in stops(&example(), &short()) {
        add(script, &format!("a stop with {number}"), &log);
    }
    for log in truncations(&short()) {
        add(script, &format!("short, cut at {}", log.len()), log);
    }
    add(script, "unpowered", &unpowered());
    add(script, "other_addresses", &other_addresses());
    add(script, "sweep", &sweep());
    add(script, "parts", &parts());
    for (name, log) in random_logs(2305, 6) {
        add(script, &name, &log);
    }
}

// ---- logs that are longer than the window ----

/// The longest writes, with what they wrote.
fn longest_writes() -> Vec<u8> {
    let sent: Vec<u8> = std::iter::once(0x30).chain(0x41..0x60).collect();
    [send(&sent), send(&[0x30]), clock(32)].concat().repeat(2)
}

/// What stands across the window's edge; replies behind it show all but the wish.
fn across() -> [(&'static str, Vec<u8>); 3] {
    let every_kind = [
        sample(5, 4660),
        ticks(320),
        wish(1, 9),
        send(&[0x70]),
        clock(16),
        power_on(),
        clock(32),
        part_on(2),
        sample(3, 1),
        clock(32),
    ];
    [
        ("the longest writes", longest_writes()),
        ("long replies", clock(32).repeat(10)),
        ("every kind", every_kind.concat()),
    ]
}

/// Records that begin up to the longest record's length before the window's edge.
fn edge_logs(script: &mut Script) {
    for offset in 0..=LONGEST_RECORD {
        let before = filler(WINDOW - offset);
        for (name, across) in across() {
            let log = [&before, &across, &short()[..]].concat();
            add(script, &format!("{name} {offset} bytes before the edge"), &log);
        }
    }
}

/// Some 300 kB with thousands of the longest replies.
fn long_log() -> Vec<u8> {
    let chance = Chance::new(65536);
    let mut log = traffic(&chance, 400);
    for turn in 0..1200 {
        log.extend(send(&chance.bytes(32)));
        log.extend(clock(32).repeat(4));
        log.extend(&filler(5 * LONGEST_RECORD + chance.below::<usize>(38))[power_on().len()..]);
        log.extend(clock(1 + chance.below::<u8>(32)));
        if turn % 50 == 0 {
            log.extend(traffic(&chance, 10));
            log.extend(send(&[0x20, 0x40]));
        } else {
            log.extend(ticks(turn % 9));
        }
    }
    log
}

#[cfg(test)]
mod tests {
    use super::{example, listing, short, stops, written_out};

    #[test]
    fn the_model_lists_what_is_written_out() {
        for (name, log, lines) in written_out() {
            assert_eq!(String::from_utf8(listing(&log)).unwrap(), lines, "{name}");
        }
    }

    #[test]
    fn a_stop_gets_its_number() {
        for (number, log) in stops(&example(), &short()) {
            let lines = format!("0 0\n5 0\n12 0 FF\n18 {number}\nstop 18\n");
            assert_eq!(String::from_utf8(listing(&log)).unwrap(), lines, "{log:02X?}");
        }
    }
}
