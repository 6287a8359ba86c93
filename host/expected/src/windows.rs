//! Logs that are longer than the programs' buffer, and logs that a test hands over in pieces; each with its name.

use crate::emc2305::HOME;
use crate::events::LONGEST_RECORD;
use crate::logs::{endings, power_on, send, send_to};
use crate::script::bytes;
use model::log::MARK;

/// The programs' buffer.
pub const WINDOW: usize = 65536;

/// Whole records of so many bytes: a power-on, then writes to another address, of bytes that look like records.
pub fn filler(length: usize) -> Vec<u8> {
    const EMPTY_WRITE: usize = 5;
    let mut log = power_on();
    let sent = [MARK, [2, 2]].concat().repeat(8);
    while log.len() < length {
        let left = length - log.len();
        let size = if left <= LONGEST_RECORD {
            left
        } else {
            LONGEST_RECORD.min(left - EMPTY_WRITE)
        };
        log.extend(send_to(HOME + 1, &sent[..size - EMPTY_WRITE]));
    }
    log
}

/// Damage at the edge of the window, behind some records and before others, and logs that end there, inside a record or
/// whole.
pub fn damaged(before: &[u8], after: &[u8]) -> Vec<(String, Vec<u8>)> {
    let filled = |length| [before, &filler(length - before.len())].concat();
    let mut logs = Vec::new();
    for offset in 0..6 {
        let before = filled(WINDOW - offset);
        for (number, endings) in endings().into_iter().skip(1) {
            let damage = endings.last().expect("a number has endings");
            let name = format!("{number} at {offset} bytes before the edge");
            logs.push((name, [&before, damage, after].concat()));
        }
    }
    let sent: Vec<u8> = (0..32).collect();
    for offset in [1, 2, 3, 4, 5, 36] {
        for length in [WINDOW - 1, WINDOW, WINDOW + 1] {
            let mut log = [filled(WINDOW - offset), send(&sent)].concat();
            log.truncate(length);
            logs.push((format!("{offset} bytes before the edge, cut at {length}"), log));
        }
    }
    for length in [WINDOW - 1, WINDOW, WINDOW + 1, 2 * WINDOW] {
        logs.push((format!("whole records of {length} bytes"), filled(length)));
    }
    logs
}

/// Logs that a test hands over in pieces, whose sizes it knows by these names: a short one, one of several windows, and
/// records that come to stand across the edge of the window.
pub fn in_pieces(short: &[u8], long: &[u8], across: &[u8]) -> Vec<(&'static str, Vec<u8>)> {
    vec![
        ("a byte at a time", short.to_vec()),
        ("a byte at a time, with a stop", [short, &bytes("9C47")].concat()),
        ("a byte at a time, cut", short[..short.len() - 1].to_vec()),
        ("odd pieces", long.to_vec()),
        ("large pieces", long.to_vec()),
        (
            "a piece that ends inside a record",
            [&filler(WINDOW - 20), across, short].concat(),
        ),
    ]
}
