//! Events, their words, and their records.

use model::log::{write, Event};

pub const LARGEST: usize = usize::MAX;

/// Places and lengths of a transfer's bytes whose sum wraps, or comes near it.
pub const WRAPPING: [(usize, usize); 7] = [
    (LARGEST, 0),
    (LARGEST, 1),
    (LARGEST, 2),
    (LARGEST - 31, 32),
    (0, LARGEST),
    (1, LARGEST),
    (LARGEST, LARGEST),
];

/// The longest record: a transfer that sends 32 bytes.
pub const LONGEST_RECORD: usize = 37;

pub fn power_on(address: u8) -> Event {
    Event::PowerOn { address }
}

/// The power-on of a part with so many fans.
pub fn part_on(address: u8, fans: u8) -> Event {
    Event::PowerOnPart { address, fans }
}

pub fn ticks(count: u16) -> Event {
    Event::Ticks { count }
}

pub fn sample(fan: u8, count: u16) -> Event {
    Event::Sample { fan, count }
}

pub fn wish(fan: u8, drive: u8) -> Event {
    Event::Wish { fan, drive }
}

/// A transfer that writes.
pub fn send(address: u8, place: usize, length: usize) -> Event {
    Event::Transfer {
        address,
        read: false,
        place,
        length,
    }
}

/// A transfer that reads.
pub fn clock(address: u8, place: usize, length: usize) -> Event {
    Event::Transfer {
        address,
        read: true,
        place,
        length,
    }
}

/// An event's name, as the test programs write it.
pub fn name(event: &Event) -> &'static str {
    match event {
        Event::PowerOn { .. } => "power-on",
        Event::Ticks { .. } => "ticks",
        Event::Sample { .. } => "sample",
        Event::Wish { .. } => "wish",
        Event::Transfer { read: false, .. } => "send",
        Event::Transfer { read: true, .. } => "clock",
        Event::PowerOnPart { .. } => "part-on",
    }
}

/// An event's name and its numbers.
pub fn words(event: &Event) -> String {
    let name = name(event);
    match *event {
        Event::PowerOn { address } => format!("{name} {address}"),
        Event::Ticks { count } => format!("{name} {count}"),
        Event::Sample { fan, count } => format!("{name} {fan} {count}"),
        Event::Wish { fan, drive } => format!("{name} {fan} {drive}"),
        Event::Transfer {
            address, place, length, ..
        } => format!("{name} {address} {place} {length}"),
        Event::PowerOnPart { address, fans } => format!("{name} {address} {fans}"),
    }
}

/// The record of an event that is in range, by the model's writer.
pub fn record(event: &Event, log: &[u8]) -> Vec<u8> {
    let mut space = [0; LONGEST_RECORD];
    let laid = write(event, log, &mut space).expect("the event is in range");
    space[..laid].to_vec()
}
