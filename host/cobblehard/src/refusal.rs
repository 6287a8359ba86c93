//! What a refusal says: its number, its words, and where the fault is.
use std::error::Error;
use std::fmt;

/// Why an event, a record, a run or a report was refused. A later version may have more.
#[derive(Clone, Copy, Debug, PartialEq, Eq, Hash)]
#[non_exhaustive]
#[repr(u8)]
pub enum Reason {
    EndsInsideRecord = 1,
    WrongMark = 2,
    UnknownKind = 3,
    LengthNotAllowed = 4,
    /// A fan outside 1..=5.
    WrongFan = 5,
    NoPower = 6,
    OtherAddress = 7,
    NoRoom = 8,
    /// A tach count above 8191.
    WrongCount = 9,
    /// A bus address above 127.
    WrongAddress = 10,
    /// A read whose length byte is not 2, a clocked number outside 1..=32, or more than 32 bytes to be written.
    WrongBytes = 11,
    /// Poles outside 1..=4.
    WrongPoles = 13,
    /// More than 65,535 samples of a fan in a report of speeds.
    TooManySamples = 14,
    /// A part with another number of fans than 1, 2 or 3; one with five is [`Event::PowerOn`](crate::Event::PowerOn)'s.
    WrongFans = 15,
    /// A sample or a wish for a fan that the part does not have. A run and a report walk on after it.
    AbsentFan = 21,
}

impl Reason {
    const ALL: [Reason; 15] = [
        Reason::EndsInsideRecord,
        Reason::WrongMark,
        Reason::UnknownKind,
        Reason::LengthNotAllowed,
        Reason::WrongFan,
        Reason::NoPower,
        Reason::OtherAddress,
        Reason::NoRoom,
        Reason::WrongCount,
        Reason::WrongAddress,
        Reason::WrongBytes,
        Reason::WrongPoles,
        Reason::TooManySamples,
        Reason::WrongFans,
        Reason::AbsentFan,
    ];

    /// The reason with this number; none for 0, which stands for taken, for 12, for 16 to 20, and for those past 21.
    pub fn of_number(number: u8) -> Option<Reason> {
        Reason::ALL.into_iter().find(|reason| reason.number() == number)
    }

    pub fn number(self) -> u8 {
        self as u8
    }

    /// For people; include/cobblehard.h has the same.
    pub fn words(self) -> &'static str {
        match self {
            Reason::EndsInsideRecord => "the log ends inside a record",
            Reason::WrongMark => "a mark byte is wrong",
            Reason::UnknownKind => "unknown kind",
            Reason::LengthNotAllowed => "length not allowed for the kind",
            Reason::WrongFan => "no such fan",
            Reason::NoPower => "event before any power-on",
            Reason::OtherAddress => "transfer to another address",
            Reason::NoRoom => "buffer too short",
            Reason::WrongCount => "count out of range",
            Reason::WrongAddress => "address out of range",
            Reason::WrongBytes => "length or clocked number of a transfer out of range",
            Reason::WrongPoles => "poles out of range",
            Reason::TooManySamples => "too many samples of a fan",
            Reason::WrongFans => "number of fans out of range",
            Reason::AbsentFan => "the part has no such fan",
        }
    }

    /// What a number that the library gave says; none for 0. It gives no other that has no reason: that is proved of it.
    pub(crate) fn given(number: u8) -> Option<Reason> {
        let reason = Reason::of_number(number);
        assert!(
            number == 0 || reason.is_some(),
            "libcobblehard gave the number {number}"
        );
        reason
    }
}

/// A refusal: why and, where a record of a log could not be read, at which byte.
#[derive(Clone, Copy, Debug, PartialEq, Eq, Hash)]
pub struct Refusal {
    reason: Reason,
    place: Option<usize>,
}

impl Refusal {
    pub(crate) fn new(reason: Reason, place: Option<usize>) -> Refusal {
        Refusal { reason, place }
    }

    pub fn reason(&self) -> Reason {
        self.reason
    }

    pub fn number(&self) -> u8 {
        self.reason.number()
    }

    pub fn words(&self) -> &'static str {
        self.reason.words()
    }

    /// The place in the log of the first faulty byte; of a log that ends inside a record, where the first missing byte would
    /// stand. None where a record is not at fault: in writing, where a run has no room, and at the poles and the number of
    /// samples of a report.
    pub fn place(&self) -> Option<usize> {
        self.place
    }
}

impl fmt::Display for Refusal {
    fn fmt(&self, f: &mut fmt::Formatter<'_>) -> fmt::Result {
        write!(f, "refused with {}, {}", self.number(), self.words())?;
        match self.place {
            Some(place) => write!(f, ", at byte {place}"),
            None => Ok(()),
        }
    }
}

impl Error for Refusal {}
