//! Events, and the records that they have in a log.
use crate::c;
use crate::refusal::{Reason, Refusal};
use std::iter::FusedIterator;

/// The most bytes that a record has.
pub const LONGEST_RECORD: usize = 37;

/// An event. One tick is 12.5 ms.
#[derive(Clone, Copy, Debug, PartialEq, Eq)]
pub enum Event<'a> {
    /// Power-on of an EMC2305, which has five fans, at a bus address 0..=127.
    PowerOn { address: u8 },
    /// So many ticks pass.
    Ticks { count: u16 },
    /// A tach sample of fan 1..=5, with a count 0..=8191.
    Sample { fan: u8, count: u16 },
    /// The loop wishes a drive for fan 1..=5.
    Wish { fan: u8, drive: u8 },
    /// The host writes to an address: at most 32 bytes, of which the first sets the register pointer.
    Write { address: u8, bytes: &'a [u8] },
    /// The host reads 1..=32 bytes from an address.
    Read { address: u8, count: u8 },
    /// Power-on of a part with 1, 2 or 3 fans, an EMC2301, EMC2302 or EMC2303, at a bus address 0..=127.
    PowerOnPart { address: u8, fans: u8 },
}

const END: u8 = 0;
const POWER_ON: u8 = 1;
const TICKS: u8 = 2;
const SAMPLE: u8 = 3;
const WISH: u8 = 4;
const TRANSFER: u8 = 5;
const POWER_ON_PART: u8 = 6;

const READS: u16 = 1;

impl Event<'_> {
    /// Lays the event's record at the front of `out` and gives its length. A refusal leaves `out` as it was: that of the field
    /// which is out of range and comes first in the record (5, 9, 10, 11 or 15), else 8.
    pub fn write_to(&self, out: &mut [u8]) -> Result<usize, Refusal> {
        match *self {
            Event::PowerOn { address } => write(POWER_ON, address, 0, &[], out),
            Event::Ticks { count } => write(TICKS, 0, count, &[], out),
            Event::Sample { fan, count } => write(SAMPLE, fan, count, &[], out),
            Event::Wish { fan, drive } => write(WISH, fan, u16::from(drive), &[], out),
            Event::Write { address, bytes } => write(TRANSFER, address, 0, bytes, out),
            Event::Read { address, count } => write(TRANSFER, address, READS, &[count], out),
            Event::PowerOnPart { address, fans } => write(POWER_ON_PART, address, u16::from(fans), &[], out),
        }
    }

    /// Appends the event's record to a log; a refusal leaves the log as it was.
    pub fn append_to(&self, log: &mut Vec<u8>) -> Result<(), Refusal> {
        let mut record = [0; LONGEST_RECORD];
        let length = self.write_to(&mut record)?;
        log.extend_from_slice(&record[..length]);
        Ok(())
    }
}

fn write(kind: u8, unit: u8, value: u16, bytes: &[u8], out: &mut [u8]) -> Result<usize, Refusal> {
    let mut written = 0;
    // SAFETY: both slices are whole and, the second being borrowed mutably, do not overlap; the number overlaps neither.
    let number = unsafe {
        c::eventlog_write(
            kind,
            unit,
            value,
            bytes.as_ptr(),
            bytes.len(),
            out.as_mut_ptr(),
            out.len(),
            &mut written,
        )
    };
    match Reason::given(number) {
        None => Ok(written as usize),
        Some(reason) => Err(Refusal::new(reason, None)),
    }
}

/// Reads the record at a place of a log: its event, and the place after it. None at the exact end of the log.
pub fn read(log: &[u8], place: usize) -> Result<Option<(Event<'_>, usize)>, Refusal> {
    let (mut kind, mut unit, mut value) = (0, 0, 0);
    let (mut bytes_place, mut bytes_length, mut next) = (0, 0, 0);
    // SAFETY: the slice is whole; the numbers overlap neither it nor each other.
    let number = unsafe {
        c::eventlog_read(
            log.as_ptr(),
            log.len(),
            place as u64,
            &mut kind,
            &mut unit,
            &mut value,
            &mut bytes_place,
            &mut bytes_length,
            &mut next,
        )
    };
    if let Some(reason) = Reason::given(number) {
        return Err(refused(reason, log, place));
    }
    let bytes = &log[bytes_place as usize..][..bytes_length as usize];
    Ok(event(kind, unit, value, bytes).map(|event| (event, next as usize)))
}

/// The event with these numbers; none for the end of the log.
fn event(kind: u8, unit: u8, value: u16, bytes: &[u8]) -> Option<Event<'_>> {
    Some(match kind {
        END => return None,
        POWER_ON => Event::PowerOn { address: unit },
        TICKS => Event::Ticks { count: value },
        SAMPLE => Event::Sample {
            fan: unit,
            count: value,
        },
        WISH => Event::Wish {
            fan: unit,
            drive: byte(value),
        },
        TRANSFER if value == READS => Event::Read {
            address: unit,
            count: bytes[0],
        },
        TRANSFER => Event::Write { address: unit, bytes },
        POWER_ON_PART => Event::PowerOnPart {
            address: unit,
            fans: byte(value),
        },
        _ => panic!("libcobblehard gave the kind {kind}"),
    })
}

/// A wish or a number of fans, which is a byte in its record.
fn byte(value: u16) -> u8 {
    u8::try_from(value).expect("a value of the library that is a byte")
}

/// The refusal of what stands at a place of a log and cannot be read.
pub(crate) fn refused(reason: Reason, log: &[u8], place: usize) -> Refusal {
    // SAFETY: the slice is whole.
    let fault = unsafe { c::eventlog_fault(log.as_ptr(), log.len(), place as u64) };
    Refusal::new(reason, Some(fault as usize))
}

/// The records of a log, each with its place. A refusal is the last: nothing tells where a next record would begin.
pub fn records(log: &[u8]) -> Records<'_> {
    Records { log, place: Some(0) }
}

/// What [`records`] gives.
#[derive(Clone, Debug)]
pub struct Records<'a> {
    log: &'a [u8],
    /// Of the next record; none after a refusal.
    place: Option<usize>,
}

impl FusedIterator for Records<'_> {}

impl<'a> Iterator for Records<'a> {
    type Item = (usize, Result<Event<'a>, Refusal>);

    fn next(&mut self) -> Option<Self::Item> {
        let place = self.place.take()?;
        match read(self.log, place) {
            Ok(None) => None,
            Ok(Some((event, next))) => {
                self.place = Some(next);
                Some((place, Ok(event)))
            }
            Err(refusal) => Some((place, Err(refusal))),
        }
    }
}
