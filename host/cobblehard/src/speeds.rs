//! The speeds of the fans over a log, in whole RPM.
use crate::c;
use crate::refusal::{Reason, Refusal};
use crate::run::stop;
use std::array;

const FANS: usize = 5;
/// Of one fan.
const FIGURES: usize = 5;

/// The figures of one fan over a whole log: no power-on sets them to 0. A sample that is refused, before any power-on or for a
/// fan that the part does not have, counts nowhere.
#[derive(Clone, Copy, Debug, Default, PartialEq, Eq)]
pub struct Figures {
    /// The number of samples with a count above 0.
    pub samples: u64,
    /// The lowest of their speeds; 0 where there is none, as of the next two.
    pub lowest: u64,
    pub highest: u64,
    /// The sum of their speeds, each a whole number.
    pub total: u64,
    /// The number of samples with count 0, which are in none of the others.
    pub zeros: u64,
}

impl Figures {
    /// The mean of the speeds, rounded down; none where there is none.
    pub fn mean(&self) -> Option<u64> {
        self.total.checked_div(self.samples)
    }
}

/// A report of speeds.
#[derive(Clone, Copy, Debug, PartialEq, Eq)]
pub struct Speeds {
    /// The refusal that ended it, with the faulty byte where a record could not be read; none at the end of the log.
    pub stop: Option<Refusal>,
    /// The place in the log of the stopping record, or the end.
    pub place: usize,
    /// How many records were walked, those refused with 6, 7 or 21 included and the stopping one not.
    pub records: usize,
    /// The figures of fans 1 to 5, whatever the part, of the records before the place.
    pub fans: [Figures; FANS],
}

impl Speeds {
    /// The last number: 0 at the end of the log.
    pub fn number(&self) -> u8 {
        self.stop.map_or(0, |refusal| refusal.number())
    }
}

/// Reports the speeds over a log, by poles that are the same for all fans. The speed of each sample is that of [`rpm`], by
/// the fan's Configuration 1 at that time.
///
/// What stops a run for another reason than its room stops the report too. Poles outside 1..=4 are refused before the log is
/// read: all is 0 then. A fan has at most 65,535 samples, those with count 0 included; the report ends at the next.
pub fn speeds(log: &[u8], poles: u64) -> Speeds {
    let mut figures = [0; FANS * FIGURES];
    let (number, place, records) = speeds_into(log, poles, &mut figures);
    Speeds {
        stop: Reason::given(number).map(|reason| stop(reason, log, place)),
        place,
        records,
        fans: array::from_fn(|fan| figures_of(&figures[fan * FIGURES..])),
    }
}

/// The figures that a slice begins with.
fn figures_of(figures: &[u64]) -> Figures {
    Figures {
        samples: figures[0],
        lowest: figures[1],
        highest: figures[2],
        total: figures[3],
        zeros: figures[4],
    }
}

/// The same with the figures laid in a lent slice: the five of fan 1 in their order, then those of fan 2, and so on, as many
/// of the 25 as it has room for. Entries past the 25th stay. Gives the number, the place and the records.
pub fn speeds_into(log: &[u8], poles: u64, figures: &mut [u64]) -> (u8, usize, usize) {
    let (mut place, mut records) = (0, 0);
    // SAFETY: both slices are whole and, the second being borrowed mutably, do not overlap; no number overlaps anything.
    let number = unsafe {
        c::emc2305_speeds(
            log.as_ptr(),
            log.len(),
            poles,
            figures.as_mut_ptr(),
            figures.len(),
            &mut place,
            &mut records,
        )
    };
    (number, place as usize, records as usize)
}

/// The speed of one sample in whole RPM: 60 x 32768 x (edges - 1) x m / (poles x count), rounded down. Bits 3..=4 of
/// Configuration 1 give the edges, 3, 5, 7 or 9, and bits 5..=6 give m, 1, 2, 4 or 8. It is 0 where the count is 0 or poles
/// outside 1..=4, and only there: the least of a sample is 120.
pub fn rpm(poles: u64, configuration1: u8, count: u16) -> u32 {
    // SAFETY: numbers alone are given.
    unsafe { c::emc2305_rpm(poles, configuration1, count) }
}

/// A fixed table of RPM for two poles, five edges and m = 2, by the high byte of a reading: 245760 / byte rounded down, and 0
/// for 0. It is rough, as that byte is the count / 32 rounded down; [`speeds`] does not use it.
pub fn rpm_by_high_byte(high_byte: u8) -> u32 {
    // SAFETY: a number alone is given.
    unsafe { c::emc2305_rpm_by_high_byte(high_byte) }
}
