//! The run over a whole log.
use crate::c;
use crate::event::refused;
use crate::refusal::{Reason, Refusal};

/// What a run gave.
#[derive(Clone, Copy, Debug, PartialEq, Eq)]
pub struct Run {
    /// The refusal that stopped it, with the faulty byte where a record could not be read; none at the end of the log.
    pub stop: Option<Refusal>,
    /// The place in the log of the stopping record, or the end.
    pub place: usize,
    /// How many records were walked, those refused with 6, 7 or 21 included and the stopping one not.
    pub records: usize,
    /// How many reply bytes were laid.
    pub reply_bytes: usize,
}

impl Run {
    /// The last number: 0 at the end of the log.
    pub fn number(&self) -> u8 {
        self.stop.map_or(0, |refusal| refusal.number())
    }
}

/// Room that is enough for the replies of any log of this length: a read has a record of 6 bytes and a reply of at most 32.
pub fn replies_room(log_length: usize) -> usize {
    (log_length / 6).saturating_mul(32)
}

/// Runs an unpowered chip over a log, and gives the replies of its read transfers, one after the other. It sets aside
/// [`replies_room`] bytes meanwhile; [`run_into`] takes a buffer of yours. A read that was taken has as many bytes among them
/// as it counts; one that was refused, before any power-on or to another address, has none.
pub fn run(log: &[u8]) -> (Run, Vec<u8>) {
    let mut replies = vec![0; replies_room(log.len())];
    let run = run_into(log, &mut replies);
    replies.truncate(run.reply_bytes);
    replies.shrink_to_fit();
    (run, replies)
}

/// The same with the replies laid in a lent buffer. Bytes past them stay. A reply that has no room stops the run.
pub fn run_into(log: &[u8], replies: &mut [u8]) -> Run {
    let (mut place, mut records, mut reply_bytes) = (0, 0, 0);
    // SAFETY: both slices are whole and, the second being borrowed mutably, do not overlap; no number overlaps anything.
    let number = unsafe {
        c::emc2305_run(
            log.as_ptr(),
            log.len(),
            replies.as_mut_ptr(),
            replies.len(),
            &mut place,
            &mut records,
            &mut reply_bytes,
        )
    };
    let place = place as usize;
    Run {
        stop: Reason::given(number).map(|reason| stop(reason, log, place)),
        place,
        records: records as usize,
        reply_bytes: reply_bytes as usize,
    }
}

/// What stopped a run or a report at a place: the record there can be read, or is not looked at, or else is at fault.
pub(crate) fn stop(reason: Reason, log: &[u8], place: usize) -> Refusal {
    match reason {
        Reason::NoRoom | Reason::WrongPoles | Reason::TooManySamples => Refusal::new(reason, None),
        _ => refused(reason, log, place),
    }
}
