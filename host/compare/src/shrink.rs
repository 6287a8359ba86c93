//! Makes a log that fails smaller, as long as it fails.
use crate::difference::record_places;
use std::cell::Cell;

/// So many bytes are tried in all: the logs of half a megabyte, which the limit of a report needs, are left early.
const MOST_BYTES: usize = 50_000_000;

/// Whether logs fail, until so many bytes were tried.
struct Tries<F> {
    fails: F,
    left: Cell<usize>,
}

impl<F: Fn(&[u8]) -> bool> Tries<F> {
    fn fails(&self, log: &[u8]) -> bool {
        self.left.set(self.left.get().saturating_sub(log.len()));
        !self.over() && (self.fails)(log)
    }

    fn over(&self) -> bool {
        self.left.get() == 0
    }
}

/// The smallest log found that still fails. `fails` holds of `log`.
pub fn shrink(log: &[u8], fails: impl Fn(&[u8]) -> bool) -> Vec<u8> {
    let left = Cell::new(MOST_BYTES);
    let tries = Tries { fails, left };
    let mut log = log.to_vec();
    loop {
        let before = log.clone();
        log = without_parts(log, &tries, record_places);
        log = without_parts(log, &tries, |log| (0..log.len()).collect());
        log = lowered(log, &tries);
        if log == before {
            return log;
        }
    }
}

/// Takes parts out, many at first, then one by one. `starts` tells where parts start, the first at 0.
fn without_parts<F: Fn(&[u8]) -> bool>(
    mut log: Vec<u8>,
    tries: &Tries<F>,
    starts: impl Fn(&[u8]) -> Vec<usize>,
) -> Vec<u8> {
    let mut many = starts(&log).len();
    while many > 0 {
        let mut first = 0;
        while !tries.over() {
            let mut starts = starts(&log);
            starts.push(log.len());
            if first + 1 >= starts.len() {
                break;
            }
            let end = starts[(first + many).min(starts.len() - 1)];
            let shorter = [&log[..starts[first]], &log[end..]].concat();
            if shorter.len() < log.len() && tries.fails(&shorter) {
                log = shorter;
            } else {
                first += many;
            }
        }
        many /= 2;
    }
    log
}

/// Makes bytes smaller: 0, half, one less.
fn lowered<F: Fn(&[u8]) -> bool>(mut log: Vec<u8>, tries: &Tries<F>) -> Vec<u8> {
    for i in 0..log.len() {
        let byte = log[i];
        for smaller in [0, byte / 2, byte.saturating_sub(1)] {
            let kept = log[i];
            if smaller < kept {
                log[i] = smaller;
                if !tries.fails(&log) {
                    log[i] = kept;
                }
            }
        }
    }
    log
}
