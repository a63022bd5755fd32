//! The certificate log's slots and the lengths that it may have.

use crate::memory::{CERTIFICATE_WORDS, MAX_CERTIFICATES, MAX_LOG_WORDS};
use crate::mistake::{Mistake, Rules};

/// How many certificates there is a slot for.
pub fn log_slots(log: &[u32]) -> usize {
    log.len() / CERTIFICATE_WORDS
}

/// One place's own mistakes in testing the log's length.
pub struct Tester {
    takes_broken: Mistake,
    takes_long: Mistake,
    slots_of_seven: Mistake,
    most_of_seven: Mistake,
}

pub const OPENING: Tester = Tester {
    takes_broken: Mistake::OpenLogBroken,
    takes_long: Mistake::OpenLogLong,
    slots_of_seven: Mistake::OpenLogOfSeven,
    most_of_seven: Mistake::OpenLogMostOfSeven,
};

pub const FORM: Tester = Tester {
    takes_broken: Mistake::FormLogBroken,
    takes_long: Mistake::FormLogLong,
    slots_of_seven: Mistake::FormLogOfSeven,
    most_of_seven: Mistake::FormLogMostOfSeven,
};

/// A slot without its last word, as some mistakes have it.
pub const SHORT_WORDS: usize = CERTIFICATE_WORDS - 1;

/// Whole slots, and not too many.
pub fn length_fits<R: Rules>(rules: R, log: &[u32], tester: &Tester) -> bool {
    let slot = if rules.has(tester.slots_of_seven) { SHORT_WORDS } else { CERTIFICATE_WORDS };
    let most = if rules.has(tester.most_of_seven) { SHORT_WORDS * MAX_CERTIFICATES } else { MAX_LOG_WORDS };
    (log.len().is_multiple_of(slot) || rules.has(tester.takes_broken))
        && (log.len() <= most || rules.has(tester.takes_long))
}
