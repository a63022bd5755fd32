//! What a call would issue, put into the log beforehand: so that it is found, or added beside one of another boot.

use super::memory::{any_boot, Sample};
use crate::call::OPEN;
use crate::certificate::Certificate;
use crate::memory::{header, CEILING, CERTIFICATE_WORDS};
use crate::mistake::Correct;
use crate::random::Random;

/// Puts the certificate that the call would issue into the log, so that it is found; the replica's words stay. Sometimes
/// an earlier slot holds it too; sometimes it is not counted, so that it must be added where its words stand already.
/// Often one that differs in a boot alone stands before it, after it or in its place.
pub fn issue_beforehand(random: &mut Random, sample: &mut Sample) {
    let mut after = sample.clone();
    let outcome = after.run(Correct);
    if !outcome.is_accepted() || sample.line.code == OPEN {
        return;
    }
    sample.log = after.log;
    if random.once_in(8) {
        return;
    }
    sample.table[header::ISSUED] = after.table[header::ISSUED];
    if outcome.filed(sample.line.code).is_some() {
        put_copies(random, sample, outcome.first);
    }
    // No slot free, one, or as many as there are.
    let issued = CERTIFICATE_WORDS * sample.table[header::ISSUED] as usize;
    match random.below(4) {
        0..=1 => sample.log.truncate(issued),
        2 => sample.log.resize(issued + CERTIFICATE_WORDS, 0),
        _ => {}
    }
}

/// Copies of a certificate, equal or with another boot, in an earlier slot or in its own.
fn put_copies(random: &mut Random, sample: &mut Sample, number: u32) {
    let certificate = sample.memory().certificate(number);
    let other = with_other_boot(random, certificate);
    match random.below(8) {
        0..=1 => put_earlier(random, sample, number, certificate),
        2..=3 => sample.set_certificate(number, other),
        4 => put_earlier(random, sample, number, other),
        5 => {
            put_earlier(random, sample, number, certificate);
            sample.set_certificate(number, other);
        }
        _ => {}
    }
}

/// Its signer's boot is another; now and then its subject's.
fn with_other_boot(random: &mut Random, certificate: Certificate) -> Certificate {
    let Certificate { subject_boot, signer_boot, .. } = certificate;
    if random.once_in(6) {
        return Certificate { subject_boot: other_boot(random, subject_boot, signer_boot), ..certificate };
    }
    Certificate { signer_boot: other_boot(random, signer_boot, subject_boot), ..certificate }
}

/// The next one or the one before, where there is one; 0, the last, the certificate's other boot, or any.
fn other_boot(random: &mut Random, boot: u32, beside: u32) -> u32 {
    let (before, next) = (boot.saturating_sub(1), (boot + 1).min(CEILING));
    let any = any_boot(random);
    let picked = random.pick(&[before, before, next, next, 0, CEILING, beside, any]);
    match picked {
        _ if picked != boot => picked,
        0 => next,
        _ => before,
    }
}

/// Puts a certificate into an earlier slot than this, one that the call does not name.
fn put_earlier(random: &mut Random, sample: &mut Sample, number: u32, certificate: Certificate) {
    let line = &sample.line;
    let unnamed = |earlier: &u32| line.number != *earlier && !line.list.contains(earlier);
    let earlier: Vec<u32> = (0..number).filter(unnamed).collect();
    if !earlier.is_empty() {
        sample.set_certificate(random.pick(&earlier), certificate);
    }
}
