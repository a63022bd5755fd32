//! What the calls ask of a list of certificate numbers.

use crate::certificate::{Certificate, COMMIT};
use crate::memory::Memory;
use crate::mistake::{Mistake, Rules};

/// One call's own mistakes about a list's signers.
pub struct Signers {
    twice: Mistake,
    by_boot: Mistake,
    one_boot: Mistake,
    present_boot: Mistake,
}

pub const OF_COMMITS: Signers = Signers {
    twice: Mistake::CommitsSignerTwice,
    by_boot: Mistake::CommitsByBoot,
    one_boot: Mistake::CommitsOneBoot,
    present_boot: Mistake::CommitsPresentBoot,
};

pub const OF_PROMISES: Signers = Signers {
    twice: Mistake::AccumulateSignerTwice,
    by_boot: Mistake::AccumulateByBoot,
    one_boot: Mistake::AccumulateOneBoot,
    present_boot: Mistake::AccumulatePresentBoot,
};

pub const OF_REPLIES: Signers = Signers {
    twice: Mistake::RecoverSignerTwice,
    by_boot: Mistake::RecoverByBoot,
    one_boot: Mistake::RecoverOneBoot,
    present_boot: Mistake::RecoverPresentBoot,
};

impl Memory<'_> {
    pub fn is_list_length<R: Rules>(&self, rules: R, list: &[u32]) -> bool {
        let needed = self.f() as usize + 1;
        list.len() == needed || rules.has(Mistake::ListAnyLength) && list.len() > needed
    }

    pub fn all_issued(&self, list: &[u32]) -> bool {
        list.iter().all(|&number| self.is_issued(number))
    }

    pub fn all(&self, list: &[u32], test: impl Fn(Certificate) -> bool) -> bool {
        list.iter().all(|&number| test(self.certificate(number)))
    }

    /// "Signers in a list differ by box, never by boot", and nothing is asked of their boots.
    pub fn signers_fit<R: Rules>(&self, rules: R, list: &[u32], signers: &Signers) -> bool {
        let by_boot = rules.has(signers.by_boot);
        let first = self.certificate(list[0]);
        (self.different_signers(list, by_boot) || rules.has(signers.twice))
            && (!rules.has(signers.one_boot) || self.all(list, |c| c.signer_boot == first.signer_boot))
            && (!rules.has(signers.present_boot) || self.all(list, |c| self.is_of_present_boot(c)))
    }

    fn different_signers(&self, list: &[u32], by_boot: bool) -> bool {
        list.iter().enumerate().all(|(place, &number)| {
            let Certificate { signer, signer_boot, .. } = self.certificate(number);
            self.all(&list[..place], |earlier| {
                earlier.signer != signer || by_boot && earlier.signer_boot != signer_boot
            })
        })
    }

    /// Its signer has not been cut since. Only mistakes ask for it.
    pub fn is_of_present_boot(&self, c: Certificate) -> bool {
        c.signer_boot == self.replica(c.signer).boot
    }

    /// Document 01: matching commits. Their view and block, or none if they do not match.
    pub fn commit_quorum<R: Rules>(&self, rules: R, list: &[u32]) -> Option<(u32, u32)> {
        let first = self.certificate(*list.first()?);
        let matching = self.all(list, |c| {
            (c.kind == COMMIT || rules.has(Mistake::CommitsAnyKind))
                && (c.view == first.view || rules.has(Mistake::CommitsAnyView))
                && (c.block == first.block || rules.has(Mistake::CommitsAnyBlock))
        });
        (matching && self.signers_fit(rules, list, &OF_COMMITS)).then_some((first.view, first.block))
    }

    /// The certificate of greatest of-view, the first in the list if several.
    pub fn greatest(&self, list: &[u32], last_of_equal: bool) -> Certificate {
        let mut best = self.certificate(list[0]);
        for &number in &list[1..] {
            let next = self.certificate(number);
            if next.of_view > best.of_view || last_of_equal && next.of_view == best.of_view {
                best = next;
            }
        }
        best
    }
}
