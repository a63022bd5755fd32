//! Certificates, and filing them in the certificate log (document 01, "Kinds" and the sentence on equal ones; document 02,
//! #107: with the boot of the signer).

use crate::log::log_slots;
use crate::memory::{header, Memory, Replica, CERTIFICATE_WORDS};
use crate::mistake::{Mistake, Rules};
use crate::refusal::{Answer, NO_ROOM};
use crate::steps::LAST_STEP_BOOT;

pub const PROP: u32 = 1;
pub const COMMIT: u32 = 2;
pub const NEWVIEW: u32 = 3;
pub const ACC: u32 = 4;
pub const REQ: u32 = 5;
pub const REPLY: u32 = 6;
pub const FIRST_KIND: u32 = PROP;
pub const LAST_KIND: u32 = REPLY;

/// Filing put the certificate into a free slot.
pub const ADDED: u32 = 0;
/// Filing found an equal one in the log.
pub const FOUND: u32 = 1;

/// Where a certificate has each of its words.
pub mod certificate_word {
    pub const KIND: usize = 0;
    pub const SIGNER: usize = 1;
    pub const VIEW: usize = 2;
    pub const BLOCK: usize = 3;
    pub const OF_VIEW: usize = 4;
    pub const SUBJECT: usize = 5;
    pub const SUBJECT_BOOT: usize = 6;
    pub const SIGNER_BOOT: usize = 7;
}

/// Fields that a kind does not name are 0, but for the signer's boot, which every kind has.
#[derive(Clone, Copy, PartialEq, Eq, Debug, Default)]
pub struct Certificate {
    pub kind: u32,
    pub signer: u32,
    pub view: u32,
    pub block: u32,
    pub of_view: u32,
    pub subject: u32,
    /// In REQ and REPLY.
    pub subject_boot: u32,
    /// When it was issued.
    pub signer_boot: u32,
}

impl Certificate {
    pub fn from_words(w: &[u32]) -> Certificate {
        Certificate {
            kind: w[certificate_word::KIND],
            signer: w[certificate_word::SIGNER],
            view: w[certificate_word::VIEW],
            block: w[certificate_word::BLOCK],
            of_view: w[certificate_word::OF_VIEW],
            subject: w[certificate_word::SUBJECT],
            subject_boot: w[certificate_word::SUBJECT_BOOT],
            signer_boot: w[certificate_word::SIGNER_BOOT],
        }
    }

    pub fn words(&self) -> [u32; CERTIFICATE_WORDS] {
        let mut w = [0; CERTIFICATE_WORDS];
        w[certificate_word::KIND] = self.kind;
        w[certificate_word::SIGNER] = self.signer;
        w[certificate_word::VIEW] = self.view;
        w[certificate_word::BLOCK] = self.block;
        w[certificate_word::OF_VIEW] = self.of_view;
        w[certificate_word::SUBJECT] = self.subject;
        w[certificate_word::SUBJECT_BOOT] = self.subject_boot;
        w[certificate_word::SIGNER_BOOT] = self.signer_boot;
        w
    }

    /// The same of another boot of its signer: one was made before a cut, the other after it.
    pub fn is_twin(&self, other: &Certificate) -> bool {
        self.signer_boot != other.signer_boot && Certificate { signer_boot: other.signer_boot, ..*self } == *other
    }
}

/// Where an issued certificate goes: the number it has already, or the next free one.
enum Slot {
    Found(u32),
    Free(u32),
}

impl Memory<'_> {
    /// The certificate of that number; all zeros past the slice, so that reading is total.
    pub fn certificate(&self, number: u32) -> Certificate {
        let mut slots = self.log.chunks_exact(CERTIFICATE_WORDS);
        slots.nth(number as usize).map_or(Certificate::default(), Certificate::from_words)
    }

    /// An issuing call's end: the certificate gets its signer's boot and is filed, found or added; the signer's words become
    /// `after`. No such call changes the boot.
    pub fn issue<R: Rules>(&mut self, rules: R, unsigned: Certificate, after: Replica) -> Answer {
        let certificate = signed(rules, unsigned, after.boot);
        let slot = self.slot_for(rules, certificate)?;
        if matches!(slot, Slot::Free(_)) || !rules.has(Mistake::FoundChangesNothing) {
            self.set_replica(certificate.signer, after);
        }
        Ok(self.file(rules, slot, certificate))
    }

    /// The first equal certificate's number, else a free slot, else `NO_ROOM`.
    fn slot_for<R: Rules>(&self, rules: R, certificate: Certificate) -> Result<Slot, u32> {
        let words = certificate.words();
        let issued = self.issued() as usize;
        let mut slots = self.log.chunks_exact(CERTIFICATE_WORDS).take(issued);
        let full = self.is_full();
        let equal = |slot: &[u32]| slot == words || equal_by_mistake(rules, certificate, slot, full);
        let found = if rules.has(Mistake::FoundLastEqual) {
            slots.rposition(equal)
        } else if rules.has(Mistake::EqualFirstOfSeven) {
            let twin = |slot: &[u32]| certificate.is_twin(&Certificate::from_words(slot));
            slots
                .position(|slot| slot == words || twin(slot))
                .filter(|&number| self.certificate(number as u32) == certificate)
        } else {
            slots.position(equal)
        };
        let unheeded = rules.has(Mistake::FiledAgain) || rules.has(Mistake::NineWhereFound) && full;
        match found {
            Some(number) if !unheeded => Ok(Slot::Found(number as u32)),
            _ if issued + usize::from(rules.has(Mistake::NineTooEarly)) < self.capacity() => {
                Ok(Slot::Free(issued as u32))
            }
            _ => Err(NO_ROOM),
        }
    }

    fn capacity(&self) -> usize {
        log_slots(self.log)
    }

    fn is_full(&self) -> bool {
        self.issued() as usize >= self.capacity()
    }

    /// Writes the certificate where it is new; its number and which of the two, the call's values. Document 02: "The
    /// filing step now says which, and every issuing call hands that up: the second value is 1 for a certificate
    /// found, 0 for one added."
    fn file<R: Rules>(&mut self, rules: R, slot: Slot, certificate: Certificate) -> (u32, u32) {
        match slot {
            Slot::Found(number) if self.hides_found(rules, number, certificate.kind) => (number, ADDED),
            Slot::Found(number) => (number, FOUND),
            Slot::Free(number) => {
                let told = if self.feigns_found(rules, number, certificate) { FOUND } else { ADDED };
                let mut certificate = certificate;
                if rules.has(Mistake::SignerBootLeft) {
                    certificate.signer_boot = self.certificate(number).signer_boot;
                }
                let start = CERTIFICATE_WORDS * number as usize;
                self.log[start..start + CERTIFICATE_WORDS].copy_from_slice(&certificate.words());
                if !rules.has(Mistake::CountStays) {
                    self.table[header::ISSUED] += 1;
                }
                (number, told)
            }
        }
    }

    /// By a mistake, a certificate found is told as added.
    fn hides_found<R: Rules>(&self, rules: R, number: u32, kind: u32) -> bool {
        rules.has(Mistake::FoundToldAdded)
            || rules.has(tells_added(kind))
            || rules.has(Mistake::FoundOnlyFull) && !self.is_full()
            || rules.has(Mistake::FoundNeverFull) && self.is_full()
            || rules.has(Mistake::FoundByLaterCount) && number + 1 == self.issued()
    }

    /// By a mistake, a certificate added is told as found.
    fn feigns_found<R: Rules>(&self, rules: R, number: u32, certificate: Certificate) -> bool {
        rules.has(Mistake::AddedToldFound)
            || rules.has(Mistake::FoundByWords) && self.certificate(number) == certificate
    }
}

/// With "the boot of its signer when it was issued".
fn signed<R: Rules>(rules: R, unsigned: Certificate, boot: u32) -> Certificate {
    let signer_boot = match boot {
        _ if rules.has(Mistake::SignerBootZero) || rules.has(leaves_boot_zero(unsigned.kind)) => 0,
        _ if rules.has(Mistake::SignerBootSubjects) => unsigned.subject_boot,
        _ if rules.has(Mistake::SignerBootNext) => boot + 1,
        _ if rules.has(Mistake::SignerBootBefore) => boot.saturating_sub(1),
        _ if rules.has(Mistake::SignerBootCapped) => boot.min(LAST_STEP_BOOT),
        _ => boot,
    };
    if rules.has(Mistake::BootsSwapped) {
        return Certificate { subject_boot: boot, signer_boot: unsigned.subject_boot, ..unsigned };
    }
    Certificate { signer_boot, ..unsigned }
}

/// By a mistake, an issued certificate that differs in one boot alone is equal too.
fn equal_by_mistake<R: Rules>(rules: R, certificate: Certificate, slot: &[u32], full: bool) -> bool {
    let issued = Certificate::from_words(slot);
    let kind = certificate.kind;
    let in_seven = rules.has(Mistake::EqualInSeven)
        || rules.has(Mistake::AccEqualInSeven) && kind == ACC
        || rules.has(Mistake::ReplyEqualInSeven) && kind == REPLY
        || rules.has(Mistake::FullEqualInSeven) && full
        || rules.has(Mistake::EqualLaterBoot) && issued.signer_boot > certificate.signer_boot;
    let subject_boot = issued.subject_boot;
    in_seven && certificate.is_twin(&issued)
        || rules.has(Mistake::EqualAnySubjectBoot) && Certificate { subject_boot, ..certificate } == issued
}

/// The mistake of the call that issues this kind: the signer's boot stays 0.
fn leaves_boot_zero(kind: u32) -> Mistake {
    match kind {
        PROP => Mistake::PropBootZero,
        COMMIT => Mistake::CommitBootZero,
        NEWVIEW => Mistake::NewviewBootZero,
        ACC => Mistake::AccBootZero,
        REQ => Mistake::ReqBootZero,
        _ => Mistake::ReplyBootZero,
    }
}

/// The mistake of the call that issues this kind: it tells every certificate as added.
fn tells_added(kind: u32) -> Mistake {
    match kind {
        PROP => Mistake::PrepareTellsAdded,
        COMMIT => Mistake::StoreTellsAdded,
        NEWVIEW => Mistake::ViewTellsAdded,
        ACC => Mistake::AccumulateTellsAdded,
        REQ => Mistake::RequestTellsAdded,
        _ => Mistake::ReplyTellsAdded,
    }
}
