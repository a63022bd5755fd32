//! The form that every call but opening tests (document 01, "Form"; document 02, #104: the steps too, #105: the heights,
//! #107: the boot of a certificate's signer).

use crate::block::{self, block_slots, Block};
use crate::certificate::{certificate_word, FIRST_KIND, LAST_KIND, REQ};
use crate::log::{self, log_slots};
use crate::memory::*;
use crate::mistake::{Mistake, Rules};
use crate::steps::{self, Steps};

/// Lengths, f, counts, steps, blocks, replicas and certificates are all as the documents say.
pub fn well_formed<R: Rules>(rules: R, m: &Memory) -> bool {
    lengths_fit(rules, m)
        && counts_fit(rules, m)
        && steps_fit(rules, m)
        && blocks_fit(rules, m)
        && replicas_fit(rules, m)
        && certificates_fit(rules, m)
}

fn lengths_fit<R: Rules>(rules: R, m: &Memory) -> bool {
    let words = m.table.len() as u64;
    m.table.len() >= HEADER_WORDS
        && (rules.has(Mistake::FormF) || (1..=MAX_F).contains(&m.f()))
        && (words == table_length(m.f()) || rules.has(Mistake::FormTableLonger) && words > table_length(m.f()))
        && log::length_fits(rules, m.log, &log::FORM)
        && block::length_fits(rules, m.blocks, &block::FORM)
}

fn counts_fit<R: Rules>(rules: R, m: &Memory) -> bool {
    let slots = log_slots(m.log);
    let by_words = rules.has(Mistake::FormAddedByWords);
    let most_added = if by_words { m.blocks.len() } else { block_slots(m.blocks) };
    (rules.has(Mistake::FormIssued) || m.issued() as usize <= slots)
        && (rules.has(Mistake::FormAdded) || m.added() as usize <= most_added)
        && m.added() >= 1
}

fn steps_fit<R: Rules>(rules: R, m: &Memory) -> bool {
    let steps = m.steps();
    (steps.fit(rules, &steps::FORM) || rules.has(Mistake::FormSteps))
        && (steps == Steps::DEFAULT || !rules.has(Mistake::FormOwnSteps))
}

fn blocks_fit<R: Rules>(rules: R, m: &Memory) -> bool {
    let mut records = (0..).zip(m.blocks.chunks_exact(BLOCK_WORDS).map(Block::from_words));
    let mut added = records.by_ref().take(m.added() as usize);
    let added_fit = added.all(|(number, block)| block_fits(rules, m, number, block));
    let mut past_fit = || records.all(|(number, block)| height_fits(rules, m, number, block));
    added_fit && (!rules.has(Mistake::FormHeightsPast) || past_fit())
}

fn block_fits<R: Rules>(rules: R, m: &Memory, number: u32, block: Block) -> bool {
    if number == 0 {
        let any_height = rules.has(Mistake::FormRootHeight) || rules.has(Mistake::FormHeights);
        return (block.parent == Block::FIRST.parent || rules.has(Mistake::FormRoot))
            && (block.height == Block::FIRST.height || any_height);
    }
    let as_first = rules.has(Mistake::FormSecondRoot) && block == Block { parent: number, ..Block::FIRST };
    let falls = block.parent < number || rules.has(Mistake::FormParent);
    falls && height_fits(rules, m, number, block) || as_first
}

/// One more than the parent's, as numbers: heights do not wrap round.
fn height_fits<R: Rules>(rules: R, m: &Memory, number: u32, block: Block) -> bool {
    let below = match block.parent {
        _ if rules.has(Mistake::FormHeightBefore) => m.height(number - 1),
        parent if rules.has(Mistake::FormHeightOnNumber) => parent,
        parent => m.height(parent),
    };
    let (height, needed) = (u64::from(block.height), u64::from(below) + 1);
    height == needed
        || rules.has(Mistake::FormHeights)
        || rules.has(Mistake::FormHeightAbove) && height > needed
        || rules.has(Mistake::FormHeightUpTo) && height < needed
        || rules.has(Mistake::FormLastHeight) && number + 1 == m.added()
}

fn replicas_fit<R: Rules>(rules: R, m: &Memory) -> bool {
    let tested = m.replicas() as usize - usize::from(rules.has(Mistake::FormLastReplica));
    m.table[REPLICAS_START..]
        .chunks_exact(REPLICA_WORDS)
        .take(tested)
        .all(|words| replica_fits(rules, m.added(), Replica::from_words(words)))
}

fn replica_fits<R: Rules>(rules: R, added: u32, r: Replica) -> bool {
    (rules.has(Mistake::FormStatus) || r.status <= RETIRED)
        && (rules.has(Mistake::FormFlag) || r.flag <= 1)
        && (rules.has(Mistake::FormBoot) || r.boot <= CEILING)
        && 1 <= r.min_view
        && (rules.has(Mistake::FormMinView) || r.min_view <= r.view_limit)
        && (rules.has(Mistake::FormViewLimit) || r.view_limit <= CEILING)
        && (rules.has(Mistake::FormStoredView) || r.stored_view < r.min_view)
        && (rules.has(Mistake::FormDecidedView) || r.decided_view <= CEILING)
        && (rules.has(Mistake::FormStoredBlock) || r.stored_block < added)
        && (rules.has(Mistake::FormDecidedBlock) || r.decided_block < added)
}

fn certificates_fit<R: Rules>(rules: R, m: &Memory) -> bool {
    let last = usize::from(rules.has(Mistake::FormLastCertificate));
    let tested = (m.issued() as usize).saturating_sub(last);
    m.log.chunks_exact(CERTIFICATE_WORDS).take(tested).all(|words| certificate_fits(rules, m, words))
}

fn certificate_fits<R: Rules>(rules: R, m: &Memory, w: &[u32]) -> bool {
    (rules.has(Mistake::FormKind) || kind_fits(rules, w[certificate_word::KIND]))
        && (rules.has(Mistake::FormSigner) || w[certificate_word::SIGNER] < m.replicas())
        && (rules.has(Mistake::FormView) || w[certificate_word::VIEW] <= CEILING)
        && (rules.has(Mistake::FormBlock) || w[certificate_word::BLOCK] < m.added())
        && (rules.has(Mistake::FormOfView) || w[certificate_word::OF_VIEW] <= CEILING)
        && (rules.has(Mistake::FormSubject) || w[certificate_word::SUBJECT] < m.replicas())
        && (rules.has(Mistake::FormSubjectBoot) || w[certificate_word::SUBJECT_BOOT] <= CEILING)
        && signer_boot_fits(rules, m, w)
}

/// "The form test bounds the new word at 1,000,000", and no more is asked of it.
fn signer_boot_fits<R: Rules>(rules: R, m: &Memory, w: &[u32]) -> bool {
    let boot = w[certificate_word::SIGNER_BOOT];
    let (past, strict) = (rules.has(Mistake::FormSignerBootPast), rules.has(Mistake::FormSignerBootStrict));
    let most = CEILING + u32::from(past) - u32::from(strict);
    let asks_subjects = rules.has(Mistake::FormReqBoots) && w[certificate_word::KIND] == REQ;
    (boot <= most || rules.has(Mistake::FormSignerBoot))
        && (!rules.has(Mistake::FormSignerBootReached) || boot <= m.replica(w[certificate_word::SIGNER]).boot)
        && (!asks_subjects || boot == w[certificate_word::SUBJECT_BOOT])
}

fn kind_fits<R: Rules>(rules: R, kind: u32) -> bool {
    (FIRST_KIND..=LAST_KIND).contains(&kind) || rules.has(Mistake::FormKindZero) && kind == 0
}
