//! Open, with document 01's steps or a pool's own (document 02, #104). It reads no word of the memory, and of the blocks it
//! writes the record of block 0 alone (#105).

use crate::block::{self, Block};
use crate::log;
use crate::memory::*;
use crate::mistake::{Mistake, Rules};
use crate::refusal::*;
use crate::steps::{self, Steps};

/// The list is the pool's own steps; "Opening without steps, in a script with an empty list, writes the eight of 01."
pub fn open<R: Rules>(rules: R, m: &mut Memory, f: u32, list: &[u32]) -> Answer {
    open_beside(rules, m, f, list, true)
}

/// The same, lent a further slice: whether its length fits is tested with those of the three.
pub fn open_beside<R: Rules>(rules: R, m: &mut Memory, f: u32, list: &[u32], further_fits: bool) -> Answer {
    // Two tests stand here a second time, each one place early, for mistakes in the order.
    let steps = given_steps(rules, list);
    need(!rules.has(Mistake::OpenStepsFirst) || steps.is_some(), WRONG_STEPS)?;
    need((1..=MAX_F).contains(&f), OUT_OF_RANGE)?;
    need(!rules.has(Mistake::OpenLengthsFirst) || lengths_fit(rules, m, f), WRONG_FORM)?;
    write_early(rules, m, list);
    let steps = steps.ok_or(WRONG_STEPS)?;
    need(lengths_fit(rules, m, f) && further_fits, WRONG_FORM)?;
    let kept = rules.has(Mistake::OpenEmptyKeepsSteps) && list.is_empty() && m.steps().are_sound();
    write(rules, m, f, if kept { m.steps() } else { steps });
    Ok((m.replicas(), 0))
}

fn lengths_fit<R: Rules>(rules: R, m: &Memory, f: u32) -> bool {
    m.table.len() as u64 == table_length(f)
        && log::length_fits(rules, m.log, &log::OPENING)
        && block::length_fits(rules, m.blocks, &block::OPENING)
}

/// None where the list is neither empty nor eight sound steps.
fn given_steps<R: Rules>(rules: R, list: &[u32]) -> Option<Steps> {
    if list.is_empty() && !rules.has(Mistake::OpenEmptyRefused) {
        return Some(Steps::DEFAULT);
    }
    eight(rules, list).filter(|steps| steps.fit(rules, &steps::OPENING))
}

fn eight<R: Rules>(rules: R, list: &[u32]) -> Option<Steps> {
    let first_eight = rules.has(Mistake::OpenTakesNine) && list.len() == STEP_WORDS + 1
        || rules.has(Mistake::OpenTakesMore) && list.len() > STEP_WORDS;
    if first_eight {
        return Steps::from_words(&list[..STEP_WORDS]);
    }
    match list.last() {
        Some(&last) if rules.has(Mistake::OpenTakesSeven) && list.len() == STEP_WORDS - 1 => {
            Steps::from_words(&[list, &[last]].concat())
        }
        _ => Steps::from_words(list),
    }
}

/// By a mistake, steps are written before all tests are made.
fn write_early<R: Rules>(rules: R, m: &mut Memory, list: &[u32]) {
    let Some(steps) = Steps::from_words(list) else { return };
    let early = rules.has(Mistake::OpenWritesUnsound) || rules.has(Mistake::OpenWritesEarly) && steps.are_sound();
    if early && m.table.len() >= REPLICAS_START {
        m.set_steps(steps);
    }
}

fn write<R: Rules>(rules: R, m: &mut Memory, f: u32, steps: Steps) {
    m.table[header::F] = f;
    m.table[header::ISSUED] = 0;
    m.table[header::ADDED] = 1;
    m.set_steps(if rules.has(Mistake::OpenStepsNotKept) { Steps::DEFAULT } else { steps });
    first_block(rules, m).put(m.blocks, 0);
    if rules.has(Mistake::OpenClearsBlocks) {
        m.blocks[BLOCK_WORDS..].fill(0);
    }
    if rules.has(Mistake::OpenClearsLog) {
        m.log.fill(0);
    }
    for replica in 0..m.replicas() {
        m.set_replica(replica, Replica::fresh(first_limit(rules, steps)));
    }
}

/// "opening writes both words of block 0".
fn first_block<R: Rules>(rules: R, m: &Memory) -> Block {
    let mut block = Block::FIRST;
    if rules.has(Mistake::OpenParentLeft) {
        block.parent = m.parent(0);
    }
    if rules.has(Mistake::OpenHeightLeft) {
        block.height = m.height(0);
    }
    if rules.has(Mistake::OpenHeightOne) {
        block.height = 1;
    }
    block
}

fn first_limit<R: Rules>(rules: R, steps: Steps) -> u32 {
    if rules.has(Mistake::FirstLimitConstant) {
        Steps::DEFAULT.first()
    } else if rules.has(Mistake::FirstLimitSecond) {
        steps.of_boot(1)
    } else {
        steps.first()
    }
}
