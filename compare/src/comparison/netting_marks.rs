//! What a netting can show that the generators are meant to reach: each refusal for each of its reasons alone, two
//! refusals at once, every limit met, balances of either sign.

use super::height_marks::FAR;
use crate::ancestry::ancestors;
use crate::block::Block;
use crate::form::well_formed;
use crate::generate::netting::{netting, Netting, DECIDED_BLOCKS, NETTING_SORTS};
use crate::memory::*;
use crate::mistake::Correct;
use crate::netting::{Movement, MAX_BALANCE};
use crate::refusal::*;

/// A netting and what it gives.
struct Seen {
    netting: Netting,
    sound_memory: bool,
    n: u64,
    added: u32,
    list: Vec<Movement>,
    /// The chosen block's, in rising order.
    ancestry: Vec<u32>,
    answer: Result<i32, u32>,
}

impl Seen {
    fn of(seed: u64) -> Seen {
        let mut netting = netting(seed);
        let word = |place: usize| netting.memory.table.get(place).copied().unwrap_or(0);
        let (n, added) = (2 * u64::from(word(header::F)) + 1, word(header::ADDED));
        let list = netting.movements.chunks_exact(MOVEMENT_WORDS).map(Movement::from_words).collect();
        let sound_memory = well_formed(Correct, &netting.memory.memory());
        let mut ancestry: Vec<u32> = ancestors(&netting.memory.blocks, netting.block).collect();
        ancestry.reverse();
        let answer = netting.run(Correct);
        Seen { netting, sound_memory, n, added, list, ancestry, answer }
    }

    fn any(&self, test: impl Fn(&Movement) -> bool) -> bool {
        self.list.iter().any(test)
    }

    fn is_replica(&self, replica: u32) -> bool {
        u64::from(replica) < self.n
    }

    fn last_added(&self) -> u32 {
        self.added.saturating_sub(1)
    }

    /// How many of the reasons hold that give this refusal.
    fn reasons(&self, refusal: u32) -> usize {
        REASONS.iter().filter(|(_, number, holds)| *number == refusal && holds(self)).count()
    }

    fn all_reasons(&self) -> usize {
        REASONS.iter().filter(|(_, _, holds)| holds(self)).count()
    }

    fn least_reason(&self) -> Option<u32> {
        REASONS.iter().filter(|(_, _, holds)| holds(self)).map(|(_, number, _)| *number).min()
    }

    fn counts(&self, movement: &Movement) -> bool {
        self.ancestry.binary_search(&movement.block).is_ok()
    }

    fn accepts(&self, test: impl Fn(&Movement) -> bool) -> bool {
        self.answer.is_ok() && self.any(test)
    }

    fn is_long(&self, movements: usize) -> bool {
        self.answer.is_ok() && self.netting.movements.len() == MOVEMENT_WORDS * movements
    }

    /// The chosen replica gives or takes where it counts.
    fn takes_part(&self) -> bool {
        let replica = self.netting.replica;
        self.any(|m| (m.giver == replica || m.taker == replica) && self.counts(m))
    }

    /// A movement outside the rules for its boxes or pallets, and whether it would count.
    fn wrong_movement(&self, counts: bool) -> bool {
        self.answer == Err(WRONG_MOVEMENT)
            && self.any(|m| m.block != 0 && m.block < self.added && self.is_wrong(m) && self.counts(m) == counts)
    }

    fn is_wrong(&self, m: &Movement) -> bool {
        !self.is_replica(m.giver)
            || !self.is_replica(m.taker)
            || m.giver == m.taker
            || !(1..=MAX_PALLETS).contains(&m.pallets)
    }

    /// Heights of the decided blocks, where a run has left them.
    fn decided_heights(&self) -> Vec<u32> {
        let Netting { sort, memory, .. } = &self.netting;
        let replicas = memory.table.get(REPLICAS_START..).unwrap_or(&[]).chunks_exact(REPLICA_WORDS);
        let decided = replicas.map(|words| self.height(Replica::from_words(words).decided_block));
        if *sort == DECIDED_BLOCKS && self.sound_memory {
            decided.filter(|&height| height > 0).collect()
        } else {
            Vec::new()
        }
    }

    fn chosen_height(&self) -> u32 {
        self.ancestry.len() as u32 - 1
    }

    /// As the block's record has it.
    fn height(&self, block: u32) -> u32 {
        Block::at(&self.netting.memory.blocks, block).unwrap_or_default().height
    }

    /// Wrong form, and the chosen block's record has another height than its ancestry.
    fn wrong_height(&self) -> bool {
        let added = self.netting.block < self.added;
        !self.sound_memory && added && self.height(self.netting.block) != self.chosen_height()
    }

    /// Whole records so many, then a part of one: refused for that, and maybe for its length too.
    fn broken_after(&self, movements: usize) -> bool {
        self.list.len() == movements
            && !self.netting.movements.len().is_multiple_of(MOVEMENT_WORDS)
            && self.sound_memory
            && self.answer == Err(WRONG_FORM)
    }

    /// One of several movements is wrong, the one that `place` picks.
    fn wrong_alone(&self, place: fn(&[Movement]) -> Option<&Movement>) -> bool {
        self.answer == Err(WRONG_MOVEMENT)
            && self.list.len() > 2
            && place(&self.list).is_some_and(|m| self.is_wrong(m))
            && self.list.iter().filter(|m| self.is_wrong(m)).count() == 1
    }
}

type Test = fn(&Seen) -> bool;

/// Why a netting is refused: in words, the number, and whether it holds.
const REASONS: &[(&str, u32, Test)] = &[
    ("wrong form", WRONG_FORM, |seen| !seen.sound_memory),
    ("broken records", WRONG_FORM, |seen| !seen.netting.movements.len().is_multiple_of(MOVEMENT_WORDS)),
    ("too many movements", WRONG_FORM, |seen| seen.netting.movements.len() > MOVEMENT_WORDS * MAX_MOVEMENTS),
    ("a chosen replica that is none", OUT_OF_RANGE, |seen| !seen.is_replica(seen.netting.replica)),
    ("a chosen block not added", UNKNOWN_NUMBER, |seen| seen.netting.block >= seen.added),
    ("a movement of block 0", WRONG_MOVEMENT, |seen| seen.any(|m| m.block == 0)),
    ("a movement of a block not added", WRONG_MOVEMENT, |seen| seen.any(|m| m.block >= seen.added)),
    ("a giver that is no replica", WRONG_MOVEMENT, |seen| seen.any(|m| !seen.is_replica(m.giver))),
    ("a taker that is no replica", WRONG_MOVEMENT, |seen| seen.any(|m| !seen.is_replica(m.taker))),
    ("giver and taker equal", WRONG_MOVEMENT, |seen| seen.any(|m| m.giver == m.taker)),
    ("no pallets", WRONG_MOVEMENT, |seen| seen.any(|m| m.pallets == 0)),
    ("too many pallets", WRONG_MOVEMENT, |seen| seen.any(|m| m.pallets > MAX_PALLETS)),
];

const PAIRS: &[(u32, u32)] = &[
    (WRONG_FORM, OUT_OF_RANGE),
    (WRONG_FORM, UNKNOWN_NUMBER),
    (WRONG_FORM, WRONG_MOVEMENT),
    (OUT_OF_RANGE, UNKNOWN_NUMBER),
    (OUT_OF_RANGE, WRONG_MOVEMENT),
    (UNKNOWN_NUMBER, WRONG_MOVEMENT),
];

const MARKS: &[(&str, Test)] = &[
    ("an empty list", |seen| seen.is_long(0)),
    ("one movement", |seen| seen.is_long(1)),
    ("one movement less than the most", |seen| seen.is_long(MAX_MOVEMENTS - 1)),
    ("the most movements", |seen| seen.is_long(MAX_MOVEMENTS)),
    ("one movement more than the most", |seen| seen.list.len() == MAX_MOVEMENTS + 1 && seen.all_reasons() == 1),
    ("broken records, one movement less than the most", |seen| seen.broken_after(MAX_MOVEMENTS - 1)),
    ("broken records after the most movements", |seen| seen.broken_after(MAX_MOVEMENTS)),
    ("a balance above 0", |seen| seen.answer.is_ok_and(|balance| balance > 0)),
    ("a balance below 0", |seen| seen.answer.is_ok_and(|balance| balance < 0)),
    ("a balance of 0 of one that gave and took", |seen| seen.answer == Ok(0) && seen.takes_part()),
    ("a balance of 0 of one with no part", |seen| seen.answer == Ok(0) && !seen.takes_part()),
    ("the greatest balance", |seen| seen.answer == Ok(MAX_BALANCE)),
    ("the least balance", |seen| seen.answer == Ok(-MAX_BALANCE)),
    ("one pallet", |seen| seen.accepts(|m| m.pallets == 1)),
    ("the most pallets", |seen| seen.accepts(|m| m.pallets == MAX_PALLETS)),
    ("one pallet more than the most", |seen| seen.any(|m| m.pallets == MAX_PALLETS + 1) && seen.all_reasons() == 1),
    ("a movement of the last added block", |seen| seen.accepts(|m| m.block == seen.last_added())),
    ("a movement of the first block not added", |seen| seen.any(|m| m.block == seen.added) && seen.all_reasons() == 1),
    ("the last replica gives", |seen| seen.accepts(|m| u64::from(m.giver) + 1 == seen.n)),
    ("the last replica takes", |seen| seen.accepts(|m| u64::from(m.taker) + 1 == seen.n)),
    ("the giver is one past the last", |seen| seen.any(|m| u64::from(m.giver) == seen.n) && seen.all_reasons() == 1),
    ("the taker is one past the last", |seen| seen.any(|m| u64::from(m.taker) == seen.n) && seen.all_reasons() == 1),
    ("block 0 chosen", |seen| seen.netting.block == 0 && seen.accepts(|_| true)),
    ("the last added block chosen", |seen| seen.netting.block == seen.last_added() && seen.accepts(|_| true)),
    ("the first block not added chosen", |seen| seen.netting.block == seen.added && seen.all_reasons() == 1),
    ("the last replica chosen", |seen| u64::from(seen.netting.replica) + 1 == seen.n && seen.accepts(|_| true)),
    ("one past the last replica chosen", |seen| u64::from(seen.netting.replica) == seen.n && seen.all_reasons() == 1),
    ("the greatest f", |seen| seen.n == u64::from(MAX_REPLICAS) && seen.accepts(|_| true)),
    ("the greatest height", |seen| seen.chosen_height() as usize + 1 == MAX_BLOCKS && seen.accepts(|m| seen.counts(m))),
    ("a fork: movements inside and outside the ancestry", |seen| {
        seen.accepts(|m| !seen.counts(m)) && seen.any(|m| seen.counts(m))
    }),
    ("a fork: outside, of a lower number", |seen| seen.accepts(|m| m.block < seen.netting.block && !seen.counts(m))),
    ("a fork: outside, no higher than the chosen block", |seen| {
        seen.accepts(|m| !seen.counts(m) && seen.height(m.block) <= seen.chosen_height())
    }),
    ("wrong form: another height of the chosen block", |seen| seen.wrong_height()),
    ("wrong form: another height far up the chain", |seen| seen.wrong_height() && seen.chosen_height() > FAR),
    ("a wrong movement that would count", |seen| seen.wrong_movement(true)),
    ("a wrong movement that would not count", |seen| seen.wrong_movement(false)),
    ("a wrong first movement", |seen| seen.wrong_alone(|list| list.first())),
    ("a wrong last movement", |seen| seen.wrong_alone(|list| list.last())),
    ("a decided block chosen", |seen| seen.answer.is_ok() && seen.decided_heights().contains(&seen.chosen_height())),
    ("two decided blocks of different height", |seen| {
        let heights = seen.decided_heights();
        seen.accepts(|_| true) && heights.iter().any(|height| *height != heights[0])
    }),
];

/// Every mark by its name, with how many nettings reach it. A netting whose answer is not the least reason is an error.
pub fn reached(seed: u64, nettings: u64) -> Result<Vec<(String, u64)>, String> {
    let mut all: Vec<(String, u64)> = names().into_iter().map(|name| (format!("netting: {name}"), 0)).collect();
    for seed in seed..seed + nettings {
        let seen = Seen::of(seed);
        if seen.answer.err() != seen.least_reason() {
            return Err(format!(
                "netting {seed}: {:?}, but the least reason is {:?}",
                seen.answer,
                seen.least_reason()
            ));
        }
        all.iter_mut().zip(hits(&seen)).for_each(|(mark, hit)| mark.1 += u64::from(hit));
    }
    Ok(all)
}

fn names() -> Vec<String> {
    let sorts = NETTING_SORTS.iter().map(|sort| sort.to_string());
    let reasons = REASONS.iter().map(|(name, number, _)| format!("{number} for {name} alone"));
    let pairs = PAIRS.iter().map(|(first, second)| format!("{first} where {second} holds too"));
    let marks = MARKS.iter().map(|(name, _)| name.to_string());
    sorts.chain(reasons).chain(pairs).chain(marks).collect()
}

/// In the order of the names.
fn hits(seen: &Seen) -> Vec<bool> {
    let alone = seen.all_reasons() == 1;
    let sorts = NETTING_SORTS.iter().map(|sort| seen.netting.sort == *sort);
    let reasons = REASONS.iter().map(|(_, _, holds)| alone && holds(seen));
    let pairs = PAIRS.iter().map(|(first, second)| seen.answer == Err(*first) && seen.reasons(*second) > 0);
    let marks = MARKS.iter().map(|(_, holds)| holds(seen));
    sorts.chain(reasons).chain(pairs).chain(marks).collect()
}
