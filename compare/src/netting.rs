//! Netting of movements (document 02, #101): a firm's balance by the movements up to a chosen block.

use crate::ancestry::ancestors;
use crate::form::well_formed;
use crate::memory::*;
use crate::mistake::{Mistake, Rules};
use crate::refusal::{need, OUT_OF_RANGE, UNKNOWN_NUMBER, WRONG_FORM, WRONG_MOVEMENT};

/// What no balance passes, either way.
pub const MAX_BALANCE: i32 = MAX_MOVEMENTS as i32 * MAX_PALLETS as i32;

/// "A movement is four words: block, giver, taker, pallets."
#[derive(Clone, Copy, PartialEq, Eq, Debug, Default)]
pub struct Movement {
    pub block: u32,
    pub giver: u32,
    pub taker: u32,
    pub pallets: u32,
}

impl Movement {
    pub fn from_words(w: &[u32]) -> Movement {
        Movement {
            block: w[movement_word::BLOCK],
            giver: w[movement_word::GIVER],
            taker: w[movement_word::TAKER],
            pallets: w[movement_word::PALLETS],
        }
    }

    pub fn words(&self) -> [u32; MOVEMENT_WORDS] {
        let mut w = [0; MOVEMENT_WORDS];
        w[movement_word::BLOCK] = self.block;
        w[movement_word::GIVER] = self.giver;
        w[movement_word::TAKER] = self.taker;
        w[movement_word::PALLETS] = self.pallets;
        w
    }
}

/// "The values are a chosen firm's balance and 0": the balance, or the refusal. No word changes.
pub fn balance<R: Rules>(rules: R, m: &Memory, movements: &[u32], block: u32, replica: u32) -> Result<i32, u32> {
    // Three tests stand here a second time, each one place early, for mistakes in the order.
    need(well_formed(rules, m), WRONG_FORM)?;
    need(!rules.has(Mistake::NettingReplicaFirst) || m.is_replica(replica), OUT_OF_RANGE)?;
    need(list_fits(rules, movements), WRONG_FORM)?;
    need(!rules.has(Mistake::NettingBlockFirst) || m.is_added(block), UNKNOWN_NUMBER)?;
    need(m.is_replica(replica) || rules.has(Mistake::NettingAnyReplica), OUT_OF_RANGE)?;
    need(!rules.has(Mistake::NettingMovementsFirst) || all_fit(rules, m, movements), WRONG_MOVEMENT)?;
    need(may_be_chosen(rules, m, block), UNKNOWN_NUMBER)?;
    let counted = Counted::up_to(rules, m, block);
    let mut balance = 0;
    for (place, movement) in records(rules, movements).enumerate() {
        let again = || records(rules, movements).take(place).any(|earlier| earlier == movement);
        let counts = counted.has(rules, movement.block) && !(rules.has(Mistake::NettingOnce) && again());
        let tested = counts || !rules.has(Mistake::NettingCountedOnly);
        // "11 for a movement outside these rules, its block and boxes included, after 3."
        need(!tested || fits(rules, m, movement), WRONG_MOVEMENT)?;
        if counts {
            balance += moved(rules, movement, replica);
        }
    }
    Ok(if rules.has(Mistake::NettingUnsigned) { balance.max(0) } else { balance })
}

/// "at most 2,048 movements are lent"; "1 for a movement list longer than this or of broken records".
pub fn list_fits<R: Rules>(rules: R, movements: &[u32]) -> bool {
    let most = MAX_MOVEMENTS + usize::from(rules.has(Mistake::NettingLong));
    (movements.len().is_multiple_of(MOVEMENT_WORDS) || rules.has(Mistake::NettingBroken))
        && movements.len() <= most * MOVEMENT_WORDS
        && !(movements.is_empty() && rules.has(Mistake::NettingEmpty))
}

pub fn records<R: Rules>(rules: R, movements: &[u32]) -> impl Iterator<Item = Movement> + '_ {
    let last = usize::from(rules.has(Mistake::NettingLast));
    let count = (movements.len() / MOVEMENT_WORDS).saturating_sub(last);
    movements.chunks_exact(MOVEMENT_WORDS).take(count).map(Movement::from_words)
}

/// An added block, 0 too.
fn may_be_chosen<R: Rules>(rules: R, m: &Memory, block: u32) -> bool {
    (m.is_added(block) || rules.has(Mistake::NettingAnyBlock)) && !(block == 0 && rules.has(Mistake::NettingChosenZero))
}

pub fn all_fit<R: Rules>(rules: R, m: &Memory, movements: &[u32]) -> bool {
    records(rules, movements).all(|movement| fits(rules, m, movement))
}

/// "Giver and taker are different boxes, pallets are 1 to 10,000, the block is an added one other than 0".
pub fn fits<R: Rules>(rules: R, m: &Memory, movement: Movement) -> bool {
    let Movement { block, giver, taker, pallets } = movement;
    (giver != taker || rules.has(Mistake::NettingSelf))
        && (m.is_replica(giver) || rules.has(Mistake::NettingGiver))
        && (m.is_replica(taker) || rules.has(Mistake::NettingTaker))
        && pallets_fit(rules, pallets)
        && (m.is_added(block) || rules.has(Mistake::NettingNotAdded))
        && (block != 0 || rules.has(Mistake::NettingBlockZero))
}

fn pallets_fit<R: Rules>(rules: R, pallets: u32) -> bool {
    let least = if rules.has(Mistake::NettingNoPallets) { 0 } else { 1 };
    let most = MAX_PALLETS + u32::from(rules.has(Mistake::NettingPastMost));
    (least..=most).contains(&pallets) && !(pallets == MAX_PALLETS && rules.has(Mistake::NettingMostRefused))
}

/// The blocks whose movements count.
struct Counted([bool; MAX_BLOCKS]);

impl Counted {
    /// "For a chosen block, a movement counts exactly if its block is in the chosen block's line."
    fn up_to<R: Rules>(rules: R, m: &Memory, block: u32) -> Counted {
        let mut counted = Counted([false; MAX_BLOCKS]);
        let start = usize::from(rules.has(Mistake::NettingNotItself));
        let count = if rules.has(Mistake::NettingOnlyItself) { 1 } else { MAX_BLOCKS };
        for ancestor in ancestors(m.blocks, block).skip(start).take(count) {
            counted.add(ancestor);
        }
        if rules.has(Mistake::NettingByNumber) {
            (0..=block.min(m.added())).for_each(|lower| counted.add(lower));
        }
        if rules.has(Mistake::NettingByHeight) {
            let no_higher = |other: &u32| m.height(*other) <= m.height(block);
            (0..m.added()).filter(no_higher).for_each(|other| counted.add(other));
        }
        counted
    }

    fn add(&mut self, block: u32) {
        if let Some(mark) = self.0.get_mut(block as usize) {
            *mark = true;
        }
    }

    fn has<R: Rules>(&self, rules: R, block: u32) -> bool {
        self.0.get(block as usize).is_some_and(|&mark| mark) || rules.has(Mistake::NettingOutsideLine)
    }
}

/// "A firm's balance is pallets received less pallets given, a signed number."
fn moved<R: Rules>(rules: R, movement: Movement, replica: u32) -> i32 {
    let pallets = movement.pallets as i32;
    let received = if movement.taker == replica { pallets } else { 0 };
    let given = if movement.giver == replica { pallets } else { 0 };
    if rules.has(Mistake::NettingSwapped) {
        given - received
    } else if rules.has(Mistake::NettingOnlyReceived) {
        received
    } else {
        received - given
    }
}
