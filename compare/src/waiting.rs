//! The calls for movements that wait (document 02, #108). They are lent the three slices and the further one, and but for
//! opening change no word of the three. Refusals in the order 1, 2, 3, 11, 13, 14, 5; opening's 2, 12, 1.

use crate::ancestry::ancestors;
use crate::entries::{Departure, Entry, Kept, Waiting};
use crate::form::well_formed;
use crate::memory::*;
use crate::mistake::{Mistake, Rules};
use crate::netting::{all_fit, list_fits, records, Movement};
use crate::opening::open_beside;
use crate::refusal::*;

/// What entering, withdrawing and matching give.
const NOTHING: (u32, u32) = (0, 0);

/// Opening with the further slice. Of that it reads no word, and tests the length only, with the other lengths.
pub fn open<R: Rules>(rules: R, m: &mut Memory, waiting: &mut Waiting, f: u32, steps: &[u32]) -> Answer {
    let n = replica_count(f.min(MAX_F));
    let sound = !rules.has(Mistake::WaitingOpenForm) || form_fits(rules, waiting, n);
    let fits = length_fits(waiting) && sound || rules.has(Mistake::WaitingOpenLength);
    need(fits || !rules.has(Mistake::WaitingOpenLengthFirst), WRONG_FORM)?;
    let answer = open_beside(rules, m, f, steps, fits);
    if answer.is_ok() {
        waiting.empty(rules);
    } else if rules.has(Mistake::WaitingOpenRefused) {
        waiting.entries.clear();
    }
    answer
}

/// An entry comes.
pub fn enter<R: Rules>(rules: R, m: &Memory, waiting: &mut Waiting, entry: Entry) -> Answer {
    // Three tests stand here a second time, early, for mistakes in the order.
    need(all_sound(rules, m, waiting), WRONG_FORM)?;
    need(!rules.has(Mistake::WaitingFullBeforeRules) || has_room(rules, waiting), WAITING_FULL)?;
    need(!rules.has(Mistake::WaitingIdentityFirst) || may_come(rules, waiting, entry.identity), WRONG_IDENTITY)?;
    need(entry_fits(rules, m.replicas(), entry, &ENTERING), WRONG_MOVEMENT)?;
    need(!rules.has(Mistake::WaitingFullFirst) || has_room(rules, waiting), WAITING_FULL)?;
    need(may_come(rules, waiting, entry.identity), WRONG_IDENTITY)?;
    need(has_room(rules, waiting), WAITING_FULL)?;
    waiting.add(rules, entry);
    Ok(NOTHING)
}

/// An entry is struck out.
pub fn withdraw<R: Rules>(rules: R, m: &Memory, waiting: &mut Waiting, identity: u32) -> Answer {
    need(all_sound(rules, m, waiting), WRONG_FORM)?;
    need(identity != 0 || !rules.has(Mistake::WaitingWithdrawZero), WRONG_MOVEMENT)?;
    match waiting.position(rules, identity) {
        Some(position) => waiting.remove(rules, position, None),
        None => need(rules.has(Mistake::WaitingWithdrawUnknown), WRONG_IDENTITY)?,
    }
    Ok(NOTHING)
}

/// What a host says of an entry: that the movement at this place takes it out, by the decided block of this replica.
#[derive(Clone, Copy, PartialEq, Eq, Debug)]
pub struct Claim {
    pub replica: u32,
    pub identity: u32,
    pub place: u32,
}

/// An entry is matched with a movement of the list, and leaves; the place is used then.
pub fn match_entry<R: Rules>(rules: R, m: &Memory, waiting: &mut Waiting, movements: &[u32], claim: Claim) -> Answer {
    let Claim { replica, identity, place } = claim;
    // Four tests stand here a second time, early, for mistakes in the order.
    need(all_sound(rules, m, waiting), WRONG_FORM)?;
    need(!rules.has(Mistake::WaitingMatchReplicaFirst) || m.is_replica(replica), OUT_OF_RANGE)?;
    need(list_fits(rules, movements), WRONG_FORM)?;
    need(!rules.has(Mistake::WaitingMatchPlaceFirst) || is_place(rules, movements, place), UNKNOWN_NUMBER)?;
    need(m.is_replica(replica) || rules.has(Mistake::WaitingMatchReplica), OUT_OF_RANGE)?;
    need(!rules.has(Mistake::WaitingMatchMovementsFirst) || all_fit(rules, m, movements), WRONG_MOVEMENT)?;
    need(is_place(rules, movements, place), UNKNOWN_NUMBER)?;
    let position = waiting.position(rules, identity);
    need(!rules.has(Mistake::WaitingMatchIdentityFirst) || position.is_some(), WRONG_IDENTITY)?;
    need(all_fit(rules, m, tested(rules, movements, place)), WRONG_MOVEMENT)?;
    let named = records(rules, movements).nth(place as usize).unwrap_or_default();
    let takes = in_line(rules, m, replica, named.block) && !waiting.is_used(rules, place, named);
    need(!rules.has(Mistake::WaitingMatchFitFirst) || takes, WRONG_CERTIFICATE)?;
    let position = position.ok_or(WRONG_IDENTITY)?;
    let leaves = takes && is_same(rules, named, waiting.entries[position]);
    if !leaves && rules.has(Mistake::WaitingRefusedUses) {
        let entry = Entry::default();
        waiting.departures.push(Departure { entry, by: Some((place, named)) });
    }
    need(leaves, WRONG_CERTIFICATE)?;
    waiting.remove(rules, position, Some((place, named)));
    Ok(NOTHING)
}

/// The pallets that wait for a taker, and its earliest arrival still waiting.
pub fn ask<R: Rules>(rules: R, m: &Memory, waiting: &Waiting, taker: u32) -> Answer {
    need(all_sound(rules, m, waiting), WRONG_FORM)?;
    need(m.is_replica(taker) || rules.has(Mistake::WaitingAskAny), OUT_OF_RANGE)?;
    let kept = if rules.has(Mistake::WaitingAskPass) {
        waiting.pass(rules, taker)
    } else {
        waiting.kept.get(taker as usize).copied().unwrap_or_default()
    };
    let Kept { pallets, earliest } = if m.is_replica(taker) { kept } else { Kept::default() };
    Ok(if rules.has(Mistake::WaitingAskSwapped) { (earliest, pallets) } else { (pallets, earliest) })
}

/// The form of the three slices and of the further one.
fn all_sound<R: Rules>(rules: R, m: &Memory, waiting: &Waiting) -> bool {
    let ledger = well_formed(rules, m);
    let untested = || rules.has(Mistake::WaitingFormLedger) && well_formed_enough(m);
    (ledger || untested()) && form_fits(rules, waiting, m.replicas())
}

/// So that a mistake in the form test reads no word past a slice.
fn well_formed_enough(m: &Memory) -> bool {
    m.table.len() >= REPLICAS_START && m.f() <= MAX_F && m.table.len() as u64 >= table_length(m.f())
}

fn length_fits(waiting: &Waiting) -> bool {
    waiting.words == WAITING_WORDS
}

/// "1 covers its form": the length, the count, and each entry by the rules, for so many replicas.
fn form_fits<R: Rules>(rules: R, waiting: &Waiting, n: u32) -> bool {
    let entries = &waiting.entries;
    let most = MAX_WAITING + usize::from(rules.has(Mistake::WaitingFormCount));
    let tested = entries.len().saturating_sub(usize::from(rules.has(Mistake::WaitingFormLast)));
    let n = if rules.has(Mistake::WaitingFormByMost) { MAX_REPLICAS } else { n };
    let again = |place: usize| entries[..place].iter().any(|entry| entry.identity == entries[place].identity);
    let kept_right = || (0..n).all(|taker| waiting.kept[taker as usize] == waiting.pass(rules, taker));
    (length_fits(waiting) || rules.has(Mistake::WaitingFormLength))
        && entries.len() <= most
        && entries[..tested].iter().all(|&entry| entry_fits(rules, n, entry, &FORM))
        && !(rules.has(Mistake::WaitingFormDifferent) && (0..entries.len()).any(again))
        && (!rules.has(Mistake::WaitingFormKept) || kept_right())
}

/// One place's own mistakes in testing an entry.
struct Tester {
    takes_zero: Mistake,
    takes_self: Mistake,
    takes_giver: Mistake,
    takes_taker: Mistake,
    takes_no_pallets: Mistake,
    takes_past_most: Mistake,
}

const ENTERING: Tester = Tester {
    takes_zero: Mistake::WaitingIdentityZero,
    takes_self: Mistake::WaitingSelf,
    takes_giver: Mistake::WaitingGiver,
    takes_taker: Mistake::WaitingTaker,
    takes_no_pallets: Mistake::WaitingNoPallets,
    takes_past_most: Mistake::WaitingPastMost,
};

const FORM: Tester = Tester {
    takes_zero: Mistake::WaitingFormIdentity,
    takes_self: Mistake::WaitingFormSelf,
    takes_giver: Mistake::WaitingFormGiver,
    takes_taker: Mistake::WaitingFormTaker,
    takes_no_pallets: Mistake::WaitingFormNoPallets,
    takes_past_most: Mistake::WaitingFormPastMost,
};

/// "Giver and taker are different boxes, pallets are 1 to 10,000", and an identity other than 0.
fn entry_fits<R: Rules>(rules: R, n: u32, entry: Entry, tester: &Tester) -> bool {
    let Entry { identity, giver, taker, pallets } = entry;
    let least = 1 - u32::from(rules.has(tester.takes_no_pallets));
    let most = MAX_PALLETS + u32::from(rules.has(tester.takes_past_most));
    let most = most - u32::from(rules.has(Mistake::WaitingMostRefused));
    (identity != 0 || rules.has(tester.takes_zero))
        && (giver < n || rules.has(tester.takes_giver))
        && (taker < n || rules.has(tester.takes_taker))
        && (giver != taker || rules.has(tester.takes_self))
        && (least..=most).contains(&pallets)
}

/// "An identity may come again after it has left, as a fresh arrival."
fn may_come<R: Rules>(rules: R, waiting: &Waiting, identity: u32) -> bool {
    let mut left = waiting.departures.iter().filter(|left| left.entry.identity == identity);
    let barred = rules.has(Mistake::WaitingNeverAgain) && left.clone().next().is_some()
        || rules.has(Mistake::WaitingMatchedNeverAgain) && left.any(|left| left.by.is_some());
    (waiting.position(rules, identity).is_none() || rules.has(Mistake::WaitingTwice)) && !barred
}

fn has_room<R: Rules>(rules: R, waiting: &Waiting) -> bool {
    let (early, past) = (rules.has(Mistake::WaitingFullEarly), rules.has(Mistake::WaitingRoomPast));
    waiting.entries.len() < MAX_WAITING + usize::from(past) - usize::from(early)
}

/// "A place past the movement list returns 3."
fn is_place<R: Rules>(rules: R, movements: &[u32], place: u32) -> bool {
    let count = movements.len() / MOVEMENT_WORDS + usize::from(rules.has(Mistake::WaitingPlaceAtLength));
    (place as usize) < count
}

/// The movements that are tested: "matching tests all of it as #101 does".
fn tested<R: Rules>(rules: R, movements: &[u32], place: u32) -> &[u32] {
    if !rules.has(Mistake::WaitingNamedOnly) {
        return movements;
    }
    movements.chunks_exact(MOVEMENT_WORDS).nth(place as usize).unwrap_or(&[])
}

/// Whether the block is in the line of the replica's decided block.
fn in_line<R: Rules>(rules: R, m: &Memory, replica: u32, block: u32) -> bool {
    let first = rules.has(Mistake::WaitingFirstReplica) || !m.is_replica(replica);
    let chosen = m.replica(if first { 0 } else { replica });
    let stored = rules.has(Mistake::WaitingStoredLine);
    let top = if stored { chosen.stored_block } else { chosen.decided_block };
    let mut line = ancestors(m.blocks, top).skip(usize::from(rules.has(Mistake::WaitingNotItself)));
    let only_top = rules.has(Mistake::WaitingOnlyDecided);
    rules.has(Mistake::WaitingOutsideLine)
        || rules.has(Mistake::WaitingByNumber) && block <= top
        || line.any(|ancestor| ancestor == block && (!only_top || ancestor == top))
}

/// "a movement of the same giver, taker and pallets".
fn is_same<R: Rules>(rules: R, movement: Movement, entry: Entry) -> bool {
    let backwards =
        rules.has(Mistake::WaitingBackwards) && (movement.giver, movement.taker) == (entry.taker, entry.giver);
    let giver = movement.giver == entry.giver || rules.has(Mistake::WaitingAnyGiver);
    let taker = movement.taker == entry.taker || rules.has(Mistake::WaitingAnyTaker);
    let more = rules.has(Mistake::WaitingMorePallets) && movement.pallets > entry.pallets;
    let pallets = movement.pallets == entry.pallets || more || rules.has(Mistake::WaitingAnyPallets);
    (giver && taker || backwards) && pallets
}
