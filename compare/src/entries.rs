//! What waits beside the ledger (document 02, #108): the entries in order of arrival, what has left, and what is kept for
//! each taker. The library's own; how the archive lays it out in words is no concern of it.

use crate::memory::*;
use crate::mistake::{Mistake, Rules};
use crate::netting::Movement;

/// "An entry has an identity (a word other than 0), giver, taker and pallets under the rules for movements".
#[derive(Clone, Copy, PartialEq, Eq, Debug, Default)]
pub struct Entry {
    pub identity: u32,
    pub giver: u32,
    pub taker: u32,
    pub pallets: u32,
}

/// An entry that has left; by the place of a movement and that movement, unless it was withdrawn.
#[derive(Clone, Copy, PartialEq, Eq, Debug)]
pub struct Departure {
    pub entry: Entry,
    pub by: Option<(u32, Movement)>,
}

/// "For each taker the program keeps the pallets waiting and the identity of the earliest arrival still waiting, or 0".
#[derive(Clone, Copy, PartialEq, Eq, Debug, Default)]
pub struct Kept {
    pub pallets: u32,
    pub earliest: u32,
}

#[derive(Clone, PartialEq, Eq, Debug)]
pub struct Waiting {
    /// The length of the further slice that is lent.
    pub words: usize,
    /// In order of arrival.
    pub entries: Vec<Entry>,
    /// Since the last opening that was lent the slice.
    pub departures: Vec<Departure>,
    /// By taker.
    pub kept: [Kept; MAX_REPLICAS as usize],
}

impl Default for Waiting {
    /// As an opening leaves it.
    fn default() -> Waiting {
        let kept = [Kept::default(); MAX_REPLICAS as usize];
        Waiting { words: WAITING_WORDS, entries: Vec::new(), departures: Vec::new(), kept }
    }
}

impl Waiting {
    /// "An accepted opening empties the entries and these places."
    pub fn empty<R: Rules>(&mut self, rules: R) {
        let Waiting { words, entries, departures, kept } = std::mem::take(self);
        self.words = words;
        if rules.has(Mistake::WaitingOpenEntries) {
            self.entries = entries;
        }
        if rules.has(Mistake::WaitingOpenPlaces) {
            self.departures = departures;
        }
        if rules.has(Mistake::WaitingOpenKept) || rules.has(Mistake::WaitingOpenEntries) {
            self.kept = kept;
        }
    }

    /// Where the entry of that identity stands among those that wait.
    pub fn position<R: Rules>(&self, rules: R, identity: u32) -> Option<usize> {
        let found = |entry: &Entry| entry.identity == identity;
        if rules.has(Mistake::WaitingWithdrawLast) {
            return self.entries.iter().rposition(found);
        }
        self.entries.iter().position(found)
    }

    pub fn add<R: Rules>(&mut self, rules: R, entry: Entry) {
        if rules.has(Mistake::WaitingNewestFirst) {
            self.entries.insert(0, entry);
        } else {
            self.entries.push(entry);
        }
        self.keep(rules, entry);
    }

    /// The entry at that position leaves.
    pub fn remove<R: Rules>(&mut self, rules: R, position: usize, by: Option<(u32, Movement)>) {
        if by.is_some() && rules.has(Mistake::WaitingMatchKeeps) {
            self.departures.push(Departure { entry: self.entries[position], by });
            return;
        }
        let entry = if rules.has(Mistake::WaitingSwapOut) {
            self.entries.swap_remove(position)
        } else {
            self.entries.remove(position)
        };
        let uses = by.is_none() && rules.has(Mistake::WaitingWithdrawUses);
        let by = if uses { self.first_free() } else { by };
        self.departures.push(Departure { entry, by });
        let before = self.kept;
        self.keep(rules, entry);
        let sum_stays = rules.has(Mistake::WaitingSumStays) || rules.has(Mistake::WaitingMatchSumStays) && by.is_some();
        for (kept, before) in self.kept.iter_mut().zip(before) {
            if sum_stays {
                kept.pallets = before.pallets;
            }
            if rules.has(Mistake::WaitingEarliestStays) {
                kept.earliest = before.earliest;
            }
        }
        if let (true, Some(kept)) = (rules.has(Mistake::WaitingEarliestNone), self.kept.get_mut(entry.taker as usize)) {
            kept.earliest = 0;
        }
    }

    fn first_free(&self) -> Option<(u32, Movement)> {
        let used = |place: &u32| self.departures.iter().any(|left| left.by.is_some_and(|(by, _)| by == *place));
        (0..MAX_MOVEMENTS as u32).find(|place| !used(place)).map(|place| (place, Movement::default()))
    }

    /// Makes anew what is kept for the taker of an entry that came or left.
    fn keep<R: Rules>(&mut self, rules: R, entry: Entry) {
        let changed = if rules.has(Mistake::WaitingByGiver) { entry.giver } else { entry.taker };
        for taker in 0..MAX_REPLICAS {
            if taker == changed || rules.has(Mistake::WaitingRefreshAll) {
                self.kept[taker as usize] = self.pass(rules, taker);
            }
        }
    }

    /// What a pass over the entries gives for a taker.
    pub fn pass<R: Rules>(&self, rules: R, taker: u32) -> Kept {
        let by_giver = rules.has(Mistake::WaitingByGiver);
        let is_of = |entry: &&Entry| if by_giver { entry.giver == taker } else { entry.taker == taker };
        let of_taker: Vec<&Entry> = self.entries.iter().filter(is_of).collect();
        let counted = rules.has(Mistake::WaitingCounted);
        let pallets = |entry: &&Entry| if counted { 1 } else { entry.pallets };
        let sum = of_taker.iter().map(pallets).fold(0, u32::wrapping_add);
        let first = match of_taker.as_slice() {
            [.., last] if rules.has(Mistake::WaitingLatest) => Some(*last),
            _ if rules.has(Mistake::WaitingSmallest) => of_taker.iter().copied().min_by_key(|entry| entry.identity),
            [_, ..] if rules.has(Mistake::WaitingOfAll) => self.entries.first(),
            all => all.first().copied(),
        };
        let most = if rules.has(Mistake::WaitingSumCeiling) { CEILING } else { u32::MAX };
        Kept { pallets: sum.min(most), earliest: first.map_or(0, |entry| entry.identity) }
    }

    /// Whether a movement at that place took an entry out before. "A movement is named and known by its place, from 0, in
    /// the list of #101, whatever list is lent".
    pub fn is_used<R: Rules>(&self, rules: R, place: u32, movement: Movement) -> bool {
        let uses = |left: &Departure| {
            let Some((by, its)) = left.by else { return false };
            let same_place = by == place || rules.has(Mistake::WaitingUsedMovement);
            let by_words = rules.has(Mistake::WaitingUsedMovement) || rules.has(Mistake::WaitingUsedOtherList);
            let freed = rules.has(Mistake::WaitingUsedFreed) && self.position(rules, left.entry.identity).is_some();
            let lost = rules.has(Mistake::WaitingUsedLast) && place as usize == MAX_MOVEMENTS - 1;
            same_place && (!by_words || its == movement) && !freed && !lost
        };
        !rules.has(Mistake::WaitingUsedAgain) && self.departures.iter().any(uses)
    }
}
