//! What a history of waiting movements can show that the generators are meant to reach: each answer of each call, every
//! limit met, comings again, used places, and slices of wrong form for each reason.

use crate::ancestry::ancestors;
use crate::call::{Outcome, OPEN};
use crate::entries::{Departure, Entry, Waiting};
use crate::form::well_formed;
use crate::generate::memory::Sample;
use crate::generate::waiting::{history, WAITING_SORTS};
use crate::history::{perform, Act, History, OwnKeeper, Slice, Step};
use crate::memory::*;
use crate::mistake::Correct;
use crate::netting::Movement;
use crate::refusal::*;
use crate::waiting::Claim;

/// A step, what it gave, and what stood before it.
struct Seen<'a> {
    history: &'a History,
    act: &'a Act,
    outcome: Outcome,
    before: Waiting,
    memory: Sample,
    after: &'a Waiting,
    /// A plain opening was accepted since the last with the slice.
    plainly_opened: bool,
}

const CALLS: &[(&str, &[u32])] = &[
    ("open", &[ACCEPTED, WRONG_FORM, OUT_OF_RANGE, WRONG_STEPS]),
    ("enter", &[ACCEPTED, WRONG_FORM, WRONG_MOVEMENT, WRONG_IDENTITY, WAITING_FULL]),
    ("withdraw", &[ACCEPTED, WRONG_FORM, WRONG_IDENTITY]),
    ("match", &[ACCEPTED, WRONG_FORM, OUT_OF_RANGE, UNKNOWN_NUMBER, WRONG_CERTIFICATE, WRONG_MOVEMENT, WRONG_IDENTITY]),
    ("ask", &[ACCEPTED, WRONG_FORM, OUT_OF_RANGE]),
];

impl Seen<'_> {
    fn call(&self) -> Option<&'static str> {
        match self.act.step {
            Step::Call(_) => None,
            Step::Open { .. } => Some("open"),
            Step::Enter(_) => Some("enter"),
            Step::Withdraw(_) => Some("withdraw"),
            Step::Match { .. } => Some("match"),
            Step::Ask(_) => Some("ask"),
        }
    }

    fn is(&self, call: &str, answer: u32) -> bool {
        self.call() == Some(call) && self.outcome.answer == answer
    }

    fn n(&self) -> u32 {
        self.memory.table.first().map_or(0, |&f| f.saturating_mul(2).saturating_add(1))
    }

    fn waits(&self) -> usize {
        self.before.entries.len()
    }

    fn entry(&self) -> Entry {
        match self.act.step {
            Step::Enter(entry) => entry,
            _ => Entry::default(),
        }
    }

    fn claim(&self) -> Option<Claim> {
        match self.act.step {
            Step::Match { claim, .. } => Some(claim),
            _ => None,
        }
    }

    fn list(&self) -> &[u32] {
        match self.act.step {
            Step::Match { list, .. } => &self.history.lists[list],
            _ => &[],
        }
    }

    fn named(&self) -> Option<Movement> {
        let place = self.claim()?.place as usize;
        self.list().chunks_exact(MOVEMENT_WORDS).nth(place).map(Movement::from_words)
    }

    /// What takes part in a match that is not refused before its 5: the claim, the movement, the entry.
    fn fit(&self) -> Option<(Claim, Movement, Entry)> {
        let tested = self.is("match", ACCEPTED) || self.is("match", WRONG_CERTIFICATE);
        let claim = self.claim().filter(|_| tested)?;
        let entry = self.before.entries.iter().find(|entry| entry.identity == claim.identity)?;
        Some((claim, self.named()?, *entry))
    }

    /// The line of the chosen replica's decided block, from that up.
    fn line(&self, claim: Claim) -> Vec<u32> {
        let at = replica_start(claim.replica) + replica_word::DECIDED_BLOCK;
        ancestors(&self.memory.blocks, self.memory.table[at]).collect()
    }

    fn uses(&self, place: u32) -> Option<Movement> {
        let by = |left: &Departure| left.by.filter(|(by, _)| *by == place).map(|(_, movement)| movement);
        self.before.departures.iter().find_map(by)
    }

    /// A match whose 5 has one reason: which of giver, taker, pallets, line and place it was.
    fn five_for(&self, reason: usize) -> bool {
        let Some((claim, m, entry)) = self.fit() else { return false };
        let reasons = [
            m.giver != entry.giver,
            m.taker != entry.taker,
            m.pallets != entry.pallets,
            !self.line(claim).contains(&m.block),
            self.uses(claim.place).is_some(),
        ];
        reasons[reason] && reasons.iter().filter(|holds| **holds).count() == 1
    }

    /// An accepted match, by a test of claim, movement and entry.
    fn matched(&self, test: impl Fn(Claim, Movement, Entry) -> bool) -> bool {
        self.outcome.is_accepted() && self.fit().is_some_and(|(claim, named, entry)| test(claim, named, entry))
    }

    /// The entry that a step took out.
    fn left(&self) -> Option<Entry> {
        let identity = match self.act.step {
            Step::Withdraw(identity) => identity,
            Step::Match { claim, .. } => claim.identity,
            _ => return None,
        };
        let found = self.before.entries.iter().find(|entry| entry.identity == identity);
        found.copied().filter(|_| self.outcome.is_accepted())
    }

    /// How many of the taker's entries came before one that left, and how many after.
    fn about_left(&self) -> Option<(usize, usize)> {
        let left = self.left()?;
        let of_taker: Vec<&Entry> = self.before.entries.iter().filter(|entry| entry.taker == left.taker).collect();
        let at = of_taker.iter().position(|entry| entry.identity == left.identity)?;
        Some((at, of_taker.len() - at - 1))
    }

    /// An accepted entering of one that has left, by a movement or not.
    fn comes_again(&self, matched: bool) -> bool {
        let of_identity = |left: &&Departure| left.entry.identity == self.entry().identity;
        let mut left = self.before.departures.iter().filter(of_identity);
        self.is("enter", ACCEPTED) && left.next_back().is_some_and(|left| left.by.is_some() == matched)
    }

    /// 1, where the three slices have sound form and length.
    fn further_alone(&self) -> bool {
        let mut memory = self.memory.clone();
        let off = self.act.off.is_none_or(|(slice, _)| slice == Slice::Further);
        let opens = matches!(self.act.step, Step::Open { .. });
        self.call().is_some()
            && self.outcome.answer == WRONG_FORM
            && off
            && (opens || well_formed(Correct, &memory.memory()))
    }

    /// A slice made by hand with a broken entry, for which alone the answer is 1.
    fn broken(&self, test: impl Fn(&Entry) -> bool) -> bool {
        let n = self.n();
        let breaks = |entry: &&Entry| {
            entry.identity == 0
                || entry.giver.max(entry.taker) >= n
                || entry.giver == entry.taker
                || !(1..=MAX_PALLETS).contains(&entry.pallets)
        };
        let entries = &self.before.entries;
        let whole = self.before.words == WAITING_WORDS && self.act.off.is_none() && entries.len() <= MAX_WAITING;
        let one = entries.iter().filter(breaks).count() == 1;
        self.further_alone() && whole && one && entries.iter().filter(breaks).any(test)
    }

    fn off(&self, slice: Slice, more: bool) -> bool {
        self.act.off == Some((slice, more)) && self.outcome.answer == WRONG_FORM && self.call().is_some()
    }

    fn is_twice(&self, identity: u32) -> bool {
        self.before.entries.iter().filter(|entry| entry.identity == identity).count() > 1
    }
}

type Test = fn(&Seen) -> bool;

const MARKS: &[(&str, Test)] = &[
    ("the 512th comes", |s| s.is("enter", ACCEPTED) && s.waits() == MAX_WAITING - 1),
    ("11 where 512 wait", |s| s.is("enter", WRONG_MOVEMENT) && s.waits() == MAX_WAITING),
    ("13 where 512 wait", |s| s.is("enter", WRONG_IDENTITY) && s.waits() == MAX_WAITING),
    ("11 for an identity of 0", |s| s.is("enter", WRONG_MOVEMENT) && s.entry().identity == 0),
    ("11 for an identity that waits", |s| {
        let identity = s.entry().identity;
        s.is("enter", WRONG_MOVEMENT) && s.before.entries.iter().any(|entry| entry.identity == identity)
    }),
    ("an entry of 10,000 pallets", |s| s.is("enter", ACCEPTED) && s.entry().pallets == MAX_PALLETS),
    ("11 for 10,001 pallets", |s| s.is("enter", WRONG_MOVEMENT) && s.entry().pallets == MAX_PALLETS + 1),
    ("11 for a giver one past the last", |s| s.is("enter", WRONG_MOVEMENT) && s.entry().giver == s.n()),
    ("11 for a taker one past the last", |s| s.is("enter", WRONG_MOVEMENT) && s.entry().taker == s.n()),
    ("the last replica takes", |s| s.is("enter", ACCEPTED) && s.entry().taker + 1 == s.n()),
    ("the greatest f", |s| s.is("enter", ACCEPTED) && s.n() == MAX_REPLICAS),
    ("one comes again that was withdrawn", |s| s.comes_again(false)),
    ("one comes again that was matched", |s| s.comes_again(true)),
    ("the earliest leaves, another waits", |s| s.about_left().is_some_and(|(before, after)| before == 0 && after > 0)),
    ("the only one leaves", |s| s.about_left() == Some((0, 0))),
    ("one between others leaves", |s| s.about_left().is_some_and(|(before, after)| before > 0 && after > 0)),
    ("the latest leaves, others wait", |s| s.about_left().is_some_and(|(before, after)| before > 0 && after == 0)),
    ("one of 512 leaves", |s| s.left().is_some() && s.waits() == MAX_WAITING),
    ("13 for withdrawing identity 0", |s| s.act.step == Step::Withdraw(0) && s.outcome.answer == WRONG_IDENTITY),
    ("nothing waits for a taker", |s| s.is("ask", ACCEPTED) && s.outcome.second == 0),
    ("more than 1,000,000 wait for a taker", |s| s.is("ask", ACCEPTED) && s.outcome.first > CEILING),
    ("2 for a taker one past the last", |s| s.act.step == Step::Ask(s.n()) && s.outcome.answer == OUT_OF_RANGE),
    ("a match in the decided block", |s| s.matched(|claim, m, _| s.line(claim)[0] == m.block)),
    ("a match farther up the line", |s| {
        s.matched(|claim, m, _| s.line(claim).iter().position(|block| *block == m.block) > Some(1))
    }),
    ("a match at place 2,047", |s| s.matched(|claim, _, _| claim.place as usize == MAX_MOVEMENTS - 1)),
    ("a match of words that were used elsewhere", |s| {
        let used = |m: Movement| s.before.departures.iter().any(|left| left.by.is_some_and(|(_, its)| its == m));
        s.matched(|_, m, _| used(m))
    }),
    ("5 for another giver alone", |s| s.five_for(0)),
    ("5 for another taker alone", |s| s.five_for(1)),
    ("5 for other pallets alone", |s| s.five_for(2)),
    ("5 for a block outside the line alone", |s| s.five_for(3)),
    ("5 for a used place alone, the movement that used it", |s| {
        s.five_for(4) && s.claim().and_then(|claim| s.uses(claim.place)) == s.named()
    }),
    ("5 for a used place alone, another movement", |s| {
        s.five_for(4) && s.claim().and_then(|claim| s.uses(claim.place)) != s.named()
    }),
    ("5 outside the line, of a lower block", |s| {
        s.five_for(3) && s.fit().is_some_and(|(claim, m, _)| m.block < s.line(claim)[0])
    }),
    ("13 for matching identity 0", |s| {
        s.is("match", WRONG_IDENTITY) && s.claim().is_some_and(|claim| claim.identity == 0)
    }),
    ("3 for a place just past the list", |s| {
        let count = s.list().len() / MOVEMENT_WORDS;
        s.is("match", UNKNOWN_NUMBER) && s.claim().is_some_and(|claim| claim.place as usize == count)
    }),
    ("3 for an empty list", |s| s.is("match", UNKNOWN_NUMBER) && s.list().is_empty()),
    ("1 for broken records", |s| s.is("match", WRONG_FORM) && !s.list().len().is_multiple_of(MOVEMENT_WORDS)),
    ("1 for 2,049 movements", |s| s.is("match", WRONG_FORM) && s.list().len() == MOVEMENT_WORDS * (MAX_MOVEMENTS + 1)),
    ("11 for a movement that is not named", |s| {
        let sound =
            |m: Movement| m.block != 0 && m.giver.max(m.taker) < s.n() && (1..=MAX_PALLETS).contains(&m.pallets);
        let added = s.memory.table.get(header::ADDED).copied().unwrap_or(0);
        s.is("match", WRONG_MOVEMENT) && s.named().is_some_and(|m| sound(m) && m.block < added && m.giver != m.taker)
    }),
    ("an opening empties entries", |s| s.is("open", ACCEPTED) && s.waits() > 0),
    ("an opening empties 512", |s| s.is("open", ACCEPTED) && s.waits() == MAX_WAITING),
    ("an opening empties used places", |s| {
        s.is("open", ACCEPTED) && s.before.departures.iter().any(|left| left.by.is_some())
    }),
    ("an opening over words of wrong form", |s| s.is("open", ACCEPTED) && s.waits() > MAX_WAITING),
    ("a refused opening while entries wait", |s| {
        s.call() == Some("open") && !s.outcome.is_accepted() && s.waits() > 0 && s.after.entries == s.before.entries
    }),
    ("12 for more steps than any list has", |s| {
        matches!(&s.act.step, Step::Open { steps, .. } if steps.len() > STEP_WORDS) && s.outcome.answer == WRONG_STEPS
    }),
    ("a plain opening while entries wait", |s| {
        let opens = matches!(&s.act.step, Step::Call(line) if line.code == OPEN);
        opens && s.outcome.is_accepted() && s.waits() > 0
    }),
    ("asked after a plain opening", |s| s.plainly_opened && s.is("ask", ACCEPTED) && s.outcome.second != 0),
    ("1 for an entry of more replicas, after a plain opening", |s| s.plainly_opened && s.further_alone()),
    ("by hand: 1 for 513 entries", |s| s.further_alone() && s.waits() > MAX_WAITING),
    ("by hand: 1 for an identity of 0", |s| s.broken(|entry| entry.identity == 0)),
    ("by hand: 1 for a giver", |s| s.broken(|entry| entry.giver == s.n())),
    ("by hand: 1 for a taker", |s| s.broken(|entry| entry.taker == s.n())),
    ("by hand: 1 for giver and taker equal", |s| s.broken(|entry| entry.giver == entry.taker)),
    ("by hand: 1 for 0 pallets", |s| s.broken(|entry| entry.pallets == 0)),
    ("by hand: 1 for 10,001 pallets", |s| s.broken(|entry| entry.pallets == MAX_PALLETS + 1)),
    ("by hand: 1 for the last entry", |s| {
        s.broken(|entry| s.before.entries.last() == Some(entry) && s.before.entries.len() > 1)
    }),
    ("by hand: 1 for a short slice", |s| s.further_alone() && s.before.words < WAITING_WORDS),
    ("by hand: 1 for a long slice", |s| s.further_alone() && s.before.words > WAITING_WORDS),
    ("by hand: of two with one identity the first leaves", |s| s.left().is_some_and(|left| s.is_twice(left.identity))),
    ("by hand: kept words that the entries do not give", |s| match s.act.step {
        Step::Ask(taker) if s.outcome.is_accepted() => {
            let kept = s.before.pass(Correct, taker);
            (s.outcome.first, s.outcome.second) != (kept.pallets, kept.earliest)
        }
        _ => false,
    }),
    ("a word too few of the table", |s| s.off(Slice::Table, false)),
    ("a word too many of the log", |s| s.off(Slice::Log, true)),
    ("a word too few of the blocks", |s| s.off(Slice::Blocks, false)),
    ("a word too few of the further slice", |s| s.off(Slice::Further, false)),
    ("a word too many of the further slice", |s| s.off(Slice::Further, true)),
];

/// Every mark by its name, with how many steps, or histories of its sort, reach it.
pub fn reached(seed: u64, histories: u64) -> Vec<(String, u64)> {
    let mut all: Vec<(String, u64)> = names().into_iter().map(|name| (format!("waiting: {name}"), 0)).collect();
    for seed in seed..seed + histories {
        let history = history(seed);
        for (place, sort) in WAITING_SORTS.iter().enumerate() {
            all[place].1 += u64::from(history.sort == *sort);
        }
        replay(&history, |seen| {
            all.iter_mut().skip(WAITING_SORTS.len()).zip(hits(seen)).for_each(|(mark, hit)| mark.1 += u64::from(hit));
        });
    }
    all
}

fn replay(history: &History, mut see: impl FnMut(&Seen)) {
    let mut keeper = OwnKeeper::new(Correct, &history.words);
    let mut memory = history.memory.clone();
    let mut plainly_opened = false;
    for act in &history.acts {
        let (before, was) = (keeper.waiting.clone(), memory.clone());
        let outcome = perform(&mut keeper, &mut memory, act, &history.lists);
        see(&Seen { history, act, outcome, before, memory: was, after: &keeper.waiting, plainly_opened });
        match &act.step {
            Step::Open { .. } if outcome.is_accepted() => plainly_opened = false,
            Step::Call(line) if line.code == OPEN && outcome.is_accepted() => plainly_opened = true,
            _ => {}
        }
    }
}

fn names() -> Vec<String> {
    let sorts = WAITING_SORTS.iter().map(|sort| sort.to_string());
    let answers = CALLS.iter().flat_map(|(call, all)| all.iter().map(move |answer| format!("{call} gives {answer}")));
    sorts.chain(answers).chain(MARKS.iter().map(|(name, _)| name.to_string())).collect()
}

/// In the order of the names after the sorts.
fn hits(seen: &Seen) -> Vec<bool> {
    let answers = CALLS.iter().flat_map(|(call, all)| all.iter().map(move |answer| seen.is(call, *answer)));
    answers.chain(MARKS.iter().map(|(_, holds)| holds(seen))).collect()
}
