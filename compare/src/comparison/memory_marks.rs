//! What a call on a memory can show that the generators are meant to reach: certificates found and added, and leaders,
//! also as in no list of calls.

use super::{cut_marks, height_marks, step_marks};
use crate::call::*;
use crate::certificate::{Certificate, ADDED, FOUND};
use crate::driver::Line;
use crate::generate::memory::Sample;
use crate::leader::leader;
use crate::memory::{header, CEILING, CERTIFICATE_WORDS};
use crate::mistake::{Correct, Mistake};
use crate::refusal::*;

/// A memory and its call, and what the call gives and leaves.
pub struct Seen {
    pub before: Sample,
    pub outcome: Outcome,
    pub after: Sample,
}

impl Seen {
    pub fn of(before: Sample) -> Seen {
        let mut after = before.clone();
        let outcome = after.run(Correct);
        Seen { before, outcome, after }
    }

    pub fn code(&self) -> u32 {
        self.before.line.code
    }

    fn filed(&self, told: u32) -> bool {
        self.outcome.filed(self.code()) == Some(told)
    }

    fn finds(&self, code: u32) -> bool {
        self.code() == code && self.filed(FOUND)
    }

    /// Numbers of the certificates, issued before the call, that equal the one it gives.
    fn equal(&self) -> Vec<u32> {
        let issued = self.before.table[header::ISSUED];
        let slot = |number: u32| self.after.log.chunks_exact(CERTIFICATE_WORDS).nth(number as usize);
        (0..issued).filter(|&number| slot(number) == slot(self.outcome.first)).collect()
    }

    fn full(&self) -> bool {
        self.before.table[header::ISSUED] as usize * CERTIFICATE_WORDS == self.before.log.len()
    }

    /// Of a prepare or a store on a memory of sound form.
    fn turn(&self) -> Option<Turn> {
        let Line { code, replica, number, list } = &self.before.line;
        let named = if *code == STORE { *number } else { *list.first()? };
        let mut slots = self.before.log.chunks_exact(CERTIFICATE_WORDS);
        let Certificate { signer, view, .. } = slots.nth(named as usize).map(Certificate::from_words)?;
        let n = self.before.n();
        match *code {
            PREPARE_ACC => Some(Turn { view, replica: *replica, n }),
            PREPARE_COMMITS => Some(Turn { view: view + 1, replica: *replica, n }),
            STORE => Some(Turn { view, replica: signer, n }),
            _ => None,
        }
    }

    /// The answer is one that only sound form gets.
    fn gives(&self, code: u32, answer: u32, test: fn(&Turn) -> bool) -> bool {
        self.code() == code && self.outcome.answer == answer && self.turn().as_ref().is_some_and(test)
    }

    /// Refused because the replica does not lead the view: nothing else is wrong with the certificates.
    fn wrong_leader(&self, code: u32, test: fn(&Turn) -> bool) -> bool {
        let unasked = || self.before.clone().run(Some(Mistake::LeaderNowhere));
        self.gives(code, WRONG_CERTIFICATE, test) && unasked().answer != WRONG_CERTIFICATE
    }
}

/// A view, and the replica of n that must lead it.
struct Turn {
    view: u32,
    replica: u32,
    n: u32,
}

impl Turn {
    fn is_first(&self) -> bool {
        self.view == 1 && self.replica == 0
    }

    fn of_last_replica(&self) -> bool {
        self.replica + 1 == self.n
    }

    /// It is the replica's turn in the next view.
    fn too_soon(&self) -> bool {
        self.view > 0 && leader(self.view + 1, self.n) == Some(self.replica)
    }
}

type Mark = (&'static str, fn(&Seen) -> bool);

const MARKS: &[Mark] = &[
    ("found: prepare on an ACC", |seen| seen.finds(PREPARE_ACC)),
    ("found: prepare on commits", |seen| seen.finds(PREPARE_COMMITS)),
    ("found: store", |seen| seen.finds(STORE)),
    ("found: view", |seen| seen.finds(VIEW)),
    ("found: accumulate", |seen| seen.finds(ACCUMULATE)),
    ("found: request", |seen| seen.finds(REQUEST)),
    ("found: reply", |seen| seen.finds(REPLY_TO)),
    ("found in a full log", |seen| seen.filed(FOUND) && seen.full()),
    ("found with free slots", |seen| seen.filed(FOUND) && !seen.full()),
    ("found twice", |seen| seen.filed(FOUND) && seen.equal().len() > 1),
    ("added where its words stand already", |seen| seen.filed(ADDED) && seen.before.log == seen.after.log),
    ("view 0: a PROP by replica 0 is refused", |seen| {
        seen.wrong_leader(STORE, |turn| turn.view == 0 && turn.replica == 0)
    }),
    ("view 0: a PROP by the last replica is refused", |seen| {
        seen.wrong_leader(STORE, |turn| turn.view == 0 && turn.of_last_replica())
    }),
    ("view 0: an own ACC of replica 0 is refused", |seen| {
        seen.wrong_leader(PREPARE_ACC, |turn| turn.view == 0 && turn.replica == 0)
    }),
    ("view 0: an own ACC of the last replica is refused", |seen| {
        seen.wrong_leader(PREPARE_ACC, |turn| turn.view == 0 && turn.of_last_replica())
    }),
    ("the first turn: prepare on an ACC", |seen| seen.gives(PREPARE_ACC, ACCEPTED, Turn::is_first)),
    ("the first turn: prepare on commits of view 0", |seen| seen.gives(PREPARE_COMMITS, ACCEPTED, Turn::is_first)),
    ("the first turn: store", |seen| seen.gives(STORE, ACCEPTED, Turn::is_first)),
    ("the last replica's turn: prepare on an ACC", |seen| seen.gives(PREPARE_ACC, ACCEPTED, Turn::of_last_replica)),
    ("the last replica's turn: prepare on commits", |seen| {
        seen.gives(PREPARE_COMMITS, ACCEPTED, Turn::of_last_replica)
    }),
    ("the last replica's turn: store", |seen| seen.gives(STORE, ACCEPTED, Turn::of_last_replica)),
    ("one view too soon: prepare on an ACC", |seen| seen.wrong_leader(PREPARE_ACC, Turn::too_soon)),
    ("one view too soon: prepare on commits", |seen| seen.wrong_leader(PREPARE_COMMITS, Turn::too_soon)),
    ("one view too soon: store", |seen| seen.wrong_leader(STORE, Turn::too_soon)),
    ("the last view: prepare on an ACC, at the limit", |seen| {
        seen.gives(PREPARE_ACC, COUNTER_LIMIT, |turn| turn.view == CEILING)
    }),
    ("the last view: prepare on commits, at the limit", |seen| {
        seen.gives(PREPARE_COMMITS, COUNTER_LIMIT, |turn| turn.view == CEILING)
    }),
    ("the last view: store, at the limit", |seen| seen.gives(STORE, COUNTER_LIMIT, |turn| turn.view == CEILING)),
    ("past the last view: prepare on commits, by its leader", |seen| {
        seen.gives(PREPARE_COMMITS, WRONG_VIEW, |turn| turn.view > CEILING)
    }),
];

/// Every mark's name.
pub fn names() -> Vec<String> {
    let marks = MARKS.iter().map(|(mark, _)| mark.to_string());
    marks
        .chain(step_marks::memory_names())
        .chain(height_marks::memory_names())
        .chain(cut_marks::memory_names())
        .map(|mark| format!("memory: {mark}"))
        .collect()
}

/// In the order of the names.
pub fn hits(seen: &Seen) -> Vec<bool> {
    let marks = MARKS.iter().map(|(_, holds)| holds(seen));
    marks
        .chain(step_marks::memory_hits(seen))
        .chain(height_marks::memory_hits(seen))
        .chain(cut_marks::memory_hits(seen))
        .collect()
}
