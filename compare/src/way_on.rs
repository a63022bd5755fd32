//! "There must always be a way on" (document 02, #109): what must last, and the calls that then end in a decision of a new
//! block. Which replicas and view to take is found in `way_choice`.

use crate::block::block_slots;
use crate::call::*;
use crate::certificate::ADDED;
use crate::driver::{Driver, Line};
use crate::leader::leader;
use crate::log::log_slots;
use crate::memory::{Memory, LIVE};
use crate::mistake::{Correct, Rules};
use crate::refusal::ACCEPTED;

/// "2f+4 free places": f+1 NEWVIEWs, an ACC, a PROP and f+1 COMMITs.
pub const fn decision_slots(f: u32) -> u32 {
    2 * f + 4
}

/// "2f+6 named calls": one for each of these, a block and a decide.
pub const fn decision_calls(f: u32) -> u32 {
    2 * f + 6
}

/// The replicas that go on, and the view in which they do.
#[derive(Clone, PartialEq, Eq, Debug)]
pub struct Way {
    pub replicas: Vec<u32>,
    pub view: u32,
}

/// The first premise that does not hold, with the replica where it is one's.
#[derive(Clone, Copy, PartialEq, Eq, Debug)]
pub enum Lacking {
    /// They are not f+1.
    Number,
    Different(u32),
    /// It is no live replica.
    Live(u32),
    /// The view is not above its lowest view.
    AboveLowest(u32),
    /// The view is not below its limit.
    BelowLimit(u32),
    /// The view's leader is none of them.
    Leader,
    Slots,
    BlockSlot,
}

impl Way {
    /// "choose f+1 live boxes and a view w above all their lows and below all their bounds, whose leader is one of them.
    /// If the book has 2f+4 free places and the blocks one".
    pub fn lacks(&self, m: &Memory) -> Option<Lacking> {
        if self.replicas.len() as u32 != m.f() + 1 {
            return Some(Lacking::Number);
        }
        let twice = |(place, replica): (usize, &u32)| self.replicas[..place].contains(replica);
        let second = self.replicas.iter().enumerate().find(|&named| twice(named));
        second
            .map(|(_, &replica)| Lacking::Different(replica))
            .or_else(|| self.replicas.iter().find_map(|&replica| bars(m, self.view, replica)))
            .or_else(|| self.leader(m).is_none().then_some(Lacking::Leader))
            .or_else(|| (free_slots(m) < decision_slots(m.f())).then_some(Lacking::Slots))
            .or_else(|| (free_block_slots(m) == 0).then_some(Lacking::BlockSlot))
    }

    /// The view's leader, if it is one of them.
    pub fn leader(&self, m: &Memory) -> Option<u32> {
        leader(self.view, m.replicas()).filter(|leader| self.replicas.contains(leader))
    }
}

/// What keeps the replica from entering the view; none if nothing does.
pub fn bars(m: &Memory, view: u32, replica: u32) -> Option<Lacking> {
    if !m.is_replica(replica) || m.replica(replica).status != LIVE {
        return Some(Lacking::Live(replica));
    }
    let r = m.replica(replica);
    if r.min_view >= view {
        return Some(Lacking::AboveLowest(replica));
    }
    (view >= r.view_limit).then_some(Lacking::BelowLimit(replica))
}

pub fn free_slots(m: &Memory) -> u32 {
    (log_slots(m.log) as u32).saturating_sub(m.issued())
}

pub fn free_block_slots(m: &Memory) -> u32 {
    (block_slots(m.blocks) as u32).saturating_sub(m.added())
}

/// A ledger that answers calls.
pub trait Ledger {
    fn answer(&mut self, line: &Line) -> Outcome;
    fn words(&mut self) -> Memory<'_>;
}

impl<R: Rules> Ledger for Driver<R> {
    fn answer(&mut self, line: &Line) -> Outcome {
        self.call(line.code, line.replica, line.number, &line.list)
    }

    fn words(&mut self) -> Memory<'_> {
        self.memory()
    }
}

/// Goes the way call by call: each has the numbers that those before were answered with, so that it holds in any memory of
/// sound form, where a certificate may be found. A refused call's number is 0.
pub fn go_on(ledger: &mut dyn Ledger, way: &Way) -> Vec<(Line, Outcome)> {
    let mut calls = Vec::new();
    let Some(leader) = leader(way.view, ledger.words().replicas()) else { return calls };
    let mut ask = |ledger: &mut dyn Ledger, code, replica, number, list: &[u32]| {
        let line = Line::new(code, replica, number, list);
        let outcome = ledger.answer(&line);
        calls.push((line, outcome));
        outcome.first
    };
    let newviews: Vec<u32> = way.replicas.iter().map(|&one| ask(ledger, VIEW, one, way.view, &[])).collect();
    let acc = ask(ledger, ACCUMULATE, leader, 0, &newviews);
    let accumulated = ledger.words().certificate(acc).block;
    let block = ask(ledger, BLOCK, 0, accumulated, &[]);
    let prop = ask(ledger, PREPARE_ACC, leader, block, &[acc]);
    let commits: Vec<u32> = way.replicas.iter().map(|&one| ask(ledger, STORE, one, prop, &[])).collect();
    ask(ledger, DECIDE, leader, 0, &commits);
    calls
}

/// The calls of the way, found by asking; the memory stays.
pub fn way_on(m: &Memory, way: &Way) -> Vec<Line> {
    let calls = go_on(&mut Driver::on(Correct, m), way);
    calls.into_iter().map(|(line, _)| line).collect()
}

/// Where the certificates of a way and its block stand if all of them are added, as in every state reached from an opening.
struct Numbers {
    newview: u32,
    acc: u32,
    prop: u32,
    commit: u32,
    block: u32,
}

impl Numbers {
    fn next(m: &Memory) -> Numbers {
        let (newview, quorum) = (m.issued(), m.f() + 1);
        let acc = newview + quorum;
        Numbers { newview, acc, prop: acc + 1, commit: acc + 2, block: m.added() }
    }
}

/// The same calls, written down before the first is made: in a reached state the numbers are the next ones.
pub fn numbered_calls(m: &Memory, way: &Way) -> Vec<Line> {
    let Numbers { newview, acc, prop, commit, block } = Numbers::next(m);
    let Some(leader) = leader(way.view, m.replicas()) else { return Vec::new() };
    let each = |code, number| way.replicas.iter().map(move |&one| Line::new(code, one, number, &[]));
    let from = |first: u32| (first..first + m.f() + 1).collect::<Vec<u32>>();
    let between = [
        Line::new(ACCUMULATE, leader, 0, &from(newview)),
        Line::new(BLOCK, 0, latest_stored(m, &way.replicas), &[]),
        Line::new(PREPARE_ACC, leader, block, &[acc]),
    ];
    let decide = Line::new(DECIDE, leader, 0, &from(commit));
    each(VIEW, way.view).chain(between).chain(each(STORE, prop)).chain([decide]).collect()
}

/// Their answers: each certificate is added, and the last is the new block with its view.
pub fn numbered_answers(m: &Memory, way: &Way) -> Vec<Outcome> {
    let Numbers { newview, acc, prop, commit, block } = Numbers::next(m);
    let values = |first, second| Outcome { answer: ACCEPTED, first, second };
    let added = |first: u32, count: u32| (first..first + count).map(move |number| values(number, ADDED));
    let quorum = m.f() + 1;
    added(newview, quorum)
        .chain([values(acc, ADDED), values(block, 0), values(prop, ADDED)])
        .chain(added(commit, quorum))
        .chain([values(block, way.view)])
        .collect()
}

/// The block of the greatest stored view among them, the first in the list if several.
fn latest_stored(m: &Memory, replicas: &[u32]) -> u32 {
    let stored: Vec<_> = replicas.iter().map(|&replica| m.replica(replica)).collect();
    let latest = stored.iter().map(|r| r.stored_view).max();
    stored.iter().find(|r| Some(r.stored_view) == latest).map_or(0, |r| r.stored_block)
}
