//! What a way on (document 02, #109) can show that the generators are meant to reach, in scripts.

use super::marks;
use crate::call::*;
use crate::certificate::{Certificate, COMMIT, PROP};
use crate::leader::leader;
use crate::memory::Memory;
use crate::refusal::{NO_ROOM, UNKNOWN_NUMBER};
use crate::steps::Steps;
use crate::way_on::{decision_calls, free_slots};
use std::collections::BTreeSet;

/// A line's numbers, up to the first that cannot be read, and its answer.
pub type Made = (Vec<u32>, Outcome);

/// The calls of a way, one after the other, the decide just made.
pub struct Taken {
    last_store: u32,
    decide: Outcome,
    /// No slot of the log is free any more.
    full: bool,
    /// Of the ACC: what the new block stands on was stored in this view.
    of_view: u32,
    own_steps: bool,
    /// One of its replicas was cut before.
    cut: bool,
    /// Of an earlier proposal there are not f+1 COMMITs.
    undecided: bool,
}

impl Taken {
    /// None where the last lines are not those of a way.
    pub fn by_lines(m: &Memory, made: &[Made]) -> Option<Taken> {
        let quorum = m.f() as usize + 1;
        let calls = &made[made.len().checked_sub(decision_calls(m.f()) as usize)?..];
        let (views, rest) = calls.split_at(quorum);
        let (between, ends) = rest.split_at(3);
        let (stores, decide) = ends.split_at(quorum);
        let replicas = of_code(VIEW, views)?;
        let view = *views[0].0.get(2)?;
        let leading = [ACCUMULATE, PREPARE_ACC, DECIDE].iter().zip([&between[0], &between[2], &decide[0]]);
        let is_led = leading.clone().all(|(code, (numbers, _))| numbers.starts_with(&[*code]))
            && leading.clone().all(|(_, (numbers, _))| numbers.get(1).copied() == leader(view, m.replicas()));
        let is_way = is_led && of_code(BLOCK, &between[1..2]).is_some() && of_code(STORE, stores)? == replicas;
        is_way.then(|| Taken {
            last_store: stores[quorum - 1].1.answer,
            decide: decide[0].1,
            full: free_slots(m) == 0,
            of_view: m.certificate(between[0].1.first).of_view,
            own_steps: m.steps() != Steps::DEFAULT,
            cut: replicas.iter().any(|&replica| m.is_replica(replica) && m.replica(replica).boot > 0),
            undecided: is_undecided(m, views[0].1.first),
        })
    }
}

/// The replicas of calls that are all of this code.
fn of_code(code: u32, calls: &[Made]) -> Option<Vec<u32>> {
    calls.iter().map(|(numbers, _)| numbers.get(1).copied().filter(|_| numbers[0] == code)).collect()
}

/// Of a proposal below this number there are not f+1 COMMITs below it.
fn is_undecided(m: &Memory, most: u32) -> bool {
    let before: Vec<Certificate> = (0..most).map(|number| m.certificate(number)).collect();
    let signers = |prop: &Certificate| {
        let commits = before.iter().filter(|c| c.kind == COMMIT && (c.view, c.block) == (prop.view, prop.block));
        commits.map(|c| c.signer).collect::<BTreeSet<u32>>().len() as u32
    };
    before.iter().any(|c| c.kind == PROP && signers(c) <= m.f())
}

type Mark = (&'static str, fn(&Taken) -> bool);

/// Of ways that are gone to the end, and then of any.
const GONE: &[Mark] = &[
    ("way on: gone", |_| true),
    ("way on: after a cut of one of its replicas", |way| way.cut),
    ("way on: after an undecided proposal", |way| way.undecided),
    ("way on: on a block that a replica has stored", |way| way.of_view > 0),
    ("way on: with steps of its own", |way| way.own_steps),
    ("way on: with just 2f+4 free slots", |way| way.full),
];

const STOPPED: &[Mark] =
    &[("way on: with one slot fewer", |way| way.last_store == NO_ROOM && way.decide.answer == UNKNOWN_NUMBER)];

pub fn script_names() -> Vec<String> {
    GONE.iter().chain(STOPPED).map(|(mark, _)| mark.to_string()).collect()
}

/// In the order of the names.
pub fn script_hits(seen: &marks::Seen) -> Vec<bool> {
    let way = seen.way.as_ref();
    let gone = GONE.iter().map(|(_, holds)| way.is_some_and(|way| way.decide.is_accepted() && holds(way)));
    gone.chain(STOPPED.iter().map(|(_, holds)| way.is_some_and(holds))).collect()
}
