//! Makes a history smaller as long as it still shows the difference.

use super::shrink::TIME;
use crate::entries::Entry;
use crate::history::{Act, History, Step};
use crate::memory::MOVEMENT_WORDS;
use crate::waiting::Claim;
use std::time::Instant;

/// Leaves out runs of steps, long ones first, then movements that are not named, again and again until nothing more can go.
pub fn shrink_history(history: &History, differs: impl Fn(&History) -> bool) -> History {
    let end = Instant::now() + TIME;
    let mut best = history.clone();
    let mut before = usize::MAX;
    while best.acts.len() < before && Instant::now() < end {
        before = best.acts.len();
        let mut run = before.div_ceil(2);
        while run > 0 {
            best = without_runs(best, run, end, &differs);
            run /= 2;
        }
    }
    with_shorter_lists(best, &differs)
}

fn without_runs(mut best: History, run: usize, end: Instant, differs: &impl Fn(&History) -> bool) -> History {
    let mut place = best.acts.len();
    while place > 0 && Instant::now() < end {
        place = place.saturating_sub(run);
        let mut fewer = best.clone();
        fewer.acts.drain(place..(place + run).min(best.acts.len()));
        if fewer.acts.len() < best.acts.len() && differs(&fewer) {
            best = fewer;
        }
    }
    best
}

/// Lists that are lent no more become empty; of the others the end goes, and what stands before the named movement becomes
/// like it.
fn with_shorter_lists(mut best: History, differs: &impl Fn(&History) -> bool) -> History {
    let named: Vec<(usize, usize)> = best.acts.iter().filter_map(named_place).collect();
    for list in 0..best.lists.len() {
        let Some((_, place)) = named.iter().find(|(lent, _)| *lent == list) else {
            best.lists[list].clear();
            continue;
        };
        let start = MOVEMENT_WORDS * place;
        let mut next = best.clone();
        next.lists[list].truncate(start + MOVEMENT_WORDS);
        if let Some(words) = next.lists[list].get(start..start + MOVEMENT_WORDS).map(<[u32]>::to_vec) {
            next.lists[list] = words.repeat(place + 1);
        }
        if differs(&next) {
            best = next;
        }
    }
    best
}

fn named_place(act: &Act) -> Option<(usize, usize)> {
    match act.step {
        Step::Match { claim, list } => Some((list, claim.place as usize)),
        _ => None,
    }
}

/// The steps, as text that a person can read.
pub fn history_text(history: &History) -> String {
    let line = |(place, act): (usize, &Act)| {
        let off = act.off.map_or(String::new(), |(slice, more)| {
            format!(", {slice:?} a word {}", if more { "longer" } else { "shorter" })
        });
        format!("  {place}: {}{off}\n", step_text(&act.step, &history.lists))
    };
    let steps: String = history.acts.iter().enumerate().map(line).collect();
    let words = &history.words;
    let rows = words.iter().enumerate().filter(|(_, word)| **word != 0).take(40);
    let shown: Vec<String> = rows.map(|(at, word)| format!("{at}: {word}")).collect();
    format!("{steps}  further slice at the start, {} words, those other than 0: {}\n", words.len(), shown.join(", "))
}

fn step_text(step: &Step, lists: &[Vec<u32>]) -> String {
    match step {
        Step::Call(line) => format!("call {}", line.text()),
        Step::Open { f, steps } => format!("open with the slice, f {f}, steps {steps:?}"),
        Step::Enter(Entry { identity, giver, taker, pallets }) => format!("enter {identity} {giver} {taker} {pallets}"),
        Step::Withdraw(identity) => format!("withdraw {identity}"),
        Step::Match { claim, list } => {
            let rows: Vec<&[u32]> = lists[*list].chunks(MOVEMENT_WORDS).collect();
            let Claim { replica, identity, place } = claim;
            let named = rows.get(*place as usize);
            format!("match {identity} by replica {replica}, place {place} of {} movements: {named:?}", rows.len())
        }
        Step::Ask(taker) => format!("ask {taker}"),
    }
}
