//! The calls for waiting movements, by how many wait: beside the same work in Rust on the same words.

use super::netting::chain;
use super::timing::best_in_turn;
use super::waiting_words::Words;
use super::Named;
use crate::comparison::checkers::Checker;
use crate::comparison::waitings::history_difference;
use crate::entries::{Entry, Waiting};
use crate::generate::memory::Sample;
use crate::generate::netting::Netting;
use crate::generate::waiting::DAY;
use crate::history::{no_words, Act, History, Keeper, Step};
use crate::layout;
use crate::memory::*;
use crate::mistake::Correct;
use crate::netting::Movement;
use crate::tell::words::thousands;
use crate::waiting::Claim;
use std::hint::black_box;
use std::ops::Range;

const COUNTS: [usize; 3] = [0, MAX_WAITING / 4, MAX_WAITING];
/// Heights of the chain that a match goes up.
const HEIGHTS: [usize; 2] = [1, MAX_BLOCKS - 1];

const NO_FIRMWARE: &str = "This was built without the feature `firmware`: there is no firmware to time.\n\n";

/// A call on a ledger and a further slice.
struct Case {
    name: &'static str,
    waiting: usize,
    height: usize,
    history: History,
}

/// So many entries over all replicas, identities from 1 on.
fn entries(count: usize) -> Vec<u32> {
    let entry = |place: usize| {
        let giver = place as u32 % MAX_REPLICAS;
        let apart = 1 + place as u32 / MAX_REPLICAS % (MAX_REPLICAS - 1);
        Entry {
            identity: place as u32 + 1,
            giver,
            taker: (giver + apart) % MAX_REPLICAS,
            pallets: 1 + place as u32 % MAX_PALLETS,
        }
    };
    let mut waiting = Waiting { entries: (0..count).map(entry).collect(), ..Waiting::default() };
    (0..MAX_REPLICAS).for_each(|taker| waiting.kept[taker as usize] = waiting.pass(Correct, taker));
    let mut words = no_words();
    layout::write(&waiting, &mut words);
    words
}

/// The greatest f, a chain up to the height whose end replica 0 has decided, and one step.
fn case(name: &'static str, waiting: usize, height: usize, step: impl Fn(Entry) -> Step) -> Case {
    let movements = if name == MATCH { MAX_MOVEMENTS } else { 0 };
    let Netting { mut memory, movements, .. } = chain(height, movements);
    let decided = Replica { decided_block: height as u32, ..memory.memory().replica(0) };
    memory.memory().set_replica(0, decided);
    let words = entries(waiting);
    let middle = layout::read(&words).entries.get(waiting / 2).copied().unwrap_or_default();
    let mut list = movements;
    if name == MATCH {
        // The last movement is the entry's own, in block 1.
        let Entry { giver, taker, pallets, .. } = middle;
        let end = list.len() - MOVEMENT_WORDS;
        list[end..].copy_from_slice(&Movement { block: 1, giver, taker, pallets }.words());
    }
    let acts = vec![Act { step: step(middle), off: None }];
    Case { name, waiting, height, history: History { sort: DAY, memory, words, acts, lists: vec![list] } }
}

const MATCH: &str = "Match";

/// The entry that leaves stands in the middle.
fn cases() -> Vec<Case> {
    let fresh = Entry { identity: u32::MAX, giver: 0, taker: 1, pallets: 1 };
    let claim = |entry: Entry| Claim { replica: 0, identity: entry.identity, place: MAX_MOVEMENTS as u32 - 1 };
    let mut all = vec![case("Open", MAX_WAITING, 1, |_| Step::Open { f: MAX_F, steps: Vec::new() })];
    for count in COUNTS {
        all.push(case("Enter", count.min(MAX_WAITING - 1), 1, |_| Step::Enter(fresh)));
    }
    for count in COUNTS {
        all.push(case("Withdraw", count.max(1), 1, |entry| Step::Withdraw(entry.identity)));
    }
    for height in HEIGHTS {
        for count in COUNTS {
            all.push(case(MATCH, count.max(1), height, |entry| Step::Match { claim: claim(entry), list: 0 }));
        }
    }
    for count in COUNTS {
        all.push(case("Ask", count, 1, |_| Step::Ask(1)));
    }
    all
}

/// The table. Without firmware the Rust alone.
pub fn section(firmware: Option<&dyn Checker>, calls: usize, runs: u64) -> Result<String, String> {
    let mut checkers: Vec<Named> = firmware.map(|firmware| ("firmware", firmware)).into_iter().collect();
    checkers.push(("Rust", &Words));
    let none = if firmware.is_none() { NO_FIRMWARE } else { "" };
    let heads: String = checkers.iter().map(|(name, _)| format!(" {name}, microseconds |")).collect();
    let ratio = if firmware.is_some() { " Ratio (goal 1.00) |" } else { "" };
    let columns = "---|".repeat(3 + checkers.len() + usize::from(firmware.is_some()));
    let mut table = format!("{none}| Call | Waiting | Height |{heads}{ratio}\n|{columns}\n");
    for case in cases() {
        if let Some((_, told)) = history_difference(checkers[0].1, &Words, &case.history) {
            return Err(format!("{} with {} waiting: {told}", case.name, case.waiting));
        }
        let times = times(&checkers, &case, calls, runs)?;
        let Case { name, waiting, height, .. } = case;
        let cells: String = times.iter().map(|time| format!(" {time:.2} |")).collect();
        let ratio = if let [one, other] = times[..] { format!(" {:.2} |", one / other) } else { String::new() };
        table += &format!("| {name} | {} | {} |{cells}{ratio}\n", thousands(waiting), thousands(height));
    }
    Ok(table)
}

/// Microseconds of one call by each checker: what it takes with the words that it changes put back before it, less what
/// putting them back takes. All take turns.
fn times(checkers: &[Named], case: &Case, calls: usize, runs: u64) -> Result<Vec<f64>, String> {
    let History { memory, words, acts, lists, .. } = &case.history;
    let mut actions: Vec<Box<dyn FnMut() + '_>> = Vec::new();
    for (name, checker) in checkers {
        let (mut left, mut right, mut memory) = (checker.keeper(words), checker.keeper(words), memory.clone());
        if !make(left.as_mut(), &mut memory, &acts[0].step, &lists[0]) {
            return Err(format!("{name}: {} with {} waiting is refused", case.name, case.waiting));
        }
        let changed = stretches(words, &left.words());
        let again = changed.clone();
        actions.push(Box::new(move || put_back(left.as_mut(), black_box(words), &again)));
        actions.push(Box::new(move || {
            put_back(right.as_mut(), black_box(words), &changed);
            black_box(make(right.as_mut(), &mut memory, black_box(&acts[0].step), black_box(&lists[0])));
        }));
    }
    let seconds = best_in_turn(&mut actions, calls, runs).map_err(|error| error.to_string())?;
    Ok(seconds.chunks_exact(2).map(|pair| (pair[1] - pair[0]) * 1e6 / calls as f64).collect())
}

/// Where two lists of words differ.
fn stretches(before: &[u32], after: &[u32]) -> Vec<Range<usize>> {
    let mut all: Vec<Range<usize>> = Vec::new();
    for at in (0..before.len()).filter(|&at| before[at] != after[at]) {
        match all.last_mut() {
            Some(last) if last.end == at => last.end += 1,
            _ => all.push(at..at + 1),
        }
    }
    all
}

fn put_back(keeper: &mut dyn Keeper, words: &[u32], changed: &[Range<usize>]) {
    for stretch in changed {
        keeper.put(stretch.start, &words[stretch.clone()]);
    }
}

fn make(keeper: &mut dyn Keeper, memory: &mut Sample, step: &Step, movements: &[u32]) -> bool {
    keeper.wait(memory, step, movements, 0).is_accepted()
}
