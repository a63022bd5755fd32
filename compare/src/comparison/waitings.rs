//! Two keepers of waiting movements through one history: every answer and value, every word of the three slices, that a
//! refused step changes nothing, and the values of an asking beside a full pass over the arrivals and departures told.

use super::checkers::Checker;
use crate::call::Outcome;
use crate::entries::Entry;
use crate::generate::memory::Sample;
use crate::history::{perform, Act, History, Keeper, Step};
use crate::layout::{self, told};
use crate::memory::{header, MAX_REPLICAS, WAITING_WORDS};

/// One of the two, with the three slices as it leaves them.
struct Side<'a> {
    keeper: Box<dyn Keeper + 'a>,
    memory: Sample,
    /// The further slice, as the last step left it.
    words: Vec<u32>,
}

impl<'a> Side<'a> {
    fn new(checker: &'a dyn Checker, history: &History) -> Side<'a> {
        let keeper = checker.keeper(&history.words);
        Side { words: keeper.words(), keeper, memory: history.memory.clone() }
    }

    /// Its outcome; or what no step may do, in words.
    fn step(&mut self, act: &Act, lists: &[Vec<u32>]) -> Result<Outcome, String> {
        let memory = self.memory.clone();
        let outcome = perform(self.keeper.as_mut(), &mut self.memory, act, lists);
        let refused = !outcome.is_accepted();
        let words = self.keeper.words();
        let (same_memory, same_words) = (slices(&memory) == slices(&self.memory), words == self.words);
        self.words = words;
        let only_asks = matches!(act.step, Step::Ask(_) | Step::Call(_));
        if refused && (outcome.first, outcome.second) != (0, 0) {
            Err(format!("{}, with values", outcome_text(outcome)))
        } else if !same_memory && (refused || act.step.leaves_ledger()) {
            Err(format!("{}, and a word of the ledger changed", outcome_text(outcome)))
        } else if !same_words && (refused || only_asks) {
            Err(format!("{}, and a word of the further slice changed", outcome_text(outcome)))
        } else {
            Ok(outcome)
        }
    }
}

fn slices(memory: &Sample) -> [&[u32]; 3] {
    [&memory.table, &memory.log, &memory.blocks]
}

fn outcome_text(outcome: Outcome) -> String {
    format!("{} {} {}", outcome.answer, outcome.first, outcome.second)
}

/// The arrivals and departures since the last opening with the slice, as the accepted steps tell them.
#[derive(Default)]
struct Told {
    /// Whether such an opening was seen: before it the slice may hold anything.
    opened: bool,
    events: Vec<Event>,
}

enum Event {
    Arrival(Entry),
    Departure(u32),
}

impl Told {
    fn add(&mut self, step: &Step) {
        match step {
            Step::Open { .. } => *self = Told { opened: true, events: Vec::new() },
            Step::Enter(entry) => self.events.push(Event::Arrival(*entry)),
            Step::Withdraw(identity) => self.events.push(Event::Departure(*identity)),
            Step::Match { claim, .. } => self.events.push(Event::Departure(claim.identity)),
            _ => {}
        }
    }

    /// The full pass for a taker: pallets and earliest arrival of what has come and not left.
    fn pass(&self, taker: u32) -> (u32, u32) {
        let mut waiting: Vec<Entry> = Vec::new();
        for event in &self.events {
            match event {
                Event::Arrival(entry) => waiting.push(*entry),
                Event::Departure(identity) => waiting.retain(|entry| entry.identity != *identity),
            }
        }
        waiting.retain(|entry| entry.taker == taker);
        (waiting.iter().map(|entry| entry.pallets).sum(), waiting.first().map_or(0, |entry| entry.identity))
    }
}

/// The taker whose two values a step may change.
fn touched(step: &Step, words: &[u32]) -> Option<u32> {
    let identity = match step {
        Step::Enter(entry) => return Some(entry.taker),
        Step::Withdraw(identity) => *identity,
        Step::Match { claim, .. } => claim.identity,
        _ => return None,
    };
    layout::read(words).entries.iter().find(|entry| entry.identity == identity).map(|entry| entry.taker)
}

/// What differs between the two, or what no keeper may show: the number of the step and words; none if all is well.
pub fn history_difference(one: &dyn Checker, other: &dyn Checker, history: &History) -> Option<(usize, String)> {
    let (mut left, mut right) = (Side::new(one, history), Side::new(other, history));
    let mut events = Told::default();
    for (place, act) in history.acts.iter().enumerate() {
        let touched = touched(&act.step, &right.words);
        let difference = step_difference(&mut left, &mut right, act, &history.lists, &mut events)
            .or_else(|| ask_difference(&mut left, &mut right, touched?, &events));
        if let Some(told) = difference {
            return Some((place, told));
        }
    }
    let n = right.memory.table.get(header::F).map_or(0, |&f| f.saturating_mul(2).saturating_add(1));
    let mut takers = 0..n.min(MAX_REPLICAS);
    let asked = takers.find_map(|taker| ask_difference(&mut left, &mut right, taker, &events));
    asked.or_else(|| words_difference(&left, &right)).map(|told| (history.acts.len(), told))
}

fn step_difference(
    left: &mut Side,
    right: &mut Side,
    act: &Act,
    lists: &[Vec<u32>],
    events: &mut Told,
) -> Option<String> {
    let (given, expected) = match (left.step(act, lists), right.step(act, lists)) {
        (Ok(given), Ok(expected)) => (given, expected),
        (Err(told), _) | (_, Err(told)) => return Some(told),
    };
    if given != expected {
        return Some(format!("answers {} and {}", outcome_text(given), outcome_text(expected)));
    }
    if slices(&left.memory) != slices(&right.memory) {
        return Some(format!("answer {}, then words of the ledger differ", outcome_text(given)));
    }
    if given.is_accepted() {
        events.add(&act.step);
    }
    None
}

/// Both are asked for a taker; where the events since an opening are known, the values are what a pass over them gives.
fn ask_difference(left: &mut Side, right: &mut Side, taker: u32, events: &Told) -> Option<String> {
    let ask = Act { step: Step::Ask(taker), off: None };
    let (given, expected) = match (left.step(&ask, &[]), right.step(&ask, &[])) {
        (Ok(given), Ok(expected)) => (given, expected),
        (Err(told), _) | (_, Err(told)) => return Some(format!("asked for {taker}: {told}")),
    };
    let pass = events.pass(taker);
    if given != expected {
        Some(format!("asked for {taker}: {} and {}", outcome_text(given), outcome_text(expected)))
    } else if events.opened && given.is_accepted() && (given.first, given.second) != pass {
        Some(format!("asked for {taker}: {}, but a pass over the history gives {pass:?}", outcome_text(given)))
    } else {
        None
    }
}

/// The further slice at the end, as far as the layout says what stands there.
fn words_difference(left: &Side, right: &Side) -> Option<String> {
    let (left, right) = (&left.words, &right.words);
    let differs = left.len() != right.len() || left.len() >= WAITING_WORDS && told(left) != told(right);
    differs.then(|| "at the end entries, kept words or used places differ".to_string())
}
