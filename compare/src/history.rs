//! A history of a ledger and of what waits beside it: calls of the ledger, openings with the further slice and without it,
//! and the calls for waiting movements, each lent what the last left.

use crate::call::{Outcome, OPEN};
use crate::driver::Line;
use crate::entries::{Entry, Waiting};
use crate::generate::memory::Sample;
use crate::layout;
use crate::memory::{table_length, MAX_F, WAITING_WORDS};
use crate::mistake::Rules;
use crate::waiting::{ask, enter, match_entry, open, withdraw, Claim};

#[derive(Clone, PartialEq, Eq, Debug)]
pub enum Step {
    /// A call of the ledger, which is not lent the further slice; an opening among them is a plain one.
    Call(Line),
    Open {
        f: u32,
        steps: Vec<u32>,
    },
    Enter(Entry),
    Withdraw(u32),
    /// By a list of the history, named by its number.
    Match {
        claim: Claim,
        list: usize,
    },
    Ask(u32),
}

impl Step {
    /// The f that a table is lent for.
    fn opens(&self) -> Option<u32> {
        let f = match self {
            Step::Call(line) if line.code == OPEN => line.replica,
            Step::Open { f, .. } => *f,
            _ => return None,
        };
        (1..=MAX_F).contains(&f).then_some(f)
    }

    /// Of these no word of the three slices changes.
    pub fn leaves_ledger(&self) -> bool {
        !matches!(self, Step::Call(_) | Step::Open { .. })
    }
}

#[derive(Clone, Copy, PartialEq, Eq, Debug)]
pub enum Slice {
    Table,
    Log,
    Blocks,
    Further,
}

/// A step, and the slice that is lent with a word too few or too many, if any.
#[derive(Clone, PartialEq, Eq, Debug)]
pub struct Act {
    pub step: Step,
    pub off: Option<(Slice, bool)>,
}

#[derive(Clone, PartialEq, Eq, Debug)]
pub struct History {
    pub sort: &'static str,
    /// The three slices at the start; their call is not made.
    pub memory: Sample,
    /// The further slice at the start.
    pub words: Vec<u32>,
    pub acts: Vec<Act>,
    /// Lists of movements that are lent.
    pub lists: Vec<Vec<u32>>,
}

/// Whoever keeps what waits, in a form of its own.
pub trait Keeper {
    /// The ledger's call that the memory holds.
    fn call(&mut self, memory: &mut Sample) -> Outcome;
    /// Any other step, lent so many words of the further slice more or fewer than it has.
    fn wait(&mut self, memory: &mut Sample, step: &Step, movements: &[u32], off: isize) -> Outcome;
    /// The further slice's words.
    fn words(&self) -> Vec<u32>;
    /// Writes words of the further slice, from an index on.
    fn put(&mut self, at: usize, words: &[u32]);
}

/// The library with its own entries.
pub struct OwnKeeper<R: Rules> {
    rules: R,
    pub waiting: Waiting,
    /// As they stood at the start, for what the library does not keep.
    words: Vec<u32>,
}

impl<R: Rules> OwnKeeper<R> {
    pub fn new(rules: R, words: &[u32]) -> OwnKeeper<R> {
        OwnKeeper { rules, waiting: layout::read(words), words: words.to_vec() }
    }
}

impl<R: Rules> Keeper for OwnKeeper<R> {
    fn call(&mut self, memory: &mut Sample) -> Outcome {
        memory.run(self.rules)
    }

    fn wait(&mut self, memory: &mut Sample, step: &Step, movements: &[u32], off: isize) -> Outcome {
        let OwnKeeper { rules, waiting, .. } = self;
        let (rules, words) = (*rules, waiting.words);
        waiting.words = words.saturating_add_signed(off);
        let m = &mut memory.memory();
        let answer = match step {
            Step::Call(line) => panic!("a call of the ledger: {line:?}"),
            Step::Open { f, steps } => open(rules, m, waiting, *f, steps),
            Step::Enter(entry) => enter(rules, m, waiting, *entry),
            Step::Withdraw(identity) => withdraw(rules, m, waiting, *identity),
            Step::Match { claim, .. } => match_entry(rules, m, waiting, movements, *claim),
            Step::Ask(taker) => ask(rules, m, waiting, *taker),
        };
        waiting.words = words;
        Outcome::from(answer)
    }

    fn words(&self) -> Vec<u32> {
        let mut words = self.words.clone();
        layout::write(&self.waiting, &mut words);
        words
    }

    fn put(&mut self, at: usize, words: &[u32]) {
        let mut all = self.words();
        all[at..at + words.len()].copy_from_slice(words);
        *self = OwnKeeper::new(self.rules, &all);
    }
}

/// One step. An opening is lent a table for its f; where it is refused the one in use stays.
pub fn perform(keeper: &mut dyn Keeper, memory: &mut Sample, act: &Act, lists: &[Vec<u32>]) -> Outcome {
    let in_use = act.step.opens().map(|f| {
        let in_use = memory.table.clone();
        memory.table.resize(table_length(f) as usize, 0);
        in_use
    });
    let left_out = lend(memory, act.off);
    let off = match act.off {
        Some((Slice::Further, more)) => by(more),
        _ => 0,
    };
    let list = match act.step {
        Step::Match { list, .. } => lists[list].as_slice(),
        _ => &[],
    };
    let outcome = if let Step::Call(line) = &act.step {
        memory.line = line.clone();
        keeper.call(memory)
    } else {
        keeper.wait(memory, &act.step, list, off)
    };
    take_back(memory, act.off, left_out);
    if let (Some(table), false) = (in_use, outcome.is_accepted()) {
        memory.table = table;
    }
    outcome
}

fn by(more: bool) -> isize {
    if more {
        1
    } else {
        -1
    }
}

fn slice_of(memory: &mut Sample, slice: Slice) -> Option<&mut Vec<u32>> {
    match slice {
        Slice::Table => Some(&mut memory.table),
        Slice::Log => Some(&mut memory.log),
        Slice::Blocks => Some(&mut memory.blocks),
        Slice::Further => None,
    }
}

/// Makes the slice longer or shorter by a word: the word left out.
fn lend(memory: &mut Sample, off: Option<(Slice, bool)>) -> Option<u32> {
    let (slice, more) = off?;
    let words = slice_of(memory, slice)?;
    if more {
        words.push(0);
        return None;
    }
    words.pop()
}

fn take_back(memory: &mut Sample, off: Option<(Slice, bool)>, left_out: Option<u32>) {
    let Some((slice, more)) = off else { return };
    if let Some(words) = slice_of(memory, slice) {
        if more {
            words.pop();
        }
        words.extend(left_out);
    }
}

/// A further slice of the right length whose words are all 0, as an opening leaves it.
pub fn no_words() -> Vec<u32> {
    vec![0; WAITING_WORDS]
}
