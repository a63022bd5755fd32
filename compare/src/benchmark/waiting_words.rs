//! Waiting movements in plain Rust over the further slice's words, as the archive lays them out: the same work on the same
//! words, to time the archive by. The tests put it beside the library, whose own entries it does not use.

use crate::ancestry::ancestors;
use crate::call::Outcome;
use crate::comparison::checkers::{Checker, Library};
use crate::entries::Entry;
use crate::form::well_formed;
use crate::generate::memory::Sample;
use crate::generate::netting::Netting;
use crate::history::{Keeper, Step};
use crate::layout::*;
use crate::memory::*;
use crate::mistake::Correct;
use crate::netting::{all_fit, list_fits, Movement};
use crate::opening::open_beside;
use crate::refusal::*;
use crate::waiting::Claim;

/// The library, but for what waits.
pub struct Words;

impl Checker for Words {
    fn call(&self, sample: &mut Sample) -> Outcome {
        Library(Correct).call(sample)
    }

    fn panel(&self, sample: &mut Sample, replica: u32) -> (u32, u32) {
        Library(Correct).panel(sample, replica)
    }

    fn balance(&self, netting: &mut Netting) -> (u32, i32) {
        Library(Correct).balance(netting)
    }

    fn keeper(&self, words: &[u32]) -> Box<dyn Keeper + '_> {
        Box::new(WordsKeeper { words: [words, &[0]].concat() })
    }

    fn read_number(&self, bytes: &[u8]) -> u32 {
        Library(Correct).read_number(bytes)
    }

    fn write_number(&self, number: u32, bytes: &mut [u8]) -> u32 {
        Library(Correct).write_number(number, bytes)
    }
}

/// The words, and one past them that may be lent too.
struct WordsKeeper {
    words: Vec<u32>,
}

impl WordsKeeper {
    fn own(&self) -> usize {
        self.words.len() - 1
    }
}

impl Keeper for WordsKeeper {
    fn call(&mut self, memory: &mut Sample) -> Outcome {
        memory.run(Correct)
    }

    fn wait(&mut self, memory: &mut Sample, step: &Step, movements: &[u32], off: isize) -> Outcome {
        let length = self.own().saturating_add_signed(off);
        let w = &mut self.words[..length];
        let m = &mut memory.memory();
        let answer = match step {
            Step::Call(line) => panic!("a call of the ledger: {line:?}"),
            Step::Open { f, steps } => open(m, w, *f, steps),
            Step::Enter(entry) => enter(m, w, *entry),
            Step::Withdraw(identity) => withdraw(m, w, *identity),
            Step::Match { claim, .. } => match_entry(m, w, movements, *claim),
            Step::Ask(taker) => ask(m, w, *taker),
        };
        Outcome::from(answer)
    }

    fn words(&self) -> Vec<u32> {
        self.words[..self.own()].to_vec()
    }

    fn put(&mut self, at: usize, words: &[u32]) {
        self.words[at..at + words.len()].copy_from_slice(words);
    }
}

fn open(m: &mut Memory, w: &mut [u32], f: u32, steps: &[u32]) -> Answer {
    let answer = open_beside(Correct, m, f, steps, w.len() == WAITING_WORDS)?;
    w.fill(0);
    Ok(answer)
}

fn enter(m: &Memory, w: &mut [u32], entry: Entry) -> Answer {
    let Entry { identity, giver, taker, pallets } = entry;
    let words = [identity, giver, taker, pallets];
    need(is_sound(m, w), WRONG_FORM)?;
    need(entry_fits(m.replicas(), &words), WRONG_MOVEMENT)?;
    need(position(w, identity).is_none(), WRONG_IDENTITY)?;
    let count = w[COUNT] as usize;
    need(count < MAX_WAITING, WAITING_FULL)?;
    w[entry_start(count)..entry_start(count + 1)].copy_from_slice(&words);
    w[COUNT] += 1;
    refresh(w, taker);
    Ok((0, 0))
}

fn withdraw(m: &Memory, w: &mut [u32], identity: u32) -> Answer {
    need(is_sound(m, w), WRONG_FORM)?;
    let position = position(w, identity).ok_or(WRONG_IDENTITY)?;
    remove(w, position);
    Ok((0, 0))
}

fn match_entry(m: &Memory, w: &mut [u32], movements: &[u32], claim: Claim) -> Answer {
    need(is_sound(m, w) && list_fits(Correct, movements), WRONG_FORM)?;
    need(m.is_replica(claim.replica), OUT_OF_RANGE)?;
    let place = claim.place as usize;
    let named = movements.chunks_exact(MOVEMENT_WORDS).nth(place).map(Movement::from_words).ok_or(UNKNOWN_NUMBER)?;
    need(all_fit(Correct, m, movements), WRONG_MOVEMENT)?;
    let position = position(w, claim.identity).ok_or(WRONG_IDENTITY)?;
    let entry = &w[entry_start(position)..entry_start(position + 1)];
    let mut line = ancestors(m.blocks, m.replica(claim.replica).decided_block);
    let takes = entry[1..] == [named.giver, named.taker, named.pallets]
        && w[PLACES + place] == 0
        && line.any(|block| block == named.block);
    need(takes, WRONG_CERTIFICATE)?;
    remove(w, position);
    w[PLACES + place] = USED;
    Ok((0, 0))
}

fn ask(m: &Memory, w: &[u32], taker: u32) -> Answer {
    need(is_sound(m, w), WRONG_FORM)?;
    need(m.is_replica(taker), OUT_OF_RANGE)?;
    let at = TAKERS + TAKER_WORDS * taker as usize;
    Ok((w[at], w[at + 1]))
}

fn is_sound(m: &Memory, w: &[u32]) -> bool {
    well_formed(Correct, m) && form_fits(w, m.replicas())
}

/// Without a branch for each entry, so that several can be tested at once.
fn form_fits(w: &[u32], n: u32) -> bool {
    w.len() == WAITING_WORDS
        && w[COUNT] as usize <= MAX_WAITING
        && entries(w).iter().fold(true, |fits, entry| fits & entry_fits(n, entry))
}

fn entry_fits(n: u32, &[identity, giver, taker, pallets]: &[u32; ENTRY_WORDS]) -> bool {
    (identity != 0) & (giver < n) & (taker < n) & (giver != taker) & (pallets.wrapping_sub(1) < MAX_PALLETS)
}

fn entries(w: &[u32]) -> &[[u32; ENTRY_WORDS]] {
    w[ENTRIES..entry_start(w[COUNT] as usize)].as_chunks().0
}

fn position(w: &[u32], identity: u32) -> Option<usize> {
    entries(w).iter().position(|entry| entry[0] == identity)
}

/// The entry leaves, and those after it close up.
fn remove(w: &mut [u32], position: usize) {
    let (start, end) = (entry_start(position), entry_start(w[COUNT] as usize));
    let taker = w[start + 2];
    w.copy_within(start + ENTRY_WORDS..end, start);
    w[COUNT] -= 1;
    refresh(w, taker);
}

/// Writes the two words of a taker from a pass over the entries.
fn refresh(w: &mut [u32], taker: u32) {
    let (mut pallets, mut earliest) = (0, 0);
    for entry in entries(w).iter().filter(|entry| entry[2] == taker) {
        pallets += entry[3];
        earliest = if earliest == 0 { entry[0] } else { earliest };
    }
    let at = TAKERS + TAKER_WORDS * taker as usize;
    w[at..at + TAKER_WORDS].copy_from_slice(&[pallets, earliest]);
}
