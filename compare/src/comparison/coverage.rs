//! What the generators reach: how often each call gets each answer, which f are opened, and the marks that the
//! comparison is meant to hit, on script lines, memories, nettings and histories of waiting movements.

use super::marks::{self, seen_lines, Seen};
use super::mistakes::Most;
use super::{memory_marks, netting_marks, waiting_marks};
use crate::call::{LAST_CODE, OPEN};
use crate::generate::memory::sample;
use crate::generate::scripts::{script, Script, SORTS};
use crate::memory::MAX_F;
use crate::refusal::{ACCEPTED, WRONG_STEPS};

/// Rows: call codes, and any other in the last. Columns: answers.
type Counts = [[u64; LAST_ANSWER as usize + 1]; OTHER_CODE as usize + 1];

const OTHER_CODE: u32 = LAST_CODE + 1;
const LAST_ANSWER: u32 = WRONG_STEPS;

/// Prints it all; what is not reached at all is an error.
pub fn tell(seed: u64, scripts: u64, most: &Most) -> Result<(), String> {
    let of_memories = memories_reach(seed, most.memories);
    let mut reached = Reached {
        counts: Default::default(),
        sorts: vec![0; SORTS.len()],
        opened: vec![0; MAX_F as usize],
        marks: marks::names().into_iter().map(|mark| (mark, 0)).collect(),
    };
    (seed..seed + scripts).for_each(|seed| reached.add(&script(seed)));
    print("script lines", &reached.counts);
    let mut all = reached.named();
    all.extend(of_memories);
    all.extend(netting_marks::reached(seed, most.nettings)?);
    all.extend(waiting_marks::reached(seed, most.histories));
    all.iter().for_each(|(name, count)| println!("{name:64}{count:9}"));
    let missed: Vec<&str> = all.iter().filter(|(_, count)| *count == 0).map(|(name, _)| name.as_str()).collect();
    if missed.is_empty() {
        Ok(())
    } else {
        Err(format!("not reached: {}", missed.join(", ")))
    }
}

/// Prints the answers of the memories' calls; every mark by its name, with how many memories reach it.
fn memories_reach(seed: u64, memories: u64) -> Vec<(String, u64)> {
    let mut counts: Counts = Default::default();
    let mut marks: Vec<_> = memory_marks::names().into_iter().map(|mark| (mark, 0)).collect();
    for seed in seed..seed + memories {
        let seen = memory_marks::Seen::of(sample(seed));
        count(&mut counts, seen.code(), seen.outcome.answer);
        add_hits(&mut marks, memory_marks::hits(&seen));
    }
    print("memories", &counts);
    marks
}

fn add_hits(marks: &mut [(String, u64)], hits: Vec<bool>) {
    marks.iter_mut().zip(hits).for_each(|((_, count), hit)| *count += u64::from(hit));
}

fn count(counts: &mut Counts, code: u32, answer: u32) {
    counts[code.min(OTHER_CODE) as usize][answer.min(LAST_ANSWER) as usize] += 1;
}

fn print(what: &str, counts: &Counts) {
    println!("{what}: answers 0 to {LAST_ANSWER} by call code ({OTHER_CODE}: any other)");
    for (code, row) in counts.iter().enumerate() {
        let cells: String = row.iter().map(|count| format!("{count:9}")).collect();
        println!("{code:4}{cells}");
    }
    println!();
}

/// What scripts have reached.
struct Reached {
    counts: Counts,
    sorts: Vec<u64>,
    /// Accepted openings by f, from 1 on.
    opened: Vec<u64>,
    marks: Vec<(String, u64)>,
}

impl Reached {
    fn add(&mut self, script: &Script) {
        for (count, sort) in self.sorts.iter_mut().zip(SORTS) {
            *count += u64::from(script.sort == *sort);
        }
        seen_lines(&script.text, |seen| self.add_line(&seen));
    }

    fn add_line(&mut self, seen: &Seen) {
        count(&mut self.counts, seen.code, seen.outcome.answer);
        if seen.is(OPEN, ACCEPTED) {
            self.opened[seen.outcome.first as usize / 2 - 1] += 1;
        }
        add_hits(&mut self.marks, marks::hits(seen));
    }

    fn named(&self) -> Vec<(String, u64)> {
        let sorts = SORTS.iter().map(|sort| sort.to_string()).zip(&self.sorts);
        let opened = (1..=MAX_F).map(|f| format!("openings with f = {f}")).zip(&self.opened);
        let named = sorts.chain(opened).map(|(name, count)| (name, *count));
        named.chain(self.marks.iter().cloned()).collect()
    }
}
