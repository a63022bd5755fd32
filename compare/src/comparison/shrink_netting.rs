//! Makes a netting smaller as long as it still shows the difference.

use super::shrink::{drop_blocks, memory_text, shrink_sample, TIME};
use crate::block::block_slots;
use crate::generate::netting::Netting;
use crate::memory::MOVEMENT_WORDS;
use std::time::Instant;

/// Drops movements, sets their words and the question to small numbers, drops blocks, then shrinks the memory.
pub fn shrink_netting(netting: &Netting, differs: impl Fn(&Netting) -> bool) -> Netting {
    let end = Instant::now() + TIME;
    let mut best = netting.clone();
    while Instant::now() < end {
        let before = best.clone();
        best = with_fewer_movements(best, &differs);
        best = with_smaller_words(best, &differs);
        best = with_fewer_blocks(best, &differs);
        let memory = shrink_sample(&best.memory, |memory| {
            let memory = memory.clone();
            differs(&Netting { memory, ..best.clone() })
        });
        best.memory = memory;
        if best == before {
            break;
        }
    }
    best
}

/// The change, where the difference stays.
fn changed(best: Netting, differs: &impl Fn(&Netting) -> bool, change: impl Fn(&mut Netting)) -> Netting {
    let mut next = best.clone();
    change(&mut next);
    if next != best && differs(&next) {
        next
    } else {
        best
    }
}

/// Leaves out runs of movements, long ones first; single words last, where records are broken.
fn with_fewer_movements(mut best: Netting, differs: &impl Fn(&Netting) -> bool) -> Netting {
    let mut run = best.movements.len() / MOVEMENT_WORDS;
    while run > 0 {
        best = without_runs(best, MOVEMENT_WORDS * run, differs);
        run /= 2;
    }
    without_runs(best, 1, differs)
}

fn without_runs(mut best: Netting, run: usize, differs: &impl Fn(&Netting) -> bool) -> Netting {
    let mut place = best.movements.len() / run * run;
    while place >= run {
        place -= run;
        best = changed(best, differs, |next| drop(next.movements.drain(place..place + run)));
    }
    best
}

fn with_smaller_words(mut best: Netting, differs: &impl Fn(&Netting) -> bool) -> Netting {
    for smaller in SMALLER {
        best = changed(best, differs, |next| next.replica = smaller(next.replica));
        best = changed(best, differs, |next| next.block = smaller(next.block));
    }
    for word in 0..best.movements.len() {
        for smaller in SMALLER {
            best = changed(best, differs, |next| next.movements[word] = smaller(next.movements[word]));
        }
    }
    best
}

const SMALLER: [fn(u32) -> u32; 4] = [|_| 0, |word| word.min(1), |word| word / 2, |word| word.saturating_sub(1)];

/// Leaves out the last added blocks, many at once first.
fn with_fewer_blocks(mut best: Netting, differs: &impl Fn(&Netting) -> bool) -> Netting {
    let mut run = block_slots(&best.memory.blocks);
    while run > 0 {
        best = changed(best, differs, |next| drop_blocks(&mut next.memory, run));
        run /= 2;
    }
    best
}

/// The memory, the list and the question, as text that a person can read; equal movements stand there once.
pub fn netting_text(netting: &Netting) -> String {
    let Netting { memory, movements, block, replica, .. } = netting;
    let rows: Vec<&[u32]> = movements.chunks(MOVEMENT_WORDS).collect();
    let list: String = rows.chunk_by(|one, next| one == next).map(|same| row_text(same[0], same.len())).collect();
    format!(
        "  balance of replica {replica} up to block {block}\n{}  movements, {} words\n{list}",
        memory_text(memory),
        movements.len()
    )
}

fn row_text(row: &[u32], times: usize) -> String {
    let times = if times > 1 { format!(", {times} times") } else { String::new() };
    format!("    {row:?}{times}\n")
}
