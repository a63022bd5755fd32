//! Makes a script or a memory smaller as long as it still shows the difference.

use super::renumber::Lines;
use crate::block::{block_slots, Block};
use crate::generate::memory::Sample;
use crate::memory::*;
use crate::steps::Steps;
use std::time::{Duration, Instant};

pub const TIME: Duration = Duration::from_secs(20);

/// Leaves out runs of lines, long ones first, again and again until nothing more can go; then joins what is left.
pub fn shrink_script(script: &[u8], differs: impl Fn(&[u8]) -> bool) -> Vec<u8> {
    let end = Instant::now() + TIME;
    let lines = Lines::read(script);
    let mut kept: Vec<usize> = (0..lines.count()).collect();
    let mut before = kept.len() + 1;
    while kept.len() < before && Instant::now() < end {
        before = kept.len();
        let mut run = kept.len().div_ceil(2);
        while run > 0 {
            kept = without_runs(&lines, kept, run, end, &differs);
            run /= 2;
        }
    }
    with_joined_runs(lines.keep(&kept), &differs)
}

/// Makes one unreadable line of a run of lines, with as many bytes: where a difference hangs on the place of a line in
/// its block, the lines before it cannot go, but need not be read.
fn with_joined_runs(script: Vec<u8>, differs: &impl Fn(&[u8]) -> bool) -> Vec<u8> {
    let end = Instant::now() + TIME / 4;
    let mut lines: Vec<Vec<u8>> = script.split_inclusive(|&byte| byte == b'\n').map(<[u8]>::to_vec).collect();
    let mut run = lines.len();
    while run > 1 {
        let mut place = 0;
        while place + run <= lines.len() && Instant::now() < end {
            let bytes: usize = lines[place..place + run].iter().map(Vec::len).sum();
            let line = [vec![b'x'; bytes - 1], vec![b'\n']].concat();
            let mut fewer = lines.clone();
            fewer.splice(place..place + run, [line]).for_each(drop);
            if differs(&fewer.concat()) {
                lines = fewer;
            } else {
                place += run;
            }
        }
        run = if run == 2 { 1 } else { run.div_ceil(2) };
    }
    lines.concat()
}

/// Leaves out runs of this length, from the end on.
fn without_runs(
    lines: &Lines,
    mut kept: Vec<usize>,
    run: usize,
    end: Instant,
    differs: &impl Fn(&[u8]) -> bool,
) -> Vec<usize> {
    let mut place = kept.len();
    while place > 0 && Instant::now() < end {
        place = place.saturating_sub(run);
        let mut fewer = kept.clone();
        fewer.drain(place..(place + run).min(kept.len()));
        if differs(&lines.keep(&fewer)) {
            kept = fewer;
        }
    }
    kept
}

/// Drops free slots, the last certificates and the last blocks, shortens the list, and sets words to 0 or to a fresh
/// table's and parents to block 0.
pub fn shrink_sample(sample: &Sample, differs: impl Fn(&Sample) -> bool) -> Sample {
    let end = Instant::now() + TIME;
    let mut best = sample.clone();
    let mut smaller = true;
    while smaller && Instant::now() < end {
        let next = changes(&best).iter().find_map(|change| changed(&best, change, &differs));
        smaller = next.is_some();
        best = next.unwrap_or(best);
    }
    best
}

type Change = Box<dyn Fn(&mut Sample)>;

/// The changed memory, where it is another and the difference stays.
fn changed(sample: &Sample, change: &Change, differs: &impl Fn(&Sample) -> bool) -> Option<Sample> {
    let mut next = sample.clone();
    change(&mut next);
    (next != *sample && differs(&next)).then_some(next)
}

/// What makes a memory one step simpler.
fn changes(sample: &Sample) -> Vec<Change> {
    let mut all: Vec<Change> = Vec::new();
    let kept = sample.log.len().saturating_sub(CERTIFICATE_WORDS);
    all.push(Box::new(move |next| next.log.truncate(kept)));
    if sample.table.len() >= HEADER_WORDS && sample.table[header::ISSUED] > 0 {
        all.push(Box::new(|next| next.table[header::ISSUED] -= 1));
        all.push(Box::new(move |next| {
            next.table[header::ISSUED] -= 1;
            next.log.truncate(kept);
        }));
    }
    all.extend(block_changes(sample));
    all.push(Box::new(|next| next.line.list.truncate(next.line.list.len().saturating_sub(1))));
    for (word, fresh) in fresh_words().enumerate().take(sample.table.len()).skip(HEADER_WORDS) {
        all.push(Box::new(move |next| next.table[word] = fresh));
    }
    for word in 0..sample.log.len() {
        all.push(Box::new(move |next| next.log[word] = next.log[word].min(1)));
    }
    all
}

/// Fewer blocks, at first many fewer, and a word less; then blocks on block 0, with the heights for it, and words of 0.
fn block_changes(sample: &Sample) -> Vec<Change> {
    let mut all: Vec<Change> = Vec::new();
    let mut run = block_slots(&sample.blocks);
    while run > 0 {
        all.push(Box::new(move |next| drop_blocks(next, run)));
        run /= 2;
    }
    all.push(Box::new(|next| next.blocks.truncate(next.blocks.len().saturating_sub(1))));
    if sample.table.len() >= HEADER_WORDS {
        let higher = |block: &u32| Block::at(&sample.blocks, *block).is_some_and(|record| record.parent != 0);
        let blocks = (1..block_slots(&sample.blocks) as u32).filter(higher);
        all.extend(blocks.map(|block| Box::new(move |next: &mut Sample| next.set_parent(block, 0)) as Change));
    }
    let words = 0..sample.blocks.len();
    all.extend(words.map(|word| Box::new(move |next: &mut Sample| next.blocks[word] = 0) as Change));
    all
}

/// Leaves out the last blocks, so many of them.
pub fn drop_blocks(sample: &mut Sample, run: usize) {
    let slots = block_slots(&sample.blocks).saturating_sub(run);
    sample.blocks.truncate(BLOCK_WORDS * slots);
    if let Some(word) = sample.table.get_mut(header::ADDED) {
        *word = (*word).min(slots as u32);
    }
}

/// A table's words as an opening without steps leaves them, for any number of replicas; the header's are 0.
fn fresh_words() -> impl Iterator<Item = u32> {
    let replica = Replica::fresh(Steps::DEFAULT.first()).words();
    [0; HEADER_WORDS].into_iter().chain(Steps::DEFAULT.0).chain(replica.into_iter().cycle())
}

/// The memory and its call, as text that a person can read.
pub fn sample_text(sample: &Sample) -> String {
    format!("  call {}\n{}", sample.line.text(), memory_text(sample))
}

pub fn memory_text(sample: &Sample) -> String {
    let rows =
        |words: &[u32], width: usize| words.chunks(width).map(|row| format!("    {row:?}\n")).collect::<String>();
    let (head, replicas) = sample.table.split_at(sample.table.len().min(REPLICAS_START));
    let (head, steps) = head.split_at(head.len().min(HEADER_WORDS));
    format!(
        "  table {head:?}, steps {steps:?}\n{}  log, {} words\n{}  blocks, {} words: {:?}\n",
        rows(replicas, REPLICA_WORDS),
        sample.log.len(),
        rows(&sample.log, CERTIFICATE_WORDS),
        sample.blocks.len(),
        sample.blocks.chunks(BLOCK_WORDS).collect::<Vec<_>>()
    )
}
