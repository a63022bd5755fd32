//! The further slice made by hand: what may wait, and words that break its form or are read by no test.

use super::movements::Limits;
use super::waiting::{damage_entry, sound_entry};
use crate::entries::{Departure, Entry, Waiting};
use crate::layout;
use crate::memory::*;
use crate::mistake::Correct;
use crate::netting::Movement;
use crate::random::Random;

/// Entries by the rules, some places used, and for each taker what the entries give.
pub fn sound_waiting(random: &mut Random, limits: Limits) -> Waiting {
    let mut waiting = Waiting::default();
    let most = MAX_WAITING as u32;
    let count = match random.below(12) {
        0 => random.pick(&[most - 1, most, most]),
        1 => random.below(most + 1),
        _ => random.below(8),
    };
    let identities = if count > 8 { 1..=count } else { 3..=2 + count };
    let mut identities: Vec<u32> = identities.collect();
    random.shuffle(&mut identities);
    waiting.entries = identities.into_iter().map(|identity| sound_entry(random, limits, identity)).collect();
    for _ in 0..random.below(4) {
        let any = random.below(MAX_MOVEMENTS as u32);
        let few = random.below(4);
        let place = random.pick(&[few, few, any, MAX_MOVEMENTS as u32 - 1]);
        waiting.departures.push(Departure { entry: Entry::default(), by: Some((place, Movement::default())) });
    }
    for taker in 0..MAX_REPLICAS {
        waiting.kept[taker as usize] = waiting.pass(Correct, taker);
    }
    waiting
}

/// Words past the count become garbage, which no call may read; then some break the form, or are not what they should be.
pub fn any_words(random: &mut Random, limits: Limits, words: &mut Vec<u32>) {
    let count = words[layout::COUNT] as usize;
    if random.once_in(3) {
        words[layout::entry_start(count)..layout::PLACES].fill_with(|| random.pick(&[0, 1, u32::MAX]));
    }
    match random.below(16) {
        0 => break_count(random, words),
        1..=3 => break_entry(random, limits, words, count),
        4..=5 => put_twice(random, words, count),
        6..=8 => change_kept(random, limits, words),
        9 => words[layout::PLACES + random.below(4) as usize] = random.pick(&[1, 2, 1 << 31, u32::MAX]),
        10 => change_length(random, words),
        11 if random.once_in(4) => words.fill_with(|| random.bits() as u32),
        11 if random.once_in(4) => words.fill(u32::MAX),
        _ => {}
    }
}

/// Too high, or lower than the entries that stand there.
fn break_count(random: &mut Random, words: &mut [u32]) {
    let most = MAX_WAITING as u32;
    let count = words[layout::COUNT];
    words[layout::COUNT] = random.pick(&[most + 1, most + 1, most + 2, 1 << 31, u32::MAX, count.saturating_sub(1)]);
    if words[layout::COUNT] != count && random.once_in(2) {
        // Sound entries up to the last place and one past it, so that the count alone is wrong.
        for position in 0..=MAX_WAITING {
            let start = layout::entry_start(position);
            words[start..start + layout::ENTRY_WORDS].copy_from_slice(&[position as u32 + 1, 0, 1, 1]);
        }
    }
}

fn entry_words(words: &mut [u32], position: usize) -> &mut [u32] {
    let start = layout::entry_start(position);
    &mut words[start..start + layout::ENTRY_WORDS]
}

fn break_entry(random: &mut Random, limits: Limits, words: &mut [u32], count: usize) {
    if count == 0 {
        return;
    }
    let any = random.below(count as u32) as usize;
    let w = entry_words(words, random.pick(&[0, any, count - 1]));
    let mut entry = Entry { identity: w[0], giver: w[1], taker: w[2], pallets: w[3] };
    damage_entry(random, limits, &mut entry);
    w.copy_from_slice(&[entry.identity, entry.giver, entry.taker, entry.pallets]);
}

/// One identity stands there twice: no test looks for that.
fn put_twice(random: &mut Random, words: &mut [u32], count: usize) {
    if count < 2 {
        return;
    }
    let (one, other) = (random.below(count as u32) as usize, random.below(count as u32) as usize);
    let identity = entry_words(words, one)[0];
    entry_words(words, other)[0] = identity;
}

/// What is kept for a taker is not what the entries give: no test looks for that either.
fn change_kept(random: &mut Random, limits: Limits, words: &mut [u32]) {
    for _ in 0..random.within(1, 3) {
        let at = layout::TAKERS + random.below(layout::TAKER_WORDS as u32 * limits.n.min(MAX_REPLICAS)) as usize;
        words[at] = random.pick(&[0, 1, 5, CEILING + 1, u32::MAX]);
    }
}

fn change_length(random: &mut Random, words: &mut Vec<u32>) {
    let length = WAITING_WORDS;
    let lengths = [length - 1, length + 1, length + 1, length - 2048, layout::ENTRIES, 1, 0, 2 * length];
    words.resize(random.pick(&lengths), 0);
}
