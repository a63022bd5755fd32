//! The further slice as the archive lays it out, for slices made by hand, their comparison and the benchmark. The library
//! itself does not go by it.
//!
//! Word 0 is the count of entries; then for each taker the pallets waiting and the earliest identity; then the entries, of
//! four words, in order of arrival; then a word for each place of a movement, other than 0 where it took an entry out.

use crate::entries::{Departure, Entry, Kept, Waiting};
use crate::memory::*;
use crate::netting::Movement;

pub const COUNT: usize = 0;
pub const TAKERS: usize = 1;
pub const TAKER_WORDS: usize = 2;
pub const ENTRIES: usize = TAKERS + TAKER_WORDS * MAX_REPLICAS as usize;
pub const ENTRY_WORDS: usize = 4;
pub const PLACES: usize = ENTRIES + ENTRY_WORDS * MAX_WAITING;
/// What is written for a place that is used.
pub const USED: u32 = 1;

pub fn entry_start(position: usize) -> usize {
    ENTRIES + ENTRY_WORDS * position
}

/// What the words say. One entry more than the most shows that the count is too high; of a slice that is too short nothing
/// is read but its length.
pub fn read(words: &[u32]) -> Waiting {
    let mut waiting = Waiting { words: words.len(), ..Waiting::default() };
    if words.len() < WAITING_WORDS {
        return waiting;
    }
    for (kept, pair) in waiting.kept.iter_mut().zip(words[TAKERS..ENTRIES].chunks_exact(TAKER_WORDS)) {
        *kept = Kept { pallets: pair[0], earliest: pair[1] };
    }
    let count = (words[COUNT] as usize).min(MAX_WAITING + 1);
    let entry = |w: &[u32]| Entry { identity: w[0], giver: w[1], taker: w[2], pallets: w[3] };
    waiting.entries = words[ENTRIES..].chunks_exact(ENTRY_WORDS).take(count).map(entry).collect();
    let used = |place: &u32| words[PLACES + *place as usize] != 0;
    let by = |place| Departure { entry: Entry::default(), by: Some((place, Movement::default())) };
    waiting.departures = (0..MAX_MOVEMENTS as u32).filter(used).map(by).collect();
    waiting
}

/// Writes what waits over words that stood there; those past the entries stay, and those of places that are used already.
pub fn write(waiting: &Waiting, words: &mut [u32]) {
    if words.len() < WAITING_WORDS || waiting.entries.len() > MAX_WAITING {
        return;
    }
    words[COUNT] = waiting.entries.len() as u32;
    for (pair, kept) in words[TAKERS..ENTRIES].chunks_exact_mut(TAKER_WORDS).zip(waiting.kept) {
        pair.copy_from_slice(&[kept.pallets, kept.earliest]);
    }
    for (w, entry) in words[ENTRIES..].chunks_exact_mut(ENTRY_WORDS).zip(&waiting.entries) {
        w.copy_from_slice(&[entry.identity, entry.giver, entry.taker, entry.pallets]);
    }
    let mut places = vec![0; MAX_MOVEMENTS];
    let used = waiting.departures.iter().filter_map(|left| left.by);
    used.filter(|(place, _)| (*place as usize) < MAX_MOVEMENTS).for_each(|(place, _)| places[place as usize] = USED);
    for (word, used) in words[PLACES..].iter_mut().zip(places) {
        *word = if used == 0 || *word == 0 { used } else { *word };
    }
}

/// What two slices must agree in: the entries, what is kept, and which places are used.
pub fn told(words: &[u32]) -> (Vec<Entry>, Vec<Kept>, Vec<u32>) {
    let Waiting { entries, kept, departures, .. } = read(words);
    let used = departures.iter().filter_map(|left| left.by).map(|(place, _)| place).collect();
    (entries, kept.to_vec(), used)
}
