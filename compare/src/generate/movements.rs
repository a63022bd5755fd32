//! Lists of movements for a memory: sound ones, ones with a wrong word, of every length about the limits.

use super::memory::Sample;
use crate::memory::*;
use crate::netting::Movement;
use crate::random::Random;

/// What a movement may name in a memory, by the table's words as they are.
#[derive(Clone, Copy)]
pub struct Limits {
    pub n: u32,
    pub added: u32,
}

impl Limits {
    /// Total on a damaged memory too: far numbers are brought near.
    pub fn of(memory: &Sample) -> Limits {
        let word = |place: usize| memory.table.get(place).copied().unwrap_or(1);
        Limits {
            n: replica_count(word(header::F).clamp(1, MAX_F + 1)),
            added: word(header::ADDED).clamp(1, MAX_BLOCKS as u32 + 1),
        }
    }

    pub fn near_replica(&self, random: &mut Random) -> u32 {
        let any = random.below(self.n);
        random.pick(&[0, self.n - 1, any])
    }
}

/// The words of a list, half of its movements in blocks of the chosen block's ancestry (without block 0).
pub fn any_list(random: &mut Random, limits: Limits, ancestry: &[u32]) -> Vec<u32> {
    let count = any_count(random, limits);
    let mut list: Vec<Movement> = (0..count).map(|_| sound(random, limits, ancestry)).collect();
    if random.once_in(12) {
        give_back(&mut list);
    }
    for _ in 0..random.pick(&[0, 0, 0, 1, 1, 2]) {
        damage(random, limits, &mut list);
    }
    let mut words = words_of(&list);
    if random.once_in(10) {
        break_records(random, &mut words);
    }
    words
}

/// As many movements as there may be, each of the most pallets, to one replica or from it.
pub fn extreme_list(random: &mut Random, limits: Limits, ancestry: &[u32], replica: u32) -> Vec<u32> {
    let receives = random.once_in(2);
    let replica = replica % limits.n;
    let mut movement = || {
        let other = (replica + random.within(1, limits.n - 1)) % limits.n;
        let (giver, taker) = if receives { (other, replica) } else { (replica, other) };
        Movement { block: random.pick(ancestry), giver, taker, pallets: MAX_PALLETS }
    };
    words_of(&(0..MAX_MOVEMENTS).map(|_| movement()).collect::<Vec<_>>())
}

pub fn words_of(list: &[Movement]) -> Vec<u32> {
    list.iter().flat_map(Movement::words).collect()
}

/// Mostly a few; the limits and lists far past them come seldom. With block 0 alone only an empty list is sound.
fn any_count(random: &mut Random, limits: Limits) -> usize {
    match random.below(64) {
        0 => random.pick(&[MAX_MOVEMENTS - 1, MAX_MOVEMENTS, MAX_MOVEMENTS + 1]),
        1 => random.below(MAX_MOVEMENTS as u32 + 1) as usize,
        2 if random.once_in(4) => random.pick(&[MAX_MOVEMENTS + 2, 2 * MAX_MOVEMENTS]),
        3..=8 => random.below(2) as usize,
        _ if limits.added == 1 && random.once_in(2) => 0,
        _ => random.below(12) as usize,
    }
}

pub fn sound(random: &mut Random, limits: Limits, ancestry: &[u32]) -> Movement {
    let last = (limits.added - 1).max(1);
    let any = random.within(1, last);
    let block = if ancestry.is_empty() || random.once_in(2) {
        random.pick(&[1, last, any, any])
    } else {
        random.pick(ancestry)
    };
    let giver = limits.near_replica(random);
    let near = limits.near_replica(random);
    let taker = if near == giver { (giver + random.within(1, limits.n - 1)) % limits.n } else { near };
    let any = random.within(1, MAX_PALLETS);
    let few = random.within(1, 4);
    Movement { block, giver, taker, pallets: random.pick(&[1, MAX_PALLETS, any, few]) }
}

/// The second half takes back what the first gave, so that balances come to 0.
fn give_back(list: &mut [Movement]) {
    let (first, second) = list.split_at_mut(list.len() / 2);
    for (back, movement) in second.iter_mut().zip(first) {
        *back = Movement { giver: movement.taker, taker: movement.giver, ..*movement };
    }
}

/// One word of one movement becomes wrong, mostly by just one too much.
pub fn damage(random: &mut Random, limits: Limits, list: &mut [Movement]) {
    let any = random.below(list.len() as u32) as usize;
    let place = random.pick(&[0, any, list.len().saturating_sub(1)]);
    let Some(movement) = list.get_mut(place) else { return };
    let Limits { n, added } = limits;
    match random.below(4) {
        0 => movement.block = random.pick(&[0, 0, added, added, added + 1, u32::MAX]),
        1 => movement.giver = random.pick(&[n, n, n + 1, movement.taker, u32::MAX]),
        2 => movement.taker = random.pick(&[n, n, n + 1, movement.giver, u32::MAX]),
        _ => movement.pallets = random.pick(&[0, 0, MAX_PALLETS + 1, MAX_PALLETS + 1, 1 << 31, u32::MAX]),
    }
}

/// Words too many or too few, near the limit too.
pub fn break_records(random: &mut Random, words: &mut Vec<u32>) {
    let part = random.within(1, MOVEMENT_WORDS as u32 - 1) as usize;
    match random.below(8) {
        0 => words.resize(MOVEMENT_WORDS * MAX_MOVEMENTS - part, 1),
        1 => words.resize(MOVEMENT_WORDS * MAX_MOVEMENTS + part, 1),
        2..=4 => words.truncate(words.len().saturating_sub(part)),
        _ => words.extend((0..part).map(|_| random.below(3))),
    }
}
