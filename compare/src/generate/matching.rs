//! Matches of waiting movements: mostly with a movement that fits, often nearly.

use super::movements::{break_records, damage, sound, words_of, Limits};
use super::waiting::{sound_entry, Scene};
use crate::ancestry::ancestors;
use crate::entries::Entry;
use crate::history::Step;
use crate::memory::*;
use crate::netting::Movement;
use crate::random::Random;
use crate::waiting::Claim;

/// The movements that are lent from match to match, and the places that took an entry out.
#[derive(Default)]
pub struct Lists {
    movements: Vec<Movement>,
    used: Vec<u32>,
}

/// Names a movement for an entry that waits.
pub fn any_match(scene: &mut Scene) {
    let limits = scene.limits();
    let replica = any_replica(scene, limits);
    let line = line_of(scene, replica);
    let any = sound_entry(&mut scene.random, limits, 1);
    let entry = scene.any_waiting().unwrap_or(any);
    let named = any_named(&mut scene.random, limits, &line, entry);
    let place = any_place(scene);
    put(scene, limits, &line, named, place);
    let (words, place) = lent(scene, limits, place);
    let identity = if scene.random.once_in(8) { scene.any_identity() } else { entry.identity };
    scene.history.lists.push(words);
    let list = scene.history.lists.len() - 1;
    let outcome = scene.push(Step::Match { claim: Claim { replica, identity, place }, list });
    if outcome.is_accepted() {
        scene.lists.used.push(place);
    }
    if scene.random.once_in(12) {
        scene.lists.movements.clear();
    }
}

/// Mostly one that shows a block other than 0; now and then none at all.
fn any_replica(scene: &mut Scene, limits: Limits) -> u32 {
    let n = limits.n;
    if scene.random.once_in(16) {
        return scene.random.pick(&[n, n, n + 1, u32::MAX]);
    }
    let showing: Vec<u32> = (0..n).filter(|&replica| decided(scene, replica) != 0).collect();
    if showing.is_empty() || scene.random.once_in(8) {
        return scene.random.below(n);
    }
    scene.random.pick(&showing)
}

fn decided(scene: &Scene, replica: u32) -> u32 {
    if replica > MAX_REPLICAS {
        return 0;
    }
    let at = replica_start(replica) + replica_word::DECIDED_BLOCK;
    scene.memory.table.get(at).copied().unwrap_or(0)
}

/// The blocks of the line but block 0.
fn line_of(scene: &Scene, replica: u32) -> Vec<u32> {
    let mut line: Vec<u32> = ancestors(&scene.memory.blocks, decided(scene, replica)).collect();
    line.retain(|&block| block != 0);
    line
}

/// The entry as a movement of the line; now and then of another block, or of other words.
fn any_named(random: &mut Random, limits: Limits, line: &[u32], entry: Entry) -> Movement {
    let any = sound(random, limits, line);
    let Entry { giver, taker, pallets, .. } = entry;
    // Beside the line, with a number below its end's.
    let top = line.first().map_or(1, |top| limits.added.min(*top));
    let beside: Vec<u32> = (1..top).filter(|block| !line.contains(block)).collect();
    let block = match random.below(12) {
        0 if !beside.is_empty() => random.pick(&beside),
        1 => any.block,
        _ if line.is_empty() => any.block,
        _ => random.pick(line),
    };
    let fits = Movement { block, giver, taker, pallets };
    match random.below(24) {
        0 => Movement { giver: any.giver, ..fits },
        1 => Movement { taker: any.taker, ..fits },
        2 => Movement { pallets: any.pallets, ..fits },
        3 => Movement { pallets: random.pick(&[pallets.saturating_sub(1), pallets.saturating_add(1)]), ..fits },
        4 => Movement { giver: taker, taker: giver, ..fits },
        5 => any,
        _ => fits,
    }
}

/// At the list's end, at one that was used, at any, or at the last place that there can be.
fn any_place(scene: &mut Scene) -> usize {
    let Scene { random, lists, .. } = scene;
    let count = lists.movements.len().min(MAX_MOVEMENTS - 1);
    match random.below(24) {
        0..=3 if !lists.used.is_empty() => random.pick(&lists.used) as usize,
        4..=8 => random.below(count as u32 + 1) as usize,
        9 if random.once_in(4) => random.pick(&[MAX_MOVEMENTS - 1, MAX_MOVEMENTS - 1, MAX_MOVEMENTS - 2]),
        10 => (count + random.below(4) as usize).min(MAX_MOVEMENTS - 1),
        _ => count,
    }
}

/// Puts a movement at the place, and sound ones where there is none yet or a block is gone.
fn put(scene: &mut Scene, limits: Limits, line: &[u32], named: Movement, place: usize) {
    let Scene { random, lists, .. } = scene;
    while lists.movements.len() <= place {
        lists.movements.push(sound(random, limits, line));
    }
    for movement in &mut lists.movements {
        if movement.block >= limits.added || movement.giver.max(movement.taker) >= limits.n {
            *movement = sound(random, limits, line);
        }
    }
    lists.movements[place] = named;
}

/// The words that are lent, and the place that is named: the list as it is, or damaged, cut off or too long.
fn lent(scene: &mut Scene, limits: Limits, place: usize) -> (Vec<u32>, u32) {
    let Scene { random, lists, .. } = scene;
    let mut list = lists.movements.clone();
    let mut place = place as u32;
    if random.once_in(16) {
        let past = list.len() as u32 + random.below(2);
        place = random.pick(&[past, past, u32::MAX]);
    }
    if random.once_in(10) {
        damage(random, limits, &mut list);
    }
    if random.once_in(64) {
        list.resize(MAX_MOVEMENTS + 1, list[0]);
    }
    if random.once_in(48) {
        list.clear();
    }
    let mut words = words_of(&list);
    if random.once_in(20) {
        break_records(random, &mut words);
    }
    (words, place)
}
