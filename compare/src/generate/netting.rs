//! A memory, a list of movements, and the block and replica that are asked for.

use super::blocks::{damage_blocks, put_blocks};
use super::memory::{sample, Sample};
use super::movements::{any_list, extreme_list, Limits};
use super::progress::ledger_in_progress;
use super::steps::own_or_none;
use crate::ancestry::ancestors;
use crate::call::BLOCK;
use crate::driver::Driver;
use crate::memory::*;
use crate::mistake::{Correct, Rules};
use crate::netting::balance;
use crate::random::Random;

#[derive(Clone, PartialEq, Eq, Debug)]
pub struct Netting {
    pub sort: &'static str,
    /// Its call is not made.
    pub memory: Sample,
    pub movements: Vec<u32>,
    pub block: u32,
    pub replica: u32,
}

impl Netting {
    pub fn run<R: Rules>(&mut self, rules: R) -> Result<i32, u32> {
        balance(rules, &self.memory.memory(), &self.movements, self.block, self.replica)
    }
}

pub const RANDOM_MEMORY: &str = "random memory";
pub const DECIDED_BLOCKS: &str = "decided blocks";
pub const LONG_CHAIN: &str = "long chain";
pub const NETTING_SORTS: &[&str] = &[RANDOM_MEMORY, DECIDED_BLOCKS, LONG_CHAIN];

/// A netting for a seed: often acceptable, sometimes with several refusals at once.
pub fn netting(seed: u64) -> Netting {
    let mut random = Random::new(seed);
    let (sort, memory) = match random.below(24) {
        0 => (DECIDED_BLOCKS, decided_blocks(&mut random)),
        1 => (LONG_CHAIN, long_chain(&mut random)),
        _ => (RANDOM_MEMORY, sample(random.bits())),
    };
    let limits = Limits::of(&memory);
    let block = chosen_block(&mut random, limits, &memory);
    let replica = if random.once_in(10) {
        random.pick(&[limits.n, limits.n, limits.n + 1, u32::MAX])
    } else {
        limits.near_replica(&mut random)
    };
    let mut ancestry: Vec<u32> = ancestors(&memory.blocks, block).collect();
    ancestry.retain(|&ancestor| ancestor != 0 && ancestor < limits.added);
    let movements = if !ancestry.is_empty() && random.once_in(64) {
        extreme_list(&mut random, limits, &ancestry, replica)
    } else {
        any_list(&mut random, limits, &ancestry)
    };
    Netting { sort, memory, movements, block, replica }
}

/// Any added block, the last, a decided one or 0; past the last now and then.
fn chosen_block(random: &mut Random, limits: Limits, memory: &Sample) -> u32 {
    let Limits { n, added } = limits;
    match random.below(12) {
        0 => random.pick(&[added, added, added + 1, u32::MAX]),
        1 => 0,
        2..=5 => added - 1,
        6..=8 => {
            let at = replica_start(random.below(n)) + replica_word::DECIDED_BLOCK;
            memory.table.get(at).copied().unwrap_or(0)
        }
        _ => random.below(added),
    }
}

/// What a run leaves: decided blocks, and forks beside them.
fn decided_blocks(random: &mut Random) -> Sample {
    let f = random.pick(&[1, 1, 1, 2, 3]);
    let calls = random.within(30, 160) as usize;
    let steps = own_or_none(random);
    let mut driver = ledger_in_progress(Random::new(random.bits()), f, &steps, calls, true);
    for _ in 0..random.below(5) {
        let parent = random.below(driver.added());
        driver.call(BLOCK, 0, parent, &[]);
    }
    let slots = driver.issued() + random.below(2);
    driver.log.truncate(CERTIFICATE_WORDS * slots as usize);
    let slots = driver.added() + random.below(2);
    driver.blocks.truncate(BLOCK_WORDS * slots as usize);
    Sample::left_by(driver)
}

/// Fresh replicas over up to as many blocks as there may be, each on the one before but for some forks; now and then a
/// record breaks the form.
fn long_chain(random: &mut Random) -> Sample {
    let f = random.pick(&[1, 2, 7, MAX_F]);
    let slots = random.pick(&[2, 16, 256, MAX_BLOCKS - 1, MAX_BLOCKS, MAX_BLOCKS]);
    let mut driver = Driver::open(Correct, f, random.below(2) as usize, slots);
    let added = slots as u32 - random.below(2);
    let fork = random.pick(&[2, 16, 256, u32::MAX]);
    put_blocks(random, &mut driver.blocks, added, fork);
    driver.table[header::ADDED] = added;
    let mut sample = Sample::left_by(driver);
    if random.once_in(8) {
        damage_blocks(random, &mut sample);
    }
    sample
}
