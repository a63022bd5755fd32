//! One script of any sort from a seed.

use super::boundary::*;
use super::chunks::over_chunk_ends;
use super::cuts::made_again;
use super::damage::damaged;
use super::progress::progress;
use super::steps::own_or_none;
use super::ways::ends_in_way;
use crate::driver::{script_text, Driver, Line};
use crate::explore::Explorer;
use crate::hunt::search::attack;
use crate::memory::MAX_F;
use crate::mistake::Correct;
use crate::random::Random;
use crate::script::{BLOCK_SLOTS, CERTIFICATE_SLOTS};

pub struct Script {
    pub sort: &'static str,
    pub text: Vec<u8>,
}

pub const SORTS: &[&str] = &[
    "progress",
    "disturbed progress",
    "hostile",
    "attack",
    "openings",
    "boots",
    "full log",
    "full blocks",
    "counter by cuts",
    "counter by reserves",
    "counter by large steps",
    "limits in every view",
    "made again after cuts",
    "way on",
    "chunk ends",
    "damaged text",
];

/// A script for a seed; the longest sorts come seldom.
pub fn script(seed: u64) -> Script {
    let mut random = Random::new(seed);
    let part = Random::new(random.bits());
    let f = any_f(&mut random);
    let steps = own_or_none(&mut random);
    let (sort, lines) = match random.below(80) {
        0..=7 => ("progress", progress(part, f, &steps, 600, false)),
        8..=20 => ("disturbed progress", progress(part, f, &steps, 600, true)),
        21..=28 => ("hostile", hostile(part, f)),
        29..=35 => ("attack", attacks(part)),
        36..=39 => ("openings", openings(part)),
        40..=45 => ("boots", many_boots(part, f)),
        46..=48 => ("full log", full_log(part, f)),
        49..=50 => ("full blocks", full_blocks(part, f)),
        51..=53 => ("counter by cuts", counter_by_cuts(part, f)),
        54 if random.once_in(8) => ("counter by reserves", counter_by_reserves(part, f.min(2))),
        54..=57 => ("chunk ends", progress(part, random.pick(&[1, MAX_F]), &steps, 300, true)),
        58..=59 => ("counter by large steps", counter_by_large_steps(part, f)),
        60..=61 => ("limits in every view", limits_in_every_view(part, f)),
        62 => ("made again after cuts", made_again(part, f.min(2), true)),
        63..=65 => ("made again after cuts", made_again(part, f, false)),
        66..=71 => ("damaged text", hostile(part, f)),
        72..=77 => ("way on", ends_in_way(part, f, false)),
        _ => ("way on", ends_in_way(part, f, true)),
    };
    let plain = script_text(&lines);
    let text = match sort {
        "chunk ends" => over_chunk_ends(&mut random, &plain),
        "damaged text" => damaged(&mut random, &plain),
        _ => plain,
    };
    Script { sort, text }
}

fn any_f(random: &mut Random) -> u32 {
    match random.below(4) {
        0 => random.within(1, MAX_F),
        1 => random.pick(&[2, 3, MAX_F]),
        _ => 1,
    }
}

/// Random hosts on old and new certificates, with cuts between any two calls.
pub fn hostile(random: Random, f: u32) -> Vec<Line> {
    hostile_ledger(random, f).lines()
}

pub fn hostile_ledger(mut random: Random, f: u32) -> Driver<Correct> {
    let noise = random.pick(&[4, 8, 16]);
    let steps = random.within(20, 400);
    let driver = Driver::open_with_steps(Correct, f, &own_or_none(&mut random), CERTIFICATE_SLOTS, BLOCK_SLOTS);
    let mut hosts = Explorer { driver, random, noise };
    for _ in 0..steps {
        hosts.step();
    }
    hosts.driver
}

/// Known orders of attack, one ledger each: the rules refuse each of them somewhere.
fn attacks(mut random: Random) -> Vec<Line> {
    let count = random.within(1, 12);
    (0..count).flat_map(|_| attack(None, Random::new(random.bits())).1).collect()
}
