//! Random memory of sound form, with garbage past the counts, and one call.

use super::beforehand::issue_beforehand;
use super::blocks::{any_added, put_blocks};
use super::perturb::{damage_form, damage_log_lengths, nudge};
use super::ready::make_ready;
use super::steps::{any_list, sound_steps};
use crate::call::*;
use crate::certificate::{Certificate, FIRST_KIND, LAST_KIND};
use crate::driver::{Driver, Line};
use crate::memory::*;
use crate::mistake::{Correct, Rules};
use crate::random::Random;
use crate::steps::{Steps, FIRST_LIMIT, MAX_STEP};

/// Three slices and a call on them.
#[derive(Clone, PartialEq, Eq, Debug)]
pub struct Sample {
    pub table: Vec<u32>,
    pub log: Vec<u32>,
    pub blocks: Vec<u32>,
    pub line: Line,
}

impl Sample {
    /// The memory that a driver leaves, where its own call does not matter.
    pub fn left_by(driver: Driver<Correct>) -> Sample {
        let Driver { table, log, blocks, .. } = driver;
        Sample { table, log, blocks, line: Line::new(OPEN, 0, 0, &[]) }
    }

    pub fn memory(&mut self) -> Memory<'_> {
        Memory { table: &mut self.table, log: &mut self.log, blocks: &mut self.blocks }
    }

    pub fn run<R: Rules>(&mut self, rules: R) -> Outcome {
        let line = self.line.clone();
        call(rules, &mut self.memory(), line.code, line.replica, line.number, &line.list)
    }

    pub fn n(&self) -> u32 {
        replica_count(self.table[header::F])
    }

    pub fn set_certificate(&mut self, number: u32, to: Certificate) {
        let start = CERTIFICATE_WORDS * number as usize;
        self.log[start..start + CERTIFICATE_WORDS].copy_from_slice(&to.words());
    }
}

/// A memory and a call for a seed: often nearly acceptable, sometimes damaged, sometimes of wrong lengths.
pub fn sample(seed: u64) -> Sample {
    let mut random = Random::new(seed);
    let mut sample = well_formed_memory(&mut random);
    sample.line = any_line(&mut random, &sample);
    if !random.once_in(6) {
        make_ready(&mut random, &mut sample);
    }
    if random.once_in(3) {
        issue_beforehand(&mut random, &mut sample);
    }
    for _ in 0..random.pick(&[0, 0, 1, 1, 2]) {
        nudge(&mut random, &mut sample);
    }
    if random.once_in(3) {
        damage_form(&mut random, &mut sample);
    }
    if sample.line.code == OPEN && random.once_in(4) {
        sample.blocks.fill_with(|| garbage(&mut random));
    }
    if sample.line.code == OPEN && random.once_in(8) {
        damage_log_lengths(&mut random, &mut sample);
    }
    sample
}

fn garbage(random: &mut Random) -> u32 {
    random.pick(&[0, 1, 2, 3, LAST_KIND + 1, CEILING + 1, u32::MAX])
}

/// Small views mostly, so that they meet; the edges of the counter too.
pub fn any_view(random: &mut Random) -> u32 {
    match random.below(8) {
        0 if random.once_in(4) => random.pick(&[MAX_STEP - 1, MAX_STEP, MAX_STEP + 1, 2 * MAX_STEP]),
        0 => random.pick(&[FIRST_LIMIT - 1, FIRST_LIMIT, FIRST_LIMIT + 1, 2 * FIRST_LIMIT - 1, 2 * FIRST_LIMIT]),
        1 => random.pick(&[CEILING - FIRST_LIMIT - 1, CEILING - FIRST_LIMIT, CEILING - 2, CEILING - 1, CEILING]),
        _ => random.below(6),
    }
}

/// Small boots mostly, so that they meet; the last ones too.
pub fn any_boot(random: &mut Random) -> u32 {
    match random.below(6) {
        0 => random.pick(&[CEILING - 1, CEILING]),
        _ => random.below(10),
    }
}

fn well_formed_memory(random: &mut Random) -> Sample {
    let f = random.pick(&[1, 1, 1, 2, 2, 3, 5, MAX_F]);
    let added = any_added(random);
    let quorum = f + 1;
    let issued = if random.once_in(6) { random.below(4) } else { quorum + random.below(5) };
    let free = random.pick(&[0, 1, 1, 2, 3]);
    let slots = (added + random.pick(&[0, 1, 2])).min(MAX_BLOCKS as u32);
    let mut sample = Sample {
        table: vec![0; table_length(f) as usize],
        log: (0..CERTIFICATE_WORDS as u32 * (issued + free)).map(|_| garbage(random)).collect(),
        blocks: (0..BLOCK_WORDS as u32 * slots).map(|_| garbage(random)).collect(),
        line: Line::new(OPEN, 0, 0, &[]),
    };
    sample.table[..HEADER_WORDS].copy_from_slice(&[f, issued, added]);
    let steps = if random.once_in(2) { Steps::DEFAULT } else { sound_steps(random) };
    sample.memory().set_steps(steps);
    let fork = random.pick(&[1, 2, 16, u32::MAX]);
    put_blocks(random, &mut sample.blocks, added, fork);
    for replica in 0..sample.n() {
        let r = any_replica(random, added);
        sample.memory().set_replica(replica, r);
    }
    for number in 0..issued {
        let c = any_certificate(random, sample.n(), added);
        sample.set_certificate(number, c);
    }
    sample
}

fn any_replica(random: &mut Random, added: u32) -> Replica {
    let view_limit = any_view(random).max(1);
    let min_view = if random.once_in(2) { random.within(1, view_limit.min(6)) } else { random.within(1, view_limit) };
    Replica {
        status: random.pick(&[LIVE, LIVE, RECOVERING, RETIRED]),
        boot: any_boot(random),
        min_view,
        view_limit,
        flag: random.below(2),
        stored_view: random.below(min_view),
        stored_block: random.below(added),
        decided_view: any_view(random),
        decided_block: random.below(added),
    }
}

pub fn any_certificate(random: &mut Random, n: u32, added: u32) -> Certificate {
    Certificate {
        kind: random.within(FIRST_KIND, LAST_KIND),
        signer: random.below(n),
        view: any_view(random),
        block: random.below(added),
        of_view: any_view(random),
        subject: random.below(n),
        subject_boot: any_boot(random),
        signer_boot: any_boot(random),
    }
}

/// A call with numbers mostly in range.
fn any_line(random: &mut Random, sample: &Sample) -> Line {
    let (f, issued, added) = (sample.table[header::F], sample.table[header::ISSUED], sample.table[header::ADDED]);
    let code = if random.once_in(16) { OPEN } else { random.below(LAST_CODE + 1) };
    let replica = if random.once_in(24) { sample.n() + random.below(2) } else { random.below(sample.n()) };
    let length = if random.once_in(12) { random.below(MAX_LIST as u32 + 1) } else { f + 1 };
    let list: Vec<u32> = (0..length).map(|_| random.nearly_below(issued, 30)).collect();
    let certificate = random.nearly_below(issued, 12);
    let block = random.nearly_below(added, 12);
    let view = any_view(random) + u32::from(random.once_in(8));
    match code {
        OPEN => Line::new(code, random.pick(&[0, f, f, f, f, 1, MAX_F, MAX_F + 1, u32::MAX]), 0, &any_list(random)),
        BLOCK => Line::new(code, 0, block, &[]),
        PREPARE_ACC => Line::new(code, replica, block, &[certificate]),
        PREPARE_COMMITS => Line::new(code, replica, block, &list),
        STORE | REPLY_TO => Line::new(code, replica, certificate, &[]),
        VIEW => Line::new(code, replica, view, &[]),
        ACCUMULATE | DECIDE | RECOVER => Line::new(code, replica, 0, &list),
        _ => Line::new(code, replica, 0, &[]),
    }
}
