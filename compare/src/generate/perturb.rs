//! Small changes to a ready memory: nudges that keep the form, damage that breaks it, wrong lengths.

use super::blocks::{damage_block_lengths, damage_blocks};
use super::memory::Sample;
use super::steps::broken_steps;
use crate::block::block_slots;
use crate::call::{LAST_CODE, MAX_LIST, PREPARE_ACC, REBOOT};
use crate::certificate::{Certificate, LAST_KIND};
use crate::log::{log_slots, SHORT_WORDS};
use crate::memory::*;
use crate::random::Random;
use crate::steps::Steps;

/// Changes one thing that the call looks at: a word of its certificates, of its replica, or a number of the call.
pub fn nudge(random: &mut Random, sample: &mut Sample) {
    match random.below(5) {
        0 | 1 => nudge_certificate(random, sample),
        2 | 3 => nudge_replica(random, sample),
        _ => nudge_line(random, sample),
    }
}

/// A number near the word, or a small one.
fn near(random: &mut Random, word: u32) -> u32 {
    match random.below(4) {
        0 => word.saturating_sub(1),
        1 => word.saturating_add(1),
        _ => random.below(4),
    }
}

/// A certificate that the call names, or any.
fn named_certificate(random: &mut Random, sample: &Sample) -> Option<usize> {
    let mut named = sample.line.list.clone();
    named.push(sample.line.number);
    named.retain(|&number| number < sample.table[header::ISSUED]);
    (!named.is_empty()).then(|| random.pick(&named) as usize)
}

fn nudge_certificate(random: &mut Random, sample: &mut Sample) {
    let Some(number) = named_certificate(random, sample) else { return };
    let word = CERTIFICATE_WORDS * number + random.below(CERTIFICATE_WORDS as u32) as usize;
    if let Some(word) = sample.log.get_mut(word) {
        *word = near(random, *word);
    }
}

fn nudge_replica(random: &mut Random, sample: &mut Sample) {
    if sample.line.replica < sample.n() {
        let start = replica_start(sample.line.replica);
        let word = &mut sample.table[start + random.below(REPLICA_WORDS as u32) as usize];
        *word = near(random, *word);
    }
}

fn nudge_line(random: &mut Random, sample: &mut Sample) {
    let line = &mut sample.line;
    match random.below(6) {
        0 => line.replica = near(random, line.replica),
        1 => line.number = near(random, line.number),
        2 if !line.list.is_empty() => {
            let place = random.below(line.list.len() as u32) as usize;
            line.list[place] = random.pick(&line.list);
        }
        3 => drop(line.list.pop()),
        4 if line.list.len() < MAX_LIST => line.list.push(random.below(4)),
        5 => line.code = random.pick(&[LAST_CODE + 1, LAST_CODE + 2, u32::MAX, PREPARE_ACC, REBOOT]),
        _ => {}
    }
}

/// Breaks the form in one word or in a length, mostly by just one too much.
pub fn damage_form(random: &mut Random, sample: &mut Sample) {
    match random.below(27) {
        0..=5 => damage_certificate(random, sample),
        6..=10 => damage_replica(random, sample),
        11..=16 => damage_blocks(random, sample),
        17 => damage_counts(random, sample),
        18 => damage_f(random, sample),
        19..=20 => sample.memory().set_steps(broken_steps(random)),
        21..=22 => damage_block_lengths(random, sample),
        23..=24 => damage_log_lengths(random, sample),
        _ => damage_lengths(random, sample),
    }
}

fn damage_certificate(random: &mut Random, sample: &mut Sample) {
    let (n, issued, added) = (sample.n(), sample.table[header::ISSUED] as usize, sample.table[header::ADDED]);
    if issued == 0 || CERTIFICATE_WORDS * issued > sample.log.len() {
        return;
    }
    let number = if random.once_in(2) { issued - 1 } else { random.below(issued as u32) as usize };
    let word = random.below(CERTIFICATE_WORDS as u32) as usize;
    let past = Certificate {
        kind: random.pick(&[0, LAST_KIND + 1, u32::MAX]),
        signer: n,
        view: CEILING + 1,
        block: added,
        of_view: CEILING + 1,
        subject: n,
        subject_boot: CEILING + 1,
        signer_boot: CEILING + 1,
    };
    sample.log[CERTIFICATE_WORDS * number + word] = if random.once_in(6) { u32::MAX } else { past.words()[word] };
}

fn damage_replica(random: &mut Random, sample: &mut Sample) {
    let (n, added) = (sample.n(), sample.table[header::ADDED]);
    let any = random.below(n);
    let replica = random.pick(&[n - 1, any, sample.line.replica.min(n - 1)]);
    let r = sample.memory().replica(replica);
    let word = random.below(REPLICA_WORDS as u32) as usize;
    let past = Replica {
        status: RETIRED + 1,
        boot: CEILING + 1,
        min_view: random.pick(&[0, r.view_limit.saturating_add(1)]),
        view_limit: random.pick(&[CEILING + 1, r.min_view.saturating_sub(1)]),
        flag: 2,
        stored_view: r.min_view,
        stored_block: added,
        decided_view: CEILING + 1,
        decided_block: added,
    };
    sample.table[replica_start(replica) + word] = if random.once_in(6) { u32::MAX } else { past.words()[word] };
}

fn damage_counts(random: &mut Random, sample: &mut Sample) {
    let slots = log_slots(&sample.log) as u32;
    match random.below(4) {
        0 => sample.table[header::ISSUED] = slots + 1,
        1 => sample.table[header::ADDED] = random.pick(&[block_slots(&sample.blocks) + 1, sample.blocks.len()]) as u32,
        2 => sample.table[header::ADDED] = 0,
        _ => sample.table[random.pick(&[header::ISSUED, header::ADDED])] = u32::MAX,
    }
}

/// f of 0 or above the greatest with a table of just that length, or an f that the table does not fit.
fn damage_f(random: &mut Random, sample: &mut Sample) {
    let f = random.pick(&[0, MAX_F + 1, MAX_F + 2, 1, 2, u32::MAX]);
    if f <= MAX_F + 2 && random.once_in(2) {
        sample.table.truncate(table_length(f) as usize);
        while (sample.table.len() as u64) < table_length(f) {
            sample.table.extend(Replica::fresh(Steps::DEFAULT.first()).words());
        }
        sample.log.clear();
        sample.table[header::ISSUED] = 0;
    }
    sample.table[header::F] = f;
}

fn damage_lengths(random: &mut Random, sample: &mut Sample) {
    match random.below(4) {
        // By as many words as the steps take.
        0 if random.once_in(3) => sample.table.truncate(sample.table.len() - STEP_WORDS),
        0 => drop(sample.table.pop()),
        1 => sample.table.push(0),
        2 => sample.table.truncate(random.below(REPLICAS_START as u32 + 1) as usize),
        _ => sample.table.extend([0; REPLICA_WORDS]),
    }
}

/// Part of a slot too much or too little, one or more slots of seven words, and about as many words as there may be, of
/// eight or of seven a slot.
pub fn damage_log_lengths(random: &mut Random, sample: &mut Sample) {
    let length = sample.log.len() as u32;
    let part = random.within(1, CERTIFICATE_WORDS as u32 - 1);
    let by_seven = length.div_ceil(SHORT_WORDS as u32) + random.below(2);
    let most = random.pick(&[MAX_LOG_WORDS, MAX_LOG_WORDS, SHORT_WORDS * MAX_CERTIFICATES]) as u32;
    let near = random.pick(&[CERTIFICATE_WORDS as u32, SHORT_WORDS as u32, 1]);
    let length = match random.below(8) {
        0..=1 => length + part,
        2..=3 => length.saturating_sub(part),
        4..=5 => SHORT_WORDS as u32 * by_seven,
        6 => SHORT_WORDS as u32,
        _ => random.pick(&[most - near, most, most + near]),
    };
    sample.log.resize(length as usize, 0);
}
