//! Steps for openings and tables: sound ones of several shapes, and ones that break their rule.

use crate::call::MAX_LIST;
use crate::field::MAX_NUMBER;
use crate::memory::STEP_WORDS;
use crate::random::Random;
use crate::steps::{Steps, MAX_STEP, MIN_STEP};

/// What a ledger is opened with: sound steps of its own about once in five, else an empty list.
pub fn own_or_none(random: &mut Random) -> Vec<u32> {
    if random.once_in(5) {
        sound_steps(random).0.to_vec()
    } else {
        Vec::new()
    }
}

fn any_step(random: &mut Random) -> u32 {
    let near = Steps::DEFAULT.first();
    match random.below(4) {
        0 => random.pick(&[MIN_STEP, MIN_STEP + 1, near - 1, near, near + 1, MAX_STEP - 1, MAX_STEP]),
        1 => random.within(MIN_STEP, 100),
        _ => random.within(MIN_STEP, MAX_STEP),
    }
}

pub fn sound_steps(random: &mut Random) -> Steps {
    let (one, other) = (any_step(random), any_step(random));
    let mut words = match random.below(9) {
        0 => [MIN_STEP; STEP_WORDS],
        1 => [MAX_STEP; STEP_WORDS],
        2 => [one; STEP_WORDS],
        3 => Steps::DEFAULT.0,
        4 => [(); STEP_WORDS].map(|_| random.pick(&[MIN_STEP, MIN_STEP + 1, MAX_STEP - 1, MAX_STEP])),
        5 => [(); STEP_WORDS].map(|_| random.pick(&[one, other])),
        6 => [(); STEP_WORDS].map(|_| random.within(MIN_STEP, 8)),
        _ => [(); STEP_WORDS].map(|_| any_step(random)),
    };
    words.sort();
    Steps(words)
}

/// Small enough for a limit to meet every view: eight of 1, or of a few.
pub fn small_steps(random: &mut Random) -> Steps {
    let most = random.pick(&[MIN_STEP, MIN_STEP, MIN_STEP + 1, 4]);
    let mut words = [(); STEP_WORDS].map(|_| random.within(MIN_STEP, most));
    words.sort();
    Steps(words)
}

/// Large enough for a limit to meet the ceiling soon; it meets just the ceiling by steps of 4,000 and of 2,500.
pub fn large_steps(random: &mut Random) -> Steps {
    let mut words = match random.below(4) {
        0 => [MAX_STEP; STEP_WORDS],
        1 => [4000; STEP_WORDS],
        2 => [2500; STEP_WORDS],
        _ => [(); STEP_WORDS].map(|_| random.within(2000, MAX_STEP)),
    };
    words.sort();
    Steps(words)
}

/// Eight words that break the rule: mostly in one place, by just one too much or too little.
pub fn broken_steps(random: &mut Random) -> Steps {
    let Steps(mut words) = sound_steps(random);
    let place = random.below(STEP_WORDS as u32) as usize;
    let last = &mut words[STEP_WORDS - 1];
    match random.below(8) {
        0 => words[0] = 0,
        1 => words[place] = 0,
        2 => *last = MAX_STEP + 1,
        // Sound in its low 16 or 31 bits.
        3 => *last += random.pick(&[1 << 16, 1 << 31]),
        4 => words[place] = random.pick(&[MAX_STEP + 1, MAX_NUMBER, u32::MAX]),
        _ => return falling_steps(random),
    }
    Steps(words)
}

/// In range, and just one of them is smaller than the one before.
fn falling_steps(random: &mut Random) -> Steps {
    let room = random.pick(&[1, MAX_STEP / STEP_WORDS as u32]);
    let mut step = 0;
    let mut words = [(); STEP_WORDS].map(|_| {
        step += random.within(1, room);
        step
    });
    let place = random.below(STEP_WORDS as u32 - 1) as usize;
    words.swap(place, place + 1);
    Steps(words)
}

/// Not eight, though they rise, or eight that break the rule.
pub fn broken_list(random: &mut Random) -> Vec<u32> {
    let steps = sound_steps(random);
    let length = match random.below(8) {
        0 => STEP_WORDS as u32 - 1,
        1 => STEP_WORDS as u32 + 1,
        2 => random.within(1, STEP_WORDS as u32 - 2),
        3 => random.within(STEP_WORDS as u32 + 2, MAX_LIST as u32),
        4 => random.pick(&[2 * STEP_WORDS as u32, MAX_LIST as u32]),
        _ => return broken_steps(random).0.to_vec(),
    };
    let mut list = steps.0.to_vec();
    list.resize(length as usize, steps.last());
    list
}

/// The same for a script, whose fields hold no greater number.
pub fn broken_fields(random: &mut Random) -> Vec<u32> {
    broken_list(random).into_iter().map(|step| step.min(MAX_NUMBER)).collect()
}

/// An opening's list of any kind, also longer than any call may have.
pub fn any_list(random: &mut Random) -> Vec<u32> {
    match random.below(10) {
        0..=2 => Vec::new(),
        3..=5 => sound_steps(random).0.to_vec(),
        6..=8 => broken_list(random),
        _ => {
            let mut list = sound_steps(random).0.to_vec();
            list.resize(MAX_LIST + random.pick(&[1, 1, 2, 9]), MAX_STEP);
            list
        }
    }
}
