//! The form test of a full memory beside a bare sum of the same words, and beside a panel at the height of yard's last block,
//! in one process.

use super::timing::{best_in_turn, best_own};
use super::Named;
use crate::call::BLOCK;
use crate::comparison::checkers::{Checker, Library};
use crate::driver::Driver;
use crate::generate::memory::Sample;
use crate::memory::{Replica, MAX_F, MAX_REPLICAS};
use crate::mistake::Correct;
use crate::refusal::ACCEPTED;
use crate::script::{BLOCK_SLOTS, CERTIFICATE_SLOTS};
use std::hint::black_box;

/// The height of the last block of a chain of all blocks.
pub const LAST_HEIGHT: u32 = BLOCK_SLOTS as u32 - 1;

/// Whose decided block is 0.
const AT_FIRST: u32 = 0;
/// Whose decided block is the last.
const AT_LAST: u32 = 1;

/// The greatest f, a full log and all blocks in a chain, of sound form.
pub fn full_memory() -> Sample {
    let mut driver = Driver::open(Correct, MAX_F, CERTIFICATE_SLOTS, BLOCK_SLOTS);
    for block in 0..BLOCK_SLOTS as u32 - 1 {
        driver.call(BLOCK, 0, block, &[]);
    }
    for number in 0..CERTIFICATE_SLOTS as u32 {
        driver.enter(number % MAX_REPLICAS, number / MAX_REPLICAS + 1);
    }
    let mut sample = Sample::left_by(driver);
    let decided = Replica { decided_block: LAST_HEIGHT, ..sample.memory().replica(AT_LAST) };
    sample.memory().set_replica(AT_LAST, decided);
    sample
}

pub fn with_library<'a>(library: &'a Library<Correct>, firmware: Option<&'a dyn Checker>) -> Vec<Named<'a>> {
    let mut checkers: Vec<Named> = vec![("library", library)];
    checkers.extend(firmware.map(|firmware| ("firmware", firmware)));
    checkers
}

/// A function of its own for each start, so that the same loop stands in several places.
#[inline(never)]
fn sum<const START: u32>(words: &[u32]) -> u32 {
    words.iter().fold(START, |sum, &word| sum.wrapping_add(word))
}

/// Where the machine code of so short a loop happens to stand can double its time: the best of eight is by what the others are measured.
pub fn bare_sum(slices: &[&[u32]], calls: usize, runs: u64) -> Result<f64, std::io::Error> {
    let copies = [sum::<0>, sum::<1>, sum::<2>, sum::<3>, sum::<4>, sum::<5>, sum::<6>, sum::<7>];
    let mut least = f64::INFINITY;
    for copy in copies {
        let bare = || {
            for slice in black_box(slices) {
                black_box(copy(slice));
            }
        };
        least = least.min(best_own(bare, calls, runs)?);
    }
    Ok(least)
}

/// Names and microseconds: the bare sum, the library's panel (its form test and a height of 0), the firmware's.
pub fn times(
    firmware: Option<&dyn Checker>,
    calls: usize,
    runs: u64,
) -> Result<Vec<(&'static str, f64)>, std::io::Error> {
    let mut sample = full_memory();
    let each = |seconds: f64| seconds * 1e6 / calls as f64;
    let mut times = vec![("bare sum", each(bare_sum(&[&sample.table, &sample.log, &sample.blocks], calls, runs)?))];
    for (name, checker) in with_library(&Library(Correct), firmware) {
        let panel = || {
            black_box(checker.panel(black_box(&mut sample), AT_FIRST));
        };
        times.push((name, each(best_own(panel, calls, runs)?)));
    }
    Ok(times)
}

/// Names and microseconds of two panels on the full memory, in turn: at height 0, the form test alone, and at the last
/// block's. A panel that shows another height is an error.
pub fn panels(
    firmware: Option<&dyn Checker>,
    calls: usize,
    runs: u64,
) -> Result<Vec<(&'static str, [f64; 2])>, String> {
    let full = full_memory();
    let mut times = Vec::new();
    for (name, checker) in with_library(&Library(Correct), firmware) {
        let mut samples = [full.clone(), full.clone()];
        for (sample, (replica, height)) in samples.iter_mut().zip(SHOWN) {
            let shown = checker.panel(sample, replica);
            if shown != (ACCEPTED, height) {
                return Err(format!("{name}: the panel gives {shown:?} where the height is {height}"));
            }
        }
        let actions = samples.iter_mut().zip(SHOWN).map(|(sample, (replica, _))| {
            Box::new(move || {
                black_box(checker.panel(black_box(sample), replica));
            }) as Box<dyn FnMut()>
        });
        let seconds = best_in_turn(&mut actions.collect::<Vec<_>>(), calls, runs).map_err(|error| error.to_string())?;
        times.push((name, [0, 1].map(|place| seconds[place] * 1e6 / calls as f64)));
    }
    Ok(times)
}

/// Replicas and the heights on their panels.
const SHOWN: [(u32, u32); 2] = [(AT_FIRST, 0), (AT_LAST, LAST_HEIGHT)];
