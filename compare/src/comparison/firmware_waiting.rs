//! The proved waiting movements behind their C interface, over the further slice's words.

use super::checkers::Checker;
use super::firmware::Firmware;
use crate::call::Outcome;
use crate::entries::Entry;
use crate::generate::memory::Sample;
use crate::history::{Keeper, Step};
use crate::waiting::Claim;

extern "C" {
    fn yard_open_waiting(
        f: u32,
        steps: *const u32,
        steps_length: usize,
        table: *mut u32,
        table_length: usize,
        log: *mut u32,
        log_length: usize,
        blocks: *mut u32,
        blocks_length: usize,
        waiting: *mut u32,
        waiting_length: usize,
        replicas: *mut u32,
    ) -> u32;
    fn yard_enter(
        table: *const u32,
        table_length: usize,
        log: *const u32,
        log_length: usize,
        blocks: *const u32,
        blocks_length: usize,
        waiting: *mut u32,
        waiting_length: usize,
        identity: u32,
        giver: u32,
        taker: u32,
        pallets: u32,
    ) -> u32;
    fn yard_withdraw(
        table: *const u32,
        table_length: usize,
        log: *const u32,
        log_length: usize,
        blocks: *const u32,
        blocks_length: usize,
        waiting: *mut u32,
        waiting_length: usize,
        identity: u32,
    ) -> u32;
    fn yard_match(
        table: *const u32,
        table_length: usize,
        log: *const u32,
        log_length: usize,
        blocks: *const u32,
        blocks_length: usize,
        waiting: *mut u32,
        waiting_length: usize,
        movements: *const u32,
        movements_length: usize,
        replica: u32,
        identity: u32,
        place: u32,
    ) -> u32;
    fn yard_ask(
        table: *const u32,
        table_length: usize,
        log: *const u32,
        log_length: usize,
        blocks: *const u32,
        blocks_length: usize,
        waiting: *const u32,
        waiting_length: usize,
        taker: u32,
        pallets: *mut u32,
        earliest: *mut u32,
    ) -> u32;
}

/// The further slice's words, and one past them that may be lent too.
pub struct FirmwareKeeper {
    words: Vec<u32>,
}

/// A pointer and a length.
type Lent<T> = (T, usize);

/// An empty list is lent as a caller in C may have it.
fn list(words: &[u32]) -> Lent<*const u32> {
    (if words.is_empty() { std::ptr::null() } else { words.as_ptr() }, words.len())
}

impl FirmwareKeeper {
    pub fn new(words: &[u32]) -> FirmwareKeeper {
        FirmwareKeeper { words: [words, &[0]].concat() }
    }

    fn own(&self) -> usize {
        self.words.len() - 1
    }
}

impl Keeper for FirmwareKeeper {
    fn call(&mut self, memory: &mut Sample) -> Outcome {
        Firmware.call(memory)
    }

    fn wait(&mut self, memory: &mut Sample, step: &Step, movements: &[u32], off: isize) -> Outcome {
        let waiting = (self.words.as_mut_ptr(), self.own().saturating_add_signed(off));
        let answered = |answer| Outcome { answer, first: 0, second: 0 };
        match step {
            Step::Call(line) => panic!("a call of the ledger: {line:?}"),
            Step::Open { f, steps } => open(memory, waiting, *f, steps),
            Step::Enter(entry) => answered(enter(memory, waiting, *entry)),
            Step::Withdraw(identity) => answered(withdraw(memory, waiting, *identity)),
            Step::Match { claim, .. } => answered(match_entry(memory, waiting, movements, *claim)),
            Step::Ask(taker) => ask(memory, waiting, *taker),
        }
    }

    fn words(&self) -> Vec<u32> {
        self.words[..self.own()].to_vec()
    }

    fn put(&mut self, at: usize, words: &[u32]) {
        self.words[at..at + words.len()].copy_from_slice(words);
    }
}

// SAFETY (all five): pointers and lengths come from slices that live through the call and do not overlap.

fn open(memory: &mut Sample, waiting: Lent<*mut u32>, f: u32, steps: &[u32]) -> Outcome {
    let Sample { table, log, blocks, .. } = memory;
    let (steps, mut replicas) = (list(steps), u32::MAX);
    let answer = unsafe {
        yard_open_waiting(
            f,
            steps.0,
            steps.1,
            table.as_mut_ptr(),
            table.len(),
            log.as_mut_ptr(),
            log.len(),
            blocks.as_mut_ptr(),
            blocks.len(),
            waiting.0,
            waiting.1,
            &mut replicas,
        )
    };
    Outcome { answer, first: replicas, second: 0 }
}

fn enter(memory: &Sample, waiting: Lent<*mut u32>, entry: Entry) -> u32 {
    let Sample { table, log, blocks, .. } = memory;
    let Entry { identity, giver, taker, pallets } = entry;
    unsafe {
        yard_enter(
            table.as_ptr(),
            table.len(),
            log.as_ptr(),
            log.len(),
            blocks.as_ptr(),
            blocks.len(),
            waiting.0,
            waiting.1,
            identity,
            giver,
            taker,
            pallets,
        )
    }
}

fn withdraw(memory: &Sample, waiting: Lent<*mut u32>, identity: u32) -> u32 {
    let Sample { table, log, blocks, .. } = memory;
    unsafe {
        yard_withdraw(
            table.as_ptr(),
            table.len(),
            log.as_ptr(),
            log.len(),
            blocks.as_ptr(),
            blocks.len(),
            waiting.0,
            waiting.1,
            identity,
        )
    }
}

fn match_entry(memory: &Sample, waiting: Lent<*mut u32>, movements: &[u32], claim: Claim) -> u32 {
    let Sample { table, log, blocks, .. } = memory;
    let movements = list(movements);
    unsafe {
        yard_match(
            table.as_ptr(),
            table.len(),
            log.as_ptr(),
            log.len(),
            blocks.as_ptr(),
            blocks.len(),
            waiting.0,
            waiting.1,
            movements.0,
            movements.1,
            claim.replica,
            claim.identity,
            claim.place,
        )
    }
}

fn ask(memory: &Sample, waiting: Lent<*mut u32>, taker: u32) -> Outcome {
    let Sample { table, log, blocks, .. } = memory;
    let (mut pallets, mut earliest) = (u32::MAX, u32::MAX);
    let answer = unsafe {
        yard_ask(
            table.as_ptr(),
            table.len(),
            log.as_ptr(),
            log.len(),
            blocks.as_ptr(),
            blocks.len(),
            waiting.0,
            waiting.1,
            taker,
            &mut pallets,
            &mut earliest,
        )
    };
    Outcome { answer, first: pallets, second: earliest }
}
