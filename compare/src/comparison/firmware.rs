//! The proved firmware behind its C interface (include/yard.h), linked from libfirmware.a by build.rs.

use super::checkers::Checker;
use super::firmware_waiting::FirmwareKeeper;
use crate::call::Outcome;
use crate::generate::memory::Sample;
use crate::generate::netting::Netting;
use crate::history::Keeper;

extern "C" {
    fn yard_read_number(bytes: *const u8, length: usize) -> u32;
    fn yard_write_number(number: u32, bytes: *mut u8, length: usize) -> u32;
    fn yard_call(
        code: u32,
        replica: u32,
        number: u32,
        list: *const u32,
        list_length: usize,
        table: *mut u32,
        table_length: usize,
        log: *mut u32,
        log_length: usize,
        blocks: *mut u32,
        blocks_length: usize,
        first: *mut u32,
        second: *mut u32,
    ) -> u32;
    fn yard_panel(
        table: *const u32,
        table_length: usize,
        log: *const u32,
        log_length: usize,
        blocks: *const u32,
        blocks_length: usize,
        replica: u32,
        height: *mut u32,
    ) -> u32;
    fn yard_balance(
        table: *const u32,
        table_length: usize,
        log: *const u32,
        log_length: usize,
        blocks: *const u32,
        blocks_length: usize,
        movements: *const u32,
        movements_length: usize,
        block: u32,
        replica: u32,
        balance: *mut i32,
    ) -> u32;
}

/// What no netting gives, so that a balance left unwritten shows.
const NO_BALANCE: i32 = i32::MIN;

pub struct Firmware;

// SAFETY (all five): pointers and lengths come from slices that live through the call and do not overlap.
impl Checker for Firmware {
    fn call(&self, sample: &mut Sample) -> Outcome {
        let (mut first, mut second) = (u32::MAX, u32::MAX);
        let Sample { table, log, blocks, line } = sample;
        let answer = unsafe {
            yard_call(
                line.code,
                line.replica,
                line.number,
                line.list.as_ptr(),
                line.list.len(),
                table.as_mut_ptr(),
                table.len(),
                log.as_mut_ptr(),
                log.len(),
                blocks.as_mut_ptr(),
                blocks.len(),
                &mut first,
                &mut second,
            )
        };
        Outcome { answer, first, second }
    }

    fn panel(&self, sample: &mut Sample, replica: u32) -> (u32, u32) {
        let mut height = 0;
        let Sample { table, log, blocks, .. } = sample;
        let answer = unsafe {
            yard_panel(
                table.as_ptr(),
                table.len(),
                log.as_ptr(),
                log.len(),
                blocks.as_ptr(),
                blocks.len(),
                replica,
                &mut height,
            )
        };
        (answer, height)
    }

    fn balance(&self, netting: &mut Netting) -> (u32, i32) {
        let mut balance = NO_BALANCE;
        let Netting { memory: Sample { table, log, blocks, .. }, movements, block, replica, .. } = netting;
        // An empty list is lent as a caller in C may have it.
        let list = if movements.is_empty() { std::ptr::null() } else { movements.as_ptr() };
        let answer = unsafe {
            yard_balance(
                table.as_ptr(),
                table.len(),
                log.as_ptr(),
                log.len(),
                blocks.as_ptr(),
                blocks.len(),
                list,
                movements.len(),
                *block,
                *replica,
                &mut balance,
            )
        };
        (answer, balance)
    }

    fn keeper(&self, words: &[u32]) -> Box<dyn Keeper + '_> {
        Box::new(FirmwareKeeper::new(words))
    }

    fn read_number(&self, bytes: &[u8]) -> u32 {
        unsafe { yard_read_number(bytes.as_ptr(), bytes.len()) }
    }

    fn write_number(&self, number: u32, bytes: &mut [u8]) -> u32 {
        unsafe { yard_write_number(number, bytes.as_mut_ptr(), bytes.len()) }
    }
}
