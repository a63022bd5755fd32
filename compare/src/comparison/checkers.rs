//! What is compared on memories, nettings, histories of waiting movements and numbers: the library by any rules, and (feature
//! `firmware`) the proved firmware.

use crate::call::Outcome;
use crate::field::{read_number, write_number};
use crate::generate::memory::Sample;
use crate::generate::netting::Netting;
use crate::history::{Keeper, OwnKeeper};
use crate::mistake::Rules;
use crate::panel::panel;
use crate::refusal::ACCEPTED;

/// The functions of the C interface, all but the one that gives its version.
pub trait Checker {
    fn call(&self, sample: &mut Sample) -> Outcome;
    /// Number returned and height.
    fn panel(&self, sample: &mut Sample, replica: u32) -> (u32, u32);
    /// Number returned and balance.
    fn balance(&self, netting: &mut Netting) -> (u32, i32);
    /// What keeps waiting movements, from these words of the further slice on.
    fn keeper(&self, words: &[u32]) -> Box<dyn Keeper + '_>;
    fn read_number(&self, bytes: &[u8]) -> u32;
    fn write_number(&self, number: u32, bytes: &mut [u8]) -> u32;
}

/// The library of this package.
pub struct Library<R: Rules>(pub R);

impl<R: Rules> Checker for Library<R> {
    fn call(&self, sample: &mut Sample) -> Outcome {
        sample.run(self.0)
    }

    fn panel(&self, sample: &mut Sample, replica: u32) -> (u32, u32) {
        match panel(self.0, &sample.memory(), replica) {
            Ok(height) => (ACCEPTED, height),
            Err(refusal) => (refusal, 0),
        }
    }

    fn balance(&self, netting: &mut Netting) -> (u32, i32) {
        match netting.run(self.0) {
            Ok(balance) => (ACCEPTED, balance),
            Err(refusal) => (refusal, 0),
        }
    }

    fn keeper(&self, words: &[u32]) -> Box<dyn Keeper + '_> {
        Box::new(OwnKeeper::new(self.0, words))
    }

    fn read_number(&self, bytes: &[u8]) -> u32 {
        read_number(self.0, bytes)
    }

    fn write_number(&self, number: u32, bytes: &mut [u8]) -> u32 {
        write_number(self.0, number, bytes)
    }
}
