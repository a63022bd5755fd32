//! The search for an equal certificate in a full log, beside a bare sum of its words: what a View that is found as the last
//! certificate takes beyond the form test, in one process.

use super::form_test::{bare_sum, full_memory, with_library};
use super::timing::best_in_turn;
use super::Named;
use crate::call::VIEW;
use crate::certificate::{Certificate, FOUND};
use crate::comparison::checkers::{Checker, Library};
use crate::driver::Line;
use crate::generate::memory::Sample;
use crate::mistake::Correct;
use crate::refusal::ACCEPTED;
use crate::script::CERTIFICATE_SLOTS;
use std::hint::black_box;

const LAST: u32 = CERTIFICATE_SLOTS as u32 - 1;

/// A full log whose last certificate is what its signer's View gives; as it was filled, few before it are of its view.
fn few_of_its_view() -> Sample {
    let mut sample = full_memory();
    let last = sample.memory().certificate(LAST);
    sample.line = Line::new(VIEW, last.signer, last.view, &[]);
    sample
}

/// All before it are of its view, and differ from it in their block.
fn all_of_its_view() -> Sample {
    let mut sample = few_of_its_view();
    let last = sample.memory().certificate(LAST);
    for number in 0..LAST {
        sample.set_certificate(number, Certificate { block: last.block + 1, ..last });
    }
    sample
}

/// Who searches, and the microseconds of a search: where few are of its view, and where all are.
type Searches = (&'static str, [f64; 2]);

/// Microseconds of the bare sum of the log's words, then the searches. A View that is not found as the last is an error.
pub fn times(firmware: Option<&dyn Checker>, calls: usize, runs: u64) -> Result<(f64, Vec<Searches>), String> {
    let each = |seconds: f64| seconds * 1e6 / calls as f64;
    let samples = [few_of_its_view(), all_of_its_view()];
    let bare = bare_sum(&[&samples[0].log], calls, runs).map_err(|error| error.to_string())?;
    let mut times = Vec::new();
    for checker in with_library(&Library(Correct), firmware) {
        let mut searches = [0.0; 2];
        for (search, sample) in searches.iter_mut().zip(&samples) {
            *search = each(beyond_form_test(checker, sample, calls, runs)?);
        }
        times.push((checker.0, searches));
    }
    Ok((each(bare), times))
}

/// Seconds by which the calls take longer than as many form tests, the two in turn.
fn beyond_form_test((name, checker): Named, sample: &Sample, calls: usize, runs: u64) -> Result<f64, String> {
    let (mut one, mut other) = (sample.clone(), sample.clone());
    let given = checker.call(&mut one);
    if (given.answer, given.first, given.second) != (ACCEPTED, LAST, FOUND) || one != *sample {
        return Err(format!("{name}: a View is not found as the last certificate"));
    }
    let form = Box::new(|| {
        black_box(checker.panel(black_box(&mut one), 0));
    }) as Box<dyn FnMut()>;
    let call = Box::new(|| {
        black_box(checker.call(black_box(&mut other)));
    }) as Box<dyn FnMut()>;
    let seconds = best_in_turn(&mut [form, call], calls, runs).map_err(|error| error.to_string())?;
    Ok(seconds[1] - seconds[0])
}
