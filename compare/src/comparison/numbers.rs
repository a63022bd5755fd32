//! A number's text: what a checker writes, beside Rust's own formatting, and what it reads again.

use super::checkers::Checker;
use crate::field::{COLUMNS, MAX_NUMBER, NO_NUMBER};
use crate::refusal::{ACCEPTED, UNREADABLE};
use std::collections::BTreeSet;
use std::io::Write;
use std::ops::Range;
use std::thread::{available_parallelism, scope};

/// What stands in the columns before a write: neither a blank nor a digit.
const UNTOUCHED: u8 = b'x';
/// So many numbers are looked at on either side of an edge, and above the greatest that has a field.
const NEAR: u32 = 5000;

/// Every number that has a field, and some thousands above.
pub const EVERY: Range<u32> = 0..MAX_NUMBER + 1 + NEAR;

/// The numbers near each power of ten, where a range of digit counts begins, and near the greatest of all.
pub fn near_edges() -> BTreeSet<u32> {
    let powers = (0..=u32::MAX.ilog10()).map(|zeros| 10u32.pow(zeros));
    powers.chain([u32::MAX]).flat_map(|edge| edge.saturating_sub(NEAR)..=edge.saturating_add(NEAR)).collect()
}

/// What differs for a number, in words; none where answer, bytes and what is read again are as they should be.
pub fn text_difference(checker: &dyn Checker, number: u32) -> Option<String> {
    let mut expected = ([UNTOUCHED; COLUMNS], ACCEPTED, number);
    if write!(&mut expected.0[..], "{number:COLUMNS$}").is_err() {
        // Its text is longer than the columns: it has no field.
        expected = ([UNTOUCHED; COLUMNS], UNREADABLE, NO_NUMBER);
    }
    let mut bytes = [UNTOUCHED; COLUMNS];
    let answer = checker.write_number(number, &mut bytes);
    let given = (bytes, answer, checker.read_number(&bytes));
    (given != expected).then(|| format!("{number} is {} and {}", told(given), told(expected)))
}

fn told((bytes, answer, read): ([u8; COLUMNS], u32, u32)) -> String {
    format!("\"{}\" (answer {answer}, reads {read})", bytes.escape_ascii())
}

/// How many numbers were looked at; or the first difference.
pub fn compare_numbers(checker: &dyn Checker, numbers: impl IntoIterator<Item = u32>) -> Result<u64, String> {
    let mut count = 0;
    for number in numbers {
        if let Some(told) = text_difference(checker, number) {
            return Err(told);
        }
        count += 1;
    }
    Ok(count)
}

/// The same of a range that all cores share.
pub fn compare_range(checker: &(dyn Checker + Sync), numbers: Range<u32>) -> Result<u64, String> {
    let parts = available_parallelism().map_or(1, |cores| cores.get() as u64);
    let edge = |place: u64| numbers.start + (numbers.len() as u64 * place / parts) as u32;
    scope(|scope| {
        let start = |part: Range<u32>| scope.spawn(move || compare_numbers(checker, part));
        let started: Vec<_> = (0..parts).map(|place| start(edge(place)..edge(place + 1))).collect();
        started.into_iter().map(|thread| thread.join().expect("a thread that looks at numbers panicked")).sum()
    })
}
