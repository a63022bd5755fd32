//! What is wrong with a list of certificates, in words.

use super::words::{certificate, kind_name};
use crate::certificate::{Certificate, COMMIT};
use crate::memory::Memory;

/// The first certificate of the list that fails the test, and what is wrong with it.
pub fn all(m: &Memory, list: &[u32], wrong: impl Fn(u32, Certificate) -> Option<String>) -> Result<(), String> {
    list.iter().find_map(|&number| wrong(number, m.certificate(number))).map_or(Ok(()), Err)
}

pub fn of_kind(m: &Memory, list: &[u32], kind: u32) -> Result<(), String> {
    all(m, list, |number, c| (c.kind != kind).then(|| not_of_kind(m, number, kind)))
}

pub fn not_of_kind(m: &Memory, number: u32, kind: u32) -> String {
    format!("{} is no {}", certificate(m, number), kind_name(kind))
}

/// All of the view of the first.
pub fn of_one_view(m: &Memory, list: &[u32]) -> Result<(), String> {
    let first = m.certificate(list[0]).view;
    all(m, list, |number, c| {
        let words =
            || format!("{} is of view {}, {} of view {first}", certificate(m, number), c.view, certificate(m, list[0]));
        (c.view != first).then(words)
    })
}

/// Of no replica twice.
pub fn different(m: &Memory, list: &[u32]) -> Result<(), String> {
    for (place, &number) in list.iter().enumerate() {
        let signer = m.certificate(number).signer;
        let Some(&earlier) = list[..place].iter().find(|&&earlier| m.certificate(earlier).signer == signer) else {
            continue;
        };
        return Err(if earlier == number {
            format!("{} is named twice, and counts for one signer, replica {signer}", certificate(m, number))
        } else {
            format!("{} and {} have one signer, replica {signer}", certificate(m, earlier), certificate(m, number))
        });
    }
    Ok(())
}

/// COMMITs of one view and of different signers.
pub fn matching_commits(m: &Memory, list: &[u32]) -> Result<(), String> {
    of_kind(m, list, COMMIT)?;
    of_one_view(m, list)?;
    different(m, list)
}
