//! What several tests ask of a ledger. Codes, numbers and answers are literal, as the documents have them.

// Each test uses a part of it.
#![allow(dead_code)]

use judge::call::Outcome;
use judge::driver::Driver;
use judge::mistake::Correct;
use judge::netting::balance;
use judge::panel::panel;
use judge::script::run;
use std::path::{Path, PathBuf};

pub type Given = (u32, u32, u32);

/// The files of ../scenarios with that extension.
pub fn scenario_files(extension: &str) -> Vec<PathBuf> {
    let directory = Path::new(env!("CARGO_MANIFEST_DIR")).join("../scenarios");
    let paths = std::fs::read_dir(directory).unwrap().map(|entry| entry.unwrap().path());
    let found: Vec<PathBuf> = paths.filter(|path| path.extension().is_some_and(|found| found == extension)).collect();
    assert!(!found.is_empty(), "no scenarios");
    found
}

pub fn given(driver: &mut Driver<Correct>, code: u32, replica: u32, number: u32, list: &[u32]) -> Given {
    let Outcome { answer, first, second } = driver.call(code, replica, number, list);
    (answer, first, second)
}

fn words(driver: &Driver<Correct>) -> [Vec<u32>; 3] {
    [driver.table.clone(), driver.log.clone(), driver.blocks.clone()]
}

/// A refusal that leaves every word.
pub fn refused(driver: &mut Driver<Correct>, answer: u32, code: u32, replica: u32, number: u32, list: &[u32]) {
    let before = words(driver);
    let told = given(driver, code, replica, number, list);
    assert_eq!(told, (answer, 0, 0), "code {code}, box {replica}, number {number}, list {list:?}");
    assert!(words(driver) == before);
}

/// Every call but opening, with numbers that sound form of f = 1 answers somehow.
const CALLS: &[(u32, u32, u32, &[u32])] = &[
    (1, 0, 0, &[]),
    (2, 0, 1, &[0]),
    (3, 0, 1, &[0, 0]),
    (4, 0, 0, &[]),
    (5, 0, 1, &[]),
    (6, 0, 0, &[0, 0]),
    (7, 0, 0, &[0, 0]),
    (8, 0, 0, &[]),
    (9, 0, 0, &[]),
    (10, 0, 0, &[]),
    (11, 0, 0, &[]),
    (12, 0, 0, &[0, 0]),
];

/// Whether the form of a ledger of f = 1 is wrong: the calls, the panel and a netting all answer 1, or none of them does.
pub fn wrong_form(driver: &mut Driver<Correct>) -> bool {
    let before = words(driver);
    let mut refused =
        vec![panel(Correct, &driver.memory(), 0) == Err(1), balance(Correct, &driver.memory(), &[], 0, 0) == Err(1)];
    for &(code, replica, number, list) in CALLS {
        refused.push(given(driver, code, replica, number, list) == (1, 0, 0));
    }
    assert!(refused.iter().all(|one| *one == refused[0]), "{refused:?}");
    assert!(!refused[0] || words(driver) == before);
    refused[0]
}

/// How many steps it is from a block to block 0.
pub fn steps_up(driver: &Driver<Correct>, block: u32) -> u32 {
    if block == 0 {
        0
    } else {
        1 + steps_up(driver, driver.blocks[2 * block as usize])
    }
}

fn line(fields: &[u32]) -> String {
    fields.iter().map(|field| format!("{field:8}")).collect::<String>() + "\n"
}

/// A script's answers with both values.
pub fn answers(lines: &[&[u32]]) -> Vec<Given> {
    let script: String = lines.iter().map(|fields| line(fields)).collect();
    let out = String::from_utf8(run(Correct, script.as_bytes())).unwrap();
    let number = |text: &str, field: usize| text[8 * field..8 * field + 8].trim().parse().unwrap();
    out.lines().map(|text| (number(text, 1), number(text, 2), number(text, 3))).collect()
}
