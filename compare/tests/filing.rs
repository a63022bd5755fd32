//! Document 02, #102, on generated scripts: what an issuing call tells is what the issued count and the log show, and
//! a call that is made again at once finds its certificate or is refused.

use judge::call::{Outcome, PREPARE_ACC, PREPARE_COMMITS, STORE};
use judge::certificate::{ADDED, FOUND};
use judge::driver::{Driver, Line};
use judge::generate::boundary::{full_log, many_boots};
use judge::generate::progress::progress;
use judge::generate::scripts::hostile;
use judge::memory::{header, CERTIFICATE_WORDS};
use judge::mistake::Correct;
use judge::random::Random;
use judge::refusal::{ACCEPTED, WRONG_VIEW};
use judge::script::{BLOCK_SLOTS, CERTIFICATE_SLOTS};

/// Makes an accepted issuing call once more: no word changes. A proposal or a commit is refused by its flag or its
/// lowest view; any other certificate is found under the number that it just got.
fn make_again(driver: &mut Driver<Correct>, line: &Line, number: u32) {
    let (table, log) = (driver.table.clone(), driver.log.clone());
    let again = driver.call(line.code, line.replica, line.number, &line.list);
    let expected = match line.code {
        PREPARE_ACC | PREPARE_COMMITS | STORE => Outcome { answer: WRONG_VIEW, first: 0, second: 0 },
        _ => Outcome { answer: ACCEPTED, first: number, second: FOUND },
    };
    assert_eq!(again, expected, "{line:?}");
    assert!(driver.table == table && driver.log == log);
}

/// Makes the calls after the opening, one by one; how many found their certificate and how many added it.
fn replay(lines: &[Line]) -> (u32, u32) {
    let (opening, calls) = lines.split_first().unwrap();
    let mut driver = Driver::open_with_steps(Correct, opening.replica, &opening.list, CERTIFICATE_SLOTS, BLOCK_SLOTS);
    let (mut found, mut added) = (0, 0);
    for line in calls {
        let (issued, log) = (driver.table[header::ISSUED], driver.log.clone());
        let outcome = driver.call(line.code, line.replica, line.number, &line.list);
        match outcome.filed(line.code) {
            Some(ADDED) => {
                assert_eq!((outcome.first, driver.issued()), (issued, issued + 1));
                let start = CERTIFICATE_WORDS * issued as usize;
                let end = start + CERTIFICATE_WORDS;
                assert!(driver.log[..start] == log[..start] && driver.log[end..] == log[end..]);
                added += 1;
            }
            filed => {
                assert!(filed.is_none_or(|told| told == FOUND && outcome.first < issued));
                assert!(driver.issued() == issued && driver.log == log);
                found += u32::from(filed.is_some());
            }
        }
        if outcome.filed(line.code).is_some() {
            make_again(&mut driver, line, outcome.first);
        }
    }
    (found, added)
}

#[test]
fn found_exactly_if_the_count_stays() {
    let mut scripts = vec![full_log(Random::new(1), 1), many_boots(Random::new(1), 1)];
    for seed in 1..=24 {
        let f = 1 + seed as u32 % 3;
        scripts.extend([hostile(Random::new(seed), f), progress(Random::new(seed), f, &[], 200, true)]);
    }
    let counts: Vec<(u32, u32)> = scripts.iter().map(|lines| replay(lines)).collect();
    let found: u32 = counts.iter().map(|(found, _)| found).sum();
    let added: u32 = counts.iter().map(|(_, added)| added).sum();
    assert!(found > 200 && added > 2000, "{found} found, {added} added");
}
