//! Document 02, #104: a pool's own steps, at opening, in the form, in use and in a script. Codes, words, numbers and
//! answers are literal, as the documents have them.

mod common;

use common::{answers, given, refused, wrong_form};
use judge::driver::Driver;
use judge::mistake::Correct;

const DOCUMENT_01: [u32; 8] = [64, 64, 128, 128, 256, 256, 512, 1024];
const TENS: [u32; 8] = [10, 20, 30, 40, 50, 60, 70, 80];
const DOUBLED: [u32; 8] = [1, 2, 4, 8, 16, 32, 64, 128];

fn opened(f: u32, steps: &[u32]) -> Driver<Correct> {
    let mut driver = Driver::open_with_steps(Correct, f, steps, 64, 8);
    assert_eq!(given(&mut driver, 0, f, 0, steps), (0, 2 * f + 1, 0));
    driver
}

/// What an opening with f = 1 gives on a memory full of 9s, of just the right lengths.
fn opening(list: &[u32]) -> u32 {
    let mut driver = Driver::open(Correct, 1, 4, 2);
    driver.table.fill(9);
    driver.log.fill(9);
    driver.blocks.fill(9);
    let before = driver.table.clone();
    let (answer, _, _) = given(&mut driver, 0, 1, 0, list);
    assert_eq!(driver.table == before, answer != 0, "{list:?}");
    answer
}

fn with(place: usize, step: u32, steps: [u32; 8]) -> [u32; 8] {
    let mut changed = steps;
    changed[place] = step;
    changed
}

#[test]
fn the_steps_stand_after_the_header() {
    for (list, steps) in [(&[][..], DOCUMENT_01), (&DOUBLED, DOUBLED), (&[4096; 8], [4096; 8])] {
        for (f, n) in [(1, 3), (30, 61)] {
            let mut driver = Driver::open(Correct, f, 2, 2);
            driver.table.fill(9);
            assert_eq!(given(&mut driver, 0, f, 0, list), (0, n, 0));
            assert_eq!(driver.table.len() as u32, 11 + 9 * n);
            assert_eq!(driver.table[..3], [f, 0, 1]);
            assert_eq!(driver.table[3..11], steps);
            assert!(driver.table[11..].chunks(9).all(|words| words == [0, 0, 1, steps[0], 0, 0, 0, 0, 0]));
        }
    }
}

#[test]
fn the_log_and_the_other_blocks_are_not_touched() {
    let mut driver = Driver::open(Correct, 1, 2, 2);
    driver.log.fill(9);
    driver.blocks.fill(9);
    assert_eq!(given(&mut driver, 0, 1, 0, &DOUBLED), (0, 3, 0));
    assert_eq!((driver.log, driver.blocks), (vec![9; 16], vec![0, 0, 9, 9]));
}

#[test]
fn each_is_1_to_4096() {
    for list in [[1; 8], [4096; 8], [1, 1, 1, 1, 1, 1, 1, 4096], [1, 4096, 4096, 4096, 4096, 4096, 4096, 4096]] {
        assert_eq!(opening(&list), 0, "{list:?}");
    }
    for list in [[0; 8], [4097; 8], [u32::MAX; 8], with(0, 0, [1; 8]), with(0, 0, TENS), with(7, 4097, [4096; 8])] {
        assert_eq!(opening(&list), 12, "{list:?}");
    }
    for place in 0..8 {
        for step in [0, 4097, 65_536 + 64, 99_999_999, 1 << 31, u32::MAX] {
            assert_eq!(opening(&with(place, step, [64; 8])), 12, "{step} at {place}");
        }
    }
}

#[test]
fn none_is_smaller_than_the_one_before() {
    for place in 1..8 {
        let before = TENS[place - 1];
        for (step, answer) in [(before - 1, 12), (before, 0), (before + 1, 0), (1, 12)] {
            assert_eq!(opening(&with(place, step, TENS)), answer, "{step} at {place}");
        }
    }
    for (list, answer) in [([64, 64, 64, 64, 1024, 1024, 1024, 1024], 0), ([80, 70, 60, 50, 40, 30, 20, 10], 12)] {
        assert_eq!(opening(&list), answer);
    }
}

#[test]
fn eight_or_none() {
    for length in 0..=31 {
        let answer = if length == 0 || length == 8 { 0 } else { 12 };
        assert_eq!(opening(&vec![64; length]), answer, "{length} steps");
    }
    for length in [32, 33, 64] {
        assert_eq!(opening(&vec![64; length]), 10, "{length} steps");
    }
}

#[test]
fn openings_refusals_are_2_then_12_then_1() {
    let wrong = with(0, 0, TENS);
    for (table, log, blocks) in [(37, 16, 4), (38, 15, 4), (38, 16, 0), (38, 16, 3), (0, 0, 0), (30, 16, 4)] {
        let mut driver = Driver::open(Correct, 1, 2, 2);
        driver.table.resize(table, 9);
        driver.log.resize(log, 9);
        driver.blocks.resize(blocks, 9);
        for f in [0, 31, u32::MAX] {
            refused(&mut driver, 2, 0, f, 0, &wrong);
            refused(&mut driver, 2, 0, f, 0, &[64; 7]);
            refused(&mut driver, 2, 0, f, 0, &TENS);
            refused(&mut driver, 10, 0, f, 1, &TENS);
            refused(&mut driver, 10, 0, f, 0, &[64; 32]);
        }
        refused(&mut driver, 12, 0, 1, 0, &wrong);
        refused(&mut driver, 12, 0, 1, 0, &[64; 9]);
        refused(&mut driver, 1, 0, 1, 0, &TENS);
        refused(&mut driver, 1, 0, 1, 0, &[]);
        refused(&mut driver, 10, 0, 1, 1, &wrong);
    }
}

#[test]
fn an_opening_without_steps_brings_document_01s_back() {
    let mut driver = opened(1, &DOUBLED);
    assert_eq!(given(&mut driver, 0, 1, 0, &[]), (0, 3, 0));
    assert_eq!(driver.table[3..11], DOCUMENT_01);
    assert_eq!(given(&mut driver, 5, 0, 63, &[]), (0, 0, 0));
    assert_eq!(given(&mut driver, 9, 0, 0, &[]), (0, 128, 0));
}

#[test]
fn an_opening_reads_no_word() {
    let mut driver = opened(1, &[]);
    driver.table[3..11].fill(u32::MAX);
    refused(&mut driver, 1, 5, 0, 1, &[]);
    assert_eq!(given(&mut driver, 0, 1, 0, &TENS), (0, 3, 0));
    assert_eq!(driver.table[3..11], TENS);
    assert_eq!(given(&mut driver, 5, 0, 9, &[]), (0, 0, 0));
}

#[test]
fn the_first_bound_is_the_first_step() {
    for first in [2, 63, 64, 65, 4095, 4096] {
        let mut driver = opened(1, &with(0, first, [4096; 8]));
        refused(&mut driver, 8, 5, 0, first, &[]);
        assert_eq!(given(&mut driver, 5, 0, first - 1, &[]), (0, 0, 0));
    }
    let mut driver = opened(1, &[1; 8]);
    refused(&mut driver, 8, 5, 0, 1, &[]);
    assert_eq!(given(&mut driver, 9, 0, 0, &[]), (0, 2, 0));
    assert_eq!(given(&mut driver, 5, 0, 1, &[]), (0, 0, 0));
    refused(&mut driver, 8, 5, 0, 2, &[]);
    refused(&mut driver, 8, 5, 1, 1, &[]);
}

/// Boot, low and bound of box 0 after each cut; the last step again from boot 8 on.
#[test]
fn a_cut_takes_the_new_boots_step() {
    let cuts = [(1, 1, 3), (2, 3, 7), (3, 7, 15), (4, 15, 31), (5, 31, 63), (6, 63, 127), (7, 127, 255)];
    let later = [(8, 255, 383), (9, 383, 511), (10, 511, 639)];
    let mut driver = opened(1, &DOUBLED);
    for (boot, low, bound) in cuts.into_iter().chain(later) {
        assert_eq!(given(&mut driver, 8, 0, 0, &[]), (0, boot, low));
        assert_eq!(driver.table[11..20], [1, boot, low, bound, 0, 0, 0, 0, 0]);
        assert_eq!(driver.table[3..11], DOUBLED);
    }
    assert_eq!(driver.table[20..29], [0, 0, 1, 1, 0, 0, 0, 0, 0]);
}

/// The bound that two reserves give in each boot, and the low of the cut after them.
#[test]
fn a_reserve_takes_its_own_boots_step() {
    let reserves = [(2, 3), (7, 9), (17, 21), (37, 45), (77, 93), (157, 189), (317, 381), (637, 765), (1021, 1149)];
    let mut driver = opened(1, &DOUBLED);
    for (boot, (once, twice)) in (1..).zip(reserves) {
        assert_eq!(given(&mut driver, 9, 0, 0, &[]), (0, once, 0));
        assert_eq!(given(&mut driver, 9, 0, 0, &[]), (0, twice, 0));
        assert_eq!(given(&mut driver, 8, 0, 0, &[]), (0, boot, twice));
    }
    assert_eq!(given(&mut driver, 9, 1, 0, &[]), (0, 2, 0));
}

/// Cuts go by the words in the table, wherever they came from.
#[test]
fn steps_changed_in_the_table_are_the_ones_in_use() {
    let mut driver = opened(1, &[]);
    driver.table[3..11].copy_from_slice(&TENS);
    assert_eq!(given(&mut driver, 9, 0, 0, &[]), (0, 74, 0));
    assert_eq!(given(&mut driver, 8, 0, 0, &[]), (0, 1, 74));
    assert_eq!(driver.table[14], 94);
}

#[test]
fn the_counter_ends_at_a_million_by_steps_of_4096() {
    let mut driver = opened(1, &[4096; 8]);
    driver.table[14] = 995_904;
    driver.table[23] = 995_905;
    assert_eq!(given(&mut driver, 9, 0, 0, &[]), (0, 1_000_000, 0));
    refused(&mut driver, 8, 9, 0, 0, &[]);
    refused(&mut driver, 8, 9, 1, 0, &[]);
    assert_eq!(given(&mut driver, 8, 1, 0, &[]), (0, 0, 1));
    assert_eq!(driver.table[20..29], [2, 0, 1, 995_905, 0, 0, 0, 0, 0]);
    driver.table[14] = 995_904;
    assert_eq!(given(&mut driver, 8, 0, 0, &[]), (0, 1, 995_904));
    assert_eq!(driver.table[11..20], [1, 1, 995_904, 1_000_000, 0, 0, 0, 0, 0]);
}

#[test]
fn steps_of_4000_meet_the_ceiling() {
    let mut driver = opened(1, &[4000; 8]);
    let reserved = (0..249).map(|_| given(&mut driver, 9, 0, 0, &[])).last();
    assert_eq!(reserved, Some((0, 1_000_000, 0)));
    refused(&mut driver, 8, 9, 0, 0, &[]);
    let cut = (0..249).map(|_| given(&mut driver, 8, 1, 0, &[])).last();
    assert_eq!(cut, Some((0, 249, 996_000)));
    assert_eq!(driver.table[20..29], [1, 249, 996_000, 1_000_000, 0, 0, 0, 0, 0]);
    assert_eq!(given(&mut driver, 8, 1, 0, &[]), (0, 249, 996_000));
    assert_eq!(driver.table[20], 2);
}

/// A ledger with these words for its steps.
fn with_steps(steps: [u32; 8]) -> Driver<Correct> {
    let mut driver = opened(1, &[]);
    driver.table[3..11].copy_from_slice(&steps);
    driver
}

fn form_refuses(steps: [u32; 8]) {
    assert!(wrong_form(&mut with_steps(steps)), "{steps:?}");
}

#[test]
fn the_form_test_covers_the_steps() {
    for place in 0..8 {
        for step in [0, 4097, 65_536 + 64, u32::MAX] {
            form_refuses(with(place, step, [64; 8]));
        }
    }
    form_refuses(with(0, 0, TENS));
    form_refuses(with(7, 4097, TENS));
    for place in 1..8 {
        form_refuses(with(place, TENS[place - 1] - 1, TENS));
    }
}

#[test]
fn sound_steps_have_sound_form() {
    for steps in [[1; 8], [4096; 8], TENS, DOUBLED, with(0, 1, [4096; 8]), with(7, 4096, [1; 8])] {
        assert!(!wrong_form(&mut with_steps(steps)), "{steps:?}");
    }
}

/// Document 01's script, as #103 leaves it, and its continuation: bounds of 2 where they were 64.
#[test]
fn document_01s_script_with_steps_of_its_own() {
    let lines: [&[u32]; 18] = [
        &[0, 1, 0, 2, 4, 4, 4, 4, 4, 4, 4],
        &[5, 0, 1],
        &[5, 1, 1],
        &[6, 0, 0, 0, 1],
        &[1, 0, 0],
        &[2, 0, 1, 2],
        &[4, 0, 3],
        &[8, 1, 0],
        &[4, 1, 3],
        &[4, 2, 3],
        &[7, 0, 0, 4, 5],
        &[10, 1, 0],
        &[11, 0, 6],
        &[11, 2, 6],
        &[12, 1, 0, 7, 8],
        &[5, 0, 2],
        &[9, 0, 0],
        &[5, 0, 2],
    ];
    let expected = [(0, 3, 0), (0, 0, 0), (0, 1, 0), (0, 2, 0), (0, 1, 0), (0, 3, 0), (0, 4, 0), (0, 1, 2), (4, 0, 0)];
    let after = [(0, 5, 0), (0, 1, 1), (0, 6, 0), (0, 7, 0), (0, 8, 0), (0, 2, 1), (8, 0, 0), (0, 4, 0), (0, 9, 0)];
    assert_eq!(answers(&lines), [expected, after].concat());
}

#[test]
fn a_list_of_code_0_that_is_no_steps_leaves_the_ledger_in_use() {
    let most = [&[0, 2, 0][..], &[1; 31]].concat();
    let too_many = [&[0, 2, 0][..], &[1; 32]].concat();
    let lines: [&[u32]; 13] = [
        &[0, 1, 0, 1, 1, 1, 1, 1, 1, 1, 1],
        &[9, 2, 0],
        &[0, 2, 0, 7],
        &[0, 30, 0, 2, 2, 2, 2, 2, 2, 2, 1],
        &most,
        &too_many,
        &[0, 2, 1, 8, 8, 8, 8, 8, 8, 8, 8],
        &[0, 31, 0, 7],
        &[5, 2, 1],
        &[5, 3, 1],
        &[8, 2, 0],
        &[0, 2, 0, 8, 8, 8, 8, 8, 8, 8, 8],
        &[5, 3, 7],
    ];
    let refusals = [12, 12, 12, 10, 10, 2].map(|answer| (answer, 0, 0));
    let after = [(0, 0, 0), (2, 0, 0), (0, 1, 2), (0, 5, 0), (0, 0, 0)];
    assert_eq!(answers(&lines), [&[(0, 3, 0), (0, 2, 0)][..], &refusals, &after].concat());
}

#[test]
fn before_the_first_opening_a_refused_one_opens_nothing() {
    let lines: [&[u32]; 5] = [&[0, 1, 0, 7], &[5, 0, 1], &[0, 1, 0, 0, 1, 1, 1, 1, 1, 1, 1], &[8, 0, 0], &[0, 1, 0]];
    assert_eq!(answers(&lines), [(12, 0, 0), (1, 0, 0), (12, 0, 0), (1, 0, 0), (0, 3, 0)]);
}
