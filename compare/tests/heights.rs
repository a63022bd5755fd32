//! Document 02, #105: parent and height in a block's record, in the form, at opening, in a new block, on the panel, and
//! where they change no answer. Codes, words, numbers and answers are literal, as the documents have them.

mod common;

use common::{answers, given, refused, steps_up, wrong_form};
use judge::driver::Driver;
use judge::explore::Explorer;
use judge::generate::progress::ledger_in_progress;
use judge::mistake::Correct;
use judge::netting::balance;
use judge::panel::panel;
use judge::random::Random;

const MOST: u32 = u32::MAX;

/// A ledger of f = 1 with these records, so many of them added.
fn ledger(records: &[[u32; 2]], added: u32) -> Driver<Correct> {
    with_words(&records.concat(), added)
}

fn with_words(words: &[u32], added: u32) -> Driver<Correct> {
    let mut driver = Driver::open(Correct, 1, 8, 1);
    driver.blocks = words.to_vec();
    driver.table[2] = added;
    driver
}

/// All records added.
fn is_sound(records: &[[u32; 2]]) -> bool {
    !wrong_form(&mut ledger(records, records.len() as u32))
}

/// Block 0 and so many more, each on the one before.
fn chain(blocks: u32) -> Vec<[u32; 2]> {
    (0..blocks).map(|number| [number.saturating_sub(1), number]).collect()
}

fn shown(driver: &mut Driver<Correct>, block: u32) -> Result<u32, u32> {
    driver.table[11 + 8] = block;
    panel(Correct, &driver.memory(), 0)
}

#[test]
fn opening_writes_both_words_of_block_0_and_no_other() {
    for slots in [1, 2, 5] {
        let mut driver = Driver::open(Correct, 1, 2, slots);
        driver.blocks.fill(9);
        assert_eq!(given(&mut driver, 0, 1, 0, &[]), (0, 3, 0));
        assert_eq!(driver.blocks[..2], [0, 0]);
        assert!(driver.blocks[2..].iter().all(|&word| word == 9));
        assert_eq!(driver.blocks.len(), 2 * slots);
    }
    for words in [[0, 1], [0, MOST], [1, 0], [3, 7]] {
        let mut driver = with_words(&words, 1);
        assert!(wrong_form(&mut driver), "{words:?}");
        assert_eq!(given(&mut driver, 0, 1, 0, &[]), (0, 3, 0));
        assert_eq!(driver.blocks, [0, 0]);
        assert!(!wrong_form(&mut driver), "{words:?}");
    }
}

#[test]
fn from_2_to_8192_words_and_even() {
    let lengths = [(0, 1), (1, 1), (2, 0), (3, 1), (4, 0), (4095, 1), (4096, 0), (4097, 1), (4098, 0), (8190, 0)];
    let longest = [(8191, 1), (8192, 0), (8193, 1), (8194, 1), (8195, 1), (8196, 1), (16_384, 1)];
    for (length, answer) in lengths.into_iter().chain(longest) {
        let mut driver = Driver::open(Correct, 1, 2, 1);
        driver.blocks = vec![0; length];
        assert_eq!(wrong_form(&mut driver), answer == 1, "{length} words");
        driver.blocks.fill(9);
        refused(&mut driver, 2, 0, 0, 0, &[1, 2]);
        refused(&mut driver, 12, 0, 1, 0, &[1, 2]);
        if answer == 1 {
            refused(&mut driver, 1, 0, 1, 0, &[]);
            refused(&mut driver, 1, 0, 1, 0, &[64; 8]);
        } else {
            assert_eq!(given(&mut driver, 0, 1, 0, &[]), (0, 3, 0), "{length} words");
        }
    }
}

#[test]
fn a_new_block_is_one_above_its_parent() {
    let mut driver = Driver::open(Correct, 1, 0, 8);
    driver.blocks[2..].fill(9);
    // Parent of blocks 1, 2, .. and the height it gives them.
    let records = [[0, 1], [1, 2], [0, 1], [3, 2], [2, 3], [2, 3], [6, 4]];
    for (number, record) in (1..).zip(records) {
        assert_eq!(given(&mut driver, 1, 0, record[0], &[]), (0, number, 0));
        let place = 2 * number as usize;
        assert_eq!(driver.blocks[place..place + 2], record);
        assert!(driver.blocks[place + 2..].iter().all(|&word| word == 9));
    }
    assert_eq!(driver.blocks, [vec![0, 0], records.concat()].concat());
    refused(&mut driver, 9, 1, 0, 7, &[]);
    refused(&mut driver, 3, 1, 0, 8, &[]);
}

#[test]
fn a_place_is_a_record() {
    for slots in [1, 2, 3, 1024, 4096] {
        let mut driver = Driver::open(Correct, 1, 0, slots as usize);
        for number in 1..slots {
            assert_eq!(given(&mut driver, 1, 0, number - 1, &[]), (0, number, 0));
        }
        refused(&mut driver, 9, 1, 0, 0, &[]);
        assert_eq!(shown(&mut driver, slots - 1), Ok(slots - 1));
    }
    // A count above the places, up to the words and past them.
    for added in [0, 4, 5, 6, 7, MOST] {
        assert!(wrong_form(&mut ledger(&[[0, 0], [0, 1], [0, 1]], added)), "{added} added");
    }
}

#[test]
fn sound_records() {
    let sound: [&[[u32; 2]]; 6] = [
        &[[0, 0]],
        &[[0, 0], [0, 1]],
        &[[0, 0], [0, 1], [1, 2], [2, 3]],
        &[[0, 0], [0, 1], [0, 1], [0, 1]],
        // Block 3 is on 1 or on 2, which are as high as one another.
        &[[0, 0], [0, 1], [0, 1], [1, 2], [3, 3]],
        &[[0, 0], [0, 1], [0, 1], [2, 2], [3, 3]],
    ];
    for records in sound {
        assert!(is_sound(records), "{records:?}");
    }
    assert!(is_sound(&chain(4096)));
}

#[test]
fn each_height_is_one_more_than_the_parents() {
    let tree = [[0, 0], [0, 1], [1, 2], [0, 1], [3, 2], [2, 3]];
    assert!(is_sound(&tree));
    for block in 0..tree.len() {
        for height in [0, 1, 2, 3, 4, 5, 6, 65_536 + tree[block][1], MOST - 1, MOST] {
            let mut records = tree;
            records[block][1] = height;
            assert_eq!(is_sound(&records), height == tree[block][1], "{records:?}");
        }
    }
    for length in [2, 17, 1024, 4096] {
        for block in [0, 1, length / 2, length - 1] {
            for by in [1, MOST] {
                let mut records = chain(length);
                records[block as usize][1] = block.wrapping_add(by);
                assert!(!is_sound(&records), "block {block} of {length}");
            }
        }
    }
}

/// Every block but the one named keeps its rule.
#[test]
fn one_record_that_breaks_its_rule_is_enough() {
    let wrong: [&[[u32; 2]]; 12] = [
        // Block 0's height; the others are counted from it.
        &[[0, 1]],
        &[[0, 1], [0, 2], [1, 3]],
        &[[0, 7], [0, 8], [0, 8]],
        // Block 0's parent.
        &[[1, 0], [0, 1]],
        // Block 1's height, from which its descendants are counted.
        &[[0, 0], [0, 2], [1, 3], [2, 4]],
        &[[0, 0], [0, 0], [1, 1]],
        // Block 1 is on block 2, one above it.
        &[[0, 0], [2, 2], [0, 1]],
        // Two blocks on each other, block 1 a step above block 2.
        &[[0, 0], [2, 3], [1, 2]],
        // A block on itself: no height is one more than its own.
        &[[0, 0], [1, 1]],
        &[[0, 0], [0, 1], [2, 0]],
        // A parent that is no block, and one of another height.
        &[[0, 0], [9, 1]],
        &[[0, 0], [0, 1], [1, 2], [0, 2]],
    ];
    for records in wrong {
        assert!(!is_sound(records), "{records:?}");
    }
}

#[test]
fn heights_do_not_wrap_round() {
    let wrong: [&[[u32; 2]]; 4] = [
        &[[0, MOST]],
        &[[0, MOST], [0, 0], [1, 1]],
        &[[0, 0], [0, MOST], [1, 0]],
        &[[0, 0], [0, 1], [1, MOST], [2, 0], [3, 1]],
    ];
    for records in wrong {
        assert!(!is_sound(records), "{records:?}");
    }
}

/// "Heights are tested for added blocks only", and so are parents.
#[test]
fn words_past_the_count_are_not_read() {
    for past in [[0, 0], [0, 7], [1, 1], [9, MOST], [MOST, MOST]] {
        let records = [[0, 0], [0, 1], past, past];
        assert!(!wrong_form(&mut ledger(&records, 2)), "{past:?}");
        assert!(wrong_form(&mut ledger(&records, 4)), "{past:?}");
        let mut driver = ledger(&records, 2);
        assert_eq!(given(&mut driver, 1, 0, 1, &[]), (0, 2, 0));
        assert_eq!(driver.blocks, [[0, 0], [0, 1], [1, 2], past].concat());
        // No other call writes a block.
        for (code, number) in [(5, 1), (9, 0), (8, 0), (10, 0)] {
            assert_eq!(given(&mut driver, code, 0, number, &[]).0, 0);
            assert_eq!(driver.blocks, [[0, 0], [0, 1], [1, 2], past].concat());
        }
    }
}

#[test]
fn the_panel_shows_the_kept_height() {
    let tree = [[0, 0], [0, 1], [1, 2], [0, 1], [3, 2], [2, 3], [0, 1]];
    let mut driver = ledger(&tree, 7);
    for (block, record) in (0..).zip(tree) {
        assert_eq!(shown(&mut driver, block), Ok(record[1]));
    }
    assert_eq!(shown(&mut driver, 7), Err(1));
    assert_eq!(shown(&mut driver, 6), Ok(1));
    assert_eq!(panel(Correct, &driver.memory(), 2), Ok(0));
    assert_eq!(panel(Correct, &driver.memory(), 3), Err(2));
    // Any wrong height is wrong form, the shown block's or not.
    driver.blocks[2 * 5 + 1] = 4;
    assert_eq!(shown(&mut driver, 6), Err(1));
    assert_eq!(panel(Correct, &driver.memory(), 3), Err(1));
    assert_eq!(shown(&mut ledger(&chain(4096), 4096), 4095), Ok(4095));
}

/// In lists of calls the kept height is the number of steps to block 0, on the panel too.
#[test]
fn kept_heights_are_steps_to_block_0() {
    let (mut forks, mut highest) = (0, 0);
    for seed in 1..=24 {
        let driver = ledger_in_progress(Random::new(seed), 1 + seed as u32 % 3, &[], 200, true);
        let mut hosts = Explorer { driver, random: Random::new(seed), noise: 8 };
        (0..100).for_each(|_| hosts.step());
        let mut driver = hosts.driver;
        for block in 0..driver.added() {
            let height = driver.blocks[2 * block as usize + 1];
            assert_eq!(height, steps_up(&driver, block));
            assert_eq!(shown(&mut driver, block), Ok(height));
            forks += u32::from(height < block);
            highest = highest.max(height);
        }
    }
    assert!(forks > 200 && highest > 10, "{forks} blocks lower than their number, the highest at {highest}");
}

#[test]
fn prepare_goes_by_the_parent() {
    // Blocks 1 and 2 are on block 0, block 3 on 1, block 4 on 2; an ACC of box 0 in view 1 names block 1.
    let mut driver = ledger(&[[0, 0], [0, 1], [0, 1], [1, 2], [2, 2]], 5);
    driver.log[..8].copy_from_slice(&[4, 0, 1, 1, 0, 0, 0, 0]);
    driver.table[1] = 1;
    for block in [0, 1, 2, 4] {
        refused(&mut driver, 6, 2, 0, block, &[0]);
    }
    assert_eq!(given(&mut driver, 2, 0, 3, &[0]), (0, 1, 0));
}

#[test]
fn balances_go_by_the_line() {
    let mut driver = ledger(&[[0, 0], [0, 1], [0, 1], [1, 2], [2, 2]], 5);
    let list = [[1, 0, 1, 1], [2, 0, 1, 10], [3, 0, 1, 100], [4, 0, 1, 1000]].concat();
    for (block, received) in [(0, 0), (1, 1), (2, 10), (3, 101), (4, 1010)] {
        assert_eq!(balance(Correct, &driver.memory(), &list, block, 1), Ok(received));
    }
    driver.blocks[2 * 4 + 1] = 3;
    assert_eq!(balance(Correct, &driver.memory(), &list, 3, 1), Err(1));
}

/// Blocks beside one another, and a decision of the one at height 2 that is number 4.
#[test]
fn a_script_with_forks() {
    let lines: [&[u32]; 16] = [
        &[0, 1, 0],
        &[1, 0, 0],
        &[1, 0, 0],
        &[1, 0, 1],
        &[1, 0, 2],
        &[5, 0, 1],
        &[5, 1, 1],
        &[6, 0, 0, 0, 1],
        &[2, 0, 2, 2],
        &[4, 0, 3],
        &[4, 1, 3],
        &[3, 1, 3, 4, 5],
        &[3, 1, 4, 4, 5],
        &[4, 0, 6],
        &[4, 1, 6],
        &[7, 2, 0, 7, 8],
    ];
    let blocks = [(0, 3, 0), (0, 1, 0), (0, 2, 0), (0, 3, 0), (0, 4, 0)];
    let first = [(0, 0, 0), (0, 1, 0), (0, 2, 0), (0, 3, 0), (0, 4, 0), (0, 5, 0)];
    let second = [(6, 0, 0), (0, 6, 0), (0, 7, 0), (0, 8, 0), (0, 4, 2)];
    assert_eq!(answers(&lines), [&blocks[..], &first, &second].concat());
}
