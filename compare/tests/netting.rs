//! Document 02, #101: its limits and orders, worked cases, and its law of two decided blocks on random runs. Numbers and
//! answers are literal, as the document has them.

mod common;

use common::steps_up;
use judge::driver::Driver;
use judge::explore::Explorer;
use judge::generate::netting::netting;
use judge::generate::progress::ledger_in_progress;
use judge::generate::steps::own_or_none;
use judge::mistake::{Correct, Mistake};
use judge::netting::balance;
use judge::random::Random;

/// A movement: block, giver, taker, pallets.
type Words = [u32; 4];

/// A ledger whose blocks 1, 2, .. have these parents.
fn ledger(f: u32, parents: &[u32]) -> Driver<Correct> {
    let mut driver = Driver::open(Correct, f, 4, 8);
    for &parent in parents {
        assert!(driver.call(1, 0, parent, &[]).is_accepted());
    }
    driver
}

fn words_net(driver: &mut Driver<Correct>, words: &[u32], block: u32, replica: u32) -> Result<i32, u32> {
    balance(Correct, &driver.memory(), words, block, replica)
}

fn net(driver: &mut Driver<Correct>, list: &[Words], block: u32, replica: u32) -> Result<i32, u32> {
    words_net(driver, &list.concat(), block, replica)
}

fn all(driver: &mut Driver<Correct>, list: &[Words], block: u32) -> Vec<i32> {
    (0..driver.n()).map(|replica| net(driver, list, block, replica).unwrap()).collect()
}

#[test]
fn balances_along_a_chain() {
    let mut driver = ledger(1, &[0, 1]);
    let list = [[1, 0, 1, 10], [2, 1, 0, 4], [2, 2, 1, 7]];
    assert_eq!(all(&mut driver, &list, 0), [0, 0, 0]);
    assert_eq!(all(&mut driver, &list, 1), [-10, 10, 0]);
    assert_eq!(all(&mut driver, &list, 2), [-6, 13, -7]);
}

#[test]
fn a_movement_counts_exactly_in_the_line() {
    // Block 3 is on 1, block 4 on 2: two chains from block 0.
    let mut driver = ledger(1, &[0, 0, 1, 2]);
    let list = [[1, 0, 1, 1], [2, 0, 1, 10], [3, 0, 1, 100], [4, 0, 1, 1000]];
    for (block, received) in [(0, 0), (1, 1), (2, 10), (3, 101), (4, 1010)] {
        assert_eq!(all(&mut driver, &list, block), [-received, received, 0]);
    }
}

#[test]
fn pallets_from_1_to_10_000() {
    let mut driver = ledger(1, &[0]);
    for pallets in [1, 2, 9_999, 10_000] {
        assert_eq!(net(&mut driver, &[[1, 0, 1, pallets]], 1, 1), Ok(pallets as i32));
    }
    for pallets in [0, 10_001, 1 << 31, u32::MAX] {
        assert_eq!(net(&mut driver, &[[1, 0, 1, pallets]], 1, 1), Err(11), "{pallets}");
    }
}

#[test]
fn an_added_block_other_than_0() {
    let mut driver = ledger(1, &[0, 1]);
    for (block, answer) in [(0, Err(11)), (1, Ok(5)), (2, Ok(5)), (3, Err(11)), (u32::MAX, Err(11))] {
        assert_eq!(net(&mut driver, &[[block, 0, 1, 5]], 2, 1), answer, "block {block}");
    }
    // With block 0 alone only an empty list is good.
    let mut fresh = ledger(1, &[]);
    assert_eq!(net(&mut fresh, &[], 0, 0), Ok(0));
    assert_eq!(net(&mut fresh, &[[0, 0, 1, 5]], 0, 0), Err(11));
    assert_eq!(net(&mut fresh, &[[1, 0, 1, 5]], 0, 0), Err(11));
}

#[test]
fn different_boxes() {
    for (f, last) in [(1, 2), (30, 60)] {
        let mut driver = ledger(f, &[0]);
        assert_eq!(net(&mut driver, &[[1, last, 0, 5]], 1, last), Ok(-5));
        assert_eq!(net(&mut driver, &[[1, 0, last, 5]], 1, last), Ok(5));
        for (giver, taker) in [(last + 1, 0), (0, last + 1), (u32::MAX, 0), (0, u32::MAX), (0, 0), (last, last)] {
            assert_eq!(net(&mut driver, &[[1, giver, taker, 5]], 1, 0), Err(11), "{giver} to {taker}");
        }
    }
}

#[test]
fn at_most_2_048_movements_of_whole_records() {
    let mut driver = ledger(1, &[0]);
    for (movements, answer) in [(0, Ok(0)), (1, Ok(3)), (2_047, Ok(6_141)), (2_048, Ok(6_144)), (2_049, Err(1))] {
        assert_eq!(net(&mut driver, &vec![[1, 0, 1, 3]; movements], 1, 1), answer, "{movements}");
    }
    for words in [1, 2, 3, 5, 4 * 2_048 - 1, 4 * 2_048 + 1, 4 * 2_048 + 2, 4 * 2_048 + 3, 4 * 2_049 + 1] {
        let list = [1, 0, 1, 3].repeat(2_050);
        assert_eq!(words_net(&mut driver, &list[..words], 1, 1), Err(1), "{words} words");
    }
}

#[test]
fn the_greatest_and_the_least_balance() {
    let mut driver = ledger(30, &[0, 1]);
    let list = vec![[2, 60, 0, 10_000]; 2_048];
    assert_eq!(net(&mut driver, &list, 2, 0), Ok(20_480_000));
    assert_eq!(net(&mut driver, &list, 2, 60), Ok(-20_480_000));
    assert_eq!(net(&mut driver, &list, 1, 60), Ok(0));
}

#[test]
fn every_movement_lent_is_tested() {
    // Block 2 is outside the line of block 1.
    let mut driver = ledger(1, &[0, 0]);
    let good = [1, 0, 1, 5];
    assert_eq!(net(&mut driver, &[good, [2, 0, 1, 5]], 1, 1), Ok(5));
    for wrong in [[2, 0, 1, 0], [2, 0, 1, 10_001], [2, 3, 1, 5], [2, 0, 3, 5], [2, 1, 1, 5], [3, 0, 1, 5], [0, 0, 1, 5]]
    {
        for list in [[wrong, good, good], [good, wrong, good], [good, good, wrong]] {
            assert_eq!(net(&mut driver, &list, 1, 1), Err(11), "{list:?}");
            assert_eq!(net(&mut driver, &list, 0, 1), Err(11), "{list:?}");
        }
    }
}

#[test]
fn the_chosen_firm_and_block() {
    let mut driver = ledger(1, &[0, 1]);
    let list = [[2, 0, 2, 5]];
    for (block, replica, answer) in [(2, 2, Ok(5)), (2, 3, Err(2)), (2, u32::MAX, Err(2)), (3, 2, Err(3))] {
        assert_eq!(net(&mut driver, &list, block, replica), answer);
    }
    assert_eq!(net(&mut driver, &list, u32::MAX, 0), Err(3));
}

#[test]
fn the_lowest_refusal_wins() {
    let mut driver = ledger(1, &[0]);
    let wrong = [[0, 3, 3, 0]];
    assert_eq!(net(&mut driver, &wrong, 1, 0), Err(11));
    assert_eq!(net(&mut driver, &wrong, 2, 0), Err(3));
    assert_eq!(net(&mut driver, &wrong, 1, 3), Err(2));
    assert_eq!(net(&mut driver, &wrong, 2, 3), Err(2));
    assert_eq!(words_net(&mut driver, &[0, 3, 3], 2, 3), Err(1));
    assert_eq!(net(&mut driver, &vec![[0, 3, 3, 0]; 2_049], 2, 3), Err(1));
    // Block 1 becomes its own parent.
    driver.blocks[2] = 1;
    assert_eq!(net(&mut driver, &wrong, 2, 3), Err(1));
    assert_eq!(net(&mut driver, &[], 0, 0), Err(1));
}

#[test]
fn any_memory_of_wrong_form() {
    let good = ledger(1, &[0]);
    let lengths =
        [(0, 32, 16), (2, 32, 16), (37, 32, 16), (39, 32, 16), (38, 31, 16), (38, 32, 0), (38, 32, 2), (38, 32, 15)];
    for (table, log, blocks) in lengths {
        let mut driver = ledger(1, &[0]);
        driver.table.resize(table, 0);
        driver.log.resize(log, 0);
        driver.blocks.resize(blocks, 0);
        assert_eq!(net(&mut driver, &[[1, 0, 1, 5]], 1, 1), Err(1), "{table} {log} {blocks}");
    }
    assert_eq!((good.table.len(), good.log.len(), good.blocks.len()), (38, 32, 16));
}

/// Damaged memories and lists, with each mistake: no netting goes past a slice or a number's end.
#[test]
fn any_netting_is_answered() {
    for seed in 1..=500 {
        let mut netting = netting(seed);
        let before = netting.clone();
        let answer = netting.run(Correct);
        assert_eq!(netting.run(None::<Mistake>), answer);
        for &mistake in Mistake::ALL {
            let _ = netting.run(Some(mistake));
        }
        assert!(netting == before);
    }
}

/// Blocks that accepted Decides name.
fn decided(driver: &Driver<Correct>) -> Vec<u32> {
    let decisions = driver.trace.iter().filter(|(line, outcome)| line.code == 7 && outcome.is_accepted());
    let mut blocks: Vec<u32> = decisions.map(|(_, outcome)| outcome.first).collect();
    blocks.sort();
    blocks.dedup();
    blocks
}

/// Which blocks' movements count up to this one: a movement of one pallet in each, one at a time.
fn counted(driver: &mut Driver<Correct>, block: u32) -> Vec<bool> {
    (1..driver.added()).map(|own| net(driver, &[[own, 0, 1, 1]], block, 1) == Ok(1)).collect()
}

/// "Of two blocks decided in one list of demand 3, the one with the longer line counts every movement that the other
/// counts."
#[test]
fn the_longer_line_counts_what_the_other_counts() {
    let mut pairs = 0;
    for seed in 1..=60 {
        let mut random = Random::new(seed);
        let f = random.pick(&[1, 1, 2, 3]);
        let driver = ledger_in_progress(Random::new(seed), f, &own_or_none(&mut random), 150, true);
        let mut hosts = Explorer { driver, random, noise: 8 };
        (0..150).for_each(|_| hosts.step());
        let mut driver = hosts.driver;
        let blocks = decided(&driver);
        for (place, &one) in blocks.iter().enumerate() {
            for &other in &blocks[..place] {
                pairs += compare_lines(&mut driver, one, other);
            }
        }
    }
    assert!(pairs > 500, "only {pairs} pairs of decided blocks");
}

fn compare_lines(driver: &mut Driver<Correct>, one: u32, other: u32) -> u32 {
    let (high, low) = (steps_up(driver, one), steps_up(driver, other));
    assert_ne!(high, low, "two blocks of one height");
    let (longer, shorter) = if high > low { (one, other) } else { (other, one) };
    let (more, fewer) = (counted(driver, longer), counted(driver, shorter));
    assert!(fewer.iter().zip(&more).all(|(fewer, more)| !fewer || *more));
    assert!(more.iter().filter(|counts| **counts).count() > fewer.iter().filter(|counts| **counts).count());
    1
}
