//! Document 02, #103: whose turn a view is, at prepare and at store. Codes, words, numbers and answers are literal, and
//! the turns are counted, not computed.

mod common;

use common::{given, refused};
use judge::driver::Driver;
use judge::generate::progress::ledger_in_progress;
use judge::leader::leader;
use judge::mistake::Correct;
use judge::random::Random;

const PROP: u32 = 1;
const COMMIT: u32 = 2;
const ACC: u32 = 4;

/// A ledger with block 1 on block 0 and block 2 on block 1.
fn ledger(f: u32) -> Driver<Correct> {
    let mut driver = Driver::open(Correct, f, 64, 4);
    assert_eq!(driver.accepted(1, 0, 0, &[]), Some(1));
    assert_eq!(driver.accepted(1, 0, 1, &[]), Some(2));
    driver
}

/// Puts a certificate into the log by hand; its number.
fn put(driver: &mut Driver<Correct>, kind: u32, signer: u32, view: u32, block: u32) -> u32 {
    let number = driver.table[1];
    driver.log[8 * number as usize..][..8].copy_from_slice(&[kind, signer, view, block, 0, 0, 0, 0]);
    driver.table[1] += 1;
    number
}

/// Matching commits of the first f+1 boxes.
fn put_commits(driver: &mut Driver<Correct>, view: u32, block: u32) -> Vec<u32> {
    (0..=driver.f()).map(|signer| put(driver, COMMIT, signer, view, block)).collect()
}

/// Makes a box live by hand, with this lowest view and bound.
fn stand(driver: &mut Driver<Correct>, replica: u32, low: u32, bound: u32) {
    driver.table[11 + 9 * replica as usize..][..9].copy_from_slice(&[0, 0, low, bound, 0, 0, 0, 0, 0]);
}

/// Each view from 1 on and its leader: boxes 0 to n-1 one after the other, then again.
fn turns(n: u32) -> impl Iterator<Item = (u32, u32)> {
    (1..).zip((0..n).cycle())
}

#[test]
fn the_founder_leads_view_1() {
    for n in [3, 5, 61] {
        assert_eq!(leader(0, n), None);
        assert!(turns(n).take(200).all(|(view, turn)| leader(view, n) == Some(turn)), "n = {n}");
    }
    assert_eq!([999_999, 1_000_000, 1_000_001].map(|view| leader(view, 3)), [Some(2), Some(0), Some(1)]);
    assert_eq!([999_999, 1_000_000, 1_000_001].map(|view| leader(view, 61)), [Some(25), Some(26), Some(27)]);
}

/// What a box gets that stands in the view: prepare on its own ACC, prepare on commits of the view before, store of a
/// PROP that it signed.
fn answers(f: u32, view: u32, replica: u32) -> [u32; 3] {
    let mut driver = ledger(f);
    let acc = put(&mut driver, ACC, replica, view, 0);
    let commits = put_commits(&mut driver, view - 1, 0);
    let prop = put(&mut driver, PROP, replica, view, 1);
    [(2, 1, vec![acc]), (3, 1, commits), (4, prop, vec![])].map(|(code, number, list)| {
        stand(&mut driver, replica, view, view + 1);
        driver.call(code, replica, number, &list).answer
    })
}

#[test]
fn in_every_view_one_box_alone_leads() {
    for (f, n) in [(1, 3), (2, 5), (30, 61)] {
        for (view, turn) in turns(n).take(2 * n as usize) {
            for replica in 0..n {
                let expected = if replica == turn { [0, 0, 0] } else { [5, 5, 5] };
                assert_eq!(answers(f, view, replica), expected, "box {replica} of {n} in view {view}");
            }
        }
    }
}

/// A decision in each view of a whole round and one more, each proposed on the commits of the one before.
#[test]
fn the_turn_goes_round() {
    for (f, n) in [(1, 3), (30, 61)] {
        let mut driver = Driver::open(Correct, f, 2048, 64);
        let promises: Vec<u32> = (0..=f).map(|voter| driver.accepted(5, voter, 1, &[]).unwrap()).collect();
        let acc = driver.accepted(6, 0, 0, &promises).unwrap();
        let (mut code, mut ground) = (2, vec![acc]);
        for (view, turn) in turns(n).take(n as usize + 1) {
            let block = driver.accepted(1, 0, view - 1, &[]).unwrap();
            for other in (0..n).filter(|&other| other != turn) {
                refused(&mut driver, 5, code, other, block, &ground);
            }
            let prop = driver.accepted(code, turn, block, &ground).unwrap();
            let storing = (0..n).cycle().skip(turn as usize).take(f as usize + 1);
            let commits: Vec<u32> = storing.map(|storer| driver.accepted(4, storer, prop, &[]).unwrap()).collect();
            assert_eq!(given(&mut driver, 7, turn, 0, &commits), (0, block, view));
            (code, ground) = (3, commits);
        }
    }
}

#[test]
fn accumulate_asks_for_no_leader_and_prepare_does() {
    let mut driver = ledger(1);
    assert_eq!(given(&mut driver, 5, 0, 1, &[]), (0, 0, 0));
    assert_eq!(given(&mut driver, 5, 1, 1, &[]), (0, 1, 0));
    assert_eq!(given(&mut driver, 6, 1, 0, &[0, 1]), (0, 2, 0));
    refused(&mut driver, 5, 2, 1, 1, &[2]);
    refused(&mut driver, 5, 2, 0, 1, &[2]);
    assert_eq!(given(&mut driver, 6, 0, 0, &[0, 1]), (0, 3, 0));
    assert_eq!(given(&mut driver, 2, 0, 1, &[3]), (0, 4, 0));
}

#[test]
fn view_0_has_no_leader() {
    for (f, n) in [(1, 3), (2, 5), (3, 7), (30, 61)] {
        for signer in 0..n {
            let mut driver = ledger(f);
            let prop = put(&mut driver, PROP, signer, 0, 1);
            let acc = put(&mut driver, ACC, signer, 0, 0);
            for storer in [0, signer, n - 1] {
                refused(&mut driver, 5, 4, storer, prop, &[]);
            }
            // Block 0 and a wrong parent are 6, a lowest view that is not 0 is 7.
            for block in [0, 1, 2] {
                refused(&mut driver, 5, 2, signer, block, &[acc]);
            }
            driver.table[11 + 9 * signer as usize] = 1;
            refused(&mut driver, 4, 4, signer, prop, &[]);
            refused(&mut driver, 4, 2, signer, 1, &[acc]);
        }
    }
}

#[test]
fn on_commits_of_view_0_box_0_proposes() {
    for (f, n) in [(1, 3), (30, 61)] {
        let mut driver = ledger(f);
        let commits = put_commits(&mut driver, 0, 1);
        for other in 1..n {
            refused(&mut driver, 5, 3, other, 2, &commits);
        }
        refused(&mut driver, 6, 3, 0, 0, &commits);
        refused(&mut driver, 6, 3, 0, 1, &commits);
        assert_eq!(given(&mut driver, 3, 0, 2, &commits), (0, f + 1, 0));
        assert_eq!(driver.log[8 * (f as usize + 1)..][..8], [PROP, 0, 1, 2, 0, 0, 0, 0]);
        assert_eq!(given(&mut driver, 4, n - 1, f + 1, &[]), (0, f + 2, 0));
    }
}

#[test]
fn in_the_last_view_the_leader_meets_its_bound() {
    for (f, n, turn) in [(1, 3, 0), (30, 61, 26)] {
        for replica in 0..n {
            let mut driver = ledger(f);
            let acc = put(&mut driver, ACC, replica, 1_000_000, 0);
            let prop = put(&mut driver, PROP, replica, 1_000_000, 1);
            let commits = put_commits(&mut driver, 999_999, 0);
            stand(&mut driver, replica, 1_000_000, 1_000_000);
            let answer = if replica == turn { 8 } else { 5 };
            refused(&mut driver, answer, 2, replica, 1, &[acc]);
            refused(&mut driver, answer, 3, replica, 1, &commits);
            refused(&mut driver, answer, 4, replica, prop, &[]);
        }
    }
}

/// Commits of the last view are for view 1,000,001, in which no box stands.
#[test]
fn past_the_last_view_the_leader_meets_its_lowest_view() {
    for (f, n, turn) in [(1, 3, 1), (30, 61, 27)] {
        for replica in 0..n {
            let mut driver = ledger(f);
            let commits = put_commits(&mut driver, 1_000_000, 0);
            stand(&mut driver, replica, 1_000_000, 1_000_000);
            for (block, answer) in [(0, 6), (1, 7), (2, 6)] {
                let answer = if replica == turn { answer } else { 5 };
                refused(&mut driver, answer, 3, replica, block, &commits);
            }
        }
    }
}

/// Whoever tries: in lists of calls with hostile hosts every PROP is by the leader of its view, and all boxes propose.
#[test]
fn in_lists_of_calls_leaders_alone_propose() {
    let mut proposals = [0; 3];
    for seed in 1..=16 {
        let mut driver = ledger_in_progress(Random::new(seed), 1, &[], 300, true);
        for number in driver.issued_where(|c| c.kind == PROP) {
            let prop = driver.certificate(number);
            assert_eq!(turns(3).nth(prop.view as usize - 1), Some((prop.view, prop.signer)));
            proposals[prop.signer as usize] += 1;
        }
    }
    assert!(proposals.iter().all(|&count| count > 30), "{proposals:?}");
}
