//! What the generators rest on ends whatever the calls answer; steps and blocks are sound or broken as they are meant to
//! be; any memory is answered.

use judge::call::{REBOOT, RESERVE};
use judge::driver::Driver;
use judge::field::MAX_NUMBER;
use judge::generate::blocks::{damage_blocks, put_blocks};
use judge::generate::memory::{sample, Sample};
use judge::generate::steps::{broken_fields, broken_list, large_steps, small_steps, sound_steps};
use judge::memory::{CEILING, RETIRED};
use judge::mistake::{Correct, Mistake};
use judge::panel::panel;
use judge::random::Random;
use judge::steps::{Steps, FIRST_LIMIT};

#[test]
fn raising_a_limit_ends_where_a_call_is_refused() {
    let (strict, all) = (Some(Mistake::ReserveStrict), Some(Mistake::RefuseAll));
    let below = (CEILING - 1) / FIRST_LIMIT * FIRST_LIMIT;
    for (mistake, code, limit) in [(strict, RESERVE, below), (all, RESERVE, FIRST_LIMIT), (all, REBOOT, FIRST_LIMIT)] {
        let mut driver = Driver::open(mistake, 1, 1, 1);
        driver.raise_limit(code, 0, CEILING);
        assert_eq!(driver.replica(0).view_limit, limit, "{mistake:?}");
    }
}

#[test]
fn raising_a_limit_ends_where_a_cut_retires() {
    let mut driver = Driver::open(None::<Mistake>, 1, 1, 1);
    driver.raise_limit(REBOOT, 0, CEILING);
    let limit = driver.replica(0).view_limit;
    assert!(CEILING - limit < Steps::DEFAULT.last() && driver.replica(0).status == RETIRED);
}

/// The rule in the document's own numbers.
fn are_steps(list: &[u32]) -> bool {
    list.len() == 8 && list.iter().all(|step| (1..=4096).contains(step)) && list.is_sorted()
}

#[test]
fn steps_are_sound_or_broken_as_they_are_meant_to_be() {
    for seed in 1..=2000 {
        let mut random = Random::new(seed);
        for steps in [sound_steps(&mut random), small_steps(&mut random), large_steps(&mut random)] {
            assert!(are_steps(&steps.0) && steps.are_sound(), "{steps:?}");
        }
        let (list, fields) = (broken_list(&mut random), broken_fields(&mut random));
        for broken in [&list, &fields] {
            assert!((1..=31).contains(&broken.len()) && !are_steps(broken), "{broken:?}");
        }
        assert!(fields.iter().all(|&field| field <= MAX_NUMBER));
    }
}

/// The rule in the document's own numbers.
fn are_records(words: &[u32]) -> bool {
    let height = |block: u32| words.get(2 * block as usize + 1).map(|&height| u64::from(height));
    let rule = |(block, record): (u32, &[u32])| match block {
        0 => record == [0, 0],
        _ => record[0] < block && height(record[0]).map(|below| below + 1) == Some(u64::from(record[1])),
    };
    (0..).zip(words.chunks(2)).all(rule)
}

#[test]
fn records_are_sound_until_they_are_damaged() {
    let mut broken = 0;
    for seed in 1..=2000 {
        let mut random = Random::new(seed);
        let added = random.within(1, 20);
        let mut driver = Driver::open(Correct, 1, 0, added as usize);
        let fork = random.pick(&[1, 2, 16]);
        put_blocks(&mut random, &mut driver.blocks, added, fork);
        driver.table[2] = added;
        let mut sample = Sample::left_by(driver);
        assert!(are_records(&sample.blocks), "{:?}", sample.blocks);
        if added > 1 {
            let block = random.within(1, added - 1);
            sample.set_parent(block, random.below(block));
            assert!(are_records(&sample.blocks), "{:?}", sample.blocks);
        }
        damage_blocks(&mut random, &mut sample);
        broken += u32::from(!are_records(&sample.blocks));
    }
    assert!(broken > 1600, "only {broken} of 2000 are broken");
}

/// Damaged memories and calls, with each mistake: none goes past a slice or a number's end.
#[test]
fn any_memory_is_answered() {
    for seed in 1..=500 {
        let before = sample(seed);
        let given = before.clone().run(Correct);
        assert_eq!(before.clone().run(None::<Mistake>), given);
        for &mistake in Mistake::ALL {
            let mut after = before.clone();
            let _ = panel(Some(mistake), &after.memory(), before.line.replica);
            after.run(Some(mistake));
        }
    }
}
