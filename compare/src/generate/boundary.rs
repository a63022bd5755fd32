//! Scripts at the edges: a full log, full blocks, the counter's end, boots past the last step, retired replicas, the least
//! and the greatest steps, openings again.

use super::steps::{broken_fields, large_steps, own_or_none, small_steps, sound_steps};
use crate::call::*;
use crate::driver::{Driver, Line};
use crate::explore::Explorer;
use crate::field::MAX_NUMBER;
use crate::memory::{CEILING, LIVE, MAX_F, STEP_WORDS};
use crate::mistake::Correct;
use crate::random::Random;
use crate::script::{BLOCK_SLOTS, CERTIFICATE_SLOTS};
use crate::steps::Steps;

/// With steps of its own now and then.
pub fn explorer(mut random: Random, f: u32) -> Explorer<Correct> {
    let steps = own_or_none(&mut random);
    explorer_by(random, f, &steps)
}

fn explorer_by(mut random: Random, f: u32, steps: &[u32]) -> Explorer<Correct> {
    let noise = random.pick(&[2, 4, 8]);
    let driver = Driver::open_with_steps(Correct, f, steps, CERTIFICATE_SLOTS, BLOCK_SLOTS);
    Explorer { driver, random, noise }
}

/// NEWVIEWs until the log is nearly full, a round of agreement that runs into its end, then random hosts.
pub fn full_log(mut random: Random, f: u32) -> Vec<Line> {
    // A round takes f+1 NEWVIEWs or one more, an ACC, a PROP and its COMMITs.
    let (few, any) = (random.pick(&[0, 0, 1, 2]), random.below(2 * f + 6));
    let left = random.pick(&[few, few, any, any, f + 2, f + 3]);
    let before = random.pick(&[0, 100]);
    let mut hosts = explorer(random, f);
    (0..before).for_each(|_| hosts.step());
    let view = fill_log(&mut hosts.driver, left);
    let all: Vec<u32> = (0..hosts.driver.n()).collect();
    if let Some((prop, _)) = hosts.driver.gather(view, &all).and_then(|acc| hosts.driver.propose_on(acc)) {
        hosts.driver.commit(prop, &all);
    }
    for _ in 0..60 {
        // An old view again: found where the replica still stands there.
        let replica = hosts.random.below(hosts.driver.n());
        let at = hosts.driver.replica(replica).min_view;
        hosts.driver.call(VIEW, replica, at, &[]);
        hosts.step();
    }
    hosts.driver.lines()
}

/// Views of all live replicas in turn, until so many slots are left or none of them can enter one any more; the next
/// view.
pub fn fill_log(driver: &mut Driver<Correct>, left: u32) -> u32 {
    let most = CERTIFICATE_SLOTS as u32 - left;
    let mut view = (0..driver.n()).map(|replica| driver.replica(replica).min_view).max().unwrap_or(1);
    for _ in 0..=most {
        let issued = driver.issued();
        for replica in 0..driver.n() {
            if driver.issued() < most && driver.replica(replica).status == LIVE {
                driver.enter(replica, view);
            }
        }
        view += 1;
        if driver.issued() == issued {
            break;
        }
    }
    view
}

/// Blocks until no slot is free, with hosts at work now and then.
pub fn full_blocks(random: Random, f: u32) -> Vec<Line> {
    let mut hosts = explorer(random, f);
    for _ in 0..BLOCK_SLOTS + 2 {
        let added = hosts.driver.added();
        let parent = if hosts.random.once_in(4) { hosts.random.below(added) } else { added - 1 };
        hosts.driver.call(BLOCK, 0, parent, &[]);
        if hosts.random.once_in(16) {
            hosts.step();
        }
    }
    for _ in 0..40 {
        hosts.step();
    }
    hosts.driver.lines()
}

/// So many reserves of a fresh replica let its cuts end as near to the ceiling as document 01's steps allow.
fn even_reserves() -> u32 {
    const STEPS: Steps = Steps::DEFAULT;
    let by_cuts: u32 = STEPS.0[1..].iter().sum();
    (CEILING - STEPS.first() - by_cuts) % STEPS.last() / STEPS.first()
}

/// Reserves and then cuts that bring the limit to just the ceiling; other numbers of reserves pass it by.
pub fn counter_by_cuts(mut random: Random, f: u32) -> Vec<Line> {
    let even = even_reserves();
    let reserves = random.pick(&[even, even, even, even.saturating_sub(1), even + 1]);
    let mut hosts = explorer_by(random, f, &[]);
    let replica = hosts.random.below(hosts.driver.n());
    for _ in 0..reserves {
        hosts.driver.call(RESERVE, replica, 0, &[]);
    }
    hosts.driver.raise_limit(REBOOT, replica, CEILING - Steps::DEFAULT.last());
    let last = hosts.random.pick(&[REBOOT, RESERVE]);
    hosts.driver.call(last, replica, 0, &[]);
    at_the_end(&mut hosts, replica);
    hosts.driver.lines()
}

/// Reserves alone, up to the ceiling.
pub fn counter_by_reserves(random: Random, f: u32) -> Vec<Line> {
    let mut hosts = explorer_by(random, f, &[]);
    let replica = hosts.random.below(hosts.driver.n());
    hosts.driver.raise_limit(RESERVE, replica, CEILING);
    at_the_end(&mut hosts, replica);
    hosts.driver.lines()
}

/// Steps that bring the limit to the ceiling, or near it, by a few hundred cuts or reserves.
pub fn counter_by_large_steps(mut random: Random, f: u32) -> Vec<Line> {
    let steps = large_steps(&mut random);
    let mut hosts = explorer_by(random, f, &steps.0);
    let replica = hosts.random.below(hosts.driver.n());
    for _ in 0..hosts.random.below(2 * STEP_WORDS as u32) {
        let code = hosts.random.pick(&[REBOOT, RESERVE]);
        hosts.driver.call(code, replica, 0, &[]);
    }
    let code = hosts.random.pick(&[REBOOT, RESERVE]);
    hosts.driver.raise_limit(code, replica, CEILING - steps.last());
    let last = hosts.random.pick(&[REBOOT, RESERVE]);
    hosts.driver.call(last, replica, 0, &[]);
    at_the_end(&mut hosts, replica);
    hosts.driver.lines()
}

/// Steps so small that replicas meet their limits in every view: they ask at the limit, reserve, and are cut.
pub fn limits_in_every_view(mut random: Random, f: u32) -> Vec<Line> {
    let steps = small_steps(&mut random);
    let mut hosts = explorer_by(random, f, &steps.0);
    for _ in 0..100 {
        let replica = hosts.random.below(hosts.driver.n());
        let limit = hosts.driver.replica(replica).view_limit;
        match hosts.random.below(8) {
            0..=1 => drop(hosts.driver.call(VIEW, replica, limit, &[])),
            2 => drop(hosts.driver.enter(replica, limit)),
            3 => drop(hosts.driver.call(REBOOT, replica, 0, &[])),
            4 => {
                let others: Vec<u32> = (0..hosts.driver.n()).filter(|&other| other != replica).collect();
                hosts.driver.restore(replica, &others);
            }
            _ => hosts.step(),
        }
    }
    hosts.driver.lines()
}

/// The last views, the refused reserve, the retiring cut, and what a retired replica may still do.
fn at_the_end(hosts: &mut Explorer<Correct>, replica: u32) {
    let limit = hosts.driver.replica(replica).view_limit;
    hosts.driver.call(RESERVE, replica, 0, &[]);
    if hosts.random.once_in(2) {
        let others: Vec<u32> = (0..hosts.driver.n()).filter(|&other| other != replica).collect();
        hosts.driver.restore(replica, &others);
    }
    for view in [limit - 1, limit, CEILING, CEILING + 1] {
        hosts.driver.call(VIEW, replica, view, &[]);
    }
    for code in [REQUEST, REBOOT, RESERVE, REBOOT, REQUEST] {
        hosts.driver.call(code, replica, 0, &[]);
    }
    for _ in 0..40 {
        hosts.step();
    }
}

/// Some replicas cut again and again with reserves between, so that every step of the counter is used; the pool's own
/// half the time.
pub fn many_boots(mut random: Random, f: u32) -> Vec<Line> {
    let steps = if random.once_in(2) { sound_steps(&mut random).0.to_vec() } else { Vec::new() };
    let mut hosts = explorer_by(random, f, &steps);
    for _ in 0..80 {
        let replica = hosts.random.below(2);
        let code = hosts.random.pick(&[REBOOT, REBOOT, RESERVE]);
        hosts.driver.call(code, replica, 0, &[]);
        if hosts.random.once_in(3) {
            let others: Vec<u32> = (0..hosts.driver.n()).filter(|&other| other != replica).collect();
            hosts.driver.restore(replica, &others);
        }
        hosts.step();
    }
    hosts.driver.lines()
}

/// Hosts at work in several ledgers, one opened after the other, with refused openings between and before them all.
pub fn openings(random: Random) -> Vec<Line> {
    let mut hosts = explorer(random, 1);
    for _ in 0..hosts.random.within(2, 5) {
        let f = hosts.random.within(1, MAX_F);
        let steps = if hosts.random.once_in(2) { sound_steps(&mut hosts.random).0.to_vec() } else { Vec::new() };
        hosts.driver.reopen(f, &steps);
        for _ in 0..hosts.random.within(1, 60) {
            hosts.step();
        }
        for _ in 0..hosts.random.within(1, 3) {
            refused_opening(&mut hosts, f);
            for _ in 0..hosts.random.within(1, 10) {
                hosts.step();
            }
        }
    }
    let mut lines = hosts.driver.lines();
    if hosts.random.once_in(2) {
        let early = [Line::new(OPEN, 1, 0, &broken_fields(&mut hosts.random)), Line::new(VIEW, 0, 1, &[])];
        lines.splice(0..0, early).for_each(drop);
    }
    lines
}

/// An f out of range, steps that break the rule with this f or another, or both at once; a number beside sound steps.
fn refused_opening(hosts: &mut Explorer<Correct>, f: u32) {
    let random = &mut hosts.random;
    let wrong = random.pick(&[0, MAX_F + 1, MAX_F + 2, 1000, MAX_NUMBER]);
    let other = random.within(1, MAX_F);
    let (broken, sound) = (broken_fields(random), sound_steps(random));
    match random.below(9) {
        0 => drop(hosts.driver.call(OPEN, f, 1, &sound.0)),
        1..=2 => drop(hosts.driver.reopen(wrong, &[])),
        3..=4 => drop(hosts.driver.reopen(wrong, &broken)),
        5..=6 => drop(hosts.driver.reopen(f, &broken)),
        _ => drop(hosts.driver.reopen(other, &broken)),
    }
}
