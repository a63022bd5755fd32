//! Pasts that leave much undone, for a way on (document 02, #109), and scripts that end in one.

use super::boundary::{explorer, fill_log};
use super::progress::ledger_in_progress;
use super::scripts::hostile_ledger;
use super::steps::own_or_none;
use crate::call::*;
use crate::driver::{script_text, Driver, Line};
use crate::explore::Explorer;
use crate::leader::leader;
use crate::memory::{Memory, LIVE, MAX_F};
use crate::mistake::Correct;
use crate::random::Random;
use crate::way_choice::{choose, least_way, WhyNot};
use crate::way_on::{bars, decision_slots, numbered_calls, Lacking, Way};

type Hosts = Explorer<Correct>;

/// A past, and the room that is left after it beyond what a decision needs.
pub struct Past {
    pub driver: Driver<Correct>,
    pub spare: u32,
}

impl Past {
    pub fn text(&self) -> Vec<u8> {
        script_text(&self.driver.lines())
    }
}

/// Small f mostly, so that pasts are short.
pub fn past(seed: u64) -> Past {
    let mut random = Random::new(seed);
    let part = Random::new(random.bits());
    let any = random.within(1, MAX_F);
    let f = random.pick(&[1, 1, 1, 1, 2, 2, 2, 3, 3, any]);
    let driver = match random.below(8) {
        0..=1 => hostile_ledger(part, f),
        2 => {
            let (steps, lines) = (own_or_none(&mut random), random.within(20, 200) as usize);
            ledger_in_progress(part, f, &steps, lines, true)
        }
        _ => wedged(part, f).driver,
    };
    Past { driver, spare: random.pick(&[0, 0, 1, 8]) }
}

/// Rounds that nobody ends: views entered and left, proposals that fewer than f+1 store, cuts of which some are never
/// recovered from, and random hosts between.
pub fn wedged(random: Random, f: u32) -> Hosts {
    let mut hosts = explorer(random, f);
    for _ in 0..hosts.random.within(1, 6) {
        match hosts.random.below(4) {
            0 => cut(&mut hosts).unwrap_or(()),
            1 => leave_views(&mut hosts),
            _ => propose_in_vain(&mut hosts).unwrap_or(()),
        }
        for _ in 0..hosts.random.pick(&[0, 0, 0, 3, 12]) {
            hosts.step();
        }
    }
    hosts
}

fn live(hosts: &mut Hosts) -> Vec<u32> {
    let n = hosts.driver.n();
    let mut live: Vec<u32> = (0..n).filter(|&replica| hosts.driver.replica(replica).status == LIVE).collect();
    hosts.random.shuffle(&mut live);
    live
}

/// A view above every live replica's lowest view.
fn next_view(hosts: &mut Hosts, live: &[u32]) -> u32 {
    let highest = live.iter().map(|&replica| hosts.driver.replica(replica).min_view).max().unwrap_or(1);
    highest + hosts.random.within(1, 3)
}

fn leave_views(hosts: &mut Hosts) {
    let live = live(hosts);
    let count = hosts.random.below(live.len() as u32 + 1) as usize;
    for &replica in &live[..count] {
        let view = hosts.driver.replica(replica).min_view + hosts.random.below(4);
        hosts.driver.enter(replica, view);
    }
}

/// The leader's flag is raised; it may propose in a later view again, and its flag is raised there.
fn propose_in_vain(hosts: &mut Hosts) -> Option<()> {
    let live = live(hosts);
    let f = hosts.driver.f() as usize;
    if live.len() <= f {
        return None;
    }
    let from = next_view(hosts, &live);
    let view =
        (from..from + hosts.driver.n()).find(|&view| hosts.driver.leader(view).is_some_and(|l| live.contains(&l)))?;
    let acc = hosts.driver.gather(view, &live)?;
    let (prop, _) = hosts.driver.propose_on(acc)?;
    let storing = hosts.random.pick(&[0, 1, f as u32]) as usize;
    hosts.driver.commit(prop, &live[..storing.min(f)]).map(drop)
}

/// Of one replica, which comes back half the time.
fn cut(hosts: &mut Hosts) -> Option<()> {
    let live = live(hosts);
    let (&replica, others) = live.split_first()?;
    if others.len() <= hosts.driver.f() as usize {
        return None;
    }
    hosts.driver.accepted(REBOOT, replica, 0, &[])?;
    if hosts.random.once_in(2) {
        hosts.driver.restore(replica, others)?;
    }
    Some(())
}

/// Reserves, where these are all that a way needs.
fn reserve_for_way(driver: &mut Driver<Correct>) {
    if let Err(WhyNot::Views { reserves: Some(reserves), .. }) = choose(&driver.memory()) {
        for (replica, times) in reserves.of {
            for _ in 0..times {
                driver.call(RESERVE, replica, 0, &[]);
            }
        }
    }
}

/// Another choice that meets the premises as the least one does, if there is one: mostly a later view, and of those that can
/// enter it any, in any order.
pub fn any_way(random: &mut Random, m: &Memory, least: &Way) -> Way {
    let (n, turns) = (m.replicas(), random.below(20));
    let later = least.view + random.pick(&[0, 1, n, n * turns]);
    let way = Way { replicas: any_entering(random, m, later), view: later };
    match way.lacks(m) {
        None | Some(Lacking::Slots | Lacking::BlockSlot) => way,
        _ => Way { replicas: any_entering(random, m, least.view), view: least.view },
    }
}

/// The view's leader and f others, where so many can enter it.
fn any_entering(random: &mut Random, m: &Memory, view: u32) -> Vec<u32> {
    let mut replicas: Vec<u32> = (0..m.replicas()).filter(|&replica| bars(m, view, replica).is_none()).collect();
    random.shuffle(&mut replicas);
    replicas.sort_by_key(|&replica| Some(replica) != leader(view, m.replicas()));
    replicas.truncate(m.f() as usize + 1);
    random.shuffle(&mut replicas);
    replicas
}

/// A past, and the calls of a way on; then random hosts. With `full` the log has just the room for it, or one slot less: then
/// the last store is refused, and so is the decide.
pub fn ends_in_way(random: Random, f: u32, full: bool) -> Vec<Line> {
    let mut hosts = wedged(random, f);
    if full {
        let less = hosts.random.below(2);
        fill_log(&mut hosts.driver, decision_slots(f) - less);
    }
    for replica in live(&mut hosts) {
        let view = hosts.driver.replica(replica).min_view + hosts.random.pick(&[0, 1, f]);
        hosts.driver.reserve_past(replica, view);
    }
    reserve_for_way(&mut hosts.driver);
    if let Some(least) = least_way(&hosts.driver.memory()) {
        let way =
            if hosts.random.once_in(2) { least } else { any_way(&mut hosts.random, &hosts.driver.memory(), &least) };
        for line in numbered_calls(&hosts.driver.memory(), &way) {
            hosts.driver.call(line.code, line.replica, line.number, &line.list);
        }
    }
    for _ in 0..hosts.random.pick(&[0, 0, 10]) {
        hosts.step();
    }
    hosts.driver.lines()
}
