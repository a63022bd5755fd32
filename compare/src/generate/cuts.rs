//! Scripts in which a replica makes an ACC or a REPLY again after its cut: a certificate of its own for each boot, found
//! within the boot, and used afterwards.

use super::boundary::{explorer, fill_log};
use crate::call::*;
use crate::driver::Line;
use crate::explore::Explorer;
use crate::mistake::Correct;
use crate::random::Random;
use crate::steps::LAST_STEP_BOOT;

type Hosts = Explorer<Correct>;

/// One after the other in one ledger, with random hosts between; what is refused on the way ends that one. With `full` the
/// log is full before the first ACC is made again.
pub fn made_again(random: Random, f: u32, full: bool) -> Vec<Line> {
    let mut hosts = explorer(random, f);
    if full {
        acc_again(&mut hosts, true);
    }
    for _ in 0..hosts.random.within(1, 4) {
        if hosts.random.once_in(2) {
            acc_again(&mut hosts, false);
        } else {
            reply_again(&mut hosts);
        }
        for _ in 0..hosts.random.pick(&[0, 0, 4, 16]) {
            hosts.step();
        }
    }
    hosts.driver.lines()
}

/// All but these, in any order.
fn others(hosts: &mut Hosts, without: &[u32]) -> Vec<u32> {
    let mut others: Vec<u32> = (0..hosts.driver.n()).filter(|replica| !without.contains(replica)).collect();
    hosts.random.shuffle(&mut others);
    others
}

/// The view's leader makes its ACC in several boots, the view being one that it can still enter after the last cut; then it
/// proposes on one of them, and on each again, which its flag forbids.
fn acc_again(hosts: &mut Hosts, full: bool) -> Option<()> {
    let leader = hosts.random.below(hosts.driver.n());
    let others = others(hosts, &[leader]);
    if hosts.random.once_in(4) {
        // Its boots are past the last step then.
        for _ in 0..LAST_STEP_BOOT {
            hosts.driver.accepted(REBOOT, leader, 0, &[])?;
        }
        hosts.driver.restore(leader, &others)?;
    }
    let cuts = hosts.random.pick(&[1, 1, 2, 3]);
    let view = view_after(hosts, leader, cuts)?;
    let quorum = hosts.driver.f() as usize + 1;
    let promises = hosts.driver.promises(view, &others[..quorum])?;
    let mut accs = vec![accumulated(hosts, leader, &promises)?];
    for _ in 0..cuts {
        hosts.driver.accepted(REBOOT, leader, 0, &[])?;
        if hosts.random.once_in(4) {
            // Refused while it recovers.
            hosts.driver.call(ACCUMULATE, leader, 0, &promises);
        }
        hosts.driver.restore(leader, &others)?;
        if full {
            fill_log(&mut hosts.driver, 0);
        }
        accs.push(accumulated(hosts, leader, &promises)?);
    }
    hosts.driver.enter(leader, view)?;
    hosts.random.shuffle(&mut accs);
    let (prop, block) = hosts.driver.propose_on(accs[0])?;
    for &acc in &accs {
        hosts.driver.call(PREPARE_ACC, leader, block, &[acc]);
    }
    let commits = hosts.driver.commit(prop, &others[..quorum])?;
    hosts.driver.accepted(DECIDE, leader, 0, &commits).map(drop)
}

/// A view led by the replica, at or above its lowest view after so many cuts and above all others'.
fn view_after(hosts: &mut Hosts, leader: u32, cuts: u32) -> Option<u32> {
    let steps = hosts.driver.steps();
    let r = hosts.driver.replica(leader);
    let lowest = (1..cuts).fold(r.view_limit, |limit, cut| limit + steps.of_boot(r.boot + cut));
    let highest = (0..hosts.driver.n()).map(|replica| hosts.driver.replica(replica).min_view).max()?;
    let start = lowest.max(highest);
    (start..start + hosts.driver.n()).find(|&view| hosts.driver.leader(view) == Some(leader))
}

/// The ACC of the promises; it is found where they stand in another order, too.
fn accumulated(hosts: &mut Hosts, leader: u32, promises: &[u32]) -> Option<u32> {
    let mut list = promises.to_vec();
    let acc = hosts.driver.accepted(ACCUMULATE, leader, 0, &list)?;
    for _ in 0..hosts.random.below(3) {
        hosts.random.shuffle(&mut list);
        hosts.driver.call(ACCUMULATE, leader, 0, &list);
    }
    Some(acc)
}

/// A replica replies to a request, is cut, recovers and replies again. Lists with both replies are refused; the asking
/// replica recovers with one of them. With f = 1 it must do so before the other's cut, as two repliers are needed then too.
fn reply_again(hosts: &mut Hosts) -> Option<()> {
    let f = hosts.driver.f() as usize;
    let mut others = others(hosts, &[]);
    let (asking, replier) = (others.pop()?, others.pop()?);
    hosts.driver.accepted(REBOOT, asking, 0, &[])?;
    let req = hosts.driver.accepted(REQUEST, asking, 0, &[])?;
    let mut own = vec![replied(hosts, replier, req)?];
    let rest = hosts.driver.replies(req, &others[..f])?;
    let mut repliers = others.clone();
    if f == 1 {
        hosts.driver.accepted(RECOVER, asking, 0, &[own[0], rest[0]])?;
        repliers.push(asking);
    }
    for _ in 0..hosts.random.pick(&[1, 1, 2]) {
        hosts.driver.accepted(REBOOT, replier, 0, &[])?;
        if hosts.random.once_in(4) {
            // Refused while it recovers.
            hosts.driver.call(REPLY_TO, replier, req, &[]);
        }
        hosts.driver.restore(replier, &repliers)?;
        own.push(replied(hosts, replier, req)?);
    }
    let both = [&own[own.len() - 2..], &rest[1..]].concat();
    recover_with(hosts, asking, both);
    let one = [&[hosts.random.pick(&own)], &rest[..]].concat();
    recover_with(hosts, asking, one);
    Some(())
}

/// The REPLY, which is found if it is asked for again.
fn replied(hosts: &mut Hosts, replier: u32, req: u32) -> Option<u32> {
    let reply = hosts.driver.replies(req, &[replier])?[0];
    for _ in 0..hosts.random.below(3) {
        hosts.driver.call(REPLY_TO, replier, req, &[]);
    }
    Some(reply)
}

fn recover_with(hosts: &mut Hosts, asking: u32, mut list: Vec<u32>) {
    hosts.random.shuffle(&mut list);
    hosts.driver.call(RECOVER, asking, 0, &list);
}
