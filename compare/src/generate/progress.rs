//! Scripts of progress: decisions on view changes and on commits, cuts and recoveries, for any f.

use crate::call::*;
use crate::driver::{Driver, Line};
use crate::explore::Explorer;
use crate::memory::Replica;
use crate::mistake::Correct;
use crate::random::Random;
use crate::script::{BLOCK_SLOTS, CERTIFICATE_SLOTS};

struct Progress {
    hosts: Explorer<Correct>,
    view: u32,
    /// A replica that takes no part until its next cut, so that it falls behind the others.
    asleep: Option<u32>,
    /// COMMITs of the last decision, while the next view's leader may still go by them.
    commits: Vec<u32>,
}

/// The lines of a ledger in progress.
pub fn progress(random: Random, f: u32, steps: &[u32], lines: usize, hostile: bool) -> Vec<Line> {
    let mut trace = ledger_in_progress(random, f, steps, lines, hostile).lines();
    trace.truncate(lines);
    trace
}

/// A ledger, opened with these steps or none, that decides until the lines are used up or the log is full, and goes on a
/// little then. With `hostile`, random hosts cut in after each round.
pub fn ledger_in_progress(mut random: Random, f: u32, steps: &[u32], lines: usize, hostile: bool) -> Driver<Correct> {
    let driver = Driver::open_with_steps(Correct, f, steps, CERTIFICATE_SLOTS, BLOCK_SLOTS);
    let view = random.within(0, 3);
    let hosts = Explorer { driver, random, noise: 8 };
    let mut progress = Progress { hosts, view, asleep: None, commits: Vec::new() };
    let mut refused = 0;
    // Each round makes a call, but for one that only lets its commits go.
    for _ in 0..2 * lines {
        if progress.hosts.driver.trace.len() >= lines || refused == 8 {
            break;
        }
        let done = match progress.hosts.random.below(8) {
            0 => progress.cut(),
            1..=4 if !progress.commits.is_empty() => progress.chain(),
            _ => progress.change_view(),
        };
        let full = progress.hosts.driver.issued() == CERTIFICATE_SLOTS as u32;
        refused += u32::from(done.is_none() && (full || !hostile));
        if hostile {
            progress.disturb();
        }
    }
    progress.hosts.driver
}

impl Progress {
    fn some_replicas(&mut self, count: usize, without: Option<u32>) -> Vec<u32> {
        let mut replicas: Vec<u32> = (0..self.hosts.driver.n()).filter(|&replica| Some(replica) != without).collect();
        self.hosts.random.shuffle(&mut replicas);
        replicas.truncate(count);
        replicas
    }

    fn change_view(&mut self) -> Option<()> {
        let limit = self.hosts.driver.steps().first();
        let jump = self.hosts.random.pick(&[1, 1, 1, 1, 1, 1, limit + 6, limit + 6, 6 * limit]);
        self.view += 1 + self.hosts.random.below(jump);
        let quorum = self.hosts.driver.f() as usize + 1;
        let voters = self.some_replicas(quorum, self.asleep);
        let acc = self.hosts.driver.gather(self.view, &voters)?;
        let (prop, _) = self.hosts.driver.propose_on(acc)?;
        self.settle(prop)
    }

    /// The next view's leader goes by the commits, without any NEWVIEW.
    fn chain(&mut self) -> Option<()> {
        let parent = self.hosts.driver.certificate(self.commits[0]).block;
        let leader = self.hosts.driver.leader(self.view + 1)?;
        let commits = std::mem::take(&mut self.commits);
        if self.hosts.driver.replica(leader).min_view != self.view + 1 {
            return Some(());
        }
        self.view += 1;
        let block = self.hosts.driver.accepted(BLOCK, 0, parent, &[])?;
        if self.hosts.driver.replica(leader).view_limit <= self.view {
            // Refused at its limit; it reserves then.
            self.hosts.driver.call(PREPARE_COMMITS, leader, block, &commits);
            self.hosts.driver.reserve_past(leader, self.view)?;
        }
        let prop = self.hosts.driver.accepted(PREPARE_COMMITS, leader, block, &commits)?;
        self.settle(prop)
    }

    /// A few calls of random hosts; the next round starts above wherever they have gone.
    fn disturb(&mut self) {
        for _ in 0..self.hosts.random.below(6) {
            self.hosts.step();
        }
        let replicas = 0..self.hosts.driver.n();
        let highest = replicas.map(|replica| self.hosts.driver.replica(replica).min_view).max().unwrap_or(0);
        if self.hosts.random.once_in(2) {
            self.view = self.view.max(highest);
        }
    }

    /// f+1 or more replicas store, some decide.
    fn settle(&mut self, prop: u32) -> Option<()> {
        let (quorum, n) = (self.hosts.driver.f() as usize + 1, self.hosts.driver.n());
        let count = self.hosts.random.within(quorum as u32, n) as usize;
        let mut storing = self.some_replicas(count, self.asleep);
        let next = self.hosts.driver.leader(self.view + 1)?;
        if !storing.contains(&next) && Some(next) != self.asleep {
            storing[0] = next;
        }
        let at_limit = |r: Replica| r.view_limit <= self.view;
        if let Some(&early) = storing.iter().find(|&&replica| at_limit(self.hosts.driver.replica(replica))) {
            // Refused at its limit; it reserves then.
            self.hosts.driver.call(STORE, early, prop, &[]);
        }
        self.commits = self.hosts.driver.commit(prop, &storing)?;
        self.hosts.random.shuffle(&mut self.commits);
        self.commits.truncate(quorum);
        let deciding = self.hosts.random.within(1, 3) as usize;
        for replica in self.some_replicas(deciding, None) {
            self.hosts.driver.accepted(DECIDE, replica, 0, &self.commits)?;
        }
        Some(())
    }

    /// A power cut, sometimes several, and a recovery; sometimes of the one asleep. Another may fall asleep then.
    fn cut(&mut self) -> Option<()> {
        let any = self.hosts.random.below(self.hosts.driver.n());
        let replica = self.asleep.unwrap_or(any);
        for _ in 0..self.hosts.random.pick(&[1, 1, 1, 2, 5]) {
            self.hosts.driver.accepted(REBOOT, replica, 0, &[])?;
        }
        let repliers = self.some_replicas(self.hosts.driver.f() as usize + 1, Some(replica));
        self.recover(replica, &repliers)?;
        self.view = self.view.max(self.hosts.driver.replica(replica).min_view);
        self.commits.clear();
        let next = self.hosts.random.below(self.hosts.driver.n());
        self.asleep = self.hosts.random.once_in(2).then_some(next);
        Some(())
    }

    /// Recovers at once where the limit allows it, or else after reserves.
    fn recover(&mut self, replica: u32, repliers: &[u32]) -> Option<()> {
        let req = self.hosts.driver.accepted(REQUEST, replica, 0, &[])?;
        let replies = self.hosts.driver.replies(req, repliers)?;
        if self.hosts.driver.accepted(RECOVER, replica, 0, &replies).is_none() {
            for &reply in &replies {
                let of_view = self.hosts.driver.certificate(reply).of_view;
                self.hosts.driver.reserve_past(replica, of_view)?;
            }
            self.hosts.driver.accepted(RECOVER, replica, 0, &replies)?;
        }
        Some(())
    }
}
