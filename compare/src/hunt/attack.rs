//! Roles and the steps that several attacks share.
//!
//! Of n = 2f+1 replicas, f are `early`, one is the `hinge`, f are `late`. Early and hinge are the first quorum,
//! late and hinge the second: they meet in the hinge alone, so a conflict needs the hinge to forget or to be passed by.

use crate::call::DECIDE;
use crate::driver::Driver;
use crate::generate::steps::own_or_none;
use crate::memory::replica_count;
use crate::mistake::Mistake;
use crate::random::Random;

pub const SLOTS: (usize, usize) = (512, 64);

pub struct Attack {
    pub driver: Driver<Option<Mistake>>,
    pub random: Random,
    pub early: Vec<u32>,
    pub hinge: u32,
    pub late: Vec<u32>,
}

impl Attack {
    pub fn new(mistake: Option<Mistake>, mut random: Random) -> Attack {
        let f = random.pick(&[1, 1, 1, 2, 2, 3, 5]);
        let mut roles: Vec<u32> = (0..replica_count(f)).collect();
        random.shuffle(&mut roles);
        let late = roles.split_off(f as usize + 1);
        let hinge = roles.pop().unwrap_or(0);
        let driver = Driver::open_with_steps(mistake, f, &own_or_none(&mut random), SLOTS.0, SLOTS.1);
        Attack { driver, random, early: roles, hinge, late }
    }

    pub fn first_quorum(&mut self) -> Vec<u32> {
        let mut quorum = self.early.clone();
        quorum.push(self.hinge);
        self.random.shuffle(&mut quorum);
        quorum
    }

    /// The late ones first, in any order, the hinge last.
    pub fn second_quorum(&mut self) -> Vec<u32> {
        let mut quorum = self.late.clone();
        self.random.shuffle(&mut quorum);
        quorum.push(self.hinge);
        quorum
    }

    /// Repliers to the hinge: the late ones, then one early one.
    pub fn repliers(&mut self) -> Vec<u32> {
        let mut repliers = self.late.clone();
        self.random.shuffle(&mut repliers);
        repliers.push(self.random.pick(&self.early));
        repliers
    }

    /// A fresh replica's limit in this ledger.
    pub fn first_limit(&mut self) -> u32 {
        self.driver.steps().first()
    }

    /// A view of at least `from` whose leader is one of these.
    pub fn view_led_by(&mut self, leaders: &[u32], from: u32) -> u32 {
        let n = self.driver.n();
        let leader = self.random.pick(leaders);
        let start = from + self.random.below(3);
        (start..start + n).find(|&view| self.driver.leader(view) == Some(leader)).unwrap_or(start)
    }

    /// A view above every replica's min_view, led by one of these.
    pub fn later_view(&mut self, leaders: &[u32]) -> u32 {
        let n = self.driver.n();
        let highest = (0..n).map(|replica| self.driver.replica(replica).min_view).max().unwrap_or(0);
        self.view_led_by(leaders, highest + 1)
    }

    pub fn decide(&mut self, commits: &[u32]) -> Option<()> {
        let n = self.driver.n();
        let replica = self.random.below(n);
        let mut list = commits.to_vec();
        self.random.shuffle(&mut list);
        self.driver.accepted(DECIDE, replica, 0, &list)?;
        Some(())
    }

    /// The first quorum alone decides a block of a view from `from` on.
    pub fn first_decision(&mut self, from: u32) -> Option<()> {
        let quorum = self.first_quorum();
        let view = self.view_led_by(&quorum, from);
        let acc = self.driver.gather(view, &quorum)?;
        let (prop, _) = self.driver.propose_on(acc)?;
        let commits = self.driver.commit(prop, &quorum)?;
        self.decide(&commits)
    }

    /// The voters (the first f+1 of them) change the view and decide a block on what they remember.
    pub fn second_decision(&mut self, voters: &[u32]) -> Option<()> {
        let view = self.later_view(voters);
        let acc = self.driver.gather(view, voters)?;
        self.decide_on(acc, voters)
    }

    pub fn decide_on(&mut self, acc: u32, voters: &[u32]) -> Option<()> {
        let (prop, _) = self.driver.propose_on(acc)?;
        let commits = self.driver.commit(prop, voters)?;
        self.decide(&commits)
    }
}
