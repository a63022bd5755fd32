//! Random hosts: plausible calls in any order on any certificates, old ones too, with cuts between any two.

use crate::call::*;
use crate::certificate::*;
use crate::driver::Driver;
use crate::field::MAX_NUMBER;
use crate::generate::steps::broken_fields;
use crate::memory::{CEILING, MAX_F, RECOVERING};
use crate::mistake::Rules;
use crate::random::Random;
use crate::refusal::COUNTER_LIMIT;
use crate::steps::{FIRST_LIMIT, MAX_STEP};

/// Numbers around a fresh replica's limit by document 01's steps, the next one, the greatest that steps allow, the
/// ceiling and the last that a field holds.
const EDGES: &[u32] = &[
    0,
    1,
    FIRST_LIMIT - 1,
    FIRST_LIMIT,
    FIRST_LIMIT + 1,
    2 * FIRST_LIMIT - 1,
    2 * FIRST_LIMIT,
    MAX_STEP - 1,
    MAX_STEP,
    CEILING,
    CEILING + 1,
    MAX_NUMBER,
];

pub struct Explorer<R: Rules> {
    pub driver: Driver<R>,
    pub random: Random,
    /// One call in so many has numbers at random; 0 for none.
    pub noise: u32,
}

impl<R: Rules> Explorer<R> {
    pub fn step(&mut self) {
        if self.noise > 0 && self.random.once_in(self.noise) {
            return self.any_call();
        }
        match self.random.below(32) {
            0..=6 => self.view(),
            7..=9 => self.accumulate(),
            10..=13 => self.propose(),
            14 => self.propose_on_commits(),
            15..=20 => self.store(),
            21..=23 => self.decide(),
            24 => self.plain(REBOOT),
            25..=26 => self.request(),
            27..=28 => self.reply(),
            29..=30 => self.recover(),
            _ => self.plain(RESERVE),
        }
    }

    fn any_replica(&mut self) -> u32 {
        let n = self.driver.n();
        self.random.below(n)
    }

    /// The view's leader, or now and then any replica.
    fn mostly_leader(&mut self, view: u32) -> u32 {
        match self.driver.leader(view) {
            Some(leader) if !self.random.once_in(8) => leader,
            _ => self.any_replica(),
        }
    }

    fn plain(&mut self, code: u32) {
        let replica = self.any_replica();
        self.driver.call(code, replica, 0, &[]);
    }

    fn view(&mut self) {
        let replica = self.any_replica();
        let r = self.driver.replica(replica);
        let w = match self.random.below(8) {
            0 => r.view_limit.saturating_sub(1),
            1 => r.view_limit,
            2 => r.min_view.saturating_sub(1),
            3 => r.min_view,
            _ => r.min_view + self.random.below(3),
        };
        let outcome = self.driver.call(VIEW, replica, w, &[]);
        // Refused at its limit, it may reserve.
        if outcome.answer == COUNTER_LIMIT && self.random.once_in(4) {
            self.driver.call(RESERVE, replica, 0, &[]);
        }
    }

    /// One of the numbers, late ones sooner; none if there are none.
    fn late(&mut self, numbers: &[u32]) -> Option<u32> {
        let count = numbers.len() as u32;
        let back = if self.random.once_in(3) { self.random.below(count) } else { self.random.below(count.min(4)) };
        numbers.iter().rev().nth(back as usize).copied()
    }

    /// f+1 of the numbers, mostly of different signers; too few are filled up with any.
    fn list_of(&mut self, numbers: &[u32]) -> Vec<u32> {
        let quorum = self.driver.f() as usize + 1;
        let mut pool = numbers.to_vec();
        self.random.shuffle(&mut pool);
        let mut list: Vec<u32> = Vec::new();
        for number in pool {
            let signer = self.driver.certificate(number).signer;
            let twice = list.iter().any(|&earlier| self.driver.certificate(earlier).signer == signer);
            if list.len() < quorum && (!twice || self.random.once_in(16)) {
                list.push(number);
            }
        }
        while !numbers.is_empty() && list.len() < quorum {
            list.push(self.random.pick(numbers));
        }
        list
    }

    fn accumulate(&mut self) {
        let promises = self.driver.issued_where(|c| c.kind == NEWVIEW);
        let Some(one) = self.late(&promises) else { return };
        let view = self.driver.certificate(one).view;
        let same = if self.random.once_in(16) {
            promises
        } else {
            self.driver.issued_where(|c| c.kind == NEWVIEW && c.view == view)
        };
        let list = self.list_of(&same);
        let leader = self.mostly_leader(view);
        self.driver.call(ACCUMULATE, leader, 0, &list);
    }

    /// A block whose parent is the given one, mostly; a new one half the time.
    fn child_of(&mut self, parent: u32) -> u32 {
        let added = self.driver.added();
        let children: Vec<u32> = (1..added).filter(|&b| self.driver.parent(b) == parent).collect();
        if self.random.once_in(16) {
            return self.random.below(added);
        }
        if children.is_empty() || self.random.once_in(2) {
            return self.driver.accepted(BLOCK, 0, parent, &[]).unwrap_or(0);
        }
        self.random.pick(&children)
    }

    fn propose(&mut self) {
        let accs = self.driver.issued_where(|c| c.kind == ACC);
        let Some(number) = self.late(&accs) else { return };
        let acc = self.driver.certificate(number);
        let block = self.child_of(acc.block);
        let leader = match self.random.below(8) {
            0 => self.any_replica(),
            1 => self.driver.leader(acc.view).unwrap_or(acc.signer),
            _ => acc.signer,
        };
        self.driver.call(PREPARE_ACC, leader, block, &[number]);
    }

    /// Matching commits of one that is picked: its certificate and a list.
    fn commits(&mut self) -> Option<(Certificate, Vec<u32>)> {
        let commits = self.driver.issued_where(|c| c.kind == COMMIT);
        let number = self.late(&commits)?;
        let one = self.driver.certificate(number);
        let (any_view, any_block) = (self.random.once_in(12), self.random.once_in(24));
        let same = self.driver.issued_where(|c| {
            c.kind == COMMIT && (any_view || c.view == one.view) && (any_block || c.block == one.block)
        });
        Some((one, self.list_of(&same)))
    }

    fn propose_on_commits(&mut self) {
        let Some((one, list)) = self.commits() else { return };
        let block = self.child_of(one.block);
        let leader = self.mostly_leader(one.view + 1);
        self.driver.call(PREPARE_COMMITS, leader, block, &list);
    }

    fn decide(&mut self) {
        let Some((_, list)) = self.commits() else { return };
        let replica = self.any_replica();
        self.driver.call(DECIDE, replica, 0, &list);
    }

    fn store(&mut self) {
        let props = self.driver.issued_where(|c| c.kind == PROP);
        let Some(number) = self.late(&props) else { return };
        let replica = self.any_replica();
        self.driver.call(STORE, replica, number, &[]);
    }

    /// A recovering replica, if there is one, or else any.
    fn recovering(&mut self) -> u32 {
        let n = self.driver.n();
        let waiting: Vec<u32> = (0..n).filter(|&r| self.driver.replica(r).status == RECOVERING).collect();
        if waiting.is_empty() {
            self.any_replica()
        } else {
            self.random.pick(&waiting)
        }
    }

    fn request(&mut self) {
        let replica = self.recovering();
        self.driver.call(REQUEST, replica, 0, &[]);
    }

    fn reply(&mut self) {
        let requests = self.driver.issued_where(|c| c.kind == REQ);
        let Some(number) = self.late(&requests) else { return };
        let replica = self.any_replica();
        self.driver.call(REPLY_TO, replica, number, &[]);
    }

    fn recover(&mut self) {
        let replica = self.recovering();
        let boot = self.driver.replica(replica).boot;
        let (old, other) = (self.random.once_in(6), self.random.once_in(12));
        let replies = self
            .driver
            .issued_where(|c| c.kind == REPLY && (other || c.subject == replica) && (old || c.subject_boot == boot));
        let list = self.list_of(&replies);
        self.driver.call(RECOVER, replica, 0, &list);
    }

    /// With steps that break the rule, and this ledger's f or any.
    fn refused_opening(&mut self) -> Outcome {
        let any = self.random.below(MAX_F + 2);
        let f = self.random.pick(&[self.driver.f(), any]);
        let list = broken_fields(&mut self.random);
        self.driver.call(OPEN, f, 0, &list)
    }

    /// Numbers at random: mostly refused, and never the same way twice.
    fn any_call(&mut self) {
        let (f, n) = (self.driver.f(), self.driver.n());
        let code = self.random.within(OPEN, LAST_CODE);
        let replica = self.random.below(n + 1);
        let number = match self.random.below(4) {
            0 => self.random.below(self.driver.issued() + 2),
            1 => self.random.below(self.driver.added() + 2),
            2 => self.random.pick(EDGES),
            _ => self.random.below(8),
        };
        let length = if self.random.once_in(4) { self.random.below(MAX_LIST as u32 + 1) } else { f + 1 };
        let issued = self.driver.issued() + 1;
        let list: Vec<u32> = (0..length).map(|_| self.random.below(issued)).collect();
        match code {
            OPEN => self.refused_opening(),
            BLOCK => self.driver.call(code, 0, number, &[]),
            PREPARE_ACC => self.driver.call(code, replica, number, &list[..list.len().min(1)]),
            PREPARE_COMMITS => self.driver.call(code, replica, number, &list),
            ACCUMULATE | DECIDE | RECOVER => self.driver.call(code, replica, 0, &list),
            REBOOT | RESERVE | REQUEST => self.driver.call(code, replica, 0, &[]),
            _ => self.driver.call(code, replica, number, &[]),
        };
    }
}
