//! Attacks on lists: what the accumulator heeds, whose commits and messages count.

use super::attack::Attack;
use crate::call::*;

impl Attack {
    /// The second quorum changes the view just after the first has decided.
    pub fn plain_view_change(&mut self) -> Option<()> {
        self.first_decision(1)?;
        let mut quorum = self.second_quorum();
        quorum.reverse();
        self.second_decision(&quorum)
    }

    /// One late replica's NEWVIEW stands f+1 times in the list; the late ones and the hinge commit.
    pub fn one_promise_many_times(&mut self) -> Option<()> {
        self.first_decision(1)?;
        let quorum = self.second_quorum();
        let view = self.later_view(&self.late.clone());
        let promises = self.driver.promises(view, &self.late.clone())?;
        let list = vec![promises[0]; quorum.len()];
        let leader = self.driver.leader(view)?;
        let acc = self.driver.accepted(ACCUMULATE, leader, 0, &list)?;
        self.decide_on(acc, &quorum)
    }

    /// The hinge's NEWVIEW of before the first decision, shown again beside the late ones' new ones.
    pub fn old_promise(&mut self) -> Option<()> {
        let early_view = self.random.within(1, 3);
        let old = self.driver.enter(self.hinge, early_view)?;
        self.first_decision(early_view + 1)?;
        let quorum = self.second_quorum();
        let view = self.later_view(&self.late.clone());
        let mut list = self.driver.promises(view, &self.late.clone())?;
        list.push(old);
        let leader = self.driver.leader(view)?;
        let acc = self.driver.accepted(ACCUMULATE, leader, 0, &list)?;
        self.decide_on(acc, &quorum)
    }

    /// One early replica's commit passes for a quorum: repeated, or filled up with other kinds of that view.
    pub fn lone_commit(&mut self) -> Option<()> {
        let quorum = self.first_quorum();
        let view = self.view_led_by(&quorum, 1);
        let acc = self.driver.gather(view, &quorum)?;
        let (prop, _) = self.driver.propose_on(acc)?;
        let leader = self.driver.leader(view)?;
        let lone = *quorum.iter().find(|&&replica| replica != leader)?;
        let commit = self.driver.commit(prop, &[lone])?[0];
        let mut list = vec![commit; quorum.len()];
        if self.random.once_in(2) {
            list[0] = prop;
        }
        self.decide(&list)?;
        let others: Vec<u32> = (0..self.driver.n()).filter(|&replica| replica != lone).collect();
        self.second_decision(&others[..quorum.len()])
    }

    /// One block committed in two views by two parts of a quorum, with another block between them.
    pub fn mixed_commits(&mut self) -> Option<()> {
        let others = [self.early.clone(), self.late.clone()].concat();
        let first = self.view_led_by(&others, 1);
        let (low_prop, block) = self.proposed_at(first, &others, None)?;
        let between = self.view_led_by(&others, first + 1);
        let (other_prop, _) = self.proposed_at(between, &others, None)?;
        let above = self.view_led_by(&others, between + 1);
        let (high_prop, _) = self.proposed_at(above, &others, Some(block))?;
        let mut commits = self.driver.commit(low_prop, &[self.hinge])?;
        commits.extend(self.driver.commit(high_prop, &self.early.clone())?);
        self.decide(&commits)?;
        self.driver.commit(other_prop, &[self.hinge])?;
        let quorum = self.second_quorum();
        self.second_decision(&quorum)
    }

    /// A PROP of that view by the voters' ACC: of the given block, or of a new one.
    fn proposed_at(&mut self, view: u32, voters: &[u32], block: Option<u32>) -> Option<(u32, u32)> {
        let acc = self.driver.gather(view, voters)?;
        let Some(block) = block else { return self.driver.propose_on(acc) };
        let leader = self.driver.leader(view)?;
        let prop = self.driver.accepted(PREPARE_ACC, leader, block, &[acc])?;
        Some((prop, block))
    }

    /// The leader proposes a child of block 0 whatever its ACC names; where that is refused, a child of the child, as high
    /// as a block on what the ACC names would be.
    pub fn wrong_parent(&mut self) -> Option<()> {
        self.first_decision(1)?;
        let quorum = self.second_quorum();
        let view = self.later_view(&quorum);
        let acc = self.driver.gather(view, &quorum)?;
        let proposed = self.driver.propose(acc, 0);
        let (prop, _) = proposed.or_else(|| self.driver.propose(acc, self.driver.added() - 1))?;
        let commits = self.driver.commit(prop, &quorum)?;
        self.decide(&commits)
    }

    /// Two decisions shown to one replica in the wrong order, then a cut.
    pub fn panel_backwards(&mut self) -> Option<()> {
        let quorum = self.first_quorum();
        let mut shown = Vec::new();
        for _ in 0..2 {
            let view = self.later_view(&quorum);
            let acc = self.driver.gather(view, &quorum)?;
            let (prop, _) = self.driver.propose_on(acc)?;
            shown.push(self.driver.commit(prop, &quorum)?);
        }
        let replica = self.random.below(self.driver.n());
        self.driver.accepted(DECIDE, replica, 0, &shown[1])?;
        self.driver.accepted(DECIDE, replica, 0, &shown[0])?;
        self.driver.accepted(REBOOT, replica, 0, &[])?;
        Some(())
    }
}
