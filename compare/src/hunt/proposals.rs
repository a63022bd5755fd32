//! Attacks with two proposals in one view: the first quorum decides one, the late ones store the other, and the next
//! view's accumulator meets two blocks of one of-view.

use super::attack::Attack;
use crate::call::*;

impl Attack {
    /// The first quorum decides the one block, the late ones store the other.
    fn decide_and_store(&mut self, one: u32, other: u32) -> Option<()> {
        let first = self.first_quorum();
        let commits = self.driver.commit(one, &first)?;
        self.driver.commit(other, &self.late.clone())?;
        self.decide(&commits)
    }

    /// Then the late ones speak first in the next view.
    fn split(&mut self, one: u32, other: u32) -> Option<()> {
        self.decide_and_store(one, other)?;
        let quorum = self.second_quorum();
        self.second_decision(&quorum)
    }

    /// The leader proposes again at once, or after asking for its view again, or after a reply to an old request.
    pub fn proposes_twice(&mut self) -> Option<()> {
        let voters = self.first_quorum();
        let asking = self.random.pick(&self.late);
        self.driver.accepted(REBOOT, asking, 0, &[])?;
        let req = self.driver.accepted(REQUEST, asking, 0, &[])?;
        self.driver.restore(asking, &voters)?;
        let limit = self.first_limit();
        let view = self.view_led_by(&voters, limit);
        let acc = self.driver.gather(view, &voters)?;
        let (one, _) = self.driver.propose_on(acc)?;
        let leader = self.driver.leader(view)?;
        match self.random.below(3) {
            0 => self.driver.accepted(VIEW, leader, view, &[])?,
            1 => self.driver.accepted(REPLY_TO, leader, req, &[])?,
            _ => 0,
        };
        let (other, _) = self.driver.propose_on(acc)?;
        self.split(one, other)
    }

    /// The leader proposes, is cut, recovers and proposes again on its old ACC.
    pub fn proposes_across_a_cut(&mut self) -> Option<()> {
        let voters = self.first_quorum();
        let view = self.view_led_by(&voters, 1);
        let acc = self.driver.gather(view, &voters)?;
        let (one, _) = self.driver.propose_on(acc)?;
        let leader = self.driver.leader(view)?;
        self.driver.accepted(REBOOT, leader, 0, &[])?;
        let others: Vec<u32> = (0..self.driver.n()).filter(|&replica| replica != leader).collect();
        self.driver.restore(leader, &others)?;
        let (other, _) = self.driver.propose_on(acc)?;
        self.split(one, other)
    }

    /// The same at the leader's very limit, to which a reply has raised its min_view.
    pub fn proposes_at_the_limit(&mut self) -> Option<()> {
        let n = self.driver.n();
        let view = self.first_limit() * self.random.within(1, 6);
        let leader = self.driver.leader(view)?;
        let others: Vec<u32> = (0..n).filter(|&replica| replica != leader).collect();
        let asking = self.random.pick(&others);
        self.driver.reserve_past(asking, view - 1)?;
        self.driver.reserve_past(leader, view - 1)?;
        self.driver.accepted(REBOOT, asking, 0, &[])?;
        let repliers: Vec<u32> = (0..n).filter(|&replica| replica != asking && replica != leader).collect();
        let repliers = [vec![leader], repliers].concat();
        self.driver.restore(asking, &repliers)?;
        let promises = self.driver.promises(view, &others[..self.late.len() + 1])?;
        let acc = self.driver.accepted(ACCUMULATE, leader, 0, &promises)?;
        let (one, _) = self.driver.propose_on(acc)?;
        self.driver.accepted(REBOOT, leader, 0, &[])?;
        self.driver.restore(leader, &others)?;
        let (other, _) = self.driver.propose_on(acc)?;
        self.split(one, other)
    }

    /// Two replicas propose in one view, each on its own ACC.
    pub fn two_leaders(&mut self) -> Option<()> {
        let voters = self.first_quorum();
        let view = self.view_led_by(&voters, 1);
        let promises = self.driver.promises(view, &voters)?;
        let mut props = Vec::new();
        for &leader in &voters[..2] {
            let acc = self.driver.accepted(ACCUMULATE, leader, 0, &promises)?;
            props.push(self.driver.propose_on(acc)?.0);
        }
        self.split(props[0], props[1])
    }

    /// The leader proposes for a view it has not entered, enters it and proposes again.
    pub fn proposes_before_entering(&mut self) -> Option<()> {
        let others: Vec<u32> = [self.early.clone(), self.late.clone()].concat();
        let view = self.view_led_by(&[self.hinge], 2);
        let promises = self.driver.promises(view, &others[..self.early.len() + 1])?;
        let acc = self.driver.accepted(ACCUMULATE, self.hinge, 0, &promises)?;
        let (one, _) = self.driver.propose_on(acc)?;
        self.driver.enter(self.hinge, view)?;
        let (other, _) = self.driver.propose_on(acc)?;
        self.split(one, other)
    }

    /// The same by leaders that never enter their views: the first enters one below its own before it proposes again, and the
    /// second proposes on what the late ones have stored.
    pub fn proposes_without_entering(&mut self) -> Option<()> {
        let others: Vec<u32> = [self.early.clone(), self.late.clone()].concat();
        let view = self.view_led_by(&[self.hinge], 3);
        let promises = self.driver.promises(view, &others[..self.early.len() + 1])?;
        let acc = self.driver.accepted(ACCUMULATE, self.hinge, 0, &promises)?;
        let (one, _) = self.driver.propose_on(acc)?;
        self.driver.enter(self.hinge, view - 1)?;
        let (other, _) = self.driver.propose_on(acc)?;
        self.decide_and_store(one, other)?;
        let quorum = self.second_quorum();
        let later = self.later_view(&self.early.clone());
        let leader = self.driver.leader(later)?;
        let promises = self.driver.promises(later, &quorum)?;
        let acc = self.driver.accepted(ACCUMULATE, leader, 0, &promises)?;
        self.decide_on(acc, &quorum)
    }

    /// The leader proposes on an ACC that another replica made.
    pub fn borrowed_acc(&mut self) -> Option<()> {
        let voters = self.first_quorum();
        let view = self.view_led_by(&voters, 1);
        let promises = self.driver.promises(view, &voters)?;
        let leader = self.driver.leader(view)?;
        let other = *voters.iter().find(|&&voter| voter != leader)?;
        let acc = self.driver.accepted(ACCUMULATE, other, 0, &promises)?;
        let block = self.driver.accepted(BLOCK, 0, 0, &[])?;
        let prop = self.driver.accepted(PREPARE_ACC, leader, block, &[acc])?;
        let commits = self.driver.commit(prop, &voters)?;
        self.decide(&commits)?;
        let quorum = self.second_quorum();
        self.second_decision(&quorum)
    }
}
