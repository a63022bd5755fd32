//! Attacks with power cuts: a hinge that forgets, replies that do not bind, promises taken back.

use super::attack::Attack;
use crate::call::*;

impl Attack {
    /// After the first decision the hinge is cut and restored by replies of which the late ones come first.
    pub fn forgetful_hinge(&mut self) -> Option<()> {
        self.first_decision(1)?;
        self.driver.accepted(REBOOT, self.hinge, 0, &[])?;
        let repliers = self.repliers();
        self.driver.restore(self.hinge, &repliers)?;
        let quorum = self.second_quorum();
        self.second_decision(&quorum)
    }

    /// The same with one late replica's reply f+1 times.
    pub fn one_reply_many_times(&mut self) -> Option<()> {
        self.first_decision(1)?;
        self.driver.accepted(REBOOT, self.hinge, 0, &[])?;
        let req = self.driver.accepted(REQUEST, self.hinge, 0, &[])?;
        let reply = self.driver.replies(req, &self.late[..1])?[0];
        let list = vec![reply; self.late.len() + 1];
        self.driver.accepted(RECOVER, self.hinge, 0, &list)?;
        let quorum = self.second_quorum();
        self.second_decision(&quorum)
    }

    /// The hinge is shown the late ones' replies alone: one of them replies, is cut, recovers and replies again. With f = 1
    /// that one cannot recover, as the hinge does not reply.
    pub fn one_replier_in_two_boots(&mut self) -> Option<()> {
        self.first_decision(1)?;
        self.driver.accepted(REBOOT, self.hinge, 0, &[])?;
        let req = self.driver.accepted(REQUEST, self.hinge, 0, &[])?;
        let mut replies = self.driver.replies(req, &self.late.clone())?;
        let twice = self.random.pick(&self.late);
        let others: Vec<u32> = self.late.iter().chain(&self.early).copied().filter(|&other| other != twice).collect();
        let repliers = others.get(..replies.len() + 1)?;
        self.driver.accepted(REBOOT, twice, 0, &[])?;
        self.driver.restore(twice, repliers)?;
        replies.extend(self.driver.replies(req, &[twice])?);
        self.driver.accepted(RECOVER, self.hinge, 0, &replies)?;
        let quorum = self.second_quorum();
        self.second_decision(&quorum)
    }

    /// The hinge asks for a view before it has recovered, and recovers only then.
    pub fn promise_while_recovering(&mut self) -> Option<()> {
        self.first_decision(1)?;
        self.driver.accepted(REBOOT, self.hinge, 0, &[])?;
        let quorum = self.second_quorum();
        let view = self.later_view(&self.late.clone());
        let acc = self.driver.gather(view, &quorum)?;
        let repliers = self.repliers();
        self.driver.restore(self.hinge, &repliers)?;
        self.decide_on(acc, &quorum)
    }

    /// The hinge, recovering and blank, replies to an early replica that is cut too.
    pub fn blank_replier(&mut self) -> Option<()> {
        self.first_decision(1)?;
        let second = self.random.pick(&self.early);
        self.driver.accepted(REBOOT, self.hinge, 0, &[])?;
        self.driver.accepted(REBOOT, second, 0, &[])?;
        let mut repliers = self.second_quorum();
        self.random.shuffle(&mut repliers);
        self.driver.restore(second, &repliers)?;
        let mut quorum = self.late.clone();
        quorum.push(second);
        self.second_decision(&quorum)
    }

    /// The hinge recovers once; after a decision it is cut again and shown the replies of its earlier boot.
    pub fn replies_to_an_earlier_boot(&mut self) -> Option<()> {
        self.driver.accepted(REBOOT, self.hinge, 0, &[])?;
        let req = self.driver.accepted(REQUEST, self.hinge, 0, &[])?;
        let repliers = self.repliers();
        let replies = self.driver.replies(req, &repliers)?;
        self.driver.accepted(RECOVER, self.hinge, 0, &replies)?;
        let from = self.driver.replica(self.hinge).min_view;
        self.first_decision(from)?;
        self.driver.accepted(REBOOT, self.hinge, 0, &[])?;
        self.driver.accepted(RECOVER, self.hinge, 0, &replies)?;
        let quorum = self.second_quorum();
        self.second_decision(&quorum)
    }

    /// The hinge commits, is cut and recovers blank; only then do the early ones commit in that old view.
    pub fn late_commits(&mut self) -> Option<()> {
        let quorum = self.first_quorum();
        let view = self.view_led_by(&quorum, 1);
        let acc = self.driver.gather(view, &quorum)?;
        let (prop, _) = self.driver.propose_on(acc)?;
        let mut commits = self.driver.commit(prop, &[self.hinge])?;
        self.driver.accepted(REBOOT, self.hinge, 0, &[])?;
        let repliers = self.repliers();
        self.driver.restore(self.hinge, &repliers)?;
        if self.random.once_in(3) {
            let early = *repliers.last()?;
            self.driver.accepted(VIEW, early, view, &[])?;
        }
        commits.extend(self.driver.commit(prop, &self.early.clone())?);
        self.decide(&commits)?;
        let quorum = self.second_quorum();
        self.second_decision(&quorum)
    }

    /// The second quorum promises a high view blank; then the hinge goes back and commits below it.
    pub fn promise_taken_back(&mut self) -> Option<()> {
        let asking = self.random.pick(&self.late);
        let req = self.asked(asking)?;
        let first = self.first_quorum();
        let limit = self.first_limit();
        let view = self.view_led_by(&self.early.clone(), limit);
        let acc = self.driver.gather(view, &first)?;
        let (prop, _) = self.driver.propose_on(acc)?;
        let quorum = self.second_quorum();
        let high = self.view_led_by(&self.late.clone(), view + 1);
        let promised = self.driver.gather(high, &quorum)?;
        match self.random.below(3) {
            0 => self.driver.accepted(REPLY_TO, self.hinge, req, &[])?,
            1 => self.driver.accepted(VIEW, self.hinge, view, &[])?,
            _ => 0,
        };
        let commits = self.driver.commit(prop, &first)?;
        self.decide(&commits)?;
        self.decide_on(promised, &quorum)
    }

    /// A fresh replica is cut and restored by the first quorum; its REQ stays in the log.
    fn asked(&mut self, asking: u32) -> Option<u32> {
        self.driver.accepted(REBOOT, asking, 0, &[])?;
        let req = self.driver.accepted(REQUEST, asking, 0, &[])?;
        let repliers = self.first_quorum();
        self.driver.restore(asking, &repliers)?;
        Some(req)
    }

    /// The hinge recovers by the replies to another replica that was cut at the same boot and limit.
    pub fn borrowed_replies(&mut self) -> Option<()> {
        let asking = self.random.pick(&self.late);
        let others = [self.early.clone(), self.late.clone()].concat();
        let others: Vec<u32> = others.into_iter().filter(|&replica| replica != asking).collect();
        let quorum = others.get(..self.late.len() + 1)?.to_vec();
        self.driver.accepted(REBOOT, asking, 0, &[])?;
        let req = self.driver.accepted(REQUEST, asking, 0, &[])?;
        let replies = self.driver.replies(req, &quorum)?;
        self.driver.accepted(RECOVER, asking, 0, &replies)?;
        self.driver.accepted(REBOOT, self.hinge, 0, &[])?;
        self.driver.accepted(RECOVER, self.hinge, 0, &replies)?;
        let limit = self.first_limit();
        self.first_decision(limit)?;
        let quorum = self.second_quorum();
        self.second_decision(&quorum)
    }
}
