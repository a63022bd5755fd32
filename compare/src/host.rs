//! What hosts do with their checkers: enter a view, gather promises, propose, commit, decide, restore.

use crate::call::*;
use crate::driver::Driver;
use crate::mistake::Rules;

/// More reserves than this at once are not worth a script's lines.
const MOST_RESERVES: u32 = 64;

impl<R: Rules> Driver<R> {
    /// Reserves until the view is below the replica's limit.
    pub fn reserve_past(&mut self, replica: u32, view: u32) -> Option<()> {
        for _ in 0..MOST_RESERVES {
            if view < self.replica(replica).view_limit {
                return Some(());
            }
            self.accepted(RESERVE, replica, 0, &[])?;
        }
        None
    }

    /// Cuts or reserves of a replica until its limit is at least `least`, or one of them leaves the limit where it was.
    pub fn raise_limit(&mut self, code: u32, replica: u32, least: u32) {
        let mut limit = self.replica(replica).view_limit;
        while limit < least {
            self.call(code, replica, 0, &[]);
            let raised = self.replica(replica).view_limit;
            if raised <= limit {
                return;
            }
            limit = raised;
        }
    }

    /// A NEWVIEW of view w.
    pub fn enter(&mut self, replica: u32, w: u32) -> Option<u32> {
        self.reserve_past(replica, w)?;
        self.accepted(VIEW, replica, w, &[])
    }

    /// NEWVIEWs of the voters, in their order.
    pub fn promises(&mut self, w: u32, voters: &[u32]) -> Option<Vec<u32>> {
        voters.iter().map(|&voter| self.enter(voter, w)).collect()
    }

    /// The ACC that w's leader makes of the first f+1 voters' NEWVIEWs; the leader enters w itself.
    pub fn gather(&mut self, w: u32, voters: &[u32]) -> Option<u32> {
        let leader = self.leader(w)?;
        let quorum = self.f() as usize + 1;
        let promises = self.promises(w, &voters[..quorum])?;
        if !voters[..quorum].contains(&leader) {
            self.enter(leader, w)?;
        }
        self.accepted(ACCUMULATE, leader, 0, &promises)
    }

    /// A new block on the parent, and the PROP that the ACC's signer makes of it: (PROP, block).
    pub fn propose(&mut self, acc: u32, parent: u32) -> Option<(u32, u32)> {
        let leader = self.certificate(acc).signer;
        let block = self.accepted(BLOCK, 0, parent, &[])?;
        let prop = self.accepted(PREPARE_ACC, leader, block, &[acc])?;
        Some((prop, block))
    }

    /// A new block on what the ACC names, proposed.
    pub fn propose_on(&mut self, acc: u32) -> Option<(u32, u32)> {
        let parent = self.certificate(acc).block;
        self.propose(acc, parent)
    }

    /// COMMITs of these replicas, in their order.
    pub fn commit(&mut self, prop: u32, replicas: &[u32]) -> Option<Vec<u32>> {
        let view = self.certificate(prop).view;
        let mut commits = Vec::new();
        for &replica in replicas {
            self.reserve_past(replica, view)?;
            commits.push(self.accepted(STORE, replica, prop, &[])?);
        }
        Some(commits)
    }

    /// REPLYs to a REQ, in the repliers' order.
    pub fn replies(&mut self, req: u32, repliers: &[u32]) -> Option<Vec<u32>> {
        let view = self.certificate(req).view;
        let mut replies = Vec::new();
        for &replier in repliers {
            if view > self.replica(replier).view_limit {
                self.reserve_past(replier, view)?;
            }
            replies.push(self.accepted(REPLY_TO, replier, req, &[])?);
        }
        Some(replies)
    }

    /// Request, f+1 replies, recover; reserves where the replies' views ask for it.
    pub fn restore(&mut self, replica: u32, repliers: &[u32]) -> Option<()> {
        let quorum = self.f() as usize + 1;
        let req = self.accepted(REQUEST, replica, 0, &[])?;
        let replies = self.replies(req, &repliers[..quorum])?;
        for &reply in &replies {
            let of_view = self.certificate(reply).of_view;
            self.reserve_past(replica, of_view)?;
        }
        self.accepted(RECOVER, replica, 0, &replies)?;
        Some(())
    }
}
