//! Whose turn a view is.

use crate::memory::Memory;
use crate::mistake::{Mistake, Rules};

/// Document 02, #103: "The leader of view v is (v−1) mod n. View 0 has no leader".
pub fn leader(view: u32, n: u32) -> Option<u32> {
    Some(view.checked_sub(1)? % n)
}

impl Memory<'_> {
    /// Whether the replica leads the view. `old` is the asking call's own mistake: it goes by document 01's leader.
    pub fn leads<R: Rules>(&self, rules: R, replica: u32, view: u32, old: Mistake) -> bool {
        let n = self.replicas();
        let leader = match view {
            _ if rules.has(old) || rules.has(Mistake::OldLeader) => Some(view % n),
            _ if rules.has(Mistake::LeaderPastLast) => leader(view, n + 1),
            0 if rules.has(Mistake::ViewZeroFirst) => Some(0),
            0 if rules.has(Mistake::ViewZeroLast) => Some(n - 1),
            0 if rules.has(Mistake::ViewZeroWraps) => Some(view.wrapping_sub(1) % n),
            _ => leader(view, n),
        };
        leader == Some(replica)
    }
}
