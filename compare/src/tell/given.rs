//! What an accepted call gave and changed, in words.

use super::recount::Change;
use super::words::*;
use crate::call::*;
use crate::certificate::FOUND;
use crate::driver::Line;
use crate::memory::{Memory, Replica, CEILING, RETIRED};

/// Of an accepted call, on the memory that it left. The change is the calling replica's; an opening and a block have none.
pub fn given(m: &Memory, call: &Line, outcome: Outcome, change: Option<Change>) -> String {
    match change {
        None if call.code == OPEN => opened(m),
        None => format!("block {} is added, of height {}", outcome.first, m.height(outcome.first)),
        Some(change) => match call.code {
            DECIDE => decided(outcome, change),
            REBOOT => rebooted(change),
            RESERVE => format!("the limit is {}", thousands(outcome.first)),
            RECOVER => recovered(change),
            _ => issued(m, outcome),
        },
    }
}

fn opened(m: &Memory) -> String {
    let limit = m.replica(0).view_limit;
    format!("{} replicas, 0 to {}, each live with lowest view 1 and limit {limit}", m.replicas(), m.replicas() - 1)
}

fn issued(m: &Memory, outcome: Outcome) -> String {
    let certificate = m.certificate(outcome.first);
    let how = if outcome.second == FOUND { "found, nothing new is signed" } else { "added" };
    format!("{} {} is {how}: {}", kind_name(certificate.kind), outcome.first, says(certificate))
}

fn decided(outcome: Outcome, change: Change) -> String {
    let Outcome { first: block, second: view, .. } = outcome;
    let words = format!("block {block} of view {view} is decided");
    if view > change.before.replica.decided_view {
        return format!("{words}, the panel shows {}", change.after.panel);
    }
    format!(
        "{words}; view {view} is not above view {}, so the panel stays at {}",
        change.before.replica.decided_view, change.after.panel
    )
}

fn rebooted(change: Change) -> String {
    let Replica { status, boot, min_view, .. } = change.after.replica;
    match (status, change.before.replica.status) {
        (RETIRED, RETIRED) => "it is retired for good".to_string(),
        (RETIRED, _) => format!("the counter would pass {}: it is retired for good", thousands(CEILING)),
        _ => format!(
            "boot {boot}: it is recovering, what it stored is forgotten, and its lowest view is its old limit, {min_view}"
        ),
    }
}

fn recovered(change: Change) -> String {
    let Replica { min_view, stored_block, stored_view, .. } = change.after.replica;
    format!("it is live again from view {min_view} on, with {}", stored(stored_block, stored_view))
}

/// Each word of the replica in which another stands now, and its panel.
pub fn changes(change: Change) -> Vec<String> {
    let (before, after) = (change.before.replica, change.after.replica);
    let of = |name, old: u32, new: u32| (name, old.to_string(), new.to_string());
    let all = [
        ("status", status_name(before.status).to_string(), status_name(after.status).to_string()),
        of("boot", before.boot, after.boot),
        of("lowest view", before.min_view, after.min_view),
        of("limit", before.view_limit, after.view_limit),
        of("flag", before.flag, after.flag),
        of("stored view", before.stored_view, after.stored_view),
        of("stored block", before.stored_block, after.stored_block),
        of("decided view", before.decided_view, after.decided_view),
        of("decided block", before.decided_block, after.decided_block),
        of("panel", change.before.panel, change.after.panel),
    ];
    all.iter().filter(|(_, old, new)| old != new).map(|(name, old, new)| format!("{name} {old} to {new}")).collect()
}
