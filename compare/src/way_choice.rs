//! Who can go on, and in which view (document 02, #109); and where nobody can, what is missing and what would bring it about.

use crate::certificate::{Certificate, REPLY, REQ};
use crate::leader::leader;
use crate::memory::{Memory, CEILING, LIVE, RECOVERING, RETIRED};
use crate::way_on::{decision_slots, free_block_slots, free_slots, Way};
use std::collections::BTreeSet;
use std::ops::Range;

/// Why there is no way on. Room comes first, since nothing but another opening brings it back.
#[derive(Clone, PartialEq, Eq, Debug)]
pub enum WhyNot {
    Slots {
        free: u32,
        needed: u32,
    },
    BlockSlot,
    /// Fewer than f+1 replicas are live.
    Live {
        live: Vec<u32>,
        /// The recovering ones that can come back as things are, and those that cannot.
        back: Vec<u32>,
        stuck: Vec<u32>,
        retired: Vec<u32>,
    },
    /// f+1 or more are live, but no view is above the lowest views and below the limits of f+1, its leader among them.
    Views {
        reserves: Option<Reserves>,
        back: Vec<u32>,
    },
}

/// So many reserves of each of these, and the way is there.
#[derive(Clone, PartialEq, Eq, Debug)]
pub struct Reserves {
    pub of: Vec<(u32, u32)>,
    pub then: Way,
}

/// The least view that f+1 live replicas, its leader among them, can enter: that leader and the lowest-numbered others.
pub fn choose(m: &Memory) -> Result<Way, WhyNot> {
    let (free, needed) = (free_slots(m), decision_slots(m.f()));
    if free < needed {
        return Err(WhyNot::Slots { free, needed });
    }
    if free_block_slots(m) == 0 {
        return Err(WhyNot::BlockSlot);
    }
    let live = of_status(m, LIVE);
    if live.len() as u32 <= m.f() {
        let (back, stuck) = of_status(m, RECOVERING).into_iter().partition(|&replica| can_come_back(m, replica));
        return Err(WhyNot::Live { live, back, stuck, retired: of_status(m, RETIRED) });
    }
    least_way(m).ok_or_else(|| {
        let back = of_status(m, RECOVERING).into_iter().filter(|&replica| can_come_back(m, replica));
        WhyNot::Views { reserves: after_reserves(m), back: back.collect() }
    })
}

fn of_status(m: &Memory, status: u32) -> Vec<u32> {
    (0..m.replicas()).filter(|&replica| m.replica(replica).status == status).collect()
}

/// The same choice, whatever room there is.
pub fn least_way(m: &Memory) -> Option<Way> {
    least_of(m, &entrants(m, |replica| m.replica(replica).view_limit))
}

/// A live replica and the views that it may enter.
struct Entrant {
    replica: u32,
    views: Range<u32>,
}

/// All that are live, with these limits.
fn entrants(m: &Memory, limit: impl Fn(u32) -> u32) -> Vec<Entrant> {
    let views = |replica| m.replica(replica).min_view + 1..limit(replica);
    of_status(m, LIVE).into_iter().map(|replica| Entrant { replica, views: views(replica) }).collect()
}

/// Only at the start of one's views does the number of those who can enter grow; between two starts it falls, if anything.
/// So if a view is good and the one n before it, led by the same replica, is still after the last start, that one is good
/// too. The least good view is therefore one of the first n after some start.
fn least_view(m: &Memory, all: &[Entrant]) -> Option<u32> {
    let n = m.replicas();
    let good = |view: &u32| {
        let mut able = all.iter().filter(|one| one.views.contains(view)).map(|one| one.replica);
        able.clone().count() as u32 > m.f() && able.any(|replica| leader(*view, n) == Some(replica))
    };
    let starts: BTreeSet<u32> = all.iter().map(|one| one.views.start).collect();
    starts.into_iter().filter_map(|start| (start..start + n).find(good)).min()
}

/// The least view, its leader and, of the others who can enter, those with the fewest reserves, the lowest-numbered first.
fn least_of(m: &Memory, all: &[Entrant]) -> Option<Way> {
    let view = least_view(m, all)?;
    let leader = leader(view, m.replicas());
    let mut replicas: Vec<u32> = all.iter().filter(|one| one.views.contains(&view)).map(|one| one.replica).collect();
    replicas.sort_by_key(|&replica| (Some(replica) != leader, reserves_for(m, replica, view), replica));
    replicas.truncate(m.f() as usize + 1);
    replicas.sort();
    Some(Way { replicas, view })
}

/// The limit that a replica reaches by reserves alone.
fn last_limit(m: &Memory, replica: u32) -> u32 {
    let r = m.replica(replica);
    let step = m.steps().of_boot(r.boot);
    r.view_limit + (CEILING - r.view_limit) / step * step
}

/// How many reserves bring the replica's limit above the view.
fn reserves_for(m: &Memory, replica: u32, view: u32) -> u32 {
    let r = m.replica(replica);
    (view + 1).saturating_sub(r.view_limit).div_ceil(m.steps().of_boot(r.boot))
}

/// The least view that f+1 live replicas can enter after reserves. A replica at its counter's end reserves no more.
fn after_reserves(m: &Memory) -> Option<Reserves> {
    let then = least_of(m, &entrants(m, |replica| last_limit(m, replica)))?;
    let of = then.replicas.iter().map(|&replica| (replica, reserves_for(m, replica, then.view)));
    Some(Reserves { of: of.filter(|&(_, times)| times > 0).collect(), then })
}

/// Of a recovering replica: f+1 others have replied already or are live to reply, and room is left for a way on then.
fn can_come_back(m: &Memory, replica: u32) -> bool {
    let (r, quorum) = (m.replica(replica), m.f() + 1);
    let of_boot = |c: &Certificate| c.subject == replica && c.subject_boot == r.boot && c.view == r.min_view;
    let issued = || (0..m.issued()).map(|number| m.certificate(number)).filter(of_boot);
    let replied: BTreeSet<u32> =
        issued().filter(|c| c.kind == REPLY && c.signer != replica).map(|c| c.signer).collect();
    let can_reply = |other: &u32| last_limit(m, *other) >= r.min_view && !replied.contains(other);
    let more = of_status(m, LIVE).iter().filter(|other| can_reply(other)).count() as u32;
    let replies = quorum.saturating_sub(replied.len() as u32);
    let request = u32::from(replies > 0 && !issued().any(|c| c.kind == REQ && c.signer == replica));
    replies <= more && free_slots(m) >= decision_slots(m.f()) + replies + request
}
