//! The search: known orders of attack with random details, and random hosts, until one breaks demand 3.

use super::attack::{Attack, SLOTS};
use super::monitor::{judge, Monitor, Violation};
use crate::call::Outcome;
use crate::driver::{Driver, Line};
use crate::explore::Explorer;
use crate::generate::steps::own_or_none;
use crate::mistake::Mistake;
use crate::random::Random;
use std::time::{Duration, Instant};

type Order = fn(&mut Attack) -> Option<()>;

/// Every known order of attack.
pub const ORDERS: &[(&str, Order)] = &[
    ("plain view change", Attack::plain_view_change),
    ("one promise many times", Attack::one_promise_many_times),
    ("old promise", Attack::old_promise),
    ("lone commit", Attack::lone_commit),
    ("mixed commits", Attack::mixed_commits),
    ("wrong parent", Attack::wrong_parent),
    ("panel backwards", Attack::panel_backwards),
    ("forgetful hinge", Attack::forgetful_hinge),
    ("one reply many times", Attack::one_reply_many_times),
    ("one replier in two boots", Attack::one_replier_in_two_boots),
    ("promise while recovering", Attack::promise_while_recovering),
    ("blank replier", Attack::blank_replier),
    ("replies to an earlier boot", Attack::replies_to_an_earlier_boot),
    ("late commits", Attack::late_commits),
    ("promise taken back", Attack::promise_taken_back),
    ("proposes twice", Attack::proposes_twice),
    ("proposes across a cut", Attack::proposes_across_a_cut),
    ("proposes at the limit", Attack::proposes_at_the_limit),
    ("two leaders", Attack::two_leaders),
    ("proposes before entering", Attack::proposes_before_entering),
    ("proposes without entering", Attack::proposes_without_entering),
    ("borrowed ACC", Attack::borrowed_acc),
    ("borrowed replies", Attack::borrowed_replies),
];

/// A broken demand 3: how, by which order, and the shortest trace found.
pub struct Found {
    pub violation: Violation,
    pub order: &'static str,
    pub trace: Vec<(Line, Outcome)>,
}

/// What a search has done, for its progress line.
pub struct Progress {
    pub attempts: u64,
    pub lines: u64,
    /// Attempts and time up to the first find.
    pub found: Option<(u64, Duration)>,
}

/// After the first find the search goes on so long for a shorter trace.
const SHORTEN: Duration = Duration::from_millis(300);

/// Searches until something is found or the time is up; `tell` is called now and then.
pub fn search(
    mistake: Option<Mistake>,
    seed: u64,
    time: Duration,
    mut tell: impl FnMut(&Progress),
) -> (Option<Found>, Progress) {
    let start = Instant::now();
    let mut end = start + time;
    let mut random = Random::new(seed);
    let mut progress = Progress { attempts: 0, lines: 0, found: None };
    let mut best: Option<Found> = None;
    while Instant::now() < end {
        let part = Random::new(random.bits());
        let (order, lines) = if random.once_in(3) { explore(mistake, part) } else { attack(mistake, part) };
        progress.attempts += 1;
        progress.lines += lines.len() as u64;
        if let Some((violation, count)) = judge(mistake, &lines, SLOTS) {
            let first = best.is_none();
            let trace = shortest(mistake, lines[..count].to_vec());
            if best.as_ref().is_none_or(|found| trace.len() < found.trace.len()) {
                best = Some(Found { violation, order, trace });
            }
            if first {
                progress.found = Some((progress.attempts, start.elapsed()));
                end = end.min(Instant::now() + SHORTEN);
            }
        }
        tell(&progress);
    }
    (best, progress)
}

/// One known order of attack, up to its first refusal.
pub fn attack(mistake: Option<Mistake>, mut random: Random) -> (&'static str, Vec<Line>) {
    let (name, order) = random.pick(ORDERS);
    let mut attack = Attack::new(mistake, random);
    order(&mut attack);
    (name, attack.driver.lines())
}

/// Random hosts, looked at after every call.
fn explore(mistake: Option<Mistake>, mut random: Random) -> (&'static str, Vec<Line>) {
    let f = random.pick(&[1, 1, 1, 1, 2]);
    let steps = random.within(20, 240);
    let noise = random.pick(&[0, 0, 16]);
    let driver = Driver::open_with_steps(mistake, f, &own_or_none(&mut random), SLOTS.0, SLOTS.1);
    let mut explorer = Explorer { driver, random, noise };
    let mut monitor = Monitor::default();
    for _ in 0..steps {
        explorer.step();
        if monitor.look(&mut explorer.driver).is_some() {
            break;
        }
    }
    ("random hosts", explorer.driver.lines())
}

/// Leaves out lines, and the pool's own steps, as long as demand 3 stays broken.
fn shortest(mistake: Option<Mistake>, mut lines: Vec<Line>) -> Vec<(Line, Outcome)> {
    let mut place = lines.len();
    while place > 1 {
        place -= 1;
        let mut fewer = lines.clone();
        fewer.remove(place);
        if let Some((_, count)) = judge(mistake, &fewer, SLOTS) {
            fewer.truncate(count);
            place = place.min(fewer.len());
            lines = fewer;
        }
    }
    let mut plain = lines.clone();
    plain[0].list.clear();
    if let Some((_, count)) = judge(mistake, &plain, SLOTS) {
        plain.truncate(count);
        lines = plain;
    }
    let mut driver = Driver::open_with_steps(mistake, lines[0].replica, &lines[0].list, SLOTS.0, SLOTS.1);
    for line in &lines[1..] {
        driver.call(line.code, line.replica, line.number, &line.list);
    }
    driver.trace
}
