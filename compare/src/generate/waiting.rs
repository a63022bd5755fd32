//! Histories of ledgers with waiting movements: days of all sorts of calls, slices that fill up, and slices made by hand.

use super::further::{any_words, sound_waiting};
use super::matching::{any_match, Lists};
use super::memory::{sample, Sample};
use super::movements::Limits;
use super::progress::ledger_in_progress;
use super::steps::{broken_list, own_or_none, sound_steps};
use crate::call::{Outcome, OPEN};
use crate::driver::Line;
use crate::entries::Entry;
use crate::history::{no_words, perform, Act, History, OwnKeeper, Slice, Step};
use crate::layout;
use crate::memory::*;
use crate::mistake::Correct;
use crate::random::Random;

pub const DAY: &str = "day";
pub const FULL: &str = "full";
pub const BY_HAND: &str = "slice by hand";
pub const WAITING_SORTS: &[&str] = &[DAY, FULL, BY_HAND];

/// A history for a seed.
pub fn history(seed: u64) -> History {
    let mut random = Random::new(seed);
    match random.below(24) {
        0 => full(random),
        1..=6 => day(random),
        _ => by_hand(random),
    }
}

/// A history in the making, and where it has come to by the library.
pub struct Scene {
    pub random: Random,
    pub history: History,
    pub memory: Sample,
    pub keeper: OwnKeeper<Correct>,
    pub lists: Lists,
    /// Identities are mostly below this, so that they meet.
    pool: u32,
}

impl Scene {
    fn new(random: Random, sort: &'static str, memory: Sample, words: Vec<u32>, pool: u32) -> Scene {
        let keeper = OwnKeeper::new(Correct, &words);
        let history = History { sort, memory: memory.clone(), words, acts: Vec::new(), lists: Vec::new() };
        Scene { random, history, memory, keeper, lists: Lists::default(), pool }
    }

    pub fn limits(&self) -> Limits {
        Limits::of(&self.memory)
    }

    /// Makes the step, with all slices whole, or now and then one a word off.
    pub fn push(&mut self, step: Step) -> Outcome {
        let slices = [Slice::Table, Slice::Log, Slice::Blocks, Slice::Further, Slice::Further, Slice::Further];
        let times = if matches!(step, Step::Open { .. }) { 8 } else { 60 };
        let off = self.random.once_in(times).then(|| (self.random.pick(&slices), self.random.once_in(2)));
        self.push_off(step, off)
    }

    /// A slice made by hand that is too short is lent as it is: a word more could make it fit.
    pub fn push_off(&mut self, step: Step, off: Option<(Slice, bool)>) -> Outcome {
        let whole = self.history.words.len() >= WAITING_WORDS;
        let off = off.filter(|(slice, _)| *slice != Slice::Further || whole);
        let act = Act { step, off };
        let outcome = perform(&mut self.keeper, &mut self.memory, &act, &self.history.lists);
        self.history.acts.push(act);
        outcome
    }

    pub fn waiting(&self) -> &[Entry] {
        &self.keeper.waiting.entries
    }

    /// One that waits; none if there are none.
    pub fn any_waiting(&mut self) -> Option<Entry> {
        let count = self.waiting().len() as u32;
        let place = match self.random.below(6) {
            0 => 0,
            1 => count.saturating_sub(1),
            _ => self.random.below(count),
        };
        self.waiting().get(place as usize).copied()
    }

    pub fn any_identity(&mut self) -> u32 {
        let any = self.random.within(1, self.pool);
        match self.random.below(16) {
            0 => self.random.pick(&[0, 0, u32::MAX, 1 << 31]),
            _ => any,
        }
    }

    pub fn sound_entry(&mut self) -> Entry {
        let limits = self.limits();
        let identity = self.any_identity();
        sound_entry(&mut self.random, limits, identity)
    }

    fn wait(&mut self) {
        match self.random.below(16) {
            0..=5 => self.enter(),
            6..=7 => self.withdraw(),
            8..=12 => any_match(self),
            13..=14 => self.ask(),
            _ => self.refused_opening(),
        }
    }

    /// Mostly sound; one that waits already too.
    fn enter(&mut self) {
        let mut entry = self.sound_entry();
        if self.random.once_in(10) {
            if let Some(waiting) = self.any_waiting() {
                entry.identity = waiting.identity;
            }
        }
        if self.random.once_in(8) {
            let limits = self.limits();
            damage_entry(&mut self.random, limits, &mut entry);
        }
        self.push(Step::Enter(entry));
    }

    fn withdraw(&mut self) {
        let any = self.any_identity();
        let waiting = self.any_waiting().map(|entry| entry.identity);
        let identity = if self.random.once_in(5) { any } else { waiting.unwrap_or(any) };
        self.push(Step::Withdraw(identity));
    }

    fn ask(&mut self) {
        let n = self.limits().n;
        let any = self.random.below(n);
        let taker = self.random.pick(&[any, any, any, n - 1, n, n + 1, u32::MAX]);
        self.push(Step::Ask(taker));
    }

    /// With the slice: for its f, its steps, or a length.
    fn refused_opening(&mut self) {
        let (n, any) = (self.limits().n, self.random.within(1, MAX_F));
        let f = self.random.pick(&[(n - 1) / 2, any, 0, MAX_F + 1, u32::MAX]);
        let broken = self.random.once_in(2);
        let steps = if broken { broken_list(&mut self.random) } else { own_or_none(&mut self.random) };
        let further = Some((Slice::Further, self.random.once_in(2)));
        let refused = broken || !(1..=MAX_F).contains(&f);
        let off = if refused && self.random.once_in(2) { None } else { further };
        self.push_off(Step::Open { f, steps }, off);
    }
}

pub fn sound_entry(random: &mut Random, limits: Limits, identity: u32) -> Entry {
    let giver = limits.near_replica(random);
    let near = limits.near_replica(random);
    let taker = if near == giver { (giver + random.within(1, limits.n - 1)) % limits.n } else { near };
    let (any, few) = (random.within(1, MAX_PALLETS), random.within(1, 4));
    Entry { identity, giver, taker, pallets: random.pick(&[1, MAX_PALLETS, any, few]) }
}

/// One word becomes wrong, mostly by just one too much.
pub fn damage_entry(random: &mut Random, limits: Limits, entry: &mut Entry) {
    let n = limits.n;
    match random.below(5) {
        0 => entry.identity = 0,
        1 => entry.giver = random.pick(&[n, n, n + 1, entry.taker, u32::MAX]),
        2 => entry.taker = random.pick(&[n, n, n + 1, entry.giver, u32::MAX]),
        3 => entry.giver = entry.taker,
        _ => entry.pallets = random.pick(&[0, 0, MAX_PALLETS + 1, MAX_PALLETS + 1, 1 << 31, u32::MAX]),
    }
}

/// The lines of a ledger in progress, without its opening, and the slots that they take.
struct Progress {
    f: u32,
    steps: Vec<u32>,
    lines: Vec<Line>,
    slots: (u32, u32),
}

fn any_progress(random: &mut Random, calls: u32) -> Progress {
    let f = random.pick(&[1, 1, 1, 1, 2, 3, MAX_F]);
    let steps = own_or_none(random);
    let hostile = random.once_in(2);
    let driver = ledger_in_progress(Random::new(random.bits()), f, &steps, calls as usize, hostile);
    let lines = driver.lines().split_off(1);
    Progress { f, steps, lines, slots: (driver.issued(), driver.added()) }
}

/// Cleared slices for all of these, the table for the first.
fn cleared(all: &[Progress]) -> Sample {
    let most = |slots: fn(&Progress) -> u32| all.iter().map(slots).max().unwrap_or(0) as usize;
    Sample {
        table: vec![0; table_length(all[0].f) as usize],
        log: vec![0; CERTIFICATE_WORDS * most(|one| one.slots.0)],
        blocks: vec![0; BLOCK_WORDS * most(|one| one.slots.1)],
        line: Line::new(OPEN, 0, 0, &[]),
    }
}

/// One ledger after the other on the same slices, most of them opened with the further one, and waiting movements between
/// their calls.
fn day(mut random: Random) -> History {
    let ledgers = random.pick(&[1, 1, 2, 3]);
    let all: Vec<Progress> = (0..ledgers)
        .map(|_| {
            let calls = random.within(20, 90);
            any_progress(&mut random, calls)
        })
        .collect();
    let pool = random.pick(&[4, 12, 40]);
    let mut scene = Scene::new(random, DAY, cleared(&all), no_words(), pool);
    for (place, progress) in all.into_iter().enumerate() {
        scene.open(&progress, if place == 0 { 8 } else { 2 });
        let often = scene.random.pick(&[1, 2, 4]);
        for line in progress.lines {
            scene.push(Step::Call(line));
            (0..scene.random.below(often + 1)).for_each(|_| scene.wait());
        }
        (0..scene.random.below(24)).for_each(|_| scene.wait());
    }
    scene.history
}

impl Scene {
    /// With the slice but once in so many times, and now and then a second time at once.
    fn open(&mut self, progress: &Progress, plain: u32) {
        let Progress { f, steps, .. } = progress;
        let plain = self.random.once_in(plain);
        let step =
            if plain { Step::Call(Line::new(OPEN, *f, 0, steps)) } else { Step::Open { f: *f, steps: steps.clone() } };
        if self.random.once_in(16) {
            self.push(step.clone());
        }
        self.push_off(step, None);
    }
}

/// Entries until no more may wait, then comings and goings about that.
fn full(mut random: Random) -> History {
    let calls = random.pick(&[12, 30]);
    let progress = any_progress(&mut random, calls);
    let mut scene = Scene::new(random, FULL, cleared(std::slice::from_ref(&progress)), no_words(), 600);
    scene.open(&progress, u32::MAX);
    for line in &progress.lines {
        scene.push_off(Step::Call(line.clone()), None);
    }
    let mut identities: Vec<u32> = (1..=520).collect();
    if scene.random.once_in(2) {
        scene.random.shuffle(&mut identities);
    }
    let heavy = scene.random.once_in(2);
    for identity in identities {
        let limits = scene.limits();
        let mut entry = sound_entry(&mut scene.random, limits, identity);
        if heavy {
            entry = Entry { giver: 0, taker: 1, pallets: MAX_PALLETS, ..entry };
        }
        scene.push_off(Step::Enter(entry), None);
    }
    for _ in 0..scene.random.within(10, 60) {
        scene.wait();
        if scene.random.once_in(2) {
            scene.enter();
        }
    }
    if scene.random.once_in(2) {
        scene.open(&progress, 3);
        (0..scene.random.below(12)).for_each(|_| scene.wait());
    }
    scene.history
}

/// A random memory and a random slice, often of wrong form, and a few calls.
fn by_hand(mut random: Random) -> History {
    let mut memory = sample(random.bits());
    while random.once_in(2) && !crate::form::well_formed(Correct, &memory.memory()) {
        memory = sample(random.bits());
    }
    let limits = Limits::of(&memory);
    let waiting = sound_waiting(&mut random, limits);
    let mut words = no_words();
    layout::write(&waiting, &mut words);
    any_words(&mut random, limits, &mut words);
    let mut scene = Scene::new(random, BY_HAND, memory, words, 12);
    for _ in 0..scene.random.within(1, 5) {
        if scene.random.once_in(12) {
            let f = scene.random.pick(&[1, (limits.n - 1) / 2, (limits.n - 1) / 2]);
            let steps = if scene.random.once_in(2) { sound_steps(&mut scene.random).0.to_vec() } else { Vec::new() };
            scene.push(Step::Open { f, steps });
        } else {
            scene.wait();
        }
    }
    scene.history
}
