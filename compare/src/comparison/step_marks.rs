//! What openings with steps and steps in use can show that the generators are meant to reach, in scripts and on
//! memories: each shape that is taken, each way to break the rule by itself, limits by a pool's own steps.

use super::{marks, memory_marks};
use crate::call::*;
use crate::memory::*;
use crate::mistake::Correct;
use crate::refusal::*;
use crate::steps::{Steps, LAST_STEP_BOOT, MAX_STEP, MIN_STEP};

/// A test of a list or of a table's words.
type Kind = (&'static str, fn(&[u32]) -> bool);

/// Steps that are taken.
const SOUND: &[Kind] = &[
    ("own steps", |list| !list.is_empty()),
    ("eight steps of 1", |list| list == [MIN_STEP; STEP_WORDS]),
    ("eight steps of 4,096", |list| list == [MAX_STEP; STEP_WORDS]),
    ("a first step of 1 and a last of 4,096", |list| list.first() == Some(&MIN_STEP) && list.last() == Some(&MAX_STEP)),
    ("document 01's steps, given", |list| list == Steps::DEFAULT.0),
    ("steps that rise each time", |list| list.len() == STEP_WORDS && list.windows(2).all(|pair| pair[0] < pair[1])),
    ("equal steps, not all", |list| list.windows(2).any(|pair| pair[0] == pair[1]) && list.first() != list.last()),
];

/// Lists that break the rule by their length alone.
const NOT_EIGHT: &[Kind] = &[
    ("one to six steps", |list| (1..STEP_WORDS - 1).contains(&list.len()) && sound_parts(list)),
    ("seven steps", |list| list.len() == STEP_WORDS - 1 && sound_parts(list)),
    ("nine steps", |list| list.len() == STEP_WORDS + 1 && sound_parts(list)),
    ("ten steps or more", |list| list.len() > STEP_WORDS + 1 && sound_parts(list)),
    ("a list of the most steps", |list| list.len() == MAX_LIST && sound_parts(list)),
];

/// Eight words that break the rule in one place.
const BROKEN: &[Kind] = &[
    ("a first step of 0", |list| one_wrong(list, 0) && list[0] == 0),
    ("a later step of 0", |list| list.len() == STEP_WORDS && list[0] > 0 && list.contains(&0)),
    ("a last step of 4,097", |list| one_wrong(list, STEP_WORDS - 1) && list[STEP_WORDS - 1] == MAX_STEP + 1),
    ("a last step far above", |list| one_wrong(list, STEP_WORDS - 1) && list[STEP_WORDS - 1] > 1 << 16),
    ("a step of 4,097 before the last", |list| {
        list.len() == STEP_WORDS && list[..STEP_WORDS - 1].contains(&(MAX_STEP + 1))
    }),
    ("the second step smaller", falls_at::<0>),
    ("the third step smaller", falls_at::<1>),
    ("the fourth step smaller", falls_at::<2>),
    ("the fifth step smaller", falls_at::<3>),
    ("the sixth step smaller", falls_at::<4>),
    ("the seventh step smaller", falls_at::<5>),
    ("the eighth step smaller", falls_at::<6>),
];

fn in_range(step: &u32) -> bool {
    (MIN_STEP..=MAX_STEP).contains(step)
}

/// In range and in order, whatever their number.
fn sound_parts(list: &[u32]) -> bool {
    list.iter().all(in_range) && list.is_sorted()
}

/// The step at this place alone is out of range, and none falls.
fn one_wrong(list: &[u32], place: usize) -> bool {
    let wrong: Vec<usize> = (0..list.len()).filter(|&at| !in_range(&list[at])).collect();
    list.len() == STEP_WORDS && wrong == [place] && list.is_sorted()
}

/// All in range, and the step after this place alone is smaller than the one before.
fn falls_at<const PLACE: usize>(list: &[u32]) -> bool {
    let falls = |place: &usize| list[*place] > list[place + 1];
    list.len() == STEP_WORDS && list.iter().all(in_range) && (0..STEP_WORDS - 1).filter(falls).eq([PLACE])
}

type ScriptMark = (&'static str, fn(&marks::Seen) -> bool);

const SCRIPT_MARKS: &[ScriptMark] = &[
    ("opening without steps after own steps", |seen| {
        seen.is(OPEN, ACCEPTED) && seen.list().is_empty() && seen.has_own_steps()
    }),
    ("12 before any opening", |seen| seen.is(OPEN, WRONG_STEPS) && seen.steps.is_none()),
    ("12 with another f, and the ledger goes on", |seen| {
        seen.code != OPEN && seen.outcome.is_accepted() && seen.other_refused
    }),
    ("2 where the steps are wrong too", |seen| seen.is(OPEN, OUT_OF_RANGE) && !is_taken(seen.list())),
    ("10 for a number beside sound steps", |seen| {
        seen.is(OPEN, UNREADABLE) && seen.number() > Some(0) && seen.list().len() == STEP_WORDS && is_taken(seen.list())
    }),
    ("own steps: decisions", |seen| seen.is(DECIDE, ACCEPTED) && seen.has_own_steps()),
    ("own steps: recoveries", |seen| seen.is(RECOVER, ACCEPTED) && seen.has_own_steps()),
    ("own steps: reserves past the last step", |seen| {
        seen.is(RESERVE, ACCEPTED) && seen.has_own_steps() && seen.replica.is_some_and(|r| r.boot > LAST_STEP_BOOT)
    }),
    ("own steps: cuts past the last step", |seen| seen.restarts() && seen.outcome.first > LAST_STEP_BOOT),
    ("own steps: a reserve to just the ceiling", |seen| {
        seen.is(RESERVE, ACCEPTED) && seen.outcome.first == CEILING && seen.has_own_steps()
    }),
    ("own steps: a cut to just the ceiling", |seen| {
        seen.restarts() && seen.replica.is_some_and(|r| r.view_limit == CEILING)
    }),
    ("own steps: a reserve past the ceiling", |seen| seen.is(RESERVE, COUNTER_LIMIT) && seen.has_own_steps()),
    ("own steps: a cut that retires", |seen| {
        seen.is(REBOOT, ACCEPTED) && seen.has_own_steps() && seen.replica.is_some_and(|r| r.status == RETIRED)
    }),
    ("a first step of 1: 8 at view 1", |seen| {
        seen.is(VIEW, COUNTER_LIMIT) && seen.number() == Some(1) && seen.steps.is_some_and(|steps| steps.first() == 1)
    }),
    ("steps of 1: a proposal", |seen| {
        (seen.is(PREPARE_ACC, ACCEPTED) || seen.is(PREPARE_COMMITS, ACCEPTED)) && seen.steps == Some(ONES)
    }),
    ("steps of 1: a recovery", |seen| seen.is(RECOVER, ACCEPTED) && seen.steps == Some(ONES)),
];

const ONES: Steps = Steps([MIN_STEP; STEP_WORDS]);

fn is_taken(list: &[u32]) -> bool {
    list.is_empty() || Steps::from_words(list).is_some_and(|steps| steps.are_sound())
}

impl marks::Seen<'_> {
    fn has_own_steps(&self) -> bool {
        self.steps.is_some_and(|steps| steps != Steps::DEFAULT)
    }

    /// A cut in a ledger with own steps that does not retire.
    fn restarts(&self) -> bool {
        self.is(REBOOT, ACCEPTED) && self.has_own_steps() && self.replica.is_some_and(|r| r.status == RECOVERING)
    }
}

pub fn script_names() -> Vec<String> {
    let opened = SOUND.iter().map(|(kind, _)| format!("opening: {kind}"));
    let refused = NOT_EIGHT.iter().chain(BROKEN).map(|(kind, _)| format!("12 for {kind}"));
    let marks = SCRIPT_MARKS.iter().map(|(mark, _)| mark.to_string());
    opened.chain(refused).chain(marks).collect()
}

/// In the order of the names.
pub fn script_hits(seen: &marks::Seen) -> Vec<bool> {
    let list = seen.list();
    let opened = SOUND.iter().map(|(_, holds)| seen.is(OPEN, ACCEPTED) && holds(list));
    let refused = NOT_EIGHT.iter().chain(BROKEN).map(|(_, holds)| seen.is(OPEN, WRONG_STEPS) && holds(list));
    let marks = SCRIPT_MARKS.iter().map(|(_, holds)| holds(seen));
    opened.chain(refused).chain(marks).collect()
}

type MemoryMark = (&'static str, fn(&memory_marks::Seen) -> bool);

const MEMORY_MARKS: &[MemoryMark] = &[
    ("opening without steps over own ones", |seen| {
        seen.gives_open(ACCEPTED) && seen.before.line.list.is_empty() && seen.has_own_steps()
    }),
    ("opening over steps that break the rule", |seen| {
        seen.gives_open(ACCEPTED) && seen.steps().is_some_and(|steps| !steps.are_sound())
    }),
    ("opening: 1 with own steps", |seen| seen.gives_open(WRONG_FORM) && !seen.before.line.list.is_empty()),
    ("opening: 2 where the steps are wrong too", |seen| {
        seen.gives_open(OUT_OF_RANGE) && !is_taken(&seen.before.line.list)
    }),
    ("opening: 12 where the lengths are wrong too", |seen| {
        let mut plain = seen.before.clone();
        plain.line.list.clear();
        seen.gives_open(WRONG_STEPS) && plain.run(Correct).answer == WRONG_FORM
    }),
    ("opening: 10 for a list of 32", |seen| {
        seen.gives_open(UNREADABLE) && seen.before.line.number == 0 && seen.before.line.list.len() == MAX_LIST + 1
    }),
    ("opening: 10 for a longer list", |seen| {
        seen.gives_open(UNREADABLE) && seen.before.line.number == 0 && seen.before.line.list.len() > MAX_LIST + 1
    }),
    ("opening: 10 for a number beside sound steps", |seen| {
        let list = &seen.before.line.list;
        seen.gives_open(UNREADABLE) && seen.before.line.number > 0 && !list.is_empty() && is_taken(list)
    }),
    ("own steps: a reserve to just the ceiling", |seen| seen.grows_to(RESERVE, ACCEPTED, CEILING)),
    ("own steps: a reserve to one past the ceiling", |seen| seen.grows_to(RESERVE, COUNTER_LIMIT, CEILING + 1)),
    ("own steps: a cut to just the ceiling", |seen| seen.grows_to(REBOOT, ACCEPTED, CEILING)),
    ("own steps: a cut to one past the ceiling", |seen| seen.grows_to(REBOOT, ACCEPTED, CEILING + 1)),
];

/// Boots with a step of their own, and one past the last of them.
const BOOTS: std::ops::RangeInclusive<u32> = 0..=LAST_STEP_BOOT + 1;

impl memory_marks::Seen {
    fn gives_open(&self, answer: u32) -> bool {
        self.code() == OPEN && self.outcome.answer == answer
    }

    /// The table's words, before the call.
    fn steps(&self) -> Option<Steps> {
        self.before.table.get(STEPS_START..REPLICAS_START).and_then(Steps::from_words)
    }

    fn has_own_steps(&self) -> bool {
        self.steps().is_some_and(|steps| steps.are_sound() && steps != Steps::DEFAULT)
    }

    /// The replica of a cut or a reserve before the call, the boot whose step it takes, and the limit with that step;
    /// by own steps, where the answer is one that only sound form gets.
    fn growth(&self, code: u32, answer: u32) -> Option<(Replica, u32, u32)> {
        let steps = self.steps().filter(|_| self.code() == code && self.outcome.answer == answer)?;
        let r = self.before.clone().memory().replica(self.before.line.replica);
        let boot = if code == REBOOT { r.boot + 1 } else { r.boot };
        self.has_own_steps().then(|| (r, boot, r.view_limit + steps.of_boot(boot)))
    }

    fn grows_to(&self, code: u32, answer: u32, limit: u32) -> bool {
        self.growth(code, answer).is_some_and(|(r, _, grown)| r.status != RETIRED && grown == limit)
    }

    fn grows_at(&self, code: u32, boot: u32) -> bool {
        let grown = self.growth(code, ACCEPTED);
        grown.is_some_and(|(r, stepped, limit)| r.status != RETIRED && stepped == boot && limit <= CEILING)
    }

    /// Wrong form by the table's steps alone.
    fn wrong_steps(&self, test: fn(&[u32]) -> bool) -> bool {
        let broken = self.code() != OPEN && self.outcome.answer == WRONG_FORM;
        let sound = || {
            let mut mended = self.before.clone();
            mended.memory().set_steps(Steps::DEFAULT);
            mended.run(Correct).answer != WRONG_FORM
        };
        broken && self.steps().is_some_and(|steps| test(&steps.0)) && sound()
    }
}

pub fn memory_names() -> Vec<String> {
    let opened = SOUND.iter().map(|(kind, _)| format!("opening: {kind}"));
    let refused = NOT_EIGHT.iter().chain(BROKEN).map(|(kind, _)| format!("12 for {kind}"));
    let form = BROKEN.iter().map(|(kind, _)| format!("1 for {kind}"));
    let reserves = BOOTS.map(|boot| format!("own steps: a reserve in boot {boot}"));
    let cuts = BOOTS.skip(1).map(|boot| format!("own steps: a cut to boot {boot}"));
    let marks = MEMORY_MARKS.iter().map(|(mark, _)| mark.to_string());
    opened.chain(refused).chain(form).chain(reserves).chain(cuts).chain(marks).collect()
}

/// In the order of the names.
pub fn memory_hits(seen: &memory_marks::Seen) -> Vec<bool> {
    let list = &seen.before.line.list;
    let opened = SOUND.iter().map(|(_, holds)| seen.gives_open(ACCEPTED) && holds(list));
    let refused = NOT_EIGHT.iter().chain(BROKEN).map(|(_, holds)| seen.gives_open(WRONG_STEPS) && holds(list));
    let form = BROKEN.iter().map(|(_, holds)| seen.wrong_steps(*holds));
    let reserves = BOOTS.map(|boot| seen.grows_at(RESERVE, boot));
    let cuts = BOOTS.skip(1).map(|boot| seen.grows_at(REBOOT, boot));
    let marks = MEMORY_MARKS.iter().map(|(_, holds)| holds(seen));
    opened.chain(refused).chain(form).chain(reserves).chain(cuts).chain(marks).collect()
}
