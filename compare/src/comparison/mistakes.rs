//! Shows that the comparison sees: each mistake is told apart by the generated scripts, the memories, the nettings, the
//! histories of waiting movements, the way on from pasts or the numbers near the edges of their ranges.

use super::checkers::Library;
use super::nettings::netting_difference;
use super::numbers::{near_edges, text_difference};
use super::samples::difference;
use super::waitings::history_difference;
use super::ways::way_trouble;
use crate::generate::netting::netting;
use crate::generate::scripts::{script, Script};
use crate::generate::waiting::history;
use crate::generate::ways::past;
use crate::mistake::{Correct, Mistake};
use crate::script::{run, ANSWER_BYTES};
use std::collections::BTreeSet;

/// Scripts with the output that the rules give.
pub struct Scripts(Vec<(Script, Vec<u8>)>);

impl Scripts {
    pub fn generate(seed: u64, count: u64) -> Scripts {
        let scripts = (seed..seed + count).map(script);
        Scripts(scripts.map(|script| (run(Correct, &script.text), script)).map(|(out, script)| (script, out)).collect())
    }

    pub fn lines(&self) -> usize {
        self.0.iter().map(|(_, out)| out.len() / ANSWER_BYTES).sum()
    }

    /// The first script that tells the mistake apart: its place from 1 and its sort.
    fn tell_apart(&self, mistake: Mistake) -> Option<(usize, &'static str)> {
        let place = self.0.iter().position(|(script, out)| run(Some(mistake), &script.text) != *out)?;
        Some((place + 1, self.0[place].0.sort))
    }
}

/// How many memories, nettings, histories and pasts may be looked through for one mistake.
pub struct Most {
    pub memories: u64,
    pub nettings: u64,
    pub histories: u64,
    pub pasts: u64,
}

/// The number of memories it took.
fn memories_tell_apart(mistake: Mistake, seed: u64, most: u64) -> Option<u64> {
    (0..most).find(|i| difference(&Library(Some(mistake)), &Library(Correct), seed + i).is_some()).map(|i| i + 1)
}

/// The number of nettings it took.
fn nettings_tell_apart(mistake: Mistake, seed: u64, most: u64) -> Option<u64> {
    let differs = |seed| netting_difference(&Library(Some(mistake)), &Library(Correct), &netting(seed)).is_some();
    (0..most).find(|i| differs(seed + i)).map(|i| i + 1)
}

/// The number of histories it took, and the sort of the last.
fn histories_tell_apart(mistake: Mistake, seed: u64, most: u64) -> Option<(u64, &'static str)> {
    let sort = |seed| {
        let history = history(seed);
        history_difference(&Library(Some(mistake)), &Library(Correct), &history).map(|_| history.sort)
    };
    (0..most).find_map(|i| sort(seed + i).map(|sort| (i + 1, sort)))
}

/// The number of pasts it took until a way on was spoiled.
fn ways_tell_apart(mistake: Mistake, seed: u64, most: u64) -> Option<u64> {
    let spoils = |seed| {
        let past = past(seed);
        way_trouble(&Library(Some(mistake)), &past.text(), past.spare).is_some()
    };
    (0..most).find(|i| spoils(seed + i)).map(|i| i + 1)
}

/// The first number whose text is wrong.
fn numbers_tell_apart(mistake: Mistake, numbers: &BTreeSet<u32>) -> Option<u32> {
    numbers.iter().copied().find(|&number| text_difference(&Library(Some(mistake)), number).is_some())
}

/// What sees a mistake: by the sort of input, and the first input of it.
struct SeenBy {
    script: Option<String>,
    memory: Option<String>,
    netting: Option<String>,
    history: Option<String>,
    way: Option<String>,
    number: Option<String>,
}

impl SeenBy {
    /// Scripts and memories make calls of the ledger, and no such call looks at a movement or at what waits; a netting looks
    /// at nothing that waits. Histories are looked through for what they alone show; a few of them for what a netting shows.
    fn of(mistake: Mistake, seed: u64, scripts: &Scripts, most: &Most, numbers: &BTreeSet<u32>) -> SeenBy {
        let (netting, waiting) = (mistake.is_of_netting(), mistake.is_of_waiting());
        let calls = !netting && !waiting;
        let histories = match (waiting, netting) {
            (true, _) => most.histories,
            (_, true) => most.histories / 20,
            _ => 0,
        };
        let script = calls.then(|| scripts.tell_apart(mistake)).flatten();
        let memory = calls.then(|| memories_tell_apart(mistake, seed, most.memories)).flatten();
        let netting = (!waiting).then(|| nettings_tell_apart(mistake, seed, most.nettings)).flatten();
        let way = calls.then(|| ways_tell_apart(mistake, seed, most.pasts)).flatten();
        SeenBy {
            script: script.map(|(place, sort)| format!("script {place} ({sort})")),
            memory: memory.map(|count| format!("memory {count}")),
            netting: netting.map(|count| format!("netting {count}")),
            history: histories_tell_apart(mistake, seed, histories)
                .map(|(count, sort)| format!("history {count} ({sort})")),
            way: way.map(|count| format!("past {count}")),
            number: numbers_tell_apart(mistake, numbers).map(|number| format!("number {number}")),
        }
    }

    fn row(&self, name: &str) -> String {
        let cell = |seen: &Option<String>| seen.clone().unwrap_or("-".to_string());
        let SeenBy { script, memory, netting, history, way, number } = self;
        let (script, memory, netting) = (cell(script), cell(memory), cell(netting));
        let (history, way, number) = (cell(history), cell(way), cell(number));
        format!("{name:28}{script:36}{memory:18}{netting:18}{history:32}{way:12}{number}")
    }

    fn sorts(&self) -> [(&'static str, bool); 6] {
        [
            ("scripts", self.script.is_some()),
            ("memories", self.memory.is_some()),
            ("nettings", self.netting.is_some()),
            ("histories", self.history.is_some()),
            ("ways", self.way.is_some()),
            ("numbers", self.number.is_some()),
        ]
    }
}

/// Prints which mistakes, of all or of those whose names begin so, are seen by what; true if none is missed.
pub fn tell(seed: u64, scripts: u64, most: &Most, named: &str) -> bool {
    let generated = Scripts::generate(seed, scripts);
    let Most { memories, nettings, histories, pasts } = most;
    let lines = generated.lines();
    let numbers = near_edges();
    println!(
        "{scripts} scripts ({lines} lines), up to {memories} memories, {nettings} nettings and {histories} histories"
    );
    println!(
        "of waiting movements, {pasts} pasts, seed {seed}; {} numbers near the edges of their ranges",
        numbers.len()
    );
    let mut groups: Vec<(String, Vec<&str>)> = Vec::new();
    for &mistake in Mistake::ALL.iter().filter(|mistake| mistake.name().starts_with(named)) {
        let seen = SeenBy::of(mistake, seed, &generated, most, &numbers);
        println!("{}", seen.row(mistake.name()));
        add(&mut groups, &seen.sorts(), mistake.name());
    }
    println!();
    groups.iter().for_each(|(by, names)| println!("{by} ({}): {}", names.len(), names.join(", ")));
    groups.iter().all(|(by, _)| by != MISSED)
}

const MISSED: &str = "missed";

/// Puts the name with those that the same sorts of input see.
fn add(groups: &mut Vec<(String, Vec<&'static str>)>, seen: &[(&str, bool)], name: &'static str) {
    let by: Vec<&str> = seen.iter().filter(|(_, seen)| *seen).map(|(sort, _)| *sort).collect();
    let by = if by.is_empty() { MISSED.to_string() } else { format!("seen by {}", by.join(", ")) };
    match groups.iter_mut().find(|(known, _)| *known == by) {
        Some((_, names)) => names.push(name),
        None => groups.push((by, vec![name])),
    }
}
