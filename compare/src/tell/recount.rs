//! A script line by line: what each line asks, what the library answers, and what that changed.

use super::given::given;
use super::reason::{reason, Reason};
use super::unreadable::read_call;
use super::words::{asks, is_open, kind_name};
use crate::block::Block;
use crate::call::*;
use crate::certificate::Certificate;
use crate::driver::Line;
use crate::field::{read_number, COLUMNS};
use crate::memory::{Memory, Replica};
use crate::mistake::Correct;
use crate::refusal::UNREADABLE;
use crate::script::Program;
use crate::steps::Steps;
use crate::way_choice::{choose, WhyNot};
use crate::way_on::{numbered_calls, Way};

/// A script's lines, and the ledger that the last of them leaves: none before an accepted opening.
pub struct Recount {
    pub entries: Vec<Entry>,
    pub ledger: Option<Ledger>,
}

/// One line with its answer.
pub struct Entry {
    /// Counted from 1.
    pub line: u32,
    /// The call, unless the line is none.
    pub call: Option<Line>,
    /// What the line asks, in words.
    pub asks: String,
    pub outcome: Outcome,
    pub answered: Answered,
    /// Of an accepted call with a replica: that one before and after.
    pub change: Option<Change>,
    /// The issued certificates that the call names.
    pub named: Vec<Filed>,
    /// What an accepted issuing call added or found.
    pub issued: Option<Filed>,
    /// f of the ledger in use after the line; 0 before the first accepted opening.
    pub f: u32,
}

pub enum Answered {
    /// What was given and changed.
    Accepted(String),
    Refused(Reason),
}

/// A certificate with its number in the log.
#[derive(Clone, Copy)]
pub struct Filed {
    pub number: u32,
    pub certificate: Certificate,
}

#[derive(Clone, Copy)]
pub struct Change {
    pub before: Shown,
    pub after: Shown,
}

/// A replica's words and what its panel shows.
#[derive(Clone, Copy)]
pub struct Shown {
    pub replica: Replica,
    pub panel: u32,
}

/// A ledger's contents.
pub struct Ledger {
    pub f: u32,
    pub steps: Steps,
    pub replicas: Vec<Shown>,
    pub certificates: Vec<Certificate>,
    pub blocks: Vec<Block>,
    pub next: Result<Next, WhyNot>,
}

/// A way on from here, and its calls.
pub struct Next {
    pub way: Way,
    pub calls: Vec<Line>,
}

impl Recount {
    pub fn of(script: &[u8]) -> Recount {
        let mut program = Program::new(Correct);
        let mut entries = Vec::new();
        for line in script.split_inclusive(|&byte| byte == b'\n') {
            if program.is_done() {
                break;
            }
            let text = line.strip_suffix(b"\n").unwrap_or(line);
            entries.push(entry(&mut program, text, entries.len() as u32 + 1));
        }
        Recount { entries, ledger: Ledger::of(&program.memory()) }
    }

    /// The lines since the last accepted opening, that one included.
    pub fn since_opening(&self) -> &[Entry] {
        let opening = self.entries.iter().rposition(|entry| entry.is_accepted(OPEN));
        &self.entries[opening.unwrap_or(0)..]
    }
}

impl Entry {
    /// An accepted call of that code.
    pub fn is_accepted(&self, code: u32) -> bool {
        self.outcome.is_accepted() && self.call.as_ref().is_some_and(|call| call.code == code)
    }
}

impl Filed {
    /// As "PROP 3".
    pub fn name(&self) -> String {
        format!("{} {}", kind_name(self.certificate.kind), self.number)
    }
}

impl Shown {
    fn of(m: &Memory, replica: u32) -> Option<Shown> {
        if !is_open(m) || !m.is_replica(replica) {
            return None;
        }
        let words = m.replica(replica);
        Some(Shown { replica: words, panel: m.height(words.decided_block) })
    }

    /// Of the replica that calls.
    fn caller(m: &Memory, call: &Line) -> Option<Shown> {
        if matches!(call.code, OPEN | BLOCK) {
            return None;
        }
        Shown::of(m, call.replica)
    }
}

impl Ledger {
    fn of(m: &Memory) -> Option<Ledger> {
        if !is_open(m) {
            return None;
        }
        Some(Ledger {
            f: m.f(),
            steps: m.steps(),
            replicas: (0..m.replicas()).filter_map(|replica| Shown::of(m, replica)).collect(),
            certificates: (0..m.issued()).map(|number| m.certificate(number)).collect(),
            blocks: (0..m.added()).filter_map(|number| Block::at(m.blocks, number)).collect(),
            next: choose(m).map(|way| Next { calls: numbered_calls(m, &way), way }),
        })
    }
}

fn entry(program: &mut Program<Correct>, text: &[u8], line: u32) -> Entry {
    let read = read_call(text);
    let words = read.as_ref().map_or("no call".to_string(), |call| asks(&program.memory(), call));
    let before = read.as_ref().ok().and_then(|call| Shown::caller(&program.memory(), call));
    let outcome = answer(program, text);
    let m = program.memory();
    let (f, accepted) = (if is_open(&m) { m.f() } else { 0 }, outcome.is_accepted());
    let (call, answered, change) = match read {
        Err(words) => (None, Answered::Refused(Reason { number: UNREADABLE, words }), None),
        Ok(call) if !accepted => {
            let reason = reason(&m, &call);
            (Some(call), Answered::Refused(reason), None)
        }
        Ok(call) => {
            let change = before.zip(Shown::caller(&m, &call)).map(|(before, after)| Change { before, after });
            let words = given(&m, &call, outcome, change);
            (Some(call), Answered::Accepted(words), change)
        }
    };
    let issues = accepted && call.as_ref().is_some_and(|call| ISSUING.contains(&call.code));
    let issued = issues.then(|| filed(&m, outcome.first));
    let named = call.as_ref().map_or(Vec::new(), |call| named(&m, call));
    Entry { line, call, asks: words, outcome, answered, change, named, issued, f }
}

/// The answer as the program prints it.
fn answer(program: &mut Program<Correct>, text: &[u8]) -> Outcome {
    let mut out = Vec::new();
    program.feed(text, &mut out);
    program.feed(b"\n", &mut out);
    let field = |place: usize| read_number(Correct, &out[COLUMNS * place..COLUMNS * (place + 1)]);
    Outcome { answer: field(1), first: field(2), second: field(3) }
}

fn filed(m: &Memory, number: u32) -> Filed {
    Filed { number, certificate: m.certificate(number) }
}

fn named(m: &Memory, call: &Line) -> Vec<Filed> {
    let numbers = match call.code {
        _ if !is_open(m) => &[],
        STORE | REPLY_TO => std::slice::from_ref(&call.number),
        OPEN => &[],
        _ => call.list.as_slice(),
    };
    numbers.iter().filter(|&&number| m.is_issued(number)).map(|&number| filed(m, number)).collect()
}
