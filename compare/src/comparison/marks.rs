//! What a script's line can show that the generators are meant to reach.

use super::cut_marks::{self, Issued, Shown};
use super::way_marks::{self, Made, Taken};
use super::{height_marks, step_marks};
use crate::call::*;
use crate::certificate::{Certificate, ADDED, FOUND};
use crate::field::{read_number, COLUMNS, NO_NUMBER};
use crate::memory::{Memory, Replica, CEILING};
use crate::mistake::Correct;
use crate::refusal::*;
use crate::script::{Program, CERTIFICATE_SLOTS, INPUT_CHUNK, MAX_LINE_BYTES, MIN_FIELDS};
use crate::steps::{Steps, LAST_STEP_BOOT};
use std::collections::HashSet;

/// A line and what it gives.
pub struct Seen<'a> {
    /// Where it starts in the script.
    start: usize,
    /// Without its line feed.
    text: &'a [u8],
    fed: bool,
    pub code: u32,
    pub outcome: Outcome,
    /// It was accepted before in this ledger, word for word.
    again: bool,
    /// Before it, no slot of the log is free.
    full: bool,
    /// Of an accepted prepare.
    proposal: Option<Proposal>,
    /// The line's numbers, up to the first that cannot be read.
    numbers: Vec<u32>,
    /// Of the ledger in use, before the line.
    pub steps: Option<Steps>,
    /// After the line, where it names one of the ledger in use.
    pub replica: Option<Replica>,
    /// Since its last accepted opening, another f was refused with wrong steps.
    pub other_refused: bool,
    /// The block that an accepted block or decide gives.
    pub named: Option<Named>,
    /// The certificate that it issues, or would issue if the log had room.
    pub issued: Option<Issued>,
    /// The certificates that it names.
    pub shown: Vec<Shown>,
    /// It is the decide of a way on.
    pub way: Option<Taken>,
}

pub struct Named {
    pub number: u32,
    pub height: u32,
    /// Of the block before it in number.
    pub height_before: u32,
}

struct Proposal {
    view: u32,
    /// Its leader, one of n.
    replica: u32,
    n: u32,
    /// How many views in a row have a proposal, up to this one.
    turns: u32,
}

/// What the lines since the last accepted opening leave.
#[derive(Default)]
struct Ledger<'a> {
    accepted: HashSet<&'a [u8]>,
    issued: usize,
    /// View and turns of the last proposal.
    last: (u32, u32),
    other_refused: bool,
    made: Vec<Made>,
}

impl<'a> Ledger<'a> {
    fn note(&mut self, text: &'a [u8], code: u32, outcome: Outcome) {
        if code == OPEN && outcome.is_accepted() {
            *self = Ledger::default();
        }
        if outcome.is_accepted() {
            self.accepted.insert(text);
        }
        self.issued += usize::from(outcome.filed(code) == Some(ADDED));
    }

    /// Whether there was one before this line.
    fn note_refused_opening(&mut self, program: &mut Program<Correct>, numbers: &[u32], outcome: Outcome) -> bool {
        let before = self.other_refused;
        if let [OPEN, f, ..] = *numbers {
            let other = in_use(program).is_some_and(|memory| memory.f() != f);
            self.other_refused |= other && outcome.answer == WRONG_STEPS;
        }
        before
    }

    fn way(&mut self, program: &mut Program<Correct>, numbers: &[u32], outcome: Outcome) -> Option<Taken> {
        self.made.push((numbers.to_vec(), outcome));
        in_use(program).and_then(|memory| Taken::by_lines(&memory, &self.made))
    }

    fn proposal(&mut self, program: &mut Program<Correct>, code: u32, outcome: Outcome) -> Option<Proposal> {
        if !outcome.is_accepted() || ![PREPARE_ACC, PREPARE_COMMITS].contains(&code) {
            return None;
        }
        let memory = program.memory();
        let Certificate { view, signer: replica, .. } = memory.certificate(outcome.first);
        let turns = if view == self.last.0 + 1 { self.last.1 + 1 } else { 1 };
        self.last = (view, turns);
        Some(Proposal { view, replica, n: memory.replicas(), turns })
    }
}

impl Seen<'_> {
    pub fn is(&self, code: u32, answer: u32) -> bool {
        self.code == code && self.outcome.answer == answer
    }

    pub fn number(&self) -> Option<u32> {
        self.numbers.get(MIN_FIELDS - 1).copied()
    }

    pub fn list(&self) -> &[u32] {
        self.numbers.get(MIN_FIELDS..).unwrap_or(&[])
    }

    fn is_long(&self) -> bool {
        self.text.len() > MAX_LINE_BYTES
    }

    /// Where its line feed is, or would be.
    fn end(&self) -> usize {
        self.start + self.text.len()
    }

    /// Some of its bytes are in one chunk, others in the next.
    fn goes_on(&self) -> bool {
        !self.text.is_empty() && self.start / INPUT_CHUNK < (self.end() - 1) / INPUT_CHUNK
    }

    fn filed(&self, code: u32, told: u32) -> bool {
        self.code == code && self.outcome.filed(code) == Some(told)
    }

    fn proposes(&self, test: fn(&Proposal) -> bool) -> bool {
        self.proposal.as_ref().is_some_and(test)
    }

    fn found_in_full_log(&self) -> bool {
        self.full && self.outcome.filed(self.code) == Some(FOUND)
    }

    fn wrong_list(&self) -> bool {
        [PREPARE_COMMITS, ACCUMULATE, DECIDE, RECOVER].contains(&self.code)
            && [OUT_OF_RANGE, UNKNOWN_NUMBER, WRONG_CERTIFICATE].contains(&self.outcome.answer)
    }
}

type Mark = (&'static str, fn(&Seen) -> bool);

const MARKS: &[Mark] = &[
    ("decisions", |seen| seen.is(DECIDE, ACCEPTED)),
    ("proposals on commits", |seen| seen.is(PREPARE_COMMITS, ACCEPTED)),
    ("proposals of view 1, by replica 0", |seen| seen.proposes(|made| made.view == 1 && made.replica == 0)),
    ("proposals by the last replica", |seen| seen.proposes(|made| made.replica + 1 == made.n)),
    ("proposals by replica 0 again, after a whole round of turns", |seen| {
        seen.proposes(|made| made.replica == 0 && made.turns > made.n)
    }),
    ("power cuts", |seen| seen.is(REBOOT, ACCEPTED)),
    ("recoveries", |seen| seen.is(RECOVER, ACCEPTED)),
    ("wrong lists", |seen| seen.wrong_list()),
    ("old certificates: a proposal below the lowest view", |seen| seen.is(STORE, WRONG_VIEW)),
    ("boots past the last step", |seen| seen.is(REBOOT, ACCEPTED) && seen.outcome.first > LAST_STEP_BOOT),
    ("a limit of just the ceiling", |seen| seen.is(RESERVE, ACCEPTED) && seen.outcome.first == CEILING),
    ("reserves past the ceiling", |seen| seen.is(RESERVE, COUNTER_LIMIT)),
    ("retired replicas that reserve", |seen| seen.is(RESERVE, WRONG_STATUS)),
    ("full log: view", |seen| seen.is(VIEW, NO_ROOM)),
    ("full log: store", |seen| seen.is(STORE, NO_ROOM)),
    ("full log: accumulate", |seen| seen.is(ACCUMULATE, NO_ROOM)),
    ("full log: prepare", |seen| seen.is(PREPARE_ACC, NO_ROOM) || seen.is(PREPARE_COMMITS, NO_ROOM)),
    ("full log: request", |seen| seen.is(REQUEST, NO_ROOM)),
    ("full log: reply", |seen| seen.is(REPLY_TO, NO_ROOM)),
    ("full blocks", |seen| seen.is(BLOCK, NO_ROOM)),
    ("again: view, found", |seen| seen.again && seen.filed(VIEW, FOUND)),
    ("again: accumulate, found", |seen| seen.again && seen.filed(ACCUMULATE, FOUND)),
    ("again: request, found", |seen| seen.again && seen.filed(REQUEST, FOUND)),
    ("again: reply, found", |seen| seen.again && seen.filed(REPLY_TO, FOUND)),
    ("again: request, added after another cut", |seen| seen.again && seen.filed(REQUEST, ADDED)),
    ("again: reply, added with other stored words", |seen| seen.again && seen.filed(REPLY_TO, ADDED)),
    ("again: prepare, refused by its flag or lowest view", |seen| {
        seen.again && (seen.is(PREPARE_ACC, WRONG_VIEW) || seen.is(PREPARE_COMMITS, WRONG_VIEW))
    }),
    ("again: store, refused by its lowest view", |seen| seen.again && seen.is(STORE, WRONG_VIEW)),
    ("again: block, another one", |seen| seen.again && seen.is(BLOCK, ACCEPTED)),
    ("another list: accumulate, found", |seen| !seen.again && seen.filed(ACCUMULATE, FOUND)),
    ("full log: found", |seen| seen.found_in_full_log()),
    ("calls before any opening", |seen| seen.code != OPEN && seen.outcome.answer == WRONG_FORM),
    ("last lines without a line feed", |seen| !seen.fed),
    ("empty lines", |seen| seen.text.is_empty()),
    ("readable lines of the most fields", |seen| {
        seen.text.len() == MAX_LINE_BYTES && seen.outcome.answer != UNREADABLE
    }),
    ("lines of one byte too many", |seen| seen.text.len() == MAX_LINE_BYTES + 1),
    ("lines of several bytes too many", |seen| seen.text.len() > MAX_LINE_BYTES + 1),
    ("lines over a chunk's end", |seen| seen.goes_on()),
    ("accepted lines over a chunk's end", |seen| seen.goes_on() && seen.outcome.is_accepted()),
    ("accepted lines of the most fields over a chunk's end", |seen| {
        seen.goes_on() && seen.text.len() == MAX_LINE_BYTES && seen.outcome.is_accepted()
    }),
    ("lines too long over a chunk's end", |seen| seen.goes_on() && seen.is_long()),
    ("lines too long, with fewer bytes after a chunk's end", |seen| {
        seen.goes_on() && seen.is_long() && seen.end() % INPUT_CHUNK <= MAX_LINE_BYTES
    }),
    ("lines that fill a chunk or more", |seen| seen.text.len() >= INPUT_CHUNK),
    ("line feeds that end a chunk", |seen| seen.fed && seen.end() % INPUT_CHUNK == INPUT_CHUNK - 1),
    ("line feeds that begin a chunk", |seen| seen.fed && !seen.text.is_empty() && seen.end() % INPUT_CHUNK == 0),
];

/// Every mark's name.
pub fn names() -> Vec<String> {
    let marks = MARKS.iter().map(|(mark, _)| mark.to_string());
    marks
        .chain(step_marks::script_names())
        .chain(height_marks::script_names())
        .chain(cut_marks::script_names())
        .chain(way_marks::script_names())
        .collect()
}

/// In the order of the names.
pub fn hits(seen: &Seen) -> Vec<bool> {
    let marks = MARKS.iter().map(|(_, holds)| holds(seen));
    marks
        .chain(step_marks::script_hits(seen))
        .chain(height_marks::script_hits(seen))
        .chain(cut_marks::script_hits(seen))
        .chain(way_marks::script_hits(seen))
        .collect()
}

/// Shows every line of a script.
pub fn seen_lines(script: &[u8], mut show: impl FnMut(Seen)) {
    let mut program = Program::new(Correct);
    let mut ledger = Ledger::default();
    let mut start = 0;
    for line in script.split_inclusive(|&byte| byte == b'\n') {
        let text = line.strip_suffix(b"\n").unwrap_or(line);
        let steps = in_use(&mut program).map(|memory| memory.steps());
        let outcome = answered(&mut program, line);
        let numbers: Vec<u32> = numbers(text).collect();
        let code = numbers.first().copied().unwrap_or(NO_NUMBER);
        let replica = numbers.get(1).and_then(|&replica| named_replica(&mut program, replica));
        let (again, full) = (ledger.accepted.contains(text), ledger.issued == CERTIFICATE_SLOTS);
        let proposal = ledger.proposal(&mut program, code, outcome);
        let named = named_block(&mut program, code, outcome);
        let issued = in_use(&mut program).and_then(|memory| Issued::by_line(memory, &numbers, outcome));
        let shown = in_use(&mut program).map_or(Vec::new(), |memory| Shown::by_line(&memory, &numbers));
        let other_refused = ledger.note_refused_opening(&mut program, &numbers, outcome);
        let way = ledger.way(&mut program, &numbers, outcome);
        show(Seen {
            start,
            text,
            fed: text.len() < line.len(),
            code,
            outcome,
            again,
            full,
            proposal,
            numbers,
            steps,
            replica,
            other_refused,
            named,
            issued,
            shown,
            way,
        });
        ledger.note(text, code, outcome);
        start += line.len();
    }
}

/// The numbers of a line's fields, up to the first that cannot be read.
fn numbers(text: &[u8]) -> impl Iterator<Item = u32> + '_ {
    text.chunks(COLUMNS).map(|field| read_number(Correct, field)).take_while(|&number| number != NO_NUMBER)
}

/// None before the first accepted opening.
fn in_use(program: &mut Program<Correct>) -> Option<Memory<'_>> {
    Some(program.memory()).filter(|memory| !memory.table.is_empty())
}

fn named_replica(program: &mut Program<Correct>, replica: u32) -> Option<Replica> {
    let memory = in_use(program)?;
    memory.is_replica(replica).then(|| memory.replica(replica))
}

fn named_block(program: &mut Program<Correct>, code: u32, outcome: Outcome) -> Option<Named> {
    let gives_block = outcome.is_accepted() && [BLOCK, DECIDE].contains(&code);
    let memory = in_use(program).filter(|_| gives_block)?;
    let number = outcome.first;
    Some(Named { number, height: memory.height(number), height_before: memory.height(number.saturating_sub(1)) })
}

/// What the program gives for one more line; only the last may lack its line feed.
fn answered(program: &mut Program<Correct>, line: &[u8]) -> Outcome {
    let mut out = Vec::new();
    program.feed(line, &mut out);
    program.finish(&mut out);
    let number = |field: usize| read_number(Correct, &out[COLUMNS * field..COLUMNS * (field + 1)]);
    Outcome { answer: number(1), first: number(2), second: number(3) }
}
