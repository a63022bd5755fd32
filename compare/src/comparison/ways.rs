//! A checker in states reached from an opening: where the premises of a way on hold (document 02, #109), its calls are made, and
//! none may be refused.

use super::checkers::Checker;
use super::renumber::read_call;
use crate::call::{Outcome, OPEN};
use crate::driver::Line;
use crate::form::well_formed;
use crate::generate::memory::Sample;
use crate::memory::{table_length, Memory, BLOCK_WORDS, CERTIFICATE_WORDS, MAX_F};
use crate::mistake::{Correct, Mistake};
use crate::script::{BLOCK_SLOTS, CERTIFICATE_SLOTS};
use crate::way_choice::choose;
use crate::way_on::{decision_slots, go_on, numbered_answers, numbered_calls, Ledger};

/// Mistakes by which some past has a way on that is refused.
pub const WEDGING: &[Mistake] = &[
    Mistake::ViewKeepsFlag,
    Mistake::PrepareBeforeEntering,
    Mistake::StoreAboveMinView,
    Mistake::LeaderPastLast,
    Mistake::OldLeader,
    Mistake::PrepareOldLeader,
    Mistake::StoreOldLeader,
    Mistake::AccumulateOneBoot,
    Mistake::CommitsOneBoot,
    Mistake::NineTooEarly,
    Mistake::NineBlocksEarly,
    Mistake::BlockHeightLast,
    Mistake::RefuseAll,
];

/// A ledger over a checker.
struct Checked<'a> {
    checker: &'a dyn Checker,
    sample: Sample,
}

impl Ledger for Checked<'_> {
    /// An opening gets a table of the length for its f; where it is refused, the table in use stays.
    fn answer(&mut self, line: &Line) -> Outcome {
        let in_use = self.sample.table.clone();
        if line.code == OPEN && (1..=MAX_F).contains(&line.replica) {
            self.sample.table.resize(table_length(line.replica) as usize, 0);
        }
        self.sample.line = line.clone();
        let outcome = self.checker.call(&mut self.sample);
        if line.code == OPEN && !outcome.is_accepted() {
            self.sample.table = in_use;
        }
        outcome
    }

    fn words(&mut self) -> Memory<'_> {
        self.sample.memory()
    }
}

/// A way that was gone: its calls with their answers, and what is wrong with them, if anything is.
pub struct Gone {
    pub calls: Vec<(Line, Outcome)>,
    pub trouble: Option<String>,
}

/// Runs a past, leaves of the free slots what a decision needs and so many more, and goes on; none where there is no way.
pub fn gone(checker: &dyn Checker, past: &[u8], spare: u32) -> Option<Gone> {
    let sample = Sample {
        table: Vec::new(),
        log: vec![0; CERTIFICATE_WORDS * CERTIFICATE_SLOTS],
        blocks: vec![0; BLOCK_WORDS * BLOCK_SLOTS],
        line: Line::new(OPEN, 0, 0, &[]),
    };
    let mut ledger = Checked { checker, sample };
    for line in past.split_inclusive(|&byte| byte == b'\n').filter_map(read_call) {
        ledger.answer(&line);
    }
    let m = ledger.words();
    if !well_formed(Correct, &m) {
        return None;
    }
    let slots = m.issued() + decision_slots(m.f()) + spare;
    let block_slots = m.added() + 1 + spare;
    ledger.sample.log.truncate(CERTIFICATE_WORDS * slots as usize);
    ledger.sample.blocks.truncate(BLOCK_WORDS * block_slots as usize);
    let m = ledger.words();
    let way = choose(&m).ok()?;
    let (calls, answers) = (numbered_calls(&m, &way), numbered_answers(&m, &way));
    let gone = go_on(&mut ledger, &way);
    let expected: Vec<_> = calls.into_iter().zip(answers).collect();
    let wrong = (0..gone.len()).find(|&place| gone.get(place) != expected.get(place));
    let trouble = wrong.map(|place| told(place + 1, &gone[place], &expected[place]));
    Some(Gone { calls: gone, trouble })
}

fn told(number: usize, made: &(Line, Outcome), expected: &(Line, Outcome)) -> String {
    let text = |outcome: &Outcome| format!("{} {} {}", outcome.answer, outcome.first, outcome.second);
    if made.0 != expected.0 {
        return format!("call {number} of the way is{}, not{}", made.0.text(), expected.0.text());
    }
    format!("call {number} of the way is answered {}, not {}", text(&made.1), text(&expected.1))
}

/// What is wrong with the way from a past; nothing where there is none.
pub fn way_trouble(checker: &dyn Checker, past: &[u8], spare: u32) -> Option<String> {
    gone(checker, past, spare)?.trouble
}
