//! A ledger that is driven call by call and keeps a trace, for the generators and the hunt.

use crate::call::*;
use crate::certificate::Certificate;
use crate::field::field_text;
use crate::leader::leader;
use crate::memory::{header, replica_count, table_length, Memory, Replica, BLOCK_WORDS, CERTIFICATE_WORDS, MAX_F};
use crate::mistake::Rules;
use crate::steps::Steps;

/// A script line's numbers.
#[derive(Clone, PartialEq, Eq, Debug)]
pub struct Line {
    pub code: u32,
    pub replica: u32,
    pub number: u32,
    pub list: Vec<u32>,
}

impl Line {
    pub fn new(code: u32, replica: u32, number: u32, list: &[u32]) -> Line {
        Line { code, replica, number, list: list.to_vec() }
    }

    /// The line as yard reads it, without its line feed.
    pub fn text(&self) -> String {
        let numbers = [self.code, self.replica, self.number].into_iter().chain(self.list.iter().copied());
        numbers.map(field_text).collect()
    }
}

/// A script's text from its lines.
pub fn script_text(lines: &[Line]) -> Vec<u8> {
    lines.iter().flat_map(|line| (line.text() + "\n").into_bytes()).collect()
}

pub struct Driver<R: Rules> {
    pub rules: R,
    pub table: Vec<u32>,
    pub log: Vec<u32>,
    pub blocks: Vec<u32>,
    pub trace: Vec<(Line, Outcome)>,
}

impl<R: Rules> Driver<R> {
    /// A ledger opened without steps of its own.
    pub fn open(rules: R, f: u32, certificate_slots: usize, block_slots: usize) -> Driver<R> {
        Driver::open_with_steps(rules, f, &[], certificate_slots, block_slots)
    }

    /// A ledger opened with this list.
    pub fn open_with_steps(rules: R, f: u32, steps: &[u32], certificate_slots: usize, block_slots: usize) -> Driver<R> {
        let mut driver = Driver {
            rules,
            table: vec![0; table_length(f) as usize],
            log: vec![0; CERTIFICATE_WORDS * certificate_slots],
            blocks: vec![0; BLOCK_WORDS * block_slots],
            trace: Vec::new(),
        };
        driver.reopen(f, steps);
        driver
    }

    /// A copy of a ledger, without the calls that led to it.
    pub fn on(rules: R, m: &Memory) -> Driver<R> {
        let (table, log, blocks) = (m.table.to_vec(), m.log.to_vec(), m.blocks.to_vec());
        Driver { rules, table, log, blocks, trace: Vec::new() }
    }

    /// Opens again, with a table of the length for f; where that is refused, the table in use stays.
    pub fn reopen(&mut self, f: u32, steps: &[u32]) -> Outcome {
        let in_use = self.table.clone();
        if (1..=MAX_F).contains(&f) {
            self.table.resize(table_length(f) as usize, 0);
        }
        let outcome = self.call(OPEN, f, 0, steps);
        if !outcome.is_accepted() {
            self.table = in_use;
        }
        outcome
    }

    pub fn memory(&mut self) -> Memory<'_> {
        Memory { table: &mut self.table, log: &mut self.log, blocks: &mut self.blocks }
    }

    pub fn call(&mut self, code: u32, replica: u32, number: u32, list: &[u32]) -> Outcome {
        let rules = self.rules;
        let outcome = call(rules, &mut self.memory(), code, replica, number, list);
        self.trace.push((Line::new(code, replica, number, list), outcome));
        outcome
    }

    /// The first value of an accepted call.
    pub fn accepted(&mut self, code: u32, replica: u32, number: u32, list: &[u32]) -> Option<u32> {
        let outcome = self.call(code, replica, number, list);
        outcome.is_accepted().then_some(outcome.first)
    }

    pub fn f(&self) -> u32 {
        self.table[header::F]
    }

    pub fn n(&self) -> u32 {
        replica_count(self.f())
    }

    pub fn leader(&self, view: u32) -> Option<u32> {
        leader(view, self.n())
    }

    pub fn issued(&self) -> u32 {
        self.table[header::ISSUED]
    }

    pub fn added(&self) -> u32 {
        self.table[header::ADDED]
    }

    pub fn parent(&mut self, block: u32) -> u32 {
        self.memory().parent(block)
    }

    pub fn steps(&mut self) -> Steps {
        self.memory().steps()
    }

    pub fn replica(&mut self, replica: u32) -> Replica {
        self.memory().replica(replica)
    }

    pub fn certificate(&mut self, number: u32) -> Certificate {
        self.memory().certificate(number)
    }

    /// Numbers of the issued certificates that pass a test.
    pub fn issued_where(&mut self, test: impl Fn(Certificate) -> bool) -> Vec<u32> {
        let memory = self.memory();
        (0..memory.issued()).filter(|&number| test(memory.certificate(number))).collect()
    }

    pub fn lines(&self) -> Vec<Line> {
        self.trace.iter().map(|(line, _)| line.clone()).collect()
    }
}
