//! The script program: lines of fields in, line number, answer and both values out.

use crate::call::{call, is_call, Outcome, MAX_LIST, OPEN};
use crate::field::{read_number, write_number, COLUMNS, MAX_NUMBER, NO_NUMBER};
use crate::memory::{table_length, Memory, BLOCK_WORDS, CERTIFICATE_WORDS, MAX_F};
use crate::mistake::{Mistake, Rules};
use crate::refusal::UNREADABLE;

pub const CERTIFICATE_SLOTS: usize = 2048;
pub const BLOCK_SLOTS: usize = 1024;
/// Call code, replica and number; a list may follow.
pub const MIN_FIELDS: usize = 3;
pub const MAX_FIELDS: usize = MIN_FIELDS + MAX_LIST;
/// Bytes of the longest line that can be read, without its line feed.
pub const MAX_LINE_BYTES: usize = MAX_FIELDS * COLUMNS;
/// The last line that is answered: a field can hold no greater number.
pub const MAX_LINES: u32 = MAX_NUMBER;
/// Line number, answer and both values, and the line feed.
pub const ANSWER_BYTES: usize = 4 * COLUMNS + 1;
/// The bytes that yard asks for at once.
pub const INPUT_CHUNK: usize = 8192;

/// The ledger, the line so far and the number of lines answered. Bytes may come in chunks of any size.
pub struct Program<R: Rules> {
    rules: R,
    table: Vec<u32>,
    log: Vec<u32>,
    blocks: Vec<u32>,
    /// f last opened; 0 before the first accepted opening, when no table is lent.
    f: u32,
    /// The line's bytes up to one more than a readable line has.
    line: Vec<u8>,
    lines: u32,
}

impl<R: Rules> Program<R> {
    pub fn new(rules: R) -> Program<R> {
        Program {
            rules,
            table: vec![0; table_length(MAX_F) as usize],
            log: vec![0; CERTIFICATE_SLOTS * CERTIFICATE_WORDS],
            blocks: vec![0; BLOCK_SLOTS * BLOCK_WORDS],
            f: 0,
            line: Vec::with_capacity(MAX_LINE_BYTES + 1),
            lines: 0,
        }
    }

    /// Reading stops after the last line.
    pub fn is_done(&self) -> bool {
        self.lines == MAX_LINES
    }

    /// Counts lines as answered already, so that a test can come near the last one.
    pub fn skip_lines(&mut self, lines: u32) {
        self.lines = lines;
    }

    pub fn feed(&mut self, input: &[u8], out: &mut Vec<u8>) {
        if self.rules.has(Mistake::TextHeldLost) {
            self.line.clear();
        }
        let most = MAX_LINE_BYTES + usize::from(!self.rules.has(Mistake::TextLongLineCut));
        for piece in input.split_inclusive(|&byte| byte == b'\n') {
            if self.is_done() {
                return;
            }
            let (text, ended) = match piece.split_last() {
                Some((b'\n', text)) => (text, true),
                _ => (piece, false),
            };
            let room = most - self.line.len();
            self.line.extend_from_slice(&text[..text.len().min(room)]);
            if ended {
                self.answer_line(out);
            }
        }
    }

    /// A last line may lack its line feed.
    pub fn finish(&mut self, out: &mut Vec<u8>) {
        if !self.line.is_empty() && !self.is_done() && !self.rules.has(Mistake::TextLastLine) {
            self.answer_line(out);
        }
    }

    fn answer_line(&mut self, out: &mut Vec<u8>) {
        if self.rules.has(Mistake::TextCarriageReturn) && self.line.last() == Some(&b'\r') {
            self.line.pop();
        }
        let mut fields = [0; MAX_FIELDS];
        let outcome = match read_fields(self.rules, &self.line, &mut fields) {
            Some(count) => self.answer(&fields[..count]),
            None => Outcome::from(Err(UNREADABLE)),
        };
        self.line.clear();
        self.lines += 1;
        write_line(self.rules, self.lines, outcome, out);
    }

    /// Lends a table of the length for the f being opened, or else of the one last opened.
    fn answer(&mut self, fields: &[u32]) -> Outcome {
        let (code, replica, number, list) = (fields[0], fields[1], fields[2], &fields[MIN_FIELDS..]);
        if !is_call(self.rules, code, replica, number, list) {
            return Outcome::from(Err(UNREADABLE));
        }
        let opening = code == OPEN && (1..=MAX_F).contains(&replica);
        let f = if opening { replica } else { self.f };
        let outcome = call(self.rules, &mut self.lent(f), code, replica, number, list);
        if opening && (outcome.is_accepted() || self.rules.has(Mistake::OpenRefusedLends)) {
            self.f = f;
        }
        outcome
    }

    /// With a table of the length for f; without one where f is 0.
    fn lent(&mut self, f: u32) -> Memory<'_> {
        let words = if f == 0 { 0 } else { table_length(f) as usize };
        Memory { table: &mut self.table[..words], log: &mut self.log, blocks: &mut self.blocks }
    }

    /// The memory as the lines so far leave it.
    pub fn memory(&mut self) -> Memory<'_> {
        self.lent(self.f)
    }
}

/// The line's numbers, or none if it is no line of fields.
fn read_fields<R: Rules>(rules: R, line: &[u8], fields: &mut [u32; MAX_FIELDS]) -> Option<usize> {
    let count = line.len() / COLUMNS;
    if !line.len().is_multiple_of(COLUMNS) || !(MIN_FIELDS..=MAX_FIELDS).contains(&count) {
        return None;
    }
    for (field, bytes) in fields.iter_mut().zip(line.chunks_exact(COLUMNS)) {
        *field = read_number(rules, bytes);
        if *field == NO_NUMBER {
            return None;
        }
    }
    Some(count)
}

/// Line number, answer and both values in their columns.
fn write_line<R: Rules>(rules: R, line: u32, outcome: Outcome, out: &mut Vec<u8>) {
    for number in [line, outcome.answer, outcome.first, outcome.second] {
        let mut bytes = [b' '; COLUMNS];
        write_number(rules, number, &mut bytes);
        out.extend_from_slice(&bytes);
    }
    out.push(b'\n');
}

/// A whole script's output, read by chunks.
pub fn run<R: Rules>(rules: R, input: &[u8]) -> Vec<u8> {
    let mut program = Program::new(rules);
    let mut out = Vec::new();
    input.chunks(INPUT_CHUNK).for_each(|chunk| program.feed(chunk, &mut out));
    program.finish(&mut out);
    out
}
