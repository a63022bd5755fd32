//! Leaves lines out of a script and keeps the others' meaning: a line that names a certificate or a block goes on
//! naming what the same earlier line made, under the number it has in the shorter script.

use crate::call::*;
use crate::certificate::ADDED;
use crate::driver::{Driver, Line};
use crate::field::{read_number, COLUMNS, MAX_NUMBER, NO_NUMBER};
use crate::mistake::Correct;
use crate::script::{BLOCK_SLOTS, CERTIFICATE_SLOTS, MAX_FIELDS, MIN_FIELDS};

/// A script's lines; those that make no call have their bytes alone.
pub struct Lines {
    texts: Vec<Vec<u8>>,
    calls: Vec<Option<Line>>,
    /// For each line what its number and its list's numbers name: the places of the lines that made them.
    names: Vec<(Option<usize>, Vec<Option<usize>>)>,
}

/// Which line made each certificate and each block of the ledger in use.
#[derive(Default)]
struct Makers {
    certificates: Vec<usize>,
    blocks: Vec<usize>,
}

impl Lines {
    pub fn read(script: &[u8]) -> Lines {
        let texts: Vec<Vec<u8>> = script.split_inclusive(|&byte| byte == b'\n').map(<[u8]>::to_vec).collect();
        let calls: Vec<Option<Line>> = texts.iter().map(|text| read_call(text)).collect();
        let mut makers = Makers::default();
        let mut driver = unopened();
        let mut names = Vec::new();
        for (place, line) in calls.iter().enumerate() {
            let Some(line) = line else {
                names.push((None, Vec::new()));
                continue;
            };
            names.push(makers.named(line));
            let outcome = step(&mut driver, line);
            makers.note(line, outcome, place);
        }
        Lines { texts, calls, names }
    }

    pub fn count(&self) -> usize {
        self.texts.len()
    }

    /// The script of the kept lines, in their order.
    pub fn keep(&self, kept: &[usize]) -> Vec<u8> {
        let mut driver = unopened();
        let mut made = vec![None; self.texts.len()];
        let mut script = Vec::new();
        for &place in kept {
            let Some(line) = &self.calls[place] else {
                script.extend(&self.texts[place]);
                continue;
            };
            let line = self.renumbered(place, line, &made);
            let outcome = step(&mut driver, &line);
            made[place] = outcome.is_accepted().then_some(outcome.first);
            script.extend(line.text().into_bytes());
            script.push(b'\n');
        }
        script
    }

    fn renumbered(&self, place: usize, line: &Line, made: &[Option<u32>]) -> Line {
        let (number, list) = &self.names[place];
        let now = |named: &Option<usize>, old: u32| named.map_or(old, |maker| made[maker].unwrap_or(MAX_NUMBER));
        let mut line = line.clone();
        line.number = now(number, line.number);
        for (number, named) in line.list.iter_mut().zip(list) {
            *number = now(named, *number);
        }
        line
    }
}

impl Makers {
    fn named(&self, line: &Line) -> (Option<usize>, Vec<Option<usize>>) {
        let certificate = |number: u32| self.certificates.get(number as usize).copied();
        let number = match line.code {
            STORE | REPLY_TO => certificate(line.number),
            // Block 0 is there from the opening on, so the first block made is number 1.
            BLOCK | PREPARE_ACC | PREPARE_COMMITS if line.number > 0 => {
                self.blocks.get(line.number as usize - 1).copied()
            }
            _ => None,
        };
        // An opening's list is steps.
        let named = |&number: &u32| if line.code == OPEN { None } else { certificate(number) };
        (number, line.list.iter().map(named).collect())
    }

    fn note(&mut self, line: &Line, outcome: Outcome, place: usize) {
        if !outcome.is_accepted() {
            return;
        }
        match line.code {
            OPEN => *self = Makers::default(),
            BLOCK => self.blocks.push(place),
            code if outcome.filed(code) == Some(ADDED) => self.certificates.push(place),
            _ => {}
        }
    }
}

fn unopened() -> Driver<Correct> {
    let mut driver = Driver::open(Correct, 1, CERTIFICATE_SLOTS, BLOCK_SLOTS);
    driver.table.clear();
    driver
}

fn step(driver: &mut Driver<Correct>, line: &Line) -> Outcome {
    if line.code == OPEN {
        driver.reopen(line.replica, &line.list)
    } else {
        driver.call(line.code, line.replica, line.number, &line.list)
    }
}

/// The call of a whole line; none where the program could not read it.
pub fn read_call(text: &[u8]) -> Option<Line> {
    let columns = text.strip_suffix(b"\n")?;
    let fields: Vec<u32> = columns.chunks(COLUMNS).map(|field| read_number(Correct, field)).collect();
    if fields.contains(&NO_NUMBER) || !(MIN_FIELDS..=MAX_FIELDS).contains(&fields.len()) {
        return None;
    }
    let line = Line::new(fields[0], fields[1], fields[2], &fields[MIN_FIELDS..]);
    is_call(Correct, line.code, line.replica, line.number, &line.list).then_some(line)
}
