//! Demand 3 as a judge of a trace: decisions of one line, panels that never fall.

use crate::ancestry::is_ancestor;
use crate::block::Block;
use crate::call::{BLOCK, DECIDE, OPEN};
use crate::driver::{Driver, Line};
use crate::memory::{replica_count, MAX_F};
use crate::mistake::{Correct, Rules};
use crate::panel::panel;

/// How a trace breaks demand 3.
#[derive(Clone, Copy, PartialEq, Eq, Debug)]
pub enum Violation {
    /// Two accepted Decides name blocks of which neither is in the other's ancestry.
    Conflict { first: u32, second: u32 },
    /// A replica's panel shows less than before.
    PanelFalls { replica: u32, from: u32, to: u32 },
}

/// What has been seen of one opened ledger.
#[derive(Default)]
pub struct Monitor {
    /// Records as the accepted Block calls make them.
    blocks: Vec<u32>,
    /// The highest block decided so far; all others are its ancestors.
    tip: u32,
    panels: Vec<u32>,
    seen: usize,
}

impl Monitor {
    /// Looks at the calls made since the last look; the panels as they stand now.
    pub fn look<R: Rules>(&mut self, driver: &mut Driver<R>) -> Option<Violation> {
        for place in self.seen..driver.trace.len() {
            let (line, outcome) = &driver.trace[place];
            if !outcome.is_accepted() {
                continue;
            }
            let conflict = match line.code {
                OPEN => self.opened(line),
                BLOCK => self.added(line),
                DECIDE => self.decided(outcome.first),
                _ => None,
            };
            if conflict.is_some() {
                return conflict;
            }
        }
        self.seen = driver.trace.len();
        self.look_at_panels(driver)
    }

    fn opened(&mut self, line: &Line) -> Option<Violation> {
        self.blocks = Block::FIRST.words().to_vec();
        self.tip = 0;
        self.panels = vec![0; replica_count(line.replica) as usize];
        None
    }

    fn added(&mut self, line: &Line) -> Option<Violation> {
        self.blocks.extend(Block::on(&self.blocks, line.number).words());
        None
    }

    fn decided(&mut self, block: u32) -> Option<Violation> {
        if is_ancestor(&self.blocks, self.tip, block) {
            self.tip = block;
        } else if !is_ancestor(&self.blocks, block, self.tip) {
            return Some(Violation::Conflict { first: self.tip, second: block });
        }
        None
    }

    fn look_at_panels<R: Rules>(&mut self, driver: &mut Driver<R>) -> Option<Violation> {
        for (replica, shown) in (0..).zip(self.panels.iter_mut()) {
            // A panel of wrong form shows no height at all.
            let Ok(height) = panel(Correct, &driver.memory(), replica) else { continue };
            if height < *shown {
                return Some(Violation::PanelFalls { replica, from: *shown, to: height });
            }
            *shown = height;
        }
        None
    }
}

/// Runs the lines from an unopened ledger; the violation and the number of lines up to it.
pub fn judge<R: Rules>(rules: R, lines: &[Line], slots: (usize, usize)) -> Option<(Violation, usize)> {
    let opening = lines.first().filter(|line| line.code == OPEN && (1..=MAX_F).contains(&line.replica))?;
    let mut driver = Driver::open_with_steps(rules, opening.replica, &opening.list, slots.0, slots.1);
    let mut monitor = Monitor::default();
    monitor.look(&mut driver);
    for (place, line) in lines.iter().enumerate().skip(1) {
        driver.call(line.code, line.replica, line.number, &line.list);
        if let Some(violation) = monitor.look(&mut driver) {
            return Some((violation, place + 1));
        }
    }
    None
}
