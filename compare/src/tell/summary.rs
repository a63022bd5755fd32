//! The ledger at the end of a script: its replicas with their panels, its certificates, the chain of decided blocks, and
//! whether there is a way on.

use super::recount::{Entry, Ledger, Recount, Shown};
use super::way::next;
use super::words::*;
use crate::call::{Outcome, DECIDE};
use crate::certificate::Certificate;
use std::collections::BTreeMap;

/// The columns of the table of replicas.
const HEADS: [&str; 9] = ["Replica", "status", "boot", "lowest view", "limit", "flag", "stored", "decided", "panel"];

type Cells = [String; HEADS.len()];

pub fn summary(recount: &Recount) -> String {
    let Some(ledger) = &recount.ledger else { return "\nNo ledger is open.\n".to_string() };
    [table(ledger), certificates(ledger), chain(ledger, recount.since_opening()), next(ledger)].concat()
}

fn table(ledger: &Ledger) -> String {
    let rows = ledger.replicas.iter().enumerate().map(|(number, shown)| replica(number, shown));
    let rows: Vec<Cells> = [HEADS.map(str::to_string)].into_iter().chain(rows).collect();
    let width = |column: usize| rows.iter().map(|row| row[column].len()).max().unwrap_or(0);
    let line = |row: &Cells| {
        let cells = row.iter().enumerate().map(|(column, cell)| format!("{cell:width$}", width = width(column)));
        cells.collect::<Vec<_>>().join("  ").trim_end().to_string() + "\n"
    };
    let steps = format!("Steps of the counter: {}.\n", joined(&ledger.steps.0));
    format!("\nThe ledger at the end: f = {}, {} replicas\n\n", ledger.f, ledger.replicas.len())
        + &rows.iter().map(line).collect::<String>()
        + &steps
}

fn replica(number: usize, shown: &Shown) -> Cells {
    let r = shown.replica;
    let of_view = |block, view| if view == 0 { "-".to_string() } else { format!("block {block}, view {view}") };
    [
        number.to_string(),
        status_name(r.status).to_string(),
        r.boot.to_string(),
        r.min_view.to_string(),
        r.view_limit.to_string(),
        r.flag.to_string(),
        of_view(r.stored_block, r.stored_view),
        of_view(r.decided_block, r.decided_view),
        shown.panel.to_string(),
    ]
}

fn certificates(ledger: &Ledger) -> String {
    let width = ledger.certificates.len().to_string().len();
    let kinds = ledger.certificates.iter().map(|c| kind_name(c.kind).len()).max().unwrap_or(0);
    let line =
        |(number, &c): (usize, &Certificate)| format!("{number:width$}  {:kinds$}  {}\n", kind_name(c.kind), says(c));
    let lines: String = ledger.certificates.iter().enumerate().map(line).collect();
    format!("\nCertificates: {}\n\n{lines}", ledger.certificates.len())
}

/// The blocks that accepted decides named: who decided each, and in which view.
fn decisions(entries: &[Entry]) -> BTreeMap<u32, Vec<(u32, u32)>> {
    let mut decisions: BTreeMap<u32, Vec<(u32, u32)>> = BTreeMap::new();
    for entry in entries.iter().filter(|entry| entry.is_accepted(DECIDE)) {
        let Outcome { first: block, second: view, .. } = entry.outcome;
        let deciders = decisions.entry(block).or_default();
        let decider = (entry.call.as_ref().map_or(0, |call| call.replica), view);
        if !deciders.contains(&decider) {
            deciders.push(decider);
        }
    }
    decisions
}

/// Block 0 and the others in the line of the highest decided block, then the rest.
fn chain(ledger: &Ledger, entries: &[Entry]) -> String {
    let decisions = decisions(entries);
    let height = |block: u32| ledger.blocks[block as usize].height;
    let highest = decisions.keys().copied().max_by_key(|&block| height(block)).unwrap_or(0);
    let mut line = vec![highest];
    while let Some(&block) = line.last().filter(|&&block| block != 0) {
        line.push(ledger.blocks[block as usize].parent);
    }
    let mut text = "\nThe chain of decided blocks\n\n".to_string();
    for &block in line.iter().rev() {
        text +=
            &format!("height {}: block {block}{}\n", height(block), decided_by(&decisions, block).unwrap_or_default());
    }
    for block in (0..ledger.blocks.len() as u32).filter(|block| !line.contains(block)) {
        let (parent, height) = (ledger.blocks[block as usize].parent, height(block));
        let decided = decided_by(&decisions, block).unwrap_or(", not decided".to_string());
        text += &format!("beside it: block {block} on block {parent}, of height {height}{decided}\n");
    }
    text
}

/// ", decided by replica 0 in view 1".
fn decided_by(decisions: &BTreeMap<u32, Vec<(u32, u32)>>, block: u32) -> Option<String> {
    let words = |(replica, view): &(u32, u32)| format!("replica {replica} in view {view}");
    let deciders: Vec<String> = decisions.get(&block)?.iter().map(words).collect();
    Some(format!(", decided by {}", joined(&deciders)))
}
