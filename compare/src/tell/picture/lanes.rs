//! The lanes: their heads, how each replica fares along its lane, and at the end its words and its panel.

use super::canvas::{Anchor, Canvas, Point};
use super::layout::{at, lane_count, lane_x, Layout, MAX_LANES, TEXT_LINE};
use crate::call::OPEN;
use crate::memory::{replica_count, LIVE};
use crate::tell::recount::{Recount, Shown};
use crate::tell::words::{status_name, stored};

const LEGEND: [&str; 2] = [
    "dot: a certificate is added, hollow: found; green square: a decision; red number: refused; pale arrow: nothing came of it",
    "red bar: a power cut; dashed: recovering; black dot: back; tick: the limit is moved; black plate: the panel at the end",
];

pub fn draw(canvas: &mut Canvas, layout: &Layout, recount: &Recount) {
    heads(canvas, layout);
    for row in &layout.rows {
        canvas.line("guide", Point::new(layout.guides(), row.y), Point::new(layout.side() - 8, row.y));
    }
    let openings: Vec<usize> = (0..layout.rows.len()).filter(|&row| layout.rows[row].entry.is_accepted(OPEN)).collect();
    for (place, &first) in openings.iter().enumerate() {
        let after = openings.get(place + 1).copied().unwrap_or(layout.rows.len());
        ledger(canvas, layout, first, after);
    }
    let replicas = recount.ledger.iter().flat_map(|ledger| &ledger.replicas);
    for (shown, number) in replicas.zip(0..MAX_LANES) {
        foot(canvas, Point::new(lane_x(number as i32), layout.end), shown);
    }
    if recount.ledger.is_some() {
        for (line, words) in (0..).zip(LEGEND) {
            canvas.text("quiet", layout.legend().shifted(0, TEXT_LINE * line), Anchor::Start, words);
        }
    }
}

fn heads(canvas: &mut Canvas, layout: &Layout) {
    let y = layout.heads();
    for lane in 0..layout.lanes {
        let head = if lane as u32 == MAX_LANES { "the others".to_string() } else { format!("replica {lane}") };
        canvas.text("head", Point::new(lane_x(lane), y), Anchor::Middle, &head);
    }
    if layout.lanes > 0 {
        canvas.text("head", Point::new(layout.side(), y), Anchor::Start, "blocks and panels");
    }
    canvas.text("head", Point::new(layout.text(), y), Anchor::Start, "what the line asks, and why it is refused");
}

/// The lanes of one ledger: its rows from its opening to the next.
fn ledger(canvas: &mut Canvas, layout: &Layout, first: usize, after: usize) {
    let f = layout.rows[first].entry.f;
    let end = layout.rows.get(after).map_or(layout.end, |row| row.y - 14);
    for replica in 0..replica_count(f).min(lane_count(f) as u32) {
        let (mut status, mut from) = (LIVE, layout.rows[first].y);
        for row in &layout.rows[first..after] {
            let calls = row.entry.call.as_ref().is_some_and(|call| call.replica == replica);
            let Some(change) = row.entry.change.filter(|_| calls && replica < MAX_LANES) else { continue };
            if change.after.replica.status != status {
                canvas.line(status_name(status), at(replica, from), at(replica, row.y));
                (status, from) = (change.after.replica.status, row.y);
            }
        }
        canvas.line(status_name(status), at(replica, from), at(replica, end));
    }
}

/// A replica's words at the end, and its front panel.
fn foot(canvas: &mut Canvas, at: Point, shown: &Shown) {
    let r = shown.replica;
    let panel = at.shifted(0, 20);
    canvas.centred_box("panel", panel, 44, 24);
    canvas.text("on-panel", panel.shifted(0, 6), Anchor::Middle, &shown.panel.to_string());
    let words = [
        format!("{}, boot {}", status_name(r.status), r.boot),
        format!("lowest view {}", r.min_view),
        format!("limit {}, flag {}", r.view_limit, r.flag),
        stored(r.stored_block, r.stored_view).replace(" stored in ", ", "),
    ];
    for (line, words) in (0..).zip(&words) {
        canvas.text("quiet", at.shifted(0, 48 + TEXT_LINE * line), Anchor::Middle, words);
    }
}
