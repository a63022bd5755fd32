//! What stands in each line's row: its number, its mark in the lane of the replica that calls, its words at the side.

use super::canvas::{kind_class, Anchor, Canvas, Point};
use super::layout::{at, Layout, Row, TEXT_LINE};
use crate::call::*;
use crate::certificate::FOUND;
use crate::memory::replica_count;
use crate::tell::recount::{Answered, Entry};

pub const RADIUS: i32 = 5;
const REFUSED_RADIUS: i32 = 9;
/// From a mark to its label, and from a row's middle to a text's base line.
const LABEL: Point = Point { x: 9, y: 4 };

pub fn draw(canvas: &mut Canvas, layout: &Layout) {
    for row in &layout.rows {
        words(canvas, layout, row);
        match &row.entry.answered {
            Answered::Accepted(_) => accepted(canvas, layout, row),
            Answered::Refused(reason) => refused(canvas, place(layout, row), reason.number),
        }
    }
}

/// The mark's place: in the lane of the replica that calls, or outside the lanes.
pub fn place(layout: &Layout, row: &Row) -> Point {
    let replicas = if row.entry.f == 0 { 0 } else { replica_count(row.entry.f) };
    match &row.entry.call {
        Some(call) if !matches!(call.code, OPEN | BLOCK) && call.replica < replicas => at(call.replica, row.y),
        _ => Point::new(layout.outside(), row.y),
    }
}

/// What stands beside an accepted call's mark.
pub fn label(entry: &Entry) -> String {
    let (Some(call), Some(change)) = (&entry.call, entry.change) else { return String::new() };
    match call.code {
        DECIDE => format!("decides block {}", entry.outcome.first),
        REBOOT => format!("power cut: boot {}", change.after.replica.boot),
        RESERVE => format!("limit {}", entry.outcome.first),
        RECOVER => format!("back at view {}", entry.outcome.first),
        _ => issued_label(entry),
    }
}

fn issued_label(entry: &Entry) -> String {
    let Some(filed) = entry.issued else { return String::new() };
    let found = if entry.outcome.second == FOUND { " found" } else { "" };
    filed.name() + found
}

fn words(canvas: &mut Canvas, layout: &Layout, row: &Row) {
    let base = row.y + LABEL.y;
    canvas.text("number", Point::new(layout.numbers(), base), Anchor::End, &row.entry.line.to_string());
    let asks = row.asks.iter().map(|words| ("asks", words));
    let why = row.why.iter().map(|words| ("why", words));
    for (line, (class, words)) in (0..).zip(asks.chain(why)) {
        canvas.text(class, Point::new(layout.text(), base + TEXT_LINE * line), Anchor::Start, words);
    }
}

fn refused(canvas: &mut Canvas, at: Point, number: u32) {
    canvas.circle("refused", at, REFUSED_RADIUS);
    canvas.text("why", at.shifted(0, LABEL.y), Anchor::Middle, &number.to_string());
}

fn accepted(canvas: &mut Canvas, layout: &Layout, row: &Row) {
    let Some(call) = &row.entry.call else { return };
    let at = place(layout, row);
    let labelled = at.shifted(LABEL.x, LABEL.y);
    match call.code {
        OPEN => opened(canvas, layout, row),
        BLOCK => added(canvas, layout, row, call.number),
        REBOOT => canvas.line("cut", at.shifted(-12, 0), at.shifted(12, 0)),
        RESERVE => canvas.centred_box("tick", at, 10, 3),
        RECOVER => canvas.circle("back", at, RADIUS),
        DECIDE => {
            canvas.centred_box("decided", at, 2 * RADIUS, 2 * RADIUS);
            decided(canvas, layout, row);
        }
        _ => issued(canvas, at, row.entry),
    }
    let label = label(row.entry);
    if !label.is_empty() {
        let shift = if call.code == REBOOT { 6 } else { 0 };
        canvas.text("label", labelled.shifted(shift, 0), Anchor::Start, &label);
    }
}

fn issued(canvas: &mut Canvas, at: Point, entry: &Entry) {
    let Some(filed) = entry.issued else { return };
    let class = kind_class(filed.certificate.kind);
    if entry.outcome.second == FOUND {
        canvas.circle(&format!("found {class}-line"), at, RADIUS);
    } else {
        canvas.circle(&class, at, RADIUS);
    }
}

fn opened(canvas: &mut Canvas, layout: &Layout, row: &Row) {
    let (from, to) = layout.across(row.entry.f);
    canvas.line("opening", Point::new(from, row.y), Point::new(to, row.y));
    canvas.text(
        "label",
        Point::new(layout.side(), row.y + LABEL.y),
        Anchor::Start,
        &format!("open, f = {}", row.entry.f),
    );
}

const BOX: (i32, i32) = (56, 18);

fn added(canvas: &mut Canvas, layout: &Layout, row: &Row, parent: u32) {
    block(canvas, layout, row, ("box", "label"), &format!("on block {parent}"));
}

fn decided(canvas: &mut Canvas, layout: &Layout, row: &Row) {
    let (Some(call), Some(change)) = (&row.entry.call, row.entry.change) else { return };
    let (replica, panel) = (call.replica, change.after.panel);
    if row.entry.outcome.second > change.before.replica.decided_view {
        block(canvas, layout, row, ("decided", "on-decided"), &format!("panel of {replica}: {panel}"));
    } else {
        block(canvas, layout, row, ("known", "label"), &format!("panel of {replica} stays {panel}"));
    }
}

/// A block in its box, in the column of blocks, and words beside it.
fn block(canvas: &mut Canvas, layout: &Layout, row: &Row, (class, on): (&str, &str), words: &str) {
    let middle = Point::new(layout.side() + BOX.0 / 2, row.y);
    canvas.centred_box(class, middle, BOX.0, BOX.1);
    canvas.text(on, middle.shifted(0, LABEL.y), Anchor::Middle, &format!("block {}", row.entry.outcome.first));
    canvas.text("quiet", middle.shifted(BOX.0 / 2 + 6, LABEL.y), Anchor::Start, words);
}
