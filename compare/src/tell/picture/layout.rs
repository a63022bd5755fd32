//! Where everything stands: a row for each line of the script, a lane for each replica.

use super::canvas::Point;
use crate::call::{Outcome, DECIDE};
use crate::certificate::{Certificate, ACC, COMMIT, NEWVIEW};
use crate::memory::replica_count;
use crate::tell::recount::{Answered, Entry, Recount};

/// Most lines of a script that are drawn. In so few no replica can be cut until it is retired.
pub const MAX_ROWS: usize = 80;
/// Most lanes of one replica each; a last one stands for all others.
pub const MAX_LANES: u32 = 7;

/// Where the lines' numbers end, where what no replica is asked for is refused, and the first lane.
const NUMBERS: i32 = 28;
const OUTSIDE: i32 = 46;
const LEFT: i32 = 120;
/// The first row, and the heads of the lanes above it.
const TOP: i32 = 84;
const HEADS: i32 = 54;
const LANE: i32 = 136;
const SIDE: i32 = 170;
const TEXT: i32 = 430;
const ROW: i32 = 26;
pub const TEXT_LINE: i32 = 14;
const BOTTOM: i32 = 150;
const MARGIN: i32 = 16;
/// How far an opening reaches past the first lane, and ends before the blocks.
const OVERHANG: i32 = 30;
const GAP: i32 = 20;
/// Characters of a text line.
const MOST_CHARACTERS: usize = 74;

/// One line of the script with its place and its words at the side.
pub struct Row<'a> {
    pub entry: &'a Entry,
    pub y: i32,
    pub asks: Vec<String>,
    pub why: Vec<String>,
}

pub struct Layout<'a> {
    pub rows: Vec<Row<'a>>,
    /// Lanes of the widest ledger that is drawn.
    pub lanes: i32,
    pub end: i32,
}

impl<'a> Layout<'a> {
    pub fn of(recount: &'a Recount) -> Layout<'a> {
        let mut y = TOP;
        let mut rows = Vec::new();
        for entry in &recount.entries {
            let asks = wrapped(&(entry.asks.clone() + &aside(entry)));
            let why = match &entry.answered {
                Answered::Refused(reason) => wrapped(&format!("{}: {}", reason.number, reason.words)),
                Answered::Accepted(_) => Vec::new(),
            };
            let more = (asks.len() + why.len()) as i32 - 1;
            rows.push(Row { entry, y, asks, why });
            y += ROW + TEXT_LINE * more;
        }
        let lanes = recount.entries.iter().map(|entry| lane_count(entry.f)).max().unwrap_or(0);
        Layout { rows, lanes, end: y }
    }

    pub fn width(&self) -> i32 {
        self.text() + TEXT
    }

    pub fn height(&self) -> i32 {
        self.end + if self.lanes == 0 { 0 } else { BOTTOM }
    }

    /// Where the blocks stand.
    pub fn side(&self) -> i32 {
        LEFT + LANE * self.lanes
    }

    /// Where the words stand.
    pub fn text(&self) -> i32 {
        self.side() + SIDE
    }

    /// Where a line's number ends.
    pub fn numbers(&self) -> i32 {
        NUMBERS
    }

    /// Where the lines begin that lead from a number to its words.
    pub fn guides(&self) -> i32 {
        self.numbers() + 6
    }

    /// Where what no replica is asked for is refused.
    pub fn outside(&self) -> i32 {
        OUTSIDE
    }

    /// Where the lanes of a ledger begin and end.
    pub fn across(&self, f: u32) -> (i32, i32) {
        (LEFT - OVERHANG, LEFT + LANE * lane_count(f) - GAP)
    }

    pub fn heads(&self) -> i32 {
        HEADS
    }

    pub fn legend(&self) -> Point {
        Point::new(MARGIN, self.end + BOTTOM - MARGIN - TEXT_LINE)
    }

    pub fn title(&self) -> Point {
        Point::new(MARGIN, MARGIN + 10)
    }
}

/// The lanes of a ledger for f.
pub fn lane_count(f: u32) -> i32 {
    match f {
        0 => 0,
        f if replica_count(f) <= MAX_LANES => replica_count(f) as i32,
        _ => MAX_LANES as i32 + 1,
    }
}

/// A replica's lane; the last for all others.
pub fn lane(replica: u32) -> i32 {
    replica.min(MAX_LANES) as i32
}

pub fn lane_x(lane: i32) -> i32 {
    LEFT + LANE * lane
}

pub fn at(replica: u32, y: i32) -> Point {
    Point::new(lane_x(lane(replica)), y)
}

/// What an accepted call's certificate or decision is of, where the call does not say it.
fn aside(entry: &Entry) -> String {
    let Some(Certificate { kind, view, block, .. }) = entry.issued.map(|filed| filed.certificate) else {
        let Outcome { second: view, .. } = entry.outcome;
        return if entry.is_accepted(DECIDE) { format!(" (view {view})") } else { String::new() };
    };
    match kind {
        NEWVIEW => String::new(),
        COMMIT | ACC => format!(" (view {view}, block {block})"),
        _ => format!(" (view {view})"),
    }
}

/// Words in lines that fit beside the lanes.
fn wrapped(words: &str) -> Vec<String> {
    let mut lines = vec![String::new()];
    for word in words.split(' ') {
        let last = lines.len() - 1;
        if !lines[last].is_empty() && lines[last].len() + 1 + word.len() > MOST_CHARACTERS {
            lines.push(word.to_string());
        } else {
            let blank = if lines[last].is_empty() { "" } else { " " };
            lines[last] += &format!("{blank}{word}");
        }
    }
    lines
}
