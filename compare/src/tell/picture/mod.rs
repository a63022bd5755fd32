//! A recount as a picture: a lane for each replica, time downward. Certificates are arrows from where they were signed to
//! where they were used; blocks, decisions and panels stand at the side, refusals in their place.

pub mod arrows;
pub mod canvas;
pub mod lanes;
pub mod layout;
pub mod marks;

use crate::tell::recount::Recount;
use crate::tell::words::thousands;
use canvas::{Anchor, Canvas};
use layout::{Layout, MAX_LANES, MAX_ROWS};

pub struct Picture {
    pub svg: String,
    /// How much of the script is drawn.
    pub drawn: String,
}

impl Picture {
    /// Of a script's first lines, as many as are drawn, under its name.
    pub fn of(name: &str, script: &[u8]) -> Picture {
        let lines: Vec<&[u8]> = script.split_inclusive(|&byte| byte == b'\n').collect();
        let shown = lines.len().min(MAX_ROWS);
        let recount = Recount::of(&lines[..shown].concat());
        let drawn = drawn(&recount, lines.len());
        Picture { svg: svg(&recount, &format!("{name}: {drawn}")), drawn }
    }
}

fn drawn(recount: &Recount, lines: usize) -> String {
    let shown = recount.entries.len();
    let refused = recount.entries.iter().filter(|entry| !entry.outcome.is_accepted()).count();
    let lines = match shown {
        _ if shown < lines => format!("lines 1 to {shown} of {}", thousands(lines)),
        1 => "1 line".to_string(),
        _ => format!("all {shown} lines"),
    };
    let rows = if refused == 0 { lines } else { format!("{lines}, {refused} refused") };
    let most = recount.entries.iter().map(|entry| 2 * entry.f).max().unwrap_or(0);
    if most < MAX_LANES {
        return rows;
    }
    format!("{rows}; replicas {MAX_LANES} to {most} in one lane")
}

fn svg(recount: &Recount, title: &str) -> String {
    let layout = Layout::of(recount);
    let mut canvas = Canvas::default();
    canvas.text("title", layout.title(), Anchor::Start, title);
    lanes::draw(&mut canvas, &layout, recount);
    arrows::draw(&mut canvas, &layout);
    marks::draw(&mut canvas, &layout);
    canvas.svg(layout.width(), layout.height(), title)
}
