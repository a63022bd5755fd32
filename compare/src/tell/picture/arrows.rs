//! Certificates as arrows, each from where it was added to where it is used, bent around what stands there already and
//! labelled where there is room.

use super::canvas::{kind_class, Anchor, Canvas, Point};
use super::layout::{Layout, Row};
use super::marks::{label, place, RADIUS};
use crate::certificate::FOUND;
use crate::tell::recount::Filed;
use std::collections::HashMap;

/// Where a text or a mark stands already.
#[derive(Clone, Copy)]
struct Area {
    left: i32,
    right: i32,
    top: i32,
    bottom: i32,
}

impl Area {
    fn around(at: Point, x: i32, y: i32) -> Area {
        Area { left: at.x - x, right: at.x + x, top: at.y - y, bottom: at.y + y }
    }

    fn meets(&self, other: &Area) -> bool {
        self.left < other.right && other.left < self.right && self.top < other.bottom && other.top < self.bottom
    }

    fn holds(&self, point: Point) -> bool {
        self.meets(&Area::around(point, 1, 1))
    }
}

struct Arrow {
    filed: Filed,
    /// The call that used it was refused, or found what it had issued before.
    is_pale: bool,
    from: Point,
    to: Point,
    /// What it bends towards; halfway where it is straight.
    bend: Point,
}

/// How far an arrow is bent up or down, in quarters of its height, the best first: it never goes back in time.
const BENDS: [i32; 5] = [0, -1, 1, -2, 2];
const MOST_BENT: i32 = 60;
/// How far an arrow within one lane leaves it, beside what its length asks for.
const BULGES: [i32; 3] = [0, 10, 20];
/// Hundredths of an arrow at which it is looked whether something stands there.
const STEPS: [i32; 16] = [6, 12, 18, 24, 30, 36, 42, 48, 54, 60, 66, 72, 78, 84, 90, 95];
/// Hundredths of an arrow at which its label is tried, the best first.
const PLACES: [i32; 9] = [50, 40, 60, 30, 70, 20, 80, 12, 88];
/// How far above or below the arrow, where no place on it is free.
const SHIFTS: [i32; 5] = [0, -9, 9, -18, 18];

pub fn draw(canvas: &mut Canvas, layout: &Layout) {
    let mut taken: Vec<Area> = layout.rows.iter().flat_map(|row| areas(layout, row)).collect();
    let arrows = arrows(layout, &taken);
    for arrow in &arrows {
        canvas.arrow(arrow.filed.certificate.kind, &arrow.path(), arrow.is_pale);
    }
    for arrow in &arrows {
        let (at, area) = arrow.label_place(&taken);
        taken.push(area);
        let pale = if arrow.is_pale { " pale" } else { "" };
        let class = format!("small {}{pale}", kind_class(arrow.filed.certificate.kind));
        canvas.text(&class, at.shifted(0, 3), Anchor::Middle, &arrow.filed.name());
    }
}

fn arrows(layout: &Layout, taken: &[Area]) -> Vec<Arrow> {
    let (mut added, mut arrows) = (HashMap::new(), Vec::new());
    for row in &layout.rows {
        let to = place(layout, row);
        let is_found = row.entry.issued.is_some() && row.entry.outcome.second == FOUND;
        let is_pale = is_found || !row.entry.outcome.is_accepted();
        for (place, &filed) in row.entry.named.iter().enumerate() {
            let is_again = row.entry.named[..place].iter().any(|earlier| earlier.number == filed.number);
            if let Some(&from) = added.get(&filed.number).filter(|_| !is_again) {
                arrows.push(Arrow { filed, is_pale, from, to, bend: from }.bent(taken));
            }
        }
        if let Some(filed) = row.entry.issued.filter(|_| !is_found) {
            added.insert(filed.number, to);
        }
    }
    arrows
}

/// A row's mark and its label.
fn areas(layout: &Layout, row: &Row) -> [Area; 2] {
    let at = place(layout, row);
    let width = 7 * label(row.entry).len() as i32;
    [
        Area::around(at, RADIUS, RADIUS),
        Area { left: at.x + 6, right: at.x + 8 + width, top: at.y - 7, bottom: at.y + 7 },
    ]
}

impl Arrow {
    /// With the bend that meets least of what stands there.
    fn bent(self, taken: &[Area]) -> Arrow {
        let bends = if self.from.x == self.to.x { BULGES.as_slice() } else { BENDS.as_slice() };
        let others: Vec<&Area> = taken.iter().filter(|area| !area.holds(self.from) && !area.holds(self.to)).collect();
        let met = |bend: Point| {
            let arrow = Arrow { bend, ..self };
            STEPS.iter().filter(|&&part| others.iter().any(|area| area.holds(arrow.along(part)))).count()
        };
        let best = bends.iter().map(|&aside| self.bend_by(aside)).min_by_key(|&bend| met(bend));
        Arrow { bend: best.unwrap_or(self.bend), ..self }
    }

    /// A curve's middle is drawn half as far from the straight line as what it bends towards.
    fn bend_by(&self, aside: i32) -> Point {
        let halfway = Point::new((self.from.x + self.to.x) / 2, (self.from.y + self.to.y) / 2);
        if self.from.x == self.to.x {
            let bulge = (20 + (self.to.y - self.from.y) / 8).min(44) + aside;
            return halfway.shifted(-2 * bulge, 0);
        }
        halfway.shifted(0, (aside * (self.to.y - self.from.y) / 4).clamp(-MOST_BENT, MOST_BENT))
    }

    /// From the edge of one mark to the edge of the other.
    fn path(&self) -> String {
        let (from, to, bend) =
            (towards(self.from, self.bend, RADIUS), towards(self.to, self.bend, RADIUS + 2), self.bend);
        if bend == self.bend_by(0) && self.from.x != self.to.x {
            return format!("M{} {}L{} {}", from.x, from.y, to.x, to.y);
        }
        format!("M{} {}Q{} {} {} {}", from.x, from.y, bend.x, bend.y, to.x, to.y)
    }

    /// So many hundredths along the arrow.
    fn along(&self, part: i32) -> Point {
        let rest = 100 - part;
        let mix = |from: i32, bend: i32, to: i32| {
            (from * rest * rest + 2 * bend * rest * part + to * part * part + 5_000) / 10_000
        };
        Point::new(mix(self.from.x, self.bend.x, self.to.x), mix(self.from.y, self.bend.y, self.to.y))
    }

    /// The first place that is free, else the middle.
    fn label_place(&self, taken: &[Area]) -> (Point, Area) {
        let half = 3 * self.filed.name().len() as i32;
        let place = |part: i32, shift: i32| {
            let at = self.along(part).shifted(0, shift);
            (at, Area::around(at, half, 6))
        };
        let mut places = SHIFTS.iter().flat_map(|&shift| PLACES.iter().map(move |&part| place(part, shift)));
        let free = places.find(|(_, area)| !taken.iter().any(|other| other.meets(area)));
        free.unwrap_or_else(|| place(PLACES[0], SHIFTS[0]))
    }
}

/// The point so far from the first one, on the way to the second.
fn towards(from: Point, to: Point, distance: i32) -> Point {
    let (x, y) = (f64::from(to.x - from.x), f64::from(to.y - from.y));
    let length = x.hypot(y).max(1.0);
    let part = |difference: f64| (difference * f64::from(distance) / length).round() as i32;
    from.shifted(part(x), part(y))
}
