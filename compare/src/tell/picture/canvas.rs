//! The elements of a picture, as SVG.

use crate::tell::words::kind_name;

#[derive(Clone, Copy, PartialEq, Eq, Debug)]
pub struct Point {
    pub x: i32,
    pub y: i32,
}

impl Point {
    pub fn new(x: i32, y: i32) -> Point {
        Point { x, y }
    }

    pub fn shifted(self, x: i32, y: i32) -> Point {
        Point::new(self.x + x, self.y + y)
    }
}

/// Where a text stands, seen from its point.
#[derive(Clone, Copy, PartialEq, Eq)]
pub enum Anchor {
    Start,
    Middle,
    End,
}

#[derive(Default)]
pub struct Canvas {
    body: String,
}

/// What is drawn in one colour each: a kind's marks, arrows and labels.
const COLOURS: [(u32, &str); 6] = [
    (crate::certificate::PROP, "#1b5fb4"),
    (crate::certificate::COMMIT, "#1a7f37"),
    (crate::certificate::NEWVIEW, "#6e7781"),
    (crate::certificate::ACC, "#8250df"),
    (crate::certificate::REQ, "#b35900"),
    (crate::certificate::REPLY, "#8a6d00"),
];

const STYLE: &str = "\
.paper { fill: #ffffff; }
text { font-family: 'DejaVu Sans', Verdana, sans-serif; font-size: 11px; fill: #1f2328; }
.title { font-size: 14px; font-weight: bold; }
.head { font-size: 12px; font-weight: bold; }
.number, .quiet { fill: #6e7781; }
.label { paint-order: stroke; stroke: #ffffff; stroke-width: 3px; stroke-linejoin: round; }
.small { font-size: 9px; paint-order: stroke; stroke: #ffffff; stroke-width: 3px; stroke-linejoin: round; }
.why { fill: #b42318; }
.refused { fill: #ffffff; stroke: #b42318; stroke-width: 1.5; }
.cut { stroke: #b42318; stroke-width: 4; }
.live { stroke: #57606a; stroke-width: 1.5; }
.recovering { stroke: #b42318; stroke-width: 1.5; stroke-dasharray: 4 4; }
.opening { stroke: #1f2328; stroke-width: 1; }
.tick, .back { fill: #1f2328; }
.box { fill: #ffffff; stroke: #57606a; stroke-width: 1; }
.decided { fill: #1a7f37; stroke: #1a7f37; }
.known { fill: #ffffff; stroke: #1a7f37; stroke-width: 1.5; }
.on-decided { fill: #ffffff; font-weight: bold; }
.panel { fill: #1f2328; }
.on-panel { fill: #7ee787; font-size: 15px; font-weight: bold; }
.arrow { fill: none; stroke-width: 1.2; }
.pale { opacity: 0.5; }
.small.pale { opacity: 0.75; }
.guide { stroke: #eceff2; stroke-width: 1; }
.found { fill: #ffffff; stroke-width: 1.5; }
";

/// The class of a kind's marks, arrows and labels.
pub fn kind_class(kind: u32) -> String {
    kind_name(kind).to_lowercase()
}

impl Canvas {
    fn element(&mut self, element: String) {
        self.body += &element;
        self.body.push('\n');
    }

    pub fn line(&mut self, class: &str, from: Point, to: Point) {
        let (Point { x: x1, y: y1 }, Point { x: x2, y: y2 }) = (from, to);
        self.element(format!(r#"<line class="{class}" x1="{x1}" y1="{y1}" x2="{x2}" y2="{y2}"/>"#));
    }

    pub fn circle(&mut self, class: &str, at: Point, radius: i32) {
        self.element(format!(r#"<circle class="{class}" cx="{}" cy="{}" r="{radius}"/>"#, at.x, at.y));
    }

    /// A box of that width and height around a point.
    pub fn centred_box(&mut self, class: &str, at: Point, width: i32, height: i32) {
        let (x, y) = (at.x - width / 2, at.y - height / 2);
        self.element(format!(r#"<rect class="{class}" x="{x}" y="{y}" width="{width}" height="{height}" rx="2"/>"#));
    }

    pub fn text(&mut self, class: &str, at: Point, anchor: Anchor, words: &str) {
        let anchor = match anchor {
            Anchor::Start => "",
            Anchor::Middle => r#" text-anchor="middle""#,
            Anchor::End => r#" text-anchor="end""#,
        };
        let Point { x, y } = at;
        self.element(format!(r#"<text class="{class}" x="{x}" y="{y}"{anchor}>{}</text>"#, escaped(words)));
    }

    /// An arrow of a kind's colour along a path; a pale one where nothing came of it.
    pub fn arrow(&mut self, kind: u32, path: &str, is_pale: bool) {
        let (class, pale) = (kind_class(kind), if is_pale { " pale" } else { "" });
        self.element(format!(r#"<path class="arrow {class}-line{pale}" d="{path}" marker-end="url(#{class}-head)"/>"#));
    }

    /// The whole picture.
    pub fn svg(self, width: i32, height: i32, title: &str) -> String {
        let heads: String = COLOURS.iter().map(|&(kind, colour)| head(kind, colour)).collect();
        let colours: String = COLOURS.iter().map(|&(kind, colour)| kind_style(kind, colour)).collect();
        format!(
            r#"<svg xmlns="http://www.w3.org/2000/svg" width="{width}" height="{height}" viewBox="0 0 {width} {height}" role="img">
<title>{}</title>
<style>
{STYLE}{colours}</style>
<defs>
{heads}</defs>
<rect class="paper" width="{width}" height="{height}"/>
{}</svg>
"#,
            escaped(title),
            self.body
        )
    }
}

fn head(kind: u32, colour: &str) -> String {
    let class = kind_class(kind);
    let form = r#"viewBox="0 0 8 8" refX="7" refY="4" markerWidth="7" markerHeight="7" orient="auto""#;
    let path = format!(r#"<path d="M0 0L8 4L0 8z" fill="{colour}"/>"#);
    format!("<marker id=\"{class}-head\" {form}>{path}</marker>\n")
}

fn kind_style(kind: u32, colour: &str) -> String {
    let class = kind_class(kind);
    format!(".{class} {{ fill: {colour}; }}\n.{class}-line {{ stroke: {colour}; }}\n")
}

/// XML has no control characters, not even escaped ones.
fn escaped(words: &str) -> String {
    let words = words.replace(char::is_control, "\u{fffd}");
    words.replace('&', "&amp;").replace('<', "&lt;").replace('>', "&gt;").replace('"', "&quot;")
}
