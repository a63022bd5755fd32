//! Microseconds a call against certificates issued, as an SVG.

const WIDTH: f64 = 640.0;
const HEIGHT: f64 = 400.0;
const LEFT: f64 = 70.0;
const BOTTOM: f64 = 50.0;
const MARGIN: f64 = 30.0;
const COLOURS: [&str; 2] = ["#1f6feb", "#d1242f"];

/// A program's points: certificates issued, microseconds a call.
pub struct Series {
    pub name: String,
    pub points: Vec<(f64, f64)>,
}

pub fn svg(series: &[Series]) -> String {
    let all = || series.iter().flat_map(|one| one.points.iter());
    let right = all().map(|point| point.0).fold(1.0, f64::max);
    let top = all().map(|point| point.1).fold(0.001, f64::max) * 1.1;
    let x = |value: f64| LEFT + value / right * (WIDTH - LEFT - MARGIN);
    let y = |value: f64| HEIGHT - BOTTOM - value / top * (HEIGHT - BOTTOM - MARGIN);
    let mut out = format!(
        "<svg xmlns=\"http://www.w3.org/2000/svg\" viewBox=\"0 0 {WIDTH} {HEIGHT}\" font-family=\"sans-serif\" font-size=\"12\">\n\
         <rect width=\"{WIDTH}\" height=\"{HEIGHT}\" fill=\"white\"/>\n"
    );
    for tick in 0..=4 {
        let (across, up) = (right * f64::from(tick) / 4.0, top * f64::from(tick) / 4.0);
        let (px, py) = (x(across), y(up));
        let (x0, x1, y0) = (x(0.0), x(right), y(0.0));
        out += &format!("<line x1=\"{x0:.1}\" y1=\"{py:.1}\" x2=\"{x1:.1}\" y2=\"{py:.1}\" stroke=\"#dddddd\"/>\n");
        out += &text(px, y0 + 18.0, "middle", "black", &format!("{across:.0}"));
        out += &text(x0 - 8.0, py + 4.0, "end", "black", &format!("{up:.1}"));
    }
    for (place, one) in series.iter().enumerate() {
        let colour = COLOURS[place % COLOURS.len()];
        let points: Vec<String> = one.points.iter().map(|p| format!("{:.1},{:.1}", x(p.0), y(p.1))).collect();
        out += &format!(
            "<polyline points=\"{}\" fill=\"none\" stroke=\"{colour}\" stroke-width=\"2\"/>\n",
            points.join(" ")
        );
        out += &text(LEFT + 16.0, MARGIN + 16.0 * (place as f64 + 1.0), "start", colour, &one.name);
    }
    out += &text(WIDTH / 2.0, HEIGHT - 12.0, "middle", "black", "certificates issued");
    out += &text(LEFT, MARGIN - 10.0, "start", "black", "microseconds a call");
    out + "</svg>\n"
}

fn text(x: f64, y: f64, anchor: &str, colour: &str, what: &str) -> String {
    let what = what.replace('&', "&amp;").replace('<', "&lt;");
    format!("<text x=\"{x:.1}\" y=\"{y:.1}\" text-anchor=\"{anchor}\" fill=\"{colour}\">{what}</text>\n")
}
