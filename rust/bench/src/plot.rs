//! The times as two dots for each row, on a logarithmic scale, with the ratio beside them.
use crate::measure::Timed;
use crate::Row;
use std::fmt::Write;

const WIDTH: f64 = 900.0;
const LEFT: f64 = 320.0;
const RIGHT: f64 = 90.0;
const TOP: f64 = 60.0;
const ROW: f64 = 30.0;
const OURS: &str = "#1b6ca8";
const THEIRS: &str = "#c08a3e";
const INK: &str = "#222222";

/// Nanoseconds in the unit that suits them.
pub fn duration(nanoseconds: f64) -> String {
    let (value, unit) = match nanoseconds {
        n if n < 1e3 => (n, "ns"),
        n if n < 1e6 => (n / 1e3, "µs"),
        n => (n / 1e6, "ms"),
    };
    match value {
        v if v < 10.0 => format!("{v:.2} {unit}"),
        v if v < 100.0 => format!("{v:.1} {unit}"),
        v => format!("{v:.0} {unit}"),
    }
}

/// A power of ten nanoseconds.
fn tick(power: i32) -> String {
    let unit = ["ns", "µs", "ms", "s"][power as usize / 3];
    format!("{} {unit}", 10i32.pow(power as u32 % 3))
}

struct Drawing(String);

impl Drawing {
    fn add(&mut self, element: std::fmt::Arguments<'_>) {
        writeln!(self.0, "{element}").expect("a string takes all");
    }

    fn text(&mut self, x: f64, y: f64, anchor: &str, fill: &str, words: &str) {
        self.add(format_args!("<text x=\"{x:.1}\" y=\"{y:.1}\" text-anchor=\"{anchor}\" fill=\"{fill}\">{words}</text>"));
    }

    fn line(&mut self, [x1, x2]: [f64; 2], [y1, y2]: [f64; 2], stroke: &str) {
        self.add(format_args!("<line x1=\"{x1:.1}\" x2=\"{x2:.1}\" y1=\"{y1:.1}\" y2=\"{y2:.1}\" stroke=\"{stroke}\"/>"));
    }

    fn dot(&mut self, x: f64, y: f64, fill: &str) {
        self.add(format_args!("<circle cx=\"{x:.1}\" cy=\"{y:.1}\" r=\"5\" fill=\"{fill}\"/>"));
    }
}

pub fn svg(rows: &[Row], timed: &[Timed]) -> String {
    let pairs = || timed.iter().filter_map(|timed| Some((timed.ours, timed.theirs.as_ref()?)));
    let powers = || pairs().flat_map(|(ours, theirs)| [ours.log10(), theirs.median.log10()]);
    let (least, most) = (powers().fold(f64::INFINITY, f64::min).floor(), powers().fold(0.0, f64::max).ceil());
    let x = |power: f64| LEFT + (power - least) / (most - least) * (WIDTH - LEFT - RIGHT);
    let bottom = TOP + ROW * rows.len() as f64;
    let height = bottom + 15.0;
    let mut drawing = Drawing(format!(
        "<svg xmlns=\"http://www.w3.org/2000/svg\" viewBox=\"0 0 {WIDTH} {height}\" font-family=\"sans-serif\" font-size=\"13\">\n\
         <rect width=\"{WIDTH}\" height=\"{height}\" fill=\"#ffffff\"/>\n"
    ));
    drawing.text(LEFT, 20.0, "start", OURS, "Pathjudge");
    drawing.text(LEFT + 90.0, 20.0, "start", THEIRS, "rustls-webpki");
    drawing.text(WIDTH - 15.0, TOP - 10.0, "end", INK, "ratio");
    for power in least as i32..=most as i32 {
        let at = x(f64::from(power));
        drawing.line([at, at], [TOP, bottom], "#dddddd");
        drawing.text(at, TOP - 10.0, "middle", "#555555", &tick(power));
    }
    for (i, (row, (ours, theirs))) in rows.iter().zip(pairs()).enumerate() {
        let y = TOP + ROW * (i as f64 + 0.5);
        let (our_x, their_x) = (x(ours.log10()), x(theirs.median.log10()));
        drawing.text(LEFT - 15.0, y + 4.0, "end", INK, row.words);
        drawing.line([our_x, their_x], [y, y], "#888888");
        drawing.dot(their_x, y, THEIRS);
        drawing.dot(our_x, y, OURS);
        drawing.text(WIDTH - 15.0, y + 4.0, "end", INK, &format!("{:.2}", theirs.ratio));
    }
    drawing.0 + "</svg>\n"
}
