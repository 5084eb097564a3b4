//! The tables as a picture: two dots a family, at their times. The axis is logarithmic, so equal distances are equal ratios;
//! dots have no length that could be read as a time. Below the first table stand those families of the second that are
//! slower than the Rust.

use crate::table::{Tables, ratio};
use crate::timing::Row;

const WIDTH: f64 = 960.0;
/// Where the times begin and where they end.
const LEFT: f64 = 330.0;
const RIGHT: f64 = 800.0;
/// Where the first family begins, and how high each is.
const TOP: f64 = 104.0;
const STEP: f64 = 36.0;
/// A heading between families takes so much more.
const HEADING: f64 = 40.0;
const RUST: &str = "#b7410e";
const OURS: &str = "#1f7a8c";
const DARK: &str = "#24292e";
const PALE: &str = "#5b6770";

pub fn svg(tables: &Tables) -> String {
    let first = tables.tables.first().map_or(&[][..], Vec::as_slice);
    let rest = tables.tables.iter().skip(1).flatten();
    let slow: Vec<&Row> = rest.filter(|row| row.ratio < 1.0).collect();
    let scale = Scale::of(first.iter().chain(slow.iter().copied()));
    let below = TOP + STEP * first.len() as f64 + if slow.is_empty() { 0.0 } else { HEADING };
    let bottom = below + STEP * slow.len() as f64;
    let row = |from: f64| move |(at, row)| family(&scale, row, from + STEP * at as f64);
    let heading = "Further families where Tulgarent takes longer";
    let parts = [
        opening(bottom + 36.0),
        title(tables.where_and_when()),
        scale.lines(bottom),
        first.iter().enumerate().map(row(TOP)).collect(),
        if slow.is_empty() { String::new() } else { strong(20.0, below - 12.0, "start", heading) },
        slow.into_iter().enumerate().map(row(below)).collect(),
        "</svg>\n".to_string(),
    ];
    parts.concat()
}

/// Whole powers of ten around all times.
#[derive(Clone, Copy)]
struct Scale {
    low: f64,
    high: f64,
}

impl Scale {
    fn of<'a>(rows: impl Iterator<Item = &'a Row>) -> Scale {
        let (mut low, mut high) = (f64::MAX, f64::MIN);
        for power in rows.flat_map(|row| [row.rust, row.ours]).map(f64::log10) {
            (low, high) = (low.min(power.floor()), high.max(power.ceil()));
        }
        Scale { low, high }
    }

    fn place(&self, power: f64) -> f64 {
        LEFT + (RIGHT - LEFT) * (power - self.low) / (self.high - self.low)
    }

    /// A thin line at each power of ten, its time above and below.
    fn lines(&self, bottom: f64) -> String {
        let powers = self.low as i32..=self.high as i32;
        powers.map(|power| power_line(self.place(power.into()), power, bottom)).collect()
    }
}

fn power_line(x: f64, power: i32, bottom: f64) -> String {
    let from = TOP - 8.0;
    let label = time(10_f64.powi(power));
    format!("<line x1=\"{x:.1}\" y1=\"{from}\" x2=\"{x:.1}\" y2=\"{bottom}\" stroke=\"#e3e6e9\"/>\n")
        + &small(x, from - 6.0, "middle", &label)
        + &small(x, bottom + 18.0, "middle", &label)
}

/// Three digits and a unit. Nanoseconds come in.
fn time(nanoseconds: f64) -> String {
    let mut number = nanoseconds;
    let mut units = ["ns", "µs", "ms"].into_iter();
    let mut unit = units.next().unwrap_or_default();
    // From here on three digits are written as 1000.
    while number >= 999.5 {
        let Some(next) = units.next() else { break };
        (number, unit) = (number / 1_000.0, next);
    }
    let digits = match number {
        _ if number.fract() == 0.0 || number >= 99.95 => 0,
        _ if number >= 9.995 => 1,
        _ if unit == "ns" => 1,
        _ => 2,
    };
    format!("{number:.digits$} {unit}")
}

fn opening(height: f64) -> String {
    format!(
        "<svg xmlns=\"http://www.w3.org/2000/svg\" viewBox=\"0 0 {WIDTH} {height}\" \
         width=\"{WIDTH}\" height=\"{height}\" \
         font-family=\"'Segoe UI', 'DejaVu Sans', Helvetica, Arial, sans-serif\" font-size=\"12.5\">\n\
         <rect width=\"{WIDTH}\" height=\"{height}\" rx=\"8\" fill=\"#ffffff\"/>\n"
    )
}

fn title(where_and_when: &str) -> String {
    let legend = |x: f64, colour: &str, what: &str| dot(x + 6.0, 52.0, colour) + &text(x + 20.0, 56.0, "start", what);
    [
        strong(20.0, 28.0, "start", "Time for one rule; from line to line ten times as long"),
        small(WIDTH - 20.0, 28.0, "end", &escaped(where_and_when)),
        legend(20.0, OURS, "Tulgarent: the whole call, with all tests, reading and writing"),
        legend(460.0, RUST, "Rust: lowering alone, of rules that are decoded"),
        small(WIDTH - 20.0, TOP - 14.0, "end", "Rust / Tulgarent"),
    ]
    .concat()
}

/// Name and gloss, both dots with their times outside, and the ratio.
fn family(scale: &Scale, row: &Row, y: f64) -> String {
    let middle = y + STEP / 2.0;
    let mut sides = [(row.ours, OURS), (row.rust, RUST)];
    sides.sort_by(|one, other| one.0.total_cmp(&other.0));
    let [(less, near), (more, far)] = sides;
    let (from, to) = (scale.place(less.log10()), scale.place(more.log10()));
    [
        text(20.0, middle - 3.0, "start", &escaped(&row.name)),
        small(20.0, middle + 12.0, "start", &escaped(&row.what)),
        format!(
            "<line x1=\"{from:.1}\" y1=\"{middle}\" x2=\"{to:.1}\" y2=\"{middle}\" \
             stroke=\"#c3c9cf\" stroke-width=\"2\"/>\n"
        ),
        dot(from, middle, near),
        dot(to, middle, far),
        beside(from - 11.0, middle + 4.0, "end", less),
        beside(to + 11.0, middle + 4.0, "start", more),
        strong(WIDTH - 20.0, middle + 5.0, "end", &format!("{} ×", ratio(row.ratio))),
    ]
    .concat()
}

fn dot(x: f64, y: f64, colour: &str) -> String {
    format!("<circle cx=\"{x:.1}\" cy=\"{y}\" r=\"6\" fill=\"{colour}\"/>\n")
}

fn text(x: f64, y: f64, anchor: &str, what: &str) -> String {
    format!("<text x=\"{x:.1}\" y=\"{y}\" text-anchor=\"{anchor}\" fill=\"{DARK}\">{what}</text>\n")
}

/// A dot's time. The white edge keeps the lines behind it out of its letters.
fn beside(x: f64, y: f64, anchor: &str, nanoseconds: f64) -> String {
    let edge = "stroke=\"#ffffff\" stroke-width=\"4\" paint-order=\"stroke\"";
    let label = time(nanoseconds);
    format!("<text x=\"{x:.1}\" y=\"{y}\" text-anchor=\"{anchor}\" {edge} fill=\"{DARK}\">{label}</text>\n")
}

fn small(x: f64, y: f64, anchor: &str, what: &str) -> String {
    format!("<text x=\"{x:.1}\" y=\"{y}\" text-anchor=\"{anchor}\" font-size=\"11\" fill=\"{PALE}\">{what}</text>\n")
}

fn strong(x: f64, y: f64, anchor: &str, what: &str) -> String {
    let style = format!("font-size=\"15\" font-weight=\"600\" fill=\"{DARK}\"");
    format!("<text x=\"{x:.1}\" y=\"{y}\" text-anchor=\"{anchor}\" {style}>{what}</text>\n")
}

fn escaped(text: &str) -> String {
    text.replace('&', "&amp;").replace('<', "&lt;")
}

#[cfg(test)]
mod tests {
    use super::time;

    #[test]
    fn times_have_three_digits_and_a_unit() {
        let times = [4.4, 455.0, 999.6, 1_121.0, 16_742.0, 479_030.0, 12_293_568.0, 1e9];
        let shown = ["4.4 ns", "455 ns", "1.00 µs", "1.12 µs", "16.7 µs", "479 µs", "12.3 ms", "1000 ms"];
        assert_eq!(times.map(time), shown);
    }
}
