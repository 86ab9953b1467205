//! The growth as a picture: a panel for each call, time over qubits, with a line for each t.

use super::growth::{Column, Series, COLUMNS};
use super::timing::{LIBRARY, TABLE};
use std::ops::RangeInclusive;

const WIDTH: f64 = 720.0;
const HEIGHT: f64 = 420.0;

/// The edges of a panel's frame, the first panel's left one among them, and from there to the next panel's.
const TOP: f64 = 40.0;
const BOTTOM: f64 = 330.0;
const LEFT: f64 = 80.0;
const ACROSS: f64 = 260.0;
const STEP: f64 = 350.0;

/// The qubits at the ends of the axis, and those with a mark.
const QUBITS: RangeInclusive<usize> = 4..=25;
const MARKS: [usize; 5] = [5, 10, 15, 20, 24];

const COLOURS: [&str; 3] = ["#1f6fb4", "#c2571a", "#2e8b57"];

/// Of which times a line is, and how it is drawn.
const LINES: [(&str, usize, &str); 2] = [
    ("Reinoften", LIBRARY, "none"),
    ("Rust, table", TABLE, "5 4"),
];

/// A text of SVG.
pub fn drawn(series: &[Series]) -> String {
    let mut parts = vec![
        format!(
            "<svg xmlns=\"http://www.w3.org/2000/svg\" viewBox=\"0 0 {WIDTH} {HEIGHT}\" \
             width=\"{WIDTH}\" height=\"{HEIGHT}\" font-family=\"sans-serif\" font-size=\"12\">"
        ),
        format!("<rect width=\"{WIDTH}\" height=\"{HEIGHT}\" fill=\"white\"/>"),
    ];
    for (at, column) in COLUMNS.iter().enumerate() {
        let panel = Panel::of(LEFT + STEP * at as f64, column, series);
        parts.extend(panel.frame());
        parts.extend(panel.lines(series));
    }
    parts.extend(legend(series));
    parts.push("</svg>\n".to_string());
    parts.join("\n")
}

/// The axis of times goes from one power of ten to another.
struct Panel<'a> {
    left: f64,
    column: &'a Column,
    low: i32,
    high: i32,
}

impl Panel<'_> {
    fn of<'a>(left: f64, column: &'a Column, series: &[Series]) -> Panel<'a> {
        let points = series.iter().flat_map(|of_t| &of_t.points);
        let times = points.flat_map(|point| LINES.map(|(_, which, _)| (column.1)(point)[which]));
        let powers: Vec<f64> = times.map(f64::log10).collect();
        let low = powers.iter().copied().fold(f64::INFINITY, f64::min);
        let high = powers.iter().copied().fold(f64::NEG_INFINITY, f64::max);
        Panel {
            left,
            column,
            low: low.floor() as i32,
            high: high.ceil() as i32,
        }
    }

    fn x(&self, n: usize) -> f64 {
        let (first, last) = (*QUBITS.start(), *QUBITS.end());
        self.left + ACROSS * (n - first) as f64 / (last - first) as f64
    }

    fn y(&self, power: f64) -> f64 {
        let (low, high) = (f64::from(self.low), f64::from(self.high));
        BOTTOM - (BOTTOM - TOP) * (power - low) / (high - low)
    }

    /// The title, the marks of both axes, and the axis of qubits named.
    fn frame(&self) -> Vec<String> {
        let (left, middle) = (self.left, self.left + ACROSS / 2.0);
        let title = format!("{}: time of a call", self.column.0);
        let mut parts = vec![text(middle, TOP - 14.0, "middle", &title)];
        for power in self.low..=self.high {
            let y = self.y(f64::from(power));
            parts.push(line(left, y, left + ACROSS, y, "#dddddd"));
            parts.push(text(left - 6.0, y + 4.0, "end", &power_of_ten(power)));
        }
        for n in MARKS {
            let x = self.x(n);
            parts.push(line(x, BOTTOM, x, BOTTOM + 4.0, "black"));
            parts.push(text(x, BOTTOM + 18.0, "middle", &n.to_string()));
        }
        parts.push(line(left, TOP, left, BOTTOM, "black"));
        parts.push(line(left, BOTTOM, left + ACROSS, BOTTOM, "black"));
        parts.push(text(middle, BOTTOM + 36.0, "middle", "qubits"));
        parts
    }

    fn lines(&self, series: &[Series]) -> Vec<String> {
        let mut parts = Vec::new();
        for (of_t, colour) in series.iter().zip(COLOURS) {
            for (_, which, dashes) in LINES {
                let place = |point| {
                    let seconds: f64 = (self.column.1)(point)[which];
                    (self.x(point.n), self.y(seconds.log10()))
                };
                let places: Vec<(f64, f64)> = of_t.points.iter().map(place).collect();
                parts.push(path(&places, colour, dashes));
            }
        }
        parts
    }
}

/// The colours of t and the kinds of line, in a row below the panels.
fn legend(series: &[Series]) -> Vec<String> {
    let of_t = series.iter().zip(COLOURS);
    let of_t = of_t.map(|(of_t, colour)| (format!("t = {}", of_t.t), colour, "none"));
    let of_lines = LINES.map(|(name, _, dashes)| (name.to_string(), "black", dashes));
    let y = HEIGHT - 22.0;
    let mut parts = Vec::new();
    for (at, (name, colour, dashes)) in of_t.chain(of_lines).enumerate() {
        let x = LEFT + 118.0 * at as f64;
        parts.push(path(&[(x, y), (x + 34.0, y)], colour, dashes));
        parts.push(text(x + 42.0, y + 4.0, "start", &name));
    }
    parts
}

fn power_of_ten(power: i32) -> String {
    let (unit, name) = match power {
        ..=-7 => (-9, "ns"),
        -6..=-4 => (-6, "µs"),
        -3..=-1 => (-3, "ms"),
        0.. => (0, "s"),
    };
    format!("{} {name}", 10_f64.powi(power - unit))
}

fn text(x: f64, y: f64, anchor: &str, words: &str) -> String {
    format!("<text x=\"{x:.1}\" y=\"{y:.1}\" text-anchor=\"{anchor}\">{words}</text>")
}

fn line(x1: f64, y1: f64, x2: f64, y2: f64, colour: &str) -> String {
    format!("<path d=\"M{x1:.1},{y1:.1}L{x2:.1},{y2:.1}\" stroke=\"{colour}\"/>")
}

/// A thick line through places, with a dot at each.
fn path(places: &[(f64, f64)], colour: &str, dashes: &str) -> String {
    let points = places.iter().map(|(x, y)| format!("{x:.1},{y:.1}"));
    let points = points.collect::<Vec<_>>().join(" ");
    let mut drawn = format!(
        "<polyline points=\"{points}\" fill=\"none\" stroke=\"{colour}\" stroke-width=\"2\" \
         stroke-dasharray=\"{dashes}\"/>"
    );
    for (x, y) in places {
        drawn += &format!("<circle cx=\"{x:.1}\" cy=\"{y:.1}\" r=\"2.5\" fill=\"{colour}\"/>");
    }
    drawn
}

#[cfg(test)]
mod tests {
    use super::super::growth::Point;
    use super::*;

    /// The numbers in an attribute of each part with this name.
    fn numbers(svg: &str, part: &str, attribute: &str) -> Vec<Vec<f64>> {
        let (begin, key) = (format!("<{part} "), format!("{attribute}=\""));
        let parts = svg.split(&begin).skip(1);
        let values = parts.map(|rest| rest.split_once(&key).unwrap().1);
        let values = values.map(|rest| rest.split_once('"').unwrap().0);
        let numbers = |value: &str| {
            value
                .split([',', ' '])
                .map(|n| n.parse().unwrap())
                .collect()
        };
        values.map(numbers).collect()
    }

    #[test]
    fn each_time_has_its_place_in_a_panel() {
        let series = [1, 2, 3].map(|t| {
            let point = |n| {
                let times = [0.0, 2e-9, 2e-7].map(|unit: f64| unit * 10_f64.powi(t as i32));
                let (decode, admission) = (times, times);
                Point {
                    n,
                    decode,
                    admission,
                }
            };
            let points = [5, 24].map(point).into();
            Series { t, points }
        });
        let svg = drawn(&series);
        let lines = numbers(&svg, "polyline", "points");
        let of_panels = COLUMNS.len() * series.len() * LINES.len();
        assert_eq!(lines.len(), of_panels + series.len() + LINES.len());
        // the axis goes from 10 ns to 1 ms, and the first line is at 2 µs
        let (left, step) = (LEFT + ACROSS / 21.0, ACROSS * 19.0 / 21.0);
        let y = BOTTOM - (BOTTOM - TOP) * 200_f64.log10() / 5.0;
        let expected = [left, y, left + step, y];
        let near = |(one, other): (&f64, &f64)| (one - other).abs() < 0.06;
        assert!(lines[0].iter().zip(&expected).all(near), "{:?}", lines[0]);
        for (at, line) in lines[..of_panels].iter().enumerate() {
            let panel = LEFT + STEP * (at / 6) as f64;
            for place in line.chunks(2) {
                assert!((panel..=panel + ACROSS).contains(&place[0]), "{place:?}");
                assert!((TOP..=BOTTOM).contains(&place[1]), "{place:?}");
            }
        }
        let marks = numbers(&svg, "text", "x");
        assert!(marks.iter().all(|x| (30.0..=WIDTH).contains(&x[0])));
    }

    #[test]
    fn powers_of_ten_have_their_units() {
        let names = [-8, -7, -6, -4, -3, 0].map(power_of_ten);
        assert_eq!(names, ["10 ns", "100 ns", "1 µs", "100 µs", "1 ms", "1 s"]);
    }
}
