//! The picture of the library against the baseline: the times of the towers, and under them a bar for each row of long structures.

use crate::copying::{times_faster, Row, Times};
use crate::copying_inputs::Family;
use std::fmt::Write;
use std::time::Duration;

const WIDTH: f64 = 880.0;
const LIBRARY: &str = "#3a6ea5";
const BASELINE: &str = "#c4622d";
const PALE: &str = "#a9c3dd";

/// Where the names end and the scale begins, and how wide it is.
const LEFT: f64 = 330.0;
const SCALE: f64 = 470.0;

/// The towers' part.
const TOP: f64 = 50.0;
const BOTTOM: f64 = 290.0;

pub fn chart(rows: &[Row]) -> String {
    let bars: Vec<&Row> = rows.iter().filter(|r| r.family == Family::Long).collect();
    let height = BARS + LINE * bars.len() as f64 + 30.0;
    let mut picture = Picture::new(height);
    towers(rows, &mut picture);
    ratios(&bars, height - 20.0, &mut picture);
    picture.end()
}

// ---- The towers.

/// Times over levels, on a scale of powers of ten.
fn towers(rows: &[Row], picture: &mut Picture) {
    picture.title(
        18.0,
        "One unification whose unifier doubles at each of n variables, whole calls (scale of powers of ten)",
    );
    let times: Vec<(u16, &Times)> = rows
        .iter()
        .filter_map(|row| match row.family {
            Family::Doubling(n) => Some((n, &row.whole)),
            _ => None,
        })
        .collect();
    let levels: Vec<u16> = times.iter().map(|(n, _)| *n).collect();
    let library: Vec<Duration> = times.iter().map(|(_, t)| t.library).collect();
    let baseline: Vec<Duration> = times.iter().filter_map(|(_, t)| t.baseline).collect();
    let axes = Axes::new(&levels, &library, &baseline);
    axes.draw(&levels, picture);
    axes.curve(&levels, &library, LIBRARY, "library", picture);
    axes.curve(&levels, &baseline, BASELINE, "baseline", picture);
}

/// The least and the most level, and the same of the powers of ten of microseconds.
struct Axes {
    levels: [f64; 2],
    powers: [f64; 2],
}

impl Axes {
    fn new(levels: &[u16], library: &[Duration], baseline: &[Duration]) -> Axes {
        let levels = levels.iter().map(|n| f64::from(*n));
        let powers = library.iter().chain(baseline).map(|d| power(*d));
        Axes {
            levels: bounds(levels),
            powers: {
                let [least, most] = bounds(powers);
                [least.floor(), most.ceil()]
            },
        }
    }

    fn x(&self, level: u16) -> f64 {
        80.0 + (WIDTH - 190.0) * part(f64::from(level), self.levels)
    }

    fn y(&self, power: f64) -> f64 {
        BOTTOM - (BOTTOM - TOP) * part(power, self.powers)
    }

    fn draw(&self, levels: &[u16], picture: &mut Picture) {
        let [least, most] = self.powers.map(|p| p as i32);
        for power in least..=most {
            let y = self.y(f64::from(power));
            picture.line([60.0, y], [WIDTH - 90.0, y], "#ccc");
            picture.text([54.0, y + 4.0], "end", "#666", &unit(power));
        }
        for n in levels {
            let at = [self.x(*n), BOTTOM + 18.0];
            picture.text(at, "middle", "#666", &format!("D({n})"));
        }
    }

    fn curve(
        &self,
        levels: &[u16],
        times: &[Duration],
        color: &str,
        name: &str,
        picture: &mut Picture,
    ) {
        let points = levels.iter().zip(times);
        let points: Vec<[f64; 2]> = points
            .map(|(n, d)| [self.x(*n), self.y(power(*d))])
            .collect();
        for ends in points.windows(2) {
            picture.line(ends[0], ends[1], color);
        }
        for [x, y] in &points {
            picture.dot([*x, *y], color);
        }
        if let Some([x, y]) = points.last() {
            picture.text([x + 10.0, y + 4.0], "start", color, name);
        }
    }
}

/// The power of ten of its microseconds.
fn power(time: Duration) -> f64 {
    (time.as_secs_f64() * 1e6).max(0.01).log10()
}

fn unit(power: i32) -> String {
    match power {
        3.. => format!("{} ms", 10f64.powi(power - 3)),
        _ => format!("{} µs", 10f64.powi(power)),
    }
}

// ---- The ratios.

/// Where the bars begin, and what each row takes.
const BARS: f64 = 372.0;
const LINE: f64 = 32.0;

/// Bars from the line at 1, on a scale of powers of two: to its right the library is faster.
fn ratios(rows: &[&Row], bottom: f64, picture: &mut Picture) {
    picture.title(
        BARS - 32.0,
        "Baseline / library over long structures: right of the line at 1 the library is faster",
    );
    picture.bar([LEFT, BARS - 22.0], 10.0, LIBRARY);
    picture.text([LEFT + 16.0, BARS - 12.0], "start", "#666", "whole call");
    picture.bar([LEFT + 100.0, BARS - 22.0], 10.0, PALE);
    picture.text([LEFT + 116.0, BARS - 12.0], "start", "#666", "steps alone");

    let bars: Vec<[Option<f64>; 2]> = rows.iter().map(|row| both(row)).collect();
    let [least, most] = bounds(bars.iter().flatten().flatten().map(|r| r.log2()));
    let scale = [least.floor().min(-1.0), most.ceil().max(1.0)];
    let x = |ratio: f64| LEFT + SCALE * part(ratio.log2(), scale);
    for power in scale[0] as i32..=scale[1] as i32 {
        let at = x(2f64.powi(power));
        let color = if power == 0 { "#000" } else { "#ccc" };
        picture.line([at, BARS], [at, bottom], color);
        let number = 2f64.powi(power).to_string();
        picture.text([at, bottom + 14.0], "middle", "#666", &number);
    }
    for (i, (row, bars)) in rows.iter().zip(bars).enumerate() {
        let y = BARS + LINE * i as f64 + 3.0;
        picture.text([LEFT - 8.0, y + 16.0], "end", "#000", &row.name);
        for (j, (ratio, color)) in bars.into_iter().zip([LIBRARY, PALE]).enumerate() {
            if let Some(ratio) = ratio {
                let y = y + 13.0 * j as f64;
                let [low, high] = bounds([x(1.0), x(ratio)].into_iter());
                picture.bar([low, y], (high - low).max(1.0), color);
                picture.text(
                    [high + 5.0, y + 10.0],
                    "start",
                    "#000",
                    &times_faster(ratio),
                );
            }
        }
    }
}

/// By the whole call and by its steps alone.
fn both(row: &Row) -> [Option<f64>; 2] {
    [&row.whole, &row.step].map(Times::faster)
}

fn bounds(numbers: impl Iterator<Item = f64>) -> [f64; 2] {
    numbers.fold([f64::MAX, f64::MIN], |[least, most], n| {
        [least.min(n), most.max(n)]
    })
}

/// How far it is from the first to the second.
fn part(number: f64, [first, second]: [f64; 2]) -> f64 {
    (number - first) / (second - first)
}

// ---- What is drawn.

struct Picture(String);

impl Picture {
    fn new(height: f64) -> Picture {
        Picture(format!(
            "<svg xmlns=\"http://www.w3.org/2000/svg\" width=\"{WIDTH:.0}\" height=\"{height:.0}\" font-family=\"sans-serif\" font-size=\"12\">\n<rect width=\"{WIDTH:.0}\" height=\"{height:.0}\" fill=\"white\"/>\n"
        ))
    }

    fn title(&mut self, y: f64, text: &str) {
        self.put(format_args!(
            "<text x=\"10\" y=\"{y:.0}\" font-weight=\"bold\">{text}</text>"
        ));
    }

    fn text(&mut self, [x, y]: [f64; 2], anchor: &str, color: &str, text: &str) {
        self.put(format_args!(
            "<text x=\"{x:.0}\" y=\"{y:.0}\" text-anchor=\"{anchor}\" fill=\"{color}\">{text}</text>"
        ));
    }

    fn line(&mut self, [x, y]: [f64; 2], [to_x, to_y]: [f64; 2], color: &str) {
        self.put(format_args!(
            "<line x1=\"{x:.0}\" y1=\"{y:.0}\" x2=\"{to_x:.0}\" y2=\"{to_y:.0}\" stroke=\"{color}\"/>"
        ));
    }

    fn dot(&mut self, [x, y]: [f64; 2], color: &str) {
        self.put(format_args!(
            "<circle cx=\"{x:.0}\" cy=\"{y:.0}\" r=\"4\" fill=\"{color}\"/>"
        ));
    }

    fn bar(&mut self, [x, y]: [f64; 2], width: f64, color: &str) {
        self.put(format_args!(
            "<rect x=\"{x:.0}\" y=\"{y:.0}\" width=\"{width:.0}\" height=\"11\" fill=\"{color}\"/>"
        ));
    }

    fn put(&mut self, element: std::fmt::Arguments) {
        writeln!(self.0, "{element}").unwrap();
    }

    fn end(mut self) -> String {
        self.0.push_str("</svg>\n");
        self.0
    }
}
