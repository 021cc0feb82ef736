//! The rows as a picture: a panel for each scenario, both axes logarithmic.
use crate::{
    measure::{Row, Time},
    scenarios::SCENARIOS,
};

const WIDTH: f64 = 300.0;
const HEIGHT: f64 = 300.0;
const LEFT: f64 = 60.0;
const TOP: f64 = 40.0;
/// powers of ten: validators from 10^3 to 10^7, milliseconds from 10^-3 to 10^5
const ACROSS: (i32, i32) = (3, 7);
const UP: (i32, i32) = (-3, 5);

type Series = (&'static str, &'static str, fn(&Row) -> Option<Time>);

const SERIES: [Series; 4] = [
    ("reference", "#999999", |r| r.reference),
    ("close", "#c0392b", |r| r.close),
    ("plain Rust", "#2471a3", |r| r.plain),
    ("one copy", "#1e8449", |r| r.copy),
];

fn place(value: f64, (low, high): (i32, i32), length: f64) -> f64 {
    (value.log10() - f64::from(low)) / f64::from(high - low) * length
}

fn text(x: f64, y: f64, anchor: &str, words: &str) -> String {
    format!("<text x=\"{x:.1}\" y=\"{y:.1}\" text-anchor=\"{anchor}\">{words}</text>\n")
}

fn line(x: f64, y: f64, to_x: f64, to_y: f64, colour: &str) -> String {
    format!("<line x1=\"{x:.1}\" y1=\"{y:.1}\" x2=\"{to_x:.1}\" y2=\"{to_y:.1}\" stroke=\"{colour}\"/>\n")
}

fn grid(left: f64, name: &str, first: bool) -> String {
    let mut out = text(left + WIDTH / 2.0, TOP - 14.0, "middle", name);
    for power in ACROSS.0..=ACROSS.1 {
        let x = left + place(10f64.powi(power), ACROSS, WIDTH);
        out += &line(x, TOP, x, TOP + HEIGHT, "#dddddd");
        let label = ["1,000", "10,000", "100,000", "1 million", "10 million"][(power - ACROSS.0) as usize];
        out += &text(x, TOP + HEIGHT + 16.0, "middle", label);
    }
    for power in UP.0..=UP.1 {
        let y = TOP + HEIGHT - place(10f64.powi(power), UP, HEIGHT);
        out += &line(left, y, left + WIDTH, y, "#dddddd");
        if first {
            let label =
                ["1 µs", "10 µs", "100 µs", "1 ms", "10 ms", "100 ms", "1 s", "10 s", "100 s"][(power - UP.0) as usize];
            out += &text(left - 6.0, y + 4.0, "end", label);
        }
    }
    out
}

pub fn svg(rows: &[Row]) -> String {
    let step = WIDTH + 60.0;
    let (width, height) = (LEFT + step * SCENARIOS.len() as f64, TOP + HEIGHT + 70.0);
    let mut out = format!(
        "<svg xmlns=\"http://www.w3.org/2000/svg\" viewBox=\"0 0 {width} {height}\" font-family=\"sans-serif\" font-size=\"11\">\n\
         <rect width=\"{width}\" height=\"{height}\" fill=\"white\"/>\n"
    );
    for (i, scenario) in SCENARIOS.into_iter().enumerate() {
        let left = LEFT + step * i as f64;
        out += &grid(left, scenario.name(), i == 0);
        for (_, colour, of) in SERIES {
            let points = rows.iter().filter(|r| r.scenario == scenario).filter_map(|r| {
                let x = left + place(r.validators as f64, ACROSS, WIDTH);
                let y = TOP + HEIGHT - place(of(r)?.median, UP, HEIGHT);
                Some((x, y))
            });
            let points: Vec<(f64, f64)> = points.collect();
            let path: Vec<String> = points.iter().map(|(x, y)| format!("{x:.1},{y:.1}")).collect();
            out += &format!(
                "<polyline points=\"{}\" fill=\"none\" stroke=\"{colour}\" stroke-width=\"2\"/>\n",
                path.join(" ")
            );
            for (x, y) in points {
                out += &format!("<circle cx=\"{x:.1}\" cy=\"{y:.1}\" r=\"3\" fill=\"{colour}\"/>\n");
            }
        }
    }
    let bottom = TOP + HEIGHT + 46.0;
    out += &text(LEFT, bottom, "start", "time of one close (median) by number of validators");
    for (i, (name, colour, _)) in SERIES.into_iter().enumerate() {
        let x = LEFT + step * 1.2 + 130.0 * i as f64;
        out += &line(x, bottom - 4.0, x + 24.0, bottom - 4.0, colour);
        out += &text(x + 30.0, bottom, "start", name);
    }
    out + "</svg>\n"
}
