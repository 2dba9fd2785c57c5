//! The picture of a sweep: a heat map of mean costs by noise, choice and mode, the cost over the
//! flips of the best of each choice, and the table of the best. One page with drawings in it.

use crate::html::{escaped, page as whole_page, table};
use crate::print::walk;
use crate::report::grouped;
use crate::sweep::{away, Tried, CHOICES, MODES, NOISES};

/// The cost after so many flips, of one list and its growing parts.
#[derive(Clone, Debug, PartialEq)]
pub struct Curve {
    pub label: String,
    pub points: Vec<(u64, i64)>,
}

/// What is drawn.
pub struct Picture<'a> {
    pub title: &'a str,
    pub first: &'a [Tried],
    pub last: &'a [Tried],
    pub best: Option<i64>,
    pub curves: &'a [Curve],
}

const STYLE: &str = "\
body { font: 14px/1.4 sans-serif; margin: 2em auto; max-width: 900px; color: #222; }
h1 { font-size: 1.4em; } h2 { font-size: 1.1em; margin-top: 1.6em; }
svg text { font: 12px sans-serif; }
table { border-collapse: collapse; } th, td { padding: 2px 10px; text-align: right; }
th { border-bottom: 1px solid #888; } td:last-child, th:last-child { text-align: left; }
";

const LEFT: usize = 150;
const CELL: [usize; 2] = [62, 30];

/// A colour from green at 0 over yellow to red at 1.
pub fn colour(part: f64) -> String {
    let stops = [
        [90.0, 180.0, 100.0],
        [250.0, 230.0, 140.0],
        [220.0, 90.0, 70.0],
    ];
    let place = part.clamp(0.0, 1.0) * 2.0;
    let lower = (place as usize).min(1);
    let mixed = |i: usize| {
        let (from, to) = (stops[lower][i], stops[lower + 1][i]);
        (from + (to - from) * (place - lower as f64)).round() as u8
    };
    format!("#{:02x}{:02x}{:02x}", mixed(0), mixed(1), mixed(2))
}

/// One cell of the heat map.
fn cell(tried: &Tried, column: usize, line: usize, range: (f64, f64)) -> String {
    let [wide, high] = CELL;
    let (x, y) = (LEFT + column * wide, 30 + line * high);
    let (fill, words) = match tried.mean() {
        Some(mean) => {
            let part = (mean - range.0) / (range.1 - range.0).max(1.0);
            (colour(part), grouped(mean.round() as i64))
        }
        None => ("#cccccc".to_string(), "none".to_string()),
    };
    let told = format!(
        "{}: {:.0} % of runs found a plan",
        walk(&tried.settings).trim_end(),
        tried.share()
    );
    let (centre, base) = (x + wide / 2, y + 20);
    format!(
        "<g><title>{}</title><rect x=\"{x}\" y=\"{y}\" width=\"{wide}\" height=\"{high}\" fill=\"{fill}\" \
         stroke=\"#fff\"/><text x=\"{centre}\" y=\"{base}\" text-anchor=\"middle\">{words}</text></g>\n",
        escaped(&told)
    )
}

/// The labels of the heat map's columns and lines.
fn labels() -> String {
    let mut text = String::new();
    for (column, noise) in NOISES.iter().enumerate() {
        let x = LEFT + column * CELL[0] + CELL[0] / 2;
        text += &format!("<text x=\"{x}\" y=\"20\" text-anchor=\"middle\">{noise}</text>\n");
    }
    for (i, (choice, ..)) in CHOICES.iter().enumerate() {
        for (k, (mode, _)) in MODES.iter().enumerate() {
            let y = 50 + (i * MODES.len() + k) * CELL[1];
            text += &format!("<text x=\"0\" y=\"{y}\">{choice}, {mode}</text>\n");
        }
    }
    text + "<text x=\"0\" y=\"20\">noise</text>\n"
}

/// The mean costs of the first round.
fn heat_map(first: &[Tried]) -> String {
    let means: Vec<f64> = first.iter().filter_map(Tried::mean).collect();
    let least = means.iter().copied().fold(f64::INFINITY, f64::min);
    let most = means.iter().copied().fold(f64::NEG_INFINITY, f64::max);
    let cells = first.iter().enumerate().map(|(place, tried)| {
        let (line, column) = (place / NOISES.len(), place % NOISES.len());
        cell(tried, column, line, (least, most))
    });
    let wide = LEFT + NOISES.len() * CELL[0];
    let high = 30 + CHOICES.len() * MODES.len() * CELL[1];
    let cells: String = cells.collect();
    format!(
        "<svg id=\"heat\" viewBox=\"0 0 {wide} {high}\">\n{}{cells}</svg>\n",
        labels()
    )
}

const PLOT: [f64; 2] = [780.0, 260.0];
const EDGE: f64 = 60.0;
const INKS: [&str; 3] = ["#1f5fa8", "#c2571a", "#2f7d32"];

/// Where costs and flips lie in the drawing.
struct Scale {
    flips: f64,
    least: f64,
    most: f64,
}

impl Scale {
    fn x(&self, flips: u64) -> f64 {
        EDGE + flips as f64 / self.flips * PLOT[0]
    }

    fn y(&self, cost: f64) -> f64 {
        10.0 + (self.most - cost) / (self.most - self.least) * PLOT[1]
    }
}

fn scale(curves: &[Curve], best: Option<i64>) -> Option<Scale> {
    let points = || curves.iter().flat_map(|curve| &curve.points);
    let flips = points().map(|&(flips, _)| flips).max()?.max(1) as f64;
    let costs = || points().map(|&(_, cost)| cost).chain(best);
    let (least, most) = (costs().min()? as f64, costs().max()? as f64);
    Some(Scale {
        flips,
        least,
        most: most.max(least + 1.0),
    })
}

/// A curve goes down in steps: a cost holds until the next find.
fn steps(curve: &Curve, place: usize, scale: &Scale) -> String {
    let mut path = String::new();
    for (i, &(flips, cost)) in curve.points.iter().enumerate() {
        let (x, y) = (scale.x(flips), scale.y(cost as f64));
        path += &match i {
            0 => format!("M{x:.1} {y:.1}"),
            _ => format!("H{x:.1}V{y:.1}"),
        };
    }
    let ink = INKS[place % INKS.len()];
    let (label, base) = (escaped(&curve.label), 310.0 + 18.0 * place as f64);
    format!(
        "<path d=\"{path}\" fill=\"none\" stroke=\"{ink}\" stroke-width=\"2\"/>\n\
         <text x=\"{EDGE}\" y=\"{base}\" fill=\"{ink}\">{label}</text>\n"
    )
}

/// The axes with their ends, and the best cost known as a broken line.
fn axes(scale: &Scale, best: Option<i64>) -> String {
    let (right, low) = (EDGE + PLOT[0], 10.0 + PLOT[1]);
    let mut text = format!(
        "<path d=\"M{EDGE} 10V{low}H{right}\" fill=\"none\" stroke=\"#888\"/>\n\
         <text x=\"{right}\" y=\"{}\" text-anchor=\"end\">{} flips</text>\n",
        low + 16.0,
        grouped(scale.flips as i64),
    );
    for cost in [scale.least, scale.most] {
        let (y, words) = (scale.y(cost) + 4.0, grouped(cost as i64));
        text += &format!(
            "<text x=\"{}\" y=\"{y:.1}\" text-anchor=\"end\">{words}</text>\n",
            EDGE - 4.0
        );
    }
    if let Some(best) = best {
        let y = scale.y(best as f64);
        text += &format!(
            "<path d=\"M{EDGE} {y:.1}H{right}\" stroke=\"#888\" stroke-dasharray=\"4 4\"/>\n\
             <text x=\"{right}\" y=\"{:.1}\" text-anchor=\"end\">best known {}</text>\n",
            y - 5.0,
            grouped(best),
        );
    }
    text
}

/// The cost over the flips.
fn cost_over_flips(curves: &[Curve], best: Option<i64>) -> String {
    let Some(scale) = scale(curves, best) else {
        return "<p>No settings found a plan.</p>\n".to_string();
    };
    let lines: String = curves
        .iter()
        .enumerate()
        .map(|(place, curve)| steps(curve, place, &scale))
        .collect();
    let (wide, high) = (EDGE + PLOT[0] + 10.0, 320 + 18 * curves.len());
    let axes = axes(&scale, best);
    format!("<svg id=\"flips\" viewBox=\"0 0 {wide} {high}\">\n{axes}{lines}</svg>\n")
}

/// The best settings, as the desk prints them.
fn best_table(last: &[Tried], best: Option<i64>) -> String {
    let best = best.unwrap_or(0);
    let percent = |cost: f64| away(cost, best).map_or("-".to_string(), |far| format!("{far:.1} %"));
    let cells = |tried: &Tried| {
        let (cost, seed) = tried.least?;
        let mean = tried.mean()?;
        Some(vec![
            grouped(cost),
            seed.to_string(),
            percent(cost as f64),
            grouped(mean.round() as i64),
            percent(mean),
            escaped(walk(&tried.settings).trim_end()),
        ])
    };
    let rows: Vec<Vec<String>> = last.iter().filter_map(cells).collect();
    let headings = [
        "least cost",
        "seed",
        "away",
        "mean cost",
        "away",
        "settings",
    ];
    table("best", &headings, &rows)
}

/// The whole page.
pub fn page(picture: &Picture) -> String {
    let best = picture.best.map_or("none".to_string(), grouped);
    let title = format!("Settings for {}", picture.title);
    let body = format!(
        "<h1>{}</h1>\n<p>Best cost known: <b id=\"known\">{best}</b>. Away is how far above it a cost is.</p>\n\
         <h2>The best settings</h2>\n{}\
         <h2>Mean cost by noise, choice and mode (green is cheap)</h2>\n{}\
         <h2>Cost over flips, the best of each choice</h2>\n{}",
        escaped(&title),
        best_table(picture.last, picture.best),
        heat_map(picture.first),
        cost_over_flips(picture.curves, picture.best),
    );
    whole_page(&title, STYLE, &body)
}
