//! What was measured, as a page of panels (SVG). Bars differ by fill and hatching, lines by dashes and
//! marks, so that the page can be read without colours.

use std::fmt::Write;
use std::fs;

use crate::measure::{digits, Group};

/// A panel's size, its inside, and the panels in a row.
const PANEL: (f64, f64) = (430.0, 264.0);
const INSIDE: (f64, f64, f64, f64) = (54.0, 62.0, 350.0, 142.0);
const ACROSS: usize = 2;
const HEAD: f64 = 44.0;

/// Colour, hatching, dashes and mark of a series.
const STYLES: [(&str, &str, &str, &str); 6] = [
    ("#17375e", "", "", "circle"),
    ("#d77a1f", "h1", "6 3", "square"),
    ("#f3c690", "h2", "2 3", "triangle"),
    ("#3f8f5a", "h3", "8 3 2 3", "diamond"),
    ("#a9a9a9", "", "10 2", "cross"),
    ("#dedede", "h4", "3 2", "square"),
];

/// What a legend calls a series.
fn called(series: &'static str) -> &'static str {
    match series {
        "sif_run" | "sif_lower" => "this engine",
        "original, from the file" => "original from the file",
        "original's compile alone" => "its compile alone",
        _ => series,
    }
}

/// The style of a series, the same in every panel.
fn style(series: &str) -> usize {
    match series {
        "C, one switch" | "start" => 1,
        "C, computed goto" | "run" => 2,
        "Lua 5.4" | "read_name" => 3,
        "original" | "original, from the file" => 4,
        "original's compile alone" | "constants" => 5,
        _ => 0,
    }
}

/// An axis: from, to, whether by powers, and its marks.
struct Axis {
    from: f64,
    to: f64,
    powers: bool,
    marks: Vec<f64>,
}

impl Axis {
    /// From 0 to at least the value, with round marks.
    fn linear(most: f64) -> Axis {
        let raw = most / 4.0;
        let power = 10f64.powf(raw.log10().floor());
        let step =
            [1.0, 2.0, 2.5, 5.0, 10.0].iter().map(|m| m * power).find(|s| *s >= raw).unwrap_or(raw);
        let count = (most / step).ceil();
        let marks = (0..=count as usize).map(|n| n as f64 * step).collect();
        Axis { from: 0.0, to: count * step, powers: false, marks }
    }

    /// Powers of a base around the values.
    fn powers(base: f64, least: f64, most: f64) -> Axis {
        let low = (least.ln() / base.ln() + 1e-9).floor() as i32;
        let high = (most.ln() / base.ln() - 1e-9).ceil() as i32;
        let marks: Vec<f64> = (low..=high).map(|n| base.powi(n)).collect();
        Axis { from: marks[0], to: marks[marks.len() - 1], powers: true, marks }
    }

    /// From the first to the last of some ascending places, which are its marks.
    fn places(marks: Vec<f64>, powers: bool) -> Axis {
        let (first, to) = (marks[0], marks[marks.len() - 1]);
        Axis { from: if powers { first } else { 0.0 }, to, powers, marks }
    }

    /// The place of a value, from 0 to 1.
    fn at(&self, value: f64) -> f64 {
        match self.powers {
            true => (value / self.from).ln() / (self.to / self.from).ln(),
            false => (value - self.from) / (self.to - self.from),
        }
    }
}

/// Values of named series at named or numbered places.
struct Data {
    title: &'static str,
    vertical: &'static str,
    horizontal: &'static str,
    series: Vec<&'static str>,
    /// A place's label lines, its number, and each series' value there.
    places: Vec<(Vec<String>, f64, Vec<Option<f64>>)>,
}

impl Data {
    fn of(
        group: &Group,
        title: &'static str,
        vertical: &'static str,
        horizontal: &'static str,
        series: &[&'static str],
    ) -> Data {
        let value = |figures: &[(&'static str, f64)], name: &str| {
            figures.iter().find(|(found, _)| *found == name).map(|(_, value)| *value)
        };
        let place = |row: &crate::measure::Row| {
            let values = series.iter().map(|name| value(&row.figures, name)).collect();
            let label = row.what.split(": ").next().and_then(|what| what.split(", ").next());
            (vec![label.unwrap_or_default().to_string()], row.work, values)
        };
        Data {
            title,
            vertical,
            horizontal,
            series: series.to_vec(),
            places: group.rows.iter().map(place).collect(),
        }
    }

    /// Each value divided by the first series' value, which goes into the place's label.
    fn ratios(mut self, unit: &str) -> Data {
        for (label, _, values) in &mut self.places {
            let first = values[0].unwrap_or(1.0);
            label.push(format!("{} {unit}", digits(first)));
            values.iter_mut().for_each(|value| *value = value.map(|value| value / first));
        }
        self
    }

    fn largest(&self) -> f64 {
        self.places
            .iter()
            .flat_map(|place| place.2.iter().flatten())
            .fold(0.0, |most, value| most.max(*value))
    }

    fn least(&self) -> f64 {
        self.places
            .iter()
            .flat_map(|place| place.2.iter().flatten())
            .fold(f64::MAX, |least, value| least.min(*value))
    }
}

/// A panel that is being drawn.
struct Panel {
    out: String,
}

fn escaped(text: &str) -> String {
    text.replace('&', "&amp;").replace('<', "&lt;")
}

impl Panel {
    fn text(&mut self, x: f64, y: f64, anchor: &str, class: &str, text: &str) {
        let text = escaped(text);
        let _ = writeln!(self.out, "<text x=\"{x:.1}\" y=\"{y:.1}\" text-anchor=\"{anchor}\" class=\"{class}\">{text}</text>");
    }

    /// A bar's figure, above it or below; upright where the bar is too narrow.
    fn figure(&mut self, x: f64, y: f64, below: bool, wide: f64, text: &str) {
        if wide > 20.0 {
            return self.text(x, if below { y + 9.0 } else { y - 3.0 }, "middle", "tiny", text);
        }
        let (x, y, anchor) =
            (x + 3.0, if below { y + 3.0 } else { y - 3.0 }, if below { "end" } else { "start" });
        let place = format!("x=\"{x:.1}\" y=\"{y:.1}\" transform=\"rotate(-90 {x:.1} {y:.1})\"");
        let _ = writeln!(
            self.out,
            "<text {place} text-anchor=\"{anchor}\" class=\"tiny\">{text}</text>"
        );
    }

    fn line(&mut self, from: (f64, f64), to: (f64, f64), class: &str) {
        let ((x1, y1), (x2, y2)) = (from, to);
        let _ = writeln!(
            self.out,
            "<line x1=\"{x1:.1}\" y1=\"{y1:.1}\" x2=\"{x2:.1}\" y2=\"{y2:.1}\" class=\"{class}\"/>"
        );
    }

    fn bar(&mut self, x: f64, y: f64, width: f64, height: f64, style: usize) {
        let (fill, hatch, ..) = STYLES[style];
        let place =
            format!("x=\"{x:.1}\" y=\"{y:.1}\" width=\"{width:.1}\" height=\"{height:.1}\"");
        let _ = writeln!(
            self.out,
            "<rect {place} fill=\"{fill}\" stroke=\"#333\" stroke-width=\"0.5\"/>"
        );
        if !hatch.is_empty() {
            let _ = writeln!(self.out, "<rect {place} fill=\"url(#{hatch})\"/>");
        }
    }

    fn mark(&mut self, x: f64, y: f64, style: usize) {
        let (colour, _, _, shape) = STYLES[style];
        let path = match shape {
            "circle" => format!("M{:.1} {y:.1}a3 3 0 1 0 6 0a3 3 0 1 0 -6 0", x - 3.0),
            "square" => format!("M{:.1} {:.1}h6v6h-6z", x - 3.0, y - 3.0),
            "triangle" => format!("M{x:.1} {:.1}l4 7h-8z", y - 4.0),
            "diamond" => format!("M{x:.1} {:.1}l4 4l-4 4l-4 -4z", y - 4.0),
            _ => format!("M{:.1} {:.1}l6 6m0 -6l-6 6", x - 3.0, y - 3.0),
        };
        let _ = writeln!(
            self.out,
            "<path d=\"{path}\" fill=\"{colour}\" stroke=\"#333\" stroke-width=\"0.8\"/>"
        );
    }

    /// Title, vertical axis with its marks, legend.
    fn frame(data: &Data, axis: &Axis, bars: bool, first: usize) -> Panel {
        let (left, top, width, height) = INSIDE;
        let mut panel = Panel { out: String::new() };
        panel.text(8.0, 14.0, "start", "title", data.title);
        for mark in &axis.marks {
            let y = top + height * (1.0 - axis.at(*mark));
            panel.line((left, y), (left + width, y), "grid");
            panel.text(left - 5.0, y + 3.5, "end", "small", &label(*mark));
        }
        panel.text(8.0, top - 12.0, "start", "small", data.vertical);
        let mut x = left + width;
        for name in data.series.iter().skip(first).rev() {
            x -= 5.7 * called(name).len() as f64 + 24.0;
            match bars {
                true => panel.bar(x, 24.0, 9.0, 9.0, style(name)),
                false => {
                    panel.stroke(&[(x - 6.0, 29.0), (x + 12.0, 29.0)], style(name));
                    panel.mark(x + 3.0, 29.0, style(name));
                }
            }
            panel.text(x + 15.0, 32.5, "start", "small", called(name));
        }
        panel
    }

    fn stroke(&mut self, points: &[(f64, f64)], style: usize) {
        let (colour, _, dashes, _) = STYLES[style];
        let points: Vec<String> = points.iter().map(|(x, y)| format!("{x:.1},{y:.1}")).collect();
        let _ = writeln!(
            self.out,
            "<polyline points=\"{}\" fill=\"none\" stroke=\"{colour}\" stroke-width=\"1.8\" stroke-dasharray=\"{dashes}\"/>",
            points.join(" ")
        );
    }

    fn floor(&mut self, horizontal: &str) {
        let (left, top, width, height) = INSIDE;
        self.line((left, top + height), (left + width, top + height), "axis");
        self.line((left, top), (left, top + height), "axis");
        self.text(left + width / 2.0, PANEL.1 - 20.0, "middle", "small", horizontal);
    }
}

/// A mark's text.
fn label(value: f64) -> String {
    if value.fract() == 0.0 {
        digits(value)
    } else {
        format!("{value}")
    }
}

/// Groups of bars. Of ratios the first series is 1, and a line stands for it.
fn bars(data: &Data, ratios: bool) -> String {
    let (left, top, width, height) = INSIDE;
    let axis = match ratios {
        true => Axis::powers(
            2.0,
            if data.least() < 1.0 { data.least() * 0.6 } else { 1.0 },
            data.largest(),
        ),
        false => Axis::linear(data.largest()),
    };
    let first = usize::from(ratios);
    let mut panel = Panel::frame(data, &axis, true, first);
    let each = width / data.places.len() as f64;
    let wide = (each * 0.82 / (data.series.len() - first) as f64).min(26.0);
    let base = if ratios { 1.0 } else { 0.0 };
    let y = |value: f64| top + height * (1.0 - axis.at(value));
    for (index, (label, _, values)) in data.places.iter().enumerate() {
        let middle = left + each * (index as f64 + 0.5);
        let from = middle - wide * (data.series.len() - first) as f64 / 2.0;
        for (place, value) in values.iter().enumerate().skip(first) {
            let Some(value) = *value else { continue };
            let (high, low) = (y(value.max(base)), y(value.min(base)));
            let x = from + wide * (place - first) as f64;
            panel.bar(x, high, wide, (low - high).max(0.6), style(data.series[place]));
            panel.figure(
                x + wide / 2.0,
                if value < base { low } else { high },
                value < base,
                wide,
                &short(value),
            );
        }
        let class = if data.places.len() > 6 { "tiny" } else { "small" };
        for (line, text) in label.iter().enumerate() {
            let y = top + height + 13.0 + 11.0 * line as f64;
            panel.text(middle, y, "middle", class, text);
        }
    }
    if ratios {
        panel.line((left, y(1.0)), (left + width, y(1.0)), "engine");
    }
    panel.floor(data.horizontal);
    panel.out
}

/// Two digits, for a bar.
fn short(value: f64) -> String {
    match value {
        _ if value >= 9.95 => digits(value.round()),
        _ if value >= 1.0 => format!("{value:.1}"),
        _ => format!("{value:.2}"),
    }
}

/// Lines over numbered places, by powers on both axes or on none.
fn lines(data: &Data, powers: bool) -> String {
    let (left, top, width, height) = INSIDE;
    let places = || data.places.iter().filter(|place| !powers || place.1 > 0.0);
    let across = Axis::places(places().map(|place| place.1).collect(), powers);
    let up = match powers {
        true => Axis::powers(10.0, data.least(), data.largest()),
        false => Axis::linear(data.largest()),
    };
    let mut panel = Panel::frame(data, &up, false, 0);
    for mark in &across.marks {
        let x = left + width * across.at(*mark);
        panel.line((x, top + height), (x, top + height + 4.0), "axis");
        panel.text(x, top + height + 15.0, "middle", "small", &label(*mark));
    }
    for (index, series) in data.series.iter().enumerate().rev() {
        let point = |place: &(Vec<String>, f64, Vec<Option<f64>>)| {
            let value = place.2[index]?;
            Some((left + width * across.at(place.1), top + height * (1.0 - up.at(value))))
        };
        let points: Vec<(f64, f64)> = places().filter_map(point).collect();
        panel.stroke(&points, style(series));
        points.iter().for_each(|(x, y)| panel.mark(*x, *y, style(series)));
    }
    panel.floor(data.horizontal);
    panel.out
}

const STYLE: &str = "text{font-family:Helvetica,Arial,sans-serif;fill:#111}\
    .head{font-size:17px;font-weight:bold}.title{font-size:12.5px;font-weight:bold}\
    .small{font-size:10px}.tiny{font-size:8px}\
    .grid{stroke:#d4d4d4;stroke-width:0.7}.axis{stroke:#222;stroke-width:1}\
    .engine{stroke:#17375e;stroke-width:1.6}";

const HATCHES: &str =
    "<pattern id=\"h1\" width=\"5\" height=\"5\" patternUnits=\"userSpaceOnUse\">\
    <path d=\"M0 5L5 0\" stroke=\"#fff\" stroke-width=\"1\"/></pattern>\
    <pattern id=\"h2\" width=\"4\" height=\"4\" patternUnits=\"userSpaceOnUse\">\
    <circle cx=\"2\" cy=\"2\" r=\"0.7\" fill=\"#7a4a10\"/></pattern>\
    <pattern id=\"h3\" width=\"5\" height=\"5\" patternUnits=\"userSpaceOnUse\">\
    <path d=\"M0 0L5 5\" stroke=\"#fff\" stroke-width=\"1.2\"/></pattern>\
    <pattern id=\"h4\" width=\"4\" height=\"4\" patternUnits=\"userSpaceOnUse\">\
    <path d=\"M0 2H4\" stroke=\"#777\" stroke-width=\"0.7\"/></pattern>";

/// The panels, in the order of their questions.
fn panels(groups: &[Group]) -> Vec<String> {
    let group =
        |title: &str| groups.iter().find(|group| group.title.starts_with(title)).expect("a group");
    let run = ["sif_run", "C, one switch", "C, computed goto"];
    let page = ["sif_run", "C, one switch", "C, computed goto", "Lua 5.4", "original"];
    let lower = ["sif_lower", "original, from the file", "original's compile alone"];
    let calls = ["lower", "start", "run", "read_name"];
    let ratio = "times the engine's time (the line)";
    vec![
        bars(
            &Data::of(
                group("A whole page"),
                "How long does a whole page take? (all checks included)",
                ratio,
                "page, with the engine's time",
                &page,
            )
            .ratios("µs"),
            true,
        ),
        bars(
            &Data::of(
                group("A step"),
                "How long does a step take? (less the checks)",
                "ns",
                "page",
                &run,
            ),
            false,
        ),
        lines(
            &Data::of(
                group("A call by its steps"),
                "How does a call grow with its steps?",
                "µs",
                "steps",
                &run,
            ),
            true,
        ),
        bars(
            &Data::of(
                &group("The checks of a call").only(", at its end"),
                "What do the checks of a call cost? (0 steps)",
                "µs",
                "page, at its end",
                &run,
            ),
            false,
        ),
        lines(
            &Data::of(
                group("The checks by names"),
                "How do the checks grow with names held?",
                "µs",
                "names that hold an array of 24",
                &run,
            ),
            false,
        ),
        lines(
            &Data::of(
                group("The checks by instructions"),
                "How do the checks grow with the program?",
                "µs",
                "instructions",
                &run,
            ),
            false,
        ),
        bars(
            &Data::of(
                group("Lowering, from"),
                "How long does lowering take?",
                ratio,
                "file, with the engine's time",
                &lower,
            )
            .ratios("µs"),
            true,
        ),
        lines(
            &Data::of(
                group("Lowering, by nodes"),
                "How does lowering grow with the tree?",
                "µs",
                "nodes",
                &lower,
            ),
            true,
        ),
        lines(
            &Data::of(
                group("The stack by"),
                "How much stack is used?",
                "bytes",
                "depth of the tree",
                &calls,
            ),
            false,
        ),
        bars(
            &Data::of(
                group("Size: code"),
                "How large is the code?",
                "bytes",
                "",
                &["code", "constants"],
            ),
            false,
        ),
    ]
}

pub fn write(path: &str, rounds: usize, groups: &[Group]) -> Result<(), String> {
    let panels = panels(groups);
    let (width, down) = (PANEL.0 * ACROSS as f64, panels.len().div_ceil(ACROSS));
    let height = HEAD + PANEL.1 * down as f64;
    let mut out = format!(
        "<svg xmlns=\"http://www.w3.org/2000/svg\" width=\"{width}\" height=\"{height}\" viewBox=\"0 0 {width} {height}\">\n\
         <style>{STYLE}</style>\n<defs>{HATCHES}</defs>\n<rect width=\"100%\" height=\"100%\" fill=\"#fff\"/>\n\
         <text x=\"8\" y=\"24\" class=\"head\">The page-script engine, measured: the best of {rounds} rounds in turn</text>\n"
    );
    for (index, panel) in panels.iter().enumerate() {
        let (x, y) = ((index % ACROSS) as f64 * PANEL.0, HEAD + (index / ACROSS) as f64 * PANEL.1);
        let _ = writeln!(out, "<g transform=\"translate({x} {y})\">\n{panel}</g>");
    }
    out += "</svg>\n";
    fs::write(path, out).map_err(|e| format!("{path}: {e}"))
}
