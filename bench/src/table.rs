//! What was measured, as a page of tables.

use std::fs;

use crate::measure::Group;

/// The first line of a system file that begins so, after its colon.
fn machine() -> String {
    let text = fs::read_to_string("/proc/cpuinfo").unwrap_or_default();
    let line = text.lines().find_map(|line| line.strip_prefix("model name"));
    line.and_then(|line| line.split(':').nth(1))
        .map_or("unknown".into(), |name| name.trim().to_string())
}

fn markdown(group: &Group) -> String {
    let names = group.names();
    let mut out = format!("## {}\n{}.", group.title, unit(group));
    out += &format!("\n\n| | {} |\n|---|{}\n", names.join(" | "), "---|".repeat(names.len()));
    for row in &group.rows {
        let cell = |name: &&str| match row.figures.iter().position(|(found, _)| found == name) {
            Some(index) => group.cell(&row.figures, index),
            None => String::new(),
        };
        let cells: Vec<String> = names.iter().map(cell).collect();
        out += &format!("| {} | {} |\n", row.what, cells.join(" | "));
    }
    out
}

fn unit(group: &Group) -> String {
    match group.unit {
        "bytes" => String::from("In bytes"),
        "ns" => String::from("In nanoseconds; in brackets, how many times the engine's time"),
        _ => String::from("In microseconds; in brackets, how many times the engine's time"),
    }
}

pub fn write(path: &str, rounds: usize, groups: &[Group]) -> Result<(), String> {
    let mut out = format!(
        "# Measured\n\nWritten by `bench/run {rounds}` (bench/README.md says what is measured and how): the best of \
         {rounds} rounds in turn, in one run, on this processor: {}. Times change from run to run and from machine \
         to machine; the ratios are what to compare.\n\n![The same as a plot](bench.svg)\n",
        machine()
    );
    for group in groups {
        out += "\n";
        out += &markdown(group);
    }
    fs::write(path, out).map_err(|e| format!("{path}: {e}"))
}
