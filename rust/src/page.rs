//! The page: the names that a run leaves, with values as people write them, and how the run ended.

use std::io::{self, Write};

use crate::answer::{Answer, Refusal};
use crate::check::Accepted;
use crate::engine::Machine;
use crate::place::Lowering;
use crate::script::Script;
use crate::show;
use crate::value::{Name, Single, Value};
use crate::words;

/// How a page is laid out.
#[derive(Clone, Copy, Debug, PartialEq, Eq)]
pub struct Layout {
    /// Arrays of whole numbers from 0 to 255 as braille patterns.
    pub dots: bool,
    /// Arrays that are wider than so many characters go on in a further line.
    pub width: usize,
}

/// What is put before a line that goes on.
const INDENT: &str = "    ";
/// Steps of one call, so that a long run can tell how far it is.
const PORTION: u64 = 500_000;

/// Takes up to so many steps. `tell` is called between portions with the steps taken.
pub fn run(
    machine: &mut Machine,
    steps: u64,
    tell: &mut dyn FnMut(u64),
) -> Result<Answer, Refusal> {
    let mut left = steps;
    loop {
        let portion = left.min(PORTION);
        let report = machine.run(portion)?;
        left -= portion;
        if report.answer != Answer::Spent || left == 0 {
            return Ok(report.answer);
        }
        tell(machine.steps());
    }
}

/// Writes a line for each name that is set, more for a table or a wide array.
pub fn write_names(
    out: &mut dyn Write,
    script: &Script,
    machine: &Machine,
    layout: Layout,
) -> io::Result<()> {
    for (name, value) in machine.names() {
        out.write_all(name_text(script, name, &value, layout).as_bytes())?;
    }
    Ok(())
}

/// The line that tells how a machine's run ended; at an error also the line of the script's text.
pub fn end_text(accepted: &Accepted, machine: &Machine, answer: Answer) -> String {
    let steps = match machine.steps() {
        1 => "1 step".to_string(),
        steps => format!("{steps} steps"),
    };
    let bound = accepted.bound.map_or("no bound".into(), |bound| format!("bound {bound}"));
    match answer {
        Answer::Done => format!("done after {steps} ({bound})\n"),
        Answer::Spent => format!("not ended after {steps} ({bound})\n"),
        Answer::Stopped { stop, line } => {
            let what = words::stop(&accepted.script, machine, stop);
            let place = text_line(accepted, line).unwrap_or_default();
            format!("stopped after {steps} ({bound}) at line {line}: {what}\n{place}")
        }
    }
}

/// Where the instruction at a stop's line comes from, by the lines that `sif show` prints: the text
/// that the file was made from may have other lines between. The stop's line is position + 1 − code
/// start (document 01, "Numbers given for the state").
fn text_line(accepted: &Accepted, line: i64) -> Option<String> {
    let index = line.checked_sub(1)?.checked_add(i64::from(accepted.program.code_start()))?;
    let node = Lowering::of(&accepted.script).node(usize::try_from(index).ok()?)?;
    let shown = show::show_with_lines(&accepted.script);
    let (line, text) = (shown.line(node), shown.line_text(node));
    Some(format!("{INDENT}in line {line} of `sif show`: {text}\n"))
}

fn name_text(script: &Script, name: Name, value: &Value, layout: Layout) -> String {
    let head = words::name(script, name);
    match value {
        Value::Array(items) => {
            let row = match patterns(items).filter(|_| layout.dots) {
                Some(patterns) => Row { open: "", parts: patterns, between: "", close: "" },
                None => {
                    Row { open: "[", parts: words::items(script, items), between: ", ", close: "]" }
                }
            };
            row.wrapped(&format!("{head} = "), layout.width)
        }
        Value::Table(pairs) if !pairs.is_empty() => {
            let line = |(key, value): &(Name, Single)| words::pair(script, *key, *value);
            let lines = pairs.iter().map(|pair| format!("{INDENT}{}\n", line(pair)));
            format!("{head}:\n{}", lines.collect::<String>())
        }
        _ => format!("{head} = {}\n", words::value(script, value)),
    }
}

/// The braille pattern of each item, where there are items and all are whole numbers from 0 to 255.
fn patterns(items: &[Single]) -> Option<Vec<String>> {
    let pattern = |item: &Single| match item {
        Single::Number(number) => {
            let cell = (0..=255u8).find(|cell| f64::from(*cell) == *number)?;
            char::from_u32(0x2800 + u32::from(cell)).map(String::from)
        }
        _ => None,
    };
    items.iter().map(pattern).collect::<Option<Vec<_>>>().filter(|parts| !parts.is_empty())
}

/// A row of parts that is broken between parts.
struct Row {
    open: &'static str,
    parts: Vec<String>,
    between: &'static str,
    close: &'static str,
}

impl Row {
    /// The row behind a head, in lines of at most so many characters; a part that is wider stands
    /// alone.
    fn wrapped(&self, head: &str, width: usize) -> String {
        let mut lines = Vec::new();
        let mut line = format!("{head}{}", self.open);
        for (i, part) in self.parts.iter().enumerate() {
            let last = i + 1 == self.parts.len();
            let piece = format!("{part}{}", if last { self.close } else { self.between });
            if line != INDENT && length(&line) + length(piece.trim_end()) > width {
                lines.push(std::mem::replace(&mut line, INDENT.to_string()));
            }
            line += &piece;
        }
        if self.parts.is_empty() {
            line += self.close;
        }
        lines.push(line);
        lines.iter().map(|line| format!("{}\n", line.trim_end())).collect()
    }
}

fn length(text: &str) -> usize {
    text.chars().count()
}
