//! Implementations measured in turn, the best of many rounds; what was measured, in groups.

use std::time::Instant;

/// An implementation: its name and one measured turn, which gives nanoseconds of one call.
pub struct Turn<'w> {
    pub name: &'static str,
    pub work: Box<dyn FnMut() -> f64 + 'w>,
}

pub fn turn<'w>(name: &'static str, work: impl FnMut() -> f64 + 'w) -> Turn<'w> {
    Turn { name, work: Box::new(work) }
}

extern "C" {
    fn clock_gettime(clock: i32, time: *mut [i64; 2]) -> i32;
}

/// Nanoseconds of this thread's processor time.
fn processor() -> f64 {
    const THREAD: i32 = 3;
    let mut time = [0; 2];
    assert_eq!(unsafe { clock_gettime(THREAD, &mut time) }, 0);
    time[0] as f64 * 1e9 + time[1] as f64
}

/// Nanoseconds of some work: by the wall clock, or the processor time where that is less, since then
/// others had the processor in between.
fn elapsed(work: impl FnOnce()) -> f64 {
    let before = processor();
    let start = Instant::now();
    work();
    let wall = start.elapsed().as_nanos() as f64;
    wall.min(processor() - before)
}

/// Nanoseconds of one of so many calls.
pub fn timed(calls: usize, mut call: impl FnMut()) -> f64 {
    elapsed(|| (0..calls).for_each(|_| call())) / calls as f64
}

/// How many calls of a whole page stand in a row, here as in pages.lua.
const ROW: usize = 5;

/// Nanoseconds of one call, as many in a row as in pages.lua, each on something prepared before;
/// neither preparing it nor giving it back is measured.
pub fn timed_row<T>(prepare: impl Fn() -> T, mut call: impl FnMut(&mut T)) -> f64 {
    let mut prepared: Vec<T> = (0..ROW).map(|_| prepare()).collect();
    elapsed(|| prepared.iter_mut().for_each(&mut call)) / ROW as f64
}

/// The best of so many rounds for each, all of them in turn in every round.
pub fn best(rounds: usize, turns: Vec<Turn>) -> Figures {
    let mut turns = turns;
    let mut least = vec![f64::INFINITY; turns.len()];
    for _ in 0..rounds {
        for (turn, least) in turns.iter_mut().zip(&mut least) {
            *least = least.min((turn.work)());
        }
    }
    turns.iter().map(|turn| turn.name).zip(least).collect()
}

/// Each implementation's figure.
pub type Figures = Vec<(&'static str, f64)>;

/// One line of a table: what, how much work it is, and the figures.
#[derive(Clone)]
pub struct Row {
    pub what: String,
    pub work: f64,
    pub figures: Figures,
}

/// A line that is to be measured, with so many rounds at a time.
pub struct Line {
    pub what: String,
    pub work: f64,
    pub measure: Box<dyn FnMut(usize) -> Figures>,
}

/// A table that is to be measured.
pub struct Plan {
    pub title: &'static str,
    pub unit: &'static str,
    pub lines: Vec<Line>,
}

impl Plan {
    pub fn new(title: &'static str, unit: &'static str) -> Plan {
        Plan { title, unit, lines: Vec::new() }
    }

    pub fn line(&mut self, what: &str, work: f64, measure: impl FnMut(usize) -> Figures + 'static) {
        self.lines.push(Line { what: what.to_string(), work, measure: Box::new(measure) });
    }
}

/// All lines of all tables are gone over so often, each time with a part of the rounds: what slows
/// the machine for a while slows no line more than another.
const PASSES: usize = 10;

pub fn measured(rounds: usize, plans: Vec<Plan>) -> Vec<Group> {
    let (mut plans, part) = (plans, rounds.div_ceil(PASSES));
    let mut least: Vec<Vec<Figures>> = Vec::new();
    for pass in 0..PASSES {
        let figures = |line: &mut Line| (line.measure)(part);
        let all = plans.iter_mut().map(|plan| plan.lines.iter_mut().map(figures).collect());
        let all: Vec<Vec<Figures>> = all.collect();
        let figures = least.iter_mut().flatten().flatten().zip(all.iter().flatten().flatten());
        figures.for_each(|(least, figure)| least.1 = least.1.min(figure.1));
        if pass == 0 {
            least = all;
        }
        eprintln!("pass {} of {PASSES}", pass + 1);
    }
    let table = |(plan, figures): (Plan, Vec<Figures>)| {
        let mut group = Group::new(plan.title, plan.unit);
        for (line, figures) in plan.lines.into_iter().zip(figures) {
            group.row(&line.what, line.work, figures);
        }
        group
    };
    plans.into_iter().zip(least).map(table).collect()
}

/// A table of like lines, and the unit of its figures.
pub struct Group {
    pub title: &'static str,
    pub unit: &'static str,
    pub rows: Vec<Row>,
}

impl Group {
    pub fn new(title: &'static str, unit: &'static str) -> Group {
        println!("{title} ({unit})");
        Group { title, unit, rows: Vec::new() }
    }

    /// Keeps the line, and prints it.
    pub fn row(&mut self, what: &str, work: f64, figures: Figures) {
        let cell = |index: usize| format!("{} {}", figures[index].0, self.cell(&figures, index));
        let cells: Vec<String> = (0..figures.len()).map(cell).collect();
        println!("  {what:52} {}", cells.join(", "));
        self.rows.push(Row { what: what.to_string(), work, figures });
    }

    /// A figure; of a time, with the ratio to the first of its line.
    pub fn cell(&self, figures: &[(&'static str, f64)], index: usize) -> String {
        let (first, value) = (figures[0].1, figures[index].1);
        match index {
            0 => digits(value),
            _ if self.unit == "bytes" => digits(value),
            _ => format!("{} ({:.2})", digits(value), value / first),
        }
    }

    /// The lines of which the text ends so.
    pub fn only(&self, ending: &str) -> Group {
        let rows = self.rows.iter().filter(|row| row.what.ends_with(ending)).cloned().collect();
        Group { rows, ..*self }
    }

    /// The names of the implementations, in order of their first lines.
    pub fn names(&self) -> Vec<&'static str> {
        let mut names = Vec::new();
        for (name, _) in self.rows.iter().flat_map(|row| &row.figures) {
            if !names.contains(name) {
                names.push(*name);
            }
        }
        names
    }
}

/// Three digits, or a whole number.
pub fn digits(value: f64) -> String {
    let whole = format!("{value:.0}");
    match value {
        _ if value.fract() == 0.0 || value >= 100.0 => grouped(&whole),
        _ if value >= 10.0 => format!("{value:.1}"),
        _ => format!("{value:.2}"),
    }
}

fn grouped(whole: &str) -> String {
    let mut out = String::new();
    for (index, digit) in whole.chars().enumerate() {
        if index > 0 && (whole.len() - index) % 3 == 0 {
            out.push(',');
        }
        out.push(digit);
    }
    out
}
