//! The walk by meaning beside the stepped original, on generated plain scripts.

use crate::bound::{bound_of_program, bound_of_tree};
use crate::driver::{End, Machine};
use crate::gen;
use crate::gen_large;
use crate::gen_script::plain;
use crate::gen_small;
use crate::gen_values;
use crate::listing::{names_text, whole_machine};
use crate::lower::lower_file;
use crate::program::code_of_text;
use crate::program_bytes::Code;
use crate::refuse::SCRIPT_TOO_LARGE;
use crate::rng::Rng;
use crate::tree::{file_of, is_plain, Node};
use crate::walk::{walk, Cut};

/// The steps of the whole run; longer scripts are compared as far as this.
const STEPS: u64 = 20_000;

#[derive(Default)]
struct Figures {
    scripts: u64,
    refused: u64,
    done: u64,
    stopped: u64,
    spent: u64,
    runs: u64,
    steps: u64,
}

/// Compares so many scripts: the directed ones on values first, then by the seed.
pub fn compare(seed: u64, count: u64) -> Result<(), String> {
    let directed = gen_values::all();
    let mut figures = Figures::default();
    let mut item = 0;
    while figures.scripts < count {
        let mut rng = Rng::new(seed, item);
        let root = match directed.get(item as usize) {
            Some(root) => root.clone(),
            None if item % 10 == 0 => gen_values::numbers(&mut rng),
            None if item % 10 == 5 => gen_large::script(&mut rng, true),
            None => plain(&mut rng),
        };
        let file = file_of(&root);
        one(&file, &mut rng, &mut figures)
            .map_err(|why| format!("seed {seed} item {item}: {why}"))?;
        item += 1;
    }
    let f = figures;
    println!(
        "compare: {} plain scripts agree ({} done, {} stopped, {} longer than {STEPS} steps), \
         {} runs, {} steps; {} refused as too large",
        f.scripts, f.done, f.stopped, f.spent, f.runs, f.steps, f.refused
    );
    Ok(())
}

fn one(file: &[u8], rng: &mut Rng, figures: &mut Figures) -> Result<(), String> {
    let (root, lowered) = match lower_file(file) {
        Ok(both) => both,
        Err(SCRIPT_TOO_LARGE) => {
            figures.refused += 1;
            return Ok(());
        }
        Err(number) => return Err(format!("a generated script was refused with {number}")),
    };
    if !is_plain(&root) {
        return Err(String::from("a generated script is not plain"));
    }
    let bound = bound_of_tree(&root);
    equal("bound", bound, bound_of_program(&lowered))?;
    let fresh = Fresh { root, code: Code::of_lowered(lowered) };
    let whole = fresh.at_budget(STEPS)?;
    let count = whole.count;
    match whole.end {
        End::Done => figures.done += 1,
        End::Stopped { .. } => figures.stopped += 1,
        End::Spent => figures.spent += 1,
    }
    within_bound(&whole.end, count, bound)?;
    let some = rng.below(count as usize + 1) as u64;
    let budgets = [0, 1, some, count.saturating_sub(1), count, count + 1];
    for budget in budgets {
        let cut = fresh.at_budget(budget)?;
        if budget < count {
            equal("end of a cut run", &End::Spent, &cut.end)?;
            equal("count of a cut run", budget, cut.count)?;
        }
    }
    fresh.in_portions(rng, &whole)?;
    by_run(&fresh.code)?;
    figures.scripts += 1;
    figures.runs += 3 + budgets.len() as u64;
    figures.steps += count;
    Ok(())
}

fn within_bound(end: &End, count: u64, bound: u64) -> Result<(), String> {
    let within = match end {
        End::Done => count <= bound,
        _ => count < bound,
    };
    if within {
        Ok(())
    } else {
        Err(format!("{count} steps, bound {bound}"))
    }
}

/// What a run leaves.
struct Left {
    end: End,
    count: u64,
    names: String,
}

struct Fresh {
    root: Node,
    code: Code,
}

impl Fresh {
    fn machine(&self) -> Machine {
        self.code.machine()
    }

    /// Machine and walk cut off after so many steps; they have to agree.
    fn at_budget(&self, budget: u64) -> Result<Left, String> {
        let mut machine = self.machine();
        let end = machine.run(budget);
        let names = names_text(&machine.vm.heap);
        let (walked, cut) = walk(&self.root, budget);
        equal("count", machine.count, walked.count)?;
        equal("names", &names, &walked.names_text())?;
        let same = match (&end, &cut) {
            (End::Done, None) | (End::Spent, Some(Cut::Spent)) => true,
            (End::Stopped { stop, .. }, Some(Cut::Stopped(own))) => stop == own,
            _ => false,
        };
        if !same {
            return Err(format!("machine ends with {end:?}, walk with {cut:?}, budget {budget}"));
        }
        Ok(Left { end, count: machine.count, names })
    }

    /// The same steps in portions leave the same, and more steps change nothing at the end.
    fn in_portions(&self, rng: &mut Rng, whole: &Left) -> Result<(), String> {
        let mut machine = self.machine();
        let mut left = STEPS;
        let mut end = End::Spent;
        while left > 0 {
            let portion = left.min(rng.between(0, 1 + whole.count as usize / 2) as u64);
            end = machine.run(portion);
            left -= portion;
            if portion > 0 && end != End::Spent {
                left = left.min(5);
            }
        }
        equal("end in portions", &whole.end, &end)?;
        equal("count in portions", whole.count, machine.count)?;
        equal("names in portions", &whole.names, &names_text(&machine.vm.heap))
    }
}

/// The stepped machine beside the original's `VM::run`: all of both machines has to agree. None
/// where the original would panic, meet an added size or a 38, or run on.
fn by_run(code: &Code) -> Result<Option<End>, String> {
    let mut stepped = code.machine();
    let end = stepped.run(STEPS);
    if !stepped.is_reached_by_original(&end) {
        return Ok(None);
    }
    let expected = match &end {
        End::Stopped { stop, .. } => Err(stop.clone()),
        _ => Ok(()),
    };
    let mut whole = code.machine();
    equal("end by VM::run", expected, whole.run_by_original())?;
    whole.count = stepped.count;
    let machines = [&mut stepped, &mut whole].map(|machine| whole_machine(machine, &end));
    equal("machine by VM::run", &machines[0], &machines[1])?;
    Ok(Some(end))
}

fn equal<T: PartialEq + std::fmt::Debug>(what: &str, a: T, b: T) -> Result<(), String> {
    if a == b {
        Ok(())
    } else {
        Err(format!("{what}: {a:?} and {b:?}"))
    }
}

/// All trees of at most so many nodes, alone and behind an array: plain ones beside the walk, all of
/// them beside `VM::run`.
pub fn small(most: usize) -> Result<(), String> {
    let (mut figures, mut other, mut refused) = (Figures::default(), 0, 0);
    let roots = gen_small::all(most);
    let behind = roots.iter().map(gen_small::behind_array);
    for (item, root) in roots.iter().cloned().chain(behind).enumerate() {
        let file = file_of(&root);
        let told = |why: String| format!("small tree {item}: {why}");
        match lower_file(&file) {
            Err(_) => refused += 1,
            Ok(_) if is_plain(&root) => {
                one(&file, &mut Rng::new(1, item as u64), &mut figures).map_err(told)?;
            }
            Ok((_, lowered)) => {
                by_run(&Code::of_lowered(lowered)).map_err(told)?;
                other += 1;
            }
        }
    }
    println!(
        "small: all {} trees of at most {most} nodes, alone and behind an array: {} plain ones \
         agree with the walk, {other} others with VM::run, {refused} refused",
        roots.len(),
        figures.scripts
    );
    Ok(())
}

/// Steps other scripts and programs, and runs them by the original's `VM::run` too.
pub fn runs(seed: u64, count: u64) -> Result<(), String> {
    for (what, kinds) in
        [("scripts", &["other", "large"][..]), ("programs", &["programs", "routines"])]
    {
        let (mut done, mut stopped, mut left_out) = (0, 0, 0);
        for item in 0..count {
            let kind = kinds[usize::from(item % 10 >= 7)];
            let bytes = gen::seeded(kind, &mut Rng::new(seed, item));
            let code = match kind {
                "programs" | "routines" => code_of_text(&bytes)?,
                _ => lower_file(&bytes).ok().map(|(_, lowered)| Code::of_lowered(lowered)),
            };
            let end = code.map_or(Ok(None), |code| by_run(&code));
            match end.map_err(|why| format!("{kind}, seed {seed} item {item}: {why}"))? {
                Some(End::Done) => done += 1,
                Some(_) => stopped += 1,
                None => left_out += 1,
            }
        }
        println!(
            "runs: {done} {what} run to their end and {stopped} to a stop as by VM::run; \
             {left_out} refused, longer, or at an added number"
        );
    }
    Ok(())
}

/// The walk of a tree file as text, in the form of the listing's last lines.
pub fn walk_text(file: &[u8], steps: u64) -> Result<String, String> {
    let root = match lower_file(file) {
        Ok((root, _)) => root,
        Err(number) => return Ok(format!("refused {number}\n")),
    };
    if !is_plain(&root) {
        return Err(String::from("not a plain script"));
    }
    let (walked, cut) = walk(&root, steps);
    let end = match cut {
        None => format!("end done {}", walked.count),
        Some(Cut::Spent) => format!("end spent {}", walked.count),
        Some(Cut::Stopped(stop)) => {
            let details: String = stop.details.iter().map(|d| format!(" {d}")).collect();
            format!("end stopped {} {}{details}", walked.count, stop.number)
        }
    };
    Ok(format!("bound {}\n{end}\n{}", bound_of_tree(&root), walked.names_text()))
}
