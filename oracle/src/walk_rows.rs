//! The figures of `Computed.antt` in proofs/ of walk: each has to be what the oracle's walk and bound
//! give for the same script, and what a run in portions ends with.

use crate::bound::bound_of_tree;
use crate::byte_rows::stop_named;
use crate::driver::{End, Stop};
use crate::lower::lower_file;
use crate::program_bytes::Code;
use crate::terms::{abbreviations_of, paragraphs, term, Abbreviations, Term};
use crate::tree::{file_of, is_plain, Node};
use crate::walk::{walk, Cut};

/// How many figures the table has. Every paragraph has to be read.
pub fn figures_of(table: &str) -> Result<usize, String> {
    let short = abbreviations_of(table)?;
    let mut count = 0;
    for lines in paragraphs(table) {
        if !lines[0].starts_with("abbrev ") && !lines.iter().all(|line| line.starts_with("use ")) {
            figure(&lines.join(" "), &short).map_err(|why| format!("{}: {why}", lines[0]))?;
            count += 1;
        }
    }
    if count == table.matches(" = refl\n").count() {
        Ok(count)
    } else {
        Err(format!("{count} figures read of those that are computed"))
    }
}

/// `name : left ≡ right`, the definitions that are unfolded, `name = refl`.
fn figure(text: &str, short: &Abbreviations) -> Result<(), String> {
    let (name, rest) = text.split_once(" : ").ok_or("no figure")?;
    let stated = rest.strip_suffix(&format!(" {name} = refl")).ok_or("not computed")?;
    let stated = stated.split(" unfolding ").next().unwrap_or(stated);
    let (left, right) = stated.split_once(" ≡ ").ok_or("no equation")?;
    let told = |side: &str| Ok::<Term, String>(short.expand(&term(side)?));
    let (asked, stated) = (answer(&told(left)?)?, shown(&told(right)?)?);
    if asked == stated {
        Ok(())
    } else {
        Err(format!("{stated} is stated, {asked} is the oracle's"))
    }
}

/// What a left side is by the oracle, as text.
fn answer(asked: &Term) -> Result<String, String> {
    let walked = |walk_of: &Term| match walk_of.parts() {
        // more steps than any of the scripts takes
        ("walk", [script]) => Ok(walk(&plain(script)?, 100_000)),
        _ => Err(format!("no walk: {walk_of:?}")),
    };
    match asked.parts() {
        ("bound", [script]) => Ok(bound_of_tree(&plain(script)?).to_string()),
        ("walk_count", [of]) => Ok(walked(of)?.0.count.to_string()),
        ("walk_names", [of, name]) => {
            let value = walked(of)?.0.name_text(name.number()?);
            Ok(value.unwrap_or_else(|| String::from("none")))
        }
        ("pattern", [names]) => {
            let value = answer(names)?;
            let pattern = value.strip_prefix("Num:").unwrap_or("0");
            let bits = u64::from_str_radix(pattern, 16).map_err(|e| e.to_string())?;
            Ok(bits.to_string())
        }
        ("walk_end", [of]) => match walked(of)?.1 {
            None => Ok(String::from("Done")),
            Some(Cut::Stopped(stop)) => Ok(stop_text(&stop)),
            Some(Cut::Spent) => Err(String::from("a script without end")),
        },
        ("runs", [program, portions, last]) if last.head == ".last" => {
            in_portions(program, &portions.list()?)
        }
        _ => Err(format!("a figure cannot be read: {asked:?}")),
    }
}

/// A plain script's tree; its file is lowered.
fn plain(script: &Term) -> Result<Node, String> {
    let root = script.script()?;
    lower_file(&file_of(&root)).map_err(|number| format!("refused {number}"))?;
    if is_plain(&root) {
        Ok(root)
    } else {
        Err(String::from("not plain"))
    }
}

/// The answer of the last run that was given steps.
fn in_portions(program: &Term, portions: &[&Term]) -> Result<String, String> {
    let script = match program.parts() {
        ("program_of", [lowered]) if lowered.head == "lower_tree" && lowered.args.len() == 1 => {
            &lowered.args[0]
        }
        _ => return Err(format!("no program: {program:?}")),
    };
    let file = file_of(&script.script()?);
    let (_, lowered) = lower_file(&file).map_err(|number| format!("refused {number}"))?;
    let mut machine = Code::of_lowered(lowered).machine();
    let mut last = String::from("none");
    for portion in portions {
        let steps = portion.number()?;
        let end = machine.run(steps);
        if steps > 0 {
            last = match end {
                End::Done => String::from("Done"),
                End::Spent => String::from("Spent"),
                End::Stopped { stop, .. } => stop_text(&stop),
            };
        }
    }
    Ok(last)
}

fn stop_text(stop: &Stop) -> String {
    let details: String = stop.details.iter().map(|detail| format!(" {detail}")).collect();
    format!("stopped {}{details}", stop.number)
}

/// A right side as text: a number, a value, how a script ends.
fn shown(stated: &Term) -> Result<String, String> {
    match stated.parts() {
        ("none" | "Done" | "Spent" | "Null", []) => Ok(stated.head.clone()),
        ("some" | "One", [inner]) => shown(inner),
        ("Str", [text]) => Ok(format!("Str:{}", text.number()?)),
        ("Bl", [truth]) if truth.head == "true" => Ok(String::from("Bl:1")),
        ("Bl", [truth]) if truth.head == "false" => Ok(String::from("Bl:0")),
        ("Arr", [items]) => {
            let items = items.list()?.into_iter().map(shown).collect::<Result<Vec<_>, _>>()?;
            Ok(format!("Arr:[{}]", items.join(",")))
        }
        ("Stopped", [stop]) => {
            let details = stop.args.iter().map(Term::number).collect::<Result<Vec<_>, _>>()?;
            Ok(stop_text(&stop_named(&stop.head, &details)?))
        }
        (_, []) => Ok(stated.number()?.to_string()),
        _ => Err(format!("a figure cannot be read: {stated:?}")),
    }
}
