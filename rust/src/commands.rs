//! The commands. Each gives its exit code: 0, or 1 where the file is refused or the page stopped or
//! has not ended.

use std::ffi::OsStr;
use std::fmt::Display;
use std::io::{stderr, stdout, Write};

use sif::check::{self, Accepted};
use sif::page::{self, Layout};
use sif::script::Fault;
use sif::trace::{self, Window};
use sif::{listing, parse, show, Answer, Machine};

use crate::arguments::Arguments;
use crate::files::{self, output, Failure};
use crate::json::Object;
use crate::progress::Progress;

const GOOD: u8 = 0;
const NOT_GOOD: u8 = 1;
const WIDTH: u64 = 80;

/// A line for each file.
pub fn check(arguments: &Arguments) -> Result<u8, Failure> {
    if arguments.files.is_empty() {
        return Err(Failure::Usage("files are missing (- is standard input)".into()));
    }
    let line = if arguments.is_given("--json") { json_line } else { plain_line };
    let whole = arguments.files.len() as u64;
    let mut progress = Progress::new();
    let mut code = GOOD;
    for (done, path) in (0..).zip(&arguments.files) {
        progress.tell("check", done, whole, "files");
        let verdict = Verdict::of(path)?;
        code = code.max(verdict.code());
        progress.clear();
        writeln!(stdout(), "{}", line(path, &verdict))?;
    }
    Ok(code)
}

/// The listing program's bytes.
pub fn list(arguments: &Arguments) -> Result<u8, Failure> {
    let file = given_tree(arguments)?;
    let (text, code) = match check::check(&file) {
        Ok(accepted) => (listing::listing(&accepted.program, accepted.bound)?, GOOD),
        Err(fault) => (listing::refused(fault.number), NOT_GOOD),
    };
    files::write(None, text.as_bytes())?;
    Ok(code)
}

/// The names and the end of a run.
pub fn page(arguments: &Arguments) -> Result<u8, Failure> {
    let steps = steps(arguments)?;
    let width = number(arguments, "--width", 1, WIDTH)?;
    let width = usize::try_from(width).unwrap_or(usize::MAX);
    let layout = Layout { dots: arguments.is_given("--dots"), width };
    on_accepted(arguments, |accepted| {
        let mut machine = accepted.program.start()?;
        let mut progress = Progress::new();
        let tell = &mut |done| progress.tell("page", done, steps, "steps");
        let answer = page::run(&mut machine, steps, tell)?;
        drop(progress);
        let mut out = output();
        page::write_names(&mut out, &accepted.script, &machine, layout)?;
        write_end(&mut out, accepted, &machine, answer)
    })
}

/// The steps and the end of a run.
pub fn trace(arguments: &Arguments) -> Result<u8, Failure> {
    let window = Window {
        from: number(arguments, "--from", 1, 1)?,
        to: number(arguments, "--to", 1, u64::MAX)?,
        steps: steps(arguments)?,
    };
    if window.to < window.from {
        return Err(Failure::Usage("--to is before --from".into()));
    }
    on_accepted(arguments, |accepted| {
        let mut machine = accepted.program.start()?;
        let mut out = output();
        let mut progress = Progress::beside_output();
        let tell = &mut |done| progress.tell("trace", done, window.steps, "steps");
        let answer = trace::trace(&mut out, &accepted.script, &mut machine, window, tell)?;
        drop(progress);
        write_end(&mut out, accepted, &machine, answer)
    })
}

/// The script as text.
pub fn show(arguments: &Arguments) -> Result<u8, Failure> {
    let path = one_file(arguments)?;
    match Verdict::of(path)? {
        Verdict::Accepted(accepted) => {
            files::write(None, show::show(&accepted.script).as_bytes())?;
            Ok(GOOD)
        }
        Verdict::Unreadable(what) => Err(Failure::Message(what)),
        refused => Ok(complain(&plain_line(path, &refused))),
    }
}

/// A tree file from text.
pub fn tree(arguments: &Arguments) -> Result<u8, Failure> {
    let path = match arguments.files.as_slice() {
        [] => OsStr::new("-"),
        _ => one_file(arguments)?,
    };
    let text = files::read_text(path)?;
    let named = |what: &dyn Display| format!("{}: {what}", files::name(path));
    let parsed = parse::parse_bytes(&text).map_err(|error| Failure::Message(named(&error)))?;
    let file = parsed.script.to_bytes();
    files::write(arguments.value("-o"), &file)?;
    match check::check(&file) {
        Ok(_) => Ok(GOOD),
        Err(fault) => {
            let position = fault.node.as_ref().and_then(|node| parsed.position(node.number));
            let place = position.map_or(String::new(), |at| format!("{at}: "));
            Ok(complain(&named(&format!("{place}{}", refused_text(&fault)))))
        }
    }
}

/// What is found of a file.
enum Verdict {
    Accepted(Box<Accepted>),
    Refused(Fault),
    Unreadable(String),
}

impl Verdict {
    fn of(path: &OsStr) -> Result<Verdict, Failure> {
        match files::read_tree(path) {
            Ok(file) => Ok(match check::check(&file) {
                Ok(accepted) => Verdict::Accepted(Box::new(accepted)),
                Err(fault) => Verdict::Refused(fault),
            }),
            Err(Failure::Message(what)) => Ok(Verdict::Unreadable(what)),
            Err(failure) => Err(failure),
        }
    }

    fn code(&self) -> u8 {
        match self {
            Verdict::Accepted(_) => GOOD,
            Verdict::Refused(_) => NOT_GOOD,
            Verdict::Unreadable(_) => crate::FAILED,
        }
    }
}

fn plain_line(path: &OsStr, verdict: &Verdict) -> String {
    match verdict {
        Verdict::Accepted(_) => format!("{}: accepted", files::name(path)),
        Verdict::Refused(fault) => format!("{}: {}", files::name(path), refused_text(fault)),
        Verdict::Unreadable(what) => what.clone(),
    }
}

fn json_line(path: &OsStr, verdict: &Verdict) -> String {
    let object = Object::new().string("file", &path.to_string_lossy());
    match verdict {
        Verdict::Accepted(accepted) => {
            let script = &accepted.script;
            let object = object
                .bool("accepted", true)
                .number("nodes", script.node_count() as u64)
                .number("texts", script.texts().len() as u64)
                .number("instructions", accepted.program.count());
            match accepted.bound {
                Some(bound) => object.number("bound", bound).end(),
                None => object.null("bound").end(),
            }
        }
        Verdict::Refused(fault) => fault_json(object.bool("accepted", false), fault).end(),
        Verdict::Unreadable(what) => object.string("error", what).end(),
    }
}

fn fault_json(object: Object, fault: &Fault) -> Object {
    let mut object = object.number("number", fault.number).string("words", &fault.words);
    if let Some(byte) = fault.byte {
        object = object.number("byte", byte as u64);
    }
    if let Some(text) = &fault.text {
        let bytes = text.bytes.escape_ascii().to_string();
        let text = Object::new().number("number", text.number as u64).string("bytes", &bytes);
        object = object.object("text", text);
    }
    if let Some(node) = &fault.node {
        let node = Object::new().number("number", node.number as u64).string("path", &node.path);
        object = object.object("node", node);
    }
    object
}

fn refused_text(fault: &Fault) -> String {
    format!("refused with {fault}")
}

/// Does something with the given file where it is accepted; else tells why not.
fn on_accepted(
    arguments: &Arguments,
    work: impl FnOnce(&Accepted) -> Result<u8, Failure>,
) -> Result<u8, Failure> {
    match check::check(&given_tree(arguments)?) {
        Ok(accepted) => work(&accepted),
        Err(fault) => {
            files::write(None, format!("{}\n", refused_text(&fault)).as_bytes())?;
            Ok(NOT_GOOD)
        }
    }
}

/// The line that tells the end of a run, and the exit code for it.
fn write_end(
    out: &mut dyn Write,
    accepted: &Accepted,
    machine: &Machine,
    answer: Answer,
) -> Result<u8, Failure> {
    out.write_all(page::end_text(accepted, machine, answer).as_bytes())?;
    out.flush()?;
    Ok(if answer == Answer::Done { GOOD } else { NOT_GOOD })
}

/// Tells a refusal on standard error, where standard output has other contents.
fn complain(text: &str) -> u8 {
    let _ = writeln!(stderr(), "sif: {text}");
    NOT_GOOD
}

fn one_file(arguments: &Arguments) -> Result<&OsStr, Failure> {
    arguments.one_file().map_err(Failure::Usage)
}

fn given_tree(arguments: &Arguments) -> Result<Vec<u8>, Failure> {
    files::read_tree(one_file(arguments)?)
}

fn number(arguments: &Arguments, name: &str, least: u64, default: u64) -> Result<u64, Failure> {
    arguments.number(name, least, default).map_err(Failure::Usage)
}

fn steps(arguments: &Arguments) -> Result<u64, Failure> {
    number(arguments, "--steps", 0, listing::STEPS)
}
