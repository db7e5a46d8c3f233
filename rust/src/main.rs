//! The command `sif`: `sif help` tells what it does.
#![deny(clippy::unwrap_used, clippy::expect_used, clippy::panic, clippy::indexing_slicing)]

mod arguments;
mod commands;
mod files;
mod help;
mod json;
mod progress;

use std::env;
use std::ffi::OsString;
use std::io::{stderr, Write};
use std::process::ExitCode;

use arguments::Arguments;
use files::Failure;
use help::Command;

/// Code 2: wrong usage, files that cannot be read or written, texts that are no script.
const FAILED: u8 = 2;

fn main() -> ExitCode {
    let words: Vec<OsString> = env::args_os().skip(1).collect();
    let name = words.first().map_or("".into(), |name| name.to_string_lossy());
    let rest = words.get(1..).unwrap_or(&[]);
    ExitCode::from(run(&name, rest).unwrap_or_else(|failure| tell(failure, &name)))
}

fn run(name: &str, words: &[OsString]) -> Result<u8, Failure> {
    match name {
        "" => Err(Failure::Usage("a command is missing".into())),
        "help" | "--help" | "-h" => print_help(words),
        "--version" => print(concat!("sif ", env!("CARGO_PKG_VERSION"), "\n")),
        _ => run_command(find(name)?, words),
    }
}

fn find(name: &str) -> Result<&'static Command, Failure> {
    help::find(name).ok_or_else(|| Failure::Usage(format!("there is no command {name}")))
}

fn run_command(command: &Command, words: &[OsString]) -> Result<u8, Failure> {
    let mut options = words.iter().take_while(|word| *word != "--");
    if options.any(|word| word == "--help" || word == "-h") {
        return print(&help::of(command));
    }
    let arguments = Arguments::parse(words, command.rules).map_err(Failure::Usage)?;
    (command.run)(&arguments)
}

fn print_help(words: &[OsString]) -> Result<u8, Failure> {
    match words {
        [] => print(&help::overview()),
        [name] if name == "help" => print(&help::overview()),
        [name] => print(&help::of(find(&name.to_string_lossy())?)),
        _ => Err(Failure::Usage("help takes one command".into())),
    }
}

fn print(text: &str) -> Result<u8, Failure> {
    files::write(None, text.as_bytes())?;
    Ok(0)
}

/// Tells a failure of a command on standard error. That it cannot be told is no further failure.
fn tell(failure: Failure, name: &str) -> u8 {
    let text = match failure {
        Failure::Usage(what) => match help::find(name) {
            Some(_) => format!("sif {name}: {what}; see `sif help {name}`\n"),
            None => format!("sif: {what}; see `sif help`\n"),
        },
        Failure::Message(what) => format!("sif: {what}\n"),
        Failure::ClosedPipe => String::new(),
    };
    let _ = stderr().write_all(text.as_bytes());
    FAILED
}
