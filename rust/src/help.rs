//! The help of the command.

use crate::arguments::{Arguments, Rule};
use crate::commands;
use crate::files::Failure;

/// A command with its options and its help.
pub struct Command {
    pub name: &'static str,
    /// Does the work and gives the exit code.
    pub run: fn(&Arguments) -> Result<u8, Failure>,
    pub rules: &'static [Rule],
    pub usage: &'static str,
    /// One line.
    pub summary: &'static str,
    pub details: &'static str,
}

pub const STEPS: Rule = Rule { name: "--steps", value: "N" };

pub const COMMANDS: [Command; 6] = [
    Command {
        name: "check",
        run: commands::check,
        rules: &[Rule { name: "--json", value: "" }],
        usage: "sif check [--json] FILE...",
        summary: "tell whether tree files are accepted",
        details: "\
A line for each file: accepted, or refused with the number, what is wrong, and
the place: byte, text, node and the way to it from the Program.
  --json     a JSON object for each file instead
Exit code: 0 all accepted, 1 one refused, 2 one cannot be read.",
    },
    Command {
        name: "list",
        run: commands::list,
        rules: &[],
        usage: "sif list FILE",
        summary: "print the listing of a tree file",
        details: "\
The instructions, labels, functions, the bound, how 100,000 steps end, and the
names, all by number: what the listing program prints.
Exit code: 0 accepted, 1 refused.",
    },
    Command {
        name: "page",
        run: commands::page,
        rules: &[Rule { name: "--dots", value: "" }, Rule { name: "--width", value: "N" }, STEPS],
        usage: "sif page [--dots] [--width N] [--steps N] FILE",
        summary: "run a tree file and print the page",
        details: "\
The names that are set, with their values, and how the run ended: done, stopped
at an error, or not ended; with the steps taken and the bound of a plain script.
  --dots     arrays of whole numbers from 0 to 255 as braille patterns
  --width N  break arrays that are wider than N characters (80)
  --steps N  give the run N steps (100000)
Exit code: 0 done, 1 stopped, not ended or refused.",
    },
    Command {
        name: "trace",
        run: commands::trace,
        rules: &[Rule { name: "--from", value: "N" }, Rule { name: "--to", value: "N" }, STEPS],
        usage: "sif trace [--from N] [--to N] [--steps N] FILE",
        summary: "run a tree file and print each step",
        details: "\
A line for each step: its number, the instruction's index, the operation with
names, and what it changed in registers (r0 and on), names and stacks; then how
the run ended.
  --from N   show the steps from N on (1)
  --to N     show no steps after N; the run goes on to its end
  --steps N  give the run N steps (100000)
Exit code: 0 done, 1 stopped, not ended or refused.",
    },
    Command {
        name: "show",
        run: commands::show,
        rules: &[],
        usage: "sif show FILE",
        summary: "print a tree file as text",
        details: "\
The script as indented text with names. `sif tree` makes the same tree file from
it again.
Exit code: 0 accepted, 1 refused.",
    },
    Command {
        name: "tree",
        run: commands::tree,
        rules: &[Rule { name: "-o", value: "FILE" }],
        usage: "sif tree [-o FILE] [TEXTFILE]",
        summary: "make a tree file from text",
        details: "\
The text is read from TEXTFILE or standard input; the tree file is written to
standard output, or:
  -o FILE    to that file (- is standard output)
Exit code: 0 accepted, 1 made but refused by the engine, 2 the text is no script.",
    },
];

/// The help of all commands.
pub fn overview() -> String {
    let line = |command: &Command| format!("  {:<7}{}\n", command.name, command.summary);
    let lines: String = COMMANDS.iter().map(line).collect();
    format!(
        "\
sif: page scripts of the embosser at the desk

usage: sif COMMAND [OPTIONS] FILE...
{lines}  help   print this, or the help of a command: sif help COMMAND
         (sif --version prints the version)

FILE is a tree file; - is standard input.
Exit code: 0 good; 1 the file is refused, or the page stopped or has not ended;
2 wrong usage, a file that cannot be read or written, or a text that is no script.
"
    )
}

/// The help of one command.
pub fn of(command: &Command) -> String {
    format!("usage: {}\n{}\n", command.usage, command.details)
}

/// The command of that name.
pub fn find(name: &str) -> Option<&'static Command> {
    COMMANDS.iter().find(|command| command.name == name)
}
