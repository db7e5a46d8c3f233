//! The command: help, usage errors, exit codes, what goes to which output.

mod scripts;

use std::ffi::{OsStr, OsString};
use std::fs;
use std::io::{Read, Write};
use std::path::{Path, PathBuf};
use std::process::{Command, Output, Stdio};

use scripts::{root, stored};

const COMMANDS: [&str; 6] = ["check", "list", "page", "trace", "show", "tree"];

fn command() -> Command {
    let mut command = Command::new(env!("CARGO_BIN_EXE_sif"));
    command.current_dir(root().join("examples"));
    command
}

fn sif<W: AsRef<OsStr>>(words: &[W]) -> Output {
    command().args(words).stdin(Stdio::null()).output().unwrap()
}

/// The same with something on standard input.
fn sif_with(words: &[&str], input: &[u8]) -> Output {
    let pipes = command().args(words).stdin(Stdio::piped()).stdout(Stdio::piped()).spawn();
    let mut child = pipes.unwrap();
    child.stdin.take().unwrap().write_all(input).unwrap();
    child.wait_with_output().unwrap()
}

/// Exit code, standard output, standard error.
fn ended(output: &Output) -> (i32, String, String) {
    let text = |bytes: &[u8]| String::from_utf8(bytes.to_vec()).unwrap();
    (output.status.code().unwrap(), text(&output.stdout), text(&output.stderr))
}

/// A file of that name for one test.
fn scratch(name: &str, contents: &[u8]) -> PathBuf {
    let path = Path::new(env!("CARGO_TARGET_TMPDIR")).join(name);
    fs::write(&path, contents).unwrap();
    path
}

/// The tree file of a text.
fn tree(name: &str, text: &str) -> PathBuf {
    let (source, path) = (scratch(&format!("{name}.sif"), text.as_bytes()), scratch(name, b""));
    let made = sif(&[OsStr::new("tree"), OsStr::new("-o"), path.as_os_str(), source.as_os_str()]);
    assert_eq!(ended(&made), (0, String::new(), String::new()));
    path
}

/// What a command prints of the tree file of a text.
fn screen(name: &str, words: &[&str], text: &str) -> (i32, String, String) {
    let mut words: Vec<OsString> = words.iter().map(OsString::from).collect();
    words.push(tree(name, text).into());
    ended(&sif(&words))
}

#[test]
fn help() {
    let (code, overview, err) = ended(&sif(&["help"]));
    assert_eq!((code, err.as_str()), (0, ""));
    for other in ["--help", "-h"] {
        assert_eq!(ended(&sif(&[other])), (0, overview.clone(), String::new()));
    }
    for command in COMMANDS {
        assert!(overview.contains(&format!("\n  {command} ")), "{command}");
        let (code, text, err) = ended(&sif(&["help", command]));
        assert_eq!((code, err.as_str()), (0, ""));
        assert!(text.starts_with(&format!("usage: sif {command} ")), "{text}");
        assert_eq!(ended(&sif(&[command, "loop.tree", "--help"])), (0, text, String::new()));
    }
    assert!(overview.lines().all(|line| line.len() <= 84), "{overview}");
}

/// Wrong usage: code 2, nothing on standard output, the reason and where help is on standard error.
#[test]
fn wrong_usage() {
    let rows: &[(&[&str], &str)] = &[
        (&[], "sif: a command is missing; see `sif help`\n"),
        (&["chek"], "sif: there is no command chek; see `sif help`\n"),
        (&["help", "chek"], "sif: there is no command chek; see `sif help`\n"),
        (&["help", "page", "list"], "sif: help takes one command; see `sif help`\n"),
        (&["check"], "sif check: files are missing (- is standard input); see `sif help check`\n"),
        (&["page"], "sif page: a file is missing (- is standard input); see `sif help page`\n"),
        (&["list", "a", "b"], "sif list: one file too many: b; see `sif help list`\n"),
        (&["tree", "a", "b"], "sif tree: one file too many: b; see `sif help tree`\n"),
        (&["page", "--dot", "a"], "sif page: there is no option --dot; see `sif help page`\n"),
        (&["list", "-x", "a"], "sif list: there is no option -x; see `sif help list`\n"),
        (&["page", "--dots=1", "a"], "sif page: --dots takes no value; see `sif help page`\n"),
        (
            &["page", "a", "--width"],
            "sif page: --width takes a value: --width N; see `sif help page`\n",
        ),
        (
            &["trace", "--to", "3", "--from=4", "a"],
            "sif trace: --to is before --from; see `sif help trace`\n",
        ),
        (
            &["page", "--dots", "--dots", "a"],
            "sif page: --dots is given twice; see `sif help page`\n",
        ),
    ];
    for (words, expected) in rows {
        assert_eq!(ended(&sif(words)), (2, String::new(), expected.to_string()), "{words:?}");
    }
    for wrong in ["0", "-1", "x", "", "1.5", "18446744073709551616"] {
        let (code, out, err) = ended(&sif(&["page", "--width", wrong, "loop.tree"]));
        assert_eq!((code, out.as_str()), (2, ""), "{wrong}");
        assert!(err.starts_with("sif page: --width takes a whole number from 1 to "), "{err}");
    }
}

#[test]
fn files_that_cannot_be_read_or_written() {
    for command in COMMANDS.into_iter().filter(|command| *command != "check") {
        let (code, out, err) = ended(&sif(&[command, "none.tree"]));
        assert_eq!((code, out.as_str()), (2, ""), "{command}");
        assert!(err.starts_with("sif: none.tree: "), "{err}");
    }
    let (code, out, _) = ended(&sif(&["check", "none.tree", "loop.tree"]));
    assert_eq!(code, 2);
    let lines: Vec<&str> = out.lines().collect();
    assert!(
        matches!(lines[..], [first, "loop.tree: accepted"] if first.starts_with("none.tree: "))
    );
    let text = scratch("written.sif", b"var x = 2\n");
    let words = ["tree".into(), "-o".into(), "none/x.tree".into(), text.into_os_string()];
    let (code, out, err) = ended(&sif(&words));
    assert_eq!((code, out.as_str()), (2, ""));
    assert!(err.starts_with("sif: none/x.tree: "), "{err}");
}

/// Codes 0 and 1, by a stored file of each kind.
#[test]
fn exit_codes() {
    let rows: &[(&[&str], i32)] = &[
        (&["check", "loop.tree", "worksheet.tree"], 0),
        (&["check", "loop.tree", "README.md"], 1),
        (&["list", "past_the_end.tree"], 0),
        (&["list", "no_index.tree"], 0),
        (&["list", "README.md"], 1),
        (&["page", "loop.tree"], 0),
        (&["page", "past_the_end.tree"], 1),
        (&["page", "no_index.tree"], 1),
        (&["page", "long.tree"], 1),
        (&["page", "--steps", "26", "loop.tree"], 1),
        (&["page", "--steps", "27", "loop.tree"], 0),
        (&["page", "README.md"], 1),
        (&["trace", "loop.tree"], 0),
        (&["trace", "past_the_end.tree"], 1),
        (&["trace", "no_index.tree"], 1),
        (&["trace", "README.md"], 1),
        (&["show", "loop.tree"], 0),
    ];
    for (words, code) in rows {
        let (got, _, err) = ended(&sif(words));
        assert_eq!((got, err.as_str()), (*code, ""), "{words:?}");
    }
    let (code, out, err) = ended(&sif(&["show", "README.md"]));
    assert_eq!((code, out.as_str()), (1, ""));
    assert!(err.starts_with("sif: README.md: refused with 2: "), "{err}");
}

#[test]
fn listings() {
    for name in ["loop", "worksheet", "past_the_end", "no_index", "long"] {
        let expected = fs::read_to_string(root().join(format!("examples/{name}.listing"))).unwrap();
        assert_eq!(ended(&sif(&["list", &format!("{name}.tree")])).1, expected, "{name}");
    }
    let longest = stored().into_iter().max_by_key(|case| case.file.len()).unwrap();
    assert_eq!(sif_with(&["list", "-"], &longest.file).stdout, longest.listing.into_bytes());
}

#[test]
fn standard_input() {
    let file = fs::read(root().join("examples/loop.tree")).unwrap();
    for command in ["list", "page", "trace", "show"] {
        let (given, named) = (sif_with(&[command, "-"], &file), sif(&[command, "loop.tree"]));
        assert_eq!(given.stdout, named.stdout, "{command}");
    }
    assert_eq!(ended(&sif_with(&["check", "-"], &file)).1, "standard input: accepted\n");
    let text = sif(&["show", "loop.tree"]).stdout;
    assert_eq!(sif_with(&["tree"], &text).stdout, file);
    assert_eq!(sif_with(&["tree", "-"], &text).stdout, file);
    assert_eq!(sif_with(&["list", "-"], b"").stdout, b"refused 1\n");
    // An endless input is not read to its end.
    let zeros = command().args(["list", "/dev/zero"]).output().unwrap();
    assert_eq!(ended(&zeros), (1, "refused 2\n".to_string(), String::new()));
}

/// `-` behind `-o` is standard output, as no `-o` is.
#[test]
fn standard_output() {
    let file = fs::read(root().join("examples/loop.tree")).unwrap();
    let text = sif(&["show", "loop.tree"]).stdout;
    let written = sif_with(&["tree", "-o", "-"], &text);
    assert_eq!((written.status.code(), written.stdout), (Some(0), file));
    assert!(!root().join("examples/-").exists());
}

/// Long inputs: what is told of a file is true of the whole, and a text is not read without end.
#[test]
fn long_inputs() {
    let mut file = fs::read(root().join("examples/loop.tree")).unwrap();
    let end = file.len();
    file.resize(3_000_000, 0);
    let path = scratch("goes_on.tree", &file);
    let (code, out, _) = ended(&sif(&["check".as_ref(), path.as_os_str()]));
    assert_eq!(code, 1);
    let words = format!(
        ": refused with 1: the file goes on behind its last body: by its contents it has {end} \
         bytes; at byte {end}\n"
    );
    assert!(out.ends_with(&words), "{out}");

    let comments = format!("x = 1\n#{}\n", " ".repeat((1 << 20) - 8));
    let whole = scratch("whole.sif", comments.as_bytes());
    assert_eq!(sif(&["tree".as_ref(), whole.as_os_str()]).status.code(), Some(0));
    let long = scratch("long.sif", format!("{comments}\n").as_bytes());
    let (code, out, err) = ended(&sif(&["tree".as_ref(), long.as_os_str()]));
    assert_eq!((code, out.as_str()), (2, ""));
    assert!(err.ends_with("long.sif: too long for a script\n"), "{err}");
}

/// The words behind `--` are files, whatever they begin with.
#[test]
fn names_that_look_like_options() {
    let (code, out, _) = ended(&sif(&["check", "loop.tree", "--", "--json", "-"]));
    assert_eq!(code, 2);
    assert!(out.starts_with("loop.tree: accepted\n--json: "), "{out}");
}

#[test]
fn texts_that_are_no_script() {
    let (code, out, err) = ended(&sif(&["tree", "README.md"]));
    assert_eq!((code, out.as_str()), (2, ""));
    assert!(err.starts_with("sif: README.md: line "), "{err}");
    let path = scratch("refused.sif", b"var x = 1\nx = !(y = 1)\n");
    let made = scratch("refused.tree", b"");
    let words = ["tree".as_ref(), "-o".as_ref(), made.as_os_str(), path.as_os_str()];
    let (code, out, err) = ended(&sif(&words));
    assert_eq!((code, out.as_str()), (1, ""));
    assert!(err.contains("refused.sif: line 2, column 7: refused with 6: "), "{err}");
}

/// A tree file with an infinity, as it may be queued, is refused by every command, with the place;
/// a text with one makes no tree file.
#[test]
fn numbers_that_are_not_finite() {
    let file = b"\0\x03\x02\x06\x01\x01\x01\x08\x01\x13\0fortmpx\x01\x7f\xf0\0\0\0\0\0\0";
    let path = scratch("infinite.tree", file);
    let refused = "refused with 39: the number is inf; the numbers of a script are finite; at \
                   byte 19; node 2: Program > statement 1 (VarDecl) > Num\n";
    let line = format!("{}: {refused}", path.display());
    let rows = [
        ("check", line.clone(), String::new()),
        ("list", "refused 39\n".into(), String::new()),
        ("page", refused.into(), String::new()),
        ("trace", refused.into(), String::new()),
        ("show", String::new(), format!("sif: {line}")),
    ];
    for (command, out, err) in rows {
        let got = ended(&sif(&[command.as_ref(), path.as_os_str()]));
        assert_eq!(got, (1, out, err), "{command}");
    }

    let source = scratch("infinite.sif", b"var x = 2\nx = [1, -inf]\n");
    let made = scratch("kept.tree", b"as before");
    let words = ["tree".as_ref(), "-o".as_ref(), made.as_os_str(), source.as_os_str()];
    let why = "the numbers of a script are finite; 1 / 0 gives inf; as a name this word is \
               written in backquotes, `inf`";
    let err = format!("sif: {}: line 2, column 10: {why}\n", source.display());
    assert_eq!(ended(&sif(&words)), (2, String::new(), err));
    assert_eq!(fs::read(&made).unwrap(), b"as before");
}

/// An output that nobody reads ends the command without a word.
#[test]
fn closed_pipe() {
    let rows: [&[&str]; 7] = [
        &["check", "loop.tree", "long.tree"],
        &["list", "loop.tree"],
        &["page", "README.md"],
        &["page", "loop.tree"],
        &["trace", "long.tree"],
        &["show", "loop.tree"],
        &["help"],
    ];
    for words in rows {
        let (reader, writer) = std::io::pipe().unwrap();
        drop(reader);
        let output = command().args(words).stdout(writer).output().unwrap();
        assert_eq!(ended(&output), (2, String::new(), String::new()), "{words:?}");
    }
    // A reader that takes the first byte of many.
    let (mut reader, writer) = std::io::pipe().unwrap();
    let mut trace = command();
    let mut child = trace.args(["trace", "long.tree"]).stdout(writer).spawn().unwrap();
    drop(trace);
    reader.read_exact(&mut [0; 1]).unwrap();
    drop(reader);
    assert_eq!(child.wait().unwrap().code(), Some(2));
}

#[test]
fn full_disk() {
    for words in
        [["page", "loop.tree"], ["trace", "loop.tree"], ["check", "loop.tree"], ["help", "page"]]
    {
        let full = fs::OpenOptions::new().write(true).open("/dev/full").unwrap();
        let output = command().args(words).stdout(full).output().unwrap();
        let (code, _, err) = ended(&output);
        assert_eq!(code, 2, "{words:?}");
        assert!(err.starts_with("sif: standard output: "), "{words:?}: {err}");
    }
}

/// Written from the listing that the original gives for the script, and what each operation does.
#[test]
fn trace() {
    let text = "fn f(a):\n    return a + 1\nvar x = f(2)\nvar t = {k: x}\n";
    let lines = [
        "     1    8  Ldc r4 2                      r4 = 2",
        "     2    9  FnStackPush r4                pushed 2",
        "     3   10  Call f 1                      called from 10, goes to 1",
        "     4    1  FnStackPop r0                 r0 = 2, popped 2",
        "     5    2  Str r0 a                      a = 2",
        "     6    3  Ldn r1 a                      r1 = 2",
        "     7    4  Ldc r2 1                      r2 = 1",
        "     8    5  Binary Add r1 r2 r3           r3 = 3",
        "     9    6  FnStackPush r3                pushed 3",
        "    10    7  FnRet                         returned to the call at 10, goes to 11",
        "    11   11  FnStackPop r5                 r5 = 3, popped 3",
        "    12   12  Str r5 x                      x = 3",
        "    13   13  Stc {} t                      t = {}",
        "    14   14  Ldn r6 x                      r6 = 3",
        "    15   15  Tbli t k r6                   t = {k: 3}",
    ];
    let whole = |shown: &[&str]| format!("{}\ndone after 15 steps (no bound)\n", shown.join("\n"));
    let expected = (0, whole(&lines), String::new());
    assert_eq!(screen("trace.tree", &["trace"], text), expected);
    let expected = (0, whole(&lines[3..6]), String::new());
    assert_eq!(screen("trace_part.tree", &["trace", "--from", "4", "--to=6"], text), expected);
    let expected = (0, "done after 15 steps (no bound)\n".into(), String::new());
    assert_eq!(screen("trace_none.tree", &["trace", "--from", "16"], text), expected);
    let spent = format!("{}\nnot ended after 2 steps (no bound)\n", lines[..2].join("\n"));
    let expected = (1, spent, String::new());
    assert_eq!(screen("trace_spent.tree", &["trace", "--steps", "2"], text), expected);
}

/// A name that is not set, with the line of the text in a function, which stands before the code.
#[test]
fn trace_of_a_stop() {
    let text = "fn f():\n    x\n    return\nf()\n";
    let expected = [
        "     1    3  Call f 0                      called from 3, goes to 1\n",
        "     2    1  Ldn r0 x                      stops\n",
        "stopped after 1 step (no bound) at line -1: name x is not set\n",
        "    in line 2 of `sif show`: x\n",
    ];
    assert_eq!(screen("stop.tree", &["trace"], text), (1, expected.concat(), String::new()));
}

/// Numbers that are no index, with the array's name: at a read and at a setting, of a name that is
/// unset or holds no array, from arithmetic. Minus zero is an index.
#[test]
fn page_at_no_index() {
    let cells = "var cells = [1, 2, 3]\n";
    let places = "places are whole numbers from 0 on";
    let rows = [
        (
            "x = cells[2.5]",
            "stopped after 2 steps (bound 4) at line 3: the index 2.5 is no place in array cells",
            "x = cells[2.5]",
        ),
        (
            "cells[-1] = 5",
            "stopped after 3 steps (bound 4) at line 4: the index -1 is no place in array cells",
            "cells[-1] = 5",
        ),
        (
            "x = cells[18446744073709551616]",
            "stopped after 2 steps (bound 4) at line 3: the index 1.8446744073709552e19 is no \
             place in array cells",
            "x = cells[1.8446744073709552e19]",
        ),
        (
            "x = cells[-1 / 0]",
            "stopped after 4 steps (bound 6) at line 5: the index -inf is no place in array cells",
            "x = cells[-1 / 0]",
        ),
        (
            "cells[0 / 0] = 5",
            "stopped after 5 steps (bound 6) at line 6: the index nan is no place in array cells",
            "cells[0 / 0] = 5",
        ),
        (
            "x = `a b`[2.5]",
            "stopped after 2 steps (bound 4) at line 3: the index 2.5 is no place in `a b`",
            "x = `a b`[2.5]",
        ),
    ];
    for (number, (line, end, shown)) in (0..).zip(rows) {
        let name = format!("no_index_{number}.tree");
        let expected =
            format!("cells = [1, 2, 3]\n{end}: {places}\n    in line 2 of `sif show`: {shown}\n");
        let got = screen(&name, &["page"], &format!("{cells}{line}\n"));
        assert_eq!(got, (1, expected, String::new()));
    }
    let unset = format!(
        "stopped after 1 step (bound 3) at line 2: the index 2.5 is no place in cells: {places}\n\
         \x20   in line 1 of `sif show`: x = cells[2.5]\n"
    );
    let got = screen("no_index_unset.tree", &["page"], "x = cells[2.5]\n");
    assert_eq!(got, (1, unset, String::new()));
    let table = format!(
        "t = {{}}\nstopped after 3 steps (bound 4) at line 4: the index 0.5 is no place in t: \
         {places}\n    in line 2 of `sif show`: t[0.5] = 1\n"
    );
    let got = screen("no_index_table.tree", &["page"], "var t = {}\nt[0.5] = 1\n");
    assert_eq!(got, (1, table, String::new()));
    let passes = "cells = [1, 2, 3]\nx = 1\ndone after 4 steps (bound 4)\n";
    let got = screen("minus_zero.tree", &["page"], &format!("{cells}x = cells[-0]\n"));
    assert_eq!(got, (0, passes.into(), String::new()));
}

/// The same by `trace` and `list`; the listing has the number 38 and no details.
#[test]
fn trace_and_listing_at_no_index() {
    let text = "var cells = [1, 2, 3]\nx = cells[2.5]\n";
    let expected = [
        "     1    0  Stc [1, 2, 3] cells           cells = [1, 2, 3]\n",
        "     2    1  Ldc r0 2.5                    r0 = 2.5\n",
        "     3    2  Ldav cells r0 r1              stops\n",
        "stopped after 2 steps (bound 4) at line 3: the index 2.5 is no place in array cells: ",
        "places are whole numbers from 0 on\n",
        "    in line 2 of `sif show`: x = cells[2.5]\n",
    ];
    let got = screen("trace_no_index.tree", &["trace"], text);
    assert_eq!(got, (1, expected.concat(), String::new()));
    let array = "Arr:[Num:3ff0000000000000,Num:4000000000000000,Num:4008000000000000]";
    let expected = format!(
        "start 0\nop 0 0 Stc {array} 1\nop 1 0 Ldc 0 Num:4004000000000000\nop 2 0 Ldav 1 0 1\n\
         op 3 0 Str 1 2\nlabel 0 0\nbound 4\nend stopped 2 38 3\nheld 1\nname 1 {array}\n"
    );
    assert_eq!(screen("list_no_index.tree", &["list"], text), (0, expected, String::new()));
}

#[test]
fn page_layout() {
    let text = "\
var `a b` = \"two \\\"words\\\"\"
var cells = [1, 2, 3, 40, 255]
var none = []
var mixed = [1, \"b\", true, 0.5]
var t = {}
var u = {\"k 1\": 1, k: \"v\"}
var n
var y = cells
";
    let expected = "\
`a b` = \"two \\\"words\\\"\"
cells = [1, 2, 3, 40, 255]
mixed = [1, \"b\", yes, 0.5]
n = nothing
none = []
t = {}
u:
    k: \"v\"
    \"k 1\": 1
y = [1, 2, 3, 40, 255]
done after 12 steps (bound 12)
";
    assert_eq!(screen("layout.tree", &["page"], text), (0, expected.into(), String::new()));
    let narrow = expected
        .replace("cells = [1, 2, 3, 40, 255]", "cells = [1, 2, 3,\n    40, 255]")
        .replace("mixed = [1, \"b\", yes, 0.5]", "mixed = [1, \"b\",\n    yes, 0.5]")
        .replace("y = [1, 2, 3, 40, 255]", "y = [1, 2, 3, 40,\n    255]");
    assert_eq!(screen("narrow.tree", &["page", "--width", "17"], text).1, narrow);
    let dots = expected.replace("[1, 2, 3, 40, 255]", "⠁⠂⠃⠨⣿");
    assert_eq!(screen("dots.tree", &["page", "--dots"], text).1, dots);
    let narrow_dots = dots.replace("cells = ⠁⠂⠃⠨⣿", "cells = ⠁⠂\n    ⠃⠨⣿").replace(
        "mixed = [1, \"b\", yes, 0.5]",
        "mixed = [\n    1,\n    \"b\",\n    yes,\n    0.5]",
    );
    assert_eq!(screen("narrow_dots.tree", &["page", "--dots", "--width=10"], text).1, narrow_dots);
}

/// Only whole numbers from 0 to 255 are cells; the sign of a zero does not count.
#[test]
fn dots_at_the_edges() {
    let text = "\
var a = [1, 2]
a[1] = 0 / 0
var b = [1, 256]
var c = [1, 0.5]
var d = [1, -1]
var e = [1, true]
var f = [1, 2]
f[1] = 1 / 0
var g = [0, 255, -0]
var h = []
";
    let expected = "\
a = [1, nan]
b = [1, 256]
c = [1, 0.5]
d = [1, -1]
e = [1, yes]
f = [1, inf]
g = \u{2800}\u{28ff}\u{2800}
h = []
done after 18 steps (bound 18)
";
    assert_eq!(
        screen("edges.tree", &["page", "--dots"], text),
        (0, expected.into(), String::new())
    );
    let none = (1, "not ended after 0 steps (bound 18)\n".to_string(), String::new());
    assert_eq!(screen("no_steps.tree", &["page", "--steps", "0"], text), none);
    assert_eq!(screen("no_trace.tree", &["trace", "--steps", "0"], text), none);
}
