//! The pages of examples/pages: their texts, tree files and screens, and what the README says of the
//! language.

use sif::check::{check, Accepted};
use sif::page::end_text;
use sif::parse::parse;
use sif::{Answer, Machine, Program, Single, Stop, Value};
use std::collections::BTreeMap;
use std::path::PathBuf;
use std::process::{Command, Output};

/// The pages and the exit code of their screen.
const PAGES: [(&str, i32); 6] = [
    ("worksheet", 0),
    ("contents", 0),
    ("stops", 1),
    ("functions", 0),
    ("heaviest", 0),
    ("refused", 1),
];

fn folder() -> PathBuf {
    PathBuf::from(env!("CARGO_MANIFEST_DIR")).join("../examples/pages")
}

fn sif(arguments: &[&str]) -> Output {
    Command::new(env!("CARGO_BIN_EXE_sif")).args(arguments).current_dir(folder()).output().unwrap()
}

fn stored(name: &str) -> Vec<u8> {
    std::fs::read(folder().join(name)).unwrap()
}

fn hold_screen(arguments: &[&str], screen: &str, code: i32) {
    let output = sif(arguments);
    let wanted = String::from_utf8(stored(screen)).unwrap();
    assert_eq!(String::from_utf8_lossy(&output.stdout), wanted, "{arguments:?}");
    assert_eq!(output.status.code(), Some(code), "{arguments:?}");
}

#[test]
fn screens() {
    for (page, code) in PAGES.into_iter().filter(|(page, _)| *page != "refused") {
        hold_screen(&["page", &format!("{page}.tree")], &format!("{page}.page"), code);
    }
    hold_screen(&["page", "--dots", "contents.tree"], "contents.dots", 0);
    hold_screen(&["check", "refused.tree"], "refused.check", 1);
}

#[test]
fn trees_are_made_from_the_texts() {
    for (page, _) in PAGES {
        let output = sif(&["tree", &format!("{page}.sif")]);
        assert_eq!(output.stdout, stored(&format!("{page}.tree")), "{page}");
        // A refused script is written all the same; that it is refused is told.
        let refused = page == "refused";
        assert_eq!(output.status.code(), Some(i32::from(refused)), "{page}");
        assert_eq!(output.stderr.is_empty(), !refused, "{page}");
    }
}

#[test]
fn every_page_is_there() {
    let mut found: Vec<String> = std::fs::read_dir(folder())
        .unwrap()
        .map(|entry| entry.unwrap().file_name().into_string().unwrap())
        .filter_map(|name| name.strip_suffix(".sif").map(str::to_string))
        .collect();
    let mut pages: Vec<_> = PAGES.map(|(page, _)| page.to_string()).into();
    found.sort();
    pages.sort();
    assert_eq!(found, pages);
}

/// The names that a text leaves, and how it ends.
fn run(text: &str) -> (BTreeMap<String, Value>, Answer) {
    let script = parse(text).unwrap_or_else(|error| panic!("{error}\n{text}")).script;
    let program = Program::lower(&script.to_bytes()).unwrap();
    let mut machine = program.start().unwrap();
    let answer = machine.run(100_000).unwrap().answer;
    let named = |(name, value): (sif::Name, Value)| (script.text(name.number()).to_string(), value);
    (machine.names().into_iter().map(named).collect(), answer)
}

fn stop(text: &str) -> Stop {
    match run(text).1 {
        Answer::Stopped { stop, .. } => stop,
        answer => panic!("{answer:?}\n{text}"),
    }
}

#[test]
fn the_sample_of_the_readme() {
    let readme = String::from_utf8(stored("README.md")).unwrap();
    let (_, behind) = readme.split_once("```\nvar total").unwrap();
    let (sample, _) = behind.split_once("```").unwrap();
    let (names, answer) = run(&format!("var total{sample}"));
    assert_eq!(answer, Answer::Done);
    // 0 and 1, then the indexes 0 to 3, then twice that and 1.
    assert_eq!(names["total"], Value::Single(Single::Number(15.0)));
    assert!(names.contains_key("note") && names.contains_key("song"));
}

/// A name takes what it is given: yes, no, and an item.
#[test]
fn names_take_what_they_are_given() {
    let number = |number: f64| Value::Single(Single::Number(number));
    let truth = |truth: bool| Value::Single(Single::Bool(truth));
    let (names, _) = run("var x = true\nvar y = false\nz = true");
    assert_eq!(
        [&names["x"], &names["y"], &names["z"]],
        [&truth(true), &truth(false), &truth(true)]
    );

    let (names, answer) = run("var cells = [1, 2, 3]\nx = cells[2]\nvar y = 3 + x");
    assert_eq!((&names["x"], &names["y"], answer), (&number(3.0), &number(6.0), Answer::Done));
    assert_eq!(run("cells = [1, true]\ncells = cells[1]").0["cells"], truth(true));
    let (names, answer) = run("cells = [1]\nx = 5\nx = cells[9]");
    assert_eq!(names["x"], number(5.0));
    assert!(matches!(answer, Answer::Stopped { .. }));
}

#[test]
fn what_surprises() {
    let number = |number: f64| Value::Single(Single::Number(number));
    let truth = |truth: bool| Value::Single(Single::Bool(truth));
    // Nothing is computed for yes and no, and for a setting, outside an operator.
    let table = |text: &str| match &run(text).0["t"] {
        Value::Table(pairs) => pairs.iter().map(|(_, value)| *value).collect::<Vec<_>>(),
        value => panic!("{value:?}"),
    };
    assert_eq!(table("var t = {page: 1, ready: true}"), [Single::Number(1.0); 2]);
    assert_eq!(stop("var t = {ready: true}"), Stop::EmptyRegister);
    assert_eq!(run("y = 1 == 1\nx = y && true").0["x"], truth(true));
    assert_eq!(run("x = (y = 1 + 1)").0["x"], number(2.0));
    assert_eq!(run("a = 2 + 3\nx = (y = 1)").0["x"], number(5.0));
    assert_eq!(run("x = (y = 1)").0["x"], Value::Single(Single::Nothing));
    assert_eq!(run("a = 2 + 3\nx = (y = true)").0["x"], number(5.0));
    let (names, _) = run("cells = [1, 2, 3]\nx = (y = cells[2])");
    assert_eq!((&names["x"], &names["y"]), (&number(3.0), &number(3.0)));

    let (names, _) = run("fn f():\n    a = [1]\n    return a\nfor i, v in f():\n    empty");
    assert_eq!(names["fortmp"], Value::Array(vec![Single::Number(1.0)]));

    let (names, _) = run("fn f(a, b):\n    return a\nx = f(1, 2)");
    assert_eq!(names["x"], number(2.0));
    assert_eq!((&names["a"], &names["b"]), (&number(2.0), &number(1.0)));

    assert_eq!(stop("x = \"a\" == \"a\""), Stop::TyMismatch);
    assert_eq!(stop("x = 1 != 2"), Stop::TyMismatch);
    assert_eq!(run("y = 1 == 1\nx = y != y").1, Answer::Done);
    let empty = stop("var a = []\nfor i, v in a:\n    empty");
    assert!(matches!(empty, Stop::IndexOutOfBounds { index: 0, length: 0, .. }));

    let text = "fn f():\n    x = 1\nfn g():\n    y = 2\n    return\nf()";
    assert_eq!(run(text).0["y"], number(2.0));
}

/// What a script does not write, arithmetic gives.
#[test]
fn infinities_come_of_arithmetic() {
    let number = |number: f64| Value::Single(Single::Number(number));
    let (names, answer) = run("a = 1 / 0\nb = -1 / 0\nc = -(1 / 0)\nd = 1e308 * 10\ne = 0 / 0");
    assert_eq!(answer, Answer::Done);
    assert_eq!([&names["a"], &names["d"]], [&number(f64::INFINITY); 2]);
    assert_eq!([&names["b"], &names["c"]], [&number(f64::NEG_INFINITY); 2]);
    assert!(matches!(names["e"], Value::Single(Single::Number(e)) if e.is_nan()));
    let (names, _) = run("limits = [10, 20]\nlimits[1] = 1 / 0");
    let items = [10.0, f64::INFINITY].map(Single::Number).to_vec();
    assert_eq!(names["limits"], Value::Array(items));
}

/// The line that the README has for a queued file with an infinity is what `check` prints.
#[test]
fn a_queued_file_of_the_readme() {
    let text = "var title = \"Sums\"\nvar limits = [10, 20]\n";
    let mut file = parse(text).unwrap().script.to_bytes();
    let last = file.len() - 8;
    file[last..].copy_from_slice(&f64::INFINITY.to_be_bytes());
    let folder = PathBuf::from(env!("CARGO_TARGET_TMPDIR"));
    std::fs::write(folder.join("queued.tree"), file).unwrap();
    let check = ["check", "queued.tree"];
    let output = Command::new(env!("CARGO_BIN_EXE_sif")).args(check).current_dir(folder).output();
    let output = output.unwrap();
    assert_eq!(output.status.code(), Some(1));
    let line = String::from_utf8(output.stdout).unwrap();
    assert!(line.starts_with("queued.tree: refused with 39: "), "{line}");
    let readme = String::from_utf8(stored("README.md")).unwrap();
    assert!(readme.contains(&format!("\n    {line}")), "{line}");
}

/// The stops that a script can come to, each in words with the script's names.
#[test]
fn stops_in_words() {
    let kind = "a value of the wrong kind for an operator, a condition or an index";
    let full = "more than 24 values on the stack, or 24 calls in one another";
    let largest = "index 18446744073709549568 in array a of length 1";
    let no_index = "a number that is no index: places are whole numbers from 0 on";
    let rows = [
        ("x", 20, "name x is not set"),
        ("`a b` + 1", 20, "name `a b` is not set"),
        ("if 1 == 2:\n    y = 5 + 6\nx = (z = 1) + 1", 26, "register 5 is empty"),
        ("x = 1 + \"a\"", 27, kind),
        ("if \"a\":\n    empty", 27, kind),
        ("a = [1]\na[\"x\"] = 2", 27, kind),
        ("a = [1]\nx = a[\"x\"]", 27, kind),
        ("`if` = 1\n`if`[0] = 2", 28, "`if` is not an array"),
        ("f()", 29, "function f is not declared"),
        ("return", 30, "a return outside a call"),
        ("a = [1]\na[1] = 2", 31, "index 1 in array a of length 1"),
        ("a = [1]\nx = a[18446744073709549568]", 31, largest),
        ("a = [1]\nx = a[18446744073709551616]", 38, no_index),
        ("f(true)", 32, "an empty register pushed or put into a table"),
        ("a = [1]\nt = {k: a}", 34, "an array or table put inside another"),
        ("fn f():\n    return f()\nf()", 35, full),
    ];
    for (text, number, words) in rows {
        let script = parse(text).unwrap().script;
        let stop = stop(text);
        let named = stop.words(|name| sif::show::name(script.text(name.number())));
        assert_eq!((stop.number(), named.as_str()), (number, words), "{text}");
    }
}

/// Whole numbers from 0 to below 2^64 are indexes, minus zero is 0, and nothing else is one.
#[test]
fn exact_indexes() {
    let cells = "cells = [1, 2, 3]\n";
    for (index, item) in [("0", 1.0), ("-0", 1.0), ("2", 3.0), ("5 / 2.5", 3.0)] {
        let (names, answer) = run(&format!("{cells}x = cells[{index}]"));
        assert_eq!(answer, Answer::Done, "{index}");
        assert_eq!(names["x"], Value::Single(Single::Number(item)), "{index}");
        assert_eq!(run(&format!("{cells}cells[{index}] = 7")).1, Answer::Done, "{index}");
    }
    let past: [(&str, u64); 4] =
        [("3", 3), ("1e15", 1_000_000_000_000_000), ("9223372036854775808", 1 << 63), LARGEST];
    for (index, number) in past {
        for text in [format!("x = cells[{index}]"), format!("cells[{index}] = 7")] {
            let stop = stop(&format!("{cells}{text}"));
            assert_eq!((stop.number(), &stop.details()[1..]), (31, &[number, 3][..]), "{text}");
        }
    }
    let none = ["2.5", "0.5", "-0.5", "5e-324", "-1", "-1e300", "18446744073709551616", "1e300"];
    for index in none.into_iter().chain(["1 / 0", "-1 / 0", "0 / 0"]) {
        for text in [format!("x = cells[{index}]"), format!("cells[{index}] = 7")] {
            let (names, answer) = run(&format!("{cells}{text}"));
            assert!(matches!(answer, Answer::Stopped { stop: Stop::NoIndex, .. }), "{text}");
            assert_eq!(names.len(), 1, "{text}");
            assert_eq!(names["cells"], run(cells).0["cells"], "{text}");
        }
    }
}

/// The largest number below 2^64.
const LARGEST: (&str, u64) = ("18446744073709549568", 18_446_744_073_709_549_568);

/// 38 comes right after every 27 of its step: before 20, 28, 31 and 34.
#[test]
fn the_order_of_38() {
    let empty = "if 1 == 2:\n    y = 5 + 6\n";
    let rows = [
        ("x = cells[2.5]", 38),
        ("x = cells[2]", 20),
        ("cells[2.5] = 1", 38),
        ("cells[2] = 1", 20),
        ("cells = 1\nx = cells[2.5]", 38),
        ("cells = 1\nx = cells[2]", 28),
        ("cells = {}\ncells[-1] = 1", 38),
        ("cells = {}\ncells[1] = 1", 28),
        ("cells = [1]\ncells[1] = cells", 31),
        ("cells = [1]\ncells[0] = cells", 34),
        ("cells = [1]\ncells[0.5] = cells", 38),
        ("cells = [1]\ncells[\"a\"] = cells", 27),
        // The value's register is empty.
        (&format!("{empty}cells[2.5] = true"), 27),
        (&format!("{empty}cells[2] = true"), 27),
    ];
    for (text, number) in rows {
        assert_eq!(stop(text).number(), number, "{text}");
    }
}

fn accepted(text: &str) -> Accepted {
    check(&parse(text).unwrap().script.to_bytes()).unwrap()
}

/// A loop's index as well: one that a state holds, since no plain script makes such a one.
#[test]
fn a_loop_at_no_index() {
    let accepted = accepted("var cells = [1, 2]\nfor i, v in cells:\n    s = v\n");
    // An array, i, the length, i into register 0; then the item is read.
    let mut machine = accepted.program.start().unwrap();
    machine.run(4).unwrap();
    let mut state = machine.bytes().to_vec();
    state[8..16].copy_from_slice(&1.5f64.to_be_bytes());
    let mut machine = Machine::from_bytes(&accepted.program, &state).unwrap();
    let answer = machine.run(100).unwrap().answer;
    assert_eq!(answer, Answer::Stopped { stop: Stop::NoIndex, line: 5 });
    assert_eq!(
        end_text(&accepted, &machine, answer),
        "stopped after 4 steps (bound 19) at line 5: the index 1.5 is no place in array cells: \
         places are whole numbers from 0 on\n    in line 2 of `sif show`: for i, v in cells:\n"
    );
}

/// An answer that does not fit the machine is told without the number.
#[test]
fn an_answer_of_another_machine() {
    let answer = Answer::Stopped { stop: Stop::NoIndex, line: 9 };
    let words = "a number that is no index: places are whole numbers from 0 on";
    // At a store, at the item with an index, with a text for one, at the end.
    for (index, steps) in [("2", 0), ("2", 2), ("\"a\"", 2), ("2", 4)] {
        let accepted = accepted(&format!("var cells = [1, 2, 3]\nx = cells[{index}]\n"));
        let mut machine = accepted.program.start().unwrap();
        machine.run(steps).unwrap();
        let expected = format!("stopped after {steps} steps (bound 4) at line 9: {words}\n");
        assert_eq!(end_text(&accepted, &machine, answer), expected, "{index}");
    }
}
