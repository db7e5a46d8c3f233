//! Generated programs, as texts: the operations that no tree yields, every stop, every order of
//! two stops, and programs at random.

use crate::gen_numbers::index_numbers;
use crate::rng::Rng;

/// Literals of each kind.
const LITERALS: [&str; 8] = [
    "Num:3ff0000000000000",
    "Num:c01f99999999999a",
    "Str:5",
    "Bl:0",
    "Bl:1",
    "Null",
    "Arr:[Num:4000000000000000,Str:1,Bl:1,Null]",
    "Tab:[]",
];

const BINARY: [&str; 14] = [
    "Add", "Sub", "Mul", "Div", "Modu", "Eq", "Neq", "LtEq", "Lt", "GtEq", "Gt", "Land", "Lnot",
    "Lor",
];

const ZERO: &str = "Num:0000000000000000";
const ONE: &str = "Num:3ff0000000000000";
const LIST: &str = "Arr:[Num:3ff0000000000000,Num:4000000000000000]";

/// A program text; each line is a label and an operation.
fn text(steps: u64, start: usize, lines: &[(usize, String)]) -> String {
    let mut out = format!("steps {steps}\nstart {start}\n");
    for (index, (label, op)) in lines.iter().enumerate() {
        out += &format!("op {index} {label} {op}\n");
    }
    out
}

/// A program without labels, started at its first line.
fn simple(lines: &[String]) -> String {
    let lines: Vec<(usize, String)> = lines.iter().map(|l| (0, l.clone())).collect();
    text(50, 0, &lines)
}

fn lines(words: &[&str]) -> Vec<String> {
    words.iter().map(|w| w.to_string()).collect()
}

fn labelled(steps: u64, start: usize, words: &[(usize, &str)]) -> String {
    let lines: Vec<(usize, String)> = words.iter().map(|(l, w)| (*l, w.to_string())).collect();
    text(steps, start, &lines)
}

/// All directed programs, in a fixed order.
pub fn all() -> Vec<String> {
    let mut out = one_register();
    out.extend(two_registers());
    out.extend(arrays());
    out.extend(indexes());
    out.extend(tables());
    out.extend(jumps());
    out.extend(calls());
    out.extend(ends());
    out.extend(refused());
    out
}

/// A register loaded with each literal, or left empty.
fn loads(register: usize) -> Vec<Vec<String>> {
    let mut out = vec![Vec::new()];
    out.extend(LITERALS.iter().map(|l| vec![format!("Ldc {register} {l}")]));
    out
}

fn one_register() -> Vec<String> {
    let ops = [
        "Incrr 0",
        "Decrr 0",
        "Mv 0 0",
        "Mv 0 1",
        "Mv 1 0",
        "Str 0 3",
        "Unary Lneg 0 0",
        "Unary Nneg 0 1",
        "FnStackPush 0",
        "JmpCnd Jmpt 0 7",
        "JmpCnd Jmpf 0 7",
        "JmpCnd Jmpt 0 0",
        "JmpCnd Jmpf 0 0",
        "Binary Neq 0 0 0",
        "Binary Add 0 0 0",
        "Binary Lnot 0 0 1",
        "Ldav 2 0 0",
        "Ldav 2 0 1",
        "Upda 2 0 0",
        "Tbli 4 1 0",
    ];
    let mut out = Vec::new();
    for op in ops {
        for load in loads(0) {
            let mut all = lines(&["Stc Arr:[Num:4000000000000000,Str:1] 2", "Stc Tab:[] 4"]);
            all.extend(load);
            all.push(op.to_string());
            all.push(String::from("FnStackPop 5"));
            out.push(simple(&all));
        }
    }
    out
}

fn two_registers() -> Vec<String> {
    let mut out = Vec::new();
    for left in loads(0) {
        for right in loads(1) {
            let mut all = left.clone();
            all.extend(right);
            all.push(String::from("Binary Neq 0 1 2"));
            out.push(simple(&all));
        }
    }
    for kind in BINARY {
        for (left, right) in [("Num:7ff8000000000000", ONE), (ONE, ONE), ("Bl:1", "Bl:0")] {
            let all =
                [format!("Ldc 0 {left}"), format!("Ldc 1 {right}"), format!("Binary {kind} 0 1 1")];
            out.push(simple(&all));
        }
        out.push(simple(&lines(&[&format!("Binary {kind} 95 94 0")])));
        out.push(simple(&lines(&["Ldc 3 Null", &format!("Binary {kind} 3 94 0")])));
        out.push(simple(&lines(&["Ldc 3 Null", &format!("Binary {kind} 94 3 0")])));
    }
    out
}

fn arrays() -> Vec<String> {
    let mut out = Vec::new();
    let stores = ["", "Stc Arr:[] 1", "Stc Arr:[Str:2] 1", "Stc Null 1", "Stc Tab:[] 1"];
    let indexes = [
        "",
        "Ldc 0 Num:0000000000000000",
        "Ldc 0 Num:3ff0000000000000",
        "Ldc 0 Num:4004000000000000",
        "Ldc 0 Num:43f0000000000000",
        "Ldc 0 Num:7ff8000000000000",
        "Ldc 0 Bl:1",
    ];
    let values = ["", "Ldc 1 Null", "Ldc 1 Arr:[]", "Ldc 1 Tab:[]"];
    for store in stores {
        for index in indexes {
            let before = |more: &[&str]| {
                let all: Vec<&str> =
                    [store, index].iter().chain(more).copied().filter(|l| !l.is_empty()).collect();
                simple(&lines(&all))
            };
            for value in values {
                out.push(before(&[value, "Upda 1 0 1"]));
            }
            out.push(before(&["Ldav 1 0 0"]));
            out.push(before(&["Ldav 1 0 2"]));
        }
        let all: Vec<&str> = [store, "Ldas 1 0"].into_iter().filter(|l| !l.is_empty()).collect();
        out.push(simple(&lines(&all)));
    }
    // Copies: a change of one leaves the other.
    out.push(simple(&lines(&[
        &format!("Stc {LIST} 1"),
        "Stn 1 2",
        "Ldn 3 1",
        "Ldc 0 Num:0000000000000000",
        "Ldc 1 Str:9",
        "Upda 1 0 1",
        "Str 3 4",
        "Mv 3 5",
        "FnStackPush 5",
        "Stc Null 1",
        "FnStackPop 6",
        "Str 6 1",
    ])));
    out
}

/// Numbers that are an index of `LIST`, past its end, or none.
const PLACES: [&str; 9] = [
    "Num:0000000000000000",
    "Num:8000000000000000",
    "Num:3fe0000000000000",
    "Num:4004000000000000",
    "Num:bff0000000000000",
    "Num:43efffffffffffff",
    "Num:43f0000000000000",
    "Num:7ff0000000000000",
    "Num:7ff8000000000000",
];

/// Each special number, each border and its neighbours as an index; and as the index of a loop as the
/// lowering emits it, from the start or from the body on.
fn indexes() -> Vec<String> {
    let mut out = Vec::new();
    for number in index_numbers() {
        let before = [format!("Stc {LIST} 1"), format!("Ldc 0 Num:{number:016x}")];
        out.push(simple(&[&before[..], &lines(&["Ldav 1 0 0"])].concat()));
        out.push(simple(&[&before[..], &lines(&["Ldc 1 Bl:1", "Upda 1 0 1"])].concat()));
    }
    for place in PLACES {
        let (register, name) = (format!("Ldc 0 {place}"), format!("Stc {place} 2"));
        for (steps, first, body) in
            [(5, place, "Nop"), (40, place, "Nop"), (40, ZERO, &register), (40, ZERO, &name)]
        {
            out.push(labelled(
                steps,
                0,
                &[
                    (0, &format!("Stc {LIST} 1")),
                    (0, &format!("Stc {first} 2")),
                    (0, "Ldas 1 1"),
                    (1, "Ldn 0 2"),
                    (1, "Ldav 1 0 2"),
                    (1, "Str 2 3"),
                    (1, body),
                    (1, "Incrr 0"),
                    (1, "Str 0 2"),
                    (1, "Binary Lt 0 1 4"),
                    (1, "JmpCnd Jmpt 4 1"),
                ],
            ));
        }
    }
    out
}

fn tables() -> Vec<String> {
    let mut out = Vec::new();
    let fill = |count: usize| -> Vec<String> {
        let mut all = lines(&["Stc Tab:[] 1", "Ldc 0 Str:3"]);
        all.extend((0..count).map(|key| format!("Tbli 1 {} 0", 40 + key)));
        all
    };
    for count in [0, 1, 15, 16] {
        for value in ["", "Ldc 1 Bl:1", "Ldc 1 Arr:[]", "Ldc 1 Tab:[]", "Ldc 1 Null"] {
            for key in [40, 63] {
                let mut all = fill(count);
                all.extend((!value.is_empty()).then(|| value.to_string()));
                all.push(format!("Tbli 1 {key} 1"));
                all.push(format!("Tblg 1 {key} 2"));
                out.push(simple(&all));
            }
        }
    }
    for store in ["", "Stc Null 1", "Stc Tab:[] 1", "Stc Num:0000000000000000 1", "Stc Arr:[] 1"] {
        for op in ["Tbli 1 2 0", "Tblg 1 2 0", "Tblg 1 0 95", "Tbli 1 0 95"] {
            for load in ["", "Ldc 0 Bl:1", "Ldc 0 Arr:[]"] {
                let all: Vec<&str> =
                    [store, load, op].into_iter().filter(|l| !l.is_empty()).collect();
                out.push(simple(&lines(&all)));
            }
        }
    }
    // Copies of a table.
    let mut all = fill(3);
    all.extend(lines(&[
        "Stn 1 2",
        "Ldn 4 1",
        "Ldc 0 Null",
        "Tbli 1 40 0",
        "Str 4 3",
        "Tblg 2 40 5",
    ]));
    all.extend(lines(&["Ldc 0 Bl:0", "Tbli 2 39 0", "FnStackPush 4", "FnStackPop 6"]));
    out.push(simple(&all));
    out
}

fn jumps() -> Vec<String> {
    let mut out = Vec::new();
    for kind in ["Jmpt", "Jmpf"] {
        for value in ["Bl:0", "Bl:1", "Null", "Num:0000000000000000"] {
            for label in [0, 1, 2, 9] {
                out.push(labelled(
                    13,
                    0,
                    &[
                        (0, "Nop"),
                        (0, &format!("Ldc 0 {value}")),
                        (1, &format!("JmpCnd {kind} 0 {label}")),
                        (2, "Stc Null 1"),
                        (3, "Stc Null 2"),
                    ],
                ));
            }
        }
    }
    for label in [0, 1, 2, 5, 1023] {
        for steps in [0, 1, 2, 7] {
            let jump = format!("Jmpa {label}");
            out.push(labelled(steps, 0, &[(1, "Nop"), (1, &jump), (2, "Nop"), (1023, "Stop")]));
            out.push(labelled(
                steps,
                2,
                &[(0, "Nop"), (5, "Nop"), (0, &jump), (5, "Stop"), (2, "Nop")],
            ));
        }
    }
    // A label entered several times: the last entry counts; label 0 can be entered again.
    let entries = [(0, "Nop"), (1, "Stc Null 1"), (2, "Nop"), (1, "Stc Null 2"), (0, "Stc Null 3")];
    for label in 0..3 {
        let mut words = entries.to_vec();
        let jump = format!("Jmpa {label}");
        words.insert(0, (3, &jump));
        out.push(labelled(9, 0, &words));
    }
    out.push(labelled(20, 0, &[(0, "Ldc 0 Num:0000000000000000"), (1, "Decrr 0"), (1, "Jmpa 1")]));
    out
}

fn calls() -> Vec<String> {
    let mut out = Vec::new();
    for steps in [0, 1, 5, 23, 24, 25, 60] {
        out.push(labelled(steps, 0, &[(0, "Fn 1"), (0, "Call 1 0")]));
        out.push(labelled(steps, 0, &[(0, "Ldc 0 Str:1"), (1, "FnStackPush 0"), (1, "Jmpa 1")]));
    }
    out.extend([
        labelled(99, 0, &[(0, "Ldc 0 Null"), (1, "FnStackPush 0"), (1, "Jmpa 1"), (1, "Nop")]),
        labelled(
            99,
            3,
            &[(0, "Fn 1 2 3"), (0, "FnRet"), (0, "Fn 1"), (0, "Call 1 255"), (0, "FnRet")],
        ),
        labelled(99, 2, &[(0, "Fn 1"), (0, "FnRet"), (0, "Call 1 2")]),
        labelled(99, 0, &[(0, "Call 7 0"), (0, "Fn 7")]),
        labelled(99, 0, &[(0, "Call 6 0"), (0, "Fn 7")]),
        labelled(99, 1, &[(0, "FnRet"), (0, "Fn 63 63 0"), (0, "Call 63 0"), (0, "FnRet")]),
        labelled(99, 0, &[(0, "Fn 1"), (0, "Fn 2"), (0, "Fn 1"), (0, "Stop")]),
        labelled(2, 0, &[(0, "Fn 1"), (0, "Fn 2"), (0, "Fn 1"), (0, "Stop")]),
        labelled(7, 1, &[(0, "Fn 1"), (0, "Nop"), (0, "Call 1 0"), (0, "Fn 1"), (0, "FnRet")]),
        labelled(99, 0, &[(0, "FnRet")]),
        labelled(99, 0, &[(0, "FnStackPush 3")]),
        labelled(99, 0, &[(0, "FnStackPop 3"), (0, "Str 3 3")]),
        labelled(
            99,
            0,
            &[(0, "Ldc 3 Str:1"), (0, "FnStackPop 3"), (0, "Str 3 3"), (0, "FnStackPush 3")],
        ),
    ]);
    // A full stack: an empty register comes first; an unknown function too.
    let mut full = lines(&["Ldc 0 Str:1"]);
    full.extend(vec![String::from("FnStackPush 0"); 24]);
    for last in ["FnStackPush 0", "FnStackPush 1", "FnStackPop 1", "Nop"] {
        let mut all = full.clone();
        all.push(last.to_string());
        out.push(simple(&all));
    }
    for name in [1, 2] {
        let call = format!("Call {name} 0");
        out.push(labelled(
            80,
            0,
            &[
                (0, "Ldc 0 Num:0000000000000000"),
                (0, "Ldc 1 Num:4038000000000000"),
                (0, "Fn 1"),
                (0, "Incrr 0"),
                (0, "Binary LtEq 0 1 2"),
                (1, "JmpCnd Jmpf 2 3"),
                (2, "Call 1 0"),
                (3, &call),
                (3, "Nop"),
            ],
        ));
    }
    out
}

fn ends() -> Vec<String> {
    vec![
        text(0, 0, &[]),
        text(5, 0, &[]),
        labelled(0, 1, &[(0, "Nop")]),
        labelled(5, 1, &[(0, "Nop")]),
        labelled(0, 0, &[(0, "Nop")]),
        labelled(1, 0, &[(0, "Nop")]),
        labelled(1, 0, &[(0, "Stop"), (0, "Nop")]),
        labelled(2, 0, &[(0, "Stop"), (0, "Nop")]),
        labelled(9, 0, &[(0, "Stop"), (0, "Stc Null 1"), (0, "Stop"), (0, "Stc Null 2")]),
        labelled(9, 2, &[(0, "Ldn 0 5"), (0, "Nop"), (1, "Jmpa 0")]),
        labelled(9, 3, &[(0, "Fn 1"), (0, "Ldn 0 5"), (0, "Nop"), (1, "Call 1 0")]),
    ]
}

fn refused() -> Vec<String> {
    let with = |line: &str| simple(&lines(&["Nop", line]));
    let items = |count: usize| {
        let all = vec!["Null"; count];
        format!("Stc Arr:[{}] 1", all.join(","))
    };
    let mut out: Vec<String> = [
        "Ldn 95 63",
        "Ldn 96 1",
        "Ldn 1 64",
        "Str 96 1",
        "Jmpa 1023",
        "Jmpa 1024",
        "Call 1 255",
        "Call 1 256",
        "Call 64 1",
        "Fn 64",
        "Fn 1 64",
        "StdCall 1 1",
        "Halt",
        "Ldc 0 Tab:[1=Null]",
        "Ldc 0 Arr:[Arr:[]]",
        "Ldc 0 Arr:[Tab:[]]",
        "Ldc 0 Str:63",
        "Ldc 0 Str:64",
        "Stc Arr:[Str:64] 1",
        "Mv 1 96",
        "Mv 96 1",
        "Binary Add 96 0 0",
        "Binary Add 0 96 0",
        "Binary Add 0 0 96",
        "Unary Lneg 96 0",
        "Unary Lneg 0 96",
        "Ldas 64 0",
        "Ldas 0 96",
        "Ldav 64 0 0",
        "Ldav 0 96 0",
        "Ldav 0 0 96",
        "Upda 64 0 0",
        "Upda 0 96 0",
        "Upda 0 0 96",
        "Stn 64 0",
        "Stn 0 64",
        "JmpCnd Jmpt 96 0",
        "JmpCnd Jmpf 0 1024",
        "Incrr 96",
        "Decrr 96",
        "FnStackPush 96",
        "FnStackPop 96",
        "Tbli 64 0 0",
        "Tbli 0 64 0",
        "Tbli 0 0 96",
        "Tblg 64 0 0",
        "Tblg 0 64 0",
        "Tblg 0 0 96",
        "Stc Null 64",
    ]
    .iter()
    .map(|line| with(line))
    .collect();
    out.push(with(&items(24)));
    out.push(with(&items(25)));
    out.push(labelled(5, 2, &[(0, "Nop")]));
    out.push(labelled(5, 1, &[]));
    out.push(labelled(5, 0, &[(1023, "Nop")]));
    out.push(labelled(5, 0, &[(1024, "Nop")]));
    for count in [1024, 1025] {
        out.push(simple(&vec![String::from("Nop"); count]));
        let mut all = vec![items(24).replace("Null", "Bl:0"); 42];
        all.push(format!("Fn 1{}", " 2".repeat(count - 42 * 24)));
        out.push(simple(&all));
    }
    out
}

/// A program at random, over few registers, names and labels.
pub fn random(rng: &mut Rng) -> String {
    let count = rng.between(4, 22);
    let mut label = 0;
    let mut all = Vec::new();
    for _ in 0..count {
        label = match rng.below(10) {
            0..=6 => label,
            7 | 8 => label + 1,
            _ => rng.below(label + 2),
        };
        all.push((label, operation(rng, label)));
    }
    let steps = rng.pick(&[0, 3, 10, 30, 30, 100]);
    let start = if rng.chance(75) { 0 } else { rng.below(count + 1) };
    text(steps, start, &all)
}

fn operation(rng: &mut Rng, label: usize) -> String {
    let mut r = [0; 3];
    r.iter_mut().for_each(|r| *r = rng.below(4));
    let [a, b, c] = r;
    let (x, y) = (rng.between(1, 3), rng.between(1, 3));
    let to = rng.below(label + 3);
    let literal = rng.pick(&LITERALS);
    match rng.below(30) {
        0..=4 => format!("Ldc {a} {literal}"),
        5 | 6 => format!("Stc {literal} {x}"),
        7 => format!("Ldn {a} {x}"),
        8 => format!("Stn {x} {y}"),
        9 => format!("Str {a} {x}"),
        10 => format!("Mv {a} {b}"),
        11 => format!("Ldas {x} {a}"),
        12 => format!("Ldav {x} {a} {b}"),
        13 => format!("Upda {x} {a} {b}"),
        14 => format!("JmpCnd {} {a} {to}", rng.pick(&["Jmpt", "Jmpf"])),
        15 => format!("Jmpa {to}"),
        16 => format!("Incrr {a}"),
        17 => format!("Decrr {a}"),
        18 => format!("Fn {x} {y}"),
        19 => format!("Call {x} {c}"),
        20 => String::from("FnRet"),
        21 | 22 => format!("FnStackPush {a}"),
        23 => format!("FnStackPop {a}"),
        24 => format!("Tbli {x} {y} {a}"),
        25 => format!("Tblg {x} {y} {a}"),
        26 => format!("Unary {} {a} {b}", rng.pick(&["Lneg", "Nneg"])),
        27 => rng.pick(&["Nop", "Stop"]).to_string(),
        _ => format!("Binary {} {a} {b} {c}", rng.pick(&BINARY)),
    }
}

/// A program of rows of instructions as the lowering emits them together, over so few registers and
/// names that they often meet, on values that mostly are numbers; with a loop around them.
pub fn rows(rng: &mut Rng) -> String {
    let mut all = Vec::new();
    for name in 1..4 {
        all.push((0, format!("Stc {} {name}", row_value(rng))));
    }
    all.push((0, format!("Stc {LIST} 4")));
    for register in 0..4 {
        all.push((0, format!("Ldc {register} {}", row_value(rng))));
    }
    let mut label = 1;
    for _ in 0..rng.between(2, 7) {
        all.extend(row(rng, label).into_iter().map(|op| (label, op)));
        label += rng.below(2);
    }
    all.push((label, format!("Jmpa {}", rng.below(label + 1))));
    let steps = rng.pick(&[4, 9, 40, 100, 300]);
    text(steps, 0, &all)
}

fn row_value(rng: &mut Rng) -> String {
    match rng.below(10) {
        0 => rng.pick(&LITERALS).to_string(),
        1 => rng.pick(&["Bl:0", "Bl:1"]).to_string(),
        2 => rng.pick(&PLACES).to_string(),
        _ => format!("Num:{:016x}", (rng.below(5) as f64).to_bits()),
    }
}

/// One row; a register or a name of it is at times another than the lowering's.
fn row(rng: &mut Rng, label: usize) -> Vec<String> {
    let mut r = [0; 4];
    r.iter_mut().for_each(|r| *r = rng.below(5));
    let [a, b, c, d] = r;
    let (x, y, z) = (rng.between(1, 4), rng.between(1, 4), rng.between(1, 4));
    let (left, right) = if rng.chance(85) { (a, b) } else { (c, d) };
    let source = if rng.chance(85) { c } else { d };
    let kind = if rng.chance(80) { rng.pick(&BINARY[..11]) } else { rng.pick(&BINARY) };
    let to = rng.below(label + 2);
    let literal = row_value(rng);
    let jump = format!("JmpCnd {} {source} {to}", rng.pick(&["Jmpt", "Jmpf"]));
    let truth = |rng: &mut Rng| rng.pick(&["Bl:0", "Bl:1"]);
    let mut out = match rng.below(9) {
        8 => {
            return vec![
                format!("Ldc {a} {}", truth(rng)),
                format!("Ldc {b} {}", truth(rng)),
                format!("Binary {} {a} {b} {c}", rng.pick(&BINARY[11..])),
                jump,
            ]
        }
        0 | 1 => vec![format!("Ldn {a} {x}"), format!("Ldn {b} {y}")],
        2 | 3 => vec![format!("Ldn {a} {x}"), format!("Ldc {b} {literal}")],
        4 => vec![format!("Ldn {b} {y}")],
        5 => vec![format!("Ldc {b} {literal}")],
        6 => {
            // at times behind a store of the index
            let place = rng.chance(30).then(|| format!("Stc {} {x}", rng.pick(&PLACES)));
            let load = format!("Ldav {} {left} {c}", rng.pick(&[4, 4, y]));
            let row = [format!("Ldn {a} {x}"), load, format!("Str {source} {z}")];
            return place.into_iter().chain(row).collect();
        }
        _ => {
            let less = if rng.chance(85) { "Lt" } else { "LtEq" };
            return vec![
                format!("Incrr {a}"),
                format!("Str {left} {z}"),
                format!("Binary {less} {left} {b} {c}"),
                jump,
            ];
        }
    };
    out.push(match rng.below(6) {
        0 => format!("Binary {} {left} {right} {c}", rng.pick(&BINARY[11..])),
        1 => format!("Unary {} {left} {c}", rng.pick(&["Lneg", "Nneg"])),
        _ => format!("Binary {kind} {left} {right} {c}"),
    });
    if rng.chance(60) {
        out.push(jump);
    }
    out
}

/// A program that mostly runs to its end: declared functions, registers and names that are filled, a
/// loop, calls, and operations on values of the kind that they want.
pub fn routine(rng: &mut Rng) -> String {
    let mut all = Vec::new();
    for name in 8..8 + rng.below(3) {
        all.push((0, format!("Fn {name} 1 2")));
        let count = rng.between(1, 6);
        all.extend((0..count).map(|_| (0, sound_operation(rng))));
        all.push((0, String::from("FnRet")));
    }
    let functions = all.iter().filter(|line| line.1.starts_with("Fn ")).count();
    let start = all.len();
    let mut label = 1;
    let filled = |value: usize| format!("Num:{:016x}", (value as f64 / 2.0).to_bits());
    all.extend((0..4).map(|r| (label, format!("Ldc {r} {}", filled(r + rng.below(9))))));
    all.push((label, format!("Ldc 4 {}", rng.pick(&["Bl:0", "Bl:1"]))));
    let items = vec!["Num:3ff0000000000000"; rng.pick(&[1, 2, 5, 24])].join(",");
    all.push((label, format!("Stc Arr:[{items}] 1")));
    all.push((label, format!("Stc {LIST} 2")));
    all.push((label, String::from("Stc Tab:[] 3")));
    all.push((label, format!("Stc {ONE} 4")));
    all.push((label, String::from("Ldc 6 Num:0000000000000000")));
    all.push((label, format!("Ldc 7 {}", filled(2 * rng.between(1, 12)))));
    label += 1;
    let again = label;
    for _ in 0..rng.between(2, 30) {
        let line = match rng.below(12) {
            0 if functions > 0 => format!("Call {} 2", 8 + rng.below(functions)),
            1 => operation(rng, label),
            _ => sound_operation(rng),
        };
        all.push((label, line));
        if rng.chance(10) {
            let kind = rng.pick(&["Jmpt", "Jmpf"]);
            all.push((label, format!("JmpCnd {kind} 4 {}", label + 1)));
            all.push((label, sound_operation(rng)));
            label += 1;
            all.push((label, String::from("Nop")));
        }
    }
    all.push((label, String::from("Incrr 6")));
    all.push((label, String::from("Binary Lt 6 7 8")));
    all.push((label, format!("JmpCnd Jmpt 8 {again}")));
    text(rng.pick(&[10, 100, 1000, 1000]), start, &all)
}

/// An operation on values of the kind that it wants, where `routine` filled registers and names.
fn sound_operation(rng: &mut Rng) -> String {
    let (a, b, c) = (rng.below(4), rng.below(4), rng.below(4));
    let array = rng.between(1, 2);
    let other = rng.between(4, 7);
    match rng.below(22) {
        0..=4 => format!("Binary {} {a} {b} {c}", rng.pick(&BINARY[..5])),
        5 | 6 => format!("Binary {} {a} {b} 4", rng.pick(&BINARY[5..11])),
        7 => format!("Binary {} 4 4 4", rng.pick(&BINARY[11..])),
        8 => format!("Unary Nneg {a} {b}"),
        9 => String::from("Unary Lneg 4 4"),
        10 => format!("{} {a}", rng.pick(&["Incrr", "Decrr"])),
        11 => format!("Mv {a} {b}"),
        12 => format!("Ldas {array} {a}"),
        13 => format!("Str {a} {other}"),
        14 => format!("Ldn {a} 4"),
        15 => format!("Stn {} {other}", rng.between(1, 4)),
        16 => format!("Tbli 3 {} {a}", rng.below(16)),
        17 => format!("FnStackPush {a}"),
        18 => format!("FnStackPop {}", 10 + a),
        19 => format!("Ldc {a} Num:0000000000000000"),
        20 => format!("Ldav {array} 6 {a}"),
        _ => format!("Upda {array} 6 {a}"),
    }
}
