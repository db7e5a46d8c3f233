//! The place at which a script is refused with 6 or 7.

mod scripts;

use scripts::{generator, stored};
use sif::parse::parse;
use sif::place::{Lack, Lowering, Refused};
use sif::script::kind::*;
use sif::script::Script;
use sif::{Instruction, Operand, Program};

fn engine(file: &[u8]) -> Option<u8> {
    Program::lower(file).err().map(|refusal| refusal.number())
}

/// The file with the first statements of its Program alone, the last of which ends before a node.
fn cut(file: &[u8], statements: usize, end: usize) -> Vec<u8> {
    let (texts, mut nodes) = generator::decode(file);
    nodes.truncate(end);
    nodes[0].1 = statements as u8;
    generator::encode(&texts, &nodes)
}

/// Cut before the statement of the refused node the engine accepts the script, cut behind it it does
/// not: nothing comes after the last statement of a Program.
fn hold(file: &[u8], label: &str) {
    let script = Script::read(file).unwrap();
    let refused = Lowering::of(&script).refused.unwrap();
    let begins: Vec<usize> = script.statements().iter().map(|statement| statement.node).collect();
    let before = begins.partition_point(|begin| *begin <= refused.node) - 1;
    let end = begins.get(before + 1).copied().unwrap_or(script.node_count());
    assert_eq!(engine(&cut(file, before, begins[before])), None, "{label}");
    assert_eq!(engine(&cut(file, before + 1, end)), Some(refused.number), "{label}");
}

#[test]
fn stored_cases() {
    let mut counts = [0; 8];
    for (number, case) in stored().iter().enumerate() {
        if let Some(refused @ 6..=7) = case.refused() {
            counts[usize::from(refused)] += 1;
            hold(&case.file, &format!("stored case {number}"));
        }
    }
    assert!(counts[6] > 10 && counts[7] > 10, "{counts:?}");
}

#[test]
fn generated_files() {
    const SEEDS: u64 = if cfg!(debug_assertions) { 2_000 } else { 20_000 };
    let mut counts = [0; 8];
    for seed in 0..SEEDS {
        let file = generator::file(seed);
        if let Some(refused) = engine(&file) {
            counts[usize::from(refused)] += 1;
            hold(&file, &format!("seed {seed}"));
        }
    }
    assert!(counts[6] > 10 && counts[7] > 10, "{counts:?}");
}

/// A text that lowers to so many instructions and takes no register: an If with `true` and an empty
/// block is four instructions of three nodes, a variable without a value is one of one.
fn instructions(count: usize) -> String {
    let ifs = (0..220).map(|_| "    if true:\n        empty\n").collect::<String>();
    let variables = count - 4 * 220;
    let half = variables / 2;
    let some = |count: usize| format!("block:\n{}", "    var x\n".repeat(count));
    format!("block:\n{ifs}{}{}", some(half), some(variables - half))
}

/// Where a text is refused, with the kind of the node.
fn refused(text: &str) -> (u8, Lack, &'static str) {
    let script = parse(text).unwrap().script;
    let Refused { number, lack, node } = Lowering::of(&script).refused.unwrap();
    assert_eq!(engine(&script.to_bytes()), Some(number), "{text}");
    (number, lack, name(script.kind(node).unwrap()))
}

/// "6 or 7, the earlier in emission (6 first at the same node)".
#[test]
fn the_earlier_decides() {
    assert_eq!(engine(&parse(&instructions(1024)).unwrap().script.to_bytes()), None);
    let with = |count: usize, line: &str| refused(&format!("{}{line}\n", instructions(count)));
    assert_eq!(with(1024, "var x"), (7, Lack::Instruction, "VarDecl"));
    // The assignment is the 1,024th instruction and leaves no register; then it is one too many.
    assert_eq!(with(1023, "!(z = 1)"), (6, Lack::Operand, "Assign"));
    assert_eq!(with(1024, "!(z = 1)"), (7, Lack::Instruction, "Assign"));
    // The value's register is asked for before the index is lowered.
    assert_eq!(with(1024, "a[1] = true"), (6, Lack::Operand, "True"));
    assert_eq!(with(1024, "a[1] = 2"), (7, Lack::Instruction, "Num"));
    // An item that is read takes three: the index, the item, the store.
    let whole = format!("{}var x = a[1]\n", instructions(1021));
    assert_eq!(engine(&parse(&whole).unwrap().script.to_bytes()), None);
    assert_eq!(with(1022, "var x = a[1]"), (7, Lack::Instruction, "VarDecl"));
    assert_eq!(with(1022, "x = a[1]"), (7, Lack::Instruction, "Assign"));
    assert_eq!(with(1023, "x = a[1]"), (7, Lack::Instruction, "ArrayAccess"));
}

/// Each number takes a register; the 97th is the one that is too much.
#[test]
fn registers() {
    let numbers = |count: usize| "1\n".repeat(count);
    assert_eq!(engine(&parse(&numbers(96)).unwrap().script.to_bytes()), None);
    assert_eq!(refused(&numbers(97)), (7, Lack::Register, "Num"));
    assert_eq!(refused(&format!("{}-x\n", numbers(95))), (7, Lack::Register, "Unary"));
    assert_eq!(refused(&format!("{}x = f()\n", numbers(96))), (7, Lack::Register, "Call"));
    let four = "for i, v in a:\n    empty\n";
    assert_eq!(engine(&parse(&four.repeat(24)).unwrap().script.to_bytes()), None);
    assert_eq!(refused(&four.repeat(25)), (7, Lack::Register, "For"));
    let parameters = format!("{}fn f(a, b):\n    return\n", numbers(95));
    assert_eq!(refused(&parameters), (7, Lack::Register, "Name"));
}

/// The kinds of node that an operation comes from.
fn kinds(operation: &str) -> &'static [u8] {
    match operation {
        "Binary" => &[BINARY, FOR],
        "Unary" => &[UNARY],
        "Ldc" => &[NUM, TEXT, TRUE, FALSE],
        "Ldn" => &[NAME, FOR],
        "Ldas" | "Incrr" => &[FOR],
        "Ldav" => &[ARRAY_ACCESS, FOR],
        "Upda" => &[ARRAY_MUT],
        "Stc" => &[VAR_DECL, ASSIGN, FOR],
        "Stn" => &[VAR_DECL, ASSIGN],
        "Str" => &[VAR_DECL, ASSIGN, FOR, NAME],
        "JmpCnd" => &[IF, ELIF, FOR],
        "Jmpa" => &[IF, ELIF],
        "Fn" => &[FN_DECL],
        "Call" => &[CALL],
        "FnRet" => &[RETURN],
        "FnStackPush" => &[RETURN, CALL],
        "FnStackPop" => &[CALL, NAME],
        "Tbli" => &[ITEM],
        "Nop" => &[PROGRAM, BLOCK, IF],
        _ => &[],
    }
}

fn names(instruction: &Instruction) -> Vec<u8> {
    let name = |operand: &Operand| match operand {
        Operand::Name(name) => Some(name.number()),
        _ => None,
    };
    instruction.operands.iter().filter_map(name).collect()
}

/// The engine's instructions are of the kinds of the nodes that they are said to come from, and
/// have their names.
fn hold_origins(file: &[u8], label: &str) -> bool {
    let Ok(program) = Program::lower(file) else {
        return false;
    };
    let lowering = Lowering::of(&Script::read(file).unwrap());
    let nodes = generator::decode(file).1;
    for (index, instruction) in program.instructions().enumerate() {
        let node = lowering.node(index).unwrap();
        let (kind, _, body) = &nodes[node];
        let label = format!("{label}: {instruction:?} from node {node}, {}", name(*kind));
        assert!(kinds(instruction.operation).contains(kind), "{label}");
        let names = names(&instruction);
        let own = nodes.get(node + 1).filter(|next| next.0 == ARRAY).map(|array| &array.2);
        let found = match *kind {
            FOR => names
                .iter()
                .all(|name| body.contains(name) || *name == 0 || nodes[node + 1].2.contains(name)),
            VAR_DECL | ASSIGN => {
                let stored = names.last();
                stored == own.unwrap_or(body).first()
            }
            _ => names.is_empty() || names.contains(&body[0]),
        };
        assert!(found, "{label}");
    }
    true
}

#[test]
fn origins() {
    const SEEDS: u64 = if cfg!(debug_assertions) { 1_000 } else { 10_000 };
    let mut held = 0;
    for (number, case) in stored().iter().enumerate() {
        held += u64::from(hold_origins(&case.file, &format!("stored case {number}")));
    }
    for seed in 0..SEEDS {
        held += u64::from(hold_origins(&generator::file(seed), &format!("seed {seed}")));
    }
    assert!(held > SEEDS, "{held}");
}
