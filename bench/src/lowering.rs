//! From a file's bytes to a program.

use std::hint::black_box;

use oracle::build_tree::ast_of;
use oracle::original::sifc_bytecode::compiler::Compiler;
use oracle::reader::read;
use oracle::tree::*;

use crate::engine;
use crate::measure::{best, digits, timed, turn, Figures, Plan};
use crate::pages;

/// Files that are near the largest accepted ones, in different ways.
fn largest() -> Vec<(&'static str, Vec<u8>)> {
    let long_texts = || -> Vec<Vec<u8>> {
        let text =
            |n: usize| if n == 0 { b"fortmp".to_vec() } else { format!("{n:040}").into_bytes() };
        (0..64).map(text).collect()
    };
    let items: Vec<Node> = (0..24).map(|n| num(f64::from(n) + 0.5)).collect();
    let arrays = program((1..=39).map(|name| set_array(name, items.clone())).collect());
    let blocks = program((0..4).map(|_| block(vec![block(vec![]); 254])).collect());
    vec![
        ("arrays: 1,015 nodes, 64 long texts", Parts::new(&arrays, long_texts()).bytes()),
        ("blocks: 1,021 nodes, 1,016 instructions", Parts::new(&blocks, short_texts(2)).bytes()),
        ("mixed: 1,000 nodes", mixed(1000)),
    ]
}

/// A script of about so many nodes: declarations, arrays, branches and loops, few registers.
fn mixed(nodes: usize) -> Vec<u8> {
    let mut left = nodes - 1;
    let mut kids = vec![set_array(1, vec![num(1.0), num(2.0)])];
    left -= 4;
    let mut turn = 0;
    let mut registers = 88;
    while left >= 12 {
        turn += 1;
        let (size, node) = match turn % 7 {
            0 if registers >= 8 => {
                registers -= 8;
                let body = block(vec![stmt(assign(3, binary(1, name(3), name(4))))]);
                (8, for_(2, 4, name(1), body))
            }
            1 if registers >= 3 => {
                registers -= 3;
                let cond = binary(8, num(1.0), num(2.0));
                (7, if_(cond, block(vec![decl(5, None)]), vec![], vec![decl(6, None)]))
            }
            2 => (8, set_array(7, vec![num(3.0); 6])),
            3 => (3, stmt(assign(8, text(1)))),
            4 => (3, block(vec![decl(9, None), decl(10, None)])),
            _ => (2, set(3, num(0.5))),
        };
        left -= size;
        kids.push(node);
    }
    let groups = kids.chunks(100).map(|part| block(part.to_vec())).collect();
    file_of(&program(groups))
}

/// The nodes of a file.
fn count(file: &[u8]) -> usize {
    usize::from(file[0]) << 8 | usize::from(file[1])
}

fn times(file: &[u8], rounds: usize) -> Figures {
    let mut program = vec![0; oracle::program_bytes::SIZE];
    let ast = ast_of(&read(file).expect("accepted"));
    let calls = 2 + 100_000 / (file.len() + 400);
    let turns = vec![
        turn("sif_lower", || {
            timed(calls, || {
                let _ = black_box(engine::lower(file, &mut program));
            }) / 1000.0
        }),
        turn("original, from the file", || {
            timed(calls, || {
                let ast = ast_of(&read(black_box(file)).expect("accepted"));
                black_box(Compiler::new(&ast).compile());
            }) / 1000.0
        }),
        turn("original's compile alone", || {
            timed(calls, || drop(black_box(Compiler::new(black_box(&ast)).compile()))) / 1000.0
        }),
    ];
    best(rounds, turns)
}

/// A file's line; the engine has first made the original's program of it.
fn line(plan: &mut Plan, what: &str, file: Vec<u8>) {
    let mut program = vec![0; oracle::program_bytes::SIZE];
    let lowered = (engine::lower(&file, &mut program), program);
    assert!(lowered.0 == 0, "{what}: refused {}", lowered.0);
    assert!(lowered == oracle::calls::lowered(&file), "{what}: not the original's program");
    let what = format!("{what}, {} bytes", digits(file.len() as f64));
    plan.line(&what, count(&file) as f64, move |rounds| times(&file, rounds));
}

pub fn all(folder: &str) -> Result<Vec<Plan>, String> {
    let mut files = Plan::new("Lowering, from a file's bytes to a program", "µs");
    for (page, ..) in pages::PAGES {
        line(&mut files, page, pages::file(folder, page)?);
    }
    for (what, file) in largest() {
        line(&mut files, what, file);
    }
    let mut growth = Plan::new("Lowering, by nodes (mixed statements)", "µs");
    for nodes in [100, 200, 400, 700, 1000] {
        let file = mixed(nodes);
        line(&mut growth, &format!("{} nodes", count(&file)), file);
    }
    Ok(vec![files, growth])
}
