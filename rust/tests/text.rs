//! Text and back: every script that is shown is read to the same file, and the count of registers
//! and instructions is the engine's.

mod scripts;

use scripts::{generator, stored, Case};
use sif::parse::parse;
use sif::place::{self, Lowering};
use sif::script::{kind, Script, ARRAY_ITEMS, DEPTH, TABLE_ITEMS, TEXTS};
use sif::show::show_with_lines;
use sif::Program;
use std::collections::BTreeSet;

/// Reads a file that the checks 1 to 5 and 39 accept, and holds it to its text and to the engine.
fn hold(file: &[u8], label: &str) -> (Script, Option<u8>) {
    let script = Script::read(file).unwrap_or_else(|fault| panic!("{label}: {fault}"));
    assert_eq!(script.to_bytes(), file, "{label}: written again");
    let shown = show_with_lines(&script);
    let text = &shown.text;
    let parsed = parse(text).unwrap_or_else(|error| panic!("{label}: {error}\n{text}"));
    assert_eq!(parsed.script.to_bytes(), file, "{label}: from its text\n{text}");
    for node in (0..script.node_count()).filter(|node| begins_line(&script, *node)) {
        let position = parsed.position(node).unwrap();
        assert_eq!(shown.line(node), position.line, "{label}: node {node}\n{text}");
    }
    let refused = hold_to_engine(&script, file, label);
    (script, refused)
}

/// Whether a node begins a line of the text, or ends one as a block below it does.
fn begins_line(script: &Script, node: usize) -> bool {
    matches!(script.kind(node), Some(kind::PROGRAM..=kind::FN_DECL))
}

/// The count of registers and instructions agrees with what the engine makes of the file.
fn hold_to_engine(script: &Script, file: &[u8], label: &str) -> Option<u8> {
    let lowering = Lowering::of(script);
    let refused = lowering.refused.map(|refused| refused.number);
    match Program::lower(file) {
        Err(refusal) => assert_eq!(refused, Some(refusal.number()), "{label}"),
        Ok(program) => {
            assert_eq!(refused, None, "{label}");
            assert_eq!(lowering.origins.len(), usize::from(program.count()), "{label}");
            assert_eq!(lowering.code_start, usize::from(program.code_start()), "{label}");
        }
    }
    refused
}

#[test]
fn stored_cases() {
    let cases = stored();
    assert_eq!(cases.len(), 3030);
    let mut accepted = 0;
    for (number, case) in cases.iter().enumerate() {
        if matches!(case.refused(), Some(1..=5 | 39)) {
            continue;
        }
        let label = format!("stored case {number}");
        let (script, refused) = hold(&case.file, &label);
        assert_eq!(refused, case.refused(), "{label}");
        if refused.is_none() {
            hold_to_listing(&script, case, &label);
            accepted += 1;
        }
    }
    assert!(accepted > 1500, "{accepted} accepted");
}

/// The bound and the code start that the original gives.
fn hold_to_listing(script: &Script, case: &Case, label: &str) {
    let bound = place::bound(script).map_or("none".to_string(), |bound| bound.to_string());
    assert_eq!(Some(bound.as_str()), case.line("bound"), "{label}");
    let start = Lowering::of(script).code_start.to_string();
    assert_eq!(Some(start.as_str()), case.line("start"), "{label}");
}

/// The kinds, operators and patterns that generated files have.
#[derive(Default)]
struct Met {
    kinds: BTreeSet<u8>,
    operators: BTreeSet<(u8, u8)>,
    patterns: BTreeSet<u64>,
    /// The most of each thing that has a limit: depth, loops in one another, items, keys, texts.
    most: [usize; 5],
}

impl Met {
    fn add(&mut self, file: &[u8]) {
        let (texts, nodes) = generator::decode(file);
        self.most[4] = self.most[4].max(texts.len());
        // Kind and children left of each node above.
        let mut above: Vec<(u8, u8)> = Vec::new();
        for (kind, count, body) in nodes {
            above.push((kind, count));
            let loops = above.iter().filter(|(kind, _)| *kind == kind::FOR).count();
            self.most[0] = self.most[0].max(above.len());
            self.most[1] = self.most[1].max(loops);
            while above.last().is_some_and(|(_, left)| *left == 0) {
                above.pop();
                above.iter_mut().last().into_iter().for_each(|(_, left)| *left -= 1);
            }
            self.kinds.insert(kind);
            match kind {
                kind::NUM => {
                    self.patterns.insert(u64::from_be_bytes(body.try_into().unwrap()));
                }
                kind::BINARY | kind::UNARY => {
                    self.operators.insert((kind, body[0]));
                }
                kind::ARRAY => self.most[2] = self.most[2].max(usize::from(count)),
                kind::TABLE => self.most[3] = self.most[3].max(usize::from(count)),
                _ => {}
            }
        }
    }
}

#[test]
fn generated_files() {
    const ACCEPTED: usize = if cfg!(debug_assertions) { 2_000 } else { 100_000 };
    let mut met = Met::default();
    let mut accepted = 0;
    let mut refused = [0; 8];
    for seed in 0.. {
        let file = generator::file(seed);
        match hold(&file, &format!("seed {seed}")).1 {
            Some(number) => refused[usize::from(number)] += 1,
            None => {
                accepted += 1;
                met.add(&file);
            }
        }
        if accepted == ACCEPTED {
            break;
        }
    }
    assert_eq!(met.kinds.len(), 23);
    assert_eq!(met.operators.len(), 15);
    assert_eq!(met.most[0], DEPTH);
    assert_eq!(met.most[2..], [ARRAY_ITEMS, TABLE_ITEMS, TEXTS]);
    assert!(met.most[1] > 2, "{} loops", met.most[1]);
    assert!(generator::PATTERNS.iter().all(|pattern| met.patterns.contains(pattern)));
    assert!(refused[6] > 0 && refused[7] > 0, "{refused:?}");
}
