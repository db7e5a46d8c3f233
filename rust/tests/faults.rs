//! Faults: the number is the engine's on every file, and the place is where the file was damaged.

mod scripts;

use scripts::generator::{Node, NOT_FINITE, PATTERNS};
use scripts::{generator, stored, Random};
use sif::script::{kind, Fault, Script};
use sif::Program;
use std::collections::BTreeMap;

/// The numbers that a script's checks give; 0 where they accept.
const NUMBERS: [u8; 7] = [0, 1, 2, 3, 4, 5, 39];

/// How often each number came.
type Counts = BTreeMap<u8, usize>;

fn came_more_than(counts: &Counts, least: usize) -> bool {
    NUMBERS.iter().all(|number| counts.get(number).is_some_and(|count| *count > least))
}

/// The number of a file by the script's checks, and by the engine: 0 where 1 to 5 and 39 do not apply.
fn numbers(file: &[u8]) -> (u8, u8) {
    let here = Script::read(file).err().map_or(0, |fault| fault.number);
    let engine = Program::lower(file).err().map_or(0, |refusal| refusal.number());
    (here, if matches!(engine, 6 | 7) { 0 } else { engine })
}

fn hold(file: &[u8], label: &str) -> u8 {
    let (here, engine) = numbers(file);
    assert_eq!(here, engine, "{label}: {:?}", Script::read(file).err());
    here
}

#[test]
fn stored_cases() {
    let mut counts = Counts::new();
    for (number, case) in stored().iter().enumerate() {
        let label = format!("stored case {number}");
        let found = hold(&case.file, &label);
        let wanted = case.refused().filter(|number| NUMBERS.contains(number)).unwrap_or(0);
        assert_eq!(found, wanted, "{label}");
        *counts.entry(found).or_default() += 1;
    }
    assert!(came_more_than(&counts, 20), "{counts:?}");
}

/// A copy of a file with some bytes changed, taken out or put in.
fn damaged(file: &[u8], random: &mut Random) -> Vec<u8> {
    let mut file = file.to_vec();
    for _ in 0..random.between(1, 3) {
        if file.is_empty() {
            break;
        }
        // Half of the damage is done where the contents are.
        let reach = if random.chance(50) { file.len().min(60) } else { file.len() };
        let at = random.below(reach);
        match random.below(9) {
            0 => drop(file.remove(at)),
            1 => file.insert(at, random.next() as u8),
            2 => file.truncate(at),
            3 | 4 => file[at] = random.between(0, 24) as u8,
            5 => file[at] = file[at].wrapping_add(1),
            6 => file[at] = file[at].wrapping_sub(1),
            7 => not_finite(&mut file),
            _ => file[at] = random.next() as u8,
        }
    }
    file
}

/// Puts the beginning of a NaN or an infinity where the last number seems to begin.
fn not_finite(file: &mut [u8]) {
    let begin = file.iter().rposition(|byte| matches!(byte, 63 | 64)).unwrap_or(0);
    for (byte, of_nan) in file[begin..].iter_mut().zip([127, 240]) {
        *byte = of_nan;
    }
}

#[test]
fn damaged_copies() {
    const COPIES: u64 = if cfg!(debug_assertions) { 3_000 } else { 60_000 };
    let mut counts = Counts::new();
    let mut random = Random::new(13);
    for seed in 0..COPIES {
        let file = damaged(&generator::file(seed % 20_000), &mut random);
        *counts.entry(hold(&file, &format!("seed {seed}: {file:?}"))).or_default() += 1;
    }
    for (number, case) in stored().iter().enumerate() {
        let file = damaged(&case.file, &mut random);
        let label = format!("stored case {number}, damaged: {file:?}");
        *counts.entry(hold(&file, &label)).or_default() += 1;
    }
    assert!(came_more_than(&counts, 50), "{counts:?}");
}

/// Gives a node's body a fault, where it can have one: the number.
fn spoil(node: &mut Node, texts: usize, random: &mut Random) -> Option<u8> {
    let (kind, _, body) = node;
    match (*kind, body.len()) {
        (_, 0) | (kind::IF, _) => return None,
        (kind::NUM, _) => *body = random.pick(&NOT_FINITE).to_be_bytes().to_vec(),
        (kind::BINARY, _) => body[0] = random.pick(&[0, 14, 255]),
        (kind::UNARY, _) => body[0] = random.pick(&[0, 3, 255]),
        (_, length) => body[random.below(length)] = random.pick(&[texts as u8, 64, 255]),
    }
    Some(if *kind == kind::NUM { 39 } else { 5 })
}

/// 39 is "checked with 5, in node order": the first node at fault decides, whatever comes behind.
#[test]
fn the_first_node_decides() {
    const FILES: u64 = if cfg!(debug_assertions) { 1_000 } else { 20_000 };
    let mut random = Random::new(39);
    // First number and last.
    let mut orders: BTreeMap<(u8, u8), usize> = BTreeMap::new();
    for seed in 0..FILES {
        let (texts, mut nodes) = generator::decode(&generator::file(seed));
        let mut spoiled = BTreeMap::new();
        for _ in 0..random.between(1, 4) {
            let at = random.below(nodes.len());
            spoiled.extend(spoil(&mut nodes[at], texts.len(), &mut random).map(|no| (at, no)));
        }
        let Some(((first, number), last)) = spoiled.first_key_value().zip(spoiled.values().last())
        else {
            continue;
        };
        let file = generator::encode(&texts, &nodes);
        assert_eq!(hold(&file, &format!("seed {seed}")), *number, "seed {seed}: {spoiled:?}");
        let place = Script::read(&file).unwrap_err().node.unwrap();
        assert_eq!(place.number, *first, "seed {seed}: {spoiled:?}");
        *orders.entry((*number, *last)).or_default() += 1;
    }
    let least = FILES as usize / 100;
    assert!(orders.len() == 4 && orders.values().all(|count| *count > least), "{orders:?}");
}

/// `var x =` a number of that pattern.
fn file_of(pattern: u64) -> Vec<u8> {
    let nodes = [(1, 1, vec![]), (8, 1, vec![1]), (19, 0, pattern.to_be_bytes().to_vec())];
    generator::encode(&[b"fortmp".to_vec(), b"x".to_vec()], &nodes)
}

/// A number is refused where all bits of its exponent are set: tried for all first two bytes, which
/// hold sign and exponent.
#[test]
fn every_exponent() {
    let beginnings = (0..=u16::MAX).map(|two| u64::from(two) << 48);
    let all = beginnings.flat_map(|two| [0, 1, 1 << 47, (1 << 48) - 1].map(|rest| two | rest));
    for pattern in all.chain(PATTERNS).chain(NOT_FINITE) {
        let expected = if pattern >> 52 & 0x7ff == 0x7ff { 39 } else { 0 };
        assert_eq!(hold(&file_of(pattern), &format!("{pattern:016x}")), expected, "{pattern:016x}");
    }
}

/// Every shortest input: all files of up to two bytes, and all of one node and one text.
#[test]
fn short_files() {
    hold(&[], "no bytes");
    for first in 0..=255 {
        hold(&[first], "one byte");
        hold(&[first, first], "two bytes");
        hold(&[0, first, 1], "three bytes");
        hold(&[0, 1, first], "three bytes");
        hold(&[&[0, 1, 1, 6, first, 0][..], b"fortmp"].concat(), "one node");
        hold(&[&[0, 1, 1, 6, 1, first][..], b"fortmp"].concat(), "one node");
    }
}

/// `var x = [1, "x"]`, then `x = x + 1` in an if, from its parts.
fn sample() -> (Vec<Vec<u8>>, Vec<Node>) {
    let texts = vec![b"fortmp".to_vec(), b"a".to_vec(), b"x".to_vec()];
    let one = 1f64.to_bits().to_be_bytes().to_vec();
    let nodes = vec![
        (1, 2, vec![]),       // 0 Program
        (8, 1, vec![2]),      // 1 VarDecl x
        (12, 2, vec![2]),     // 2 Array x
        (19, 0, one.clone()), // 3 Num
        (20, 0, vec![2]),     // 4 Text
        (3, 2, vec![0]),      // 5 If
        (21, 0, vec![1]),     // 6 Name a
        (2, 1, vec![]),       // 7 Block
        (7, 1, vec![]),       // 8 ExprStmt
        (16, 1, vec![2]),     // 9 Assign x
        (17, 2, vec![1]),     // 10 Binary +
        (21, 0, vec![2]),     // 11 Name x
        (19, 0, one),         // 12 Num
    ];
    (texts, nodes)
}

/// Where the parts of the sample's file begin: its contents are 3 counts, 3 lengths, 26 bytes.
const ENTRIES: usize = 6;
const TEXTS: usize = 32;
const BODIES: usize = TEXTS + 6 + 1 + 1;

fn fault_of(change: impl FnOnce(&mut Vec<Vec<u8>>, &mut Vec<Node>)) -> Fault {
    let (mut texts, mut nodes) = sample();
    change(&mut texts, &mut nodes);
    let file = generator::encode(&texts, &nodes);
    hold(&file, "sample");
    Script::read(&file).unwrap_err()
}

fn place(fault: &Fault) -> (u8, Option<usize>, Option<usize>, &str) {
    let path = fault.node.as_ref().map_or("", |node| node.path.as_str());
    (fault.number, fault.byte, fault.node.as_ref().map(|node| node.number), path)
}

#[test]
fn sample_is_accepted() {
    let (texts, nodes) = sample();
    let file = generator::encode(&texts, &nodes);
    assert_eq!(hold(&file, "sample"), 0);
    assert_eq!(file.len(), BODIES + 1 + 1 + 8 + 1 + 1 + 1 + 1 + 1 + 1 + 8);
}

#[test]
fn places_of_bytes() {
    let (texts, nodes) = sample();
    let file = generator::encode(&texts, &nodes);
    let fault = Script::read(&file[..20]).unwrap_err();
    assert_eq!((fault.number, fault.byte), (1, Some(20)));
    let fault = Script::read(&file[..50]).unwrap_err();
    assert_eq!((fault.number, fault.byte), (1, Some(50)));
    let fault = Script::read(&[&file[..], &[0]].concat()).unwrap_err();
    assert_eq!((fault.number, fault.byte), (1, Some(file.len())));
    let fault = Script::read(&[4, 1, 3]).unwrap_err();
    assert_eq!((fault.number, fault.byte), (2, Some(0)));
    let fault = Script::read(&[4, 0, 65]).unwrap_err();
    assert_eq!((fault.number, fault.byte), (2, Some(2)));
}

#[test]
fn places_of_texts() {
    let fault = fault_of(|texts, _| texts[2] = b"a\xe9".to_vec());
    assert_eq!((fault.number, fault.byte), (3, Some(TEXTS + 6 + 1 + 1)));
    let words = "3: byte 233 in text 2; texts have bytes 32 to 126; at byte 40; text 2 \"a\\xe9\"";
    assert_eq!(fault.to_string(), words);
    let text = fault.text.unwrap();
    assert_eq!((text.number, &text.bytes[..]), (2, &b"a\xe9"[..]));

    let fault = fault_of(|texts, _| texts[1] = vec![b'y'; 41]);
    assert_eq!((fault.number, fault.byte), (3, Some(4)));
    assert_eq!(fault.text.unwrap().bytes, vec![b'y'; 41]);

    let fault = fault_of(|texts, _| texts.swap(1, 2));
    assert_eq!((fault.number, fault.byte), (3, Some(TEXTS + 7)));
    assert_eq!(fault.words, "text 2 sorts before text 1");

    let fault = fault_of(|texts, _| texts[2] = b"fortmp".to_vec());
    assert_eq!(fault.words, "text 2 is fortmp, which is text 0 alone");
}

#[test]
fn places_of_numbers() {
    let fault = fault_of(|_, nodes| nodes[11].2[0] = 3);
    let path = "Program > statement 2 (If) > Block > statement 1 (ExprStmt) > Assign > Binary > \
                left (Name)";
    // Before its body: VarDecl 1, Array 1, Num 8, Text 1, If 1, Name 1, Assign 1, Binary 1.
    assert_eq!(place(&fault), (5, Some(BODIES + 15), Some(11), path));
    assert_eq!(fault.words, "text number 3; the file has texts 0 to 2");

    let fault = fault_of(|_, nodes| nodes[10].2[0] = 14);
    assert_eq!(fault.words, "operator 14 of a Binary; operators are 1 to 13");
    assert_eq!((fault.number, fault.byte), (5, Some(BODIES + 14)));
}

/// The body of a Num.
fn number(number: f64) -> Vec<u8> {
    number.to_be_bytes().to_vec()
}

#[test]
fn places_of_numbers_that_are_not_finite() {
    let fault = fault_of(|_, nodes| nodes[3].2 = number(f64::INFINITY));
    let path = "Program > statement 1 (VarDecl) > Array > item 1 (Num)";
    assert_eq!(place(&fault), (39, Some(BODIES + 2), Some(3), path));
    assert_eq!(fault.words, "the number is inf; the numbers of a script are finite");
    assert_eq!(fault.text, None);

    let fault = fault_of(|_, nodes| nodes[12].2 = number(f64::NEG_INFINITY));
    let path = "Program > statement 2 (If) > Block > statement 1 (ExprStmt) > Assign > Binary > \
                right (Num)";
    assert_eq!(place(&fault), (39, Some(BODIES + 16), Some(12), path));
    assert_eq!(fault.words, "the number is -inf; the numbers of a script are finite");

    // Under a minus sign, with a NaN other than that of arithmetic.
    let fault = fault_of(|_, nodes| {
        nodes[12].2 = 0xfff0_0000_0000_0001u64.to_be_bytes().to_vec();
        nodes.insert(12, (18, 1, vec![2]));
    });
    let path = "Program > statement 2 (If) > Block > statement 1 (ExprStmt) > Assign > Binary > \
                right (Unary) > Num";
    assert_eq!(place(&fault), (39, Some(BODIES + 2 + 17), Some(13), path));
    assert_eq!(fault.words, "the number is nan; the numbers of a script are finite");
}

/// The body of a Num that is no number.
fn nan() -> Vec<u8> {
    number(f64::NAN)
}

/// 39 beside 5, in both orders; before the structure's 4; behind an unknown kind's 4, 3, 1 and 2.
#[test]
fn the_order_of_39() {
    type Change = fn(&mut Vec<Vec<u8>>, &mut Vec<Node>);
    let rows: [(Change, u8, Option<usize>); 11] = [
        (|_, nodes| (nodes[3].2, nodes[4].2[0]) = (nan(), 3), 39, Some(3)),
        (|_, nodes| (nodes[2].2[0], nodes[3].2) = (3, nan()), 5, Some(2)),
        (|_, nodes| (nodes[3].2, nodes[10].2[0]) = (nan(), 0), 39, Some(3)),
        (|_, nodes| (nodes[10].2[0], nodes[12].2) = (0, nan()), 5, Some(10)),
        // A statement too few; a Num with a child; a Name as an item.
        (|_, nodes| (nodes[0].1, nodes[12].2) = (3, nan()), 39, Some(12)),
        (|_, nodes| (nodes[3].1, nodes[3].2) = (1, nan()), 39, Some(3)),
        (|_, nodes| (nodes[4].0, nodes[12].2) = (21, nan()), 39, Some(12)),
        (|_, nodes| (nodes[3].2, nodes[4]) = (nan(), (24, 0, vec![])), 4, Some(4)),
        (|texts, nodes| (texts[2], nodes[3].2) = (b"A".to_vec(), nan()), 3, None),
        (|_, nodes| (nodes[3].2, nodes[12].2) = (nan(), vec![0; 7]), 1, None),
        (|texts, nodes| (*texts, nodes[3].2) = (vec![], nan()), 2, None),
    ];
    for (row, (change, number, node)) in rows.into_iter().enumerate() {
        let fault = fault_of(change);
        let found = fault.node.map(|node| node.number);
        assert_eq!((fault.number, found), (number, node), "row {row}");
    }
}

#[test]
fn places_of_nodes() {
    let fault = fault_of(|_, nodes| nodes[4] = (24, 0, vec![]));
    let path = "Program > statement 1 (VarDecl) > Array > item 2 (kind 24)";
    assert_eq!(place(&fault), (4, Some(ENTRIES + 8), Some(4), path));

    let fault = fault_of(|_, nodes| nodes[4] = (21, 0, vec![2]));
    let path = "Program > statement 1 (VarDecl) > Array > item 2 (Name)";
    assert_eq!(place(&fault), (4, Some(ENTRIES + 8), Some(4), path));
    assert_eq!(fault.words, "Name where a Num, Text, True or False has to stand");

    let fault = fault_of(|_, nodes| nodes[7] = (4, 1, vec![]));
    assert_eq!(fault.words, "Elif where a Block has to stand");

    let fault = fault_of(|_, nodes| nodes[0].1 = 3);
    assert_eq!(fault.words, "the nodes end where a statement has to follow");
    assert_eq!(fault.node.unwrap().number, 12);

    let fault = fault_of(|_, nodes| nodes[0].1 = 1);
    assert_eq!(fault.words, "the Program ends before this node: 8 nodes are left over");
    assert_eq!(fault.node.unwrap().number, 5);

    let fault = fault_of(|_, nodes| nodes[5].2[0] = 1);
    assert_eq!(fault.words, "If with 2 children; with 1 Elifs it has at least 3");
}

#[test]
fn places_of_limits() {
    let fault = fault_of(|_, nodes| {
        nodes[2].1 = 25;
        let item = (22, 0, vec![]);
        nodes.splice(3..3, vec![item; 23]);
    });
    assert_eq!(fault.words, "Array with 25 items; it has at most 24");
    assert_eq!(place(&fault).3, "Program > statement 1 (VarDecl) > Array");

    // An item twice in a table: nodes 3 and 5.
    let fault = fault_of(|_, nodes| {
        nodes[2] = (10, 2, vec![]);
        nodes.insert(3, (11, 1, vec![1]));
        nodes.insert(5, (11, 1, vec![1]));
    });
    assert_eq!(fault.words, "key \"a\" twice in one table");
    assert_eq!(place(&fault).3, "Program > statement 1 (VarDecl) > Table > item 2 (Item)");
    assert_eq!(fault.text.unwrap().number, 1);

    // 29 signs, one in another, under a statement of depth 3: the deepest has depth 32.
    let deep = |signs: usize| {
        move |_: &mut Vec<Vec<u8>>, nodes: &mut Vec<Node>| {
            let mut all = vec![(1, 1, vec![]), (7, 1, vec![])];
            all.extend(vec![(18, 1, vec![1]); signs]);
            all.push((21, 0, vec![1]));
            *nodes = all;
        }
    };
    let fault = fault_of(deep(30));
    assert_eq!((fault.number, fault.words.as_str()), (4, "depth 33; 32 is the most"));
    assert_eq!(fault.node.unwrap().number, 32);

    // A function in a block of a function.
    let fault = fault_of(|_, nodes| {
        *nodes =
            vec![(1, 1, vec![]), (9, 1, vec![1]), (2, 1, vec![]), (9, 1, vec![2]), (2, 0, vec![])]
    });
    assert_eq!(fault.words, "a function inside a function");
    assert_eq!(place(&fault).3, "Program > statement 1 (FnDecl) > Block > statement 1 (FnDecl)");

    // Nine loops.
    let fault = fault_of(|_, nodes| {
        *nodes = vec![(1, 1, vec![])];
        for _ in 0..9 {
            nodes.extend([(5, 2, vec![1, 2]), (21, 0, vec![1]), (2, 1, vec![])]);
        }
        nodes.last_mut().unwrap().1 = 0;
    });
    assert_eq!(fault.words, "more than 8 loops in one another");
    assert_eq!(fault.node.unwrap().number, 25);
}
