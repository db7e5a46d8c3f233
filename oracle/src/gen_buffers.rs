//! Program and state buffers with each field at the edge of its range and one past it, and the
//! number that each has to get: 0, 8 or 10. Written as bytes, from docs/FORMATS.md.

/// What is tried, the buffer, the number.
pub type Buffer = (String, Vec<u8>, u64);

const SIZE: usize = 40_960;
const STATE: usize = 65_536;

#[derive(Clone, Copy)]
enum Field {
    Register,
    Text,
}

use Field::{Register as R, Text as T};

/// An operation's number, its highest kind (0: it has none), its operands, its highest number.
type Shape = (u8, u8, &'static [Field], Option<u64>);

const SHAPES: [Shape; 21] = [
    (1, 14, &[R, R, R], None),
    (2, 2, &[R, R], None),
    (4, 0, &[R, T], None),
    (5, 0, &[R, R], None),
    (6, 0, &[T, R], None),
    (7, 0, &[T, R, R], None),
    (8, 0, &[T, R, R], None),
    (10, 0, &[T, T], None),
    (11, 0, &[R, T], None),
    (12, 2, &[R], Some(1023)),
    (13, 0, &[], Some(1023)),
    (14, 0, &[R], None),
    (15, 0, &[R], None),
    (17, 0, &[T], Some(255)),
    (18, 0, &[], None),
    (19, 0, &[R], None),
    (20, 0, &[R], None),
    (21, 0, &[T, T, R], None),
    (22, 0, &[T, T, R], None),
    (23, 0, &[], None),
    (24, 0, &[], None),
];

fn highest(field: Field) -> u8 {
    match field {
        R => 95,
        T => 63,
    }
}

fn put(buffer: &mut [u8], at: usize, bytes: &[u8]) {
    buffer[at..at + bytes.len()].copy_from_slice(bytes);
}

/// A program of these records, the first label's entry in its table, started at 0.
fn program(records: &[[u8; 16]]) -> Vec<u8> {
    let mut out = vec![0; SIZE];
    for (index, record) in records.iter().enumerate() {
        put(&mut out, 16 * index, record);
    }
    put(&mut out, 34_944, &(records.len() as u16).to_be_bytes());
    if !records.is_empty() {
        put(&mut out, 32_768, &[0, 1]);
    }
    out
}

fn record(operation: u8, kind: u8, operands: &[u8], number: u64) -> [u8; 16] {
    let mut out = [0; 16];
    out[0] = operation;
    out[1] = kind;
    put(&mut out, 4, operands);
    put(&mut out, 8, &number.to_be_bytes());
    out
}

/// One record, alone and behind a Nop.
fn alone(out: &mut Vec<Buffer>, what: String, record: [u8; 16], number: u64) {
    out.push((what.clone(), program(&[record]), number));
    let nop = self::record(23, 0, &[], 0);
    out.push((format!("{what}, second"), program(&[nop, record]), number));
}

/// All program buffers.
pub fn programs() -> Vec<Buffer> {
    let mut out = shapes();
    literals(&mut out);
    functions(&mut out);
    parameters_behind(&mut out);
    pool(&mut out);
    counts(&mut out);
    tables(&mut out);
    out
}

fn shapes() -> Vec<Buffer> {
    let mut out = Vec::new();
    for (operation, kinds, fields, most) in SHAPES {
        let tops: Vec<u8> = fields.iter().map(|field| highest(*field)).collect();
        let top = record(operation, kinds, &tops, most.unwrap_or(0));
        alone(&mut out, format!("operation {operation} at its edges"), top, 0);
        for (at, edge) in tops.iter().enumerate() {
            for past in [edge + 1, 255] {
                let mut wrong = top;
                wrong[4 + at] = past;
                alone(&mut out, format!("operation {operation}, operand {at} is {past}"), wrong, 8);
            }
        }
        let wrong_kinds = if kinds == 0 { vec![] } else { vec![0, kinds + 1, 255] };
        for kind in wrong_kinds {
            let mut wrong = top;
            wrong[1] = kind;
            alone(&mut out, format!("operation {operation}, kind {kind}"), wrong, 8);
        }
        for past in most.into_iter().flat_map(|most| [most + 1, 1 << 32, u64::MAX]) {
            let wrong = record(operation, kinds, &tops, past);
            alone(&mut out, format!("operation {operation}, number {past}"), wrong, 8);
        }
        for (label, number) in [(1023u16, 0), (1024, 8), (65_535, 8)] {
            let mut labelled = top;
            put(&mut labelled, 2, &label.to_be_bytes());
            let what = format!("operation {operation}, label {label}");
            out.push((what, program(&[labelled]), number));
        }
        let mut filled = top;
        let carries_number = most.is_some();
        (4 + fields.len()..if carries_number { 8 } else { 16 }).for_each(|at| filled[at] = 0xff);
        filled[1] = if kinds == 0 { 0xff } else { kinds };
        alone(&mut out, format!("operation {operation}, other bytes filled"), filled, 0);
    }
    for operation in [0, 25, 26, 128, 255] {
        alone(&mut out, format!("operation {operation}"), record(operation, 1, &[], 0), 8);
    }
    out
}

const SINGLES: [(u8, u64, u64); 14] = [
    (0, 0, 8),
    (1, u64::MAX, 0),
    (1, 0x7ff0_0000_0000_0001, 0),
    (2, 63, 0),
    (2, 64, 8),
    (2, 1 << 40, 8),
    (3, 0, 0),
    (3, 1, 0),
    (3, 2, 8),
    (3, u64::MAX, 8),
    (4, 0, 0),
    (4, 77, 0),
    (7, 0, 8),
    (255, 0, 8),
];

fn literals(out: &mut Vec<Buffer>) {
    for (operation, top) in [(3, 95), (9, 63)] {
        for (kind, value, number) in SINGLES {
            let single = record(operation, kind, &[top], value);
            alone(out, format!("operation {operation}, literal {kind} {value}"), single, number);
            let past = record(operation, kind, &[top + 1], value);
            alone(out, format!("operation {operation}, literal {kind}, operand past"), past, 8);
        }
        for (length, number) in [(0, 0), (1, 8), (255, 8)] {
            let mut table = record(operation, 6, &[top], 99);
            table[7] = length;
            alone(out, format!("operation {operation}, table of {length}"), table, number);
        }
        for (length, number) in [(0, 0), (1, 0), (24, 0), (25, 8), (255, 8)] {
            let mut array = record(operation, 5, &[top], 0);
            array[7] = length;
            let mut buffer = program(&[array]);
            (0..300).for_each(|entry| buffer[16_384 + 16 * entry] = 4);
            out.push((format!("operation {operation}, array of {length}"), buffer, number));
        }
        for (first, number) in [(0, 0), (1, 8), (1 << 16, 8), (1 << 32, 8)] {
            let array = record(operation, 5, &[top], first);
            alone(out, format!("operation {operation}, empty array at {first}"), array, number);
        }
    }
    for (kind, value, number) in SINGLES.into_iter().chain([(5, 0, 8), (6, 0, 8)]) {
        let mut array = record(9, 5, &[1], 0);
        array[7] = 2;
        let mut buffer = program(&[array]);
        buffer[16_384] = 4;
        buffer[16_400] = kind;
        put(&mut buffer, 16_408, &value.to_be_bytes());
        put(&mut buffer, 16_401, &[0xff; 7]);
        out.push((format!("item {kind} {value}"), buffer, number));
    }
}

fn functions(out: &mut Vec<Buffer>) {
    for (name, params, kind, text, number) in [
        (63, 0, 2, 0, 0),
        (64, 0, 2, 0, 8),
        (63, 1, 2, 63, 0),
        (63, 1, 2, 64, 8),
        (63, 255, 2, 63, 0),
        (1, 1, 1, 0, 8),
        (1, 1, 4, 0, 8),
        (1, 1, 0, 0, 8),
    ] {
        let mut function = record(16, 0, &[name], 0);
        function[7] = params;
        let mut buffer = program(&[function]);
        for entry in 0..usize::from(params) {
            buffer[16_384 + 16 * entry] = kind;
            buffer[16_384 + 16 * entry + 15] = text;
        }
        if name < 64 {
            put(&mut buffer, 34_816 + 2 * usize::from(name), &[0, 1]);
        }
        out.push((format!("Fn {name} with {params} of {kind} {text}"), buffer, number));
    }
}

/// Parameters have to begin where the items before them end, also where there are none.
fn parameters_behind(out: &mut Vec<Buffer>) {
    for (params, first, number) in
        [(1, 2, 0), (1, 1, 8), (1, 3, 8), (0, 2, 0), (0, 0, 8), (0, 3, 8)]
    {
        let mut array = record(9, 5, &[1], 0);
        array[7] = 2;
        let mut function = record(16, 0, &[9], first);
        function[7] = params;
        let mut buffer = program(&[array, function]);
        (0..8).for_each(|entry| buffer[16_384 + 16 * entry] = 2);
        put(&mut buffer, 34_816 + 18, &[0, 2]);
        out.push((format!("{params} parameters at {first}"), buffer, number));
    }
    for (first, number) in [(0, 0), (1, 8), (1 << 32, 8)] {
        let mut buffer = program(&[record(16, 0, &[9], first)]);
        put(&mut buffer, 34_816 + 18, &[0, 1]);
        out.push((format!("no parameters at {first}"), buffer, number));
    }
}

/// Items behind each other, up to the pool's end and past it.
fn pool(out: &mut Vec<Buffer>) {
    for last in [16, 17] {
        let mut records = Vec::new();
        for index in 0..43u64 {
            let mut array = record(9, 5, &[1], 24 * index);
            array[7] = if index == 42 { last } else { 24 };
            records.push(array);
        }
        let mut buffer = program(&records);
        (0..1024).for_each(|entry| buffer[16_384 + 16 * entry] = 4);
        let number = if last == 16 { 0 } else { 8 };
        out.push((format!("{} items in all", 42 * 24 + u32::from(last)), buffer, number));
    }
    for (second, number) in [(2, 0), (1, 8), (3, 8), (0, 8)] {
        let mut first = record(9, 5, &[1], 0);
        first[7] = 2;
        let mut behind = record(3, 5, &[1], second);
        behind[7] = 1;
        let nop = record(23, 5, &[], 0);
        let mut buffer = program(&[first, nop, behind]);
        (0..8).for_each(|entry| buffer[16_384 + 16 * entry] = 4);
        out.push((format!("the second array's items at {second}"), buffer, number));
    }
}

fn counts(out: &mut Vec<Buffer>) {
    let nop = record(23, 0, &[], 0);
    for (count, start, number) in [
        (1024, 0, 0),
        (1024, 1024, 0),
        (1024, 1025, 8),
        (1025, 0, 8),
        (65_535, 0, 8),
        (1, 1, 0),
        (1, 2, 8),
        (1, 65_535, 8),
    ] {
        let mut buffer = program(&vec![nop; 1024]);
        put(&mut buffer, 34_944, &(count as u16).to_be_bytes());
        put(&mut buffer, 34_946, &(start as u16).to_be_bytes());
        out.push((format!("{count} instructions, start {start}"), buffer, number));
    }
    out.push((String::from("no instructions"), program(&[]), 0));
    let mut start = program(&[]);
    start[34_947] = 1;
    out.push((String::from("no instructions, start 1"), start, 8));
    let mut label = program(&[]);
    label[32_769] = 1;
    out.push((String::from("no instructions, a label"), label, 8));
    let mut behind = program(&[nop]);
    behind[34_948..].fill(0xff);
    behind[16..16_384].fill(0xee);
    behind[16_384..32_768].fill(0xdd);
    out.push((String::from("bytes without a field filled"), behind, 0));
}

fn tables(out: &mut Vec<Buffer>) {
    let labelled = |label: u16| {
        let mut nop = record(23, 0, &[], 0);
        put(&mut nop, 2, &label.to_be_bytes());
        nop
    };
    let entry = |buffer: &mut Vec<u8>, label: usize, index: u16| {
        put(buffer, 32_768 + 2 * label, &index.to_be_bytes());
    };
    // Labels 0, 7, 0, 7: 0 was entered last at 2, 7 at 3.
    let records = [labelled(0), labelled(7), labelled(0), labelled(7)];
    for (zero, seven, number) in [(3, 4, 0), (1, 4, 8), (3, 2, 8), (3, 0, 8), (0, 4, 8)] {
        let mut buffer = program(&records);
        entry(&mut buffer, 0, zero);
        entry(&mut buffer, 7, seven);
        out.push((format!("label 0 at {zero} - 1, label 7 at {seven} - 1"), buffer, number));
    }
    // The first record's own label has no entry, and label 0 has one.
    for (zero, five, number) in [(1, 0, 0), (0, 0, 8), (1, 1, 8)] {
        let mut buffer = program(&[labelled(5), labelled(5)]);
        entry(&mut buffer, 0, zero);
        entry(&mut buffer, 5, five);
        out.push((format!("first label 5: {five}, label 0: {zero}"), buffer, number));
    }
    let mut last = program(&[labelled(0), labelled(1023)]);
    out.push((String::from("label 1023 missing"), last.clone(), 8));
    entry(&mut last, 1023, 2);
    out.push((String::from("label 1023"), last, 0));
    for (index, number) in [(3, 0), (1, 8), (0, 8), (2, 8)] {
        let function = record(16, 0, &[9], 0);
        let mut buffer = program(&[function, labelled(0), function]);
        put(&mut buffer, 34_816 + 18, &[0, index]);
        out.push((format!("function 9 at {index} - 1"), buffer, number));
    }
    let mut other = program(&[labelled(0)]);
    put(&mut other, 34_816 + 126, &[0, 1]);
    out.push((String::from("function 63 that there is not"), other, 8));
}

/// A state with nothing in it.
fn empty() -> Vec<u8> {
    let mut out = vec![0; STATE];
    out[47_360..].fill(0x77);
    out
}

/// A slot with kind, length and number.
fn slot(kind: u8, length: u8, number: u64) -> Vec<u8> {
    let mut out = vec![0; 256];
    out[0] = kind;
    out[1] = length;
    put(&mut out, 8, &number.to_be_bytes());
    out
}

fn with_items(kind: u8, items: &[(u8, u64)], keys: &[u8]) -> Vec<u8> {
    let mut out = slot(kind, items.len() as u8, 0);
    for (index, (kind, number)) in items.iter().enumerate() {
        if index < 24 {
            out[16 + index] = *kind;
            put(&mut out, 40 + 8 * index, &number.to_be_bytes());
        }
    }
    put(&mut out, 232, keys);
    out
}

/// Slots, each with whether it is accepted.
fn slots() -> Vec<(String, Vec<u8>, bool)> {
    let nan = 0x7ff8_0000_0000_0000;
    let mut out = Vec::new();
    let mut add = |what: String, slot: Vec<u8>, ok: bool| out.push((what, slot, ok));
    let words = [
        (1, 0, true),
        (1, nan, true),
        (1, nan + 1, false),
        (1, nan | 1 << 63, false),
        (1, 0x7ff0_0000_0000_0000, true),
        (1, 0x7ff0_0000_0000_0001, false),
        (1, 0xfff0_0000_0000_0000, true),
        (2, 63, true),
        (2, 64, false),
        (3, 0, true),
        (3, 1, true),
        (3, 2, false),
        (4, 0, true),
        (4, 1, false),
        (0, 1, false),
        (7, 0, false),
        (255, 0, false),
    ];
    for (kind, word, ok) in words {
        add(format!("value {kind} {word}"), slot(kind, 0, word), ok);
        if kind != 0 {
            add(format!("item {kind} {word}"), with_items(5, &[(4, 0), (kind, word)], &[]), ok);
            add(format!("entry {kind} {word}"), with_items(6, &[(kind, word)], &[9]), ok);
        }
    }
    for kind in [1u8, 2, 3, 4] {
        add(format!("value {kind} with a length"), slot(kind, 1, 0), false);
    }
    add(String::from("empty with a length"), slot(0, 1, 0), false);
    for (count, ok) in [(0, true), (1, true), (24, true), (25, false)] {
        add(format!("array of {count}"), with_items(5, &vec![(4, 0); count], &[]), ok);
    }
    for (count, ok) in [(0u8, true), (1, true), (16, true), (17, false)] {
        let keys: Vec<u8> = (0..count.min(16)).map(|key| key * 4).collect();
        let items = vec![(4, 0); usize::from(count)];
        add(format!("table of {count}"), with_items(6, &items, &keys), ok);
    }
    for (keys, ok) in
        [([5, 6], true), ([6, 5], false), ([5, 5], false), ([0, 63], true), ([0, 64], false)]
    {
        add(format!("keys {keys:?}"), with_items(6, &[(4, 0), (4, 0)], &keys), ok);
    }
    add(String::from("item of kind 0"), with_items(5, &[(0, 0)], &[]), false);
    add(String::from("item of kind 5"), with_items(5, &[(5, 0)], &[]), false);
    add(String::from("item of kind 6"), with_items(6, &[(6, 0)], &[1]), false);
    // Each byte that a value does not use.
    let unused: [(u8, Vec<u8>, Vec<usize>); 4] = [
        (0, slot(0, 0, 0), (1..256).collect()),
        (1, slot(1, 0, 0), (2..8).chain(16..256).collect()),
        (5, with_items(5, &[(4, 0); 23], &[]), (2..16).chain([39]).chain(224..256).collect()),
        (
            6,
            with_items(6, &[(4, 0); 15], &[1, 2, 3, 4, 5, 6, 7, 8, 9, 10, 11, 12, 13, 14, 15]),
            (2..16).chain(31..40).chain(160..232).chain(247..256).collect(),
        ),
    ];
    for (kind, sound, places) in unused {
        for at in places {
            let mut wrong = sound.clone();
            wrong[at] = 1;
            add(format!("value {kind}, byte {at} set"), wrong, false);
        }
    }
    out
}

/// All state buffers for a program of so many instructions (at least 1): as a run lends them.
pub fn states(instructions: u16) -> Vec<Buffer> {
    let mut out = Vec::new();
    let number = |ok: bool| if ok { 0 } else { 10 };
    for (what, slot, ok) in slots() {
        for (place, at) in [("register 0", 0), ("register 95", 95 * 256)] {
            let mut state = empty();
            put(&mut state, at, &slot);
            out.push((format!("{place}: {what}"), state, number(ok)));
        }
        for text in [0, 63] {
            let mut state = empty();
            put(&mut state, 24_576 + 256 * text, &slot);
            let held = if slot[0] == 0 { 0u64 } else { 1 << text };
            put(&mut state, 47_328, &held.to_be_bytes());
            out.push((format!("name {text}: {what}"), state.clone(), number(ok)));
            put(&mut state, 47_328, &(held ^ 1 << text).to_be_bytes());
            out.push((format!("name {text}, mark wrong: {what}"), state, 10));
        }
        let mut state = empty();
        put(&mut state, 40_960, &slot);
        state[47_346] = 1;
        out.push((format!("stack: {what}"), state.clone(), number(ok && slot[0] != 0)));
        state[47_346] = 0;
        let nothing = slot.iter().all(|byte| *byte == 0);
        out.push((format!("above the stack: {what}"), state, number(nothing)));
    }
    fields(&mut out, instructions);
    out
}

fn fields(out: &mut Vec<Buffer>, instructions: u16) {
    let n = instructions;
    let mut add = |what: &str, edits: &[(usize, &[u8])], ok: bool| {
        let mut state = empty();
        edits.iter().for_each(|(at, bytes)| put(&mut state, *at, bytes));
        out.push((what.to_string(), state, if ok { 0 } else { 10 }));
    };
    add("fresh", &[], true);
    add("position at the end", &[(47_344, &n.to_be_bytes())], true);
    add("position past the end", &[(47_344, &(n + 1).to_be_bytes())], false);
    add("position 65,535", &[(47_344, &[255, 255])], false);
    for (depth, ok) in [(24usize, true), (25, false), (255, false)] {
        let mut stack = Vec::new();
        (0..depth.min(24)).for_each(|_| stack.extend(slot(4, 0, 0)));
        add("values to a depth", &[(40_960, &stack), (47_346, &[depth as u8])], ok);
        let mut short = stack.clone();
        short[23 * 256] = 0;
        add("a hole in the stack", &[(40_960, &short), (47_346, &[24])], false);
        let mut calls = vec![0; 4 * depth.min(24)];
        calls.chunks_mut(4).for_each(|frame| put(frame, 0, &(n - 1).to_be_bytes()));
        add("calls to a depth", &[(47_104, &calls), (47_347, &[depth as u8])], ok);
    }
    add("return position past", &[(47_104, &n.to_be_bytes()), (47_347, &[1])], false);
    add("a frame's third byte", &[(47_106, &[1]), (47_347, &[1])], false);
    add("a frame's fourth byte", &[(47_107, &[1]), (47_347, &[1])], false);
    add("a frame above the depth", &[(47_107, &[1])], false);
    add("a last frame above the depth", &[(47_196, &[0, 1])], false);
    add("function at the end", &[(47_200, &n.to_be_bytes())], true);
    add("function past the end", &[(47_200, &(n + 1).to_be_bytes())], false);
    add("last function at the end", &[(47_326, &n.to_be_bytes())], true);
    add("last function past the end", &[(47_326, &(n + 1).to_be_bytes())], false);
    add("mark without a name", &[(47_335, &[1])], false);
    add("mark without a last name", &[(47_328, &[128])], false);
    add("the highest count", &[(47_336, &[255; 8])], true);
    for at in 47_348..47_360 {
        add("a zero byte set", &[(at, &[1])], false);
    }
    add("bytes without a field", &[(47_360, &[1; 100])], true);
}
