//! Tree files from a seed, written as bytes: every kind, every operator, odd texts and numbers. The
//! structure is always allowed, and the numbers are finite; whether the lowering accepts a file is
//! the engine's to say.

use super::Random;
use sif::script::kind::*;

/// Finite numbers that one may have trouble with.
pub const PATTERNS: [u64; 21] = [
    0,
    0x8000_0000_0000_0000, // -0
    0x3ff0_0000_0000_0000, // 1
    0xbff0_0000_0000_0000, // -1
    0x3fb9_9999_9999_999a, // 0.1
    1,                     // the smallest number
    0x8000_0000_0000_0001,
    0x000f_ffff_ffff_ffff, // the largest subnormal one
    0x0010_0000_0000_0000, // the smallest normal one
    0x7fef_ffff_ffff_ffff, // the largest
    0xffef_ffff_ffff_ffff,
    0x7fe0_0000_0000_0000, // 2^1023
    0x7eff_ffff_ffff_ffff, // the largest below 2^1009
    0xfeff_ffff_ffff_ffff,
    0x3ff8_0000_0000_0000, // 1.5
    0x4341_c379_37e0_8000, // 1e16
    0x4341_c379_37e0_7fff, // just below it
    0x3ee4_f8b5_88e3_68f1, // 1e-5
    0x3ee4_f8b5_88e3_68f0, // just below it
    0x4340_0000_0000_0000, // 2^53
    0x3fd5_5555_5555_5555, // a third
];

/// Infinities and NaNs.
pub const NOT_FINITE: [u64; 11] = [
    0x7ff0_0000_0000_0000, // inf
    0xfff0_0000_0000_0000, // -inf
    0x7ff8_0000_0000_0000, // the NaN of arithmetic
    0xfff8_0000_0000_0000,
    0x7ff0_0000_0000_0001, // signalling NaNs
    0xfff0_0000_0000_0001,
    0x7ff4_0000_0000_0000,
    0x7ff0_0000_8000_0000,
    0x7fff_ffff_ffff_ffff,
    0xffff_ffff_ffff_ffff,
    0x7ff8_dead_beef_0001,
];

/// Texts that the language could stumble over.
#[rustfmt::skip]
const TEXTS: [&str; 62] = [
    "", " ", "  x", "x ", "a b", "\"", "\\", "\\\\", "\\\"", "`", "\\`", "``", "'", "#", "# x", "x#y",
    "0", "1", "1x", "-1", "-", "--", "_", "__a1", "A", "Z9", "a", "b", "cells", "i", "v", "var", "fn",
    "return", "if", "elif", "else", "for", "in", "true", "false", "inf", "nan", "block", "empty",
    "unused", "as", "Var", "table", "nan(7ff8000000000000)", "x = 1", "a[0]", "f()", "a, b", "a: b",
    "{}", "~", "!", "=", "fortmp1", "Fortmp",
    "0123456789012345678901234567890123456789",
];

/// Kind, child count, body.
pub type Node = (u8, u8, Vec<u8>);

pub struct Generator {
    random: Random,
    nodes: Vec<Node>,
    text_count: usize,
    /// How many nodes to aim at.
    size: usize,
}

/// What lies above a node.
#[derive(Clone, Copy)]
struct Above {
    depth: usize,
    loops: usize,
    function: bool,
}

impl Above {
    fn deeper(self) -> Above {
        Above { depth: self.depth + 1, ..self }
    }
}

/// The tree file of a seed.
pub fn file(seed: u64) -> Vec<u8> {
    let mut random = Random::new(seed);
    let texts = texts(&mut random);
    let size = match random.below(100) {
        0..=79 => random.between(1, 30),
        80..=98 => random.between(30, 100),
        _ => random.between(100, 900),
    };
    let mut generator = Generator { random, nodes: Vec::new(), text_count: texts.len(), size };
    generator.program();
    encode(&texts, &generator.nodes)
}

/// The bytes of a tree file (document 01, "The tree file").
pub fn encode(texts: &[Vec<u8>], nodes: &[Node]) -> Vec<u8> {
    let mut file = vec![(nodes.len() >> 8) as u8, nodes.len() as u8, texts.len() as u8];
    for text in texts {
        file.push(text.len() as u8);
    }
    for (kind, count, _) in nodes {
        file.extend([*kind, *count]);
    }
    for text in texts {
        file.extend(text);
    }
    for (_, _, body) in nodes {
        file.extend(body);
    }
    file
}

/// The texts and nodes of a file that the checks 1 to 5 and 39 accept.
pub fn decode(file: &[u8]) -> (Vec<Vec<u8>>, Vec<Node>) {
    let mut rest = file;
    let mut take = |length: usize| {
        let (part, behind) = rest.split_at(length);
        rest = behind;
        part
    };
    let node_count = u16::from_be_bytes(take(2).try_into().unwrap());
    let text_count = usize::from(take(1)[0]);
    let lengths = take(text_count);
    let entries = take(2 * usize::from(node_count));
    let texts = lengths.iter().map(|length| take(usize::from(*length)).to_vec()).collect();
    let size = |kind: u8| match kind {
        PROGRAM | BLOCK | ELIF | RETURN | EXPR_STMT | TABLE | TRUE | FALSE => 0,
        FOR => 2,
        NUM => 8,
        _ => 1,
    };
    let node = |entry: &[u8]| (entry[0], entry[1], take(size(entry[0])).to_vec());
    (texts, entries.chunks(2).map(node).collect())
}

fn texts(random: &mut Random) -> Vec<Vec<u8>> {
    let count = match random.below(10) {
        0 => 0,
        1..=7 => random.between(1, 12),
        8 => random.between(12, 63),
        _ => 63,
    };
    let mut texts: Vec<Vec<u8>> = Vec::new();
    while texts.len() < count {
        let text = match random.below(4) {
            0 | 1 => random.pick(&TEXTS).as_bytes().to_vec(),
            2 => {
                let length = random.between(1, 3);
                (0..length).map(|_| b'a' + random.below(26) as u8).collect()
            }
            _ => {
                let length = random.between(0, 40);
                (0..length).map(|_| random.between(32, 126) as u8).collect()
            }
        };
        if text != b"fortmp" && !texts.contains(&text) {
            texts.push(text);
        }
    }
    texts.sort();
    texts.insert(0, b"fortmp".to_vec());
    texts
}

/// A pattern, or where that is not finite one with a smaller exponent.
fn finite(pattern: u64) -> u64 {
    if f64::from_bits(pattern).is_finite() {
        pattern
    } else {
        pattern ^ 1 << 52
    }
}

impl Generator {
    fn text(&mut self) -> u8 {
        // Mostly few names, so that a script uses what it sets.
        let among = if self.random.chance(70) { self.text_count.min(5) } else { self.text_count };
        self.random.below(among) as u8
    }

    /// Opens a node; its children are counted by `close`.
    fn open(&mut self, kind: u8, body: Vec<u8>) -> usize {
        self.nodes.push((kind, 0, body));
        self.nodes.len() - 1
    }

    fn close(&mut self, node: usize, children: usize) {
        self.nodes[node].1 = u8::try_from(children).unwrap();
    }

    fn is_large(&self) -> bool {
        self.nodes.len() >= self.size
    }

    fn program(&mut self) {
        let node = self.open(PROGRAM, vec![]);
        let above = Above { depth: 1, loops: 0, function: false };
        let mut children = 0;
        while !self.is_large() && children < 255 {
            self.statement(above);
            children += 1;
        }
        self.close(node, children);
    }

    fn statements(&mut self, above: Above) -> usize {
        let most = self.random.between(0, 3);
        let mut children = 0;
        while children < most && !self.is_large() && above.depth < 26 {
            self.statement(above);
            children += 1;
        }
        children
    }

    fn block(&mut self, above: Above) {
        let node = self.open(BLOCK, vec![]);
        let children = self.statements(above.deeper());
        self.close(node, children);
    }

    fn statement(&mut self, above: Above) {
        let inside = above.deeper();
        let nests = above.depth < 20;
        if self.random.chance(1) {
            return self.deep_statement(inside);
        }
        match self.random.below(16) {
            0 if nests => self.block(above),
            1 | 2 if nests => self.if_statement(inside),
            3 | 4 if nests && above.loops < 8 => {
                let body = vec![self.text(), self.text()];
                let node = self.open(FOR, body);
                if self.random.chance(75) {
                    let name = self.text();
                    self.open(NAME, vec![name]);
                } else {
                    self.call(inside);
                }
                self.block(Above { loops: above.loops + 1, ..inside });
                self.close(node, 2);
            }
            5 => {
                let node = self.open(RETURN, vec![]);
                let children = self.random.below(2);
                (0..children).for_each(|_| self.expression(inside));
                self.close(node, children);
            }
            6 if nests && !above.function => {
                let name = self.text();
                let node = self.open(FN_DECL, vec![name]);
                let parameters = self.random.below(4);
                for _ in 0..parameters {
                    let name = self.text();
                    self.open(NAME, vec![name]);
                }
                self.block(Above { function: true, ..inside });
                self.close(node, parameters + 1);
            }
            7..=10 => {
                let name = self.text();
                let node = self.open(VAR_DECL, vec![name]);
                let children = usize::from(self.random.chance(85));
                (0..children).for_each(|_| self.right(inside, name));
                self.close(node, children);
            }
            _ => {
                let node = self.open(EXPR_STMT, vec![]);
                if self.random.chance(60) {
                    self.setting(inside);
                } else {
                    self.expression(inside);
                }
                self.close(node, 1);
            }
        }
    }

    fn unary(&mut self, operand: impl FnOnce(&mut Generator)) {
        let operator = self.random.between(1, 2) as u8;
        let node = self.open(UNARY, vec![operator]);
        operand(self);
        self.close(node, 1);
    }

    /// An expression as deep as may be, or nearly so.
    fn deep_statement(&mut self, inside: Above) {
        let node = self.open(EXPR_STMT, vec![]);
        let depth = self.random.between(30, 32);
        self.chain(depth - inside.depth);
        self.close(node, 1);
    }

    /// So many nodes in one another.
    fn chain(&mut self, nodes: usize) {
        match (nodes, self.random.below(3)) {
            (0 | 1, _) => self.leaf(),
            (_, 0) => {
                let operator = self.random.between(1, 13) as u8;
                let node = self.open(BINARY, vec![operator]);
                let left = self.random.chance(50);
                self.chain(if left { nodes - 1 } else { 1 });
                self.chain(if left { 1 } else { nodes - 1 });
                self.close(node, 2);
            }
            _ => self.unary(|generator| generator.chain(nodes - 1)),
        }
    }

    fn if_statement(&mut self, inside: Above) {
        let elifs = self.random.pick(&[0, 0, 0, 1, 2, 3]);
        let node = self.open(IF, vec![elifs as u8]);
        self.expression(inside);
        self.block(inside);
        for _ in 0..elifs {
            let elif = self.open(ELIF, vec![]);
            self.expression(inside.deeper());
            self.block(inside.deeper());
            self.close(elif, 2);
        }
        let others = self.statements(inside);
        self.close(node, 2 + elifs + others);
    }

    fn right(&mut self, above: Above, left: u8) {
        let inside = above.deeper();
        match self.random.below(10) {
            0 => {
                let node = self.open(TABLE, vec![]);
                let mut keys: Vec<u8> = (0..self.text_count as u8).collect();
                let most = self.random.pick(&[0, 1, 2, 3, 16]).min(keys.len());
                for _ in 0..most {
                    let key = keys.swap_remove(self.random.below(keys.len()));
                    let item = self.open(ITEM, vec![key]);
                    self.expression(inside.deeper());
                    self.close(item, 1);
                }
                self.close(node, most);
            }
            1 | 2 => {
                let name = if self.random.chance(80) { left } else { self.text() };
                let node = self.open(ARRAY, vec![name]);
                let items = self.random.pick(&[0, 1, 2, 3, 4, 9, 24]);
                (0..items).for_each(|_| self.array_item());
                self.close(node, items);
            }
            3 => {
                let name = self.text();
                let node = self.open(ARRAY_ACCESS, vec![name]);
                self.expression(inside);
                self.close(node, 1);
            }
            _ => self.expression(above),
        }
    }

    fn number(&mut self) {
        let pattern = match self.random.below(8) {
            0 | 1 => self.random.pick(&PATTERNS),
            2 => finite(self.random.next()),
            3 => (self.random.below(2000) as f64 / 8.0 - 100.0).to_bits(),
            _ => (self.random.below(30) as f64).to_bits(),
        };
        self.open(NUM, pattern.to_be_bytes().to_vec());
    }

    fn array_item(&mut self) {
        match self.random.below(6) {
            0 => {
                let text = self.text();
                self.open(TEXT, vec![text]);
            }
            1 => {
                let kind = self.random.pick(&[TRUE, FALSE]);
                self.open(kind, vec![]);
            }
            _ => self.number(),
        }
    }

    fn leaf(&mut self) {
        if self.random.chance(40) {
            let name = self.text();
            self.open(NAME, vec![name]);
        } else {
            self.array_item();
        }
    }

    fn call(&mut self, above: Above) {
        let name = self.text();
        let node = self.open(CALL, vec![name]);
        let parameters = self.random.pick(&[0, 1, 1, 2, 3]);
        (0..parameters).for_each(|_| self.expression(above.deeper()));
        self.close(node, parameters);
    }

    /// A name or an item that is set.
    fn setting(&mut self, above: Above) {
        let name = self.text();
        if self.random.chance(30) {
            let node = self.open(ARRAY_MUT, vec![name]);
            self.expression(above.deeper());
            self.expression(above.deeper());
            self.close(node, 2);
        } else {
            let node = self.open(ASSIGN, vec![name]);
            self.right(above.deeper(), name);
            self.close(node, 1);
        }
    }

    /// An expression; `above.depth` is its parent's depth.
    fn expression(&mut self, above: Above) {
        let inside = above.deeper();
        let room = above.depth < 28 && !self.is_large();
        if room && self.random.chance(15) {
            return self.unary(|generator| generator.expression(inside));
        }
        match self.random.below(10) {
            0..=3 if room => {
                let operator = self.random.between(1, 13) as u8;
                let node = self.open(BINARY, vec![operator]);
                self.expression(inside);
                self.expression(inside);
                self.close(node, 2);
            }
            4 if room => self.call(above),
            5 if room => self.setting(above),
            _ => self.leaf(),
        }
    }
}
