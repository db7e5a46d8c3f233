//! Large scripts: up to 1,024 nodes, 64 texts, 8 loops nested, 16 keys; long and unused texts.

use crate::gen_numbers::{finite, special, NUMBERS};
use crate::rng::Rng;
use crate::tree::*;

/// What a script may still take. Registers and instructions are counted from above, so that most
/// scripts are accepted.
struct Large<'r> {
    rng: &'r mut Rng,
    plain: bool,
    texts: usize,
    nodes: usize,
    registers: usize,
    instructions: usize,
    loops: usize,
    in_function: bool,
    functions: Vec<(u8, usize)>,
    /// Names that were given an array, with its length, and names that were given a number.
    arrays: Vec<(u8, usize)>,
    numbers: Vec<u8>,
}

/// A large script's file, with random texts.
pub fn file(rng: &mut Rng) -> Vec<u8> {
    let plain = rng.chance(50);
    let root = script(rng, plain);
    with_texts(&root, rng)
}

/// A large script's tree.
pub fn script(rng: &mut Rng, plain: bool) -> Node {
    let texts = rng.pick(&[8, 20, 40, 64, 64]);
    let nodes = rng.pick(&[150, 300, 600, 900, 1023, 1023]);
    let registers = if rng.chance(10) { 120 } else { rng.pick(&[30, 60, 80]) };
    let instructions = if rng.chance(10) { 1200 } else { 900 };
    let mut large = Large {
        rng,
        plain,
        texts,
        nodes,
        registers,
        instructions,
        loops: 0,
        in_function: false,
        functions: Vec::new(),
        arrays: Vec::new(),
        numbers: Vec::new(),
    };
    let mut kids = vec![large.new_array(), large.new_array()];
    kids.extend(large.special_items());
    while large.nodes > 30 && large.instructions > 20 && kids.len() < 255 {
        kids.push(large.statement(2));
    }
    program(kids)
}

/// The file of a tree with texts of up to 40 bytes, more of them than are used.
pub fn with_texts(root: &Node, rng: &mut Rng) -> Vec<u8> {
    let least = highest_text(root) as usize + 1;
    let count = rng.between(least, 64);
    let mut texts = std::collections::BTreeSet::new();
    let longest = rng.pick(&[2, 8, 40, 40]);
    while texts.len() < count - 1 {
        let length = if rng.chance(20) { longest } else { rng.below(longest + 1) };
        let text: Vec<u8> = (0..length).map(|_| rng.between(32, 126) as u8).collect();
        if text != b"fortmp" {
            texts.insert(text);
        }
    }
    let all = std::iter::once(b"fortmp".to_vec()).chain(texts).collect();
    Parts::new(root, all).bytes()
}

impl Large<'_> {
    fn take(&mut self, nodes: usize, registers: usize, instructions: usize) {
        self.nodes = self.nodes.saturating_sub(nodes);
        self.registers = self.registers.saturating_sub(registers);
        self.instructions = self.instructions.saturating_sub(instructions);
    }

    /// A name to store under; the last quarter is mostly left to arrays.
    fn name(&mut self) -> u8 {
        let from = if self.rng.chance(99) { self.texts - self.texts / 4 } else { self.texts };
        self.rng.below(from) as u8
    }

    /// A name that was given a number, or now and then any name.
    fn known(&mut self) -> u8 {
        if self.numbers.is_empty() || self.rng.chance(2) {
            return self.name();
        }
        self.rng.pick(&self.numbers)
    }

    /// A number's literal.
    fn number(&mut self) -> Node {
        match self.rng.below(4) {
            0 => bits(finite(|| self.rng.pick(&NUMBERS))),
            1 => bits(finite(|| self.rng.next())),
            _ => num(self.rng.below(9) as f64),
        }
    }

    /// A literal; now and then an infinity or a NaN, whose operands stand one deeper.
    fn value(&mut self, depth: usize) -> Node {
        if depth < 31 && self.registers > 3 && self.rng.chance(12) {
            self.take(2, 3, 3);
            special(self.rng)
        } else {
            self.number()
        }
    }

    fn literal(&mut self) -> Node {
        match self.rng.below(8) {
            0 => text(self.name()),
            1 => yes(),
            2 => no(),
            _ => self.number(),
        }
    }

    fn bind(&mut self, target: u8, right: Node) -> Node {
        if self.rng.chance(60) {
            return set(target, right);
        }
        self.take(1, 0, 0);
        stmt(assign(target, right))
    }

    fn new_array(&mut self) -> Node {
        let name = (self.texts - 1 - self.rng.below(self.texts / 4)) as u8;
        let most = if self.loops > 0 || self.rng.chance(70) { 3 } else { 24 };
        let least = usize::from(self.rng.chance(95));
        let length = self.rng.between(least, most);
        let items = (0..length).map(|_| self.literal()).collect();
        self.take(2 + length, 0, 1);
        self.arrays.push((name, length));
        self.bind(name, array(name, items))
    }

    /// At times an item of each array becomes an infinity or a NaN, which no literal is.
    fn special_items(&mut self) -> Vec<Node> {
        let mut out = Vec::new();
        for (array, length) in self.arrays.clone() {
            if length > 0 && self.rng.chance(20) {
                self.take(6, 4, 5);
                let index = num(self.rng.below(length) as f64);
                out.push(stmt(mutate(array, index, special(self.rng))));
            }
        }
        out
    }

    fn statement(&mut self, depth: usize) -> Node {
        let deep = depth > 26 || self.nodes < 25;
        let takes = self.registers > 8;
        let loops = if deep || !takes || self.loops >= 8 { 0 } else { 6 + 20 * self.loops };
        let weights = [
            30,
            12,
            if takes { 6 } else { 0 },
            if takes { 5 } else { 0 },
            if deep { 1 } else { 16 },
            loops,
            if deep || !takes { 0 } else { 7 },
            // an item's value stands four deeper, under an Assign
            if takes && depth < 29 { 3 } else { 0 },
            if self.plain { 0 } else { 8 },
        ];
        match self.rng.weighted(&weights) {
            0 => self.simple(depth),
            1 => self.new_array(),
            2 => self.expression_statement(depth),
            3 => self.item(depth),
            4 => self.inner_block(depth),
            5 => self.passes(depth),
            6 => self.branches(depth),
            7 => self.new_table(depth),
            _ => self.other(depth),
        }
    }

    /// A constant or a name stored, which takes no register; or a number that is not finite.
    fn simple(&mut self, depth: usize) -> Node {
        self.take(2, 0, 1);
        let target = self.name();
        match self.rng.below(10) {
            0 => decl(target, None),
            1 => {
                let from = self.known();
                self.bind(target, name(from))
            }
            2 => {
                let right = self.literal();
                self.bind(target, right)
            }
            _ => {
                let right = self.value(depth + 2);
                self.numbers.push(target);
                self.bind(target, right)
            }
        }
    }

    fn expression(&mut self, depth: usize) -> Node {
        let leaf = depth >= 29 || self.registers < 6 || self.nodes < 10;
        self.take(1, 1, 1);
        match self.rng.below(if leaf { 4 } else { 10 }) {
            0 => name(self.known()),
            1..=3 => self.value(depth),
            4 => {
                let op = if self.rng.chance(95) { 2 } else { 1 };
                unary(op, self.expression(depth + 1))
            }
            5 if self.rng.chance(4) => {
                let op = self.rng.between(6, 13) as u8;
                binary(op, self.expression(depth + 1), self.expression(depth + 1))
            }
            _ => {
                let op = self.rng.between(1, 5) as u8;
                binary(op, self.expression(depth + 1), self.expression(depth + 1))
            }
        }
    }

    fn condition(&mut self, depth: usize) -> Node {
        self.take(3, 3, 3);
        let op = self.rng.between(6, 10) as u8;
        let compared = binary(op, self.value(depth + 2), self.value(depth + 2));
        if depth < 30 && self.rng.chance(10) {
            return unary(1, compared);
        }
        compared
    }

    fn expression_statement(&mut self, depth: usize) -> Node {
        self.take(1, 0, 1);
        let target = self.name();
        let expression = self.expression(depth + 2);
        if self.rng.chance(40) {
            stmt(expression)
        } else {
            self.bind(target, expression)
        }
    }

    /// An item of an array read or set.
    fn item(&mut self, depth: usize) -> Node {
        self.take(4, 2, 3);
        let arrays = self.arrays.clone();
        let (from, length) = self.rng.pick(&arrays);
        let fraction = if self.rng.chance(2) { 0.5 } else { 0.0 };
        let index = num(self.rng.below(length.max(1)) as f64 + fraction);
        if self.rng.chance(50) {
            let target = self.name();
            return self.bind(target, access(from, index));
        }
        let value =
            if self.rng.chance(80) { self.value(depth + 2) } else { self.expression(depth + 2) };
        stmt(mutate(from, index, value))
    }

    fn inner_block(&mut self, depth: usize) -> Node {
        let count = self.rng.pick(&[0, 0, 1, 2, 3, 8]);
        self.block_of(count, depth)
    }

    fn block_of(&mut self, count: usize, depth: usize) -> Node {
        self.take(1, 0, usize::from(count == 0));
        let mut kids = Vec::new();
        while kids.len() < count && self.nodes > 20 && self.instructions > 15 && depth < 29 {
            kids.push(self.statement(depth + 1));
        }
        block(kids)
    }

    fn passes(&mut self, depth: usize) -> Node {
        self.take(2, 4, 10);
        let arrays = self.arrays.clone();
        let (over, _) = self.rng.pick(&arrays);
        let (index, item) = (self.name(), self.name());
        self.loops += 1;
        let count = self.rng.between(1, 3);
        let body = self.block_of(count, depth + 1);
        self.loops -= 1;
        if !self.plain && !self.functions.is_empty() && self.rng.chance(15) {
            let (function, _) = self.rng.pick(&self.functions.clone());
            return for_(index, item, call(function, vec![]), body);
        }
        for_(index, item, name(over), body)
    }

    fn branches(&mut self, depth: usize) -> Node {
        self.take(1, 0, 3);
        let cond = self.condition(depth + 1);
        let then = self.inner_block(depth + 1);
        let mut elifs = Vec::new();
        while self.rng.chance(35) && elifs.len() < 6 && self.registers > 8 && self.nodes > 30 {
            self.take(1, 0, 2);
            elifs.push((self.condition(depth + 2), self.inner_block(depth + 2)));
        }
        let mut others = Vec::new();
        while self.rng.chance(40) && others.len() < 4 && self.nodes > 30 {
            others.push(self.statement(depth + 1));
        }
        if_(cond, then, elifs, others)
    }

    fn new_table(&mut self, depth: usize) -> Node {
        let count = self.rng.pick(&[0, 1, 2, 5, 16]).min(self.registers / 2).min(self.texts);
        self.take(2, 0, 1);
        let from = self.rng.below(self.texts);
        let key = |n: usize, texts: usize| ((from + 5 * n) % texts) as u8;
        let mut items = Vec::new();
        for n in 0..count {
            self.take(2, 1, 2);
            let value = if self.rng.chance(80) {
                self.value(depth + 4)
            } else {
                self.expression(depth + 3)
            };
            items.push((key(n, self.texts), value));
        }
        items.sort_by_key(|item| item.0);
        items.dedup_by_key(|item| item.0);
        if self.rng.chance(50) {
            items.reverse();
        }
        let target = self.name();
        self.bind(target, table(items))
    }

    /// Functions, calls, returns.
    fn other(&mut self, depth: usize) -> Node {
        match self.rng.below(6) {
            0 | 1 if !self.in_function && self.nodes > 40 && self.registers > 6 && depth < 25 => {
                self.function(depth)
            }
            2 => {
                self.take(2, 1, 2);
                let value = self.value(depth + 1);
                give(self.rng.chance(50).then_some(value))
            }
            _ => self.calling(depth),
        }
    }

    fn function(&mut self, depth: usize) -> Node {
        let function_name = self.name();
        let params: Vec<u8> = (0..self.rng.below(4)).map(|_| self.name()).collect();
        self.take(2 + params.len(), params.len(), 2 + 2 * params.len());
        self.in_function = true;
        let loops = std::mem::replace(&mut self.loops, 6);
        let count = self.rng.between(1, 4);
        let mut body = self.block_of(count, depth + 1);
        body.kids.push(give(None));
        self.loops = loops;
        self.in_function = false;
        self.functions.push((function_name, params.len()));
        function(function_name, &params, body)
    }

    fn calling(&mut self, depth: usize) -> Node {
        let known = self.functions.clone();
        let (function, count) =
            if known.is_empty() { (self.name(), 0) } else { self.rng.pick(&known) };
        self.take(2 + count, 1 + count, 3 + 2 * count);
        let params = (0..count).map(|_| self.parameter(depth + 2)).collect();
        stmt(call(function, params))
    }
    /// A number, or a name that may hold one which is not finite: it takes one register, as a literal.
    fn parameter(&mut self, depth: usize) -> Node {
        if self.rng.chance(40) {
            name(self.known())
        } else {
            self.value(depth)
        }
    }
}
