//! Generated scripts: plain ones, and others with functions, calls and returns.

use crate::gen_numbers::{finite, given, index_numbers, special, NUMBERS};
use crate::rng::Rng;
use crate::tree::*;

/// What a name probably holds where it is used; it only steers the choice of names.
#[derive(Clone, Copy, PartialEq)]
enum Guess {
    Unset,
    Num,
    Truth,
    Text,
    Array,
    Table,
}

pub struct Script<'r> {
    rng: &'r mut Rng,
    plain: bool,
    /// Nodes that may still be made.
    left: usize,
    guesses: Vec<Guess>,
    /// Probable lengths of arrays.
    lengths: Vec<usize>,
    functions: Vec<(u8, usize)>,
    loops: usize,
    in_function: bool,
    items: usize,
}

/// A plain script's tree.
pub fn plain(rng: &mut Rng) -> Node {
    script(rng, true)
}

/// A script that is mostly not plain.
pub fn other(rng: &mut Rng) -> Node {
    script(rng, false)
}

fn script(rng: &mut Rng, plain: bool) -> Node {
    let texts = rng.between(4, 12);
    let left = rng.pick(&[8, 20, 40, 60, 90, 130]);
    let items = rng.pick(&[1, 2, 2, 3, 3, 4, 6]);
    let mut script = Script {
        rng,
        plain,
        left,
        guesses: vec![Guess::Unset; texts],
        lengths: vec![0; texts],
        functions: Vec::new(),
        loops: 0,
        in_function: false,
        items,
    };
    let mut kids = script.first_statements();
    while script.left > 2 && kids.len() < 60 {
        kids.push(script.statement(2));
    }
    program(kids)
}

impl Script<'_> {
    /// Something to work on: arrays, numbers, functions.
    fn first_statements(&mut self) -> Vec<Node> {
        let mut kids = Vec::new();
        if !self.plain && self.rng.chance(75) {
            for _ in 0..self.rng.between(1, 3) {
                kids.push(self.function(2));
            }
        }
        for _ in 0..self.rng.below(4) {
            kids.push(self.new_array());
            kids.extend(self.special_item());
        }
        for _ in 0..self.rng.below(4) {
            let name = self.name_for(Guess::Num);
            kids.push(self.set_number(name));
        }
        kids
    }

    fn take(&mut self, nodes: usize) {
        self.left = self.left.saturating_sub(nodes);
    }

    fn any_name(&mut self) -> u8 {
        if self.rng.chance(1) {
            return 0;
        }
        self.rng.between(1, self.guesses.len() - 1) as u8
    }

    /// A name to store such a value under: mostly one that holds no other sort.
    fn name_for(&mut self, guess: Guess) -> u8 {
        let name = self.any_name();
        let held = self.guesses[name as usize];
        if held == guess || held == Guess::Unset || self.rng.chance(10) {
            return name;
        }
        self.name_with(guess).unwrap_or_else(|| self.any_name())
    }

    /// A name that probably holds such a value; now and then any name.
    fn name_with(&mut self, guess: Guess) -> Option<u8> {
        if self.rng.below(150) == 0 {
            return Some(self.any_name());
        }
        let fitting: Vec<u8> =
            (0..self.guesses.len() as u8).filter(|n| self.guesses[*n as usize] == guess).collect();
        if fitting.is_empty() {
            None
        } else {
            Some(self.rng.pick(&fitting))
        }
    }

    fn learn(&mut self, name: u8, guess: Guess) {
        self.guesses[name as usize] = guess;
    }

    /// A number's literal.
    fn literal(&mut self) -> Node {
        self.take(1);
        match self.rng.below(10) {
            0..=5 => num(self.rng.below(5) as f64),
            6 => num(self.rng.below(200) as f64 / 8.0 - 10.0),
            7 => bits(finite(|| self.rng.next())),
            _ => bits(finite(|| self.rng.pick(&NUMBERS))),
        }
    }

    /// An expression that gives an infinity or a NaN.
    fn special(&mut self) -> Node {
        self.take(3);
        special(self.rng)
    }

    /// A literal; now and then an infinity or a NaN.
    fn number(&mut self) -> Node {
        if self.rng.chance(5) {
            self.special()
        } else {
            self.literal()
        }
    }

    fn any_text(&mut self) -> Node {
        self.take(1);
        text(self.any_name())
    }

    fn truth_literal(&mut self) -> Node {
        self.take(1);
        if self.rng.chance(50) {
            yes()
        } else {
            no()
        }
    }

    fn array_item(&mut self) -> Node {
        match self.rng.below(12) {
            0 => self.any_text(),
            1 => self.truth_literal(),
            _ => self.literal(),
        }
    }

    fn new_array(&mut self) -> Node {
        let name = self.name_for(Guess::Array);
        let most = if self.rng.chance(5) { 24 } else { self.items };
        let length = if self.rng.chance(2) { 0 } else { self.rng.between(1, most) };
        let items = (0..length).map(|_| self.array_item()).collect();
        self.take(2);
        self.learn(name, Guess::Array);
        self.lengths[name as usize] = length;
        let stated = if self.rng.chance(10) { self.any_name() } else { name };
        self.bind(stated, array(name, items))
    }

    /// Now and then an item of an array becomes an infinity or a NaN, which no literal is.
    fn special_item(&mut self) -> Option<Node> {
        let array = self.name_with(Guess::Array)?;
        let length = self.lengths[array as usize];
        if length == 0 || !self.rng.chance(12) {
            return None;
        }
        self.take(3);
        let index = num(self.rng.below(length) as f64);
        Some(stmt(mutate(array, index, self.special())))
    }

    fn set_number(&mut self, name: u8) -> Node {
        let value = self.number();
        self.learn(name, Guess::Num);
        self.bind(name, value)
    }

    /// A declaration or an assignment.
    fn bind(&mut self, name: u8, right: Node) -> Node {
        self.take(1);
        if self.rng.chance(50) {
            set(name, right)
        } else {
            stmt(assign(name, right))
        }
    }

    fn statement(&mut self, depth: usize) -> Node {
        let deep = depth > 20 || self.left < 5;
        let loops = if deep || self.loops >= 8 { 0 } else { 16 + 30 * usize::from(self.loops > 0) };
        let ifs = if deep { 0 } else { 14 };
        let blocks = if deep { 1 } else { 4 };
        let (functions, returns, calls) = match (self.plain, self.in_function) {
            (true, _) => (0, 0, 0),
            (false, true) => (0, 12, 10),
            (false, false) => (if deep { 0 } else { 4 }, 1, 22),
        };
        let odd = if self.plain { 0 } else { 4 };
        let weights = [30, 12, ifs, loops, 3, blocks, 5, 4, functions, returns, calls, odd, 5, 6];
        match self.rng.weighted(&weights) {
            0 => self.assignment(depth),
            1 => self.mutation(depth),
            2 => self.branches(depth),
            3 => self.passes(depth),
            4 => self.bare_expression(depth),
            5 => self.inner_block(depth),
            6 => self.new_table(depth),
            7 => self.copy(),
            8 => self.function(depth),
            9 => self.giving_back(depth),
            10 => self.calling(depth),
            11 => self.odd_statement(depth),
            12 => self.reading(depth),
            _ => self.new_array(),
        }
    }

    fn assignment(&mut self, depth: usize) -> Node {
        let (right, guess) = match self.rng.below(10) {
            0 => (None, Guess::Unset),
            1 => (Some(self.truth_literal()), Guess::Truth),
            2 => (Some(self.any_text()), Guess::Text),
            3 | 4 => (Some(self.truth(depth + 2, true)), Guess::Truth),
            5 => (Some(self.number()), Guess::Num),
            _ => (Some(self.sum(depth + 2)), Guess::Num),
        };
        let name = self.name_for(guess);
        self.learn(name, guess);
        match right {
            None => decl(name, None),
            Some(right) => self.bind(name, right),
        }
    }

    fn copy(&mut self) -> Node {
        let from = self.any_name();
        let to = self.name_for(self.guesses[from as usize]);
        self.learn(to, self.guesses[from as usize]);
        self.lengths[to as usize] = self.lengths[from as usize];
        self.take(1);
        self.bind(to, name(from))
    }

    fn mutation(&mut self, depth: usize) -> Node {
        self.take(2);
        let Some(into) = self.name_with(Guess::Array) else {
            return self.new_array();
        };
        let index = self.index(into, depth + 2);
        let value = match self.rng.below(20) {
            0 => self.any_text(),
            1 if self.rng.chance(40) => name(self.any_name()),
            2 => self.truth(depth + 2, false),
            3 => self.special(),
            _ => self.sum(depth + 2),
        };
        stmt(mutate(into, index, value))
    }

    /// Mostly an index inside the array; now and then a number that is no index.
    fn index(&mut self, array: u8, depth: usize) -> Node {
        self.take(1);
        let length = self.lengths[array as usize].max(1);
        match self.rng.below(40) {
            0 => self.number(),
            1 => self.sum(depth),
            2 if self.rng.chance(50) => self.any_text(),
            3..=6 => match self.name_with(Guess::Num) {
                Some(number) => name(number),
                None => num(0.0),
            },
            7 => given(self.rng.pick(&index_numbers()), self.rng),
            8 if self.rng.chance(50) => num(self.rng.below(length) as f64 + 0.75),
            9 => unary(2, num(0.0)),
            14 => num(length as f64),
            _ => num(self.rng.below(length) as f64),
        }
    }

    fn reading(&mut self, depth: usize) -> Node {
        self.take(2);
        let Some(from) = self.name_with(Guess::Array) else {
            return self.new_array();
        };
        let index = self.index(from, depth + 2);
        let name = self.name_for(Guess::Num);
        self.learn(name, Guess::Num);
        self.bind(name, access(from, index))
    }

    fn branches(&mut self, depth: usize) -> Node {
        self.take(2);
        let cond = self.condition(depth + 1);
        let then = self.small_block(depth + 1);
        let mut elifs = Vec::new();
        while self.rng.chance(35) && elifs.len() < 4 {
            self.take(1);
            elifs.push((self.condition(depth + 2), self.small_block(depth + 2)));
        }
        let others = if self.rng.chance(45) { self.rng.between(1, 2) } else { 0 };
        let others = (0..others).map(|_| self.statement(depth + 1)).collect();
        if_(cond, then, elifs, others)
    }

    fn condition(&mut self, depth: usize) -> Node {
        match self.rng.below(120) {
            0 => self.sum(depth),
            1..=3 if !self.plain => self.truth_literal(),
            _ => self.truth(depth, false),
        }
    }

    fn small_block(&mut self, depth: usize) -> Node {
        self.take(1);
        let most = if self.left < 4 { 1 } else { 3 };
        let count = if self.rng.chance(6) { 0 } else { self.rng.between(1, most) };
        block((0..count).map(|_| self.statement(depth + 1)).collect())
    }

    fn inner_block(&mut self, depth: usize) -> Node {
        self.small_block(depth)
    }

    fn passes(&mut self, depth: usize) -> Node {
        self.take(3);
        let calls = !self.plain && !self.functions.is_empty() && self.rng.chance(35);
        let over = if calls {
            self.call(depth + 1)
        } else {
            match self.name_with(Guess::Array) {
                Some(array) => name(array),
                None => return self.new_array(),
            }
        };
        let (index, item) = (self.loop_name(&over), self.loop_name(&over));
        self.learn(index, Guess::Num);
        self.learn(item, Guess::Num);
        self.loops += 1;
        let body = self.small_block(depth + 1);
        self.loops -= 1;
        for_(index, item, over, body)
    }

    /// Mostly a name that holds no array; now and then a clash.
    fn loop_name(&mut self, over: &Node) -> u8 {
        match self.rng.below(60) {
            0 => over.text(),
            1 => self.any_name(),
            _ => self.name_for(Guess::Num),
        }
    }

    fn bare_expression(&mut self, depth: usize) -> Node {
        self.take(1);
        let expr = match self.rng.below(5) {
            0 if self.rng.chance(15) => name(self.any_name()),
            1 => self.any_text(),
            2 => self.truth(depth + 1, false),
            _ => self.sum(depth + 1),
        };
        stmt(expr)
    }

    fn new_table(&mut self, depth: usize) -> Node {
        self.take(1);
        let mut keys: Vec<u8> = (0..self.guesses.len() as u8).collect();
        let count = self.rng.below(4.min(keys.len()));
        let mut items = Vec::new();
        for _ in 0..count {
            let key = keys.swap_remove(self.rng.below(keys.len()));
            items.push((key, self.table_value(depth + 3)));
        }
        let name = self.name_for(Guess::Table);
        self.learn(name, Guess::Table);
        self.bind(name, table(items))
    }

    fn table_value(&mut self, depth: usize) -> Node {
        self.take(1);
        match self.rng.below(12) {
            0 | 1 => self.any_text(),
            2 => self.truth(depth, false),
            3 if self.rng.chance(15) => name(self.any_name()),
            4 if !self.plain => self.truth_literal(),
            5 if !self.plain => self.call(depth),
            _ => self.sum(depth),
        }
    }

    /// An expression that is probably a number.
    fn sum(&mut self, depth: usize) -> Node {
        let leaf = depth > 24 || self.left < 3 || self.rng.chance(45);
        if leaf {
            return self.number_leaf();
        }
        self.take(1);
        if !self.plain && self.rng.chance(15) {
            return self.odd_expression(depth);
        }
        match self.rng.below(200) {
            0 => self.truth(depth + 1, false),
            1 => self.any_text(),
            2..=30 => unary(2, self.sum(depth + 1)),
            _ => {
                let op = self.rng.between(1, 5) as u8;
                let (left, right) = self.operands(depth, false);
                binary(op, left, right)
            }
        }
    }

    fn number_leaf(&mut self) -> Node {
        if self.rng.chance(55) {
            if let Some(found) = self.name_with(Guess::Num) {
                self.take(1);
                return name(found);
            }
        }
        self.number()
    }

    /// Two operands of one sort; now and then of any.
    fn operands(&mut self, depth: usize, truths: bool) -> (Node, Node) {
        (self.operand(depth, truths), self.operand(depth, truths))
    }

    fn operand(&mut self, depth: usize, truths: bool) -> Node {
        match self.rng.below(240) {
            0 => self.truth_literal(),
            1 => self.any_text(),
            2 => name(self.any_name()),
            _ if truths => self.truth(depth + 1, true),
            _ => self.sum(depth + 1),
        }
    }

    /// An expression that is probably yes or no. A literal is plain only below an operator or as
    /// a right side.
    fn truth(&mut self, depth: usize, literal: bool) -> Node {
        self.take(1);
        if literal && self.rng.chance(25) {
            return self.truth_literal();
        }
        if self.rng.chance(25) {
            if let Some(found) = self.name_with(Guess::Truth) {
                return name(found);
            }
        }
        if depth > 24 || self.left < 4 || self.rng.chance(55) {
            let (left, right) = self.operands(depth.max(24), false);
            return binary(self.rng.between(6, 10) as u8, left, right);
        }
        if self.rng.chance(30) {
            return unary(1, self.operand(depth, true));
        }
        let op = self.rng.between(11, 13) as u8;
        let (left, right) = self.operands(depth, true);
        binary(op, left, right)
    }

    fn function(&mut self, depth: usize) -> Node {
        if self.in_function || self.plain {
            return self.assignment(depth);
        }
        self.take(2);
        let name = self.any_name();
        let params: Vec<u8> = (0..self.rng.below(4)).map(|_| self.any_name()).collect();
        params.iter().for_each(|param| self.learn(*param, Guess::Num));
        self.functions.push((name, params.len()));
        self.in_function = true;
        let loops = self.loops;
        self.loops = 8.min(loops + 4);
        let left = self.left;
        self.left = left.min(self.rng.between(3, 16));
        let own = self.left;
        let mut body = self.small_block(depth + 1);
        if self.rng.chance(75) {
            body.kids.push(self.giving_back(depth + 2));
        }
        self.loops = loops;
        self.left = left - (own - self.left).min(left);
        self.in_function = false;
        function(name, &params, body)
    }

    fn giving_back(&mut self, depth: usize) -> Node {
        self.take(1);
        match self.rng.below(8) {
            0 | 1 => give(None),
            2 => give(self.name_with(Guess::Array).map(name)),
            3 => give(Some(self.truth(depth + 1, true))),
            _ => give(Some(self.sum(depth + 1))),
        }
    }

    fn call(&mut self, depth: usize) -> Node {
        self.take(1);
        let known = self.functions.clone();
        let (name, count) = if known.is_empty() || self.rng.chance(4) {
            (self.any_name(), self.rng.below(3))
        } else {
            self.rng.pick(&known)
        };
        let count = if self.rng.chance(10) { self.rng.below(4) } else { count };
        let params = (0..count).map(|_| self.parameter(depth + 1)).collect();
        call(name, params)
    }

    fn parameter(&mut self, depth: usize) -> Node {
        match self.rng.below(12) {
            0 => self.any_text(),
            1 => self.truth_literal(),
            2 => name(self.any_name()),
            _ => self.sum(depth),
        }
    }

    fn calling(&mut self, depth: usize) -> Node {
        let call = self.call(depth + 1);
        if self.rng.chance(40) {
            return stmt(call);
        }
        let name = self.name_for(Guess::Num);
        self.learn(name, Guess::Num);
        self.bind(name, call)
    }

    /// True, False, calls and assignments where a plain script has none.
    fn odd_expression(&mut self, depth: usize) -> Node {
        let target = self.any_name();
        match self.rng.below(5) {
            0 => self.truth_literal(),
            1 => assign(target, self.odd_right_side(depth + 1)),
            2 => {
                let into = self.name_with(Guess::Array).unwrap_or(1);
                mutate(into, self.index(into, depth + 1), self.sum(depth + 1))
            }
            _ => self.call(depth),
        }
    }

    fn odd_right_side(&mut self, depth: usize) -> Node {
        self.take(2);
        match self.rng.below(6) {
            0 => self.truth_literal(),
            1 => name(self.any_name()),
            2 => array(self.any_name(), vec![num(1.0), num(2.0)]),
            3 => {
                let from = self.name_with(Guess::Array).unwrap_or(1);
                access(from, self.index(from, depth + 1))
            }
            4 => table(vec![(1, num(1.0))]),
            _ => self.sum(depth),
        }
    }

    fn odd_statement(&mut self, depth: usize) -> Node {
        self.take(1);
        let expr = self.odd_expression(depth + 1);
        match self.rng.below(3) {
            0 => stmt(expr),
            1 => set(self.any_name(), expr),
            _ => if_(expr, self.small_block(depth + 1), vec![], vec![]),
        }
    }
}
