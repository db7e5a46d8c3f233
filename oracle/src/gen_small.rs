//! All trees of few nodes, over few texts, numbers and every operator.

use crate::tree::kind::*;
use crate::tree::*;

const NAMES: [u8; 2] = [0, 1];
const NUMBERS: [f64; 2] = [0.0, 1.0];

/// Every tree of at most so many nodes, Program included.
pub fn all(most: usize) -> Vec<Node> {
    let mut small = Small::default();
    for nodes in 1..most {
        small.next(nodes);
    }
    (0..most).flat_map(|nodes| small.lists(nodes, &small.statements)).map(program).collect()
}

/// The same with an array of two items in front, so that loads and loops find one.
pub fn behind_array(root: &Node) -> Node {
    let items = set_array(1, vec![num(1.0), yes()]);
    program([vec![items], root.kids.clone()].concat())
}

/// The trees of each number of nodes, from 1: entry 0 has none.
struct Small {
    expressions: Vec<Vec<Node>>,
    rights: Vec<Vec<Node>>,
    blocks: Vec<Vec<Node>>,
    statements: Vec<Vec<Node>>,
}

impl Default for Small {
    fn default() -> Small {
        let none = || vec![Vec::new()];
        Small { expressions: none(), rights: none(), blocks: none(), statements: none() }
    }
}

impl Small {
    /// Adds the trees of so many nodes; those of fewer are there.
    fn next(&mut self, nodes: usize) {
        let expressions = self.make_expressions(nodes);
        let mut rights = expressions.clone();
        rights.extend(self.make_rights(nodes));
        self.expressions.push(expressions);
        self.rights.push(rights);
        let blocks = self.lists(nodes - 1, &self.statements).into_iter().map(block).collect();
        self.blocks.push(blocks);
        let statements = self.make_statements(nodes);
        self.statements.push(statements);
    }

    /// All lists of trees with so many nodes together.
    fn lists(&self, nodes: usize, of: &[Vec<Node>]) -> Vec<Vec<Node>> {
        if nodes == 0 {
            return vec![Vec::new()];
        }
        let mut out = Vec::new();
        for first in 1..=nodes.min(of.len() - 1) {
            for rest in self.lists(nodes - first, of) {
                for head in &of[first] {
                    out.push([vec![head.clone()], rest.clone()].concat());
                }
            }
        }
        out
    }

    /// All pairs of a tree here and a tree there with so many nodes together.
    fn pairs(&self, nodes: usize, left: &[Vec<Node>], right: &[Vec<Node>]) -> Vec<Vec<Node>> {
        let mut out = Vec::new();
        for first in 1..nodes {
            let (Some(lefts), Some(rights)) = (left.get(first), right.get(nodes - first)) else {
                continue;
            };
            for l in lefts {
                out.extend(rights.iter().map(|r| vec![l.clone(), r.clone()]));
            }
        }
        out
    }

    fn make_expressions(&self, nodes: usize) -> Vec<Node> {
        let mut out = if nodes == 1 { leaves() } else { Vec::new() };
        let below = nodes - 1;
        for expression in self.expressions.get(below).into_iter().flatten() {
            out.extend([1, 2].map(|op| unary(op, expression.clone())));
        }
        for right in self.rights.get(below).into_iter().flatten() {
            out.extend(NAMES.map(|name| assign(name, right.clone())));
        }
        for pair in self.pairs(below, &self.expressions, &self.expressions) {
            out.extend((1..=13).map(|op| Node::new(BINARY, &[op], pair.clone())));
            out.extend(NAMES.map(|name| Node::new(MUTATE, &[name], pair.clone())));
        }
        for params in self.lists(below, &self.expressions) {
            out.extend(NAMES.map(|name| call(name, params.clone())));
        }
        out
    }

    fn make_rights(&self, nodes: usize) -> Vec<Node> {
        let below = nodes - 1;
        let mut out = Vec::new();
        let items = [vec![], vec![num(1.0), text(1), yes(), no()]];
        for items in self.lists(below, &items[..if below == 0 { 1 } else { 2 }]) {
            out.extend(NAMES.map(|name| array(name, items.clone())));
        }
        for expression in self.expressions.get(below).into_iter().flatten() {
            out.extend(NAMES.map(|name| access(name, expression.clone())));
        }
        let item = |kids: &Vec<Node>| -> Vec<Node> {
            kids.iter().map(|kid| Node::new(ITEM, &[1], vec![kid.clone()])).collect()
        };
        let mut one_item = vec![Vec::new()];
        one_item.extend(self.expressions.iter().map(item));
        let tables = if below == 0 {
            vec![vec![]]
        } else {
            one_item.get(below).into_iter().flatten().map(|item| vec![item.clone()]).collect()
        };
        out.extend(tables.into_iter().map(|items| Node::new(TABLE, &[], items)));
        out
    }

    fn make_statements(&self, nodes: usize) -> Vec<Node> {
        let below = nodes - 1;
        let mut out = self.blocks[nodes].clone();
        if nodes == 1 {
            out.push(give(None));
            out.extend(NAMES.map(|name| decl(name, None)));
        }
        for expression in self.expressions.get(below).into_iter().flatten() {
            out.extend([stmt(expression.clone()), give(Some(expression.clone()))]);
        }
        for right in self.rights.get(below).into_iter().flatten() {
            out.extend(NAMES.map(|name| set(name, right.clone())));
        }
        out.extend(self.functions(below));
        out.extend(self.loops(below));
        out.extend(self.branches(below));
        out
    }

    fn functions(&self, below: usize) -> Vec<Node> {
        let params = [vec![], vec![name(0), name(1)]];
        let mut out = Vec::new();
        for count in 0..below {
            for names in self.lists(count, &params[..if count == 0 { 1 } else { 2 }]) {
                for body in self.blocks.get(below - count).into_iter().flatten() {
                    let kids = [names.clone(), vec![body.clone()]].concat();
                    out.extend(NAMES.map(|name| Node::new(FN_DECL, &[name], kids.clone())));
                }
            }
        }
        out
    }

    fn loops(&self, below: usize) -> Vec<Node> {
        let is_over = |node: &&Node| matches!(node.kind, NAME | CALL);
        let over: Vec<Vec<Node>> =
            self.expressions.iter().map(|e| e.iter().filter(is_over).cloned().collect()).collect();
        let mut out = Vec::new();
        for pair in self.pairs(below, &over, &self.blocks) {
            let names = [[0, 1], [1, 0], [1, 1]];
            out.extend(names.map(|names| Node::new(FOR, &names, pair.clone())));
        }
        out
    }

    fn branches(&self, below: usize) -> Vec<Node> {
        let mut out = Vec::new();
        for first in 2..=below {
            let arms = self.pairs(first, &self.expressions, &self.blocks);
            for arm in &arms {
                for other in self.lists(below - first, &self.statements) {
                    out.push(Node::new(IF, &[0], [arm.clone(), other].concat()));
                }
            }
            for second in 3..=below - first {
                for elif in self.pairs(second - 1, &self.expressions, &self.blocks) {
                    for (arm, other) in arms.iter().flat_map(|arm| {
                        self.lists(below - first - second, &self.statements)
                            .into_iter()
                            .map(move |other| (arm, other))
                    }) {
                        let elif = vec![Node::new(ELIF, &[], elif.clone())];
                        out.push(Node::new(IF, &[1], [arm.clone(), elif, other].concat()));
                    }
                }
            }
        }
        out
    }
}

fn leaves() -> Vec<Node> {
    let mut out = vec![text(1), yes(), no()];
    out.extend(NUMBERS.map(num));
    out.extend(NAMES.map(name));
    out
}
