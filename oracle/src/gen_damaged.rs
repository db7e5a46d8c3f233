//! Damaged files: each number alone, and each order of two faults.

use crate::rng::Rng;
use crate::tree::kind::*;
use crate::tree::*;

/// The faults in the order of the checks. 5 and 39 are one check: the first node at fault decides.
const FAULTS: usize = 11;
const UNKNOWN_FIELD: usize = 7;
const NOT_FINITE: usize = 8;
const STRUCTURE: usize = 9;
const LOWERING: usize = 10;

/// The numbers of the faults; the last stands for 6 and 7.
const NUMBERS: [u8; FAULTS] = [1, 2, 1, 4, 3, 1, 3, 5, 39, 4, 6];

/// Both infinities and NaNs of both signs, with the first, the last and a middle payload.
pub const NOT_FINITE_NUMBERS: [u64; 8] = [
    0x7ff0_0000_0000_0000,
    0xfff0_0000_0000_0000,
    0x7ff8_0000_0000_0000,
    0xfff8_0000_0000_0000,
    0x7ff0_0000_0000_0001,
    0xfff0_0000_0000_0001,
    0x7fff_ffff_ffff_ffff,
    0xffff_ffff_ffff_ffff,
];

/// Finite numbers next to those that are not, and next to the other end of the exponents.
const JUST_FINITE: [u64; 6] = [
    0x7fef_ffff_ffff_ffff,
    0xffef_ffff_ffff_ffff,
    0x0010_0000_0000_0000,
    0x800f_ffff_ffff_ffff,
    0x0000_0000_0000_0001,
    0x8000_0000_0000_0000,
];

/// A file with each of the given faults, and the number it has to get.
pub fn spoilt(faults: &[usize], rng: &mut Rng) -> (Vec<u8>, u8) {
    let (root, seven) = root_for(faults, rng);
    let mut file = Spoilt::new(Parts::new(&root, short_texts(4)));
    for fault in faults.iter().rev() {
        file.spoil(*fault, rng);
    }
    let number = match *faults.iter().min().expect("a fault") {
        UNKNOWN_FIELD if file.not_finite < file.unknown_field => 39,
        LOWERING if seven => 7,
        first => NUMBERS[first],
    };
    (file.bytes(), number)
}

/// Every fault alone and every two, with so many variants each.
pub fn all(variants: usize, seed: u64) -> Vec<(Vec<u8>, u8)> {
    let mut out = Vec::new();
    for first in 0..FAULTS {
        for second in first..FAULTS {
            for variant in 0..variants {
                let item = (first * FAULTS + second) * 1000 + variant;
                let mut rng = Rng::new(seed, item as u64);
                let faults = if first == second { vec![first] } else { vec![first, second] };
                out.push(spoilt(&faults, &mut rng));
            }
        }
    }
    for which in 0..wrong_trees().len() {
        out.push((file_with_texts(&wrong_trees()[which]), 4));
    }
    out
}

fn file_with_texts(root: &Node) -> Vec<u8> {
    Parts::new(root, short_texts(20)).bytes()
}

/// A small file, valid or at times with a number that is not finite, with some of its bytes changed,
/// left out or doubled.
pub fn scratched(rng: &mut Rng) -> Vec<u8> {
    let root = one_of(sound_trees(), |_| true, rng);
    let mut spoilt = Spoilt::new(Parts::new(&root, short_texts(20)));
    if has_number(&root) && rng.chance(20) {
        spoilt.spoil_number(rng);
    }
    let mut file = spoilt.bytes();
    for _ in 0..rng.between(1, 3) {
        let at = rng.below(file.len());
        match rng.below(6) {
            0 => file[at] = rng.next() as u8,
            1 => file[at] = file[at].wrapping_add(1),
            2 => file[at] = file[at].wrapping_sub(1),
            3 => {
                file.remove(at);
            }
            4 => file.insert(at, file[at]),
            _ => file[at] ^= 1 << rng.below(8),
        }
        if file.is_empty() {
            break;
        }
    }
    file
}

struct Spoilt {
    parts: Parts,
    /// The file is cut to this length at most.
    cut: usize,
    /// Bytes too many and too few at the end.
    extra: usize,
    missing: usize,
    /// The nodes that are at fault for 5 and for 39.
    unknown_field: usize,
    not_finite: usize,
}

impl Spoilt {
    fn new(parts: Parts) -> Spoilt {
        let none = usize::MAX;
        Spoilt { parts, cut: none, extra: 0, missing: 0, unknown_field: none, not_finite: none }
    }

    fn bytes(&self) -> Vec<u8> {
        let mut out = self.parts.bytes();
        out.extend(vec![0; self.extra]);
        out.truncate(out.len() - self.missing);
        out.truncate(self.cut);
        out
    }

    fn spoil(&mut self, fault: usize, rng: &mut Rng) {
        let contents = 3 + self.parts.texts.len() + 2 * self.parts.nodes.len();
        match fault {
            0 => self.cut = rng.below(3),
            1 => self.spoil_counts(rng),
            2 => self.cut = rng.between(3, contents - 1),
            3 => {
                let at = rng.below(self.parts.nodes.len());
                self.parts.nodes[at].0 = rng.pick(&[0, 24, 25, 128, 255]);
            }
            4 => {
                let at = rng.below(self.parts.texts.len());
                self.parts.texts[at] = vec![b'g'; rng.pick(&[41, 42, 255])];
            }
            5 if rng.chance(50) => self.extra = rng.pick(&[1, 2, 9]),
            5 => self.missing = 1,
            6 => self.spoil_texts(rng),
            UNKNOWN_FIELD => self.spoil_field(rng),
            NOT_FINITE => self.spoil_number(rng),
            _ => {}
        }
    }

    fn spoil_counts(&mut self, rng: &mut Rng) {
        match rng.below(4) {
            0 => self.parts.node_count = 0,
            1 => self.parts.node_count = rng.pick(&[1025, 1280, 65535]),
            2 => self.parts.text_count = 0,
            _ => self.parts.text_count = rng.pick(&[65, 128, 255]),
        }
    }

    fn spoil_texts(&mut self, rng: &mut Rng) {
        let texts = &mut self.parts.texts;
        match rng.below(6) {
            0 => texts[0] = b"fortmq".to_vec(),
            1 => texts[0] = b"".to_vec(),
            2 => texts[2] = b"fortmp".to_vec(),
            3 => texts.swap(1, 2),
            4 => texts[2] = texts[1].clone(),
            _ => texts[3] = vec![b'~', rng.pick(&[0, 31, 127, 128, 255])],
        }
    }

    /// One of the nodes that fit, the first from a random one on.
    fn find(&self, fits: impl Fn(&Entry) -> bool, rng: &mut Rng) -> usize {
        let count = self.parts.nodes.len();
        let start = rng.below(count);
        let at = (start..count).chain(0..start).find(|at| fits(&self.parts.nodes[*at]));
        at.expect("a node that fits")
    }

    /// A text number out of range, or an unknown operator.
    fn spoil_field(&mut self, rng: &mut Rng) {
        let at = self.find(has_field, rng);
        let node = &mut self.parts.nodes[at];
        let wrong = match node.0 {
            BINARY => rng.pick(&[0, 14, 255]),
            UNARY => rng.pick(&[0, 3, 255]),
            _ => rng.pick(&[4, 5, 64, 255]),
        };
        *node.2.last_mut().expect("a field") = wrong;
        self.unknown_field = at;
    }

    /// An infinity or a NaN.
    fn spoil_number(&mut self, rng: &mut Rng) {
        let at = self.find(is_number, rng);
        self.parts.nodes[at].2 = rng.pick(&NOT_FINITE_NUMBERS).to_be_bytes().to_vec();
        self.not_finite = at;
    }
}

/// Kind, child count and body of a node.
type Entry = (u8, u8, Vec<u8>);

/// Whether a node has a text number or an operator.
fn has_field((kind, _, body): &Entry) -> bool {
    !matches!(*kind, IF | NUM) && !body.is_empty()
}

fn is_number(node: &Entry) -> bool {
    node.0 == NUM
}

fn has_number(root: &Node) -> bool {
    root.kind == NUM || root.kids.iter().any(has_number)
}

/// The tree for some faults: wrong in structure, refused by the lowering (with 7 if said so), both,
/// or sound; with a number where one has to be spoilt.
fn root_for(faults: &[usize], rng: &mut Rng) -> (Node, bool) {
    let six = stmt(unary(1, assign(1, num(1.0))));
    let fits = |root: &Node| !faults.contains(&NOT_FINITE) || has_number(root);
    match (faults.contains(&STRUCTURE), faults.contains(&LOWERING)) {
        (true, lowering) => {
            let mut root = one_of(wrong_with_names(), fits, rng);
            if lowering {
                root.kids.insert(0, six);
            }
            (root, false)
        }
        (false, true) if rng.chance(70) => (program(vec![set(2, num(1.0)), six]), false),
        (false, true) => (program([vec![stmt(num(1.0))], vec![stmt(text(1)); 96]].concat()), true),
        (false, false) => (one_of(sound_trees(), fits, rng), false),
    }
}

fn one_of(mut roots: Vec<Node>, fits: impl Fn(&Node) -> bool, rng: &mut Rng) -> Node {
    roots.retain(fits);
    roots.swap_remove(rng.below(roots.len()))
}

fn sound_trees() -> Vec<Node> {
    vec![
        program(vec![set(1, num(2.0)), stmt(unary(2, name(1)))]),
        program(vec![set_array(1, vec![num(1.0), text(2)]), for_(2, 3, name(1), block(vec![]))]),
        program(vec![set(1, table(vec![(1, num(1.0)), (2, text(3))]))]),
        program(vec![
            set(2, num(1.0)),
            if_(
                binary(6, name(2), num(1.0)),
                block(vec![decl(1, None)]),
                vec![(binary(8, name(2), num(2.0)), block(vec![set(1, num(3.0))]))],
                vec![stmt(assign(3, yes()))],
            ),
        ]),
        program(vec![
            function(1, &[2], block(vec![give(Some(name(2)))])),
            set(3, call(1, vec![text(2)])),
        ]),
        program(vec![set_array(3, vec![num(1.0)]), stmt(mutate(3, num(0.0), unary(1, no())))]),
        program(vec![set(1, access(2, num(1.0))), stmt(binary(13, yes(), no()))]),
        program(vec![
            function(1, &[2], block(vec![give(Some(unary(2, num(1.0))))])),
            stmt(call(1, vec![num(2.0)])),
        ]),
    ]
}

/// A kind's text numbers or operators that are just out of range.
fn wrong_fields(kind: u8) -> [u8; 2] {
    match kind {
        BINARY => [0, 14],
        UNARY => [0, 3],
        _ => [4, 255],
    }
}

/// Each node of the sound trees that fits: the tree in parts, and the node's place.
fn each_node(fits: impl Fn(&Entry) -> bool) -> Vec<(Parts, usize)> {
    let mut out = Vec::new();
    for root in sound_trees() {
        let parts = Parts::new(&root, short_texts(4));
        let fitting = (0..parts.nodes.len()).filter(|at| fits(&parts.nodes[*at]));
        out.extend(fitting.map(|at| (parts.clone(), at)));
    }
    out
}

/// Each text number and each operator of the sound trees just out of range.
pub fn unknown_fields() -> Vec<(Vec<u8>, u8)> {
    let mut out = Vec::new();
    for (parts, at) in each_node(has_field) {
        let (kind, _, body) = &parts.nodes[at];
        let places = 0..body.len();
        for (place, wrong) in places.flat_map(|p| wrong_fields(*kind).map(|wrong| (p, wrong))) {
            let mut spoilt = parts.clone();
            spoilt.nodes[at].2[place] = wrong;
            out.push((spoilt.bytes(), 5));
        }
    }
    out
}

/// A copy with another number at a Num.
fn with_number(parts: &Parts, at: usize, pattern: u64) -> Parts {
    let mut copy = parts.clone();
    copy.nodes[at].2 = pattern.to_be_bytes().to_vec();
    copy
}

/// Each Num of the sound trees infinite and a NaN.
pub fn special_numbers() -> Vec<(Vec<u8>, u8)> {
    let spoilt = |(parts, at): (Parts, usize)| {
        NOT_FINITE_NUMBERS.map(|pattern| (with_number(&parts, at, pattern).bytes(), 39))
    };
    each_node(is_number).into_iter().flat_map(spoilt).collect()
}

/// Each Num of the sound trees infinite or a NaN, and a text number or an operator out of range at each
/// other node that has one: the first of the two nodes decides between 5 and 39.
pub fn in_node_order() -> Vec<(Vec<u8>, u8)> {
    let mut out = Vec::new();
    for (parts, number) in each_node(is_number) {
        for field in (0..parts.nodes.len()).filter(|at| has_field(&parts.nodes[*at])) {
            let mut spoilt = with_number(
                &parts,
                number,
                NOT_FINITE_NUMBERS[out.len() % NOT_FINITE_NUMBERS.len()],
            );
            let (kind, _, body) = &mut spoilt.nodes[field];
            body[0] = wrong_fields(*kind)[out.len() % 2];
            out.push((spoilt.bytes(), if field < number { 5 } else { 39 }));
        }
    }
    out
}

/// Each Num of the sound trees just finite, in turn: accepted, which 0 stands for.
pub fn just_finite() -> Vec<(Vec<u8>, u8)> {
    let patterns = JUST_FINITE.into_iter().cycle();
    let files = each_node(is_number).into_iter().zip(patterns);
    files.map(|((parts, at), pattern)| (with_number(&parts, at, pattern).bytes(), 0)).collect()
}

/// Trees wrong in structure that hold a text number or an operator, with texts 0 to 3.
fn wrong_with_names() -> Vec<Node> {
    vec![
        program(vec![name(1)]),
        program(vec![set(1, num(1.0)), access(1, num(0.0))]),
        program(vec![stmt(access(1, num(0.0)))]),
        program(vec![set(1, binary(1, num(1.0), array(1, vec![])))]),
        program(vec![set_array(1, vec![name(2)])]),
        program(vec![set(1, table(vec![(1, num(1.0)), (1, num(2.0))]))]),
        program(vec![Node::new(VAR_DECL, &[1], vec![num(1.0), num(2.0)])]),
        program(vec![for_(1, 2, num(1.0), block(vec![])), decl(1, None)]),
        program(vec![Node::new(NAME, &[1], vec![name(1)])]),
        block(vec![decl(1, None)]),
    ]
}

/// A node of any kind and body with any children.
fn odd(kind: u8, body: &[u8], kids: Vec<Node>) -> Node {
    program(vec![Node::new(kind, body, kids)])
}

/// Each rule of the structure broken once and more.
pub fn wrong_trees() -> Vec<Node> {
    let one = || num(1.0);
    let empty = || block(vec![]);
    let elif = || Node::new(ELIF, &[], vec![one(), empty()]);
    let item = |key: u8| Node::new(ITEM, &[key], vec![one()]);
    let mut out = wrong_with_names();
    out.extend([
        program(vec![program(vec![])]),
        stmt(one()),
        block(vec![]),
        one(),
        program(vec![block(vec![one()])]),
        program(vec![elif()]),
        program(vec![item(1)]),
        program(vec![table(vec![])]),
        program(vec![array(1, vec![])]),
        odd(IF, &[0], vec![]),
        odd(IF, &[0], vec![one()]),
        odd(IF, &[0], vec![one(), decl(1, None)]),
        odd(IF, &[0], vec![empty(), empty()]),
        odd(IF, &[1], vec![one(), empty()]),
        odd(IF, &[255], vec![one(), empty()]),
        odd(IF, &[1], vec![one(), empty(), empty()]),
        odd(IF, &[0], vec![one(), empty(), elif()]),
        odd(IF, &[1], vec![one(), empty(), elif(), elif()]),
        odd(IF, &[2], vec![one(), empty(), elif(), empty(), elif()]),
        odd(IF, &[0], vec![one(), empty(), one()]),
        odd(IF, &[1], vec![one(), empty(), Node::new(ELIF, &[], vec![one()])]),
        odd(IF, &[1], vec![one(), empty(), Node::new(ELIF, &[], vec![one(), empty(), empty()])]),
        odd(IF, &[1], vec![one(), empty(), Node::new(ELIF, &[], vec![one(), one()])]),
        odd(FOR, &[1, 2], vec![]),
        odd(FOR, &[1, 2], vec![name(1)]),
        odd(FOR, &[1, 2], vec![name(1), one()]),
        odd(FOR, &[1, 2], vec![empty(), name(1)]),
        odd(FOR, &[1, 2], vec![text(1), empty()]),
        odd(FOR, &[1, 2], vec![name(1), empty(), empty()]),
        odd(FOR, &[1, 2], vec![array(1, vec![]), empty()]),
        odd(RETURN, &[], vec![one(), one()]),
        odd(RETURN, &[], vec![table(vec![])]),
        odd(RETURN, &[], vec![empty()]),
        odd(EXPR_STMT, &[], vec![]),
        odd(EXPR_STMT, &[], vec![one(), one()]),
        odd(EXPR_STMT, &[], vec![table(vec![])]),
        odd(EXPR_STMT, &[], vec![array(1, vec![])]),
        odd(EXPR_STMT, &[], vec![decl(1, None)]),
        odd(VAR_DECL, &[1], vec![empty()]),
        odd(VAR_DECL, &[1], vec![item(1)]),
        odd(FN_DECL, &[1], vec![]),
        odd(FN_DECL, &[1], vec![name(2)]),
        odd(FN_DECL, &[1], vec![empty(), name(2)]),
        odd(FN_DECL, &[1], vec![text(2), empty()]),
        odd(FN_DECL, &[1], vec![empty(), empty()]),
        odd(FN_DECL, &[1], vec![one()]),
        program(vec![set(1, Node::new(TABLE, &[], vec![one()]))]),
        program(vec![set(1, Node::new(TABLE, &[], vec![item(2), item(3), item(2)]))]),
        program(vec![set(1, Node::new(TABLE, &[], vec![Node::new(ITEM, &[1], vec![])]))]),
        program(vec![set(
            1,
            Node::new(TABLE, &[], vec![Node::new(ITEM, &[1], vec![one(), one()])]),
        )]),
        program(vec![set(1, table(vec![(1, table(vec![]))]))]),
        program(vec![set(1, table(vec![(1, access(1, one()))]))]),
        program(vec![set_array(1, vec![unary(2, one())])]),
        program(vec![set_array(1, vec![array(1, vec![])])]),
        program(vec![set_array(1, vec![one(), call(1, vec![])])]),
        program(vec![set(1, Node::new(ACCESS, &[1], vec![]))]),
        program(vec![set(1, Node::new(ACCESS, &[1], vec![one(), one()]))]),
        program(vec![set(1, access(1, access(1, one())))]),
        program(vec![stmt(Node::new(MUTATE, &[1], vec![one()]))]),
        program(vec![stmt(Node::new(MUTATE, &[1], vec![one(), one(), one()]))]),
        program(vec![stmt(mutate(1, one(), array(1, vec![])))]),
        program(vec![stmt(mutate(1, table(vec![]), one()))]),
        program(vec![stmt(call(1, vec![array(1, vec![])]))]),
        program(vec![stmt(call(1, vec![one(), empty()]))]),
        program(vec![stmt(Node::new(ASSIGN, &[1], vec![]))]),
        program(vec![stmt(Node::new(ASSIGN, &[1], vec![one(), one()]))]),
        program(vec![stmt(Node::new(ASSIGN, &[1], vec![stmt(one())]))]),
        program(vec![stmt(Node::new(BINARY, &[1], vec![one()]))]),
        program(vec![stmt(Node::new(BINARY, &[1], vec![one(), one(), one()]))]),
        program(vec![stmt(binary(1, one(), table(vec![])))]),
        program(vec![stmt(Node::new(UNARY, &[1], vec![]))]),
        program(vec![stmt(Node::new(UNARY, &[1], vec![one(), one()]))]),
        program(vec![stmt(unary(1, access(1, one())))]),
        program(vec![stmt(Node::new(NUM, &[0; 8], vec![one()]))]),
        program(vec![stmt(Node::new(TEXT, &[1], vec![one()]))]),
        program(vec![stmt(Node::new(TRUE, &[], vec![one()]))]),
        program(vec![stmt(Node::new(FALSE, &[], vec![yes()]))]),
        program(vec![function(1, &[], block(vec![function(2, &[], empty())]))]),
        program(vec![function(
            1,
            &[],
            block(vec![if_(yes(), empty(), vec![], vec![function(2, &[], empty())])]),
        )]),
    ]);
    out.extend(keys_twice());
    out
}

/// A table with a key twice at each place that holds one: as a right side, or in an assignment where an
/// expression stands.
fn keys_twice() -> Vec<Node> {
    let twice = || table(vec![(1, no()), (2, no()), (1, yes())]);
    let expr = || assign(3, twice());
    let empty = || block(vec![]);
    let body = || block(vec![set(3, twice())]);
    let last = vec![
        block(vec![block(vec![block(vec![stmt(expr())])])]),
        give(Some(expr())),
        set(1, table(vec![(1, expr())])),
        set(1, table(vec![(1, no()), (2, expr())])),
        set(1, access(1, expr())),
        set(1, expr()),
        stmt(assign(1, expr())),
        stmt(mutate(1, expr(), no())),
        stmt(mutate(1, no(), expr())),
        stmt(call(1, vec![expr(), no()])),
        stmt(call(1, vec![no(), expr()])),
        stmt(binary(1, expr(), no())),
        stmt(binary(1, no(), expr())),
        stmt(unary(1, expr())),
        for_(1, 2, call(1, vec![no(), expr()]), empty()),
        for_(1, 2, name(1), body()),
        if_(expr(), empty(), vec![], vec![]),
        if_(no(), body(), vec![], vec![]),
        if_(no(), empty(), vec![(expr(), empty())], vec![]),
        if_(no(), empty(), vec![(no(), body())], vec![]),
        if_(no(), empty(), vec![(no(), empty())], vec![decl(1, None), set(3, twice())]),
        function(1, &[2], body()),
        for_(1, 2, call(1, vec![table(vec![])]), empty()),
    ];
    last.into_iter().map(|statement| program(vec![statement])).collect()
}

/// Files whose child counts do not use up the nodes.
pub fn wrong_counts() -> Vec<(Vec<u8>, u8)> {
    let root = program(vec![set(1, num(2.0)), stmt(unary(2, name(1))), decl(2, None)]);
    let parts = Parts::new(&root, short_texts(3));
    let mut out = Vec::new();
    for at in 0..parts.nodes.len() {
        for count in 0..=4 {
            if count != parts.nodes[at].1 {
                let mut wrong = parts.clone();
                wrong.nodes[at].1 = count;
                out.push(wrong);
            }
        }
    }
    let fits = |p: &Parts| crate::reader::read(&p.bytes()).is_ok();
    out.iter().filter(|p| !fits(p)).map(|p| (p.bytes(), 4)).collect()
}
