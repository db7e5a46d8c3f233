//! Files at each limit and one past it.

use crate::cases::call_depth;
use crate::tree::*;

/// All of them, in a fixed order.
pub fn all() -> Vec<Vec<u8>> {
    let mut out = Vec::new();
    out.extend(items_and_keys().iter().map(file_of));
    out.extend(depths_and_loops().iter().map(file_of));
    out.extend(stacks().iter().map(file_of));
    out.extend(registers().iter().map(file_of));
    out.extend(instructions().iter().map(file_of));
    out.extend(six_and_seven().iter().map(file_of));
    out.extend(nodes().iter().map(file_of));
    out.extend(texts());
    out.extend(at_the_last_step().iter().map(file_of));
    out
}

/// Scripts that end one step before the listing's 100,000, with the last of them, and one later.
fn at_the_last_step() -> Vec<Node> {
    (0..3).map(|more| long_script(20 + more)).collect()
}

/// Nested loops of 99,979 steps with so many more behind them.
fn long_script(more: usize) -> Node {
    let list = |name: u8, length: usize| set_array(name, vec![no(); length]);
    let over = |array: u8, body: Node| for_(4, 5, name(array), body);
    let deep = over(1, block(vec![over(1, block(vec![over(2, block(vec![]))]))]));
    let second = over(1, block(vec![over(3, block(vec![]))]));
    let mut kids = vec![list(1, 24), list(2, 20), list(3, 10), deep, second];
    kids.extend([over(1, block(vec![])), over(3, block(vec![]))]);
    kids.extend(vec![block(vec![]); more]);
    program(kids)
}

fn items_and_keys() -> Vec<Node> {
    let mut out = Vec::new();
    for items in [0, 1, 23, 24, 25] {
        let list: Vec<Node> = (0..items).map(|n| num(f64::from(n))).collect();
        out.push(program(vec![set_array(1, list.clone())]));
        let body = block(vec![set(4, name(3))]);
        out.push(program(vec![stmt(assign(1, array(1, list))), for_(2, 3, name(1), body)]));
    }
    for keys in [0, 1, 15, 16, 17] {
        let items: Vec<(u8, Node)> = (0..keys).map(|key| (key, text(key))).collect();
        out.push(program(vec![set(1, table(items))]));
    }
    for last in [14, 15, 0] {
        let mut items: Vec<(u8, Node)> = (0..15).map(|key| (key, num(1.0))).collect();
        items.push((last, num(2.0)));
        out.push(program(vec![set(1, table(items))]));
    }
    out
}

/// Nested Blocks down to a depth.
fn blocks_to(depth: usize, innermost: Node) -> Node {
    (0..depth).fold(innermost, |inner, _| block(vec![inner]))
}

fn nested_loops(count: u8, items: usize) -> Node {
    let body = block(vec![stmt(assign(3, binary(1, name(3), num(1.0))))]);
    let nest =
        (0..count).fold(body, |inner, n| block(vec![for_(4 + 2 * n, 5 + 2 * n, name(1), inner)]));
    program(vec![set_array(1, vec![num(1.0); items]), set(3, num(0.0)), nest])
}

fn depths_and_loops() -> Vec<Node> {
    let mut out = Vec::new();
    for depth in [31, 32, 33] {
        out.push(program(vec![blocks_to(depth - 2, decl(1, None))]));
        out.push(program(vec![blocks_to(depth - 2, block(vec![]))]));
        let chain = (0..depth - 3).fold(num(1.0), |inner, _| unary(2, inner));
        out.push(program(vec![stmt(chain)]));
        let chain = (0..depth - 3).fold(num(1.0), |inner, _| binary(1, num(1.0), inner));
        out.push(program(vec![set(1, chain)]));
        out.push(program(vec![nested_ifs(depth)]));
    }
    for deepest in [32, 33] {
        out.extend(each_kind().into_iter().map(|last| down_to(deepest, last)));
    }
    for loops in [7, 8, 9] {
        out.push(nested_loops(loops, 1));
    }
    out.push(nested_loops(8, 2));
    out.push(nested_loops(8, 4));
    for (outer, inner) in [(4, 4), (4, 5), (7, 1), (8, 1), (0, 8), (0, 9)] {
        out.push(loops_through_function(outer, inner));
    }
    for functions in [1, 2] {
        let innermost = block(vec![decl(1, None)]);
        let nest = (0..functions).fold(innermost, |inner, n| {
            block(vec![if_(yes(), block(vec![function(n + 1, &[], inner)]), vec![], vec![])])
        });
        out.push(program(vec![nest]));
    }
    out
}

/// Statements with each kind of node, each with its deepest node below that kind.
fn each_kind() -> Vec<Node> {
    let empty = || block(vec![]);
    let negated = || unary(1, yes());
    vec![
        set(1, yes()),
        give(Some(yes())),
        set(1, table(vec![(1, negated())])),
        set(1, table(vec![])),
        set_array(1, vec![no()]),
        set(1, access(1, negated())),
        stmt(mutate(1, negated(), no())),
        stmt(mutate(1, no(), negated())),
        stmt(call(1, vec![no(), negated()])),
        stmt(assign(1, negated())),
        stmt(binary(1, negated(), no())),
        for_(1, 2, name(1), empty()),
        for_(1, 2, call(1, vec![negated()]), empty()),
        for_(1, 2, name(1), block(vec![decl(1, None)])),
        if_(negated(), empty(), vec![], vec![]),
        if_(no(), empty(), vec![], vec![set(1, no())]),
        if_(no(), empty(), vec![(negated(), empty())], vec![]),
        if_(no(), empty(), vec![(no(), block(vec![decl(1, None)]))], vec![]),
        function(1, &[2], empty()),
        function(1, &[], block(vec![decl(1, None)])),
    ]
}

fn height(node: &Node) -> usize {
    1 + node.kids.iter().map(height).max().unwrap_or(0)
}

/// A statement in as many Blocks as put its deepest node at a depth.
fn down_to(deepest: usize, last: Node) -> Node {
    let blocks = deepest - 1 - height(&last);
    program(vec![blocks_to(blocks, last)])
}

/// Ifs inside each other's Blocks; each takes two levels.
fn nested_ifs(depth: usize) -> Node {
    let condition = || binary(8, num(1.0), num(2.0));
    let innermost = blocks_to((depth - 2) % 2, decl(1, None));
    (0..(depth - 2) / 2)
        .fold(innermost, |inner, _| if_(condition(), block(vec![inner]), vec![], vec![]))
}

fn loops_through_function(outer: u8, inner: u8) -> Node {
    let wrap = |body: Node, from: u8, count: u8| {
        (0..count)
            .fold(body, |body, n| block(vec![for_(from + 2 * n, from + 1 + 2 * n, name(1), body)]))
    };
    let body = wrap(block(vec![decl(3, None)]), 10, inner);
    let function = function(2, &[], block(vec![body, give(None)]));
    let nest = wrap(block(vec![function, stmt(call(2, vec![]))]), 30, outer);
    program(vec![set_array(1, vec![num(1.0)]), nest])
}

fn stacks() -> Vec<Node> {
    let mut out: Vec<Node> = [1, 23, 24, 25].map(call_depth).to_vec();
    let empty = || function(1, &[], block(vec![give(None)]));
    for params in [0, 1, 23, 24, 25] {
        out.push(program(vec![empty(), stmt(call(1, vec![num(1.0); params]))]));
    }
    for params in [96, 97] {
        let names: Vec<u8> = (0..params).map(|n| 2 + n % 3).collect();
        out.push(program(vec![function(1, &names, block(vec![give(None)]))]));
    }
    out.push(program(vec![stmt(call(1, vec![text(0); 24]))]));
    out.push(program(vec![stmt(call(1, vec![text(0); 25]))]));
    out.push(program(vec![stmt(call(1, vec![yes(); 255]))]));
    out.push(full_of_calls());
    out.push(seventeenth_key(16, 17));
    out.push(seventeenth_key(15, 17));
    out.push(seventeenth_key(16, 5));
    out
}

/// An unknown function called where the calls are 24 deep: 29 comes before 35.
fn full_of_calls() -> Node {
    let mut root = call_depth(24);
    root.kids[0].kids[0].kids[1].kids.push(stmt(call(9, vec![])));
    root
}

/// A table literal whose item's expression replaces the table by one with so many keys.
fn seventeenth_key(keys: u8, key: u8) -> Node {
    let full: Vec<(u8, Node)> = (1..=keys).map(|k| (k, num(1.0))).collect();
    program(vec![set(20, table(full)), set(21, table(vec![(key, assign(21, name(20)))]))])
}

/// Statements that take registers, with their numbers of registers.
fn register_takers() -> Vec<(usize, Node)> {
    let body = || block(vec![decl(5, None)]);
    vec![
        (1, stmt(num(1.0))),
        (1, stmt(name(2))),
        (3, stmt(binary(1, num(1.0), num(2.0)))),
        (2, set(3, unary(1, yes()))),
        (3, stmt(binary(11, no(), yes()))),
        (2, set(3, access(1, num(0.0)))),
        (2, stmt(mutate(1, num(0.0), num(2.0)))),
        (4, for_(3, 4, name(1), body())),
        (1, if_(name(2), body(), vec![], vec![])),
        (2, if_(name(2), body(), vec![(name(2), body())], vec![])),
        (2, set(3, table(vec![(1, num(1.0)), (2, text(1))]))),
        (2, function(6, &[3, 4], block(vec![give(None)]))),
        (2, stmt(call(6, vec![num(1.0)]))),
        (5, for_(3, 4, call(6, vec![]), body())),
        (1, give(Some(num(1.0)))),
    ]
}

/// Each taker with the 96th register as its last, and with the 97th at each of its places.
fn registers() -> Vec<Node> {
    let mut out = Vec::new();
    for (taken, taker) in register_takers() {
        for before in 96 - taken..=96 {
            let mut kids = vec![set_array(1, vec![num(1.0)]), set(2, num(1.0))];
            kids.extend(vec![stmt(text(1)); before]);
            kids.push(taker.clone());
            out.push(program(kids));
        }
    }
    out
}

/// Statements of so many instructions in all, without a register, in few nodes.
fn filling(instructions: usize) -> Vec<Node> {
    let empty_if = || if_(yes(), block(vec![]), vec![], vec![]);
    let ifs = if instructions > 600 { 60 } else { 0 };
    let mut left = instructions - 4 * ifs;
    let mut out = vec![block((0..ifs).map(|_| empty_if()).collect())];
    if ifs == 0 {
        out.clear();
    }
    while left > 0 {
        let some = left.min(250);
        out.push(block(vec![block(vec![]); some]));
        left -= some;
    }
    out
}

/// The same in loops that run to the end.
fn looping(instructions: usize) -> Vec<Node> {
    let loops = 20;
    let left = instructions - 1 - 10 * loops;
    let mut out = vec![set_array(1, vec![num(1.0), num(2.0)])];
    out.extend((0..loops).map(|_| for_(2, 3, name(1), block(vec![]))));
    out.extend((0..4).map(|n| block(vec![block(vec![]); left / 4 + usize::from(n < left % 4)])));
    out
}

fn instruction_takers() -> Vec<(usize, Node)> {
    let body = || block(vec![decl(5, None)]);
    vec![
        (1, decl(2, None)),
        (1, block(vec![])),
        (1, set_array(2, vec![num(1.0)])),
        (1, set(2, yes())),
        (1, set(2, name(1))),
        (3, set(2, access(1, num(0.0)))),
        (3, stmt(binary(1, num(1.0), num(2.0)))),
        (3, set(2, unary(2, num(1.0)))),
        (2, set(2, table(vec![(1, yes())]))),
        (10, for_(3, 4, name(1), body())),
        (7, if_(yes(), body(), vec![(yes(), body())], vec![decl(5, None)])),
        (4, function(6, &[3], block(vec![give(None)]))),
        (4, set(2, call(6, vec![num(1.0)]))),
        (2, give(Some(yes()))),
    ]
}

fn instructions() -> Vec<Node> {
    let mut out = vec![program(looping(1024)), program(looping(1025))];
    for (taken, taker) in instruction_takers() {
        for before in [1025 - taken, 1024] {
            let mut kids = filling(before);
            kids.push(taker.clone());
            out.push(program(kids));
        }
    }
    let mut kids = filling(1020);
    kids.push(function(6, &[3], block(vec![give(None)])));
    out.push(program(kids));
    out
}

fn six_and_seven() -> Vec<Node> {
    let no_register = || assign(2, num(1.0));
    let places = [
        (0, stmt(unary(1, no_register()))),
        (1023, stmt(unary(1, no_register()))),
        (1024, stmt(unary(1, no_register()))),
        (0, stmt(mutate(1, num(1.0), yes()))),
        (1024, stmt(mutate(1, num(1.0), yes()))),
        (0, stmt(mutate(1, yes(), num(1.0)))),
        (0, stmt(binary(1, no_register(), num(1.0)))),
        (0, stmt(binary(1, num(1.0), no_register()))),
        (1024, stmt(binary(1, no_register(), num(1.0)))),
        (1023, stmt(binary(1, no_register(), num(1.0)))),
        (1022, stmt(binary(1, num(1.0), no_register()))),
        (0, stmt(mutate(1, num(1.0), no_register()))),
        (1023, stmt(mutate(1, num(1.0), no_register()))),
        (1024, stmt(mutate(1, num(1.0), no_register()))),
        (0, set(1, mutate(1, yes(), no()))),
        (0, set(1, no_register())),
        (0, if_(yes(), block(vec![stmt(unary(2, no_register()))]), vec![], vec![])),
        (0, stmt(call(1, vec![yes(), unary(2, no_register())]))),
    ];
    let mut out: Vec<Node> = places
        .into_iter()
        .map(|(before, taker)| {
            let mut kids = filling(before);
            kids.push(taker);
            program(kids)
        })
        .collect();
    // The 97th register first, then a place for 6 that is never reached; and 6 before it.
    let many = || block(vec![stmt(text(1)); 97]);
    out.push(program(vec![many(), stmt(unary(1, no_register()))]));
    out.push(program(vec![stmt(unary(1, no_register())), many()]));
    out
}

fn nodes() -> Vec<Node> {
    let of_size = |count: usize| {
        let mut left = count - 1;
        let mut kids = Vec::new();
        while left > 0 {
            let inner = (left - 1).min(250);
            kids.push(block(vec![block(vec![]); inner]));
            left -= inner + 1;
        }
        program(kids)
    };
    let wide = |count: usize| program(vec![block(vec![]); count]);
    vec![of_size(1024), of_size(1025), wide(255)]
}

fn texts() -> Vec<Vec<u8>> {
    let root = program(vec![set(1, num(1.0))]);
    let with = |texts: Vec<Vec<u8>>| Parts::new(&root, texts).bytes();
    let one = |text: &[u8]| with(vec![b"fortmp".to_vec(), text.to_vec()]);
    let two = |a: &[u8], b: &[u8]| with(vec![b"fortmp".to_vec(), a.to_vec(), b.to_vec()]);
    let last = program(vec![set(63, text(62))]);
    vec![
        with(short_texts(63)),
        with(short_texts(64)),
        with(short_texts(65)),
        Parts::new(&last, short_texts(64)).bytes(),
        Parts::new(&last, short_texts(63)).bytes(),
        one(&[b'x'; 39]),
        one(&[b'x'; 40]),
        one(&[b'x'; 41]),
        one(b""),
        one(&[31]),
        one(&[32]),
        one(&[126]),
        one(&[127]),
        one(b"fortmo"),
        one(b"fortmp"),
        one(b"fortmpa"),
        two(b"a", b"a"),
        two(b"a", b"a "),
        two(b"a ", b"a"),
        two(b"", b""),
        two(b"", b"a"),
        two(b"a", b""),
        two(b"b", b"a"),
        two(b"Z", b"a"),
        two(b"a", b"fortmp"),
        with(vec![b"fortmq".to_vec(), b"x".to_vec()]),
        with(vec![b"x".to_vec(), b"y".to_vec()]),
    ]
}
