//! Every operator on every kind of value, every place that reads a value, and numbers of all
//! sorts in arithmetic.

use crate::gen_numbers::{finite, given, index_numbers, value, NUMBERS};
use crate::rng::Rng;
use crate::tree::*;

/// The kinds of value: number, text, yes or no, nothing, array, table, unset.
const KINDS: [u8; 7] = [1, 2, 3, 4, 5, 6, 7];

/// The statement that stores a value of the kind under the kind's number as a name.
fn stored(kind: u8) -> Option<Node> {
    match kind {
        1 => Some(set(1, num(1.0))),
        2 => Some(set(2, text(0))),
        3 => Some(set(3, binary(8, num(1.0), num(2.0)))),
        4 => Some(decl(4, None)),
        5 => Some(set_array(5, vec![num(1.0), yes()])),
        6 => Some(set(6, table(vec![(1, num(1.0))]))),
        _ => None,
    }
}

fn with(kinds: &[u8], last: Vec<Node>) -> Node {
    let mut used = kinds.to_vec();
    used.sort_unstable();
    used.dedup();
    let mut kids: Vec<Node> = used.into_iter().filter_map(stored).collect();
    kids.extend(last);
    program(kids)
}

/// An operand of the kind; the kinds above 3 need a stored value.
fn operand(kind: u8) -> Node {
    match kind {
        1 => num(1.0),
        2 => text(0),
        3 => yes(),
        _ => name(kind - 3),
    }
}

/// The stores for operands of the kinds, under the names 1 to 4, and a last statement.
fn with_operands(kinds: &[u8], last: Node) -> Node {
    let store = |kind: u8| match kind {
        4 => Some(decl(1, None)),
        5 => Some(set_array(2, vec![])),
        6 => Some(set(3, table(vec![]))),
        _ => None,
    };
    let mut used = kinds.to_vec();
    used.sort_unstable();
    used.dedup();
    let mut kids: Vec<Node> = used.into_iter().filter_map(store).collect();
    kids.push(last);
    program(kids)
}

/// Plain scripts, in a fixed order.
pub fn all() -> Vec<Node> {
    let mut out = Vec::new();
    for op in 1..=13 {
        for left in KINDS {
            for right in KINDS {
                let last = set(1, binary(op, operand(left), operand(right)));
                out.push(with_operands(&[left, right], last));
            }
        }
    }
    for a in KINDS {
        out.push(with_operands(&[a], set(1, unary(1, operand(a)))));
        out.push(with_operands(&[a], set(1, unary(2, operand(a)))));
        out.push(with(&[a], vec![set(8, name(a)), set(9, name(8))]));
        out.push(with(&[a], vec![stmt(name(a))]));
        out.push(with(&[a], vec![set(8, table(vec![(1, name(a)), (0, num(2.0))]))]));
        out.push(with(&[a], vec![if_(name(a), block(vec![]), vec![], vec![decl(8, None)])]));
        out.push(with(&[a], vec![for_(8, 9, name(a), block(vec![]))]));
        out.push(with(&[a], vec![for_(a, 9, name(5), block(vec![set(8, name(a))]))]));
        out.push(with(&[a, 5], vec![for_(9, a, name(5), block(vec![set(8, name(a))]))]));
        for b in KINDS {
            out.push(with(&[a, b], vec![set(8, access(a, name(b)))]));
            out.push(with(&[a, b], vec![stmt(mutate(a, name(b), num(0.0)))]));
            out.push(with(&[a, b, 5], vec![stmt(mutate(a, name(b), name(5)))]));
        }
        out.push(with(&[a, 5], vec![stmt(mutate(5, num(0.0), name(a)))]));
        out.push(with(&[a, 5], vec![stmt(mutate(5, num(2.0), name(a)))]));
        // 38 before 20, 28 and 34
        out.push(with(&[a], vec![set(8, access(a, num(2.5)))]));
        out.push(with(&[a], vec![stmt(mutate(a, num(2.5), num(0.0)))]));
        out.push(with(&[a, 5], vec![stmt(mutate(5, num(0.5), name(a)))]));
    }
    out.extend(indexes());
    out.extend(computed_indexes());
    out.extend(accesses());
    out.extend(loops());
    out.extend(special_numbers());
    out.extend(special_values());
    out.extend(literals());
    out
}

/// An item set, and an item read, at an index.
fn both(array: &Node, index: &Node) -> [Node; 2] {
    let set_item = stmt(mutate(1, index.clone(), text(1)));
    let read = vec![set(2, access(1, index.clone())), decl(3, None)];
    [program(vec![array.clone(), set_item]), program([vec![array.clone()], read].concat())]
}

/// Each special number, each border and its neighbours as an index into arrays of 0 and 4 items; the
/// numbers around 23 and 24 as an index into one of 24.
fn indexes() -> Vec<Node> {
    let mut out = Vec::new();
    let empty = set_array(1, vec![]);
    let four = set_array(1, vec![text(0); 4]);
    let most = set_array(1, vec![text(0); 24]);
    let mut numbers: Vec<f64> = index_numbers().into_iter().map(f64::from_bits).collect();
    // by arithmetic there is one NaN
    numbers.dedup_by(|a, b| a.is_nan() && b.is_nan());
    for number in numbers {
        out.extend(both(&empty, &value(number)));
        out.extend(both(&four, &value(number)));
        if (22.5..24.5).contains(&number) {
            out.extend(both(&most, &value(number)));
        }
    }
    out
}

/// Indexes that arise by arithmetic or come from a name: whole numbers, fractions, negatives, zeros,
/// infinities, NaN.
fn computed_indexes() -> Vec<Node> {
    let sums = [
        (4, 1.0, 0.0),
        (4, -1.0, 0.0),
        (4, 0.0, 0.0),
        (3, 1e308, 10.0),
        (3, -1e308, 10.0),
        (3, 0.0, -1.0),
        (4, -1.0, f64::MAX),
        (4, 4.0, 2.0),
        (4, 5.0, 2.0),
        (3, 0.1, 10.0),
        (1, 0.1, 0.2),
        (2, 1.0, 3.0),
        (5, 7.0, 4.0),
        (5, 7.0, 2.5),
        (5, -4.0, 2.0),
        (3, 4_294_967_296.0, 4_294_967_296.0),
        (2, 18_446_744_073_709_551_616.0, 2048.0),
        (1, 9_007_199_254_740_992.0, 1.0),
    ];
    let items = set_array(1, vec![text(0), yes(), text(2)]);
    let mut out = Vec::new();
    for (op, left, right) in sums {
        out.extend(both(&items, &binary(op, num(left), num(right))));
    }
    for number in [2.5, -0.0, -1.0, 18_446_744_073_709_551_616.0, f64::NAN] {
        let named =
            |last: Vec<Node>| program([vec![set(4, value(number)), items.clone()], last].concat());
        out.push(named(vec![set(2, access(1, name(4)))]));
        out.push(named(vec![stmt(mutate(1, name(4), name(4))), set(2, name(1))]));
        // in the body of a loop, whose own index stays whole
        let pass = |body: Vec<Node>| named(vec![for_(2, 3, name(1), block(body))]);
        out.push(pass(vec![set(2, name(4)), set(5, name(2))]));
        out.push(pass(vec![set(2, name(4)), set(5, access(1, name(2)))]));
        out.push(pass(vec![stmt(mutate(1, name(2), num(0.0))), stmt(assign(2, name(4)))]));
    }
    out
}

/// Items given to names: of every kind, to the array's own name, to the index's, in loops, past the
/// end; and yes and no.
fn accesses() -> Vec<Node> {
    let items = || set_array(1, vec![num(2.0), text(0), yes(), no()]);
    let read = |to: u8, index: Node| set(to, access(1, index));
    let again = |to: u8, index: Node| stmt(assign(to, access(1, index)));
    let after = |last: Vec<Node>| program([vec![items()], last].concat());
    let pass = |body: Vec<Node>| after(vec![for_(2, 3, name(1), block(body))]);
    vec![
        after((0..4).map(|item| read(2 + item, num(f64::from(item)))).collect()),
        after((0..4).map(|item| again(2, num(f64::from(item)))).collect()),
        after(vec![set(2, num(5.0)), again(2, num(9.0))]),
        after(vec![read(1, num(1.0)), read(2, num(0.0))]),
        after(vec![set(2, num(3.0)), again(2, name(2)), set(3, name(2))]),
        after(vec![set(2, num(0.0)), again(2, name(2)), again(2, name(2))]),
        after(vec![read(2, binary(2, num(3.0), num(1.0))), read(3, unary(2, num(0.0)))]),
        pass(vec![read(4, name(2))]),
        pass(vec![again(2, name(2))]),
        pass(vec![again(3, name(2)), set(4, name(3))]),
        pass(vec![again(1, name(2))]),
        pass(vec![for_(4, 5, name(1), block(vec![again(6, name(2)), again(7, name(4))]))]),
        after(vec![set(2, yes()), set(3, no()), stmt(assign(3, yes())), stmt(assign(2, no()))]),
        after(vec![decl(5, None), stmt(mutate(1, num(0.0), name(5))), read(2, num(0.0))]),
        after(vec![
            set(4, no()),
            for_(
                2,
                3,
                name(1),
                block(vec![
                    if_(name(4), block(vec![decl(5, None)]), vec![], vec![]),
                    set(4, yes()),
                ]),
            ),
        ]),
        program(vec![set(4, yes()), if_(name(4), block(vec![decl(5, None)]), vec![], vec![])]),
    ]
}

/// Clashes of names, arrays changed by the body, indexes assigned by the body.
fn loops() -> Vec<Node> {
    let items = || set_array(1, vec![num(1.0), num(2.0), num(3.0)]);
    let over = |index: u8, item: u8, body: Vec<Node>| {
        program(vec![items(), for_(index, item, name(1), block(body))])
    };
    let longer = || set_array(1, vec![num(7.0); 5]);
    let shorter = || set_array(1, vec![num(7.0)]);
    let note = |from: u8| set(4, name(from));
    vec![
        over(2, 3, vec![note(2)]),
        over(2, 2, vec![note(2)]),
        over(1, 2, vec![]),
        over(2, 1, vec![]),
        over(1, 1, vec![]),
        over(2, 3, vec![longer()]),
        over(2, 3, vec![shorter()]),
        over(2, 3, vec![set(1, num(1.0))]),
        over(2, 3, vec![set(2, num(9.0)), note(2)]),
        over(2, 3, vec![set(2, text(0))]),
        over(2, 3, vec![set(3, text(0))]),
        over(2, 3, vec![stmt(mutate(1, name(2), binary(3, name(3), num(2.0))))]),
        over(2, 3, vec![stmt(mutate(1, binary(1, name(2), num(1.0)), num(0.5)))]),
        over(2, 3, vec![for_(2, 3, name(1), block(vec![note(3)]))]),
        over(2, 3, vec![for_(4, 5, name(1), block(vec![shorter()]))]),
        program(vec![for_(2, 3, name(1), block(vec![]))]),
        program(vec![set_array(1, vec![]), for_(2, 3, name(1), block(vec![]))]),
        program(vec![set_array(0, vec![num(4.0)]), for_(0, 3, name(0), block(vec![]))]),
        program(vec![set(2, array(1, vec![num(4.0)])), for_(2, 3, name(1), block(vec![note(2)]))]),
    ]
}

/// Both infinities and a NaN, and the names that hold them.
const HELD: [(u8, f64); 3] = [(30, f64::INFINITY), (31, f64::NEG_INFINITY), (32, f64::NAN)];

/// The name that holds a number, or its literal.
fn held(number: f64) -> Node {
    let same = |(_, own): &&(u8, f64)| own.to_bits() == number.to_bits();
    HELD.iter().find(same).map_or(num(number), |(own, _)| name(*own))
}

/// The literals of the finite numbers.
fn finite_numbers() -> Vec<Node> {
    let finite = NUMBERS.into_iter().filter(|number| f64::from_bits(*number).is_finite());
    finite.map(bits).collect()
}

/// Statements that give values to names, from 1 on.
fn to_names(values: &[Node]) -> Vec<Node> {
    values.iter().zip(1..).map(|(value, name)| set(name, value.clone())).collect()
}

/// Every operator for numbers on every two of a few special ones, and minus on all of them.
fn special_numbers() -> Vec<Node> {
    let few = [0.0, -0.0, 1.5, f64::NAN, f64::INFINITY, f64::NEG_INFINITY];
    let special = HELD.map(|(own, _)| name(own));
    let mut results: Vec<Node> =
        finite_numbers().into_iter().chain(special).map(|number| unary(2, number)).collect();
    for op in 1..=10 {
        for left in few {
            results.extend(few.map(|right| binary(op, held(left), held(right))));
        }
    }
    let stores: Vec<Node> = HELD.iter().map(|(own, number)| set(*own, value(*number))).collect();
    let script = |chunk: &[Node]| program([stores.clone(), to_names(chunk)].concat());
    // 29 results and 3 stores, each of at most 3 registers: 96 in all
    results.chunks(29).map(script).collect()
}

/// Both infinities and a NaN as an array's items, in a loop over them and in its body, in a table, and
/// where another kind of value is wanted.
fn special_values() -> Vec<Node> {
    let numbers = HELD.map(|(_, number)| value(number));
    let put = |(at, number): (usize, &Node)| stmt(mutate(1, num(at as f64), number.clone()));
    let mut items = vec![set_array(1, vec![num(0.0); 3])];
    items.extend(numbers.iter().enumerate().map(put));
    let after = |last: Vec<Node>| program([items.clone(), last].concat());
    let pass = |body: Vec<Node>| for_(2, 3, name(1), block(body));
    let read = |to: u8, at: f64| set(to, access(1, num(at)));
    let equal = binary(6, name(3), name(3));
    let branches = if_(
        binary(8, name(3), num(0.0)),
        block(vec![set(4, name(3))]),
        vec![(equal.clone(), block(vec![set(5, name(3))]))],
        vec![set(6, name(3))],
    );
    let keyed = numbers.iter().zip(1..).map(|(number, key)| (key, number.clone())).collect();
    let mut out = vec![
        after(vec![read(2, 0.0), read(3, 1.0), read(4, 2.0), set(5, name(1)), set(6, name(2))]),
        after(vec![set(4, num(0.0)), pass(vec![set(4, binary(1, name(4), name(3)))])]),
        after(vec![pass(vec![set(5, equal), stmt(mutate(1, name(2), unary(2, name(3))))])]),
        after(vec![pass(vec![set(2, name(3)), set(4, name(2))])]),
        after(vec![pass(vec![set(4, access(1, name(3)))])]),
        after(vec![pass(vec![branches])]),
        after(vec![pass(vec![set(4, table(vec![(1, name(3)), (2, num(1.0))]))])]),
        program(vec![set(1, table(keyed))]),
    ];
    for number in numbers {
        out.push(program(vec![if_(number.clone(), block(vec![]), vec![], vec![])]));
        out.push(program(vec![set(1, number), for_(2, 3, name(1), block(vec![]))]));
    }
    out
}

/// Every finite number given to a name, and all but zero as an array's items, of which it has 24.
fn literals() -> Vec<Node> {
    let finite = finite_numbers();
    vec![program(to_names(&finite)), program(vec![set_array(1, finite[1..].to_vec())])]
}

/// A script of results of arithmetic and comparison on numbers of all sorts.
pub fn numbers(rng: &mut Rng) -> Node {
    let mut kids = Vec::new();
    for name in 1..=16 {
        let (left, right) = (number(rng), number(rng));
        kids.push(set(name, binary(rng.pick(&[1, 2, 3, 4, 5, 5, 6, 7, 8, 9, 10]), left, right)));
    }
    program(kids)
}

fn number(rng: &mut Rng) -> Node {
    match rng.below(6) {
        0 => num(rng.below(2000) as f64 / 16.0 - 60.0),
        1 => bits(finite(|| rng.next())),
        2 => bits(0x3ff0_0000_0000_0000 + (rng.next() >> 12)),
        3 => bits((rng.next() >> 12) + ((1000 + rng.below(60) as u64) << 52)),
        _ => given(rng.pick(&NUMBERS), rng),
    }
}
