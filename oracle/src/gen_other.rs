//! Directed scripts that are not plain: each place where functions, calls, returns, True and
//! False, and nested assignments show what they do.

use crate::gen_numbers::value;
use crate::tree::*;

/// In a fixed order.
pub fn all() -> Vec<Node> {
    let mut out = functions();
    out.extend(empty_registers());
    out.extend(odd_values());
    out.extend(labels());
    out.extend(loops_over_calls());
    out.extend(special_numbers());
    out
}

/// A function that gives nothing back.
fn silent(name: u8) -> Node {
    function(name, &[], block(vec![give(None)]))
}

/// A function that gives a value back.
fn giving(name: u8, value: Node) -> Node {
    function(name, &[], block(vec![give(Some(value))]))
}

fn functions() -> Vec<Node> {
    let two = |body: Vec<Node>| function(1, &[2, 3], block(body));
    let params = || vec![num(1.0), num(2.0)];
    let minus = || give(Some(binary(2, name(2), name(3))));
    vec![
        program(vec![two(vec![minus()]), set(4, call(1, params()))]),
        program(vec![two(vec![minus()]), stmt(call(1, params()))]),
        program(vec![two(vec![]), set(4, call(1, params()))]),
        program(vec![two(vec![minus()]), set(4, call(1, vec![num(1.0)]))]),
        program(vec![
            two(vec![minus()]),
            set(4, call(1, vec![num(1.0); 3])),
            set(5, call(1, vec![])),
        ]),
        program(vec![set(4, call(1, vec![])), silent(1)]),
        program(vec![set(4, call(1, vec![]))]),
        program(vec![stmt(call(9, vec![text(0)])), silent(1)]),
        program(vec![give(None)]),
        program(vec![give(Some(num(1.0)))]),
        program(vec![silent(1), give(Some(num(1.0)))]),
        // Without a return: into the next function, and the last into the code.
        program(vec![function(1, &[], block(vec![decl(3, None)])), stmt(call(1, vec![]))]),
        program(vec![
            function(1, &[], block(vec![decl(3, None)])),
            function(2, &[], block(vec![decl(4, None), give(None)])),
            stmt(call(1, vec![])),
            decl(5, None),
        ]),
        // One name twice, before and after a call.
        program(vec![giving(1, num(1.0)), set(3, call(1, vec![])), giving(1, num(2.0))]),
        program(vec![giving(1, num(1.0)), giving(1, num(2.0)), set(3, call(1, vec![]))]),
        program(vec![
            function(1, &[2, 2], block(vec![give(Some(name(2)))])),
            set(3, call(1, params())),
        ]),
        // A function falls into a later one of the name of an earlier one.
        program(vec![
            giving(1, num(1.0)),
            function(2, &[], block(vec![decl(4, None)])),
            function(1, &[], block(vec![give(Some(num(3.0)))])),
            set(5, call(2, vec![])),
            set(6, call(1, vec![])),
        ]),
        // Declared inside an if and inside a loop.
        program(vec![
            if_(binary(6, num(1.0), num(1.0)), block(vec![giving(1, num(5.0))]), vec![], vec![]),
            set(3, call(1, vec![])),
        ]),
        program(vec![
            set_array(2, vec![num(1.0), num(2.0)]),
            for_(3, 4, name(2), block(vec![giving(1, name(4)), set(5, call(1, vec![]))])),
        ]),
        program(vec![giving(1, call(2, vec![])), giving(2, num(6.0)), set(3, call(1, vec![]))]),
        program(vec![giving(1, call(1, vec![])), set(3, call(1, vec![]))]),
    ]
}

/// Registers emptied by a call that gives nothing back.
fn empty_registers() -> Vec<Node> {
    let nothing = || call(1, vec![]);
    let after = |last: Node| program(vec![silent(1), set_array(2, vec![num(1.0)]), last]);
    let mut out = Vec::new();
    for op in 1..=13 {
        out.push(after(stmt(binary(op, nothing(), num(1.0)))));
        out.push(after(stmt(binary(op, num(1.0), nothing()))));
    }
    out.push(after(stmt(binary(1, nothing(), nothing()))));
    out.push(after(stmt(unary(1, nothing()))));
    out.push(after(stmt(unary(2, nothing()))));
    out.push(after(set(3, nothing())));
    out.push(after(stmt(assign(3, nothing()))));
    out.push(after(stmt(mutate(2, nothing(), num(1.0)))));
    out.push(after(stmt(mutate(2, num(0.0), nothing()))));
    out.push(after(stmt(mutate(2, nothing(), nothing()))));
    out.push(after(stmt(mutate(9, num(0.0), nothing()))));
    // the value's 27 before 38, and 38 before 20
    out.push(after(stmt(mutate(2, num(2.5), nothing()))));
    out.push(after(stmt(mutate(9, num(2.5), nothing()))));
    out.push(after(stmt(mutate(9, num(2.5), num(1.0)))));
    out.push(after(stmt(mutate(9, nothing(), num(1.0)))));
    out.push(after(set(3, access(2, nothing()))));
    out.push(after(set(3, access(9, nothing()))));
    out.push(after(set(3, table(vec![(1, nothing())]))));
    out.push(after(stmt(call(1, vec![nothing()]))));
    out.push(after(if_(nothing(), block(vec![]), vec![], vec![])));
    out.push(after(give(Some(nothing()))));
    out.push(after(for_(3, 4, nothing(), block(vec![]))));
    out
}

fn odd_values() -> Vec<Node> {
    let items = || set_array(1, vec![num(1.0), num(2.0)]);
    let one = |last: Node| program(vec![items(), stmt(num(1.0)), last]);
    let full = || table((1..=16).map(|key| (key, num(1.0))).collect());
    vec![
        program(vec![stmt(yes())]),
        program(vec![stmt(no()), decl(1, None)]),
        program(vec![if_(yes(), block(vec![]), vec![], vec![])]),
        one(if_(yes(), block(vec![]), vec![], vec![])),
        program(vec![stmt(unary(1, no())), if_(no(), block(vec![decl(2, None)]), vec![], vec![])]),
        one(set(3, assign(2, num(5.0)))),
        program(vec![set(3, assign(2, num(5.0)))]),
        one(set(3, mutate(1, num(0.0), num(5.0)))),
        one(stmt(mutate(1, num(0.0), yes()))),
        one(stmt(mutate(1, yes(), num(1.0)))),
        one(stmt(mutate(1, num(1.0), mutate(1, num(0.0), num(7.0))))),
        one(set(3, binary(1, assign(2, num(5.0)), num(3.0)))),
        one(set(3, binary(1, num(3.0), assign(2, num(5.0))))),
        one(set(3, binary(1, num(3.0), mutate(1, num(0.0), num(5.0))))),
        one(set(3, assign(4, array(5, vec![num(1.0)])))),
        one(set(3, assign(4, access(1, num(1.0))))),
        program(vec![items(), set(3, assign(4, access(1, num(1.0))))]),
        program(vec![items(), set(3, binary(1, assign(4, access(1, num(1.0))), num(3.0)))]),
        program(vec![items(), stmt(call(5, vec![assign(4, access(1, num(0.0)))]))]),
        program(vec![items(), set(3, table(vec![(1, assign(4, access(1, num(1.0))))]))]),
        program(vec![items(), set(3, access(1, yes()))]),
        one(set(3, assign(4, yes()))),
        program(vec![set(3, assign(4, yes()))]),
        one(set(3, assign(4, table(vec![(1, num(1.0))])))),
        one(set(3, assign(4, assign(5, assign(6, name(1)))))),
        one(set(3, table(vec![(1, yes()), (2, assign(3, num(1.0))), (0, num(2.0))]))),
        one(set(3, table(vec![(1, assign(3, name(1))), (2, num(1.0))]))),
        one(set(3, table(vec![(1, name(1))]))),
        one(set(3, access(1, yes()))),
        one(set(3, access(1, assign(1, num(1.0))))),
        program(vec![set(20, full()), set(21, table(vec![(1, assign(21, name(20)))]))]),
        program(vec![set(20, full()), set(21, table(vec![(17, assign(21, name(20)))]))]),
        // 34 before 36: the register before holds an array.
        program(vec![set(20, full()), items(), set(21, table(vec![(17, assign(21, name(20)))]))]),
        program(vec![
            set(20, full()),
            items(),
            stmt(name(1)),
            set(21, table(vec![(17, assign(21, name(20)))])),
        ]),
        program(vec![
            silent(2),
            set(20, full()),
            stmt(call(2, vec![])),
            set(21, table(vec![(17, assign(21, name(20)))])),
        ]),
        program(vec![set(3, call(4, vec![yes()]))]),
        program(vec![stmt(num(1.0)), set(3, call(4, vec![yes(), assign(1, no())]))]),
    ]
}

/// Labels on declarations in front of the code.
fn labels() -> Vec<Node> {
    let never = || binary(6, num(1.0), num(2.0));
    let always = || binary(6, num(1.0), num(1.0));
    let branch =
        |cond: Node, then: Vec<Node>, other: Vec<Node>| if_(cond, block(then), vec![], other);
    let elif = |cond: Node, then: Vec<Node>, elifs: Vec<(Node, Node)>, other: Vec<Node>| {
        if_(cond, block(then), elifs, other)
    };
    vec![
        program(vec![branch(never(), vec![], vec![silent(1)])]),
        program(vec![branch(never(), vec![], vec![silent(1), decl(3, None)])]),
        program(vec![silent(2), branch(never(), vec![], vec![silent(1)]), decl(3, None)]),
        program(vec![silent(2), branch(never(), vec![], vec![silent(1), decl(3, None)])]),
        program(vec![branch(always(), vec![silent(1)], vec![decl(3, None)])]),
        program(vec![branch(never(), vec![silent(1)], vec![decl(3, None)]), silent(2)]),
        program(vec![decl(3, None), silent(1), decl(4, None), silent(2), stmt(call(1, vec![]))]),
        program(vec![
            function(1, &[], block(vec![branch(never(), vec![], vec![decl(3, None)]), give(None)])),
            stmt(call(1, vec![])),
        ]),
        program(vec![elif(
            never(),
            vec![],
            vec![(always(), block(vec![silent(1)])), (never(), block(vec![]))],
            vec![silent(2)],
        )]),
        program(vec![elif(
            never(),
            vec![silent(1)],
            vec![(never(), block(vec![silent(2)]))],
            vec![silent(3), stmt(call(2, vec![]))],
        )]),
        program(vec![stmt(call(1, vec![])), silent(1), branch(never(), vec![], vec![])]),
        program(vec![elif(call(1, vec![]), vec![], vec![(yes(), block(vec![]))], vec![silent(1)])]),
    ]
}

fn loops_over_calls() -> Vec<Node> {
    let list = || giving(1, name(2));
    let items = || set_array(2, vec![num(4.0), num(5.0)]);
    let over =
        |index: u8, item: u8, body: Vec<Node>| for_(index, item, call(1, vec![]), block(body));
    vec![
        program(vec![list(), items(), over(3, 4, vec![set(5, name(4))])]),
        program(vec![list(), over(3, 4, vec![])]),
        program(vec![silent(1), over(3, 4, vec![])]),
        program(vec![over(3, 4, vec![])]),
        program(vec![list(), items(), over(0, 4, vec![])]),
        program(vec![list(), items(), over(3, 0, vec![])]),
        program(vec![list(), items(), over(3, 4, vec![over(5, 6, vec![set(7, name(6))])])]),
        program(vec![list(), items(), over(3, 4, vec![set_array(2, vec![])])]),
        program(vec![list(), items(), over(3, 4, vec![set_array(0, vec![num(1.0)])])]),
        // The loop's register and the call's: the call comes between.
        program(vec![
            function(1, &[8], block(vec![give(Some(name(2)))])),
            items(),
            for_(3, 4, call(1, vec![num(9.0)]), block(vec![])),
            set(5, name(0)),
        ]),
        // A loop left by a return, and a loop entered again from inside.
        program(vec![
            items(),
            function(
                1,
                &[],
                block(vec![for_(3, 4, name(2), block(vec![give(Some(name(4)))])), give(None)]),
            ),
            set(5, call(1, vec![])),
        ]),
        program(vec![
            items(),
            set(6, num(0.0)),
            function(
                1,
                &[],
                block(vec![
                    stmt(assign(6, binary(1, name(6), num(1.0)))),
                    for_(
                        3,
                        4,
                        name(2),
                        block(vec![if_(
                            binary(8, name(6), num(3.0)),
                            block(vec![stmt(call(1, vec![]))]),
                            vec![],
                            vec![],
                        )]),
                    ),
                    give(None),
                ]),
            ),
            stmt(call(1, vec![])),
        ]),
    ]
}

/// Infinities and NaN as parameters, given back, assigned inside an expression, as an index there.
fn special_numbers() -> Vec<Node> {
    let infinite = || value(f64::INFINITY);
    let minus = || function(1, &[2, 3], block(vec![give(Some(binary(2, name(2), name(3))))]));
    let negative = || value(f64::NEG_INFINITY);
    let mut out = vec![
        program(vec![minus(), set(4, call(1, vec![infinite(), negative()]))]),
        program(vec![minus(), set(4, call(1, vec![infinite(), infinite()]))]),
        program(vec![minus(), set(4, call(1, vec![value(f64::NAN), num(1.0)])), set(5, name(2))]),
        program(vec![set(3, binary(1, assign(4, negative()), num(1.0)))]),
    ];
    let given = || call(1, vec![]);
    let after = |number: f64, last: Node| program(vec![giving(1, value(number)), last]);
    for number in [f64::NAN, f64::INFINITY, f64::NEG_INFINITY] {
        out.push(after(number, set(2, binary(6, given(), given()))));
    }
    out.push(after(f64::NAN, set(2, table(vec![(1, given())]))));
    out.push(after(f64::NAN, if_(given(), block(vec![]), vec![], vec![])));
    out.push(after(f64::INFINITY, for_(2, 3, given(), block(vec![]))));
    out.push(after(f64::INFINITY, set(3, mutate(2, given(), num(1.0)))));
    out
}
