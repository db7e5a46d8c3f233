//! The cases 1 to 11 of document 01: their files, and what is stated of each; cases 4 and 5 as
//! document 02, M-103 and M-100, changes them.

use crate::listing::listing;
use crate::tree::*;

/// Checks all cases; prints a line for each.
pub fn check() -> Result<(), String> {
    let mut failed = 0;
    for (number, what, held) in all() {
        println!("case {number}: {what}: {}", if held { "as stated" } else { "NOT as stated" });
        failed += usize::from(!held);
    }
    if failed == 0 {
        Ok(())
    } else {
        Err(format!("{failed} cases not as stated"))
    }
}

/// Case 2's tree: array a of 1, 2, 3; for i, v in a, s = v.
pub fn example() -> Node {
    let (a, i, s, v) = (1, 2, 3, 4);
    let items = vec![num(1.0), num(2.0), num(3.0)];
    let body = block(vec![stmt(assign(s, name(v)))]);
    program(vec![set_array(a, items), for_(i, v, name(a), body)])
}

/// The file of case 2, with the names as texts.
pub fn example_file() -> Vec<u8> {
    let texts = [&b"fortmp"[..], b"a", b"i", b"s", b"v"];
    Parts::new(&example(), texts.iter().map(|t| t.to_vec()).collect()).bytes()
}

fn all() -> Vec<(u8, &'static str, bool)> {
    vec![
        (1, "the file of the listing", case_1()),
        (2, "a loop over three items", case_2()),
        (3, "a condition that holds, and one that does not", case_3()),
        (4, "indexes 2.9 and -7.9 stop, as document 02 has it", case_4()),
        (5, "b = True leaves true, as document 02 has it", case_5()),
        (6, "the empty Program", case_6()),
        (7, "f(1, 2) gives the first parameter 2", case_7()),
        (8, "line -1 inside a function", case_8()),
        (9, "24 items and 25", case_9()),
        (10, "96 registers and 97", case_10()),
        (11, "call depth 24 and 25", case_11()),
    ]
}

fn list(root: &Node) -> String {
    listing(&file_of(root))
}

fn has(listing: &str, lines: &[&str]) -> bool {
    lines.iter().all(|line| listing.lines().any(|own| own == *line))
}

fn count_of_ops(listing: &str) -> usize {
    listing.lines().filter(|line| line.starts_with("op ")).count()
}

fn case_1() -> bool {
    let mut file = vec![0, 3, 2, 6, 1, 1, 1, 8, 1, 0x13, 0];
    file.extend(b"fortmpx");
    file.extend([1, 0x40, 0, 0, 0, 0, 0, 0, 0]);
    let stated = "start 0\nop 0 0 Stc Num:4000000000000000 1\nlabel 0 0\nbound 1\nend done 1\n\
                  held 1\nname 1 Num:4000000000000000\n";
    listing(&file) == stated
}

fn case_2() -> bool {
    let text = listing(&example_file());
    count_of_ops(&text) == 11
        && has(&text, &["label 1 3", "bound 27", "end done 27", "name 3 Num:4008000000000000"])
}

fn case_3() -> bool {
    let script = |x: f64| {
        let body = block(vec![set(2, num(1.0))]);
        program(vec![set(1, num(x)), if_(binary(6, name(1), num(1.0)), body, vec![], vec![])])
    };
    let held = list(&script(1.0));
    let not_held = list(&script(2.0));
    has(&held, &["label 1 5", "label 2 7", "bound 8", "end done 8", "held 2"])
        && has(&not_held, &["end done 6", "held 1"])
}

fn case_4() -> bool {
    let script = |index: Node| {
        let items = vec![num(1.0), num(2.0), num(3.0)];
        program(vec![set_array(1, items), stmt(mutate(1, index, num(9.0)))])
    };
    let left = "name 1 Arr:[Num:3ff0000000000000,Num:4000000000000000,Num:4008000000000000]";
    has(&list(&script(num(2.9))), &["end stopped 3 38 4", "held 1", left])
        && has(&list(&script(unary(2, num(7.9)))), &["end stopped 4 38 5", "held 1", left])
}

fn case_5() -> bool {
    has(&list(&program(vec![set(1, yes())])), &["op 0 0 Stc Bl:1 1", "name 1 Bl:1"])
}

fn case_6() -> bool {
    let text = list(&program(vec![]));
    text == "start 0\nop 0 0 Nop\nlabel 0 0\nbound 1\nend done 1\nheld 0\n"
}

fn case_7() -> bool {
    let script = program(vec![
        function(1, &[2, 3], block(vec![give(None)])),
        stmt(call(1, vec![num(1.0), num(2.0)])),
    ]);
    let names = ["name 2 Num:4000000000000000", "name 3 Num:3ff0000000000000", "bound none"];
    has(&list(&script), &names)
}

fn case_8() -> bool {
    let body = block(vec![stmt(name(2)), give(None)]);
    let script = program(vec![function(1, &[], body), stmt(call(1, vec![]))]);
    has(&list(&script), &["start 3", "fn 1 0", "end stopped 1 20 -1 2", "held 0"])
}

fn array_of(items: usize) -> Node {
    program(vec![set_array(1, vec![num(1.0); items])])
}

fn registers(count: usize) -> Node {
    program(vec![stmt(num(1.0)); count])
}

/// The files of cases 9 to 11.
pub fn shown() -> [(&'static str, Vec<u8>); 6] {
    [
        ("24 items", array_of(24)),
        ("25 items", array_of(25)),
        ("96 registers", registers(96)),
        ("97 registers", registers(97)),
        ("call depth 24", call_depth(24)),
        ("call depth 25", call_depth(25)),
    ]
    .map(|(name, root)| (name, file_of(&root)))
}

fn case_9() -> bool {
    has(&list(&array_of(24)), &["end done 1"]) && list(&array_of(25)) == "refused 4\n"
}

fn case_10() -> bool {
    has(&list(&registers(96)), &["end done 96"]) && list(&registers(97)) == "refused 7\n"
}

fn case_11() -> bool {
    has(&list(&call_depth(24)), &["name 2 Num:4038000000000000"])
        && list(&call_depth(24)).contains("\nend done ")
        && list(&call_depth(25)).lines().any(|line| stopped_with(line, "35"))
}

fn stopped_with(line: &str, number: &str) -> bool {
    let words: Vec<&str> = line.split(' ').collect();
    words[..2] == ["end", "stopped"] && words[3] == number
}

/// A function that calls itself until the calls are so deep.
pub fn call_depth(depth: usize) -> Node {
    let (f, n) = (1, 2);
    let deeper = if_(
        binary(8, name(n), num(depth as f64)),
        block(vec![stmt(call(f, vec![]))]),
        vec![],
        vec![],
    );
    let body = block(vec![stmt(assign(n, binary(1, name(n), num(1.0)))), deeper, give(None)]);
    program(vec![function(f, &[], body), set(n, num(0.0)), stmt(call(f, vec![]))])
}
