//! The reading of a text: what each form means, and errors by line and column.

use sif::parse::{parse, parse_bytes};
use sif::show::show;

/// The text that a script is shown as, which is the same for all ways of writing it.
fn shown(text: &str) -> String {
    match parse(text) {
        Ok(parsed) => show(&parsed.script),
        Err(error) => panic!("{error}\n{text}"),
    }
}

/// The place of the error, and its words.
fn error(text: &str) -> (usize, usize, String) {
    match parse(text) {
        Ok(parsed) => panic!("read as\n{}", show(&parsed.script)),
        Err(error) => (error.at.line, error.at.column, error.words),
    }
}

fn same(text: &str) {
    assert_eq!(shown(text), text);
}

#[test]
fn shown_forms_stay() {
    for text in [
        "",
        "var x\n",
        "var x = -2\n",
        "var x = -(2)\n",
        "var x = -(-2)\n",
        "var x = -y\n",
        "var x = -(-y)\n",
        "var x = !-y\n",
        "var x = !-2\n",
        "var x = -!y\n",
        "var x = !!y\n",
        "var x = -0\n",
        "var x = -(0)\n",
        "var x = 5e-324\n",
        "var x = -1.7976931348623157e308\n",
        "var x = `inf` + -`nan`\n",
        "`inf` = `nan`(1)\n",
        "var x = {\"inf\": \"nan\", info: nano}\n",
        "var x = a - -2\n",
        "var x = a - (b - c)\n",
        "var x = a - b - c\n",
        "var x = (a + b) * c\n",
        "var x = a + b * c\n",
        "var x = -(a + b)\n",
        "var x = !(a && b) || c == d + 1\n",
        "var x = a || b && c\n",
        "var x = (a || b) && c\n",
        "var x = a == b < c\n",
        "var x = a < b == c\n",
        "var x = (a == b) < c\n",
        "var x = [1, -2, \"x\", true, false]\n",
        "var x = []\n",
        "var x = [] as y\n",
        "x = [1] as `as`\n",
        "var x = {}\n",
        "var x = {a: 1, \"two words\": (b = 2), \"if\": f(1)}\n",
        "var x = cells[i + 1]\n",
        "x = cells[2]\n",
        "cells[i] = v\n",
        "x = (cells[i] = v)\n",
        "x = (y = [1, 2] as z)\n",
        "x = (y = cells[0])\n",
        "f((x = 1), (a[0] = 2), true)\n",
        "f()\n",
        "`two words`(1)\n",
        "x\n",
        "\"text\"\n",
        "1 + 2\n",
        "true\n",
        "`` = 1\n",
        "`a\\`b\\\\` = \"say \\\"no\\\" \\\\\"\n",
        "if x:\n    empty\n",
        "if x:\n    empty\nelif y:\n    a = 1\nelse:\n    block:\n        empty\n",
        "block:\n    x\n    block:\n        empty\n",
        "for i, v in a:\n    empty\n",
        "for i, v in f(a, 1):\n    for j, w in b:\n        x\n",
        "fn f():\n    return\n",
        "fn f(a, b, a):\n    return a + b\n",
        "var x = 1\n\nfn f():\n    empty\n\nfn g():\n    empty\n\nx = 2\n",
        "x\nunused \"\"\nunused \"a \\\"quote\\\"\"\n",
        "fortmp = fortmp\n",
    ] {
        same(text);
    }
}

#[test]
fn other_ways_of_writing() {
    assert_eq!(shown("# nothing\n\n   # more\n"), "");
    assert_eq!(
        shown("\u{feff}x=1 # one\r\n\r\nif x==1 :\r\n\ty=2\r\n"),
        "x = 1\nif x == 1:\n    y = 2\n"
    );
    assert_eq!(shown("x = ((1)+(2))*3"), "x = (1 + 2) * 3\n");
    assert_eq!(shown("x = - 2"), "x = -2\n");
    assert_eq!(shown("x = --2"), "x = -(-2)\n");
    assert_eq!(shown("x = 2-1"), "x = 2 - 1\n");
    assert_eq!(shown("x = 1.50e1"), "x = 15\n");
    assert_eq!(shown("`x` = 1"), "x = 1\n");
    assert_eq!(shown("(x = 1)"), "x = 1\n");
    assert_eq!(shown("x = [1,\n2, # two\n\n3,]"), "x = [1, 2, 3]\n");
    assert_eq!(shown("x = {\n`a`: 1,\n\"b\": 2,\n}"), "x = {a: 1, b: 2}\n");
    assert_eq!(shown("x = (1 +\n    2)\ny = 3"), "x = 1 + 2\ny = 3\n");
    assert_eq!(
        shown("if x:\n  y\n  if z:\n        w\nv"),
        "if x:\n    y\n    if z:\n        w\nv\n"
    );
    assert_eq!(shown("unused \"b\", \"a\", \"x\"\nx"), "x\nunused \"a\"\nunused \"b\"\n");
    assert_eq!(shown("x = [1] as x"), "x = [1]\n");
}

#[test]
fn long_lines_are_broken() {
    let items = ["12345678.25"; 9].join(", ");
    let broken = "var cells = [\n    12345678.25, 12345678.25, 12345678.25, 12345678.25, \
                  12345678.25,\n    12345678.25, 12345678.25, 12345678.25, 12345678.25,\n] as row\n";
    assert_eq!(shown(&format!("var cells = [{items}] as row")), broken);
    same(broken);
    let table = "if x:\n    t = {\n        \"a key with quite a number of words\": 1,\n        \
                 \"another key with quite many words\": 2,\n    }\n";
    same(table);
}

#[test]
fn places_of_errors() {
    let at = |text: &str| {
        let (line, column, _) = error(text);
        (line, column)
    };
    assert_eq!(at("x = 1\ny = "), (2, 4));
    assert_eq!(at("x = 1 2"), (1, 7));
    assert_eq!(at("x = (1 + 2\ny = 3\n"), (1, 5));
    assert_eq!(at("x = 1)"), (1, 6));
    assert_eq!(at("x = [1, 2)"), (1, 10));
    assert_eq!(at("x = \"text\ny = 1"), (1, 5));
    assert_eq!(at("x = \"t\u{e9}xt\""), (1, 7));
    assert_eq!(at("# \u{e9}\u{e9}\nx = \u{e9}"), (2, 5));
    assert_eq!(at("if x == 1\n    y"), (1, 10));
    assert_eq!(at("if x == 1: y"), (1, 12));
    assert_eq!(at("if x:\ny = 1"), (1, 6));
    assert_eq!(at("if x:"), (1, 6));
    assert_eq!(at("if x:\n    y\n  z"), (3, 3));
    assert_eq!(at("if x:\n    y\n\tz"), (3, 2));
    assert_eq!(at("  x"), (1, 3));
    assert_eq!(at("x\n    y"), (2, 5));
    assert_eq!(at("else:\n    x"), (1, 1));
    assert_eq!(at("for i in a:\n    x"), (1, 7));
    assert_eq!(at("for i, v in 3:\n    x"), (1, 13));
    assert_eq!(at("for i, v in a + b:\n    x"), (1, 15));
    assert_eq!(at("var if = 1"), (1, 5));
    assert_eq!(at("var x 1"), (1, 7));
    assert_eq!(at("fn f(1):\n    x"), (1, 6));
    assert_eq!(at("x = y = 1"), (1, 7));
    assert_eq!(at("x = 1 + a[2]"), (1, 10));
    assert_eq!(at("x = a[2] + 1"), (1, 10));
    assert_eq!(at("a[2]"), (1, 1));
    assert_eq!(at("f([1, 2])"), (1, 3));
    assert_eq!(at("x = [1, y]"), (1, 9));
    assert_eq!(at("x = [1 2]"), (1, 8));
    assert_eq!(at("x = {a 1}"), (1, 8));
    assert_eq!(at("x = 12a"), (1, 5));
    assert_eq!(at("x = .5"), (1, 5));
    assert_eq!(at("if x:\n    empty\n    y"), (3, 5));
    assert_eq!(at("if x:\n    y\nelse:\n    empty"), (3, 1));
    assert_eq!(at("if x:\n    unused \"y\""), (2, 5));
    assert_eq!(at("x = 'text'"), (1, 5));
    assert_eq!(at("x = \"a\\n\""), (1, 7));
    assert_eq!(parse_bytes(b"x = 1\n\xff").unwrap_err().at.line, 2);
    assert_eq!(parse_bytes(b"\xef\xbb\xbfx = \xff").unwrap_err().at.column, 5);
    // Lines that end with a carriage return alone are not one line, nor one comment.
    assert_eq!(at("x = 1\ry = 2\r"), (1, 6));
    assert_eq!(at("# one\rx = 1\r"), (1, 6));
}

#[test]
fn words_of_errors() {
    let words = |text: &str| error(text).2;
    assert!(words("if x = 1:\n    y").contains("to compare, write =="));
    assert!(words("x = 1;").contains("the end of the line ends a statement"));
    assert!(words("x = a & b").contains("&&"));
    assert!(words("x = \u{201c}text\u{201d}").contains("straight double quotes"));
    assert!(words("if x:\ny").contains("the word empty"));
    let advice =
        "an item is first given to a name, as in x = cells[2]; the expression then takes x";
    for text in ["x = 3 + cells[2]", "x = cells[2] + 3", "if cells[2]:\n    y", "f(cells[2])"] {
        assert!(words(text).ends_with(advice), "{text}");
    }
    assert!(words("cells[2]").ends_with("or set, as in cells[2] = 1"));
    assert!(words("var in = 1").contains("`in`"));
    assert!(words("if x and y:\n    z").contains("&&"));
    assert!(words("x = y or z").contains("||"));
    assert!(words("x = not y").contains("!"));
    assert!(words("while x < 3:\n    y").contains("for i, v in cells"));
    assert!(words("if x:\n    y\nelse if z:\n    y").contains("elif"));
    assert!(words("x += 1").contains("x = x + 1"));
    assert!(words("x = 1,5").contains("1.5"));
    for text in ["for i, v in 3:\n    y", "for i, v in cells[2]:\n    y"] {
        assert!(words(text).ends_with("as in for i, v in cells"), "{text}");
    }
    assert!(words("# one\rx = 1\r").starts_with("the character 13 has no meaning"));
    assert!(words("x = .5").contains("0.5"));
    assert!(words("x = 'text'").starts_with("`'` has no meaning"));
    assert!(words("caf\u{e9} = 1").contains("letters a to z"));
    assert!(words("x = \"\u{7}\"").starts_with("the character 7 cannot stand"));
    assert!(words("var 2x = 1").contains("names do not begin with a digit"));
}

/// `inf` and `nan`, once numbers, are refused wherever they stand; as names they are in backquotes.
#[test]
fn no_words_for_numbers() {
    let inf = "the numbers of a script are finite; 1 / 0 gives inf; as a name this word is \
               written in backquotes, `inf`";
    let nan = "the numbers of a script are finite; 0 / 0 gives nan; as a name this word is \
               written in backquotes, `nan`";
    let rows = [
        ("x = inf", 1, 5, inf),
        ("x = -inf", 1, 6, inf),
        ("x = -(inf)", 1, 7, inf),
        ("y = 1\nvar x = 1 + nan", 2, 13, nan),
        ("x = -nan", 1, 6, nan),
        ("x = nan(fff8000000000001)", 1, 5, nan),
        ("x = [1, inf]", 1, 9, inf),
        ("x = [1,\n     -inf]", 2, 7, inf),
        ("x = [nan(7ff8000000000001), nan]", 1, 6, nan),
        ("x = {k: nan}", 1, 9, nan),
        ("x = cells[inf]", 1, 11, inf),
        ("cells[0] = inf", 1, 12, inf),
        ("f(1, nan)", 1, 6, nan),
        ("if x == inf:\n    empty", 1, 9, inf),
        ("fn f():\n    return -inf", 2, 13, inf),
        ("inf", 1, 1, inf),
        ("inf = 3", 1, 1, inf),
        ("var nan", 1, 5, nan),
        ("for inf, v in cells:\n    empty", 1, 5, inf),
        ("fn nan(a):\n    return", 1, 4, nan),
        ("x = {inf: 1}", 1, 6, inf),
    ];
    for (text, line, column, words) in rows {
        assert_eq!(error(text), (line, column, words.into()), "{text}");
    }
    assert_eq!(shown("x = \"inf\"  # nan\n"), "x = \"inf\"\n");
    let words = "`/` cannot stand here: the items of an array are numbers, texts, true and false; \
                 others are set afterwards, as in cells[1] = 1 / 0";
    assert_eq!(error("x = [10, 1 / 0]"), (1, 12, words.into()));
}

/// Numbers at the borders: what would be infinite or nothing is told, and never taken as that.
#[test]
fn numbers_at_the_borders() {
    let large = "this number is too large; the largest is about 1.797e308";
    let small = "this number is too near 0; the smallest above 0 is about 5e-324";
    let rows = [
        ("x = 1e999", 1, 5, large),
        ("x = -1e999", 1, 6, large),
        ("x = 1.7976931348623159e308", 1, 5, large),
        ("y = 2\nx = [1, -1.8e308]", 2, 10, large),
        ("x = 1e-999", 1, 5, small),
        ("x = -2e-324", 1, 6, small),
    ];
    for (text, line, column, words) in rows {
        assert_eq!(error(text), (line, column, words.into()), "{text}");
    }
    let largest = "x = 1.7976931348623157e308\n";
    assert_eq!(shown("x = 1.7976931348623158e308"), largest);
    assert_eq!(shown("x = 3e-324"), "x = 5e-324\n");
    assert_eq!(shown("x = 1.797e308"), "x = 1.797e308\n");
    for text in [largest, "x = -5e-324\n", "x = 2.2250738585072014e-308\n", "x = [-0, 0]\n"] {
        same(text);
    }
}

#[test]
fn limits_by_place() {
    let items = |count: usize| format!("y = 1\nx = [{}]", vec!["1"; count].join(", "));
    parse(&items(24)).unwrap();
    assert_eq!(error(&items(25)), (2, 5, "Array with 25 items; it has at most 24".into()));
    assert_eq!(error(&items(300)), (2, 5, "Array with 300 items; it has at most 24".into()));
    let keys: Vec<_> = (0..256).map(|_| "k: 1").collect();
    let words = "Table with 256 items; it has at most 16";
    assert_eq!(error(&format!("x = {{{}}}", keys.join(", "))), (1, 5, words.into()));
    let call = format!("f({})", vec!["1"; 256].join(", "));
    assert_eq!(error(&call), (1, 1, "Call with 256 children; 255 is the most".into()));

    let long = format!("x = \"{}\"", "a".repeat(41));
    assert_eq!(error(&long), (1, 5, "41 characters; 40 is the most".into()));

    assert_eq!(error("x = {a: 1,\n a: 2}"), (2, 2, "key \"a\" twice in one table".into()));

    let text = "fn f():\n    fn g():\n        x\n";
    assert_eq!(error(text), (2, 5, "a function inside a function".into()));

    let loops = |count: usize| {
        let lines = (0..count).map(|n| format!("{}for i, v in a:\n", " ".repeat(n)));
        format!("{}{}x", lines.collect::<String>(), " ".repeat(count))
    };
    parse(&loops(8)).unwrap();
    assert_eq!(error(&loops(9)), (9, 9, "more than 8 loops in one another".into()));

    let names = |count: usize| (0..count).map(|n| format!("x{n}\n")).collect::<String>();
    parse(&names(63)).unwrap();
    assert_eq!(error(&names(64)).0, 64);

    let lines = |count: usize| "x\n".repeat(count);
    parse(&lines(255)).unwrap();
    assert_eq!((error(&lines(256)).0, error(&lines(256)).1), (1, 1));

    // A sum of 512 numbers has 1,023 nodes beside statement and Program.
    let long = format!("x\n{}", vec!["1"; 600].join(" + "));
    assert!(error(&long).2.contains("1024 nodes"));

    assert!(error(&"(".repeat(100_000)).2.contains("not closed"));
    let deep = format!("{}1{}", "(".repeat(90), ")".repeat(90));
    parse(&deep).unwrap();
    let deep = format!("{}1{}", "(".repeat(100_000), ")".repeat(100_000));
    assert!(error(&deep).2.contains("in one another"));
    assert!(error(&"!".repeat(100_000)).2.contains("in one another"));
    let blocks = (0..2000).map(|n| format!("{}block:\n", " ".repeat(n)));
    assert!(error(&blocks.collect::<String>()).2.contains("in one another"));
    assert!(error(&format!("x = {}1", "-!".repeat(16))).2.contains("32 is the most"));
}

/// No text makes the reading fail in another way than by an error.
#[test]
fn scratched_texts() {
    let text = "fn f(a, b):\n    return a + b\n\nvar x = [1, -2.5e3, \"t\", true] as `y z`\n\
                for i, v in x:\n    if v == 1e9:\n        x[i] = (v = {k: 1})\n    elif !v:\n        \
                empty\n    else:\n        f(1, 2)\nunused \"q\\\\\"\n";
    let mut number = 1u64;
    let mut next = |limit: usize| {
        number = number.wrapping_mul(6364136223846793005).wrapping_add(1442695040888963407);
        ((number >> 33) as usize) % limit
    };
    let signs = b"()[]{}\"`\\:=,.-+!&|#\n\t 1ae\xff\xc3\xa9";
    let (mut read, mut refused) = (0, 0);
    for _ in 0..50_000 {
        let mut bytes = text.as_bytes().to_vec();
        for _ in 0..1 + next(3) {
            let at = next(bytes.len());
            match next(3) {
                0 => drop(bytes.remove(at)),
                1 => bytes.insert(at, signs[next(signs.len())]),
                _ => bytes[at] = signs[next(signs.len())],
            }
        }
        match parse_bytes(&bytes) {
            Err(_) => refused += 1,
            Ok(parsed) => {
                read += 1;
                let again = parse(&show(&parsed.script)).unwrap();
                assert_eq!(again.script, parsed.script);
            }
        }
    }
    assert!(read > 1000 && refused > 1000, "{read} read, {refused} refused");
}
