//! The pages that are measured. heavy and page are kept as files; the others are made here, each to
//! stress one thing, and kept as files too (`bench/run pages` writes them).

use oracle::tree::*;

/// Each page, with what it stresses and the name whose number Lua has to leave as well.
pub const PAGES: [(&str, &str, &str); 6] = [
    ("heavy", "three nested loops", "v"),
    ("page", "a worksheet: sums, %, branches", "s"),
    ("calls", "functions and stacks", "s"),
    ("tables", "tables built and copied", "s"),
    ("copies", "arrays copied and written to", "s"),
    ("branches", "branches and comparisons", "s"),
];

/// The tree file of a page.
pub fn file(folder: &str, page: &str) -> Result<Vec<u8>, String> {
    let path = format!("{folder}/{page}.tree");
    std::fs::read(&path).map_err(|e| format!("{path}: {e}"))
}

/// The number of a text in a file.
pub fn text_number(file: &[u8], word: &str) -> Option<u8> {
    let (nodes, texts) = (usize::from(file[0]) << 8 | usize::from(file[1]), usize::from(file[2]));
    let mut at = 3 + texts + 2 * nodes;
    (0..texts).find_map(|number| {
        let from = at;
        at += usize::from(file[3 + number]);
        (&file[from..at] == word.as_bytes()).then_some(number as u8)
    })
}

/// Texts 1 on, one letter each.
const LETTERS: &str = "abcdefghijklmnopqrstuvwxyz";

fn t(word: char) -> u8 {
    1 + LETTERS.find(word).expect("a letter") as u8
}

fn n(word: char) -> Node {
    name(t(word))
}

fn let_(word: char, right: Node) -> Node {
    stmt(assign(t(word), right))
}

fn sum(left: Node, right: Node) -> Node {
    binary(1, left, right)
}

fn product(left: Node, right: Node) -> Node {
    binary(3, left, right)
}

fn greater(left: Node, right: Node) -> Node {
    binary(10, left, right)
}

/// A list a of 1 to 24, s from 0, and two nested loops over it: index i, item v, index j, item w.
fn nested(before: Vec<Node>, body: Vec<Node>) -> Vec<u8> {
    let items = (1..=24).map(|n| num(f64::from(n))).collect();
    let inner = for_(t('j'), t('w'), n('a'), block(body));
    let outer = for_(t('i'), t('v'), n('a'), block(vec![inner]));
    let mut all = before;
    all.extend([set_array(t('a'), items), set(t('s'), num(0.0)), outer]);
    let mut texts = vec![b"fortmp".to_vec()];
    texts.extend(LETTERS.bytes().map(|letter| vec![letter]));
    Parts::new(&program(all), texts).bytes()
}

/// g(x, y) gives x * y + x; f(p, q) calls it and gives its half and q more.
fn calls() -> Vec<u8> {
    let value = sum(product(n('x'), n('y')), n('x'));
    let g = function(t('g'), &[t('x'), t('y')], block(vec![give(Some(value))]));
    let inside = set(t('h'), call(t('g'), vec![n('q'), n('p')]));
    let value = sum(binary(4, n('h'), num(2.0)), n('q'));
    let f = function(t('f'), &[t('p'), t('q')], block(vec![inside, give(Some(value))]));
    let body =
        vec![set(t('u'), call(t('f'), vec![n('v'), n('w')])), let_('s', sum(n('s'), n('u')))];
    nested(vec![g, f], body)
}

/// A table of eight keys, built anew and copied in each turn.
fn tables() -> Vec<u8> {
    let values =
        [n('v'), n('w'), sum(n('v'), n('w')), num(1.0), n('i'), n('j'), n('s'), text(t('z'))];
    let items = "bcdefghk".chars().map(t).zip(values).collect();
    let body = vec![set(t('t'), table(items)), set(t('u'), n('t')), let_('s', sum(n('s'), n('w')))];
    nested(vec![], body)
}

/// The list copied, an item of the copy set, and the copy copied.
fn copies() -> Vec<u8> {
    let body = vec![
        set(t('b'), n('a')),
        stmt(mutate(t('b'), n('j'), n('v'))),
        set(t('c'), n('b')),
        let_('s', sum(n('s'), n('w'))),
    ];
    nested(vec![], body)
}

/// A chain of conditions, with and, or, not.
fn branches() -> Vec<u8> {
    let add = |value: f64| block(vec![let_('s', sum(n('s'), num(value)))]);
    let both = |left, right| binary(11, left, right);
    let either = |left, right| binary(12, left, right);
    let less = |left, right| binary(8, left, right);
    let chain = if_(
        both(greater(n('v'), n('w')), less(n('v'), num(7.0))),
        add(1.0),
        vec![
            (either(less(n('w'), num(4.0)), binary(6, n('v'), n('w'))), add(2.0)),
            (unary(1, less(n('v'), num(20.0))), add(3.0)),
            (greater(binary(2, n('w'), n('v')), num(9.0)), add(4.0)),
        ],
        vec![let_('s', sum(n('s'), num(0.5)))],
    );
    let last = if_(greater(n('s'), num(500.0)), block(vec![let_('s', num(0.0))]), vec![], vec![]);
    nested(vec![], vec![chain, last])
}

/// Writes the files of the pages that are made here.
pub fn write(folder: &str) -> Result<(), String> {
    for (page, file) in
        [("calls", calls()), ("tables", tables()), ("copies", copies()), ("branches", branches())]
    {
        let path = format!("{folder}/{page}.tree");
        std::fs::write(&path, file).map_err(|e| format!("{path}: {e}"))?;
    }
    Ok(())
}
