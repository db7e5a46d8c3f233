//! The tree files of examples/, their listings and their pages.

use std::fs;

use crate::cases::example_file;
use crate::listing::listing;
use crate::page::page;
use crate::tree::*;

/// A script over texts by their words; the texts of a file ascend.
struct Words {
    texts: Vec<&'static str>,
}

impl Words {
    fn new(mut words: Vec<&'static str>) -> Words {
        words.sort_unstable();
        words.insert(0, "fortmp");
        Words { texts: words }
    }

    fn at(&self, word: &str) -> u8 {
        self.texts.iter().position(|text| *text == word).expect("a word of the list") as u8
    }

    fn file(&self, root: &Node) -> Vec<u8> {
        Parts::new(root, self.texts.iter().map(|t| t.as_bytes().to_vec()).collect()).bytes()
    }
}

/// Writes each example's tree file, listing and page.
pub fn write(folder: &str) -> Result<(), String> {
    fs::create_dir_all(folder).map_err(|e| e.to_string())?;
    for (name, file) in [
        ("loop", example_file()),
        ("worksheet", worksheet()),
        ("past_the_end", past_the_end()),
        ("no_index", no_index()),
        ("long", long()),
    ] {
        let write = |ending: &str, bytes: &[u8]| {
            fs::write(format!("{folder}/{name}.{ending}"), bytes).map_err(|e| e.to_string())
        };
        write("tree", &file)?;
        write("listing", listing(&file).as_bytes())?;
        write("txt", page(&file)?.as_bytes())?;
    }
    Ok(())
}

/// Sums, a table, branches, an array written to.
fn worksheet() -> Vec<u8> {
    let w = Words::new(vec![
        "Sums", "even", "halves", "i", "large", "mean", "n", "numbers", "page", "rest", "size",
        "small", "sum", "title", "total", "unset", "copy", "known",
    ]);
    let t = |word: &str| w.at(word);
    let n = |word: &str| name(w.at(word));
    let list = |values: &[f64]| values.iter().map(|value| num(*value)).collect::<Vec<Node>>();
    let body = block(vec![
        stmt(assign(t("sum"), binary(1, n("sum"), n("n")))),
        stmt(mutate(t("halves"), n("i"), binary(4, n("n"), num(2.0)))),
    ]);
    let sizes = if_(
        binary(10, n("sum"), num(100.0)),
        block(vec![set(t("size"), text(t("large")))]),
        vec![],
        vec![set(t("size"), text(t("small")))],
    );
    let root = program(vec![
        set_array(t("numbers"), list(&[12.0, 7.5, 31.0, -4.25, 60.0])),
        set_array(t("halves"), list(&[0.0; 5])),
        set(t("sum"), num(0.0)),
        for_(t("i"), t("n"), n("numbers"), body),
        set(t("mean"), binary(4, n("sum"), num(5.0))),
        set(t("rest"), binary(5, n("sum"), num(7.0))),
        set(t("even"), binary(6, binary(5, n("sum"), num(2.0)), num(0.0))),
        sizes,
        set(t("page"), table(vec![(t("total"), n("sum")), (t("title"), text(t("Sums")))])),
        set(t("copy"), name(t("unset"))),
        set(t("known"), unary(1, n("even"))),
    ]);
    w.file(&root)
}

/// An item past an array's end.
fn past_the_end() -> Vec<u8> {
    let w = Words::new(vec!["a", "b"]);
    let root = program(vec![
        set_array(w.at("a"), vec![num(1.0), yes(), text(w.at("b"))]),
        set(w.at("b"), num(0.1)),
        stmt(mutate(w.at("a"), num(3.0), num(2.0))),
        set(w.at("b"), num(1e300)),
    ]);
    w.file(&root)
}

/// An item at a number that is no index.
fn no_index() -> Vec<u8> {
    let w = Words::new(vec!["cells", "second"]);
    let root = program(vec![
        set_array(w.at("cells"), vec![num(1.0), num(2.0), num(3.0)]),
        set(w.at("second"), access(w.at("cells"), num(2.5))),
    ]);
    w.file(&root)
}

/// More steps than a page is given.
fn long() -> Vec<u8> {
    let w = Words::new(vec!["a", "i", "v", "times"]);
    let add = stmt(assign(w.at("times"), binary(1, name(w.at("times")), num(1.0))));
    let nest = (0..4).fold(block(vec![add]), |body, _| {
        block(vec![for_(w.at("i"), w.at("v"), name(w.at("a")), body)])
    });
    let items = (0..24).map(|n| num(f64::from(n) / 3.0)).collect();
    w.file(&program(vec![set_array(w.at("a"), items), set(w.at("times"), num(0.0)), nest]))
}
