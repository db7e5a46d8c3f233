//! What moved between two trees of the project, declaration by declaration and contract by contract: `reading/moved`.
use crate::antt::{outside, tokens, Led, Library, Need};
use crate::contracts::{imported, parts, resolve, Imports};
use crate::files::sources;
use std::collections::{BTreeMap, BTreeSet};
use std::path::Path;

/// The classes, in the order in which they are told.
#[derive(Clone, Copy, PartialEq, Eq, PartialOrd, Ord)]
enum Class {
    Believed,
    Inner,
    Law,
    Contract,
    Proof,
    Code,
}

impl Class {
    const ALL: [(Class, &'static str); 6] = [
        (Class::Believed, "definitions to believe"),
        (Class::Inner, "inner definitions"),
        (Class::Law, "laws"),
        (Class::Contract, "contracts"),
        (Class::Proof, "proofs"),
        (Class::Code, "code"),
    ];
}

/// Where the names of an item are looked up.
enum Cites {
    Antt(Need),
    /// a file of code
    Code(usize),
    Nothing,
}

/// A declaration, or a function with its contract. Its texts are without comments and layout.
struct Item {
    path: String,
    name: String,
    /// the text that counts in each class
    texts: Vec<(Class, String)>,
    /// of a function, its parameters and result
    signature: String,
    cites: Cites,
    cited: BTreeSet<String>,
}

impl Item {
    fn whole(&self) -> String {
        self.texts.iter().map(|(_, t)| t.as_str()).collect::<Vec<_>>().join(" ")
    }

    /// The text with another name in the place of the item's own.
    fn nameless(&self) -> String {
        let own = |w: &str| if w == self.name { "·" } else { w }.to_string();
        format!("{} {}", self.signature, self.whole()).split(' ').map(own).collect::<Vec<_>>().join(" ")
    }

    fn text(&self, class: Class) -> Option<&str> {
        self.texts.iter().find(|(c, _)| *c == class).map(|(_, t)| t.as_str())
    }
}

/// A tree of the project.
pub struct Tree {
    library: Library,
    code: Vec<(Imports, BTreeMap<String, String>)>,
    items: Vec<Item>,
    /// the items of antt by their places in the library
    places: BTreeMap<Need, usize>,
}

/// A text without its layout: words and brackets, one blank between them; no comma before a closing bracket.
fn plain(text: &str) -> String {
    let mut spaced = String::new();
    for c in text.chars() {
        if "(){}[],;".contains(c) {
            spaced.extend([' ', c, ' ']);
        } else {
            spaced.push(c);
        }
    }
    let words: Vec<&str> = spaced.split_whitespace().collect();
    let closes = |i: usize| words.get(i + 1).is_some_and(|w| [")", "]", "}"].contains(w));
    let kept = words.iter().enumerate().filter(|(i, w)| **w != "," || !closes(*i)).map(|(_, w)| *w);
    kept.collect::<Vec<_>>().join(" ")
}

impl Tree {
    pub fn read(root: &Path) -> Result<Tree, String> {
        Ok(Tree::of(sources(root, "antt")?, sources(root, "rt")?))
    }

    pub fn of(antt: Vec<(String, String)>, rt: Vec<(String, String)>) -> Tree {
        let library = Library::of(antt);
        let mut items = Vec::new();
        let mut places = BTreeMap::new();
        for (need, path, item) in library.items() {
            let (statement, body) = (plain(&item.statement), plain(&item.body));
            let whole = format!("{statement} {body}");
            let texts = match folder(path) {
                Class::Law if item.law => vec![(Class::Law, statement), (Class::Proof, body)],
                class => vec![(class, whole)],
            };
            places.insert(need, items.len());
            let cited = item.tokens.iter().cloned().collect();
            items.push(Item {
                path: path.to_string(),
                name: item.names[0].clone(),
                texts,
                signature: String::new(),
                cites: Cites::Antt(need),
                cited,
            });
        }
        for (path, fixity) in library.fixities() {
            let texts = vec![(folder(path), fixity.to_string())];
            let (path, name) = (path.to_string(), format!("infix {}", fixity.split(' ').next_back().unwrap_or("")));
            items.push(Item { path, name, texts, signature: String::new(), cites: Cites::Nothing, cited: BTreeSet::new() });
        }
        let mut code = Vec::new();
        for (path, text) in rt {
            for part in parts(&text) {
                let body = (Class::Code, plain(&part.body));
                let texts = if part.function { vec![(Class::Contract, plain(&part.contract)), body] } else { vec![body] };
                let cited = tokens(&part.contract).into_iter().collect();
                let cites = if part.function { Cites::Code(code.len()) } else { Cites::Nothing };
                items.push(Item { path: path.clone(), name: part.name, texts, signature: plain(&part.signature), cites, cited });
            }
            code.push(imported(&text));
        }
        Tree { library, code, items, places }
    }

    fn leads(&self, item: &Item, token: &str) -> Option<Led> {
        match item.cites {
            Cites::Antt((file, _)) => self.library.leads(file, token),
            Cites::Code(file) => {
                let (imports, aliases) = &self.code[file];
                resolve(&self.library, imports, aliases, token).map(Led::Here).or_else(|| outside(imports, aliases, token))
            }
            Cites::Nothing => None,
        }
    }
}

/// The class of what a file of antt has.
fn folder(path: &str) -> Class {
    match path.split('/').skip(2).collect::<Vec<_>>()[..] {
        ["specs", "inner", ..] => Class::Inner,
        ["specs", _] => Class::Believed,
        ["specs", ..] | ["proofs", "laws", ..] => Class::Law,
        _ => Class::Proof,
    }
}

fn crate_of(path: &str) -> &str {
    path.split('/').nth(1).unwrap_or("")
}

/// A file's place in its crate.
fn inside(path: &str) -> &str {
    path.splitn(3, '/').nth(2).unwrap_or("")
}

/// A file's place as it is told: without `crates/`, its ending and a proof's file name.
/// (A function's invariants and its answers are told as one proof.)
fn place(path: &str) -> &str {
    let path = path.strip_prefix("crates/").unwrap_or(path);
    let path = path.strip_suffix(".antt").or(path.strip_suffix(".rt")).unwrap_or(path);
    ["/Proof", "/Answers", "/Invariants"].iter().find_map(|file| path.strip_suffix(file)).unwrap_or(path)
}

/// How much of two texts is the same, from 0 to 1: words that both have, of all words.
fn alike(a: &str, b: &str) -> f64 {
    let mut left: BTreeMap<&str, usize> = BTreeMap::new();
    for word in a.split(' ') {
        *left.entry(word).or_default() += 1;
    }
    let mut both = 0;
    for word in b.split(' ') {
        if let Some(n) = left.get_mut(word).filter(|n| **n > 0) {
            *n -= 1;
            both += 1;
        }
    }
    2.0 * both as f64 / (a.split(' ').count() + b.split(' ').count()) as f64
}

/// For each item of the new tree the item of the old one that it was: of the same name in the same file; else of the same
/// name in another file, where at least half of the words are the same, first what is alike most (in `proofs/`, where many
/// items bear one name, all words, unless the crate or the place in it is the same); else the same text under another name.
fn partners(old: &[Item], new: &[Item]) -> Vec<Option<usize>> {
    let mut was: Vec<Option<usize>> = vec![None; new.len()];
    let mut taken = vec![false; old.len()];
    let mut named: BTreeMap<&str, Vec<usize>> = BTreeMap::new();
    for (o, item) in old.iter().enumerate() {
        named.entry(&item.name).or_default().push(o);
    }
    for exact in [true, false] {
        for (n, item) in new.iter().enumerate().filter(|(n, _)| was[*n].is_none()).collect::<Vec<_>>() {
            let same = |o: &&usize| !taken[**o] && old[**o].path == item.path && (!exact || old[**o].whole() == item.whole());
            if let Some(o) = named.get(item.name.as_str()).and_then(|os| os.iter().find(same)) {
                taken[*o] = true;
                was[n] = Some(*o);
            }
        }
    }
    let mut pairs = Vec::new();
    for (n, item) in new.iter().enumerate().filter(|(n, _)| was[*n].is_none()) {
        for o in named.get(item.name.as_str()).into_iter().flatten().filter(|o| !taken[**o]) {
            let nearer = (crate_of(&old[*o].path) == crate_of(&item.path), old[*o].path.rsplit('/').next() == item.path.rsplit('/').next());
            let alike = alike(&old[*o].whole(), &item.whole());
            let strange = item.texts[0].0 == Class::Proof && !nearer.0 && inside(&old[*o].path) != inside(&item.path);
            if alike >= if strange { 1.0 } else { 0.5 } {
                pairs.push(((alike * 1000.0) as u64, nearer, *o, n));
            }
        }
    }
    pairs.sort_by(|a, b| (b.0, b.1).cmp(&(a.0, a.1)).then((a.2, a.3).cmp(&(b.2, b.3))));
    for (_, _, o, n) in pairs {
        if was[n].is_none() && !taken[o] {
            taken[o] = true;
            was[n] = Some(o);
        }
    }
    let proof = |item: &Item| item.texts[0].0 == Class::Proof;
    let mut nameless: BTreeMap<String, Vec<usize>> = BTreeMap::new();
    for (o, item) in old.iter().enumerate().filter(|(o, item)| !taken[*o] && !proof(item)) {
        nameless.entry(item.nameless()).or_default().push(o);
    }
    for (n, item) in new.iter().enumerate().filter(|(n, item)| was[*n].is_none() && !proof(item)).collect::<Vec<_>>() {
        if let Some(o) = nameless.get_mut(&item.nameless()).and_then(Vec::pop) {
            was[n] = Some(o);
        }
    }
    was
}

/// What is told of a crate in a class; names, or of proofs the files.
#[derive(Default)]
struct Told {
    moved: Vec<String>,
    new: Vec<String>,
    gone: Vec<String>,
    stayed: Vec<String>,
    /// the same text, in another file: from where to where
    elsewhere: BTreeMap<(String, String), Vec<String>>,
    /// the same text, and a name in it that leads to another item
    cites: Vec<String>,
}

impl Told {
    fn counts(&self) -> [usize; 5] {
        let elsewhere: usize = self.elsewhere.values().map(Vec::len).sum();
        [self.moved.len(), self.new.len(), self.gone.len(), self.stayed.len() + elsewhere, elsewhere]
    }

    fn all_stayed(&self) -> bool {
        self.moved.len() + self.new.len() + self.gone.len() + self.elsewhere.len() + self.cites.len() == 0
    }
}

/// The comparison, as text.
pub fn compare(old: &Tree, new: &Tree, names: bool) -> String {
    let was = partners(&old.items, &new.items);
    let mut told: BTreeMap<(Class, String), Told> = BTreeMap::new();
    for (n, item) in new.items.iter().enumerate() {
        let before = was[n].map(|o| &old.items[o]);
        for (class, text) in &item.texts {
            let told = told.entry((*class, crate_of(&item.path).to_string())).or_default();
            let name = label(item, *class, names);
            let Some(before) = before else {
                told.new.push(if own_proof(item, *class) { "those of new laws".to_string() } else { name });
                continue;
            };
            // where the class is another, the whole is compared
            let same = before.text(*class).map_or(before.whole() == item.whole(), |t| t == text);
            let signed = *class != Class::Contract || before.signature == item.signature;
            let stays = item.path == before.path;
            if item.name != before.name {
                told.moved.push(format!("{name} ({} before)", label(before, *class, names)));
            } else if !same || !signed {
                let only = if same { " (signature alone)" } else { "" };
                let from = if stays { String::new() } else { format!(" (from {})", place(&before.path)) };
                told.moved.push(format!("{name}{only}{from}"));
            } else {
                let cites = if matches!(class, Class::Proof | Class::Code) { Vec::new() } else { others(old, new, &was, before, item) };
                if !cites.is_empty() {
                    told.cites.push(format!("{name} ({})", cites.join(", ")));
                }
                if stays {
                    told.stayed.push(name);
                } else {
                    let way = (place(&before.path).to_string(), place(&item.path).to_string());
                    told.elsewhere.entry(way).or_default().push(item.name.clone());
                }
            }
        }
    }
    let kept: BTreeSet<usize> = was.iter().flatten().copied().collect();
    for (_, item) in old.items.iter().enumerate().filter(|(o, _)| !kept.contains(o)) {
        for (class, _) in &item.texts {
            let name = if own_proof(item, *class) { "those of gone laws".to_string() } else { label(item, *class, names) };
            told.entry((*class, crate_of(&item.path).to_string())).or_default().gone.push(name);
        }
    }
    Class::ALL.iter().map(|(class, title)| section(&told, *class, title, names)).collect()
}

/// Whether this is the proof that stands behind a law's statement: it comes and goes with the law.
fn own_proof(item: &Item, class: Class) -> bool {
    class == Class::Proof && item.texts[0].0 == Class::Law
}

/// How an item is named: what stands in `proofs/` by its file, a function with its module.
fn label(item: &Item, class: Class, names: bool) -> String {
    let inside = place(&item.path).splitn(3, '/').collect::<Vec<_>>();
    match inside[..] {
        [_, "proofs", file] if class == Class::Proof && names => format!("{file}.{}", item.name),
        [_, "proofs", file] if class == Class::Proof => file.to_string(),
        [_, "src", module] if !["lib", "main"].contains(&module) => format!("{module}::{}", item.name),
        _ => item.name.clone(),
    }
}

/// The names in an item, unchanged itself, that lead to another item than before.
fn others(old: &Tree, new: &Tree, was: &[Option<usize>], before: &Item, item: &Item) -> Vec<String> {
    let differs = |token: &&String| match (old.leads(before, token), new.leads(item, token)) {
        (Some(Led::Here(a)), Some(Led::Here(b))) => was[new.places[&b]] != Some(old.places[&a]),
        (Some(Led::Outside(a, x)), Some(Led::Outside(b, y))) => x != y || (a != b && !declared_moved(old, new, was, &a, &b)),
        (Some(_), Some(_)) => true,
        _ => false,
    };
    item.cited.iter().filter(|token| **token != item.name).filter(differs).cloned().collect()
}

/// Whether two modules are those of one struct or enum, which is in another crate now.
fn declared_moved(old: &Tree, new: &Tree, was: &[Option<usize>], a: &str, b: &str) -> bool {
    let part = |tree: &Tree, module: &str| {
        let (name, rest) = module.split_once(".specs.declared.")?;
        let declared = rest.split('.').next()?.to_string();
        tree.items.iter().position(|i| i.path.ends_with(".rt") && crate_of(&i.path) == name && i.name == declared)
    };
    part(new, b).is_some_and(|n| was[n].is_some() && was[n] == part(old, a))
}

/// Names in order, each once with how often it comes.
fn listed(names: &[String]) -> String {
    let mut counts: BTreeMap<&str, usize> = BTreeMap::new();
    for name in names {
        *counts.entry(name).or_default() += 1;
    }
    let one = |(name, n): (&&str, &usize)| if *n == 1 { name.to_string() } else { format!("{name} ×{n}") };
    counts.iter().map(one).collect::<Vec<_>>().join(", ")
}

/// A class: its counts, then a line for each crate where something moved, then the crates where all stayed.
fn section(told: &BTreeMap<(Class, String), Told>, class: Class, title: &str, names: bool) -> String {
    let here: Vec<(&str, &Told)> = told.iter().filter(|((c, _), _)| *c == class).map(|((_, name), t)| (name.as_str(), t)).collect();
    let sum = |k: usize| here.iter().map(|(_, t)| t.counts()[k]).sum::<usize>();
    let mut out = format!("{title}: {} moved, {} new, {} gone, {} stayed", sum(0), sum(1), sum(2), sum(3));
    if sum(4) > 0 {
        out += &format!(", {} of them in another file", sum(4));
    }
    out += "\n";
    for (name, t) in here.iter().filter(|(_, t)| !t.all_stayed()) {
        let mut says = Vec::new();
        for (word, list) in [("moved", &t.moved), ("new", &t.new), ("gone", &t.gone), ("the same text, citing another", &t.cites)] {
            if !list.is_empty() {
                says.push(format!("{word} {}", listed(list)));
            }
        }
        for ((from, to), list) in &t.elsewhere {
            let shown = if names || list.len() <= 6 { format!(": {}", listed(list)) } else { String::new() };
            says.push(format!("{} from {from} to {to}{shown}", list.len()));
        }
        let stayed = if names && !t.stayed.is_empty() { format!(": {}", listed(&t.stayed)) } else { String::new() };
        says.push(format!("{} stayed{stayed}", t.stayed.len()));
        out += &format!("  {name}: {}\n", says.join("; "));
    }
    let rest: Vec<&(&str, &Told)> = here.iter().filter(|(_, t)| t.all_stayed()).collect();
    if names {
        for (name, t) in rest {
            out += &format!("  {name}: {} stayed: {}\n", t.stayed.len(), listed(&t.stayed));
        }
    } else if !rest.is_empty() {
        let all: Vec<String> = rest.iter().map(|(name, t)| format!("{name} {}", t.stayed.len())).collect();
        out += &format!("  all stayed: {}\n", all.join(", "));
    }
    out
}
