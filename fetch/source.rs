//! Rattle's functions, read by the layout of their files: what each calls, and by what it multiplies, divides or takes
//! a remainder. What is not read so is a fault where it is reached.
use crate::files::files;
use crate::words::{behind, ends_operand, is_number, is_product, is_word, next, whole, wide_array, words, KEYWORDS};
use crate::Operations;
use std::collections::{BTreeMap, BTreeSet};
use std::fs;
use std::path::Path;

/// The language's own functions that may stand on the way: a number's bits, a yes/no as a number, and a number cut to a whole one.
const OWN: [&str; 4] = ["f64::to_bits", "f64::from_bits", "u64::from", "std::num::truncating_f64_to_u64"];

/// Methods that may: a buffer's length; the smaller of two; a range the other way, or by steps, which the check of the compiled code looks at.
const METHODS: [&str; 4] = ["len", "min", "rev", "step_by"];

/// The values of `Option` and `Result`.
const ANSWERS: [&str; 3] = ["Some", "Ok", "Err"];

/// What may be derived: it adds no code that multiplies.
const DERIVED: [&str; 5] = ["Clone", "Copy", "Debug", "PartialEq", "Eq"];

struct Function {
    module: String,
    /// from its name to its contract
    head: Vec<String>,
    body: Vec<String>,
}

/// A text in the code of a crate, and one to put in its place.
pub struct Edit {
    pub name: &'static str,
    pub old: &'static str,
    pub new: &'static str,
}

/// A product, a quotient or a remainder.
pub struct Product {
    pub sign: String,
    /// with what stands around it
    pub shown: String,
    pub power: bool,
}

#[derive(Default)]
pub struct Sources {
    functions: BTreeMap<String, Function>,
    constants: BTreeMap<String, String>,
    /// the values of enums, `Turn::Went`
    variants: BTreeSet<String>,
    /// modules with something that is not read
    unread: BTreeSet<String>,
}

impl Sources {
    /// All functions of the crates, after an edit.
    pub fn read(root: &Path, edit: Option<&Edit>) -> Result<Sources, String> {
        let mut sources = Sources::default();
        for path in files(&root.join("crates"), "rt") {
            let Some(module) = module_of(root, &path) else { continue };
            let mut text = fs::read_to_string(&path).map_err(|e| format!("{}: {e}", path.display()))?;
            if let Some(edit) = edit.filter(|edit| edit.name == module) {
                text = text.replace(edit.old, edit.new);
            }
            let named = |name: &str| ["(", "<"].iter().any(|sign| text.contains(&format!("fn {name}{sign}")));
            if METHODS.iter().any(|name| named(name)) {
                return Err(format!("{}: a function is named as a buffer's method is", path.display()));
            }
            let all = words(&text).is_some_and(|words| sources.file(&module, &words).is_some());
            if !all {
                sources.unread.insert(module);
            }
        }
        Ok(sources)
    }

    pub fn has(&self, name: &str) -> bool {
        self.functions.contains_key(name)
    }

    /// Whether a function is given a buffer, lent or not.
    pub fn takes_buffer(&self, name: &str) -> bool {
        self.functions[name].head.iter().any(|word| ["&", "&&", "["].contains(&word.as_str()))
    }

    /// The items of a file: imports, types, constants, functions. None where something else stands between them, or two
    /// have one name.
    fn file(&mut self, module: &str, words: &[String]) -> Option<()> {
        let mut at = 0;
        while at < words.len() {
            let name = format!("{module}::{}", words.get(at + 1)?);
            at = match words[at].as_str() {
                "ghost" if words[at + 1] != "use" => next(words, at, &[";"]) + 1,
                "pub" | "ghost" => at + 1,
                // methods, and what a byte is turned into; other traits' methods may be called without a name
                "impl" if words.get(at + 2)? == "{" || words.get(at + 1..at + 5)? == ["From", "<", "u8", ">"] => {
                    let open = next(words, at, &["{"]);
                    let end = behind(words, open);
                    self.file(&format!("{module}::{}", words.get(open - 1)?), words.get(open + 1..end - 1)?)?;
                    end
                }
                "#" => attribute(words, at)?,
                "use" | "mod" => next(words, at, &[";"]) + 1,
                "struct" | "enum" => self.declared(words, at)?,
                "const" => {
                    let value = next(words, at, &["="]) + 1;
                    let end = next(words, value, &[";"]);
                    let alone = if end == value + 1 { &words[value] } else { "" };
                    self.constants.insert(name, alone.to_string()).is_none().then_some(end + 1)?
                }
                "fn" => {
                    let head = next(words, at, &["requires", "ensures", "{"]);
                    let body = body(words, head);
                    let end = behind(words, body);
                    let cut = |from: usize, to: usize| words.get(from..to).map(<[String]>::to_vec);
                    let file = module.split("::").filter(|part| part.starts_with(char::is_lowercase)).collect::<Vec<_>>().join("::");
                    let function = Function { module: file, head: cut(at, head)?, body: cut(body, end)? };
                    self.functions.insert(name, function).is_none().then_some(end)?
                }
                _ => return None,
            };
        }
        Some(())
    }

    /// A struct or an enum, whose values are kept; behind it. None where it holds an array of others.
    fn declared(&mut self, words: &[String], at: usize) -> Option<usize> {
        let open = next(words, at, &[";", "{"]);
        let end = if words.get(open)? == "{" { behind(words, open) } else { open + 1 };
        let mut k = open + 1;
        while words[at] == "enum" && k < end && is_word(words.get(k)?) {
            self.variants.insert(format!("{}::{}", words[at + 1], words[k]));
            k = next(words, k, &[",", "}"]) + 1;
        }
        wide_array(words.get(at..end)?).is_none().then_some(end)
    }

    /// What a function calls, and the faults: what is not found or not read.
    fn calls(&self, name: &str) -> (Vec<String>, Vec<String>) {
        let Function { module, head, body } = &self.functions[name];
        let mut out = (Vec::new(), Vec::new());
        if self.unread.contains(module) {
            out.1.push(format!("{name} stands in a file with something that is not read"));
        }
        if let Some(item) = wide_array(head).or(wide_array(body)) {
            out.1.push(format!("{name} has an array of {item}, whose places may be products"));
        }
        for (at, pair) in body.windows(2).enumerate() {
            let before = if at > 0 { body[at - 1].as_str() } else { "" };
            let callee = is_word(&pair[0]) && !KEYWORDS.contains(&pair[0].as_str());
            if pair[1] != "(" || !(callee || pair[0] == ")") {
                continue;
            }
            match self.resolve(module, &pair[0]) {
                _ if before == "." && METHODS.contains(&pair[0].as_str()) => {}
                Some(called) if ![".", "::"].contains(&before) => out.0.push(called),
                None if before != "." && self.own(&pair[0]) => {}
                _ => out.1.push(format!("{name} calls {}, which is not found{}", pair[0], self.unread_of(&pair[0]))),
            }
        }
        out
    }

    /// Why the function of a path may not be found.
    fn unread_of(&self, path: &str) -> &str {
        let module = path.rsplit_once("::").map_or("", |(module, _)| module);
        if self.unread.contains(module) {
            ": its file has something that is not read"
        } else {
            ""
        }
    }

    /// The function that a path names in a module.
    fn resolve(&self, module: &str, path: &str) -> Option<String> {
        names(module, path).into_iter().find(|name| self.has(name))
    }

    /// Whether a path is a value of an enum, or one of the language's own functions.
    fn own(&self, path: &str) -> bool {
        let parts: Vec<&str> = path.split("::").collect();
        OWN.contains(&path) || ANSWERS.contains(&path) || (parts.len() > 1 && self.variants.contains(&parts[parts.len() - 2..].join("::")))
    }

    /// The functions that one reaches, less those of a list; and the faults on the way.
    pub fn reached(&self, from: &str, left_out: &Operations) -> (BTreeSet<String>, Vec<String>) {
        let mut faults = Vec::new();
        let mut met = BTreeSet::new();
        let mut open = vec![from.to_string()];
        while let Some(name) = open.pop() {
            if left_out.contains_key(&name) || !met.insert(name.clone()) {
                continue;
            }
            let (calls, lost) = self.calls(&name);
            open.extend(calls);
            faults.extend(lost);
        }
        (met, faults)
    }

    /// The functions that call one, from a function on, as often as they do.
    pub fn callers(&self, from: &str, called: &str) -> Vec<String> {
        let (met, _) = self.reached(from, &Operations::new());
        let times = |name: &String| self.calls(name).0.iter().filter(|other| *other == called).count();
        met.iter().flat_map(|name| vec![name.clone(); times(name)]).collect()
    }

    /// How often a sign stands in the functions of a list, for each way of calls that leads there.
    pub fn copies(&self, way: &[&str], listed: &Operations, sign: &str) -> usize {
        let Some((from, before)) = way.split_last() else { return 0 };
        if listed.contains_key(*from) {
            return self.products(from).iter().filter(|product| product.sign == sign).count();
        }
        if before.contains(from) {
            return 0;
        }
        let (calls, _) = self.calls(from);
        calls.iter().map(|called| self.copies(&[way, &[called.as_str()]].concat(), listed, sign)).sum()
    }

    /// The products, quotients and remainders of a function.
    pub fn products(&self, name: &str) -> Vec<Product> {
        let Function { module, body, .. } = &self.functions[name];
        let word = |at: usize| body.get(at).map_or("", String::as_str);
        let power = |at: usize| self.power(module, word(at));
        let mut out = Vec::new();
        for at in 1..body.len() {
            // behind a block, `*p = x` is a statement of its own
            let statement = word(at - 1) == "}" && ["=", "+=", "-="].contains(&word(at + 2));
            if !is_product(word(at)) || !ends_operand(word(at - 1)) || statement {
                continue;
            }
            let whole_side = if word(at).ends_with('=') {
                [";", ",", "}"].contains(&word(at + 2))
            } else {
                ![".", "[", "("].contains(&word(at + 2))
            };
            let right = power(at + 1) && whole_side;
            // whether the left side is all that stands before the sign
            let alone = at < 2 || !(is_product(word(at - 2)) || [".", "as", "!"].contains(&word(at - 2)));
            let left = word(at) == "*" && power(at - 1) && alone;
            // 0.0 / 0.0, the NaN: two numbers as they are written are one number
            if alone && is_number(word(at - 1)) && is_number(word(at + 1)) {
                continue;
            }
            let shown = body[at.saturating_sub(3)..body.len().min(at + 4)].join(" ");
            out.push(Product { sign: body[at].clone(), shown, power: left || right });
        }
        out
    }

    /// Whether a word is a power of two: a number, or a constant that has one.
    fn power(&self, module: &str, word: &str) -> bool {
        let word = names(module, word).iter().find_map(|name| self.constants.get(name)).map_or(word, String::as_str);
        whole(word).is_some_and(u64::is_power_of_two)
    }
}

/// Behind an attribute that adds no code, or none that multiplies: the tactics of a file or a function, a cycle of calls, a word on putting a function into its callers, derives.
fn attribute(words: &[String], at: usize) -> Option<usize> {
    let open = at + 1 + usize::from(words.get(at + 1)? == "!");
    let plain = match words.get(open + 1)?.as_str() {
        "tactic" | "cycle" | "inline" => true,
        "derive" => {
            let mut named = words.get(open + 3..next(words, open + 3, &[")"]))?.iter().filter(|word| *word != ",");
            named.all(|name| DERIVED.contains(&name.as_str()))
        }
        _ => false,
    };
    let end = next(words, open + 1, &["]"]);
    (words[open] == "[" && plain && end < words.len()).then_some(end + 1)
}

/// What a path in a module may name: an item of the module, or one by its whole path.
fn names(module: &str, path: &str) -> [String; 2] {
    let own = module.split("::").next().unwrap_or(module);
    let far = path.strip_prefix("crate::").map_or(path.to_string(), |rest| format!("{own}::{rest}"));
    [format!("{module}::{path}"), far]
}

/// The module of a file: `opc` of crates/opc/src/lib.rt, `groups::plan` of crates/groups/src/plan.rt.
fn module_of(root: &Path, path: &Path) -> Option<String> {
    let inside = path.strip_prefix(root.join("crates")).ok()?.with_extension("");
    let inside = inside.to_string_lossy().into_owned();
    let (name, file) = inside.split_once("/src/")?;
    let modules = file.replace('/', "::");
    Some(if ["lib", "main"].contains(&file) { name.to_string() } else { format!("{name}::{modules}") })
}

/// Where a function's body begins: behind its contract.
fn body(words: &[String], head: usize) -> usize {
    let mut at = head;
    while words.get(at).is_some_and(|word| word != "{") {
        at = next(words, behind(words, next(words, at, &["{"])), &["requires", "ensures", "{"]);
    }
    at
}
