//! Files of antt, read by their layout: which names each item declares, and which names it needs. An
//! item starts at its container's indent; whatever is indented further belongs to it.
use crate::files::sources;
use std::collections::{BTreeMap, BTreeSet};
use std::path::Path;

/// An item of a file, by its place in `Library::files`.
pub type Need = (usize, usize);

/// A definition counts with its text, a law with its statement alone.
pub struct Item {
    pub law: bool,
    /// a data type, whose constructors are names too
    data: bool,
    pub names: Vec<String>,
    pub tokens: Vec<String>,
    /// its signature, with the parameters of the modules around it; of a data type or a record all of it
    pub statement: String,
    /// its clauses
    pub body: String,
}

/// What a name leads to: an item of the project, or a module outside it, or of structs and enums, and the name there.
#[derive(Clone, PartialEq)]
pub enum Led {
    Here(Need),
    Outside(String, String),
}

struct File {
    path: String,
    lines: usize,
    /// a name in this file, the module it comes from and its name there
    imports: BTreeMap<String, (String, String)>,
    /// a short name of a module
    aliases: BTreeMap<String, String>,
    items: Vec<Item>,
    places: BTreeMap<String, usize>,
    /// how operators bind: `infixl 20 ◌>>=◌`
    fixities: Vec<String>,
}

pub struct Library {
    files: Vec<File>,
    modules: BTreeMap<String, usize>,
    crates: BTreeSet<String>,
}

/// The names in a text: what stands between blanks, brackets and the like. A field's name, behind a
/// dot, is none.
pub fn tokens(text: &str) -> Vec<String> {
    let cut = |c: char| c.is_whitespace() || "(){},;⌜⌝λ\"".contains(c);
    text.split(cut).map(|t| t.trim_end_matches('.')).filter(|t| !t.is_empty() && !t.starts_with('.')).map(str::to_string).collect()
}

/// The imports of `use M.{a, b as c}` and `use M as m`, without the word `use`.
pub fn import(text: &str, imports: &mut BTreeMap<String, (String, String)>, aliases: &mut BTreeMap<String, String>) {
    let text = text.trim().trim_end_matches(';');
    if let Some((module, names)) = text.split_once(".{") {
        for name in names.trim_end_matches('}').split(',').map(str::trim).filter(|n| !n.is_empty()) {
            let (from, to) = name.split_once(" as ").unwrap_or((name, name));
            imports.insert(to.trim().to_string(), (module.to_string(), from.trim().to_string()));
        }
    } else if let Some((module, alias)) = text.split_once(" as ") {
        aliases.insert(alias.trim().to_string(), module.trim().to_string());
    }
}

/// The gap in an operator's name.
const GAP: char = '◌';

/// A name as it is written where it is used: an operator without its gaps.
fn written(name: &str) -> Vec<String> {
    if name.contains(GAP) {
        name.split(GAP).filter(|p| !p.is_empty()).map(str::to_string).collect()
    } else {
        vec![name.to_string()]
    }
}

/// A line without `pub` before it: what `pub use` imports is imported, and other files may take it from here.
fn unpublished(line: &str) -> &str {
    let line = line.trim_start();
    line.strip_prefix("pub ").unwrap_or(line)
}

fn indent(line: &str) -> usize {
    line.len() - line.trim_start().len()
}

/// The module that a file is, from its path below the root: as other crates name it.
fn module_of(path: &str) -> Option<String> {
    let rest = path.strip_prefix("crates/")?.strip_suffix(".antt")?;
    let (name, inside) = rest.split_once('/')?;
    Some(format!("{name}.{}", inside.replace('/', ".")))
}

/// The same from a `use`: `Rattle.sifv.specs.Slot`, also of a library that is not the project's.
fn module_named(used: &str) -> Option<String> {
    used.strip_prefix("Rattle.").map(str::to_string)
}

/// What an imported name leads to that is no item of the project.
pub fn outside(imports: &BTreeMap<String, (String, String)>, aliases: &BTreeMap<String, String>, token: &str) -> Option<Led> {
    let operator = || imports.iter().find(|(i, _)| i.contains(GAP) && written(i).iter().any(|p| p == token)).map(|(_, from)| from.clone());
    let aliased = || token.split_once('.').and_then(|(alias, name)| Some((aliases.get(alias)?.clone(), name.to_string())));
    let (module, name) = imports.get(token).cloned().or_else(operator).or_else(aliased)?;
    Some(Led::Outside(module_named(&module).unwrap_or(module), name))
}

/// A part of a file that holds items: its indent, whether plain items in it are definitions, what its parameters need, and
/// its header.
struct Container {
    indent: usize,
    open: bool,
    tokens: Vec<String>,
    text: String,
}

impl File {
    fn read(path: String, text: &str) -> File {
        let mut file = File {
            path,
            lines: 0,
            imports: BTreeMap::new(),
            aliases: BTreeMap::new(),
            items: Vec::new(),
            places: BTreeMap::new(),
            fixities: Vec::new(),
        };
        let mut inside = vec![Container { indent: 0, open: false, tokens: Vec::new(), text: String::new() }];
        let mut pending = String::new();
        let mut statement = true;
        // the parameters of a module go on in the next line
        let mut header = false;
        for line in text.lines() {
            let line = line.split(" -- ").next().unwrap_or(line);
            if line.trim().is_empty() || line.trim_start().starts_with("--") {
                continue;
            }
            if !pending.is_empty() || unpublished(line).starts_with("use ") {
                pending.push_str(line);
                pending.push(' ');
                if pending.matches('{').count() == pending.matches('}').count() {
                    let used = std::mem::take(&mut pending);
                    import(unpublished(&used).trim_start_matches("use "), &mut file.imports, &mut file.aliases);
                }
                continue;
            }
            if !line.starts_with("pub mod ") {
                file.lines += 1;
            }
            if header {
                let last = inside.len() - 1;
                inside[last].tokens.extend(tokens(line));
                inside[last].text += &format!(" {line}");
                header = !line.trim_end().ends_with("where");
                continue;
            }
            let depth = indent(line);
            while inside.len() > 1 && depth < inside[inside.len() - 1].indent {
                inside.pop();
            }
            let here = &inside[inside.len() - 1];
            if depth > here.indent {
                file.body(line, statement);
                continue;
            }
            let words: Vec<&str> = line.split_whitespace().collect();
            match words[0] {
                "infixl" | "infixr" | "infix" => {
                    file.fixities.push(words.join(" "));
                    continue;
                }
                "unfolding" => {
                    if let Some(item) = file.items.last_mut() {
                        item.body += &format!(" {line}");
                    }
                    continue;
                }
                "mod" => continue,
                "pub" if words.get(1) == Some(&"mod") => continue,
                "module" => {
                    let outer = here.tokens.clone();
                    let text = format!("{} {line}", here.text);
                    inside.push(Container { indent: depth + 2, open: false, tokens: [outer, tokens(line)].concat(), text });
                    header = !line.trim_end().ends_with("where");
                    continue;
                }
                _ => {}
            }
            if words.contains(&"mutual") {
                let (outer, text) = (here.tokens.clone(), here.text.clone());
                inside.push(Container { indent: depth + 2, open: words[0] == "abbrev", tokens: outer, text });
                continue;
            }
            statement = file.start(&words, line, here).unwrap_or(false);
            if !statement {
                file.body(line, false);
            }
        }
        for (i, item) in file.items.iter().enumerate() {
            for name in &item.names {
                for part in written(name) {
                    file.places.entry(part).or_insert(i);
                }
                file.places.entry(name.clone()).or_insert(i);
            }
        }
        file
    }

    /// The module and the name there that a token of this file is imported from.
    fn cited(&self, token: &str) -> Option<(String, String)> {
        if self.places.contains_key(token) {
            return None;
        }
        if let Some(from) = self.imports.get(token) {
            return Some(from.clone());
        }
        let (alias, name) = token.split_once('.')?;
        Some((self.aliases.get(alias)?.clone(), name.to_string()))
    }

    /// A signature starts an item; anything else is a clause of the item before.
    fn start(&mut self, words: &[&str], line: &str, here: &Container) -> Option<bool> {
        let open = here.open || words[0] == "abbrev" || words[0] == "unfoldable";
        let rest: Vec<&str> = words.iter().copied().skip_while(|w| ["abbrev", "unfoldable", "pub"].contains(w)).collect();
        let (typed, name) = match rest.first() {
            Some(&"data") | Some(&"record") => (true, rest.get(1)?.to_string()),
            Some(name) if rest.get(1) == Some(&":") => (false, name.to_string()),
            _ => return None,
        };
        let data = rest.first() == Some(&"data");
        let word = if here.open { "abbrev" } else { "" };
        self.items.push(Item {
            law: !(open || typed),
            data,
            names: vec![name],
            tokens: [here.tokens.clone(), tokens(line)].concat(),
            statement: format!("{} {word} {line}", here.text),
            body: String::new(),
        });
        Some(true)
    }

    /// A line that belongs to the last item: all of a definition's, of a law those of its statement.
    fn body(&mut self, line: &str, statement: bool) {
        let Some(item) = self.items.last_mut() else { return };
        let text = if statement { &mut item.statement } else { &mut item.body };
        *text += &format!(" {line}");
        if !item.law || statement {
            item.tokens.extend(tokens(line));
        }
        if let (true, Some((names, _))) = (item.data, line.split_once(" : ")) {
            item.names.extend(names.split_whitespace().map(str::to_string));
        }
    }
}

impl Library {
    pub fn read(root: &Path) -> Result<Library, String> {
        Ok(Library::of(sources(root, "antt")?))
    }

    /// The library of some files: their paths below the root, and what is in them.
    pub fn of(sources: Vec<(String, String)>) -> Library {
        let mut library = Library { files: Vec::new(), modules: BTreeMap::new(), crates: BTreeSet::new() };
        for (path, text) in sources {
            library.crates.extend(path.split('/').nth(1).map(str::to_string));
            if let Some(module) = module_of(&path) {
                library.modules.insert(module, library.files.len());
            }
            library.files.push(File::read(path, &text));
        }
        library
    }

    /// Every item, with its file.
    pub fn items(&self) -> impl Iterator<Item = (Need, &str, &Item)> {
        let files = self.files.iter().enumerate();
        files.flat_map(|(f, file)| file.items.iter().enumerate().map(move |(i, item)| ((f, i), file.path.as_str(), item)))
    }

    /// How operators bind, with their files.
    pub fn fixities(&self) -> impl Iterator<Item = (&str, &str)> {
        self.files.iter().flat_map(|f| f.fixities.iter().map(|x| (f.path.as_str(), x.as_str())))
    }

    /// What a name in a file leads to; nothing where it is the item's own, or a variable.
    pub fn leads(&self, f: usize, token: &str) -> Option<Led> {
        let file = &self.files[f];
        if let Some(need) = self.resolve(file, f, token) {
            return Some(Led::Here(need));
        }
        outside(&file.imports, &file.aliases, token)
    }

    /// Whether a module, as a `use` names it, is of a crate of the project.
    pub fn has_crate(&self, used: &str) -> bool {
        let named = module_named(used);
        let name = named.as_deref().and_then(|n| n.split('.').next());
        name.is_some_and(|name| self.crates.contains(name))
    }

    fn file(&self, path: &str) -> Option<usize> {
        self.files.iter().position(|f| f.path == path)
    }

    /// The item of a file that declares a name.
    pub fn item(&self, path: &str, name: &str) -> Option<Need> {
        let file = self.file(path)?;
        Some((file, *self.files[file].places.get(name)?))
    }

    /// All items of a file.
    pub fn whole(&self, path: &str) -> Option<Vec<Need>> {
        let file = self.file(path)?;
        Some((0..self.files[file].items.len()).map(|i| (file, i)).collect())
    }

    /// The item that a module, as a `use` names it, has under a name.
    pub fn named(&self, used: &str, name: &str) -> Option<Need> {
        let file = *self.modules.get(&module_named(used)?)?;
        let places = &self.files[file].places;
        let first = written(name).into_iter().next().unwrap_or_default();
        if let Some(item) = places.get(name).or_else(|| places.get(&first)) {
            return Some((file, *item));
        }
        let (module, name) = self.files[file].imports.get(name)?;
        self.named(module, name)
    }

    /// What a name stands for in a file.
    fn resolve(&self, file: &File, at: usize, token: &str) -> Option<Need> {
        if let Some(item) = file.places.get(token) {
            return Some((at, *item));
        }
        if let Some((module, name)) = file.imports.get(token) {
            return self.named(module, name);
        }
        for (imported, (module, name)) in &file.imports {
            if imported.contains(GAP) && written(imported).iter().any(|p| p == token) {
                return self.named(module, name);
            }
        }
        let (alias, name) = token.split_once('.')?;
        if let Some(module) = file.aliases.get(alias) {
            return self.named(module, name);
        }
        self.resolve(file, at, alias)
    }

    /// The items, and all that they need.
    pub fn closure(&self, roots: &BTreeSet<Need>) -> BTreeSet<Need> {
        let mut seen = roots.clone();
        let mut left: Vec<Need> = roots.iter().copied().collect();
        while let Some((f, i)) = left.pop() {
            let file = &self.files[f];
            for token in &file.items[i].tokens {
                if let Some(need) = self.resolve(file, f, token) {
                    if seen.insert(need) {
                        left.push(need);
                    }
                }
            }
        }
        seen
    }

    /// What the names of needed items hide: a name of the project that is not found, and a needed name whose definition the
    /// statements cannot see into, as if it were a law.
    pub fn unseen(&self, roots: &BTreeSet<Need>) -> Vec<String> {
        let mut faults = BTreeSet::new();
        for (f, i) in self.closure(roots) {
            let file = &self.files[f];
            let item = &file.items[i];
            if item.law && !roots.contains(&(f, i)) {
                faults.insert(format!("{} has {}, which is needed and neither abbrev nor unfoldable", file.path, item.names[0]));
            }
            for token in &item.tokens {
                let Some((module, name)) = file.cited(token) else { continue };
                if self.has_crate(&module) && !module.contains(".declared.") && self.resolve(file, f, token).is_none() {
                    faults.insert(format!("{} cites {name} of {module}, which is not found", file.path));
                }
            }
        }
        faults.into_iter().collect()
    }

    pub fn files(&self, needs: &BTreeSet<Need>) -> BTreeSet<String> {
        needs.iter().map(|(f, _)| self.files[*f].path.clone()).collect()
    }

    /// The files of all definitions that some items need.
    pub fn files_for(&self, roots: &BTreeSet<Need>) -> BTreeSet<String> {
        self.files(&self.definitions_of(&self.closure(roots)))
    }

    /// Lines that are neither blank nor a comment nor an import.
    pub fn lines(&self, paths: &BTreeSet<String>) -> usize {
        self.files.iter().filter(|f| paths.contains(&f.path)).map(|f| f.lines).sum()
    }

    pub fn all(&self) -> Vec<String> {
        self.files.iter().map(|f| f.path.clone()).filter(|p| p.contains("/specs/") || p.contains("/proofs/laws/")).collect()
    }

    /// How many definitions and how many laws a file has.
    pub fn counts(&self, path: &str) -> (usize, usize) {
        let items = self.file(path).map_or(&[][..], |f| &self.files[f].items);
        let laws = items.iter().filter(|i| i.law).count();
        (items.len() - laws, laws)
    }

    /// The definitions among items.
    pub fn definitions_of(&self, needs: &BTreeSet<Need>) -> BTreeSet<Need> {
        needs.iter().copied().filter(|(f, i)| !self.files[*f].items[*i].law).collect()
    }

    /// The names that two of these definitions bear; operators are left out, which are told apart by their types.
    pub fn shared_names(&self, needs: &BTreeSet<Need>) -> Vec<String> {
        let mut places: BTreeMap<&str, Vec<&str>> = BTreeMap::new();
        for (f, i) in needs {
            let name = self.files[*f].items[*i].names[0].as_str();
            if self.files[*f].path.contains("/specs/") && !name.contains(GAP) {
                places.entry(name).or_default().push(&self.files[*f].path);
            }
        }
        let shared = places.iter().filter(|(_, files)| files.len() > 1);
        shared.map(|(name, files)| format!("{name} is defined in {}", files.join(" and in "))).collect()
    }

    /// The definitions of these files that are not among the needs, each with its file.
    pub fn spare(&self, paths: &BTreeSet<String>, needs: &BTreeSet<Need>) -> Vec<String> {
        let mut out = Vec::new();
        for (f, file) in self.files.iter().enumerate().filter(|(_, file)| paths.contains(&file.path)) {
            let spare = (0..file.items.len()).filter(|i| !file.items[*i].law && !needs.contains(&(f, *i)));
            out.extend(spare.map(|i| format!("{}: only proofs need {}", file.path, file.items[i].names[0])));
        }
        out
    }

    /// The names of items.
    pub fn names(&self, needs: &BTreeSet<Need>, path: &str) -> Vec<String> {
        needs.iter().filter(|(f, _)| self.files[*f].path == path).map(|(f, i)| self.files[*f].items[*i].names[0].clone()).collect()
    }
}
