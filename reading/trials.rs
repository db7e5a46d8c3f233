//! What `reading/moved` has to tell of small trees, tried each time by `reading/check`.
use crate::moved::{compare, Tree};

/// A tree: paths, and what is in the files.
const FILES: [(&str, &str); 9] = [
    (
        "crates/low/specs/Size.antt",
        "-- Sizes.
use Rattle.std.specs.Prelude.{ℕ, ◌+◌}
use lib.Count.{one}

-- one more
abbrev pub size : ℕ → ℕ
size n = n + one

infixl 20 ◌⊕◌

abbrev pub ◌⊕◌ : ℕ → ℕ → ℕ
m ⊕ n = size (m + n)
",
    ),
    (
        "crates/low/specs/Twice.antt",
        "use Rattle.low.specs.Size.{size}
use Rattle.low.specs.declared.Sort.{Sort}

abbrev pub twice : Sort → ℕ → ℕ
twice s n = size (size n)
",
    ),
    (
        "crates/low/specs/Even.antt",
        "abbrev mutual
  pub even : ℕ → Bool
  even zero = true
  even (suc n) = odd n

  pub odd : ℕ → Bool
  odd zero = false
  odd (suc n) = even n
",
    ),
    ("crates/low/specs/inner/Seen.antt", "abbrev pub seen : ℕ → Bool\nseen n = ltb n 9\n"),
    (
        "crates/low/specs/laws/SizeLaws.antt",
        "use Rattle.low.specs.Size.{size}

module _ (n : ℕ) where
  pub grows : n < size n
  grows = omega arith
",
    ),
    ("crates/low/proofs/bump/Answers.antt", "use Rattle.low.proofs.bump.Goals as goal\n\npub returns : goal.returns\nreturns c = c.bounds.given\n"),
    (
        "crates/low/src/lib.rt",
        "ghost use Rattle.low.specs.Size.{size};
ghost use Rattle.std.specs.Prelude.{◌≡◌, ◌<◌};

pub enum Sort {
    Small,
    Large,
}

// One more.
pub fn bump(n: u64, most: u64) -> u64
    requires { n < most }
    ensures { result ≡ size n }
{
    n + 1
}
",
    ),
    ("crates/other/specs/Size.antt", "abbrev pub size : ℕ → ℕ\nsize n = suc (suc (suc n))\n"),
    ("crates/high/specs/Rule.antt", "use Rattle.low.specs.Size.{size}\n\nabbrev pub rule : ℕ → Bool\nrule n = ltb (size n) 7\n"),
];

/// An edit of the tree.
enum Edit {
    /// a file, and a text in the place of another
    Text(&'static str, &'static str, &'static str),
    /// a file, and its place from then on
    File(&'static str, &'static str),
}
use Edit::{File, Text};

const SIZE: &str = "crates/low/specs/Size.antt";
const TWICE: &str = "crates/low/specs/Twice.antt";
const EVEN: &str = "crates/low/specs/Even.antt";
const SEEN: &str = "crates/low/specs/inner/Seen.antt";
const LAWS: &str = "crates/low/specs/laws/SizeLaws.antt";
const PROOF: &str = "crates/low/proofs/bump/Answers.antt";
const CODE: &str = "crates/low/src/lib.rt";
const RULE: &str = "crates/high/specs/Rule.antt";

/// Edits, and what must be told: each line with the class that it stands under; no line for crates where all stayed.
const TRIALS: &[(&[Edit], &[&str])] = &[
    (&[Text(SIZE, "-- Sizes.", "-- How long."), Text(SIZE, "size n = n + one", "size n =\n    n + one -- the sum")], &[]),
    (&[Text(CODE, "bump(n: u64, most: u64) -> u64", "bump(\n    n: u64,\n    most: u64,\n) -> u64"), Text(CODE, "// One more.\n", "")], &[]),
    (&[Text(SIZE, "n + one", "one + n")], &["definitions to believe: low: moved size; 5 stayed"]),
    (&[Text(SIZE, "size : ℕ → ℕ", "size : ℕ → Bool")], &["definitions to believe: low: moved size; 5 stayed"]),
    (&[Text(SIZE, "infixl 20", "infixr 20")], &["definitions to believe: low: moved infix ◌⊕◌; 5 stayed"]),
    (
        &[Text(TWICE, "twice : Sort → ℕ → ℕ\ntwice s n = size (size n)", "thrice : ℕ → Bool\nthrice k = ltb 0 k")],
        &["definitions to believe: low: new thrice; gone twice; 5 stayed"],
    ),
    (
        &[Text(TWICE, "twice : Sort → ℕ → ℕ\ntwice s n", "double : Sort → ℕ → ℕ\ndouble s n")],
        &["definitions to believe: low: moved double (twice before); 5 stayed"],
    ),
    // a file in another crate: what cites it stays
    (
        &[
            File(SIZE, "crates/deep/specs/Size.antt"),
            Text(TWICE, "Rattle.low.specs.Size", "Rattle.deep.specs.Size"),
            Text(LAWS, "Rattle.low.", "Rattle.deep."),
            Text(CODE, "Rattle.low.", "Rattle.deep."),
            Text(RULE, "Rattle.low.", "Rattle.deep."),
        ],
        &["definitions to believe: deep: 3 from low/specs/Size to deep/specs/Size: infix ◌⊕◌, size, ◌⊕◌; 0 stayed"],
    ),
    (
        &[
            File(SIZE, "crates/deep/specs/Size.antt"),
            Text(SIZE, "n + one", "one + n"),
            Text(TWICE, "Rattle.low.specs.Size", "Rattle.deep.specs.Size"),
            Text(LAWS, "Rattle.low.", "Rattle.deep."),
            Text(CODE, "Rattle.low.", "Rattle.deep."),
            Text(RULE, "Rattle.low.", "Rattle.deep."),
        ],
        &["definitions to believe: deep: moved size (from low/specs/Size); 2 from low/specs/Size to deep/specs/Size: infix ◌⊕◌, ◌⊕◌; 0 stayed"],
    ),
    (&[File(SEEN, "crates/low/specs/Seen.antt")], &["definitions to believe: low: 1 from low/specs/inner/Seen to low/specs/Seen: seen; 6 stayed"]),
    (&[Text(EVEN, "abbrev mutual", "mutual")], &["definitions to believe: low: moved even, odd; 4 stayed"]),
    // another item of the same name
    (
        &[
            Text(SEEN, "seen : ℕ → Bool\nseen n = ltb n 9", "seen : List Value → Option Step\nseen (x ∷ xs) = some x"),
            File(SEEN, "crates/high/specs/Seen.antt"),
        ],
        &["definitions to believe: high: new seen; 1 stayed", "inner definitions: low: gone seen; 0 stayed"],
    ),
    (
        &[Text(LAWS, "module _ (n : ℕ) where", "module _ {m : ℕ} where\n  grows : T true\n  grows = tt\n\nmodule _ (n : ℕ) where")],
        &["laws: low: new grows; 1 stayed", "proofs: low: new those of new laws; 2 stayed"],
    ),
    // the same text with another meaning
    (&[Text(RULE, "Rattle.low.", "Rattle.other.")], &["definitions to believe: high: the same text, citing another rule (size); 1 stayed"]),
    (&[Text(SIZE, "lib.Count.", "lib.Zero.")], &["definitions to believe: low: the same text, citing another size (one); 6 stayed"]),
    (
        &[Text(SIZE, "{ℕ, ◌+◌}", "{ℕ}\nuse lib.Bounded.{◌+◌}")],
        &["definitions to believe: low: the same text, citing another size (+), ◌⊕◌ (+); 6 stayed"],
    ),
    (
        &[Text(TWICE, "Rattle.low.specs.declared", "Rattle.other.specs.declared")],
        &["definitions to believe: low: the same text, citing another twice (Sort); 6 stayed"],
    ),
    (
        &[Text(SIZE, "{ℕ, ◌+◌}", "{ℕ}\nuse lib.Bounded.{◌+◌}"), Text(SIZE, "lib.Count.", "lib.Zero.")],
        &["definitions to believe: low: the same text, citing another size (+, one), ◌⊕◌ (+); 6 stayed"],
    ),
    (&[Text(CODE, "Rattle.std.specs.Prelude.{◌≡◌, ◌<◌}", "Rattle.std.specs.Prelude.{◌≡◌};\nghost use lib.Order.{◌<◌}")], &["contracts: low: the same text, citing another bump (<); 1 stayed"]),
    (&[Text(CODE, "Rattle.low.", "Rattle.other.")], &["contracts: low: the same text, citing another bump (size); 1 stayed"]),
    (&[Text(LAWS, "(n : ℕ)", "{n : ℕ}")], &["laws: low: moved grows; 0 stayed"]),
    (&[Text(LAWS, "omega arith", "omega (arith, one)")], &["proofs: low: moved grows; 1 stayed"]),
    (&[Text(LAWS, "  grows =", "  unfolding size\n  grows =")], &["proofs: low: moved grows; 1 stayed"]),
    (
        &[File(LAWS, "crates/high/specs/laws/SizeLaws.antt")],
        &[
            "laws: high: 1 from low/specs/laws/SizeLaws to high/specs/laws/SizeLaws: grows; 0 stayed",
            "proofs: high: 1 from low/specs/laws/SizeLaws to high/specs/laws/SizeLaws: grows; 0 stayed",
        ],
    ),
    (&[Text(PROOF, "c.bounds", "c.limits")], &["proofs: low: moved bump; 1 stayed"]),
    (&[Text(CODE, "n < most", "n ≤ most")], &["contracts: low: moved bump; 0 stayed"]),
    (&[Text(CODE, "    requires { n < most }\n", "")], &["contracts: low: moved bump; 0 stayed"]),
    (&[Text(CODE, "most: u64", "most: u32")], &["contracts: low: moved bump (signature alone); 0 stayed"]),
    (&[Text(CODE, "n + 1", "1 + n")], &["code: low: moved bump; 1 stayed"]),
    (&[Text(CODE, "    Large,\n", "    Great,\n")], &["code: low: moved Sort; 1 stayed"]),
    (
        &[File(CODE, "crates/high/src/code.rt"), Text(TWICE, "Rattle.low.specs.declared", "Rattle.high.specs.declared")],
        &[
            "contracts: high: 1 from low/src/lib to high/src/code: bump; 0 stayed",
            "code: high: 2 from low/src/lib to high/src/code: Sort, bump; 0 stayed",
        ],
    ),
];

/// A whole report, by hand: the sum in another order, and the laws in another crate.
const EDITS: [Edit; 2] = [Text(SIZE, "n + one", "one + n"), File(LAWS, "crates/high/specs/laws/SizeLaws.antt")];
const SHORT: &str = "definitions to believe: 1 moved, 0 new, 0 gone, 7 stayed
  low: moved size; 5 stayed
  all stayed: high 1, other 1
inner definitions: 0 moved, 0 new, 0 gone, 1 stayed
  all stayed: low 1
laws: 0 moved, 0 new, 0 gone, 1 stayed, 1 of them in another file
  high: 1 from low/specs/laws/SizeLaws to high/specs/laws/SizeLaws: grows; 0 stayed
contracts: 0 moved, 0 new, 0 gone, 1 stayed
  all stayed: low 1
proofs: 0 moved, 0 new, 0 gone, 2 stayed, 1 of them in another file
  high: 1 from low/specs/laws/SizeLaws to high/specs/laws/SizeLaws: grows; 0 stayed
  all stayed: low 1
code: 0 moved, 0 new, 0 gone, 2 stayed
  all stayed: low 2
";
const NAMES: &str = "definitions to believe: 1 moved, 0 new, 0 gone, 7 stayed
  low: moved size; 5 stayed: even, infix ◌⊕◌, odd, twice, ◌⊕◌
  high: 1 stayed: rule
  other: 1 stayed: size
inner definitions: 0 moved, 0 new, 0 gone, 1 stayed
  low: 1 stayed: seen
laws: 0 moved, 0 new, 0 gone, 1 stayed, 1 of them in another file
  high: 1 from low/specs/laws/SizeLaws to high/specs/laws/SizeLaws: grows; 0 stayed
contracts: 0 moved, 0 new, 0 gone, 1 stayed
  low: 1 stayed: bump
proofs: 0 moved, 0 new, 0 gone, 2 stayed, 1 of them in another file
  high: 1 from low/specs/laws/SizeLaws to high/specs/laws/SizeLaws: grows; 0 stayed
  low: 1 stayed: bump.returns
code: 0 moved, 0 new, 0 gone, 2 stayed
  low: 2 stayed: Sort, bump
";

/// The tree after some edits; a text that an edit does not find is told.
fn edited(edits: &[Edit]) -> Result<Tree, String> {
    let mut files: Vec<(String, String)> = FILES.iter().map(|(p, t)| (p.to_string(), t.to_string())).collect();
    for edit in edits {
        if let Text(path, old, new) = edit {
            let file = files.iter_mut().find(|(p, _)| p == path).ok_or(format!("trial: there is no {path}"))?;
            if !file.1.contains(old) {
                return Err(format!("trial: {path} has no {old:?}"));
            }
            file.1 = file.1.replace(old, new);
        }
    }
    for edit in edits {
        if let File(path, to) = edit {
            files.iter_mut().filter(|(p, _)| p == path).for_each(|f| f.0 = to.to_string());
        }
    }
    let (antt, rt) = files.into_iter().partition(|(p, _)| p.ends_with(".antt"));
    Ok(Tree::of(antt, rt))
}

/// The lines that tell of a crate, each with its class.
fn lines(report: &str) -> Vec<String> {
    let mut class = "";
    let mut out = Vec::new();
    for line in report.lines() {
        if let Some(told) = line.strip_prefix("  ") {
            if !told.starts_with("all stayed") {
                out.push(format!("{class}: {told}"));
            }
        } else {
            class = line.split(':').next().unwrap_or("");
        }
    }
    out
}

/// Each trial in which something else was told; else how many there were.
pub fn all() -> Result<usize, Vec<String>> {
    let old = edited(&[]).map_err(|e| vec![e])?;
    let mut faults = Vec::new();
    for (edits, expected) in TRIALS {
        let new = edited(edits).map_err(|e| vec![e])?;
        let told = lines(&compare(&old, &new, false));
        if told != *expected {
            faults.push(format!("reading/moved should tell {expected:?}, and tells {told:?}"));
        }
    }
    let new = edited(&EDITS).map_err(|e| vec![e])?;
    for (names, expected) in [(false, SHORT), (true, NAMES)] {
        let told = compare(&old, &new, names);
        if told != expected {
            faults.push(format!("reading/moved should tell\n{expected}and tells\n{told}"));
        }
    }
    if faults.is_empty() {
        Ok(TRIALS.len() + 2)
    } else {
        Err(faults)
    }
}
