//! Shows that the stored answers tell a wrong engine from a right one: each change of the list
//! is made in a copy of `replay.rs` and what it uses, and the copy has to fail on them.
//!
//! The list has four lines for each change: `= what is changed`, `@ file occurrence`,
//! `- fragment`, `+ replacement`; the file is a source file here, or `original.rs`.

use std::fs;
use std::path::{Path, PathBuf};
use std::process::{Child, Command, Stdio};
use std::thread::sleep;
use std::time::{Duration, Instant};

const ORIGINAL: &str = include_str!(concat!(env!("OUT_DIR"), "/original.rs"));

/// A replay that takes longer runs without end.
const PATIENCE: Duration = Duration::from_secs(120);

struct Change {
    what: String,
    file: String,
    occurrence: usize,
    fragment: String,
    replacement: String,
}

/// Runs the whole list.
pub fn run(sources: &str, list: &str, cases: &str, scratch: &str) -> Result<(), String> {
    let text = fs::read_to_string(list).map_err(|e| format!("{list}: {e}"))?;
    let changes = read_list(&text)?;
    let cases = fs::canonicalize(cases).map_err(|e| e.to_string())?;
    let place = Place { sources: sources.into(), scratch: scratch.into(), cases };
    place.unchanged_passes()?;
    let mut missed = 0;
    for (number, change) in changes.iter().enumerate() {
        let caught = place.try_change(change).map_err(|e| format!("{}: {e}", change.what))?;
        missed += usize::from(!caught);
        let word = if caught { "caught" } else { "MISSED" };
        println!("{word} {:3} {}", number + 1, change.what);
    }
    println!("mutants: {} changes, {} caught", changes.len(), changes.len() - missed);
    if missed == 0 {
        Ok(())
    } else {
        Err(format!("{missed} changes missed"))
    }
}

fn read_list(text: &str) -> Result<Vec<Change>, String> {
    let lines: Vec<&str> = text.lines().filter(|l| !l.is_empty() && !l.starts_with('#')).collect();
    let field = |line: &str, mark: &str| {
        let rest = line.strip_prefix(mark).ok_or(format!("expected {mark} at: {line}"))?;
        Ok::<String, String>(rest.strip_prefix(' ').unwrap_or(rest).to_string())
    };
    let mut out = Vec::new();
    for four in lines.chunks(4) {
        let [what, place, fragment, replacement] = four else {
            return Err(format!("not four lines: {four:?}"));
        };
        let place = field(place, "@")?;
        let (file, occurrence) = place.split_once(' ').unwrap_or((&place, "0"));
        out.push(Change {
            what: field(what, "=")?,
            file: file.to_string(),
            occurrence: occurrence.parse().map_err(|_| format!("not a number: {place}"))?,
            fragment: field(fragment, "-")?,
            replacement: field(replacement, "+")?,
        });
    }
    Ok(out)
}

impl Change {
    /// Occurrence 0 means the only one; otherwise they count from 1.
    fn apply(&self, text: &str) -> Result<String, String> {
        let found: Vec<usize> = text.match_indices(&self.fragment).map(|(at, _)| at).collect();
        let at = match (self.occurrence, found.len()) {
            (0, 1) => found[0],
            (n, count) if n >= 1 && n <= count => found[n - 1],
            (n, count) => return Err(format!("occurrence {n} of {count} in {}", self.file)),
        };
        let (head, tail) = text.split_at(at);
        Ok(format!("{head}{}{}", self.replacement, &tail[self.fragment.len()..]))
    }
}

struct Place {
    sources: PathBuf,
    scratch: PathBuf,
    cases: PathBuf,
}

impl Place {
    /// A copy without a change answers all as stored.
    fn unchanged_passes(&self) -> Result<(), String> {
        self.copy(None)?;
        self.build()?;
        if self.replays() {
            Ok(())
        } else {
            Err(String::from("the unchanged copy fails"))
        }
    }

    fn try_change(&self, change: &Change) -> Result<bool, String> {
        self.copy(Some(change))?;
        self.build()?;
        Ok(!self.replays())
    }

    /// The sources with the change, and the original's module file beside them.
    fn copy(&self, change: Option<&Change>) -> Result<(), String> {
        let text_of = |error: std::io::Error| error.to_string();
        fs::create_dir_all(&self.scratch).map_err(text_of)?;
        let mut done = change.is_none();
        let mut put = |name: &str, target: &Path, text: String| -> Result<(), String> {
            let hit = change.filter(|change| name == change.file);
            done |= hit.is_some();
            let text = hit.map_or(Ok(text.clone()), |change| change.apply(&text))?;
            fs::write(target, text).map_err(|error| error.to_string())
        };
        fs::create_dir_all(self.scratch.join("out")).map_err(text_of)?;
        put("original.rs", &self.scratch.join("out/original.rs"), ORIGINAL.to_string())?;
        for entry in fs::read_dir(&self.sources).map_err(text_of)? {
            let path = entry.map_err(text_of)?.path();
            let file = path.file_name().expect("a file").to_string_lossy().to_string();
            let text = fs::read_to_string(&path).map_err(text_of)?;
            let name = if file == "original.rs" { "the including file" } else { &file };
            put(name, &self.scratch.join(&file), text)?;
        }
        if done {
            Ok(())
        } else {
            Err(String::from("no such file"))
        }
    }

    fn build(&self) -> Result<(), String> {
        let out = fs::canonicalize(self.scratch.join("out")).map_err(|e| e.to_string())?;
        let result = Command::new("rustc")
            .args(["--edition", "2021", "--crate-name", "replay", "--cap-lints", "allow"])
            .args(["-C", "debuginfo=0", "-C"])
            .arg(format!("incremental={}", self.scratch.join("inc").display()))
            .arg(self.scratch.join("replay.rs"))
            .arg("-o")
            .arg(self.scratch.join("replay"))
            .env("OUT_DIR", out)
            .output()
            .map_err(|e| e.to_string())?;
        if result.status.success() {
            return Ok(());
        }
        Err(format!("does not build:\n{}", String::from_utf8_lossy(&result.stderr)))
    }

    fn replays(&self) -> bool {
        let child = Command::new(self.scratch.join("replay"))
            .arg(&self.cases)
            .stdout(Stdio::null())
            .stderr(Stdio::null())
            .spawn();
        child.is_ok_and(ends_well)
    }
}

/// Waits for the child; one that runs without end is ended.
fn ends_well(mut child: Child) -> bool {
    let start = Instant::now();
    while start.elapsed() < PATIENCE {
        match child.try_wait() {
            Ok(Some(status)) => return status.success(),
            Ok(None) => sleep(Duration::from_millis(10)),
            Err(_) => break,
        }
    }
    let _ = child.kill();
    let _ = child.wait();
    false
}
