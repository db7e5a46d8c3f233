//! Code and constants of an object file, an archive or a program (ELF, 64 bits, little-endian), by
//! section.

use std::fs;

use crate::measure::Group;

fn number(bytes: &[u8], at: usize, size: usize) -> usize {
    bytes[at..at + size].iter().rev().fold(0, |sum, byte| sum << 8 | usize::from(*byte))
}

/// Name, whether it is code, and size of each section that a program holds in memory.
fn sections(object: &[u8]) -> Vec<(String, bool, usize)> {
    let (table, count, names) =
        (number(object, 40, 8), number(object, 60, 2), number(object, 62, 2));
    let header = |index: usize| table + 64 * index;
    let texts = number(object, header(names) + 24, 8);
    let section = |index: usize| {
        let at = header(index);
        let (kind, flags, size) =
            (number(object, at + 4, 4), number(object, at + 8, 8), number(object, at + 32, 8));
        let from = texts + number(object, at, 4);
        let length = object[from..].iter().position(|byte| *byte == 0)?;
        let name = String::from_utf8_lossy(&object[from..from + length]).into_owned();
        // in the file and in memory, and no record for the unwinder
        let held = kind == 1 && flags & 2 != 0 && !name.starts_with(".eh_frame");
        held.then_some((name, flags & 4 != 0, size))
    };
    (0..count).filter_map(section).collect()
}

/// The object files of an archive, or the file itself.
fn objects(bytes: &[u8]) -> Vec<&[u8]> {
    if !bytes.starts_with(b"!<arch>\n") {
        return vec![bytes];
    }
    let (mut at, mut found) = (8, Vec::new());
    while at + 60 <= bytes.len() {
        let size = String::from_utf8_lossy(&bytes[at + 48..at + 58]).trim().parse().unwrap_or(0);
        let member = &bytes[at + 60..at + 60 + size];
        if member.starts_with(b"\x7fELF") {
            found.push(member);
        }
        at += 60 + size + size % 2;
    }
    found
}

/// Bytes of code and of constants.
fn sizes(path: &str) -> Option<(Vec<(String, bool, usize)>, [usize; 2])> {
    let bytes = fs::read(path).ok()?;
    let all: Vec<_> = objects(&bytes).into_iter().flat_map(sections).collect();
    let of =
        |code: bool| all.iter().filter(|section| section.1 == code).map(|section| section.2).sum();
    let sums = [of(true), of(false)];
    Some((all, sums))
}

pub fn all(engine: &str) -> Result<Vec<Group>, String> {
    let mut whole = Group::new("Size: code and constants", "bytes");
    let (sections, _) = sizes(engine).ok_or(format!("{engine}: not read"))?;
    for (what, path) in [
        ("this engine, the archive: all four calls", engine),
        ("C with a switch: run alone", "target/bench/switch.o"),
        ("C with goto: run alone", "target/bench/threaded.o"),
        ("Lua 5.4, the program", "/usr/bin/lua5.4"),
    ] {
        if let Some((_, [code, constants])) = sizes(path) {
            whole.row(what, 0.0, vec![("code", code as f64), ("constants", constants as f64)]);
        }
    }
    let mut code: Vec<_> =
        sections.into_iter().filter(|section| section.1 && section.2 > 0).collect();
    code.sort_by_key(|section| std::cmp::Reverse(section.2));
    let mut parts = Group::new("Size: the archive's functions", "bytes");
    for (name, _, size) in code {
        parts.row(
            name.trim_start_matches(".text.").trim_start_matches('.'),
            0.0,
            vec![("code", size as f64)],
        );
    }
    Ok(vec![whole, parts])
}
