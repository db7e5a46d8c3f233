//! Numbers and names in texts.
use crate::Numbers;

/// A number at the start of a text, as `40960`, `40_960` or `40,960`, and what is behind it.
pub fn number(text: &str) -> Option<(u64, &str)> {
    let digits = |text: &str| text.chars().take_while(char::is_ascii_digit).count();
    let mut end = digits(text);
    while text[end..].starts_with([',', '_']) && digits(&text[end + 1..]) == 3 {
        end += 4;
    }
    text[..end].replace([',', '_'], "").parse().ok().map(|number| (number, &text[end..]))
}

/// The numbers that stand for the `§` of a phrase in some lines, with the places of those.
pub fn found(lines: &[&str], phrase: &str) -> Vec<(usize, u64)> {
    let (before, after) = phrase.split_once('§').unwrap_or((phrase, ""));
    let mut out = Vec::new();
    for (at, line) in lines.iter().enumerate() {
        for (start, _) in line.match_indices(before) {
            let behind = number(&line[start + before.len()..]).filter(|(_, rest)| rest.starts_with(after));
            out.extend(behind.map(|(number, _)| (at, number)));
        }
    }
    out
}

/// The lines from the one that begins with some words to the next heading or closing bracket, and where they begin.
pub fn part<'t>(lines: &[&'t str], start: &str) -> Option<(usize, Vec<&'t str>)> {
    let first = lines.iter().position(|line| line.trim_start().starts_with(start))?;
    let rest = lines[first + 1..].iter().take_while(|line| !line.starts_with('#') && **line != "}");
    Some((first, [lines[first]].into_iter().chain(rest.copied()).collect()))
}

/// `SIF_NAME NUMBER` and `SIF_NAME = NUMBER` of the header, without `SIF_`; its comments are left out.
pub fn header(text: &str) -> Numbers {
    let code: String = text.split("/*").map(|part| part.split_once("*/").map_or(part, |(_, code)| code)).collect();
    let entry = |line: &str| {
        let (name, rest) = line.trim().trim_start_matches("#define ").strip_prefix("SIF_")?.split_once(' ')?;
        Some((name.to_string(), number(rest.trim_start_matches("= "))?.0))
    };
    code.lines().filter_map(entry).collect()
}

/// `const NAME: TYPE = NUMBER;` of a line: name, type, number.
pub fn constant(line: &str) -> Option<(String, &str, u64)> {
    let (name, rest) = line.split("//").next()?.split_once("const ")?.1.split_once(": ")?;
    let (kind, value) = rest.split_once(" = ")?;
    let (number, end) = number(value)?;
    (end.trim() == ";").then(|| (name.to_string(), kind, number))
}

/// `program_size` and `ProgramSize` as `PROGRAM_SIZE`.
pub fn upper(name: &str) -> String {
    let mut out = String::new();
    for letter in name.chars() {
        if letter.is_uppercase() && !out.is_empty() {
            out.push('_');
        }
        out.push(letter.to_ascii_uppercase());
    }
    out
}

/// The word at the start of a text.
pub fn word(text: &str) -> &str {
    let end = text.find(|c: char| !c.is_alphanumeric() && c != '_').unwrap_or(text.len());
    &text[..end]
}
