//! A file of Rattle as words, numbers and signs, and their forms.

/// Words that are no operand and no function.
pub const KEYWORDS: [&str; 10] = ["if", "else", "while", "match", "return", "break", "let", "mut", "in", "as"];

/// What an array may be of: an item's place is then a product with a power of two.
const PLAIN: [&str; 7] = ["u8", "u16", "u32", "u64", "usize", "f64", "bool"];

/// The words of a file without its comments; none where something stands in it that is not read: a byte string, a letter,
/// a lifetime, a comment over several lines, a number with an exponent.
pub fn words(text: &str) -> Option<Vec<String>> {
    let mut out = Vec::new();
    for line in text.lines() {
        let line: Vec<char> = line.split("//").next().unwrap_or("").chars().collect();
        let mut at = 0;
        while at < line.len() {
            let end = token(&line, at);
            let word: String = line[at..end].iter().collect();
            if ["\"", "'", "/*"].contains(&word.as_str()) || has_exponent(&word) {
                return None;
            }
            if !line[at].is_whitespace() {
                out.push(word);
            }
            at = end;
        }
    }
    Some(out)
}

/// Where the token that begins at a place ends; a path is one.
fn token(line: &[char], at: usize) -> usize {
    let run = |is: &dyn Fn(usize) -> bool| (at..line.len()).find(|&k| !is(k)).unwrap_or(line.len());
    if line[at].is_ascii_digit() {
        return run(&|k| part(line[k]) || (line[k] == '.' && line.get(k + 1).is_some_and(char::is_ascii_digit)));
    }
    if part(line[at]) {
        return run(&|k| part(line[k]) || (line[k] == ':' && (line.get(k + 1) == Some(&':') || line[k - 1] == ':')));
    }
    let two: String = line[at..line.len().min(at + 2)].iter().collect();
    let pairs = ["->", "=>", "==", "!=", "<=", ">=", "<<", ">>", "&&", "||", "*=", "/=", "%=", "+=", "-=", "/*", "::", ".."];
    at + if pairs.contains(&two.as_str()) { 2 } else { 1 }
}

fn part(c: char) -> bool {
    c.is_alphanumeric() || c == '_'
}

pub fn is_word(token: &str) -> bool {
    token.starts_with(|c: char| c.is_alphabetic() || c == '_')
}

pub fn is_number(token: &str) -> bool {
    token.starts_with(|c: char| c.is_ascii_digit())
}

/// `1e-4`, as far as it is one token.
fn has_exponent(token: &str) -> bool {
    is_number(token) && !token.starts_with("0x") && token.contains(['e', 'E']) && !token.ends_with("usize")
}

pub fn is_product(token: &str) -> bool {
    ["*", "/", "%", "*=", "/=", "%="].contains(&token)
}

/// Whether an operand may end here, so that a `*` behind it multiplies.
pub fn ends_operand(token: &str) -> bool {
    let value = is_word(token) && !KEYWORDS.contains(&token);
    value || is_number(token) || [")", "]", "}"].contains(&token)
}

/// A whole number as it is written: `16`, `0x10`, `1_024`, `2u64`.
pub fn whole(word: &str) -> Option<u64> {
    let kinds = ["usize", "u8", "u16", "u32", "u64"];
    let digits = word.replace('_', "");
    let digits = kinds.iter().find_map(|kind| digits.strip_suffix(kind)).unwrap_or(&digits);
    match digits.strip_prefix("0x") {
        Some(hex) => u64::from_str_radix(hex, 16).ok(),
        None => digits.parse().ok(),
    }
}

/// The next place of one of some words, outside of brackets.
pub fn next(words: &[String], from: usize, wanted: &[&str]) -> usize {
    let mut depth = 0;
    for at in from..words.len() {
        if depth == 0 && wanted.contains(&words[at].as_str()) {
            return at;
        }
        match words[at].as_str() {
            "(" | "[" | "{" => depth += 1,
            ")" | "]" | "}" if depth > 0 => depth -= 1,
            _ => {}
        }
    }
    words.len()
}

/// The first array that is not of numbers or yes/no, by what it is of.
pub fn wide_array(words: &[String]) -> Option<&String> {
    let wide = |three: &&[String]| {
        three[1] == "[" && !ends_operand(&three[0]) && !is_number(&three[2]) && !PLAIN.contains(&three[2].as_str())
    };
    words.windows(3).find(wide).map(|three| &three[2])
}

/// Behind the `}` that closes the `{` at a place.
pub fn behind(words: &[String], open: usize) -> usize {
    next(words, open + 1, &["}"]) + 1
}
