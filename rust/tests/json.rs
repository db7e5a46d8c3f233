//! `sif check --json`: each line is one JSON object by RFC 8259, with what the plain line says.

mod scripts;

use std::collections::BTreeMap;
use std::ffi::{OsStr, OsString};
use std::fs;
use std::os::unix::ffi::OsStrExt;
use std::path::{Path, PathBuf};
use std::process::Command;

use scripts::stored;
use sif::check::check;

#[derive(Clone, Debug, PartialEq)]
enum Json {
    Null,
    Bool(bool),
    Number(u64),
    String(String),
    Object(BTreeMap<String, Json>),
}

/// A reader of objects, strings, whole numbers, true, false and null, with no blanks between.
struct Reader<'t> {
    rest: &'t str,
}

impl Reader<'_> {
    fn whole(text: &str) -> Json {
        let mut reader = Reader { rest: text };
        let value = reader.value();
        assert_eq!(reader.rest, "", "{text}");
        value
    }

    fn takes(&mut self, word: &str) -> bool {
        match self.rest.strip_prefix(word) {
            Some(rest) => {
                self.rest = rest;
                true
            }
            None => false,
        }
    }

    fn next(&mut self) -> char {
        let c = self.rest.chars().next().expect("a character");
        self.rest = &self.rest[c.len_utf8()..];
        c
    }

    fn value(&mut self) -> Json {
        match () {
            () if self.takes("null") => Json::Null,
            () if self.takes("true") => Json::Bool(true),
            () if self.takes("false") => Json::Bool(false),
            () if self.takes("{") => self.object(),
            () if self.takes("\"") => Json::String(self.string()),
            () => self.number(),
        }
    }

    fn object(&mut self) -> Json {
        let mut members = BTreeMap::new();
        loop {
            assert!(self.takes("\""), "{}", self.rest);
            let key = self.string();
            assert!(self.takes(":"), "{}", self.rest);
            let value = self.value();
            assert_eq!(members.insert(key, value), None);
            if self.takes("}") {
                return Json::Object(members);
            }
            assert!(self.takes(","), "{}", self.rest);
        }
    }

    fn string(&mut self) -> String {
        let mut text = String::new();
        loop {
            match self.next() {
                '"' => return text,
                '\\' => text.push(self.escaped()),
                c => {
                    assert!(c >= ' ', "a control character {c:?}");
                    text.push(c);
                }
            }
        }
    }

    fn escaped(&mut self) -> char {
        match self.next() {
            c @ ('"' | '\\' | '/') => c,
            'n' => '\n',
            'r' => '\r',
            't' => '\t',
            'u' => {
                let digits: String = (0..4).map(|_| self.next()).collect();
                char::from_u32(u32::from_str_radix(&digits, 16).unwrap()).unwrap()
            }
            c => panic!("\\{c}"),
        }
    }

    fn number(&mut self) -> Json {
        let length = self.rest.bytes().take_while(u8::is_ascii_digit).count();
        let (digits, rest) = self.rest.split_at(length);
        assert!(digits == "0" || !digits.starts_with('0'), "{digits}");
        self.rest = rest;
        Json::Number(digits.parse().unwrap())
    }
}

fn object(members: &[(&str, Json)]) -> Json {
    Json::Object(members.iter().map(|(key, value)| (key.to_string(), value.clone())).collect())
}

fn number(number: usize) -> Json {
    Json::Number(number as u64)
}

fn string(text: impl Into<String>) -> Json {
    Json::String(text.into())
}

/// What has to be said of a file.
fn expected(name: &str, file: &[u8]) -> Json {
    let name = string(name);
    match check(file) {
        Ok(accepted) => object(&[
            ("file", name),
            ("accepted", Json::Bool(true)),
            ("nodes", number(usize::from(u16::from_be_bytes([file[0], file[1]])))),
            ("texts", number(usize::from(file[2]))),
            ("instructions", number(usize::from(accepted.program.count()))),
            ("bound", accepted.bound.map_or(Json::Null, Json::Number)),
        ]),
        Err(fault) => {
            let mut members = vec![
                ("file", name),
                ("accepted", Json::Bool(false)),
                ("number", number(usize::from(fault.number))),
                ("words", string(fault.words)),
            ];
            members.extend(fault.byte.map(|byte| ("byte", number(byte))));
            members.extend(fault.text.map(|text| {
                let bytes = string(text.bytes.escape_ascii().to_string());
                ("text", object(&[("number", number(text.number)), ("bytes", bytes)]))
            }));
            members.extend(fault.node.map(|node| {
                ("node", object(&[("number", number(node.number)), ("path", string(node.path))]))
            }));
            object(&members)
        }
    }
}

fn folder() -> PathBuf {
    let folder = Path::new(env!("CARGO_TARGET_TMPDIR")).join("json");
    fs::create_dir_all(&folder).unwrap();
    folder
}

/// The lines of the command for files in the folder, and its exit code.
fn lines(names: &[OsString]) -> (Vec<Json>, Option<i32>) {
    let mut command = Command::new(env!("CARGO_BIN_EXE_sif"));
    let output = command.args(["check", "--json", "--"]).args(names).current_dir(folder());
    let output = output.output().unwrap();
    assert_eq!(output.stderr, b"");
    let text = String::from_utf8(output.stdout).unwrap();
    assert!(text.is_empty() || text.ends_with('\n'));
    (text.lines().map(Reader::whole).collect(), output.status.code())
}

/// Every third stored file, so all refusals.
#[test]
fn stored_files() {
    let cases: Vec<_> = stored().into_iter().step_by(3).collect();
    let mut names = Vec::new();
    let mut wanted = Vec::new();
    for (number, case) in cases.iter().enumerate() {
        let name = format!("{number}.tree");
        fs::write(folder().join(&name), &case.file).unwrap();
        wanted.push(expected(&name, &case.file));
        names.push(name.into());
    }
    let refused: Vec<_> = cases.iter().filter_map(|case| case.refused()).collect();
    assert!((1..=7).chain([39]).all(|number| refused.contains(&number)));
    assert_eq!(lines(&names), (wanted, Some(1)));
}

/// Names with quotes, backslashes, line ends, control characters and bytes that are no UTF-8.
#[test]
fn odd_names() {
    let file = sif::parse::parse("var x = 2\n").unwrap().script.to_bytes();
    let names: Vec<OsString> = [
        &b"a\"b"[..],
        b"c\\d",
        b"e\nf",
        b"\x01\x1f\x7f\t\r",
        "Bärenhöhle ⠃".as_bytes(),
        b"g\xffh",
        b"--json",
    ]
    .map(|name| OsStr::from_bytes(name).to_os_string())
    .into();
    for name in &names {
        fs::write(folder().join(name), &file).unwrap();
    }
    let wanted = names.iter().map(|name| expected(&name.to_string_lossy(), &file)).collect();
    assert_eq!(lines(&names), (wanted, Some(0)));
    let plain = Command::new(env!("CARGO_BIN_EXE_sif"))
        .args(["check", "--"])
        .args(&names[..3])
        .current_dir(folder())
        .output()
        .unwrap();
    assert_eq!(plain.stdout, b"a\"b: accepted\nc\\d: accepted\ne?f: accepted\n");
    let (none, code) = lines(&["no \"file".into()]);
    assert_eq!(code, Some(2));
    let Json::Object(members) = &none[0] else { panic!("{none:?}") };
    assert_eq!(members["file"], string("no \"file"));
    assert!(matches!(&members["error"], Json::String(what) if what.starts_with("no \"file: ")));
    assert_eq!(members.len(), 2);
}

/// A number that is not finite, with its place.
#[test]
fn not_finite() {
    let file = b"\0\x03\x02\x06\x01\x01\x01\x08\x01\x13\0fortmpx\x01\xff\xf8\0\0\0\0\0\x01";
    fs::write(folder().join("not_finite.tree"), file).unwrap();
    let place = [("number", number(2)), ("path", string("Program > statement 1 (VarDecl) > Num"))];
    let wanted = object(&[
        ("file", string("not_finite.tree")),
        ("accepted", Json::Bool(false)),
        ("number", number(39)),
        ("words", string("the number is nan; the numbers of a script are finite")),
        ("byte", number(19)),
        ("node", object(&place)),
    ]);
    assert_eq!(lines(&["not_finite.tree".into()]), (vec![wanted], Some(1)));
}

/// An index that is none is no fault of the file: the page stops, the file is accepted.
#[test]
fn no_index() {
    let file =
        sif::parse::parse("var cells = [1, 2, 3]\nx = cells[2.5]\n").unwrap().script.to_bytes();
    fs::write(folder().join("no_index.tree"), file).unwrap();
    let wanted = object(&[
        ("file", string("no_index.tree")),
        ("accepted", Json::Bool(true)),
        ("nodes", Json::Number(10)),
        ("texts", Json::Number(3)),
        ("instructions", Json::Number(4)),
        ("bound", Json::Number(4)),
    ]);
    assert_eq!(lines(&["no_index.tree".into()]), (vec![wanted], Some(0)));
}
