//! The words behind a command: options and files.

use std::ffi::{OsStr, OsString};

/// An option that a command takes.
pub struct Rule {
    /// How it is written, for example `--width`.
    pub name: &'static str,
    /// What stands behind it, for example `N`; empty where nothing does.
    pub value: &'static str,
}

/// The options and files given.
#[derive(Debug, Default)]
pub struct Arguments {
    options: Vec<(&'static str, OsString)>,
    /// The files, in order.
    pub files: Vec<OsString>,
}

impl Arguments {
    /// Sorts words into options and files; the words behind `--` are files. An error says what is
    /// wrong.
    pub fn parse(words: &[OsString], rules: &'static [Rule]) -> Result<Arguments, String> {
        let mut arguments = Arguments::default();
        let mut words = words.iter();
        while let Some(word) = words.next() {
            if word == "--" {
                arguments.files.extend(words.cloned());
                break;
            }
            match option_of(word) {
                None => arguments.files.push(word.clone()),
                Some((name, attached)) => {
                    let rule = rules.iter().find(|rule| rule.name == name);
                    let rule = rule.ok_or_else(|| format!("there is no option {name}"))?;
                    let value = value_of(rule, attached, &mut words)?;
                    arguments.add(rule.name, value)?;
                }
            }
        }
        Ok(arguments)
    }

    fn add(&mut self, name: &'static str, value: OsString) -> Result<(), String> {
        if self.is_given(name) {
            return Err(format!("{name} is given twice"));
        }
        self.options.push((name, value));
        Ok(())
    }

    /// Whether an option is given.
    pub fn is_given(&self, name: &str) -> bool {
        self.value(name).is_some()
    }

    /// What stands behind an option.
    pub fn value(&self, name: &str) -> Option<&OsStr> {
        self.options.iter().find(|(given, _)| *given == name).map(|(_, value)| value.as_os_str())
    }

    /// The whole number behind an option, of at least `least`; `default` where it is not given.
    pub fn number(&self, name: &str, least: u64, default: u64) -> Result<u64, String> {
        let Some(value) = self.value(name) else {
            return Ok(default);
        };
        let number = value.to_str().and_then(|text| text.parse().ok());
        number.filter(|number| *number >= least).ok_or_else(|| {
            let value = value.to_string_lossy();
            format!("{name} takes a whole number from {least} to {}, not {value}", u64::MAX)
        })
    }

    /// The one file that is given; an error where there is none or more than one.
    pub fn one_file(&self) -> Result<&OsStr, String> {
        match self.files.as_slice() {
            [file] => Ok(file),
            [] => Err("a file is missing (- is standard input)".into()),
            [_, second, ..] => Err(format!("one file too many: {}", second.to_string_lossy())),
        }
    }
}

/// An option's name, and what is attached to it by `=`. A `-` alone is a file.
fn option_of(word: &OsStr) -> Option<(String, Option<OsString>)> {
    let text = word.to_string_lossy();
    if !text.starts_with('-') || text == "-" {
        return None;
    }
    match text.split_once('=') {
        Some((name, value)) if name.starts_with("--") => Some((name.into(), Some(value.into()))),
        _ => Some((text.into(), None)),
    }
}

fn value_of<'w>(
    rule: &Rule,
    attached: Option<OsString>,
    words: &mut impl Iterator<Item = &'w OsString>,
) -> Result<OsString, String> {
    match (rule.value, attached) {
        ("", None) => Ok(OsString::new()),
        ("", Some(_)) => Err(format!("{} takes no value", rule.name)),
        (_, Some(value)) => Ok(value),
        (value, None) => words
            .next()
            .cloned()
            .ok_or_else(|| format!("{} takes a value: {} {value}", rule.name, rule.name)),
    }
}
