//! Values of the original as text, and back.

use std::collections::HashMap;

use crate::names::{name_of, text_of};
use crate::original::sifc_bytecode::sifv::SifVal;
use crate::refuse::PROGRAM_REFUSED;

pub const NAN: u64 = 0x7ff8_0000_0000_0000;

pub fn number_text(value: f64) -> String {
    let bits = if value.is_nan() { NAN } else { value.to_bits() };
    format!("Num:{bits:016x}")
}

pub fn value_text(value: &SifVal) -> String {
    match value {
        SifVal::Num(n) => number_text(*n),
        SifVal::Str(s) => format!("Str:{}", text_of(s)),
        SifVal::Bl(b) => format!("Bl:{}", u8::from(*b)),
        SifVal::Null => String::from("Null"),
        SifVal::Arr(items) => {
            let items: Vec<String> = items.iter().map(value_text).collect();
            format!("Arr:[{}]", items.join(","))
        }
        SifVal::Tab(map) => table_text(map),
    }
}

fn table_text(map: &HashMap<String, SifVal>) -> String {
    let mut items: Vec<(u8, String)> =
        map.iter().map(|(key, value)| (text_of(key), value_text(value))).collect();
    items.sort();
    let items: Vec<String> = items.iter().map(|(key, value)| format!("{key}={value}")).collect();
    format!("Tab:[{}]", items.join(","))
}

/// A literal as written in an `op` line. None where it is not written so; an inner error where
/// it is no literal that document 01 allows.
pub fn read_literal(text: &str) -> Option<Result<SifVal, u8>> {
    let Some(items) = inside(text, "Arr:[") else {
        return match inside(text, "Tab:[") {
            Some("") => Some(Ok(SifVal::Tab(HashMap::new()))),
            Some(_) => Some(Err(PROGRAM_REFUSED)),
            None => read_single(text),
        };
    };
    if items.is_empty() {
        return Some(Ok(SifVal::Arr(Vec::new())));
    }
    if items.contains('[') {
        return Some(Err(PROGRAM_REFUSED));
    }
    let values: Result<Vec<SifVal>, u8> =
        items.split(',').map(read_single).collect::<Option<Vec<_>>>()?.into_iter().collect();
    Some(values.and_then(|v| if v.len() > 24 { Err(PROGRAM_REFUSED) } else { Ok(SifVal::Arr(v)) }))
}

fn inside<'t>(text: &'t str, head: &str) -> Option<&'t str> {
    text.strip_prefix(head)?.strip_suffix(']')
}

fn read_single(text: &str) -> Option<Result<SifVal, u8>> {
    if let Some(bits) = text.strip_prefix("Num:") {
        let bits = u64::from_str_radix(bits, 16).ok()?;
        return Some(Ok(SifVal::Num(f64::from_bits(bits))));
    }
    if let Some(number) = text.strip_prefix("Str:") {
        let number: usize = number.parse().ok()?;
        return Some(if number > 63 {
            Err(PROGRAM_REFUSED)
        } else {
            Ok(SifVal::Str(name_of(number as u8)))
        });
    }
    match text {
        "Bl:0" => Some(Ok(SifVal::Bl(false))),
        "Bl:1" => Some(Ok(SifVal::Bl(true))),
        "Null" => Some(Ok(SifVal::Null)),
        _ => None,
    }
}
