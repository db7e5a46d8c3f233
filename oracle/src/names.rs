//! Text numbers as the names of the original, and back.

/// Text 0 is the name that the original gives to a loop over a call.
pub fn name_of(text: u8) -> String {
    if text == 0 {
        return String::from("fortmp");
    }
    format!("t{text:03}")
}

pub fn text_of(name: &str) -> u8 {
    if name == "fortmp" {
        return 0;
    }
    let digits = name.strip_prefix('t').unwrap_or_else(|| panic!("unknown name {name}"));
    digits.parse().unwrap_or_else(|_| panic!("unknown name {name}"))
}
