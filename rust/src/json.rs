//! JSON objects of one line.

/// An object that is written member by member.
pub struct Object {
    text: String,
}

impl Object {
    pub fn new() -> Object {
        Object { text: "{".into() }
    }

    pub fn string(self, key: &str, value: &str) -> Object {
        self.member(key, &string(value))
    }

    pub fn number(self, key: &str, value: impl Into<u64>) -> Object {
        self.member(key, &value.into().to_string())
    }

    pub fn bool(self, key: &str, value: bool) -> Object {
        self.member(key, if value { "true" } else { "false" })
    }

    pub fn null(self, key: &str) -> Object {
        self.member(key, "null")
    }

    pub fn object(self, key: &str, value: Object) -> Object {
        self.member(key, &value.end())
    }

    /// The object's text.
    pub fn end(self) -> String {
        self.text + "}"
    }

    fn member(mut self, key: &str, value: &str) -> Object {
        if self.text.len() > 1 {
            self.text += ",";
        }
        self.text += &format!("{}:{value}", string(key));
        self
    }
}

/// A string in quotes: quote, backslash and control characters escaped (RFC 8259).
fn string(text: &str) -> String {
    let escaped: String = text.chars().map(escape).collect();
    format!("\"{escaped}\"")
}

fn escape(c: char) -> String {
    match c {
        '"' => "\\\"".into(),
        '\\' => "\\\\".into(),
        '\n' => "\\n".into(),
        '\r' => "\\r".into(),
        '\t' => "\\t".into(),
        c if c.is_control() => format!("\\u{:04x}", u32::from(c)),
        c => c.into(),
    }
}

#[cfg(test)]
mod tests {
    use super::Object;

    #[test]
    fn strings_are_escaped() {
        let line = Object::new().string("a\"b", "c\\d\n\u{1}é").number("n", 3u8).null("z").end();
        assert_eq!(line, r#"{"a\"b":"c\\d\n\u0001é","n":3,"z":null}"#);
        assert_eq!(Object::new().end(), "{}");
        assert_eq!(
            Object::new().object("o", Object::new().bool("t", true)).end(),
            r#"{"o":{"t":true}}"#
        );
    }
}
