//! Objects of JSON, one a line.

use std::fmt::Write;

/// An object that is being written.
pub struct Object {
    text: String,
}

impl Object {
    pub fn new() -> Self {
        Self { text: "{".to_string() }
    }

    fn key(&mut self, name: &str) {
        if self.text.len() > 1 {
            self.text.push(',');
        }
        quote(name, &mut self.text);
        self.text.push(':');
    }

    pub fn string(mut self, name: &str, value: &str) -> Self {
        self.key(name);
        quote(value, &mut self.text);
        self
    }

    pub fn number(mut self, name: &str, value: usize) -> Self {
        self.key(name);
        write!(self.text, "{value}").expect("a string takes all that is written");
        self
    }

    pub fn truth(mut self, name: &str, value: bool) -> Self {
        self.key(name);
        self.text.push_str(if value { "true" } else { "false" });
        self
    }

    pub fn object(mut self, name: &str, value: Object) -> Self {
        self.key(name);
        self.text.push_str(&value.end());
        self
    }

    pub fn list(mut self, name: &str, values: impl Iterator<Item = Object>) -> Self {
        self.key(name);
        let values: Vec<String> = values.map(Object::end).collect();
        write!(self.text, "[{}]", values.join(",")).expect("a string takes all that is written");
        self
    }

    /// The object's text.
    pub fn end(mut self) -> String {
        self.text.push('}');
        self.text
    }
}

fn quote(value: &str, text: &mut String) {
    text.push('"');
    for character in value.chars() {
        match character {
            '"' | '\\' => text.extend(['\\', character]),
            '\n' => text.push_str("\\n"),
            '\r' => text.push_str("\\r"),
            '\t' => text.push_str("\\t"),
            character if character.is_control() => {
                write!(text, "\\u{:04x}", u32::from(character)).expect("a string takes all that is written");
            }
            character => text.push(character),
        }
    }
    text.push('"');
}

/// Bytes that are not UTF-8, in hex.
pub fn hex(bytes: &[u8]) -> String {
    bytes.iter().map(|byte| format!("{byte:02x}")).collect()
}
