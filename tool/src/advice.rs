//! What to do about an error, where that is sure.

use galoxumi::{Edition, ParseError, Span};

/// Gives help for the errors of one string.
#[derive(Copy, Clone)]
pub struct Advice<'i> {
    doc: &'i [u8],
    edition: Edition,
    /// The marks between which a backslash is just itself, where the string can stand between them.
    literal: Option<&'static str>,
}

impl<'i> Advice<'i> {
    /// For a string of a document, read as an edition of TOML.
    pub fn new(doc: &'i [u8], string: Span, edition: Edition) -> Self {
        let text = &doc[string.start()..string.end()];
        let marks = if text.starts_with(b"\"\"\"") { "`'''`" } else { "`'`" };
        // A string with an apostrophe in it cannot stand between apostrophes.
        Self { doc, edition, literal: (!text.contains(&b'\'')).then_some(marks) }
    }

    /// The help for an error of the string.
    pub fn on(&self, error: &ParseError) -> Option<String> {
        let at = error.unexpected().start();
        let next = self.doc.get(at).copied();
        Some(match error.number() {
            1 => "a string between `'` ends on its line: close it there, or use `'''` for more than one line".to_string(),
            6 => {
                "a string between `\"` ends on its line: close it there, or use `\"\"\"` for more than one line".to_string()
            }
            3 => "close the string with `'''`".to_string(),
            11 => "close the string with `\"\"\"`".to_string(),
            2 | 5 => format!("between apostrophes nothing is escaped: use quotation marks, and write {}", escaped(next?)),
            7 | 12 => format!("write {}", escaped(next?)),
            4 => "a line ends in LF or CR LF; a CR by itself is written `\\r`, between quotation marks".to_string(),
            8 => match next {
                Some(letter @ (b'e' | b'x')) if self.edition == Edition::Toml10 => {
                    let letter = char::from(letter);
                    format!("`\\{letter}` is an escape of TOML 1.1, which --edition 11 reads; {}", self.itself())
                }
                _ => self.itself(),
            },
            9 => format!("{}; {}", self.digits(at)?, self.itself()),
            10 => self.no_scalar(at),
            13 => format!("only blanks may stand between a backslash and the end of its line; {}", self.itself()),
            _ => return None,
        })
    }

    /// For a backslash that was not meant to escape anything.
    fn itself(&self) -> String {
        let other = self.literal.map_or(String::new(), |marks| format!(", or put the string between {marks}"));
        format!("if the backslash is meant as itself, write `\\\\`{other}")
    }

    /// How many digits an escape takes; `at` is after those that it has.
    fn digits(&self, at: usize) -> Option<&'static str> {
        // An escape with too few has at most seven.
        let near = &self.doc[at.saturating_sub(9)..];
        let start = near.iter().take(at.min(9)).rposition(|byte| *byte == b'\\')?;
        Some(match near.get(start + 1)? {
            b'u' => "`\\u` takes four hex digits",
            b'U' => "`\\U` takes eight hex digits",
            _ => "`\\x` takes two hex digits",
        })
    }

    /// For an escape that names no character; `at` is its first digit. Two that other languages read as one are told as one.
    fn no_scalar(&self, at: usize) -> String {
        let unit = |from: usize| {
            let digits = self.doc.get(from..from + 4).and_then(|digits| std::str::from_utf8(digits).ok())?;
            u32::from_str_radix(digits, 16).ok()
        };
        let second = self.doc.get(at + 4..at + 6).filter(|escape| *escape == b"\\u").and_then(|_| unit(at + 6));
        match (self.doc.get(at - 1), unit(at), second) {
            (Some(b'u'), Some(high @ 0xD800..=0xDBFF), Some(low @ 0xDC00..=0xDFFF)) => {
                let character = 0x10000 + (high - 0xD800) * 0x400 + (low - 0xDC00);
                format!("TOML has no surrogate pairs: write both as `\\U{character:08X}`")
            }
            _ => "D800 to DFFF, and what is more than 10FFFF, are no characters".to_string(),
        }
    }
}

/// A control byte as a basic string has it.
fn escaped(byte: u8) -> String {
    let letter = match byte {
        0x08 => "b",
        b'\n' => "n",
        0x0C => "f",
        b'\r' => "r",
        _ => return format!("`\\u{byte:04X}`"),
    };
    format!("`\\{letter}`")
}
