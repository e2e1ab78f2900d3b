//! Text for people: whatever a terminal would not show, or would obey, is named between ⟨ and ⟩. A ⟨ of the text is named too,
//! so that each one that is shown begins a name.

use std::fmt::Write;

/// The bytes of a text that need not be UTF-8, all on one line.
pub fn text(bytes: &[u8]) -> String {
    let mut shown = String::with_capacity(bytes.len());
    for unit in units(bytes) {
        unit.show(&mut shown);
    }
    shown
}

/// A character of a text, or a byte of it that belongs to none.
#[derive(Copy, Clone)]
pub enum Unit {
    Char(char),
    Byte(u8),
}

impl Unit {
    /// How many bytes of the text it is.
    pub fn len(self) -> usize {
        match self {
            Self::Char(character) => character.len_utf8(),
            Self::Byte(_) => 1,
        }
    }

    /// Appends it as it is shown.
    pub fn show(self, shown: &mut String) {
        if let Self::Char(plain @ ' '..='~') = self {
            shown.push(plain);
            return;
        }
        let named = match self {
            Self::Byte(byte) => write!(shown, "⟨{byte:02X}⟩"),
            Self::Char(character) => match name(character) {
                Some(name) => write!(shown, "⟨{name}⟩"),
                None if is_unseen(character) => write!(shown, "⟨U+{:04X}⟩", u32::from(character)),
                None => {
                    shown.push(character);
                    Ok(())
                }
            },
        };
        named.expect("a string takes all that is written");
    }
}

/// The characters and odd bytes of a text, in order.
pub fn units(bytes: &[u8]) -> impl Iterator<Item = Unit> + '_ {
    bytes.utf8_chunks().flat_map(|chunk| {
        let odd = chunk.invalid().iter().map(|byte| Unit::Byte(*byte));
        chunk.valid().chars().map(Unit::Char).chain(odd)
    })
}

fn name(character: char) -> Option<&'static str> {
    Some(match character {
        '\0' => "NUL",
        '\x08' => "BS",
        '\t' => "TAB",
        '\n' => "LF",
        '\x0C' => "FF",
        '\r' => "CR",
        '\x1B' => "ESC",
        '\x7F' => "DEL",
        '\u{A0}' => "NBSP",
        '\u{AD}' => "SHY",
        '\u{FEFF}' => "BOM",
        _ => return None,
    })
}

/// Whether a character is not seen, turns the order of others around, or is the mark that begins a name.
fn is_unseen(character: char) -> bool {
    character.is_control()
        || character == '⟨'
        || matches!(character,
            '\u{61C}' | '\u{115F}' | '\u{1160}' | '\u{180E}' | '\u{3164}' | '\u{FFA0}'
            | '\u{2000}'..='\u{200F}' | '\u{2028}'..='\u{202F}' | '\u{205F}'..='\u{206F}'
            | '\u{FFF9}'..='\u{FFFB}' | '\u{E0000}'..='\u{E0FFF}')
}
