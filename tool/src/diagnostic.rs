//! How something that is wrong is laid out, in the manner of a compiler: the place and what is wrong, the line with a mark under
//! the place, and what else is known.

use crate::excerpt;
use crate::input::Input;
use crate::output::{Output, Stop, Style};
use galoxumi::{Position, Span};

pub struct Diagnostic {
    pub at: Position,
    /// What is marked; it starts at that place.
    pub span: Span,
    /// What stands in the brackets of `error[..]`.
    pub code: String,
    pub message: String,
    /// What else is known: the word before each, as `note` or `help`, and the text.
    pub notes: Vec<(&'static str, String)>,
}

impl Diagnostic {
    pub fn write(&self, input: &Input, output: &mut Output) -> Result<(), Stop> {
        let place = output.set(Style::Strong, &format!("{}:{}:", input.name, self.at));
        let error = output.set(Style::Error, &format!("error[{}]", self.code));
        output.line(&format!("{place} {error}: {}", self.message))?;
        let number = self.at.line.to_string();
        let edge = " ".repeat(number.len());
        self.write_line(&number, &edge, input, output)?;
        for (kind, note) in &self.notes {
            output.line(&format!("{edge} {} {kind}: {note}", output.set(Style::Frame, "=")))?;
        }
        output.line("")
    }

    fn write_line(&self, number: &str, edge: &str, input: &Input, output: &mut Output) -> Result<(), Stop> {
        let excerpt = excerpt::of(&input.doc, self.span);
        let carets = output.set(Style::Error, &"^".repeat(excerpt.carets));
        let bar = output.set(Style::Frame, "|");
        let line = if excerpt.line.is_empty() { String::new() } else { format!(" {}", excerpt.line) };
        output.line(&format!("{edge} {bar}"))?;
        output.line(&format!("{} {bar}{line}", output.set(Style::Frame, number)))?;
        output.line(&format!("{edge} {bar} {}{carets}", " ".repeat(excerpt.before)))
    }
}
