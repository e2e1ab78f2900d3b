//! Standard output: colours on a terminal only, and an end of the run where it cannot be written.

use galoxumi::Refusal;
use std::io::{BufWriter, ErrorKind, IsTerminal, StdoutLock, Write};

/// Why the run ends early.
pub enum Stop {
    /// The reader of a pipe has closed it.
    Closed,
    /// It could not be written.
    Failed(std::io::Error),
    /// The library refused a call that it is never to refuse: nothing is judged.
    Refused(Refusal),
}

impl From<Refusal> for Stop {
    fn from(refusal: Refusal) -> Self {
        Self::Refused(refusal)
    }
}

impl From<std::io::Error> for Stop {
    fn from(error: std::io::Error) -> Self {
        match error.kind() {
            ErrorKind::BrokenPipe => Self::Closed,
            _ => Self::Failed(error),
        }
    }
}

/// How a part of a line is set.
#[derive(Copy, Clone)]
pub enum Style {
    Error,
    Frame,
    Strong,
}

pub struct Output {
    lines: BufWriter<StdoutLock<'static>>,
    colours: bool,
}

impl Output {
    pub fn new() -> Self {
        let stdout = std::io::stdout();
        let wanted = std::env::var_os("NO_COLOR").is_none_or(|value| value.is_empty());
        let able = std::env::var_os("TERM").is_none_or(|term| term != "dumb");
        let colours = wanted && able && stdout.is_terminal();
        Self { lines: BufWriter::with_capacity(1 << 16, stdout.lock()), colours }
    }

    pub fn text(&mut self, text: &str) -> Result<(), Stop> {
        Ok(self.lines.write_all(text.as_bytes())?)
    }

    pub fn line(&mut self, text: &str) -> Result<(), Stop> {
        self.text(text)?;
        self.text("\n")
    }

    /// A text as it is to be set: with the colour's codes where there are colours.
    pub fn set(&self, style: Style, text: &str) -> String {
        let code = match style {
            Style::Error => "1;31",
            Style::Frame => "1;34",
            Style::Strong => "1",
        };
        if self.colours {
            format!("\x1B[{code}m{text}\x1B[0m")
        } else {
            text.to_string()
        }
    }

    /// Writes what is left.
    pub fn end(&mut self) -> Result<(), Stop> {
        Ok(self.lines.flush()?)
    }
}
