//! The words of a command line, after the command.

use galoxumi::Edition;
use std::ffi::OsString;

/// Files and options.
#[derive(Default)]
pub struct Arguments {
    pub files: Vec<OsString>,
    pub edition: Edition,
    pub json: bool,
    pub first: bool,
    pub in_place: bool,
    pub output: Option<OsString>,
}

/// Why there are none.
pub enum Wrong {
    /// The help was asked for.
    Help,
    /// What is wrong.
    Said(String),
}

impl Arguments {
    /// Reads the words of a command that takes these options.
    pub fn read(mut words: impl Iterator<Item = OsString>, options: &[&str]) -> Result<Self, Wrong> {
        let mut read = Self::default();
        while let Some(word) = words.next() {
            let name = word.to_string_lossy();
            if name == "--" {
                read.files.extend(words.by_ref());
            } else if name == "--help" || name == "-h" {
                return Err(Wrong::Help);
            } else if name == "-" || !name.starts_with('-') {
                read.files.push(word);
            } else {
                read.option(&name, &mut words, options)?;
            }
        }
        Ok(read)
    }

    /// One option, with its value as the next word or after `=`.
    fn option(&mut self, word: &str, words: &mut impl Iterator<Item = OsString>, options: &[&str]) -> Result<(), Wrong> {
        let (name, value) = word.split_once('=').map_or((word, None), |(name, value)| (name, Some(OsString::from(value))));
        if !options.contains(&name) {
            return Err(Wrong::Said(format!("no option {name}")));
        }
        let flag = match name {
            "--json" => &mut self.json,
            "--first" => &mut self.first,
            "--in-place" => &mut self.in_place,
            "--output" => {
                self.output = value.or_else(|| words.next());
                let named = self.output.as_ref().is_some_and(|name| !name.is_empty());
                return if named { Ok(()) } else { Err(Wrong::Said("--output takes a file".to_string())) };
            }
            _ => return edition(value.or_else(|| words.next())).map(|edition| self.edition = edition),
        };
        *flag = true;
        value.map_or(Ok(()), |_| Err(Wrong::Said(format!("{name} takes no value"))))
    }

    /// The one file of a command that takes one.
    pub fn one_file(&self) -> Option<&OsString> {
        match self.files.as_slice() {
            [file] => Some(file),
            _ => None,
        }
    }
}

fn edition(value: Option<OsString>) -> Result<Edition, Wrong> {
    match value.as_deref().and_then(|value| value.to_str()) {
        Some("10") => Ok(Edition::Toml10),
        Some("11") => Ok(Edition::Toml11),
        _ => Err(Wrong::Said("--edition takes 10, for TOML 1.0, or 11, for TOML 1.1".to_string())),
    }
}
