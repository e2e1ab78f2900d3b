//! `galoxumi check`: what is wrong with the strings and the encoding of files.

use crate::advice::Advice;
use crate::arguments::Arguments;
use crate::finding::{Finding, What};
use crate::input::{self, Input};
use crate::json::Object;
use crate::judge::{Fault, Judge, Verdict};
use crate::output::{Output, Stop, Style};
use crate::Status;
use galoxumi::{first_broken_in, Broken, Lent, Lexer, Places, Refusal, Token};

pub const HELP: &str = "\
usage: galoxumi check [--edition 10|11] [--first] [--json] FILE..

Says what is wrong with each broken string of the files, and where one is not UTF-8: the place, the line with a mark under
the place, the string and where it opens, what was expected, and what to do about it where that is sure. Of a file with
nothing wrong it says `strings and encoding are sound`, and never that it is valid TOML: structure, numbers and dates stay
with the parser. FILE - is standard input.

  --edition 11   reads TOML 1.1, which has the escapes \\e and \\xHH besides; else TOML 1.0 is read
  --first        stops at the first thing that is wrong with a file
  --json         writes an object a line; galoxumi(1) has their fields

Exit status: 0 all files are sound; 1 one is not; 2 one could not be read, or is longer than 16,777,216 bytes.
";

pub fn run(arguments: &Arguments, output: &mut Output) -> Result<Status, Stop> {
    if arguments.files.is_empty() {
        return Ok(crate::misused("no FILE", HELP));
    }
    let mut worst = Status::Sound;
    for file in &arguments.files {
        let status = match input::read(file) {
            Ok(input) => Check { input: &input, arguments, found: Found::default() }.run(output)?,
            Err(why) => unread(&input::name_of(file), &why, arguments.json, output)?,
        };
        worst = worst.max(status);
    }
    Ok(worst)
}

/// Says that a file was not judged, after all that is said of those before it.
pub fn unread(name: &str, why: &str, json: bool, output: &mut Output) -> Result<Status, Stop> {
    if json {
        output.line(&Object::new().string("file", name).string("failed", why).end())?;
    }
    output.end()?;
    input::complain(why);
    Ok(Status::Failed)
}

/// What was found of a file so far.
#[derive(Default)]
struct Found {
    strings: usize,
    broken: usize,
    errors: usize,
    not_utf8: usize,
}

struct Check<'a> {
    input: &'a Input,
    arguments: &'a Arguments,
    found: Found,
}

impl Check<'_> {
    fn run(mut self, output: &mut Output) -> Result<Status, Stop> {
        if self.arguments.first {
            self.first(output)?;
        } else {
            self.all(output)?;
        }
        self.sum_up(output)
    }

    /// The first thing that is wrong, and no further.
    fn first(&mut self, output: &mut Output) -> Result<(), Stop> {
        let doc = self.input.doc.as_slice();
        let mut places = Places::new(doc);
        match first_broken_in(doc, self.arguments.edition) {
            Ok(None) => Ok(()),
            Ok(Some(Broken { token, error })) => {
                self.found.broken += 1;
                let opened = places.position(token.span().start())?;
                let at = places.position(error.unexpected().start())?;
                let advice = Advice::new(doc, token.span(), self.arguments.edition);
                self.report(Finding { what: What::Error(error, advice), at, token, opened }, output)
            }
            Err(Refusal::NotUtf8 { valid, .. }) => {
                let mut judge = Judge::new(doc, self.arguments.edition);
                for token in Lexer::new(doc)? {
                    let token = token?;
                    if token.span().end() > valid {
                        if let Verdict::NotUtf8(fault) = judge.judge(token)? {
                            return self.not_utf8(token, fault, &mut places, output);
                        }
                    }
                }
                Err(Refusal::NotUtf8 { valid, error_len: None }.into())
            }
            Err(refusal) => Err(refusal.into()),
        }
    }

    /// All that is wrong.
    fn all(&mut self, output: &mut Output) -> Result<(), Stop> {
        let doc = self.input.doc.as_slice();
        let mut judge = Judge::new(doc, self.arguments.edition);
        let mut places = Places::new(doc);
        for token in Lexer::new(doc)? {
            let token = token?;
            match judge.judge(token)? {
                Verdict::Sound => {}
                Verdict::String(string) => self.string(token, string, &mut places, output)?,
                Verdict::NotUtf8(fault) => self.not_utf8(token, fault, &mut places, output)?,
            }
        }
        Ok(())
    }

    fn not_utf8(&mut self, token: Token, fault: Fault, places: &mut Places, output: &mut Output) -> Result<(), Stop> {
        self.found.not_utf8 += 1;
        let opened = places.position(token.span().start())?;
        let at = places.position(fault.span.start())?;
        self.report(Finding { what: What::NotUtf8(fault), at, token, opened }, output)
    }

    fn string(&mut self, token: Token, string: Lent, places: &mut Places, output: &mut Output) -> Result<(), Stop> {
        self.found.strings += 1;
        let errors = string.errors();
        if errors.len() == 0 {
            return Ok(());
        }
        self.found.broken += 1;
        let opened = places.position(token.span().start())?;
        let advice = Advice::new(&self.input.doc, token.span(), self.arguments.edition);
        let (mut near, mut last) = (*places, 0);
        for error in errors {
            // The error of a closing mark comes before those of the body: from there it is counted from the token's start again.
            let place = error.unexpected().start();
            if place < last {
                near = *places;
            }
            last = place;
            self.found.errors += 1;
            let at = near.position(place)?;
            self.report(Finding { what: What::Error(error, advice), at, token, opened }, output)?;
        }
        Ok(())
    }

    fn report(&self, finding: Finding, output: &mut Output) -> Result<(), Stop> {
        if self.arguments.json {
            output.line(&finding.object(self.input).end())
        } else {
            finding.diagnostic(&self.input.doc).write(self.input, output)
        }
    }

    fn is_sound(&self) -> bool {
        self.found.broken == 0 && self.found.not_utf8 == 0
    }

    /// The last line on a file.
    fn sum_up(&self, output: &mut Output) -> Result<Status, Stop> {
        let (name, found, sound) = (&self.input.name, &self.found, self.is_sound());
        // What need not be looked at is not counted.
        let whole = !self.arguments.first;
        if self.arguments.json {
            let mut object = Object::new().string("file", name).truth("sound", sound);
            if whole {
                object = object.number("strings", found.strings).number("broken", found.broken);
                object = object.number("errors", found.errors).number("not_utf8", found.not_utf8);
            }
            output.line(&object.end())?;
        } else if sound {
            output.line(&format!("{name}: strings and encoding are sound"))?;
        } else if whole {
            output.line(&format!("{}: {}", output.set(Style::Strong, name), found.said()))?;
        }
        Ok(if sound { Status::Sound } else { Status::Unsound })
    }
}

impl Found {
    fn said(&self) -> String {
        let strings = format!("{} in {} of {}", counted(self.errors, "error"), self.broken, counted(self.strings, "string"));
        let tokens = format!("{} not UTF-8", counted(self.not_utf8, "token"));
        match (self.errors, self.not_utf8) {
            (0, _) => tokens,
            (_, 0) => strings,
            _ => format!("{strings}, {tokens}"),
        }
    }
}

pub fn counted(count: usize, what: &str) -> String {
    format!("{count} {what}{}", if count == 1 { "" } else { "s" })
}
