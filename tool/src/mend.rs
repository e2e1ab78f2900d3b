//! `galoxumi mend`: a file with each broken string replaced by a sound one.

use crate::arguments::Arguments;
use crate::check::{counted, unread};
use crate::finding::error_in;
use crate::input::{self, Input};
use crate::json::Object;
use crate::output::{Output, Stop};
use crate::{shown, Status};
use galoxumi::{put_right, Lexer, Mended, ParseError, Places, Position, Refusal, Span, TokenKind};
use std::ffi::{OsStr, OsString};
use std::io::Write;
use std::path::{Path, PathBuf};

pub const HELP: &str = "\
usage: galoxumi mend [--edition 10|11] [--json] [--output OUT | --in-place] FILE

Replaces each broken string of the file by a basic string of what the decoder recovers of it, and leaves all else as it is.
What is recovered is not what the author meant: look at the list, which has each old and new string with its errors. The file
goes to standard output and the list to standard error; with --output or --in-place the list goes to standard output. FILE -
is standard input.

  --edition 11   reads TOML 1.1, which has the escapes \\e and \\xHH besides; else TOML 1.0 is read
  --json         writes the list as an object a line; galoxumi(1) has their fields
  --output OUT   writes to the file OUT, which may not be FILE
  --in-place     writes over FILE

Exit status: 0 written, with nothing broken left; 1 the file is not UTF-8, and nothing is written; 2 it could not be read or
written, or it or the result is longer than 16,777,216 bytes.
";

pub fn run(arguments: &Arguments, output: &mut Output) -> Result<Status, Stop> {
    let Some(file) = arguments.one_file() else {
        return Ok(crate::misused("one FILE is mended", HELP));
    };
    let target = match target(file, arguments) {
        Ok(target) => target,
        Err(what) => return Ok(crate::misused(&what, HELP)),
    };
    let input = match input::read(file) {
        Ok(input) => input,
        Err(why) => return unread(&input::name_of(file), &why, arguments.json, output),
    };
    let mended = match put_right(&input.doc, arguments.edition) {
        Ok(mended) => mended,
        Err(refusal) => {
            input::complain(&format!("{}: {refusal}", input.name));
            let broken = matches!(refusal, Refusal::NotUtf8 { .. });
            return Ok(if broken { Status::Unsound } else { Status::Failed });
        }
    };
    let list = List { input: &input, mended: &mended }.lines(arguments.json)?;
    let Some(target) = target else {
        output.text(&mended.text)?;
        output.end()?;
        eprint!("{list}");
        return Ok(Status::Sound);
    };
    if let Err(error) = put(&target, mended.text.as_bytes()) {
        input::complain(&format!("{}: {error}", input::name_of(target.as_os_str())));
        return Ok(Status::Failed);
    }
    output.text(&list).map(|()| Status::Sound)
}

/// The file to write to; none for standard output. The input is written over only where that is asked for.
fn target(file: &OsStr, arguments: &Arguments) -> Result<Option<PathBuf>, String> {
    match (&arguments.output, arguments.in_place) {
        (Some(_), true) => Err("--output and --in-place: one of them".to_string()),
        (None, true) if file == "-" => Err("standard input has no place to write to".to_string()),
        (None, true) => Ok(Some(PathBuf::from(file))),
        (Some(out), false) if is_same(Path::new(file), Path::new(out)) => {
            Err("OUT is FILE: --in-place writes over it".to_string())
        }
        (out, false) => Ok(out.as_ref().map(PathBuf::from)),
    }
}

/// Whether two paths lead to one file.
fn is_same(one: &Path, other: &Path) -> bool {
    match (one.canonicalize(), other.canonicalize()) {
        (Ok(one), Ok(other)) => one == other,
        _ => false,
    }
}

/// Writes a file as a whole: beside its place, and then there, so that nothing is lost where the writing fails.
fn put(target: &Path, text: &[u8]) -> std::io::Result<()> {
    let target = target.canonicalize().unwrap_or_else(|_| target.to_path_buf());
    let mut name = target.file_name().map_or_else(OsString::new, OsString::from);
    name.push(format!(".{}.part", std::process::id()));
    let part = target.with_file_name(name);
    let written = std::fs::File::create(&part).and_then(|mut file| {
        file.write_all(text)?;
        if let Ok(old) = target.metadata() {
            file.set_permissions(old.permissions())?;
        }
        file.sync_all()
    });
    let put = written.and_then(|()| std::fs::rename(&part, &target));
    if put.is_err() {
        let _ = std::fs::remove_file(&part);
    }
    put
}

/// What was replaced.
struct List<'a> {
    input: &'a Input,
    mended: &'a Mended,
}

impl List<'_> {
    /// A line for each replaced string, its errors, the old text and the new; and how many there are.
    fn lines(&self, json: bool) -> Result<String, Stop> {
        let (mut list, mut places, mut count) = (String::new(), Places::new(&self.input.doc), 0);
        // What stands after the strings replaced so far has moved: what was at `old` is at `new`.
        let (mut old, mut new) = (0, 0);
        // The context of an error is the string that it is of.
        for errors in self.mended.errors.chunk_by(|one, other| one.context() == other.context()) {
            let token = errors[0].context();
            let text = self.replacement(new + (token.start() - old))?;
            (old, new) = (token.end(), text.end());
            count += 1;
            let opened = places.position(token.start())?;
            if json {
                list.push_str(&self.object(token, opened, text, errors).end());
                list.push('\n');
            } else {
                list.push_str(&self.told(token, text, errors, places)?);
            }
        }
        if json {
            let object = Object::new().string("file", &self.input.name).number("replaced", count);
            return Ok(format!("{list}{}\n", object.number("errors", self.mended.errors.len()).end()));
        }
        Ok(format!("{list}{}: {} replaced\n", self.input.name, counted(count, "string")))
    }

    /// The string of the result that begins at a place, or after the space that was put there.
    fn replacement(&self, start: usize) -> Result<Span, Stop> {
        for token in Lexer::at(self.mended.text.as_bytes(), start, false, 1) {
            let token = token?;
            if token.kind() == TokenKind::BasicString {
                return Ok(token.span());
            }
        }
        Ok(Span::new(start, start))
    }

    fn old(&self, token: Span) -> &str {
        // The call has answered, so that the input is UTF-8, and a token cuts no character.
        std::str::from_utf8(&self.input.doc[token.start()..token.end()]).unwrap_or_default()
    }

    fn new(&self, text: Span) -> &str {
        &self.mended.text[text.start()..text.end()]
    }

    fn told(&self, token: Span, text: Span, errors: &[ParseError], places: Places) -> Result<String, Stop> {
        let (mut told, mut near, mut last) = (String::new(), places, 0);
        for error in errors {
            // The error of a closing mark comes before those of the body.
            let place = error.unexpected().start();
            if place < last {
                near = places;
            }
            last = place;
            let at = near.position(place)?;
            told.push_str(&format!("{}:{at}: error[{}]: {}\n", self.input.name, error.number(), error.description()));
        }
        let (old, new) = (shown::text(self.old(token).as_bytes()), shown::text(self.new(text).as_bytes()));
        told.push_str(&format!("  - {old}\n  + {new}\n"));
        Ok(told)
    }

    fn object(&self, token: Span, opened: Position, text: Span, errors: &[ParseError]) -> Object {
        let object = Object::new().string("file", &self.input.name).number("line", opened.line);
        let object = object.number("column", opened.column).number("start", token.start()).number("end", token.end());
        let errors = errors.iter().map(|error| {
            let span = error.unexpected();
            error_in(Object::new().number("start", span.start()).number("end", span.end()), error)
        });
        object.list("errors", errors).string("old", self.old(token)).string("new", self.new(text))
    }
}
