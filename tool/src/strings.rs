//! `galoxumi strings`: the strings of a file with their values.

use crate::arguments::Arguments;
use crate::check::unread;
use crate::finding::{error_in, token_object};
use crate::input::{self, Input};
use crate::json::Object;
use crate::judge::{Fault, Judge, Verdict};
use crate::output::{Output, Stop};
use crate::{shown, Status};
use galoxumi::{Lent, Lexer, Places, Position, Token};

pub const HELP: &str = "\
usage: galoxumi strings [--edition 10|11] [--json] FILE

Lists each string of the file, a line each: line and column, kind, and between two bars its value. Control characters and
others that are not seen are named between \u{27E8} and \u{27E9}: \"C:\\temp\" is |C:\u{27E8}TAB\u{27E9}emp|. Of a broken string it says what is wrong
first, and no value; galoxumi check says all. FILE - is standard input.

  --edition 11   reads TOML 1.1, which has the escapes \\e and \\xHH besides; else TOML 1.0 is read
  --json         writes an object a line; galoxumi(1) has their fields

Exit status: 0 all strings have their values; 1 a string is broken, or a token is not UTF-8; 2 the file could not be read,
or is longer than 16,777,216 bytes.
";

pub fn run(arguments: &Arguments, output: &mut Output) -> Result<Status, Stop> {
    let Some(file) = arguments.one_file() else {
        return Ok(crate::misused("one FILE is listed", HELP));
    };
    match input::read(file) {
        Ok(input) => list(&input, arguments, output),
        Err(why) => unread(&input::name_of(file), &why, arguments.json, output),
    }
}

fn list(input: &Input, arguments: &Arguments, output: &mut Output) -> Result<Status, Stop> {
    let doc = input.doc.as_slice();
    let mut judge = Judge::new(doc, arguments.edition);
    let mut places = Places::new(doc);
    let mut status = Status::Sound;
    for token in Lexer::new(doc)? {
        let token = token?;
        let (said, sound) = match judge.judge(token)? {
            Verdict::Sound => continue,
            Verdict::String(string) => {
                let at = places.position(token.span().start())?;
                let said = if arguments.json { object(token, at, &string).end() } else { line(token, at, &string, places)? };
                (said, string.errors().len() == 0)
            }
            Verdict::NotUtf8(fault) => {
                let at = places.position(token.span().start())?;
                (not_utf8(token, at, fault, places, arguments.json)?, false)
            }
        };
        output.line(&said)?;
        if !sound {
            status = Status::Unsound;
        }
    }
    Ok(status)
}

fn line(token: Token, at: Position, string: &Lent, mut places: Places) -> Result<String, Stop> {
    let kind = token.kind().description();
    Ok(match string.value() {
        Ok(value) => format!("{at}: {kind}: |{}|", shown::text(value.as_bytes())),
        Err(error) => {
            let place = places.position(error.unexpected().start())?;
            format!("{at}: {kind}: broken: error[{}] at {place}: {}", error.number(), error.description())
        }
    })
}

fn object(token: Token, at: Position, string: &Lent) -> Object {
    let object = token_object(token, at);
    if string.errors().len() == 0 {
        return object.string("value", string.text());
    }
    let errors = string.errors().map(|error| {
        let span = error.unexpected();
        error_in(Object::new().number("start", span.start()).number("end", span.end()), &error)
    });
    object.list("errors", errors)
}

fn not_utf8(token: Token, at: Position, fault: Fault, mut places: Places, json: bool) -> Result<String, Stop> {
    let start = fault.span.start();
    Ok(if json {
        token_object(token, at).number("refusal", 1).number("valid", start).end()
    } else {
        format!("{at}: {}: not UTF-8 at {}", token.kind().description(), places.position(start)?)
    })
}
