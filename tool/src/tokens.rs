//! `galoxumi tokens`: the tokens of a file with their texts.

use crate::arguments::Arguments;
use crate::check::unread;
use crate::finding::token_object;
use crate::input::{self, Input};
use crate::json::{hex, Object};
use crate::output::{Output, Stop};
use crate::{shown, Status};
use galoxumi::{check_utf8, Lexer, Places, Position, Refusal, Token};

pub const HELP: &str = "\
usage: galoxumi tokens [--json] FILE

Lists each token of the file, a line each: line and column, the name of its kind, and between two bars its text. Control
characters and others that are not seen are named between \u{27E8} and \u{27E9}, and so are bytes that are not UTF-8. Whether a token's text
is sound is for galoxumi check to say. FILE - is standard input.

  --json   writes an object a line; galoxumi(1) has their fields

Exit status: 0 listed; 1 the file is not UTF-8, and its bytes are listed by the same rule; 2 the file could not be read, or is
longer than 16,777,216 bytes.
";

pub fn run(arguments: &Arguments, output: &mut Output) -> Result<Status, Stop> {
    let Some(file) = arguments.one_file() else {
        return Ok(crate::misused("one FILE is listed", HELP));
    };
    match input::read(file) {
        Ok(input) => list(&input, arguments.json, output),
        Err(why) => unread(&input::name_of(file), &why, arguments.json, output),
    }
}

fn list(input: &Input, json: bool, output: &mut Output) -> Result<Status, Stop> {
    let doc = input.doc.as_slice();
    let mut places = Places::new(doc);
    for token in Lexer::new(doc)? {
        let token = token?;
        let at = places.position(token.span().start())?;
        let text = &doc[token.span().start()..token.span().end()];
        let said = if json {
            object(token, at, text).end()
        } else {
            format!("{at}: {}: |{}|", token.kind().name(), shown::text(text))
        };
        output.line(&said)?;
    }
    match check_utf8(doc) {
        Err(Refusal::NotUtf8 { valid, .. }) => {
            output.end()?;
            let at = Places::new(doc).position(valid)?;
            input::complain(&format!("{}: not UTF-8 at {at}", input.name));
            Ok(Status::Unsound)
        }
        checked => Ok(checked.map(|_| Status::Sound)?),
    }
}

fn object(token: Token, at: Position, text: &[u8]) -> Object {
    let object = token_object(token, at).number("number", token.kind().number());
    match std::str::from_utf8(text) {
        Ok(text) => object.string("text", text),
        Err(_) => object.string("bytes", &hex(text)),
    }
}
