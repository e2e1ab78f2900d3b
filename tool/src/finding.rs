//! Something that is wrong, for people and as an object of JSON.

use crate::advice::Advice;
use crate::diagnostic::Diagnostic;
use crate::input::Input;
use crate::json::{hex, Object};
use crate::judge::Fault;
use crate::shown;
use galoxumi::{Expected, ParseError, Position, Span, Token};

/// What is wrong.
pub enum What<'i> {
    Error(ParseError, Advice<'i>),
    NotUtf8(Fault),
}

/// Something that is wrong with a token, its place, and where the token opens.
pub struct Finding<'i> {
    pub what: What<'i>,
    pub at: Position,
    pub token: Token,
    pub opened: Position,
}

impl Finding<'_> {
    fn span(&self) -> Span {
        match &self.what {
            What::Error(error, _) => error.unexpected(),
            What::NotUtf8(fault) => fault.span,
        }
    }

    fn message(&self, doc: &[u8]) -> String {
        match &self.what {
            What::Error(error, _) => error.description().to_string(),
            What::NotUtf8(fault) => {
                let bytes: Vec<String> =
                    doc[fault.span.start()..fault.span.end()].iter().map(|b| format!("{b:02X}")).collect();
                let what = if fault.ends { "the file ends inside a character" } else { "not UTF-8" };
                format!("{what}: {}", bytes.join(" "))
            }
        }
    }

    pub fn diagnostic(&self, doc: &[u8]) -> Diagnostic {
        let code = match &self.what {
            What::Error(error, _) => error.number().to_string(),
            What::NotUtf8(_) => "utf-8".to_string(),
        };
        Diagnostic { at: self.at, span: self.span(), code, message: self.message(doc), notes: self.notes() }
    }

    fn notes(&self) -> Vec<(&'static str, String)> {
        let kind = self.token.kind().description();
        match &self.what {
            What::Error(error, advice) => {
                let expected: Vec<String> = error.expected().map(expected_words).collect();
                let opened = ("note", format!("in the {kind} that opens at {}", self.opened));
                let help = advice.on(error).map(|help| ("help", help));
                [opened, ("expected", expected.join(", "))].into_iter().chain(help).collect()
            }
            What::NotUtf8(fault) => {
                let more = match fault.more {
                    0 => String::new(),
                    1 => ", which has 1 more such place".to_string(),
                    more => format!(", which has {more} more such places"),
                };
                vec![("note", format!("in the {kind} that begins at {}{more}", self.opened))]
            }
        }
    }

    pub fn object(&self, input: &Input) -> Object {
        let span = self.span();
        let object = Object::new().string("file", &input.name).number("line", self.at.line).number("column", self.at.column);
        let object = object.number("start", span.start()).number("end", span.end());
        let object = match &self.what {
            What::Error(error, _) => error_in(object, error),
            What::NotUtf8(fault) => object
                .number("refusal", 1)
                .string("message", if fault.ends { "the file ends inside a character" } else { "not UTF-8" })
                .string("bytes", &hex(&input.doc[span.start()..span.end()]))
                .number("more", fault.more),
        };
        let object = object.object("token", token_object(self.token, self.opened));
        match &self.what {
            What::Error(error, advice) => match advice.on(error) {
                Some(help) => object.string("help", &help),
                None => object,
            },
            What::NotUtf8(_) => object,
        }
    }
}

/// The fields of an error.
pub fn error_in(object: Object, error: &ParseError) -> Object {
    let expected = error.expected().map(|expected| match expected {
        Expected::Literal(text) => Object::new().string("literal", &text),
        Expected::Description(words) => Object::new().string("description", &words),
    });
    object.number("error", error.number()).string("message", &error.description()).list("expected", expected)
}

/// A token's kind and place.
pub fn token_object(token: Token, at: Position) -> Object {
    let object = Object::new().string("kind", token.kind().name()).number("line", at.line).number("column", at.column);
    object.number("start", token.span().start()).number("end", token.span().end())
}

fn expected_words(expected: Expected) -> String {
    match expected {
        Expected::Literal(text) => format!("`{}`", shown::text(text.as_bytes())),
        Expected::Description(words) => words.to_string(),
    }
}
