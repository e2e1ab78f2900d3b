//! `galoxumi values`: whether the arrays and inline tables of a file are values, and which bracket is lost.

use crate::arguments::Arguments;
use crate::check::{counted, unread};
use crate::diagnostic::Diagnostic;
use crate::input::{self, Input};
use crate::json::Object;
use crate::output::{Output, Stop};
use crate::Status;
use galoxumi::{is_value_in, lex, Edition, Places, Refusal, Token, TokenKind};

pub const HELP: &str = "\
usage: galoxumi values [--edition 10|11] [--json] FILE

Looks at each array and inline table that stands right of a `=`: whether its brackets, commas, comments and newlines are
those of a value of TOML. Of one that is no value it says which bracket is lost, or which innermost array or inline table
is none. Strings, numbers and dates are not judged. FILE - is standard input.

  --edition 11   reads TOML 1.1, in which inline tables may hold newlines; else TOML 1.0 is read
  --json         writes an object a line; galoxumi(1) has their fields

Exit status: 0 all are values; 1 one is not, or the file is not UTF-8; 2 the file could not be read, or is longer than
16,777,216 bytes.
";

pub fn run(arguments: &Arguments, output: &mut Output) -> Result<Status, Stop> {
    let Some(file) = arguments.one_file() else {
        return Ok(crate::misused("one FILE is looked at", HELP));
    };
    match input::read(file) {
        Ok(input) => look(&input, arguments, output),
        Err(why) => unread(&input::name_of(file), &why, arguments.json, output),
    }
}

fn look(input: &Input, arguments: &Arguments, output: &mut Output) -> Result<Status, Stop> {
    let tokens = match lex(&input.doc) {
        Ok(tokens) => tokens,
        Err(refusal @ Refusal::NotUtf8 { .. }) => {
            input::complain(&format!("{}: {refusal}", input.name));
            return Ok(Status::Unsound);
        }
        Err(refusal) => return Err(refusal.into()),
    };
    let mut walk = Walk { tokens: &tokens, edition: arguments.edition, at: 0, seen: 0 };
    let mut places = Places::new(&input.doc);
    let mut faults = 0;
    while let Some(fault) = walk.next_fault()? {
        faults += 1;
        if arguments.json {
            output.line(&fault.object(input, &tokens, &mut places)?.end())?;
        } else {
            fault.diagnostic(&tokens, &mut places)?.write(input, output)?;
        }
    }
    let (name, seen) = (&input.name, walk.seen);
    if arguments.json {
        let object = Object::new().string("file", name).truth("sound", faults == 0);
        output.line(&object.number("values", seen).number("faults", faults).end())?;
    } else if faults == 0 {
        output.line(&format!("{name}: arrays and inline tables are values"))?;
    } else {
        let among =
            if seen == 1 { "1 array or inline table".to_string() } else { format!("{seen} arrays and inline tables") };
        output.line(&format!("{name}: {} in {among}", counted(faults, "fault")))?;
    }
    Ok(if faults == 0 { Status::Sound } else { Status::Unsound })
}

/// What is wrong, by the numbers of tokens.
enum Fault {
    /// A bracket is not closed before another token: a `=` that no array holds, another bracket's closing, the end of a line or
    /// of the file.
    Open { opening: usize, before: usize },
    /// A bracket closes, and none is open.
    Stray { closing: usize },
    /// The brackets agree, and what is between them is no value.
    NoValue { opening: usize },
    /// More brackets are open at once than the depth.
    TooDeep { opening: usize, depth: usize },
}

impl Fault {
    /// The token at which it is told.
    fn place(&self) -> usize {
        match self {
            Self::Open { opening, .. } | Self::NoValue { opening } | Self::TooDeep { opening, .. } => *opening,
            Self::Stray { closing } => *closing,
        }
    }

    fn message(&self, tokens: &[Token]) -> String {
        let bracket = tokens[self.place()].kind();
        match self {
            Self::Open { .. } => format!("{} is lost", closing_of(bracket).description()),
            Self::Stray { .. } => format!("{} closes nothing: an opening bracket is lost", bracket.description()),
            Self::NoValue { .. } => format!("the {} is no value", words_of(bracket)),
            Self::TooDeep { depth, .. } => format!("more than {depth} brackets are open at once"),
        }
    }

    fn notes(&self, tokens: &[Token], places: &mut Places) -> Result<Vec<(&'static str, String)>, Refusal> {
        Ok(match self {
            Self::Open { opening, before } => {
                let what = words_of(tokens[*opening].kind());
                let next = tokens[*before];
                let at = places.position(next.span().start())?;
                vec![("note", format!("the {what} is not closed before the {} at {at}", next.kind().description()))]
            }
            Self::NoValue { .. } => {
                vec![(
                    "note",
                    "its brackets agree: look for a comma, a comment or a newline that may not stand there".to_string(),
                )]
            }
            _ => Vec::new(),
        })
    }

    fn diagnostic(&self, tokens: &[Token], places: &mut Places) -> Result<Diagnostic, Refusal> {
        let span = tokens[self.place()].span();
        let (at, message) = (places.position(span.start())?, self.message(tokens));
        Ok(Diagnostic { at, span, code: "value".to_string(), message, notes: self.notes(tokens, &mut places.clone())? })
    }

    fn object(&self, input: &Input, tokens: &[Token], places: &mut Places) -> Result<Object, Refusal> {
        let span = tokens[self.place()].span();
        let at = places.position(span.start())?;
        let object = Object::new().string("file", &input.name).number("line", at.line).number("column", at.column);
        let object = object.number("start", span.start()).number("end", span.end());
        let object = object.string("message", &self.message(tokens));
        Ok(match self {
            Self::Open { before, .. } => object.number("before", tokens[*before].span().start()),
            _ => object,
        })
    }
}

fn closing_of(opening: TokenKind) -> TokenKind {
    match opening {
        TokenKind::LeftCurlyBracket => TokenKind::RightCurlyBracket,
        _ => TokenKind::RightSquareBracket,
    }
}

fn words_of(opening: TokenKind) -> &'static str {
    match opening {
        TokenKind::LeftCurlyBracket => "inline table",
        _ => "array",
    }
}

/// Goes over the tokens of a document from one array or inline table to the next.
struct Walk<'t> {
    tokens: &'t [Token],
    edition: Edition,
    /// The token that is looked at next.
    at: usize,
    /// How many arrays and inline tables there were.
    seen: usize,
}

impl Walk<'_> {
    fn kind(&self, at: usize) -> Option<TokenKind> {
        self.tokens.get(at).map(Token::kind)
    }

    /// The first token from a place on that is no blank.
    fn past_blanks(&self, at: usize) -> usize {
        at + usize::from(self.kind(at) == Some(TokenKind::Whitespace))
    }

    /// The next thing that is wrong.
    fn next_fault(&mut self) -> Result<Option<Fault>, Refusal> {
        while let Some(kind) = self.kind(self.at) {
            self.at += 1;
            if kind != TokenKind::Equals {
                continue;
            }
            let value = self.past_blanks(self.at);
            if let Some(TokenKind::LeftSquareBracket | TokenKind::LeftCurlyBracket) = self.kind(value) {
                self.seen += 1;
                if let Some(fault) = self.judge(value)? {
                    return Ok(Some(fault));
                }
            }
        }
        Ok(None)
    }

    /// What is wrong with the array or inline table that opens at a token, which is then passed.
    fn judge(&mut self, opening: usize) -> Result<Option<Fault>, Refusal> {
        let pairs = match self.pairs(opening) {
            Ok(pairs) => pairs,
            Err((fault, next)) => {
                self.at = next;
                return Ok(Some(fault));
            }
        };
        // The outermost bracket is closed last.
        let closing = pairs.last().map_or(opening, |(_, closing)| *closing);
        self.at = closing + 1;
        match is_value_in(self.tokens, self.edition, opening..closing + 1) {
            Ok(true) => {}
            Ok(false) => return self.innermost(&pairs).map(|opening| Some(Fault::NoValue { opening })),
            Err(Refusal::TooDeep { depth }) => return Ok(Some(Fault::TooDeep { opening, depth })),
            Err(refusal) => return Err(refusal),
        }
        let next = self.past_blanks(closing + 1);
        Ok(match self.kind(next) {
            Some(TokenKind::RightSquareBracket | TokenKind::RightCurlyBracket) => Some(Fault::Stray { closing: next }),
            _ => None,
        })
    }

    /// The pairs of brackets of an array or inline table, inner ones first; or which is not closed, and the token to go on at.
    fn pairs(&self, opening: usize) -> Result<Vec<(usize, usize)>, (Fault, usize)> {
        let (mut open, mut pairs) = (Vec::new(), Vec::new());
        for at in opening..self.tokens.len() {
            let kind = self.tokens[at].kind();
            let last = open.last().copied().unwrap_or(opening);
            let lost = |next| Err((Fault::Open { opening: last, before: at }, next));
            match (kind, self.tokens[last].kind()) {
                (TokenKind::LeftSquareBracket | TokenKind::LeftCurlyBracket, _) => open.push(at),
                (TokenKind::RightSquareBracket | TokenKind::RightCurlyBracket, last_kind) => {
                    if kind != closing_of(last_kind) {
                        return lost(at + 1);
                    }
                    open.pop();
                    pairs.push((last, at));
                }
                // The `=` is looked at again, as that of a line of its own.
                (TokenKind::Equals, TokenKind::LeftSquareBracket) => return lost(at),
                (TokenKind::Newline, TokenKind::LeftCurlyBracket) if self.edition == Edition::Toml10 => return lost(at + 1),
                (TokenKind::Eof, _) => return lost(at),
                _ => {}
            }
            if open.is_empty() {
                break;
            }
        }
        Ok(pairs)
    }

    /// The first pair that is no value though all within it are.
    fn innermost(&self, pairs: &[(usize, usize)]) -> Result<usize, Refusal> {
        for (opening, closing) in pairs {
            if !is_value_in(self.tokens, self.edition, *opening..closing + 1)? {
                return Ok(*opening);
            }
        }
        Ok(pairs.last().map_or(0, |(opening, _)| *opening))
    }
}
