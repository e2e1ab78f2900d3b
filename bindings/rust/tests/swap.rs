//! toml_parser's names over the proved calls: a caller's code, with its `use` lines changed and nothing else.

use galoxumi::toml_parser;
use std::borrow::Cow;
use toml_parser::decoder::{Encoding, StringBuilder};
use toml_parser::lexer::{Token, TokenKind};
use toml_parser::{ErrorSink, Expected, ParseError, Raw, Source, Span};

/// The first token of a kind, as a part of its document.
fn raw(doc: &str, kind: TokenKind) -> Raw<'_> {
    let source = Source::new(doc);
    let token = source.lex().find(|token| token.kind() == kind).expect("a token of that kind");
    source.get(token).expect("a token lies in its document")
}

#[test]
fn tokens_come_one_by_one_or_all_at_once() {
    let source = Source::new("\u{FEFF}a = 'b'\r\n");
    let kinds: Vec<(TokenKind, Span)> = source.lex().map(|token| (token.kind(), token.span())).collect();
    let expected = [
        (TokenKind::Atom, 3, 4),
        (TokenKind::Whitespace, 4, 5),
        (TokenKind::Equals, 5, 6),
        (TokenKind::Whitespace, 6, 7),
        (TokenKind::LiteralString, 7, 10),
        (TokenKind::Newline, 10, 12),
        (TokenKind::Eof, 12, 12),
    ];
    assert_eq!(kinds, expected.map(|(kind, start, end)| (kind, Span::new_unchecked(start, end))));
    assert_eq!(source.lex().into_vec(), source.lex().collect::<Vec<Token>>());
    let mut begun = source.lex();
    begun.next();
    assert_eq!(begun.into_vec().len(), 6);
}

#[test]
fn kinds_and_encodings_have_constant_words() {
    const WORDS: &str = TokenKind::MlBasicString.description();
    assert_eq!(WORDS, "multi-line basic string");
    assert_eq!(Encoding::LiteralString.description(), "literal string");
    assert_eq!((TokenKind::Equals as u8, Encoding::MlBasicString as u8), (b'=', 2));
}

#[test]
fn spans_have_their_operations() {
    let span = Span::new_unchecked(2, 5);
    assert_eq!((span.len(), span.is_empty(), span.before(), span.after()), (3, false, span_at(2), span_at(5)));
    assert_eq!((span + 4, 4 + span), (Span::new_unchecked(6, 9), Span::new_unchecked(6, 9)));
    let mut moved = span;
    moved += 1;
    assert_eq!(span.append(moved), Span::new_unchecked(2, 6));
    assert_eq!(format!("{span:?}"), "2..5");
    assert_eq!(Span::default(), span_at(0));
    assert!(span_at(1) < span_at(2));
}

fn span_at(place: usize) -> Span {
    Span::new_unchecked(place, place)
}

#[test]
fn parts_are_cut_from_documents() {
    let source = Source::new("é=1");
    assert_eq!(source.get(Span::new_unchecked(0, 2)).map(|raw| raw.as_str()), Some("é"));
    assert!(source.get(Span::new_unchecked(1, 2)).is_none());
    let beyond = &Span::new_unchecked(2, 5);
    assert!(source.get(beyond).is_none());
    assert_eq!(source.get(span_at(4)).map(|raw| (raw.len(), raw.is_empty())), Some((0, true)));
    assert_eq!(source.input(), "é=1");
}

/// A value that is a part of the document is borrowed, and any other is owned.
#[test]
fn values_are_borrowed_where_they_can_be() {
    let borrowed = [
        ("'a'", TokenKind::LiteralString, "a"),
        ("\"a\"", TokenKind::BasicString, "a"),
        ("'''\r\na'''", TokenKind::MlLiteralString, "a"),
        ("\"\"\"\nab\"\"\"", TokenKind::MlBasicString, "ab"),
        ("''", TokenKind::LiteralString, ""),
    ];
    for (doc, kind, expected) in borrowed {
        let (mut value, mut error) = (Cow::Borrowed("old"), None::<ParseError>);
        assert!(raw(doc, kind).decode_string(&mut value, &mut error));
        assert!(matches!(value, Cow::Borrowed(value) if value == expected), "{doc}");
        assert_eq!(error, None);
        let mut part = "old";
        assert!(raw(doc, kind).decode_string(&mut part, &mut ()));
        assert_eq!(part, expected);
    }
    let mut value = Cow::Borrowed("old");
    assert!(raw(r#""a\tb""#, TokenKind::BasicString).decode_string(&mut value, &mut ()));
    assert!(matches!(value, Cow::Owned(ref value) if value == "a\tb"));
    // A part of the document cannot hold it.
    let (mut part, mut error) = ("old", None::<ParseError>);
    assert!(raw(r#" "a\tb""#, TokenKind::BasicString).decode_string(&mut part, &mut error));
    let error = error.expect("an error");
    assert_eq!(
        (error.description(), error.unexpected()),
        ("could not allocate for string", Some(Span::new_unchecked(1, 7)))
    );
    assert_eq!((error.context(), error.expected()), (None, None));
}

/// From docs/RULES.md: error 8 stands after its backslash, and yields the backslash.
#[test]
fn errors_stand_in_the_document() {
    let (mut value, mut errors) = (String::from("old"), Vec::<ParseError>::new());
    assert!(raw("a = \"x\\q\"", TokenKind::BasicString).decode_string(&mut value, &mut errors));
    assert_eq!((value.as_str(), errors.len()), ("x\\q", 1));
    let error = &errors[0];
    assert_eq!((error.description(), error.context()), ("missing escaped value", Some(Span::new_unchecked(4, 9))));
    assert_eq!(error.unexpected(), Some(span_at(7)));
    assert_eq!(error.expected().map(|expected| expected[0]), Some(Expected::Literal("b")));
    let mut seen = 0;
    let mut sink = |_: ParseError| seen += 1;
    assert!(raw("\"\\q\\q\"", TokenKind::BasicString).decode_string(&mut (), &mut sink));
    assert_eq!(seen, 2);
}

/// The words of an error are kept once: ten thousand errors of one number, which four threads report, share a text and a list.
#[test]
fn words_are_kept_once() {
    let doc = format!("\"{}\"", "\\q".repeat(2500));
    let report = || {
        let mut errors = Vec::<ParseError>::new();
        assert!(raw(&doc, TokenKind::BasicString).decode_string(&mut (), &mut errors));
        errors
    };
    let errors: Vec<ParseError> = std::thread::scope(|threads| {
        let started: Vec<_> = (0..4).map(|_| threads.spawn(report)).collect();
        started.into_iter().flat_map(|thread| thread.join().unwrap()).collect()
    });
    assert_eq!(errors.len(), 10_000);
    let (text, list) = (errors[0].description(), errors[0].expected().unwrap());
    assert!(errors.iter().all(|error| std::ptr::eq(error.description(), text)));
    assert!(errors.iter().all(|error| std::ptr::eq(error.expected().unwrap(), list)));
}

/// From toml_parser's words for keys.
#[test]
fn keys_are_decoded() {
    let (mut value, mut errors) = (String::new(), Vec::<ParseError>::new());
    raw("a-b = 1", TokenKind::Atom).decode_key(&mut value, &mut errors);
    assert_eq!((value.as_str(), errors.len()), ("a-b", 0));
    raw("\"a b\" = 1", TokenKind::BasicString).decode_key(&mut value, &mut errors);
    assert_eq!((value.as_str(), errors.len()), ("a b", 0));
    raw(" '''a''' = 1", TokenKind::MlLiteralString).decode_key(&mut value, &mut errors);
    let error = errors.pop().expect("an error");
    assert_eq!((value.as_str(), error.description()), ("a", "keys cannot be multi-line literal strings"));
    assert_eq!(error.unexpected(), Some(Span::new_unchecked(1, 8)));
    assert_eq!(error.expected().map(<[Expected]>::len), Some(2));
    assert!(!raw("a = 1", TokenKind::Atom).decode_string(&mut value, &mut errors));
    assert_eq!(value, "a");
}

/// The release tool of docs/SWAP.md, after.
fn flags(manifest: &str) -> Result<Vec<String>, Vec<ParseError>> {
    let source = Source::new(manifest);
    let (mut flags, mut errors) = (Vec::new(), Vec::new());
    for token in source.lex().filter(|token| token.kind().encoding().is_some()) {
        let mut flag = String::new();
        let _ = source.get(token).unwrap().decode_string(&mut flag, &mut errors);
        flags.push(flag);
    }
    if errors.is_empty() {
        Ok(flags)
    } else {
        Err(errors)
    }
}

/// And as a new one would be written.
fn new_flags(manifest: &[u8]) -> Result<Vec<String>, Box<dyn std::error::Error>> {
    let mut flags = Vec::new();
    for token in galoxumi::lex(manifest)? {
        if let Some(decoded) = token.decode(manifest) {
            let decoded = decoded?;
            if let Some(error) = decoded.errors.first() {
                return Err(format!("{}: {}", error.position(manifest)?, error.description()).into());
            }
            flags.push(decoded.text);
        }
    }
    Ok(flags)
}

#[test]
fn the_release_tool_of_the_paper() {
    let sound = "flags = [\"-O2\", '-g']\n";
    assert_eq!(flags(sound), Ok(vec!["-O2".to_string(), "-g".to_string()]));
    assert_eq!(new_flags(sound.as_bytes()).unwrap(), ["-O2", "-g"]);
    let broken = "flags = [\"-O2\", \"\\q\"]\n";
    assert_eq!(flags(broken).unwrap_err()[0].unexpected(), Some(span_at(18)));
    assert_eq!(new_flags(broken.as_bytes()).unwrap_err().to_string(), "1:19: missing escaped value");
}

/// A builder and a sink of the caller's own.
#[test]
fn builders_and_sinks_are_traits() {
    struct Counted(usize);
    impl StringBuilder<'_> for Counted {
        fn clear(&mut self) {
            self.0 = 0;
        }
        fn push_str(&mut self, append: &str) -> bool {
            self.0 += append.len();
            true
        }
        fn push_char(&mut self, append: char) -> bool {
            self.0 += append.len_utf8();
            true
        }
    }
    struct Errors(usize);
    impl ErrorSink for Errors {
        fn report_error(&mut self, _error: ParseError) {
            self.0 += 1;
        }
    }
    let (mut counted, mut errors) = (Counted(9), Errors(0));
    assert!(raw(r#""\u00e9\q""#, TokenKind::BasicString).decode_string(&mut counted, &mut errors));
    assert_eq!((counted.0, errors.0), (4, 1));
}

#[test]
#[should_panic(expected = "refused 2")]
fn a_source_past_the_limit_is_not_taken() {
    let _ = Source::new(&"#".repeat(galoxumi::LIMIT + 1));
}
