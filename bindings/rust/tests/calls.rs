//! The binding on texts of tests/scope.txt, and each error's words, which are toml_parser's. What the proved
//! library answers has its own tests.

use core::num::NonZeroUsize;
use galoxumi::toml_parser::Expected as Written;
use galoxumi::*;

fn records(doc: &[u8]) -> Vec<(usize, usize, usize)> {
    let tokens = lex(doc).expect("lexed");
    tokens.iter().map(|t| (t.kind().number(), t.span().start(), t.span().end())).collect()
}

#[test]
fn tokens_of_the_examples() {
    assert_eq!(records(b""), [(4, 0, 0)]);
    assert_eq!(records(b"\xEF\xBB\xBF"), [(4, 3, 3)]);
    assert_eq!(records(b"'''a'''''"), [(1, 0, 9), (4, 9, 9)]);
    assert_eq!(records(b"'a\r\n"), [(39, 0, 3), (10, 3, 4), (4, 4, 4)]);
    assert_eq!(records(b"#x\ry"), [(35, 0, 2), (10, 2, 3), (3, 3, 4), (4, 4, 4)]);
}

#[test]
fn steps_give_the_tokens_of_whole_lexing() {
    for doc in [&b""[..], b"\xEF\xBB\xBFa = 'b'", b"x = \"\"\"\\\n y\"\"\"\n", b"[a.b]\r\n# c\r"] {
        let steps: Result<Vec<Token>, Refusal> = Lexer::new(doc).expect("started").collect();
        assert_eq!(steps, lex(doc));
    }
}

#[test]
fn a_cursor_made_by_hand_answers() {
    let mut lexer = Lexer::at(b"a", 2, false, 1);
    assert_eq!(lexer.next(), Some(Err(Refusal::OutOfPlace { what: Sought::Cursor, length: 1 })));
    assert_eq!(Lexer::at(b"a", 1, true, 1).next(), None);
    // a refusal ends the tokens
    assert_eq!(Lexer::at(b"a", 2, false, 1).count(), 1);
}

#[test]
fn refusals() {
    let broken = |valid, len| Err(Refusal::NotUtf8 { valid, error_len: NonZeroUsize::new(len) });
    assert_eq!(check_utf8(b"a\xFF").map(|_| ()), broken(1, 1));
    assert_eq!(lex(b"\xFF").map(|_| ()), broken(0, 1));
    assert_eq!(lex_into(b"a.b", &mut [Token::default(); 2]), Err(Refusal::FewTokens { needed: 4 }));
    assert_eq!(lex(&vec![b'.'; LIMIT + 1]), Err(Refusal::TooLong));
    assert_eq!(text("é=1".as_bytes(), Span::new(1, 2)), Err(Refusal::OutOfPlace { what: Sought::Span, length: 4 }));
    assert_eq!(position(b"a", 2), Err(Refusal::OutOfPlace { what: Sought::Offset, length: 1 }));
    assert_eq!(TokenKind::from_number(5), Err(Refusal::NoKind { number: 5 }));
}

/// The limit, written out here and not taken from the crate: so many bytes are taken by every call, and not one more.
#[test]
fn documents_of_16777216_bytes_are_taken() {
    let len = 16_777_216;
    assert_eq!(LIMIT, len);
    // one comment as a document, and a text of a string without its marks: few tokens and few errors come back
    let doc = vec![b'#'; len + 1];
    type Call = fn(&[u8]) -> Result<(), Refusal>;
    let calls: [(&str, Call); 11] = [
        ("check_utf8", |doc| check_utf8(doc).map(|_| ())),
        ("Lexer::new", |doc| Lexer::new(doc).map(|_| ())),
        ("Lexer::next", |doc| Lexer::at(doc, 0, false, 1).next().expect("a token or a refusal").map(|_| ())),
        ("lex", |doc| lex(doc).map(|_| ())),
        ("check_span", |doc| check_span(doc, Span::new(0, 1))),
        ("text", |doc| text(doc, Span::new(0, 1)).map(|_| ())),
        ("position", |doc| position(doc, 1).map(|_| ())),
        ("decode", |doc| decode(doc, Encoding::BasicString).map(|_| ())),
        ("decode_in", |doc| decode_in(doc, Encoding::BasicString, Edition::Toml11).map(|_| ())),
        ("write_value", |doc| write_value(doc).map(|_| ())),
        ("put_right", |doc| put_right(doc, Edition::Toml11).map(|_| ())),
    ];
    for (name, call) in calls {
        assert_eq!(call(&doc[..len]), Ok(()), "{name}");
        assert_eq!(call(&doc), Err(Refusal::TooLong), "{name}");
    }
}

#[test]
fn strings_without_error() {
    let decoded = decode(br#""\uD7FF""#, Encoding::BasicString).expect("decoded");
    assert_eq!(decoded.value(), Ok("\u{D7FF}".to_string()));
    let decoded = decode(b"\"\"\"a\\ \n  b\"\"\"", Encoding::MlBasicString).expect("decoded");
    assert_eq!(decoded.value(), Ok("ab".to_string()));
}

#[test]
fn errors_have_their_places() {
    let decoded = decode(br#""\q""#, Encoding::BasicString).expect("decoded");
    assert_eq!(decoded.text, r"\q");
    let error = decoded.errors[0];
    assert_eq!((error.number(), error.context(), error.unexpected()), (8, Span::new(0, 4), Span::new(2, 2)));
    assert_eq!(error.to_string(), "missing escaped value at 2..2");
    assert_eq!(decoded.value(), Err(vec![error]));
}

/// A text, how it is read, its first error's number, that error's words and what was expected.
type Case<'a> = (&'a [u8], Encoding, usize, &'a str, &'a [Written]);

/// The first error of a text.
fn error_in(text: &[u8], encoding: Encoding, edition: Edition) -> ParseError {
    decode_in(text, encoding, edition).expect("decoded").errors[0]
}

/// An error says these words, and expects these things in this order. So does what a caller of toml_parser is given for it.
fn says(error: ParseError, number: usize, description: &str, expected: &[Written]) {
    assert_eq!((error.number(), &*error.description()), (number, description));
    assert_eq!(error.expected().len(), expected.len());
    for (thing, written) in error.expected().zip(expected) {
        match (thing, written) {
            (Expected::Literal(text), Written::Literal(written)) => assert_eq!(text, *written),
            (Expected::Description(words), Written::Description(written)) => assert_eq!(words, *written),
            (thing, written) => panic!("error {number} expects {thing:?}, and not {written:?}"),
        }
    }
    let swapped = toml_parser::ParseError::from(error);
    assert_eq!((swapped.description(), swapped.expected()), (description, Some(expected)));
}

/// The words are those of toml_parser, written out by hand.
#[test]
fn errors_have_their_words() {
    use Encoding::*;
    use Written::{Description, Literal};
    let key = [Description("letters"), Description("numbers"), Literal("-"), Literal("_")];
    // TOML 1.1 has the last two besides.
    let escapes = ["b", "f", "n", "r", "\\", "\"", "u", "U", "e", "x"].map(Literal);
    let hex = [Description("unicode hexadecimal value")];
    let visible = [Description("non-double-quote visible characters"), Literal("\\")];
    let cases: [Case; 13] = [
        (b"'", LiteralString, 1, "invalid literal string", &[Literal("'")]),
        (b"'\0'", LiteralString, 2, "invalid literal string", &[Description("non-single-quote visible characters")]),
        (b"'''", MlLiteralString, 3, "invalid multi-line literal string", &[Literal("'")]),
        (b"'''\r'''", MlLiteralString, 4, "carriage return must be followed by newline", &[Literal("\n")]),
        (
            b"'''\0'''",
            MlLiteralString,
            5,
            "invalid multi-line literal string",
            &[Description("non-single-quote characters")],
        ),
        (b"\"", BasicString, 6, "invalid basic string", &[Literal("\"")]),
        (b"\"\0\"", BasicString, 7, "invalid basic string", &visible),
        (br#""\q""#, BasicString, 8, "missing escaped value", &escapes[..8]),
        (br#""\u""#, BasicString, 9, "too few unicode value digits", &hex),
        (br#""\uD800""#, BasicString, 10, "invalid value", &hex),
        (b"\"\"\"", MlBasicString, 11, "invalid multi-line basic string", &[Literal("\"")]),
        (
            b"\"\"\"\0\"\"\"",
            MlBasicString,
            12,
            "invalid multi-line basic string",
            &[Literal("\\"), Description("characters")],
        ),
        (b"\"\"\"\\ a\"\"\"", MlBasicString, 13, "invalid multi-line basic string", &[Literal("\n")]),
    ];
    for (text, encoding, number, description, expected) in cases {
        says(error_in(text, encoding, Edition::Toml10), number, description, expected);
        let later = if number == 8 { &escapes } else { expected };
        says(error_in(text, encoding, Edition::Toml11), number, description, later);
    }
    let keys = [(&b""[..], 14, "unquoted keys cannot be empty"), (b".", 15, "invalid unquoted key")];
    for (text, number, description) in keys {
        says(decode_key(text).expect("decoded").errors[0], number, description, &key);
    }
}

/// A text by value is a `str` wherever one is asked for.
#[test]
fn words_are_texts() {
    let words: Words = error_in(b"'", Encoding::LiteralString, Edition::Toml10).description();
    let copy = words;
    assert_eq!((copy, words.len(), words.starts_with("invalid ")), (words, 22, true));
    assert_eq!(words, "invalid literal string");
    assert_eq!(words, *"invalid literal string");
    assert_ne!(words, "invalid literal strin");
    assert_ne!(words, error_in(b"\"", Encoding::BasicString, Edition::Toml10).description());
    assert_eq!((words.as_str(), words.as_ref()), ("invalid literal string", "invalid literal string"));
    assert_eq!(format!("{words:>24}, {words:?}"), "  invalid literal string, \"invalid literal string\"");
}

#[test]
fn kinds_have_their_numbers_words_and_encodings() {
    for kind in TokenKind::ALL {
        assert_eq!(TokenKind::from_number(kind.number()), Ok(*kind));
    }
    assert_eq!(TokenKind::Eof.description(), "end-of-input");
    assert_eq!(TokenKind::MlLiteralString.description(), "multi-line literal string");
    assert_eq!(TokenKind::BasicString.encoding(), Some(Encoding::BasicString));
    assert_eq!(TokenKind::Atom.encoding(), None);
}

#[test]
fn places_and_texts() {
    let doc = "é=1".as_bytes();
    assert_eq!(position(doc, 2), Ok(Position { line: 1, column: 2 }));
    assert_eq!(position(b"\xEF\xBB\xBFa", 3), Ok(Position { line: 1, column: 1 }));
    assert_eq!(text(doc, Span::new(2, 4)), Ok(&b"=1"[..]));
    assert_eq!(check_span(doc, Span::new(0, 4)), Ok(()));
}

/// From the ABNF of TOML 1.1.0: escape-seq-char has `e` (U+001B) and `x` with two digits besides.
#[test]
fn toml_11_has_two_more_escapes() {
    let text = br#""\e\xe9\t""#;
    let decoded = decode_in(text, Encoding::BasicString, Edition::Toml11).expect("decoded");
    assert_eq!(decoded.value(), Ok("\u{1B}\u{E9}\t".to_string()));
    let decoded = decode(text, Encoding::BasicString).expect("decoded");
    assert_eq!(decoded.errors.iter().map(|e| (e.number(), e.unexpected().start())).collect::<Vec<_>>(), [(8, 2), (8, 4)]);
    let error = error_in(br#""\x4""#, Encoding::BasicString, Edition::Toml11);
    assert_eq!((error.number(), error.unexpected()), (9, Span::new(4, 4)));
}

/// Rust's own check is the source of these: `valid_up_to` and `error_len`.
#[test]
fn broken_characters_as_rust_tells_them() {
    let texts: [&[u8]; 8] =
        [b"\x80", b"a\xC3", b"\xC3(", b"\xE2\x82", b"\xE2\x82A", b"\xED\xA0\x80", b"\xF0\x90\x80", b"\xF0\x90\x80A"];
    for text in texts {
        let error = core::str::from_utf8(text).expect_err("not UTF-8");
        let (valid, error_len) = (error.valid_up_to(), error.error_len().and_then(NonZeroUsize::new));
        assert_eq!(check_utf8(text), Err(Refusal::NotUtf8 { valid, error_len }));
        assert_eq!(decode_key(text), Err(Refusal::NotUtf8 { valid, error_len }));
    }
}

/// The line of a token is the line of its first byte, as `position` tells it.
#[test]
fn tokens_bear_their_lines() {
    let doc = b"a\r\n'''\n\n'''\rb\n";
    for token in lex(doc).expect("lexed") {
        assert_eq!(Ok(token.line()), position(doc, token.span().start()).map(|p| p.line));
    }
    let steps: Result<Vec<Token>, Refusal> = Lexer::at(doc, 1, false, 2).collect();
    assert_eq!(steps.expect("stepped").last().map(Token::line), Some(6));
    assert_eq!(
        Lexer::at(doc, 1, false, 3).next(),
        Some(Err(Refusal::OutOfPlace { what: Sought::Cursor, length: doc.len() }))
    );
}

/// From docs/TRACE.md, k2 and k3: the shortest text, a literal string on a tie, hex digits in capitals; from the ABNF of
/// TOML 1.0.0: what has to be escaped.
#[test]
fn values_are_written_as_their_shortest_text() {
    let cases: [(&[u8], &[u8], Encoding); 6] = [
        (b"", b"''", Encoding::LiteralString),
        (b"say \"\\\"\t", b"'say \"\\\"\t'", Encoding::LiteralString),
        ("é".as_bytes(), "'é'".as_bytes(), Encoding::LiteralString),
        (b"it's", b"\"it's\"", Encoding::BasicString),
        (b"'\"\\\n", br#""'\"\\\n""#, Encoding::BasicString),
        (b"\0\x1F\x7F", br#""\u0000\u001F\u007F""#, Encoding::BasicString),
    ];
    for (value, text, encoding) in cases {
        assert_eq!(write_value(value).map(String::into_bytes).as_deref(), Ok(text));
        assert_eq!(decode(text, encoding).expect("decoded").value().map(String::into_bytes).as_deref(), Ok(value));
        let mut lent = vec![0xA5; text.len() + 1];
        assert_eq!(write_value_into(value, &mut lent).map(str::as_bytes), Ok(text));
        assert_eq!((&lent[..text.len()], lent[text.len()]), (text, 0xA5));
        assert_eq!(write_value_into(value, &mut lent[..text.len() - 1]), Err(Refusal::ShortOutput { needed: text.len() }));
    }
    let error_len = NonZeroUsize::new(1);
    assert_eq!(write_value(b"a\xFF"), Err(Refusal::NotUtf8 { valid: 1, error_len }));
}

/// From docs/TRACE.md, i1 to i7: what a broken string becomes, a space where a quotation mark stands before it, a record for each
/// error, and that the result stays as it is.
#[test]
fn broken_strings_are_put_right() {
    let cases: [(&[u8], &str, &[(usize, Span, Span)]); 5] = [
        (b"a = 'b' # \"", "a = 'b' # \"", &[]),
        (b"a = \"C:\\dir\"\n", "a = \"C:\\\\dir\"\n", &[(8, Span::new(4, 12), Span::new(8, 8))]),
        (
            b"\"x\"'\t\x01\x7F'",
            r#""x" "\u0009\u0001\u007F""#,
            &[(2, Span::new(3, 8), Span::new(5, 5)), (2, Span::new(3, 8), Span::new(6, 6))],
        ),
        (b"\"a\n", "\"a\"\n", &[(6, Span::new(0, 2), Span::new(2, 2))]),
        (b"\"\"\"\\ \"\"\"'b'", "\"\"'b'", &[(13, Span::new(0, 8), Span::new(5, 5))]),
    ];
    for (doc, text, errors) in cases {
        let mended = put_right(doc, Edition::Toml10).expect("put right");
        assert_eq!(mended.text, text);
        let seen: Vec<_> = mended.errors.iter().map(|e| (e.number(), e.context(), e.unexpected())).collect();
        assert_eq!(seen, errors);
        let again = put_right(text.as_bytes(), Edition::Toml10).expect("put right again");
        assert_eq!((again.text.as_str(), again.errors.len()), (text, 0));
        let (mut output, mut records) = (vec![0xA5; text.len() + 1], vec![[7; 5]; errors.len()]);
        let lent = put_right_into(doc, Edition::Toml10, &mut output, &mut records).expect("put right");
        assert_eq!((lent.text(), lent.errors().collect::<Vec<_>>()), (text, mended.errors));
        assert_eq!(output[text.len()], 0xA5);
        let short = put_right_into(doc, Edition::Toml10, &mut output[..text.len() - 1], &mut records);
        assert_eq!(short.map(|m| m.text().len()), Err(Refusal::ShortOutput { needed: text.len() }));
    }
    let mut output = [0; 8];
    let few = put_right_into(b"'", Edition::Toml10, &mut output, &mut []);
    assert_eq!(few.map(|m| m.text().len()), Err(Refusal::FewErrors { needed: 1 }));
    assert_eq!(put_right(br#""\e""#, Edition::Toml11).expect("read as TOML 1.1").errors, []);
    assert_eq!(put_right(br#""\e""#, Edition::Toml10).expect("put right").text, r#""\\e""#);
    // the result may not pass the limit, and may have as many bytes
    let mut doc = vec![b'.'; galoxumi::LIMIT];
    doc[0] = b'"';
    assert_eq!(put_right(&doc, Edition::Toml10).map(|m| m.text.len()), Err(Refusal::TooLong));
    assert_eq!(put_right(&doc[..galoxumi::LIMIT - 1], Edition::Toml10).map(|m| m.text.len()), Ok(galoxumi::LIMIT));
}

#[test]
fn reviewers_tick_apart() {
    use Reviewer::{First, Second};
    let tokens = lex(b"a = 'b'").expect("lexed");
    // the unused bits are set, and the table is longer than the tokens
    let mut marks = [0xFC; 8];
    assert_eq!(tokens.len(), 6);
    assert_eq!(tick(&tokens, &mut marks, First, 4), Ok(()));
    assert_eq!(tick(&tokens, &mut marks, Second, 4), Ok(()));
    assert_eq!(tick(&tokens, &mut marks, Second, 5), Ok(()));
    assert_eq!(untick(&tokens, &mut marks, First, 5), Ok(()));
    assert_eq!(marks, [0xFC, 0xFC, 0xFC, 0xFC, 0xFF, 0xFE, 0xFC, 0xFC]);
    assert_eq!(untick(&tokens, &mut marks, Second, 4), Ok(()));
    assert_eq!(is_ticked(&tokens, &marks, First, 4), Ok(true));
    assert_eq!(is_ticked(&tokens, &marks, Second, 4), Ok(false));
    marks[6] = 3;
    assert_eq!((ticks(&tokens, &marks, First), ticks(&tokens, &marks, Second)), (Ok(1), Ok(1)));
}

#[test]
fn marks_are_refused() {
    let tokens = lex(b"a = 'b'").expect("lexed");
    let mut marks = [0xA5; 5];
    let beyond = Refusal::OutOfPlace { what: Sought::Token, length: 6 };
    let few = Refusal::FewMarks { needed: 6 };
    assert_eq!(tick(&tokens, &mut marks, Reviewer::First, 6), Err(beyond));
    assert_eq!(tick(&tokens, &mut marks, Reviewer::First, 5), Err(few));
    assert_eq!(untick(&tokens, &mut marks, Reviewer::Second, 0), Err(few));
    assert_eq!(is_ticked(&tokens, &marks, Reviewer::Second, usize::MAX), Err(beyond));
    assert_eq!(ticks(&tokens, &marks, Reviewer::First), Err(few));
    assert_eq!(tick(&[], &mut [], Reviewer::First, 0), Err(Refusal::OutOfPlace { what: Sought::Token, length: 0 }));
    assert_eq!(ticks(&[], &[], Reviewer::First), Ok(0));
    assert_eq!(marks, [0xA5; 5]);
}

/// From crates/built_values/specs/Values.antt: a last comma in an inline table is TOML 1.1's.
#[test]
fn runs_of_tokens_are_values() {
    let tokens = lex(b"a = [1, {b = 2,}]\n").expect("lexed");
    let end = tokens.len() - 2;
    assert_eq!(is_value(&tokens, 4..end), Ok(false));
    assert_eq!(is_value_in(&tokens, Edition::Toml11, 4..end), Ok(true));
    assert_eq!(is_value(&tokens, 5..6), Ok(true));
    assert_eq!(is_value(&tokens, 4..end - 1), Ok(false));
    assert_eq!(is_value(&tokens, 3..end), Ok(false));
    assert_eq!(is_value(&tokens, 4..4), Ok(false));
}

/// Arrays nested 64 deep are answered, and 65 deep refused.
#[test]
fn runs_of_tokens_are_refused() {
    let nested = |n| lex(format!("{}{}", "[".repeat(n), "]".repeat(n)).as_bytes()).expect("lexed");
    let (tokens, deep) = (nested(64), nested(65));
    let beyond = |length| Refusal::OutOfPlace { what: Sought::Run, length };
    assert_eq!(is_value(&tokens, 0..128), Ok(true));
    assert_eq!(is_value(&deep, 0..130), Err(Refusal::TooDeep { depth: 64 }));
    assert_eq!(is_value(&deep, 1..129), Ok(true));
    assert_eq!(is_value(&tokens, 0..130), Err(beyond(129)));
    #[allow(clippy::reversed_empty_ranges)]
    let reversed = 2..1;
    assert_eq!(is_value_in(&tokens, Edition::Toml11, reversed), Err(beyond(129)));
    assert_eq!(is_value(&[], 0..0), Ok(false));
    assert_eq!(beyond(5).to_string(), "refused 6: the run passes the 5 tokens, or starts after its end");
}

/// From docs/RULES.md: error 8 stands after its backslash. The string opens at byte 4 of the document, on line 2.
#[test]
fn errors_of_a_token_stand_in_the_document() {
    let doc = b"\na = \"x\\q\"\n";
    let token = lex(doc).expect("lexed")[5];
    let decoded = token.decode(doc).expect("a string").expect("decoded");
    let error = decoded.errors[0];
    assert_eq!((error.number(), error.context(), error.unexpected()), (8, Span::new(5, 10), Span::new(8, 8)));
    assert_eq!(error.position(doc), Ok(Position { line: 2, column: 8 }));
    assert_eq!(decoded.text, "x\\q");
    let (mut output, mut records) = ([0xA5; 8], [[7; 3]; 2]);
    let lent = token.decode_into(doc, Edition::Toml10, &mut output, &mut records).expect("a string").expect("decoded");
    assert_eq!((lent.text(), lent.value()), ("x\\q", Err(error)));
    assert_eq!(lent.errors().collect::<Vec<_>>(), [error]);
    assert_eq!((output, records[1]), (*b"x\\q\xA5\xA5\xA5\xA5\xA5", [7; 3]));
    assert!(lex(doc).expect("lexed")[0].decode(doc).is_none());
}

/// Three bytes and one error: lent one less of either, nothing is written.
#[test]
fn lent_memory_too_short_is_refused() {
    let text = b"\"x\\q\"";
    let (mut output, mut records) = ([0xA5; 3], [[7; 3]; 1]);
    let decoded = decode_into(text, Encoding::BasicString, Edition::Toml10, &mut output[..2], &mut records);
    assert_eq!(decoded, Err(Refusal::ShortOutput { needed: 3 }));
    let decoded = decode_into(text, Encoding::BasicString, Edition::Toml10, &mut output, &mut []);
    assert_eq!(decoded, Err(Refusal::FewErrors { needed: 1 }));
    let decoded = decode_key_into(b"a b", &mut output, &mut []);
    assert_eq!(decoded, Err(Refusal::FewErrors { needed: 1 }));
    assert_eq!((output, records), ([0xA5; 3], [[7; 3]]));
    assert_eq!(decode_key_into(b"a-b", &mut output, &mut []).expect("decoded").value(), Ok("a-b"));
}

/// A text of n times `\q` has n errors, each after its backslash: more than `decode` makes room for at first.
#[test]
fn many_errors_come_back() {
    let count = 1000;
    let text = format!("\"{}\"", "\\q".repeat(count));
    let decoded = decode(text.as_bytes(), Encoding::BasicString).expect("decoded");
    assert_eq!(decoded.text, "\\q".repeat(count));
    let places: Vec<usize> = decoded.errors.iter().map(|error| error.unexpected().start()).collect();
    assert_eq!(places, (0..count).map(|n| 2 * n + 2).collect::<Vec<_>>());
}

/// A long document with a token for each byte has more tokens than `lex` makes room for at first.
#[test]
fn long_documents_are_lexed_whole() {
    for text in [".", "abc = 'd'\n", "# a comment\n"] {
        let doc = text.repeat(5000).into_bytes();
        let steps: Result<Vec<Token>, Refusal> = Lexer::new(&doc).expect("started").collect();
        assert_eq!(steps, lex(&doc));
    }
}

/// From every offset to every later or earlier one, with a byte order mark at the start and one that is a character.
#[test]
fn places_are_those_of_position() {
    let docs: [&[u8]; 5] = [
        b"",
        b"a\nb\r\n\n",
        "é\u{1F600}\nx\u{301}\ty".as_bytes(),
        "\u{FEFF}a\n\u{FEFF}b".as_bytes(),
        "a\u{FEFF}\u{FEFF}b".as_bytes(),
    ];
    for doc in docs {
        for first in 0..=doc.len() {
            for second in 0..=doc.len() + 1 {
                let mut places = Places::new(doc);
                assert_eq!(places.position(first), position(doc, first));
                assert_eq!(places.position(second), position(doc, second));
            }
        }
    }
    assert_eq!(Places::new(&vec![b'#'; LIMIT + 1]).position(0), Err(Refusal::TooLong));
}

#[test]
fn refusals_say_which_case_they_are() {
    let cases: [(Refusal, &str); 8] = [
        (check_utf8(b"a\xFF").unwrap_err(), "refused 1: 1 bytes from byte 1 on are not UTF-8"),
        (check_utf8(b"a\xC3").unwrap_err(), "refused 1: the text ends inside the character at byte 1"),
        (lex_into(b"a", &mut []).unwrap_err(), "refused 3: 2 token records are needed"),
        (position(b"a", 2).unwrap_err(), "refused 6: the offset is beyond the document's 1 bytes"),
        (
            check_span(b"a", Span::new(1, 0)).unwrap_err(),
            "refused 6: the span passes the document's 1 bytes, starts after its end or cuts a character",
        ),
        (
            Lexer::at(b"a", 0, false, 2).next().unwrap().unwrap_err(),
            "refused 6: the cursor's place is beyond the document's 1 bytes, or its line past its place plus 1",
        ),
        (
            tick(&[], &mut [], Reviewer::First, 0).unwrap_err(),
            "refused 6: the token's number is not below 0, the number of tokens",
        ),
        (TokenKind::from_number(5).unwrap_err(), "refused 7: 5 is no kind"),
    ];
    for (refusal, words) in cases {
        assert_eq!(refusal.to_string(), words);
    }
}

/// The first token that decodes with an error, with the error that decoding it alone reports first.
#[test]
fn the_first_broken_string_is_found() {
    let docs: [&[u8]; 7] =
        [b"", b"a = 'b'\n", b"a = 'b' \"\\q\" 'c", b"\"\x01", "\u{FEFF}'''\r'''".as_bytes(), b"\"\\e\"", b"''' \xFF"];
    for doc in docs {
        for edition in [Edition::Toml10, Edition::Toml11] {
            let expected = lex(doc).map(|tokens| {
                tokens.iter().find_map(|token| {
                    let decoded = token.decode_in(doc, edition)?.expect("a token of UTF-8 is UTF-8");
                    decoded.errors.first().map(|&error| Broken { token: *token, error })
                })
            });
            assert_eq!(first_broken_in(doc, edition), expected);
        }
    }
    assert_eq!(first_broken(b"' \n\xFF").map(|broken| broken.map(|b| b.token.span())), Ok(Some(Span::new(0, 2))));
    assert_eq!(first_broken(b"# \xE2\x82\n"), Err(check_utf8(b"# \xE2\x82\n").unwrap_err()));
    assert_eq!(first_broken(&vec![b'#'; LIMIT + 1]), Err(Refusal::TooLong));
}

/// Totals over documents, in either order; what is refused is counted by its number alone.
#[test]
fn figures_over_documents() {
    let docs: [&[u8]; 4] = [b"a = 'b'\n", b"\"\\q\\u\"", b"'''\x01", b""];
    let mut totals = Totals::default();
    let mut reversed = Totals::default();
    for doc in docs {
        assert_eq!(totals.add(doc), Ok(()));
    }
    for doc in docs.iter().rev() {
        assert_eq!(reversed.add(doc), Ok(()));
    }
    assert_eq!(totals, reversed);
    assert_eq!((totals.tokens(TokenKind::Eof), totals.tokens(TokenKind::Whitespace)), (4, 2));
    assert_eq!((totals.errors(8), totals.errors(9), totals.errors(3), totals.errors(5)), (1, 1, 1, 1));
    assert_eq!((totals.errors(0), totals.errors(15), totals.errors(16), totals.errors(usize::MAX)), (0, 0, 0, 0));
    let counted = totals;
    assert_eq!(totals.add(&[b'.'; MOST_TALLIED + 1]), Err(Untallied::TooLong));
    assert_eq!(totals.add(b"ab\xFF"), Err(Untallied::NotUtf8 { valid: 2, error_len: NonZeroUsize::new(1) }));
    assert_eq!((totals.too_long(), totals.not_utf8()), (1, 1));
    assert_eq!(totals.tokens(TokenKind::Dot), counted.tokens(TokenKind::Dot));
    assert_eq!(totals.add(&[b'.'; MOST_TALLIED]), Ok(()));
    assert_eq!(totals.tokens(TokenKind::Dot), MOST_TALLIED as u64);
    assert_eq!(Untallied::TooLong.to_string(), "refused 2: more than 65536 bytes");
}

/// What the pieces of a text give, joined, and the errors of its marks and pieces.
fn joined(pieces: Pieces) -> (Vec<u8>, Vec<ParseError>) {
    let mut given = Vec::new();
    let mut errors: Vec<ParseError> = pieces.opening().into_iter().chain(pieces.closing()).collect();
    for piece in pieces {
        match piece.given {
            Given::Bytes(bytes) => given.extend_from_slice(bytes),
            Given::Char(c) => given.extend_from_slice(c.encode_utf8(&mut [0; 4]).as_bytes()),
            Given::Nothing => {}
        }
        errors.extend(piece.error);
    }
    (given, errors)
}

#[test]
fn pieces_give_what_a_decode_gives() {
    const PARTS: [&str; 11] = ["\"", "'", "\\", "n", "e", "u0041", "\r", "\n", " ", "\u{e9}", "\u{1}"];
    let kinds = [Encoding::LiteralString, Encoding::BasicString, Encoding::MlLiteralString, Encoding::MlBasicString];
    let mut asked = 0;
    for i in 0..PARTS.len().pow(4) {
        let text: String = (0..4).map(|k| PARTS[i / PARTS.len().pow(k) % PARTS.len()]).collect();
        for mark in ["", "\"", "'", "\"\"\"", "'''"] {
            let text = format!("{mark}{text}{mark}");
            for edition in [Edition::Toml10, Edition::Toml11] {
                for kind in kinds {
                    let decoded = decode_in(text.as_bytes(), kind, edition).expect("decoded");
                    let (given, errors) = joined(pieces(text.as_bytes(), kind, edition));
                    assert_eq!((given, errors), (decoded.text.into_bytes(), decoded.errors), "{text:?} as {kind:?}, {edition:?}");
                    asked += 1;
                }
            }
            let decoded = decode_key(text.as_bytes()).expect("decoded");
            assert_eq!(joined(key_pieces(text.as_bytes())), (decoded.text.into_bytes(), decoded.errors), "{text:?} as a key");
        }
    }
    assert_eq!(asked, 585_640);
}

#[test]
fn pieces_tell_their_places() {
    let text = b"\"a\\qb";
    let all = pieces(text, Encoding::BasicString, Edition::Toml10);
    assert_eq!(all.opening(), None);
    assert_eq!(all.closing().map(|e| e.unexpected()), Some(Span::new(5, 5)));
    let spans: Vec<Span> = all.map(|piece| piece.span).collect();
    assert_eq!(spans, [Span::new(1, 2), Span::new(2, 3), Span::new(3, 5)]);
    let wrong: Vec<Span> = all.filter_map(|piece| piece.error).map(|e| e.unexpected()).collect();
    assert_eq!(wrong, [Span::new(3, 3)]);
    // the end stays the end
    let mut none = pieces(b"''", Encoding::LiteralString, Edition::Toml10);
    assert_eq!((none.next(), none.next()), (None, None));
}

#[test]
fn a_document_may_be_cut_anywhere() {
    let doc = b"\xEF\xBB\xBFa = \"b\\\"\xC3\xA9\" # c\r\n'''d\n''''''\r";
    let whole = lex(doc).expect("lexed");
    for cut in 0..=doc.len() {
        let (first, second) = doc.split_at(cut);
        let mut parts = Parts::new();
        let mut tokens = parts.feed(first).expect("a part");
        tokens.extend(parts.feed(second).expect("another"));
        assert_eq!(parts.place(), doc.len());
        tokens.extend(parts.close().expect("the end"));
        assert_eq!(tokens, whole);
        assert!(parts.is_ended());
    }
    let mut given = Vec::new();
    let mut writer = TokenWriter::new(|token| given.push(token));
    doc.iter().for_each(|b| writer.write_part(&[*b]).expect("a byte"));
    writer.finish().expect("the end");
    assert_eq!(given, whole);
}

#[test]
fn long_parts_are_handed_on_in_pieces() {
    let doc = b"a = [1, '\xC3\xA9', \"\"\"\n\"\"\"] # b\n".repeat(1000);
    let mut given = Vec::new();
    let mut writer = TokenWriter::new(|token| given.push(token));
    writer.write_part(&doc).expect("written");
    assert_eq!(writer.parts().place(), doc.len());
    writer.finish().expect("the end");
    assert_eq!(Ok(given), lex(&doc));
    assert_eq!(Parts::new().feed(&[b'.'; 5000]).expect("a part").len(), 5000);
}

#[test]
fn parts_are_refused() {
    let mut parts = Parts::new();
    let mut tokens = [Token::default(); 3];
    assert_eq!(parts.feed_into(b"a", &mut []), Ok(0));
    let before = parts;
    assert_eq!(parts.feed_into(b" =", &mut tokens[..2]), Err(Refusal::FewTokens { needed: 3 }));
    assert_eq!(parts, before);
    assert_eq!(parts.feed_into(b" =", &mut tokens), Ok(3));
    assert_eq!(tokens.map(|t| t.kind()), [TokenKind::Atom, TokenKind::Whitespace, TokenKind::Equals]);
    assert_eq!(parts.feed_into(b"\xE2\x82", &mut []), Ok(0));
    let mut cut = parts;
    assert_eq!(cut.close_into(&mut []), Err(Refusal::NotUtf8 { valid: 3, error_len: None }));
    assert_eq!(parts.feed(b"."), Err(Refusal::NotUtf8 { valid: 3, error_len: NonZeroUsize::new(2) }));
    assert_eq!(parts.feed(b"a"), Err(Refusal::AfterEnd));
    assert_eq!(parts.close(), Err(Refusal::AfterEnd));
    let mut long = Parts::new();
    assert_eq!(long.feed_into(&vec![b'#'; 16_777_216], &mut []), Ok(0));
    assert_eq!(long.feed(b"a"), Err(Refusal::TooLong));
}

#[cfg(feature = "std")]
#[test]
fn a_writer_is_written_to() {
    let doc = b"a = 'b'\r\n\xC3\xA9".repeat(500);
    let mut given = Vec::new();
    let mut writer = TokenWriter::new(|token| given.push(token));
    std::io::copy(&mut &doc[..], &mut writer).expect("written");
    writer.finish().expect("the end");
    assert_eq!(Ok(given), lex(&doc));
    let mut writer = TokenWriter::new(|_| panic!("no token is decided"));
    let refused = std::io::Write::write(&mut writer, b"a\xFF").expect_err("not UTF-8");
    assert_eq!(refused.kind(), std::io::ErrorKind::InvalidData);
}
