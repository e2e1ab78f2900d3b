/* The exported library, as a C program links it: the texts of tests/scope.txt with their answers, every
 * refusal of every call with its number and its place in the order, lent sizes of none, one short and exact,
 * and documents of 16,777,216 bytes and of one more. Prints a line for each failure, and the tests that passed. */
#include "expect.h"

#include <stdlib.h>

/* ---- lexing */

/* Lexed with records to spare: the tokens, and the record after them kept. With as many as there are
 * tokens: the same. With one fewer, and with none: refusal 3, and nothing written. */
static int lexes(const uint8_t *doc, size_t len, const galoxumi_token *tokens, size_t count)
{
    galoxumi_token records[16], old[16];
    memset(old, 0xA5, sizeof old);
    for (size_t room = count; room <= count + 1; room++) {
        memcpy(records, old, sizeof old);
        if (!answers(galoxumi_lex(doc, len, records, room), 0, count) || memcmp(records, tokens, count * sizeof *records) != 0
            || memcmp(&records[count], &old[count], sizeof *old) != 0) {
            return 0;
        }
    }
    memcpy(records, old, sizeof old);
    return answers(galoxumi_lex(doc, len, records, count - 1), 3, count) && answers(galoxumi_lex(doc, len, records, 0), 3, count)
           && memcmp(records, old, sizeof old) == 0;
}

#define LEXES(text, ...)                                                             \
    do {                                                                             \
        static const galoxumi_token tokens[] = {__VA_ARGS__};                        \
        EXPECT(lexes(BYTES(text), tokens, sizeof tokens / sizeof *tokens) && #text); \
    } while (0)

static void lexing(void)
{
    FROM("tests/scope.txt, lex; the line: docs/RULES.md, 1 plus the LFs before the first byte");
    LEXES("", T(4, 0, 0, 1));
    LEXES("\xEF\xBB\xBF", T(4, 3, 3, 1));
    LEXES("'''a'''''", T(1, 0, 9, 1), T(4, 9, 9, 1));
    LEXES("'''a''''''", T(1, 0, 9, 1), T(39, 9, 10, 1), T(4, 10, 10, 1));
    LEXES("'a\r\n", T(39, 0, 3, 1), T(10, 3, 4, 1), T(4, 4, 4, 2));
    LEXES("#x\ry", T(35, 0, 2, 1), T(10, 2, 3, 1), T(3, 3, 4, 1), T(4, 4, 4, 1));
    LEXES("a\"b c", T(3, 0, 3, 1), T(32, 3, 4, 1), T(3, 4, 5, 1), T(4, 5, 5, 1));
    LEXES("a = \"b\"\n", T(3, 0, 1, 1), T(32, 1, 2, 1), T(61, 2, 3, 1), T(32, 3, 4, 1), T(34, 4, 7, 1), T(10, 7, 8, 1), T(4, 8, 8, 2));
    FROM("docs/RULES.md, the refusals: 1 before 3, with the longest valid prefix");
    galoxumi_token one[1] = {T(7, 8, 9, 1)};
    EXPECT(answers(galoxumi_lex(BYTES("a\xFF"), one, 0), 1, 1));
    EXPECT(is_token(one[0], 7, 8, 9, 1));
    EXPECT(answers(galoxumi_check_utf8(BYTES("")), 0, 0));
    EXPECT(answers(galoxumi_check_utf8(BYTES("\xC3\xA9=1")), 0, 0));
    EXPECT(answers(galoxumi_check_utf8(BYTES("a\xED\xA0\x80")), 1, 1));
}

/* A multi-line string of n bytes between its marks, every k-th of them an LF, and Eof after it: two tokens, and the
 * line of the second is 1 plus those LFs. */
static int counts_lines(size_t n, size_t k)
{
    uint8_t doc[320];
    galoxumi_token records[8];
    size_t lines = 1;
    memset(doc, '\'', sizeof doc);
    for (size_t i = 0; i < n; i++) {
        doc[3 + i] = i % k == k - 1 ? '\n' : 'x';
        lines += i % k == k - 1;
    }
    return answers(galoxumi_lex(doc, n + 6, records, 8), 0, 2) && is_token(records[0], GALOXUMI_ML_LITERAL_STRING, 0, n + 6, 1)
           && is_token(records[1], GALOXUMI_EOF, n + 6, n + 6, lines);
}

static void lines_of_long_strings(void)
{
    FROM("docs/RULES.md, 1 plus the LFs before it: through blocks of 128 bytes, and the rest after them");
    for (size_t n = 0; n <= 300; n++) {
        for (size_t k = 1; k <= 18; k++) {
            EXPECT(counts_lines(n, k));
        }
    }
}

static int steps(galoxumi_stepped s, galoxumi_token token, galoxumi_cursor next)
{
    return answers(s.answer, 0, 0) && s.found == 1 && memcmp(&s.token, &token, sizeof token) == 0
           && memcmp(&s.cursor, &next, sizeof next) == 0;
}

static int steps_nowhere(galoxumi_stepped s, size_t refusal, size_t value)
{
    static const galoxumi_stepped nothing;
    galoxumi_stepped expected = nothing;
    expected.answer = (galoxumi_answer){refusal, value, 0};
    return memcmp(&s, &expected, sizeof s) == 0;
}

static void stepping(void)
{
    FROM("tests/scope.txt, start and step");
    galoxumi_started start = galoxumi_start(BYTES("\xEF\xBB\xBF"));
    EXPECT(answers(start.answer, 0, 0) && start.cursor.place == 3 && start.cursor.ended == 0 && start.cursor.line == 1);
    start = galoxumi_start(BYTES(""));
    EXPECT(answers(start.answer, 0, 0) && start.cursor.place == 0 && start.cursor.ended == 0);
    EXPECT(steps(galoxumi_step(BYTES("\xEF\xBB\xBF"), 0, 0, 1), (galoxumi_token)T(3, 0, 3, 1), (galoxumi_cursor){3, 0, 1}));
    EXPECT(steps(galoxumi_step(BYTES(""), 0, 0, 1), (galoxumi_token)T(4, 0, 0, 1), (galoxumi_cursor){0, 1, 1}));
    EXPECT(steps_nowhere(galoxumi_step(BYTES(""), 0, 1, 1), 0, 0));
    FROM("crates/lexer/specs/Steps.antt: before the end the flag is carried along");
    EXPECT(steps(galoxumi_step(BYTES("a"), 0, 1, 1), (galoxumi_token)T(3, 0, 1, 1), (galoxumi_cursor){1, 1, 1}));
    FROM("crates/library_numbers/specs/Numbers.antt: anything but 0 says that the cursor is ended");
    EXPECT(steps_nowhere(galoxumi_step(BYTES("a"), 1, SIZE_MAX, 1), 0, 0));
    FROM("docs/RULES.md, the refusals: 6 with the document's length");
    EXPECT(steps_nowhere(galoxumi_step(BYTES("a"), 2, 0, 1), 6, 1));
    EXPECT(steps_nowhere(galoxumi_step(BYTES("a"), SIZE_MAX, 1, 1), 6, 1));
    FROM("docs/RULES.md, line and column: a wrong line is counted on from; the refusals: 6 for a line past the place plus 1");
    EXPECT(steps(galoxumi_step(BYTES("a\n\nb"), 2, 0, 3), (galoxumi_token)T(10, 2, 3, 3), (galoxumi_cursor){3, 0, 4}));
    EXPECT(steps(galoxumi_step(BYTES("a\n\nb"), 3, 0, 0), (galoxumi_token)T(3, 3, 4, 0), (galoxumi_cursor){4, 0, 0}));
    EXPECT(steps_nowhere(galoxumi_step(BYTES("a\n\nb"), 2, 0, 4), 6, 4));
}

/* ---- decoding */

/* Decoded with room to spare, and with just enough: the bytes and the errors, and what stands after them kept.
 * With a byte or a record too few, and with none: refusal 4 or 5, and nothing written. */
static int decodes(size_t kind, const uint8_t *text, size_t len, const uint8_t *bytes, size_t n, const galoxumi_error *errors, size_t m)
{
    uint8_t out[32], old[32];
    galoxumi_error records[8], kept[8];
    memset(old, 0xA5, sizeof old);
    memset(kept, 0xA5, sizeof kept);
    for (size_t spare = 0; spare <= 20; spare += 20) {
        memcpy(out, old, sizeof out);
        memcpy(records, kept, sizeof records);
        galoxumi_decoded d = galoxumi_decode(text, len, kind, out, n + spare, records, spare == 0 ? m : 8);
        if (!answers(d.answer, 0, n) || d.errors != m || memcmp(out, bytes, n) != 0 || memcmp(records, errors, m * sizeof *records) != 0
            || memcmp(out + n, old + n, sizeof old - n) != 0 || memcmp(records + m, kept + m, sizeof kept - m * sizeof *kept) != 0) {
            return 0;
        }
    }
    memcpy(out, old, sizeof out);
    memcpy(records, kept, sizeof records);
    int ok = 1;
    for (size_t room = 0; n > 0 && room < n; room += n > 1 ? n - 1 : 1) {
        galoxumi_decoded d = galoxumi_decode(text, len, kind, out, room, records, 0);
        ok &= answers(d.answer, 4, n) && d.errors == 0;
    }
    for (size_t room = 0; m > 0 && room < m; room += m > 1 ? m - 1 : 1) {
        galoxumi_decoded d = galoxumi_decode(text, len, kind, out, n, records, room);
        ok &= answers(d.answer, 5, m) && d.errors == 0;
    }
    return ok && memcmp(out, old, sizeof out) == 0 && memcmp(records, kept, sizeof records) == 0;
}

#define NO_ERRORS R(0, 0, 0)
#define DECODES(kind, text, bytes, m, ...)                                    \
    do {                                                                      \
        static const galoxumi_error errors[] = {__VA_ARGS__};                 \
        EXPECT(decodes(kind, BYTES(text), BYTES(bytes), errors, m) && #text); \
    } while (0)

static void decoding(void)
{
    FROM("tests/scope.txt, dec");
    DECODES(34, "\"\\u\\u\\u\"", "\xEF\xBF\xBD\xEF\xBF\xBD\xEF\xBF\xBD", 3, R(9, 3, 3), R(9, 5, 5), R(9, 7, 7));
    DECODES(34, "\"\\uD7FF\"", "\xED\x9F\xBF", 0, NO_ERRORS);
    DECODES(34, "\"\\uD800\"", "\xEF\xBF\xBD", 1, R(10, 3, 3));
    DECODES(34, "\"\\U0010FFFF\"", "\xF4\x8F\xBF\xBF", 0, NO_ERRORS);
    DECODES(34, "\"\\U00110000\"", "\xEF\xBF\xBD", 1, R(10, 3, 3));
    DECODES(34, "\"\\q\"", "\\q", 1, R(8, 2, 2));
    DECODES(34, "\"a\\\"", "a\\", 1, R(8, 3, 3));
    DECODES(1, "'''a''", "a", 1, R(3, 6, 6));
    DECODES(2, "\"\"\"a\"\"", "a\"\"", 1, R(11, 6, 6));
    DECODES(2, "\"\"\"a\rb\"\"\"", "a\rb", 1, R(4, 5, 5));
    DECODES(2, "\"\"\"a\\ \n  b\"\"\"", "ab", 0, NO_ERRORS);
    DECODES(39, "'", "", 1, R(1, 1, 1));
    DECODES(39, "", "", 2, R(1, 0, 0), R(1, 0, 0));
    DECODES(3, "", "", 1, R(14, 0, 0));
    DECODES(3, "\xC3\xA9", "\xC3\xA9", 2, R(15, 0, 0), R(15, 1, 1));
    DECODES(1, "'''a'''b'''", "a'''b", 0, NO_ERRORS);
}

static void decoding_refused(void)
{
    uint8_t out[2] = {0xA5, 0xA5};
    galoxumi_error errors[1] = {R(7, 8, 9)};
    FROM("docs/RULES.md, the refusals: 1 before 7, 7 before 4, 4 before 5");
    galoxumi_decoded d = galoxumi_decode(BYTES("\"\xFF\""), 5, out, 0, errors, 0);
    EXPECT(answers(d.answer, 1, 1) && d.errors == 0);
    d = galoxumi_decode(BYTES("\"abc\""), 5, out, 0, errors, 0);
    EXPECT(answers(d.answer, 7, 5) && d.errors == 0);
    d = galoxumi_decode(BYTES("\"abc"), 34, out, 2, errors, 0);
    EXPECT(answers(d.answer, 4, 3) && d.errors == 0);
    d = galoxumi_decode(BYTES("\"ab"), 34, out, 2, errors, 0);
    EXPECT(answers(d.answer, 5, 1) && d.errors == 0);
    FROM("docs/RULES.md, the refusals: a refused call writes nothing");
    EXPECT(out[0] == 0xA5 && out[1] == 0xA5 && is_error(errors[0], 7, 8, 9));
}

/* ---- writing */

/* Written with a byte to spare: the text, and the byte after it kept. With as many as it has: the same. With one fewer,
 * and with none: refusal 4, and nothing written. Decoded as `kind` the text has the value, with no error. */
static int writes(const uint8_t *value, size_t len, size_t kind, const uint8_t *text, size_t n)
{
    uint8_t out[64], old[64], back[64];
    galoxumi_error errors[1];
    memset(old, 0xA5, sizeof old);
    for (size_t room = n; room <= n + 1; room++) {
        memcpy(out, old, sizeof old);
        if (!answers(galoxumi_write_value(value, len, out, room), 0, n) || memcmp(out, text, n) != 0 || out[n] != 0xA5) {
            return 0;
        }
    }
    galoxumi_decoded d = galoxumi_decode(out, n, kind, back, sizeof back, errors, 0);
    if (!answers(d.answer, 0, len) || d.errors != 0 || memcmp(back, value, len) != 0) {
        return 0;
    }
    memcpy(out, old, sizeof old);
    return answers(galoxumi_write_value(value, len, out, n - 1), 4, n) && answers(galoxumi_write_value(value, len, out, 0), 4, n)
           && memcmp(out, old, sizeof old) == 0;
}

#define WRITES(value, kind, text) EXPECT(writes(BYTES(value), kind, BYTES(text)) && #value)

static void writing(void)
{
    uint8_t out[8];
    FROM("docs/TRACE.md, k2: the shortest text; the ABNF of TOML 1.0.0: literal-char, and what a basic string has to escape");
    WRITES("", 39, "''");
    WRITES("-O2 \"x\" \\", 39, "'-O2 \"x\" \\'");
    WRITES("a\tb", 39, "'a\tb'");
    WRITES("\xC3\xA9", 39, "'\xC3\xA9'");
    WRITES("it's", 34, "\"it's\"");
    WRITES("'\"\\\t", 34, "\"'\\\"\\\\\t\"");
    WRITES("\b\f\n\r", 34, "\"\\b\\f\\n\\r\"");
    WRITES("\xF0\x9F\x98\x80\n", 34, "\"\xF0\x9F\x98\x80\\n\"");
    FROM("docs/TRACE.md, k3: of equally short texts the one with the smallest bytes, so hex digits in capitals");
    WRITES("\x1F\x7F", 34, "\"\\u001F\\u007F\"");
    EXPECT(writes((const uint8_t *)"", 1, 34, BYTES("\"\\u0000\"")));
    FROM("docs/RULES.md, the refusals: 1 before 4, with the valid prefix and the length of the faulty sequence");
    galoxumi_answer a = galoxumi_write_value(BYTES("a\xE2\x82" "b"), out, 0);
    EXPECT(answers(a, 1, 1) && a.length == 2);
}

/* ---- spans, places, kinds */

static int is_part(galoxumi_part p, size_t start, size_t length)
{
    return p.start == start && p.length == length;
}

static int is_position(galoxumi_positioned p, size_t refusal, size_t value, size_t line, size_t column)
{
    return answers(p.answer, refusal, value) && p.line == line && p.column == column;
}

static void places(void)
{
    FROM("docs/RULES.md, the refusals: 6 for a span");
    EXPECT(answers(galoxumi_check_span(BYTES("\xC3\xA9=1"), 0, 4), 0, 0));
    EXPECT(answers(galoxumi_check_span(BYTES("\xC3\xA9=1"), 4, 4), 0, 0));
    EXPECT(answers(galoxumi_check_span(BYTES("\xC3\xA9=1"), 1, 2), 6, 4));
    EXPECT(answers(galoxumi_check_span(BYTES("\xC3\xA9=1"), 0, 1), 6, 4));
    EXPECT(answers(galoxumi_check_span(BYTES("\xC3\xA9=1"), 3, 2), 6, 4));
    EXPECT(answers(galoxumi_check_span(BYTES("\xC3\xA9=1"), 0, 5), 6, 4));
    FROM("crates/library_numbers/specs/Numbers.antt: start and length, 0 and 0 where refused");
    EXPECT(is_part(galoxumi_text(BYTES("\xC3\xA9=1"), 2, 4), 2, 2));
    EXPECT(is_part(galoxumi_text(BYTES("\xC3\xA9=1"), 4, 4), 4, 0));
    EXPECT(is_part(galoxumi_text(BYTES("\xC3\xA9=1"), 1, 4), 0, 0));
    EXPECT(is_part(galoxumi_text(BYTES("\xC3\xA9=1"), 3, 2), 0, 0));
    FROM("tests/scope.txt, pos");
    EXPECT(is_position(galoxumi_position(BYTES("\xC3\xA9=1"), 2), 0, 0, 1, 2));
    FROM("crates/lexer_place/specs/Positions.antt");
    FROM("docs/RULES.md, line and column: offsets 0 to 3 of a document with a byte order mark are all column 1");
    for (size_t i = 0; i <= 3; i++)
        EXPECT(is_position(galoxumi_position(BYTES("\xEF\xBB\xBF" "a"), i), 0, 0, 1, 1));
    EXPECT(is_position(galoxumi_position(BYTES("\xEF\xBB\xBF" "a"), 4), 0, 0, 1, 2));
    FROM("docs/RULES.md, line and column");
    EXPECT(is_position(galoxumi_position(BYTES("a\nb"), 1), 0, 0, 1, 2));
    EXPECT(is_position(galoxumi_position(BYTES("a\nb"), 3), 0, 0, 2, 2));
    EXPECT(is_position(galoxumi_position(BYTES("a\nb"), 4), 6, 3, 0, 0));
}

/* ---- decoding piece by piece */

static int is_body(galoxumi_body b, size_t at, size_t end, size_t dropping)
{
    return b.at == at && b.end == end && b.dropping == dropping;
}

/* A piece: how many bytes it takes, what it gives, the number of its error, and the body after it. */
static int is_piece(galoxumi_pieced p, size_t take, size_t given, size_t scalar, size_t error, size_t at, size_t end,
                    size_t dropping)
{
    return answers(p.answer, 0, 0) && p.found == 1 && p.take == take && p.given == given && p.scalar == scalar
           && p.error.number == error && is_body(p.body, at, end, dropping);
}

static void pieces(void)
{
    FROM("crates/decoder_rules/specs/Marks.antt, of a text with both marks and of one without the last");
    galoxumi_opened o = galoxumi_open_text(BYTES("\"a\\n\""), 10, 34);
    EXPECT(answers(o.answer, 0, 0) && is_error(o.opening, 0, 0, 0) && is_error(o.closing, 0, 0, 0));
    EXPECT(is_body(o.body, 1, 4, 0));
    o = galoxumi_open_text(BYTES("\"a"), 10, 34);
    EXPECT(is_error(o.opening, 0, 0, 0) && is_error(o.closing, 6, 2, 2) && is_body(o.body, 1, 2, 0));
    FROM("docs/RULES.md, the refusals: 7 before 9");
    o = galoxumi_open_text(BYTES("a"), 12, 5);
    EXPECT(answers(o.answer, 7, 5) && is_body(o.body, 0, 0, 0));
    EXPECT(answers(galoxumi_open_text(BYTES("a"), 12, 34).answer, 9, 12));
    EXPECT(answers(galoxumi_piece(BYTES("a"), 10, 5, 0, 1, 0).answer, 7, 5));
    EXPECT(answers(galoxumi_piece(BYTES("a"), 12, 34, 0, 1, 0).answer, 9, 12));
    FROM("crates/decoder_rules/specs/Bodies.antt and Escapes.antt");
    EXPECT(is_piece(galoxumi_piece(BYTES("\"a\\n\""), 10, 34, 1, 4, 0), 1, GALOXUMI_GIVES_BYTES, 0, 0, 2, 4, 0));
    EXPECT(is_piece(galoxumi_piece(BYTES("\"a\\n\""), 10, 34, 2, 4, 0), 2, GALOXUMI_GIVES_CHARACTER, 10, 0, 4, 4, 0));
    EXPECT(galoxumi_piece(BYTES("\"a\\n\""), 10, 34, 4, 4, 0).found == 0);
    EXPECT(is_piece(galoxumi_piece(BYTES("\\e"), 10, 34, 0, 2, 0), 1, GALOXUMI_GIVES_CHARACTER, 0x5C, 8, 1, 2, 0));
    EXPECT(is_piece(galoxumi_piece(BYTES("\\e"), 11, 34, 0, 2, 0), 2, GALOXUMI_GIVES_CHARACTER, 0x1B, 0, 2, 2, 0));
    EXPECT(is_piece(galoxumi_piece(BYTES("\\\n x"), 10, 2, 0, 4, 0), 2, GALOXUMI_GIVES_NOTHING, 0, 0, 2, 4, 1));
    EXPECT(is_piece(galoxumi_piece(BYTES("\\\n x"), 10, 2, 2, 4, 7), 1, GALOXUMI_GIVES_NOTHING, 0, 0, 3, 4, 1));
    EXPECT(is_piece(galoxumi_piece(BYTES("\\\n x"), 10, 2, 3, 4, 1), 1, GALOXUMI_GIVES_BYTES, 0, 0, 4, 4, 0));
    FROM("crates/decoder_pieces/specs/Steps.antt, of bodies made by hand");
    EXPECT(is_piece(galoxumi_piece(BYTES("ab"), 10, 34, 1, SIZE_MAX, 0), 1, GALOXUMI_GIVES_BYTES, 0, 0, 2, SIZE_MAX, 0));
    EXPECT(galoxumi_piece(BYTES("ab"), 10, 34, SIZE_MAX, SIZE_MAX, 0).found == 0);
    EXPECT(galoxumi_piece(BYTES("ab"), 10, 34, 2, 1, 0).found == 0);
    EXPECT(galoxumi_piece(NULL, 0, 10, 34, 0, 1, 0).found == 0);
}

static int is_described(galoxumi_described d, const char *words)
{
    uint8_t padded[25] = {0};
    memcpy(padded, words, strlen(words));
    return answers(d.answer, 0, 0) && d.length == strlen(words) && memcmp(d.bytes, padded, sizeof padded) == 0;
}

static void kinds(void)
{
    static const struct {
        size_t kind, encoding;
        const char *words;
    } table[] = {
        {GALOXUMI_DOT, 0, "`.`"},
        {GALOXUMI_EQUALS, 0, "`=`"},
        {GALOXUMI_COMMA, 0, "`,`"},
        {GALOXUMI_LEFT_SQUARE_BRACKET, 0, "`[`"},
        {GALOXUMI_RIGHT_SQUARE_BRACKET, 0, "`]`"},
        {GALOXUMI_LEFT_CURLY_BRACKET, 0, "`{`"},
        {GALOXUMI_RIGHT_CURLY_BRACKET, 0, "`}`"},
        {GALOXUMI_WHITESPACE, 0, "whitespace"},
        {GALOXUMI_COMMENT, 0, "comment"},
        {GALOXUMI_NEWLINE, 0, "newline"},
        {GALOXUMI_LITERAL_STRING, 39, "literal string"},
        {GALOXUMI_BASIC_STRING, 34, "basic string"},
        {GALOXUMI_ML_LITERAL_STRING, 1, "multi-line literal string"},
        {GALOXUMI_ML_BASIC_STRING, 2, "multi-line basic string"},
        {GALOXUMI_ATOM, 0, "token"},
        {GALOXUMI_EOF, 0, "end-of-input"},
    };
    FROM("crates/lexer_token/specs/Descriptions.antt and Encodings.antt, from the Rust");
    for (size_t i = 0; i < sizeof table / sizeof *table; i++) {
        EXPECT(is_described(galoxumi_description(table[i].kind), table[i].words));
        galoxumi_encoded e = galoxumi_encoding(table[i].kind);
        EXPECT(answers(e.answer, 0, 0) && e.encoding == table[i].encoding);
    }
    FROM("docs/RULES.md, the refusals: 7 with the number, and zeros");
    static const uint8_t zeros[25];
    galoxumi_described d = galoxumi_description(5);
    EXPECT(answers(d.answer, 7, 5) && d.length == 0 && memcmp(d.bytes, zeros, sizeof zeros) == 0);
    galoxumi_encoded e = galoxumi_encoding(SIZE_MAX);
    EXPECT(answers(e.answer, 7, SIZE_MAX) && e.encoding == 0);
}

/* ---- documents of 16,777,216 bytes, and of one more, for every call that takes one */

/* The limit, written out here and not taken from the header: the rule, the code and the header may be changed
 * together, and this then says so. */
static const size_t LIMIT = 16777216;

/* ---- the first broken string */

static int breaks(galoxumi_broken b, galoxumi_token token, galoxumi_error error)
{
    return answers(b.answer, 0, 0) && b.answer.length == 0 && b.found == 1 && memcmp(&b.token, &token, sizeof token) == 0
           && memcmp(&b.error, &error, sizeof error) == 0;
}

static int breaks_nowhere(galoxumi_broken b, size_t refusal, size_t value, size_t length)
{
    static const galoxumi_broken nothing;
    galoxumi_broken expected = nothing;
    expected.answer = (galoxumi_answer){refusal, value, length};
    return memcmp(&b, &expected, sizeof b) == 0;
}

struct memory {
    uint8_t *doc, *out;
    galoxumi_error *errors;
    galoxumi_token *tokens;
};

/* Accepted by every call. Each byte is a token or an error of its own, so the lent records are as many as
 * there can be. */
static void at_the_limit(struct memory m, size_t len)
{
    memset(m.doc, '.', len);
    FROM("docs/RULES.md, the refusals: 16,777,216 bytes are not too many");
    EXPECT(answers(galoxumi_check_utf8(m.doc, len), 0, 0));
    EXPECT(answers(galoxumi_start(m.doc, len).answer, 0, 0));
    EXPECT(steps(galoxumi_step(m.doc, len, len - 1, 0, 1), (galoxumi_token)T(46, len - 1, len, 1), (galoxumi_cursor){len, 0, 1}));
    EXPECT(answers(galoxumi_check_span(m.doc, len, 0, len), 0, 0));
    EXPECT(is_part(galoxumi_text(m.doc, len, 1, len), 1, len - 1));
    EXPECT(is_position(galoxumi_position(m.doc, len, len), 0, 0, 1, len + 1));
    FROM("crates/lexer/specs/Table.antt: a token for each dot, and Eof");
    EXPECT(answers(galoxumi_lex(m.doc, len, m.tokens, len + 1), 0, len + 1));
    EXPECT(is_token(m.tokens[0], 46, 0, 1, 1) && is_token(m.tokens[len], 4, len, len, 1));
    EXPECT(answers(galoxumi_lex(m.doc, len, m.tokens, len), 3, len + 1));
    EXPECT(answers(galoxumi_lex(m.doc, len, m.tokens, 0), 3, len + 1));
    FROM("crates/decoder_rules/specs/Bodies.antt: error 15 at each byte of a key of dots");
    galoxumi_decoded d = galoxumi_decode(m.doc, len, 3, m.out, len, m.errors, len);
    EXPECT(answers(d.answer, 0, len) && d.errors == len && is_error(m.errors[len - 1], 15, len - 1, len - 1));
    EXPECT(answers(galoxumi_decode(m.doc, len, 3, m.out, len, m.errors, len - 1).answer, 5, len));
    FROM("crates/decoder_rules/specs/Marks.antt: one string without its two marks");
    m.doc[0] = m.doc[len - 1] = '"';
    EXPECT(answers(galoxumi_lex(m.doc, len, m.tokens, 2), 0, 2) && is_token(m.tokens[0], 34, 0, len, 1));
    d = galoxumi_decode(m.doc, len, 34, m.out, len + len / 2, m.errors, len + 2);
    EXPECT(answers(d.answer, 0, len - 2) && d.errors == 0 && m.out[0] == '.' && m.out[len - 3] == '.');
    EXPECT(answers(galoxumi_decode(m.doc, len, 34, m.out, len - 2, m.errors, 0).answer, 0, len - 2));
    EXPECT(answers(galoxumi_decode(m.doc, len, 34, m.out, len - 3, m.errors, 0).answer, 4, len - 2));
    EXPECT(answers(galoxumi_decode_in(m.doc, len, 11, 34, m.out, len - 2, m.errors, 0).answer, 0, len - 2));
    FROM("crates/built_writing/specs/Writing.antt: a text is written where it fits, and may be longer than the limit");
    EXPECT(answers(galoxumi_write_value(m.doc, len, m.out, len + 2), 0, len + 2) && m.out[0] == '\'' && m.out[len + 1] == '\'');
    EXPECT(answers(galoxumi_write_value(m.doc, len, m.out, len + 1), 4, len + 2));
    EXPECT(breaks_nowhere(galoxumi_first_broken(m.doc, len), 0, 0, 0));
    galoxumi_parts state = galoxumi_parts_start();
    galoxumi_fed half = galoxumi_parts_feed(&state, m.doc, len / 2, m.tokens, 0);
    half = galoxumi_parts_feed(&half.state, m.doc + len / 2, len - len / 2, m.tokens, 1);
    EXPECT(answers(half.answer, 0, 1) && is_token(m.tokens[0], 34, 0, len, 1));
    EXPECT(answers(galoxumi_parts_close(&half.state, m.tokens, 1).answer, 0, 1) && is_token(m.tokens[0], 4, len, len, 1));
    FROM("docs/RULES.md, the refusals: 1 at the last byte");
    m.doc[len - 1] = 0xC3;
    EXPECT(answers(galoxumi_check_utf8(m.doc, len), 1, len - 1));
    EXPECT(answers(galoxumi_lex(m.doc, len, m.tokens, 0), 1, len - 1));
    EXPECT(breaks_nowhere(galoxumi_first_broken(m.doc, len), 1, len - 1, 0));
    EXPECT(answers(galoxumi_decode(m.doc, len, 5, m.out, 0, m.errors, 0).answer, 1, len - 1));
}

/* Refused by every call, before all else that is wrong with what it is given. */
static void past_the_limit(struct memory m, size_t len)
{
    FROM("docs/RULES.md, the refusals: 2 first, with 16,777,216, and the other results zero");
    m.doc[0] = 0xFF;
    m.out[0] = 0xA5;
    m.errors[0].number = 7;
    m.tokens[0].kind = 7;
    EXPECT(answers(galoxumi_check_utf8(m.doc, len), 2, LIMIT));
    EXPECT(answers(galoxumi_lex(m.doc, len, m.tokens, 0), 2, LIMIT));
    EXPECT(answers(galoxumi_lex(m.doc, len, m.tokens, len + 1), 2, LIMIT));
    galoxumi_started start = galoxumi_start(m.doc, len);
    EXPECT(answers(start.answer, 2, LIMIT) && start.cursor.place == 0 && start.cursor.ended == 0 && start.cursor.line == 0);
    EXPECT(steps_nowhere(galoxumi_step(m.doc, len, SIZE_MAX, 1, SIZE_MAX), 2, LIMIT));
    EXPECT(answers(galoxumi_check_span(m.doc, len, 5, 4), 2, LIMIT));
    EXPECT(is_part(galoxumi_text(m.doc, len, 1, 2), 0, 0));
    EXPECT(is_position(galoxumi_position(m.doc, len, SIZE_MAX), 2, LIMIT, 0, 0));
    galoxumi_decoded d = galoxumi_decode(m.doc, len, 5, m.out, 0, m.errors, 0);
    EXPECT(answers(d.answer, 2, LIMIT) && d.errors == 0);
    d = galoxumi_decode(m.doc, len, 34, m.out, LIMIT, m.errors, LIMIT);
    EXPECT(answers(d.answer, 2, LIMIT) && d.errors == 0);
    EXPECT(answers(galoxumi_write_value(m.doc, len, m.out, 0), 2, LIMIT));
    EXPECT(answers(galoxumi_write_value(m.doc, len, m.out, LIMIT), 2, LIMIT));
    EXPECT(answers(galoxumi_put_right_in(m.doc, len, 12, m.out, LIMIT, NULL, 0).answer, 2, LIMIT));
    d = galoxumi_decode_in(m.doc, len, 12, 34, m.out, LIMIT, m.errors, LIMIT);
    EXPECT(answers(d.answer, 2, LIMIT) && d.errors == 0);
    EXPECT(breaks_nowhere(galoxumi_first_broken_in(m.doc, len, 12), 2, LIMIT, 0));
    galoxumi_parts state = galoxumi_parts_start();
    galoxumi_fed fed = galoxumi_parts_feed(&state, m.doc, len, m.tokens, 0);
    EXPECT(answers(fed.answer, 2, LIMIT) && fed.state.ended == 1);
    memset(m.doc + 1, '.', len - 1);
    fed = galoxumi_parts_feed(&state, m.doc + 1, len - 1, m.tokens, len);
    m.tokens[0].kind = 7;
    EXPECT(answers(fed.answer, 0, len - 1) && answers(galoxumi_parts_feed(&fed.state, m.doc, 1, m.tokens, 0).answer, 2, LIMIT));
    EXPECT(m.out[0] == 0xA5 && m.errors[0].number == 7 && m.tokens[0].kind == 7);
}

/* ---- the words of errors */

static int says(galoxumi_words w, size_t expected, size_t said, const char *words)
{
    uint8_t padded[43] = {0};
    memcpy(padded, words, strlen(words));
    return answers(w.answer, 0, 0) && w.expected == expected && w.said == said && w.length == strlen(words)
           && memcmp(w.bytes, padded, sizeof padded) == 0;
}

static int unsaid(galoxumi_words w, size_t refusal, size_t value)
{
    static const uint8_t zeros[43];
    return answers(w.answer, refusal, value) && w.expected == 0 && w.said == GALOXUMI_NOTHING && w.length == 0
           && memcmp(w.bytes, zeros, sizeof zeros) == 0;
}

/* The words of an error in an edition: its message, then what it expects, and then nothing. Here a literal has an L in
 * front, and a description a D. */
static int has_words(size_t error, size_t edition, const char *message, const char *const *expected)
{
    size_t n = 0;
    while (expected[n]) {
        n++;
    }
    int ok = says(galoxumi_error_words(error, edition, 0), n, GALOXUMI_MESSAGE, message);
    for (size_t i = 0; i < n; i++) {
        size_t said = expected[i][0] == 'L' ? GALOXUMI_LITERAL : GALOXUMI_DESCRIPTION;
        ok &= says(galoxumi_error_words(error, edition, i + 1), n, said, expected[i] + 1);
    }
    return ok && says(galoxumi_error_words(error, edition, n + 1), n, GALOXUMI_NOTHING, "")
           && says(galoxumi_error_words(error, edition, SIZE_MAX), n, GALOXUMI_NOTHING, "");
}

static void words_of_errors(void)
{
    static const struct {
        const char *message, *expected[11];
    } table[] = {
        {"invalid literal string", {"L'"}},
        {"invalid literal string", {"Dnon-single-quote visible characters"}},
        {"invalid multi-line literal string", {"L'"}},
        {"carriage return must be followed by newline", {"L\n"}},
        {"invalid multi-line literal string", {"Dnon-single-quote characters"}},
        {"invalid basic string", {"L\""}},
        {"invalid basic string", {"Dnon-double-quote visible characters", "L\\"}},
        {"missing escaped value", {"Lb", "Lf", "Ln", "Lr", "L\\", "L\"", "Lu", "LU"}},
        {"too few unicode value digits", {"Dunicode hexadecimal value"}},
        {"invalid value", {"Dunicode hexadecimal value"}},
        {"invalid multi-line basic string", {"L\""}},
        {"invalid multi-line basic string", {"L\\", "Dcharacters"}},
        {"invalid multi-line basic string", {"L\n"}},
        {"unquoted keys cannot be empty", {"Dletters", "Dnumbers", "L-", "L_"}},
        {"invalid unquoted key", {"Dletters", "Dnumbers", "L-", "L_"}},
    };
    static const char *const escapes[] = {"Lb", "Lf", "Ln", "Lr", "L\\", "L\"", "Lu", "LU", "Le", "Lx", NULL};
    FROM("the Rust, src/decoder/string.rs: ParseError::new and with_expected; edition 11: docs/DIFFERENCES.md");
    for (size_t error = 1; error <= 15; error++) {
        EXPECT(has_words(error, 10, table[error - 1].message, table[error - 1].expected));
        EXPECT(has_words(error, 11, table[error - 1].message, error == 8 ? escapes : table[error - 1].expected));
    }
    FROM("docs/RULES.md, the refusals: 7 for a number that is no error's, then 9, each with the number, and zeros");
    EXPECT(unsaid(galoxumi_error_words(0, 10, 0), 7, 0));
    EXPECT(unsaid(galoxumi_error_words(16, 12, 1), 7, 16));
    EXPECT(unsaid(galoxumi_error_words(SIZE_MAX, 10, 0), 7, SIZE_MAX));
    EXPECT(unsaid(galoxumi_error_words(8, 12, 1), 9, 12));
    EXPECT(unsaid(galoxumi_error_words(1, 0, 0), 9, 0));
}

/* With refusal 1 the length of the faulty sequence, from every call that gives it. */
static int broken(galoxumi_answer a, size_t value, size_t length)
{
    return a.refusal == 1 && a.value == value && a.length == length;
}

static void faults(void)
{
    uint8_t out[16];
    galoxumi_error records[4];
    FROM("core::str::Utf8Error: error_len is none, here 0, at an unexpected end, and else 1 to 3");
    EXPECT(broken(galoxumi_check_utf8(BYTES("a\xE2\x82")), 1, 0));
    EXPECT(broken(galoxumi_check_utf8(BYTES("a\xE2\x82" "b")), 1, 2));
    galoxumi_token tokens[1];
    EXPECT(broken(galoxumi_lex(BYTES("\xF0\x90\x80" "b"), tokens, 1), 0, 3));
    EXPECT(broken(galoxumi_decode(BYTES("\xED\xA0\x80"), 34, out, 16, records, 4).answer, 0, 1));
    EXPECT(broken(galoxumi_decode_in(BYTES("\xFF"), 12, 5, out, 16, records, 4).answer, 0, 1));
    FROM("docs/RULES.md, the refusals: only 1 has a second number");
    EXPECT(galoxumi_check_utf8(BYTES("a")).length == 0 && galoxumi_lex(BYTES("a"), tokens, 0).length == 0);
}

/* The editions: 10 is galoxumi_decode's own, 11 adds two escapes, and another number is refused after a wrong kind. */
static void editions(void)
{
    uint8_t out[16];
    galoxumi_error records[4];
    const uint8_t text[] = "\"\\e\\x41\"";
    size_t len = sizeof text - 1;
    FROM("the ABNF of TOML 1.1.0: escape-seq-char has e (U+001B) and x with two hex digits besides");
    galoxumi_decoded d = galoxumi_decode_in(text, len, 11, 34, out, 16, records, 4);
    EXPECT(answers(d.answer, 0, 2) && d.errors == 0 && out[0] == 0x1B && out[1] == 0x41);
    FROM("docs/RULES.md, the errors: 8 after the backslash");
    d = galoxumi_decode_in(text, len, 10, 34, out, 16, records, 4);
    EXPECT(answers(d.answer, 0, 6) && d.errors == 2 && records[0].number == 8 && records[0].start == 2 && records[1].start == 4);
    d = galoxumi_decode(text, len, 34, out, 16, records, 4);
    EXPECT(answers(d.answer, 0, 6) && d.errors == 2 && records[0].number == 8 && records[0].start == 2 && records[1].start == 4);
    FROM("docs/RULES.md, the refusals: 9 with the number named, after 7 and before 4");
    out[0] = 0xA5;
    EXPECT(answers(galoxumi_decode_in(text, len, 12, 34, out, 0, records, 4).answer, 9, 12));
    EXPECT(answers(galoxumi_decode_in(text, len, 12, 39, out, 16, records, 4).answer, 9, 12));
    EXPECT(answers(galoxumi_decode_in(text, len, 12, 5, out, 16, records, 4).answer, 7, 5));
    EXPECT(out[0] == 0xA5);
}

/* Six bytes for each of the value's, and two marks: the longest text that there is. */
static void longest_text(void)
{
    size_t len = LIMIT, n = 6 * len + 2;
    uint8_t *value = malloc(len), *out = malloc(n);
    if (!value || !out) {
        printf("FAILED: no memory for the longest text: it needs 120 MB\n");
        broke++;
        return;
    }
    memset(value, 1, len);
    FROM("docs/TRACE.md, k5: refusal 4 with the shortest text's length; a text is written where it fits");
    EXPECT(answers(galoxumi_write_value(value, len, out, n - 1), 4, 100663298));
    EXPECT(answers(galoxumi_write_value(value, len, out, n), 0, 100663298));
    EXPECT(out[0] == '"' && memcmp(out + n - 7, "\\u0001\"", 7) == 0);
    free(value);
    free(out);
}

/* ---- putting broken strings right */

static int is_replaced(galoxumi_replaced b, size_t start, size_t end, size_t number, size_t from, size_t to)
{
    return b.token_start == start && b.token_end == end && is_error(b.error, number, from, to);
}

/* Put right with a byte and a record to spare: the text, and what is after it kept. With as many as there are: the same. With one
 * byte or one record fewer: refusals 4 and 5, and nothing written. Put right again: the same text, and nothing listed. */
static int mends(const uint8_t *doc, size_t len, const uint8_t *text, size_t n, size_t count)
{
    uint8_t out[64], old[64], again[64];
    galoxumi_replaced records[8];
    memset(old, 0xA5, sizeof old);
    for (size_t spare = 0; spare <= 1; spare++) {
        memcpy(out, old, sizeof old);
        records[count].token_start = 77;
        galoxumi_mended m = galoxumi_put_right(doc, len, out, n + spare, records, count + spare);
        if (!answers(m.answer, 0, n) || m.records != count || memcmp(out, text, n) != 0 || out[n] != 0xA5 || records[count].token_start != 77) {
            return 0;
        }
    }
    galoxumi_mended m = galoxumi_put_right_in(out, n, 10, again, sizeof again, records, 0);
    if (!answers(m.answer, 0, n) || m.records != 0 || memcmp(again, text, n) != 0) {
        return 0;
    }
    memcpy(out, old, sizeof old);
    if (count > 0 && !answers(galoxumi_put_right(doc, len, out, n, records, count - 1).answer, 5, count)) {
        return 0;
    }
    return (n == 0 || answers(galoxumi_put_right(doc, len, out, n - 1, records, 0).answer, 4, n)) && memcmp(out, old, sizeof old) == 0;
}

#define MENDS(doc, text, count) EXPECT(mends(BYTES(doc), BYTES(text), count) && #doc)

static void mending(void)
{
    uint8_t out[64] = {0xA5};
    galoxumi_replaced r[8];
    FROM("docs/TRACE.md, i2: quotation marks and backslashes after a backslash, 00 to 1F and 7F by their codes, all else as it is");
    MENDS("a = 'b' # \"", "a = 'b' # \"", 0);
    MENDS("\"C:\\dir\"\n", "\"C:\\\\dir\"\n", 1);
    MENDS("'\t\"\\\x01\x1F\x7F\xC3\xA9'", "\"\\u0009\\\"\\\\\\u0001\\u001F\\u007F\xC3\xA9\"", 3);
    FROM("docs/TRACE.md, i3: a space where the output's last byte is a quotation mark");
    MENDS("\"a\"'\x01'", "\"a\" \"\\u0001\"", 1);
    MENDS("\"\\q\"\"\\q\"", "\"\\\\q\" \"\\\\q\"", 2);
    MENDS("'a''\x01'", "'a'\"\\u0001\"", 1);
    FROM("docs/TRACE.md, i4: no seam joins tokens: strings that are not closed, and an empty replacement");
    MENDS("\"a\n\"b\"", "\"a\"\n\"b\"", 1);
    MENDS("'", "\"\"", 1);
    MENDS("\"\"\"\\ \"\"\"'a'", "\"\"'a'", 1);
    MENDS("\"\"\"\\ \"\"\"\"\"\"a\"", "\"\\\"\\\"\"\"a\"", 1);
    FROM("docs/TRACE.md, i7: the old token's span, and the error as a decode has it");
    galoxumi_mended m = galoxumi_put_right(BYTES("a='b\n\"\x01\x02\""), out, 64, r, 8);
    EXPECT(m.records == 2 && is_replaced(r[0], 2, 4, 1, 2, 2) && is_replaced(r[1], 5, 9, 7, 1, 3));
    FROM("docs/TRACE.md, i8: editions, and the refusals in their order");
    EXPECT(galoxumi_put_right_in(BYTES("\"\\e\""), 11, out, 64, r, 8).records == 0);
    EXPECT(galoxumi_put_right_in(BYTES("\"\\e\""), 10, out, 64, r, 8).records == 1);
    out[0] = 0xA5;
    m = galoxumi_put_right_in(BYTES("a\xE2\x82" "b"), 12, out, 0, r, 0);
    EXPECT(answers(m.answer, 1, 1) && m.answer.length == 2 && m.records == 0);
    EXPECT(answers(galoxumi_put_right_in(BYTES("'"), 12, out, 0, r, 0).answer, 9, 12));
    EXPECT(answers(galoxumi_put_right_in(BYTES("'"), 11, out, 0, r, 0).answer, 4, 2));
    EXPECT(answers(galoxumi_put_right_in(BYTES("'"), 11, out, 2, r, 0).answer, 5, 1));
    EXPECT(out[0] == 0xA5);
}

/* A string that is not closed becomes a byte longer: up to the limit it is taken, and not beyond. */
static void longest_mended(void)
{
    size_t len = LIMIT;
    uint8_t *doc = malloc(len), *out = malloc(len);
    galoxumi_replaced r[1];
    if (!doc || !out) {
        printf("FAILED: no memory for the longest document put right: it needs 32 MB\n");
        broke++;
        return;
    }
    memset(doc, '.', len);
    doc[0] = '"';
    FROM("docs/TRACE.md, i8: 2 again where the result would pass the limit, with 16,777,216, before 4 and 5");
    EXPECT(answers(galoxumi_put_right(doc, len, out, 0, r, 0).answer, 2, 16777216));
    EXPECT(answers(galoxumi_put_right(doc, len - 1, out, len - 1, r, 0).answer, 4, 16777216));
    EXPECT(answers(galoxumi_put_right(doc, len - 1, out, len, r, 1).answer, 0, 16777216) && out[len - 1] == '"' && out[len - 2] == '.');
    free(doc);
    free(out);
}

/* ---- two reviewers on one table of marks */

/* The tokens of `a = 'b'`, an LF, and Eof; for the calls on marks only their number matters. */
static const galoxumi_token SEVEN[7] = {T(3, 0, 1, 1), T(32, 1, 2, 1), T(61, 2, 3, 1), T(32, 3, 4, 1),
                                        T(39, 4, 7, 1), T(10, 7, 8, 1), T(4, 8, 8, 2)};

/* Setting, asking, clearing and asking again, by one reviewer, with each byte as the token's entry: the reviewer's bit and
 * no other changes, and the entries beside it stay. */
static int ticks_off(size_t reviewer, size_t token)
{
    for (unsigned byte = 0; byte < 256; byte++) {
        uint8_t marks[8], old[8], bit = (uint8_t)(1u << reviewer);
        memset(old, 0xA5, sizeof old);
        old[token] = (uint8_t)byte;
        memcpy(marks, old, sizeof marks);
        int ok = answers(galoxumi_tick(SEVEN, 7, marks, 8, reviewer, token), 0, 0) && marks[token] == (byte | bit)
                 && answers(galoxumi_is_ticked(SEVEN, 7, marks, 8, reviewer, token), 0, 1)
                 && answers(galoxumi_is_ticked(SEVEN, 7, marks, 8, 1 - reviewer, token), 0, byte >> (1 - reviewer) & 1)
                 && answers(galoxumi_untick(SEVEN, 7, marks, 8, reviewer, token), 0, 0) && marks[token] == (byte & ~bit)
                 && answers(galoxumi_is_ticked(SEVEN, 7, marks, 8, reviewer, token), 0, 0);
        marks[token] = old[token];
        if (!ok || memcmp(marks, old, sizeof old) != 0) {
            return 0;
        }
    }
    return 1;
}

static void reviewers(void)
{
    FROM("crates/built_review/specs/Review.antt: bit 0 is reviewer 0's, bit 1 is reviewer 1's, the other six are unused");
    for (size_t token = 0; token < 7; token++) {
        EXPECT(ticks_off(0, token));
        EXPECT(ticks_off(1, token));
    }
    FROM("the same: the bits set over the records, and none of a longer table's rest");
    const uint8_t table[9] = {0x01, 0x02, 0x03, 0xFC, 0xFF, 0x00, 0x01, 0x01, 0x03};
    EXPECT(answers(galoxumi_ticks(SEVEN, 7, table, 7, 0), 0, 4));
    EXPECT(answers(galoxumi_ticks(SEVEN, 7, table, 9, 0), 0, 4));
    EXPECT(answers(galoxumi_ticks(SEVEN, 7, table, 9, 1), 0, 3));
    EXPECT(answers(galoxumi_ticks(SEVEN, 0, table, 0, 1), 0, 0));
    static const galoxumi_token many[300];
    uint8_t marks[300];
    for (size_t i = 0; i < 300; i++) {
        marks[i] = (uint8_t)(i % 4);
    }
    EXPECT(answers(galoxumi_ticks(many, 300, marks, 300, 0), 0, 150));
    EXPECT(answers(galoxumi_ticks(many, 299, marks, 300, 1), 0, 149));
}

/* Where setting and clearing are refused, the table is as it was, and asking is refused alike. */
static int unmarked(size_t records, size_t entries, size_t reviewer, size_t token, size_t refusal, size_t value)
{
    uint8_t marks[8], old[8];
    memset(old, 0xA5, sizeof old);
    memcpy(marks, old, sizeof marks);
    return answers(galoxumi_tick(SEVEN, records, marks, entries, reviewer, token), refusal, value)
           && answers(galoxumi_untick(SEVEN, records, marks, entries, reviewer, token), refusal, value)
           && answers(galoxumi_is_ticked(SEVEN, records, marks, entries, reviewer, token), refusal, value)
           && memcmp(marks, old, sizeof old) == 0;
}

static void reviewers_refused(void)
{
    uint8_t none[1] = {0};
    FROM("docs/RULES.md, the refusals: 11 with the number given, then 6, then 12, both with the number of records");
    EXPECT(unmarked(7, 7, 2, 0, 11, 2));
    EXPECT(unmarked(7, 6, SIZE_MAX, 7, 11, SIZE_MAX));
    EXPECT(unmarked(7, 7, 0, 7, 6, 7));
    EXPECT(unmarked(7, 8, 1, 7, 6, 7));
    EXPECT(unmarked(7, 6, 1, SIZE_MAX, 6, 7));
    EXPECT(unmarked(0, 0, 0, 0, 6, 0));
    EXPECT(unmarked(7, 6, 1, 0, 12, 7));
    EXPECT(unmarked(7, 0, 0, 6, 12, 7));
    FROM("docs/RULES.md, the refusals: counting 11, then 12");
    EXPECT(answers(galoxumi_ticks(SEVEN, 7, none, 0, 2), 11, 2));
    EXPECT(answers(galoxumi_ticks(SEVEN, 7, none, 1, 0), 12, 7));
    EXPECT(answers(galoxumi_ticks(SEVEN, 1, none, 0, 1), 12, 1));
}

/* ---- values */

/* What the tokens of a text, without Eof, are answered in an edition; 0 for the call that takes none. */
static galoxumi_answer judged(const char *text, size_t edition)
{
    galoxumi_token tokens[64];
    galoxumi_answer lexed = galoxumi_lex((const uint8_t *)text, strlen(text), tokens, 64);
    if (lexed.refusal != 0) {
        return lexed;
    }
    return edition == 0 ? galoxumi_is_value(tokens, lexed.value, 0, lexed.value - 1)
                        : galoxumi_is_value_in(tokens, lexed.value, edition, 0, lexed.value - 1);
}

/* The answer is 1 or 0 by TOML 1.0, with and without a named edition, and by TOML 1.1. */
static int is_judged(const char *text, size_t ten, size_t eleven)
{
    return answers(judged(text, 0), 0, ten) && answers(judged(text, 10), 0, ten) && answers(judged(text, 11), 0, eleven);
}

static void values(void)
{
    FROM("crates/built_values/specs/Values.antt: the rules of TOML 1.0.0 for arrays, and the scalar that is not judged");
    EXPECT(is_judged("[]", 1, 1) && is_judged("[\"-O2\", '-g',]", 1, 1) && is_judged("[ 1.5 , # c\n [\n] ]", 1, 1));
    EXPECT(is_judged("a.b", 1, 1) && is_judged("\"\\q\"", 1, 1) && is_judged("\"\"\"m\"\"\"", 1, 1));
    EXPECT(is_judged("[", 0, 0) && is_judged("[,]", 0, 0) && is_judged("[1 2]", 0, 0) && is_judged("[# c]", 0, 0));
    EXPECT(is_judged("", 0, 0) && is_judged(" 1", 0, 0) && is_judged("1\n", 0, 0) && is_judged("1979-05-27 07:32:00", 0, 0));
    FROM("the same: inline tables, whose rules differ");
    EXPECT(is_judged("{}", 1, 1) && is_judged("{ a . \"b\" = [\n1] , c = {} }", 1, 1));
    EXPECT(is_judged("{a=1,}", 0, 1) && is_judged("{\n}", 0, 1) && is_judged("{a=1 # c\n,b=2}", 0, 1));
    EXPECT(is_judged("{a}", 0, 0) && is_judged("{a=1 b=2}", 0, 0) && is_judged("{,}", 0, 0) && is_judged("{\"\"\"a\"\"\"=1}", 0, 0));
    FROM("crates/built_values/specs/Answers.antt: a run of the records, whatever stands around it");
    galoxumi_token tokens[9];
    EXPECT(answers(galoxumi_lex(BYTES("a = [1]\n"), tokens, 9), 0, 9));
    EXPECT(answers(galoxumi_is_value(tokens, 9, 4, 7), 0, 1) && answers(galoxumi_is_value(tokens, 9, 3, 7), 0, 0));
    EXPECT(answers(galoxumi_is_value(tokens, 9, 5, 6), 0, 1) && answers(galoxumi_is_value(tokens, 7, 4, 7), 0, 1));
}

static void values_refused(void)
{
    static galoxumi_token deep[130];
    for (size_t i = 0; i < 130; i++) {
        deep[i].kind = i < 65 ? GALOXUMI_LEFT_SQUARE_BRACKET : GALOXUMI_RIGHT_SQUARE_BRACKET;
    }
    FROM("docs/RULES.md, the refusals: 6 with the number of records, then 9 with the edition's, then 10 with 64");
    EXPECT(answers(galoxumi_is_value(deep, 130, 0, 131), 6, 130) && answers(galoxumi_is_value(deep, 130, 2, 1), 6, 130));
    EXPECT(answers(galoxumi_is_value_in(deep, 130, 12, SIZE_MAX, SIZE_MAX), 6, 130));
    EXPECT(answers(galoxumi_is_value_in(deep, 130, 12, 0, 130), 9, 12) && answers(galoxumi_is_value_in(deep, 130, 0, 1, 1), 9, 0));
    EXPECT(answers(galoxumi_is_value(deep, 130, 0, 130), GALOXUMI_TOO_DEEP, GALOXUMI_DEPTH));
    EXPECT(answers(galoxumi_is_value_in(deep, 130, 11, 0, 65), 10, 64));
    EXPECT(answers(galoxumi_is_value(deep, 130, 1, 129), 0, 1) && answers(galoxumi_is_value(deep, 130, 1, 130), 0, 0));
    EXPECT(answers(galoxumi_is_value(NULL, 0, 0, 0), 0, 0) && answers(galoxumi_is_value(NULL, 0, 0, 1), 6, 0));
}

static void first_broken(void)
{
    FROM("crates/built_broken/specs/Broken.antt: the first token with an error, and its first error, as a decode has it");
    EXPECT(breaks_nowhere(galoxumi_first_broken(BYTES("a = \"b\" # \xC3\xA9\n")), 0, 0, 0));
    EXPECT(breaks(galoxumi_first_broken(BYTES("a = 'b'\nc = \"\\q\" 'd")), (galoxumi_token)T(34, 12, 16, 2), (galoxumi_error)R(8, 2, 2)));
    EXPECT(breaks(galoxumi_first_broken(BYTES("\"\x01")), (galoxumi_token)T(34, 0, 2, 1), (galoxumi_error)R(6, 2, 2)));
    EXPECT(breaks(galoxumi_first_broken(BYTES("\xEF\xBB\xBF'''a\r'''")), (galoxumi_token)T(1, 3, 11, 1), (galoxumi_error)R(4, 5, 5)));
    FROM("docs/RULES.md, the refusals: 1 at the first token that is not UTF-8, unless a broken one comes before it");
    EXPECT(breaks_nowhere(galoxumi_first_broken(BYTES("a = \"\xE2\x82\"")), 1, 5, 2));
    EXPECT(breaks_nowhere(galoxumi_first_broken(BYTES("# \xE2\x82\n'")), 1, 2, 2));
    EXPECT(breaks_nowhere(galoxumi_first_broken(BYTES("# \xE2\x82")), 1, 2, 0));
    EXPECT(breaks(galoxumi_first_broken(BYTES("' \n\xFF")), (galoxumi_token)T(39, 0, 2, 1), (galoxumi_error)R(1, 2, 2)));
    FROM("docs/RULES.md, the refusals: 9 before 1, and the editions");
    EXPECT(breaks_nowhere(galoxumi_first_broken_in(BYTES("\xFF"), 12), 9, 12, 0));
    EXPECT(breaks_nowhere(galoxumi_first_broken_in(BYTES("\"\\e\""), 11), 0, 0, 0));
    EXPECT(breaks(galoxumi_first_broken_in(BYTES("\"\\e\""), 10), (galoxumi_token)T(34, 0, 4, 1), (galoxumi_error)R(8, 2, 2)));
}

/* The totals after `doc`, from totals that are all `each`, where the answer is as told. */
static galoxumi_totals tallied(const uint8_t *doc, size_t len, uint64_t each, size_t refusal, size_t value)
{
    galoxumi_totals before;
    uint64_t all[33];
    for (size_t i = 0; i < 33; i++)
        all[i] = each;
    memcpy(&before, all, sizeof before);
    galoxumi_tallied t = galoxumi_tally(doc, len, &before);
    EXPECT(answers(t.answer, refusal, value));
    EXPECT(memcmp(&before, all, sizeof before) == 0);
    return t.totals;
}

/* The sum of all totals. */
static uint64_t sum(galoxumi_totals t)
{
    uint64_t all[33], n = 0;
    memcpy(all, &t, sizeof all);
    for (size_t i = 0; i < 33; i++)
        n += all[i];
    return n;
}

static void figures(void)
{
    FROM("crates/built_figures/specs/Figures.antt: tokens of each kind, errors of each number, the refused: 33 numbers");
    EXPECT(sizeof(galoxumi_totals) == 33 * sizeof(uint64_t));
    galoxumi_totals t = tallied(BYTES("a = \"\\q\\q\"\n"), 0, 0, 0);
    EXPECT(t.tokens[14] == 1 && t.tokens[7] == 2 && t.tokens[1] == 1 && t.tokens[11] == 1 && t.tokens[9] == 1 && t.tokens[15] == 1);
    EXPECT(t.errors[GALOXUMI_MISSING_ESCAPE - 1] == 2 && sum(t) == 9);
    t = tallied(BYTES("'''\x01"), 5, 0, 0);
    EXPECT(t.tokens[12] == 6 && t.tokens[15] == 6 && t.errors[2] == 6 && t.errors[4] == 6 && sum(t) == 33 * 5 + 4);
    FROM("the same: strings are read as TOML 1.0, and an atom is no string");
    EXPECT(tallied(BYTES("\"\\e\""), 0, 0, 0).errors[7] == 1 && sum(tallied(BYTES("a\x01"), 0, 0, 0)) == 2);
    t = tallied(NULL, 0, 0, 0, 0);
    EXPECT(t.tokens[15] == 1 && sum(t) == 1);
}

static void figures_refused(void)
{
    static uint8_t dots[65537];
    memset(dots, '.', sizeof dots);
    FROM("docs/RULES.md, the refusals: 2 with 65,536, then 1, each counted by its number alone");
    EXPECT(tallied(dots, 65536, 0, 0, 0).tokens[0] == 65536);
    galoxumi_totals t = tallied(dots, 65537, 3, 2, GALOXUMI_MOST_TALLIED);
    EXPECT(t.too_long == 4 && sum(t) == 33 * 3 + 1);
    dots[0] = 0xFF;
    EXPECT(tallied(dots, 65537, 0, 2, GALOXUMI_MOST_TALLIED).too_long == 1);
    t = tallied(BYTES("ab\xFF"), 0, 1, 2);
    EXPECT(t.not_utf8 == 1 && sum(t) == 1);
    FROM("docs/RULES.md, the refusals: 13 where a total would pass 64 bits, also a count of refused documents; all as before");
    EXPECT(tallied(BYTES("."), UINT64_MAX - 1, 0, 0).tokens[0] == UINT64_MAX);
    EXPECT(tallied(BYTES(".."), UINT64_MAX - 1, 13, SIZE_MAX).tokens[15] == UINT64_MAX - 1);
    EXPECT(tallied(BYTES(""), UINT64_MAX, 13, SIZE_MAX).tokens[0] == UINT64_MAX);
    EXPECT(tallied(BYTES("\xFF"), UINT64_MAX, GALOXUMI_TOTAL_FULL, SIZE_MAX).not_utf8 == UINT64_MAX);
    EXPECT(tallied(dots, 65537, UINT64_MAX, 13, SIZE_MAX).too_long == UINT64_MAX);
    dots[0] = '.';
    EXPECT(tallied(dots, 65536, UINT64_MAX - 65536, 0, 0).tokens[0] == UINT64_MAX);
    EXPECT(tallied(dots, 65536, UINT64_MAX - 65535, 13, SIZE_MAX).tokens[0] == UINT64_MAX - 65535);
}

/* ---- documents in parts */

/* Hands a part in and goes on from the state that comes back: how many tokens it gives, where it answers. */
static size_t fed(galoxumi_parts *state, const uint8_t *part, size_t len, galoxumi_token *tokens, size_t room, size_t refusal, size_t value)
{
    galoxumi_parts before = *state;
    galoxumi_fed f = galoxumi_parts_feed(&before, part, len, tokens, room);
    EXPECT(answers(f.answer, refusal, value) && memcmp(&before, state, sizeof before) == 0);
    *state = f.state;
    return f.answer.value;
}

/* The same of the closing word. */
static size_t shut(galoxumi_parts *state, galoxumi_token *tokens, size_t room, size_t refusal, size_t value)
{
    galoxumi_fed f = galoxumi_parts_close(state, tokens, room);
    EXPECT(answers(f.answer, refusal, value));
    *state = f.state;
    return f.answer.value;
}

/* In three parts, with every two cuts: in all the tokens of whole lexing. */
static int cut_anywhere(const uint8_t *doc, size_t len)
{
    galoxumi_token whole[64], given[64];
    size_t count = galoxumi_lex(doc, len, whole, 64).value;
    for (size_t second = 0; second <= len; second++) {
        for (size_t first = 0; first <= second; first++) {
            galoxumi_parts state = galoxumi_parts_start();
            size_t places[4] = {0, first, second, len}, n = 0;
            memset(given, 0xA5, sizeof given);
            for (size_t i = 0; i < 4; i++) {
                galoxumi_fed f = i < 3 ? galoxumi_parts_feed(&state, doc + places[i], places[i + 1] - places[i], given + n, 64 - n)
                                       : galoxumi_parts_close(&state, given + n, 64 - n);
                if (f.answer.refusal != GALOXUMI_ANSWERED)
                    return 0;
                n += f.answer.value;
                state = f.state;
            }
            if (n != count || memcmp(given, whole, n * sizeof *whole) != 0)
                return 0;
        }
    }
    return 1;
}

static void parts(void)
{
    galoxumi_token t[4];
    galoxumi_parts state = galoxumi_parts_start();
    FROM("crates/built_parts/specs/Feeding.antt: nothing is in progress, on line 1; ten numbers");
    EXPECT(sizeof state == 10 * sizeof(size_t) && state.mode == 0 && state.at == 0 && state.line == 1 && state.left == 0 && state.ended == 0);
    FROM("docs/TRACE.md, c2: as soon as all further bytes would leave it the same, and not sooner");
    EXPECT(fed(&state, BYTES("a"), t, 4, 0, 0) == 0);
    EXPECT(fed(&state, BYTES(" ="), t, 4, 0, 3) == 3 && is_token(t[0], 3, 0, 1, 1) && is_token(t[2], 61, 2, 3, 1));
    EXPECT(fed(&state, BYTES("\"\""), t, 4, 0, 0) == 0);
    EXPECT(fed(&state, BYTES("\n"), t, 4, 0, 2) == 2 && is_token(t[0], 34, 3, 5, 1) && is_token(t[1], 10, 5, 6, 1));
    EXPECT(fed(&state, BYTES("\r"), t, 4, 0, 0) == 0);
    EXPECT(fed(&state, BYTES("\n'b'"), t, 4, 0, 2) == 2 && is_token(t[0], 10, 6, 8, 2) && is_token(t[1], 39, 8, 11, 3));
    EXPECT(fed(&state, NULL, 0, NULL, 0, 0, 0) == 0);
    FROM("docs/TRACE.md, c3: after the closing word, the tokens of the joined bytes");
    EXPECT(fed(&state, BYTES("#c"), t, 4, 0, 0) == 0);
    EXPECT(shut(&state, t, 2, 0, 2) == 2 && is_token(t[0], 35, 11, 13, 3) && is_token(t[1], 4, 13, 13, 3));
    EXPECT(cut_anywhere(BYTES("")) && cut_anywhere(BYTES("\xEF\xBB\xBF" "a")) && cut_anywhere(BYTES("\xEF\xBB\xBB")));
    EXPECT(cut_anywhere(BYTES("a = \"b\\\"\xC3\xA9\"\r\n# \xF0\x9F\x98\x80\n")) && cut_anywhere(BYTES("'''a\n'''''''\r\r\n\"\"\"\\\"\"\"\n\"\"\"")));
}

static void parts_refused(void)
{
    galoxumi_token t[4], old[4];
    memset(old, 0xA5, sizeof old);
    memcpy(t, old, sizeof old);
    FROM("docs/TRACE.md, c7: 3 with the records that the call needs, and the state as before; the same call with enough goes on");
    galoxumi_parts state = galoxumi_parts_start(), before;
    fed(&state, BYTES("a"), t, 0, 0, 0);
    before = state;
    fed(&state, BYTES(" ="), t, 2, 3, 3);
    EXPECT(memcmp(&state, &before, sizeof state) == 0 && memcmp(t, old, sizeof old) == 0);
    fed(&state, BYTES(" ="), t, 3, 0, 3);
    before = state;
    shut(&state, t, 0, 3, 1);
    EXPECT(memcmp(&state, &before, sizeof state) == 0);
    FROM("docs/TRACE.md, c6 and c5: 1 at the first part after which nothing could mend it, with its two numbers, before 3; then 8 with 0");
    before = state;
    fed(&state, BYTES("\xE2\x82"), t, 0, 0, 0);
    galoxumi_fed f = galoxumi_parts_feed(&state, BYTES(".\xFF"), t, 0);
    EXPECT(answers(f.answer, GALOXUMI_NOT_UTF8, 3) && f.answer.length == 2 && f.state.ended == 1);
    f = galoxumi_parts_feed(&f.state, BYTES("\xFF"), t, 0);
    EXPECT(answers(f.answer, GALOXUMI_AFTER_END, 0) && answers(galoxumi_parts_close(&f.state, t, 0).answer, 8, 0));
    f = galoxumi_parts_close(&state, t, 0);
    EXPECT(answers(f.answer, 1, 3) && f.answer.length == 0 && answers(galoxumi_parts_close(&f.state, t, 4).answer, 8, 0));
    state = before;
    shut(&state, t, 4, 0, 1);
    fed(&state, BYTES(""), t, 4, 8, 0);
    shut(&state, t, 0, 8, 0);
    FROM("include/galoxumi.h: a state made by hand; crates/built_parts/specs/Feeding.antt: a line past the place plus 1");
    before = galoxumi_parts_start();
    state = before;
    state.mode = 28;
    fed(&state, BYTES("\xFF"), t, 0, 8, 0);
    state = before;
    state.mode = SIZE_MAX;
    shut(&state, t, 0, 8, 0);
    state = before;
    state.ended = 7;
    shut(&state, t, 0, 8, 0);
    state = before;
    state.line = 2;
    fed(&state, BYTES("a"), t, 0, 8, 0);
    state = (galoxumi_parts){3, 0, 0, 9, 5, 0, 0, 0, 9, 0};
    EXPECT(fed(&state, BYTES(".\n"), t, 4, 0, 2) == 2 && is_token(t[0], 46, 9, 10, 5) && is_token(t[1], 10, 10, 11, 5));
    EXPECT(shut(&state, t, 1, 0, 1) == 1 && is_token(t[0], 4, 11, 11, 6));
    state = (galoxumi_parts){6, 1, 1, 2, 1, 1, 0x80, 256, 1, 0};
    EXPECT(fed(&state, BYTES("\xFF"), t, 4, 0, 0) == 0);
    state = (galoxumi_parts){6, 1, 1, 2, 1, 1, 0x80, 0xFE, 1, 0};
    fed(&state, BYTES("\xFF"), t, 4, 1, 1);
    FROM("docs/RULES.md, the refusals: 2 before 1 and 3, with 16,777,216; 8 before it");
    state = (galoxumi_parts){3, 0, 1, LIMIT, 1, 0, 0, 0, LIMIT, 0};
    before = state;
    EXPECT(answers(galoxumi_parts_feed(&state, BYTES("\xFF"), t, 0).answer, 2, LIMIT));
    EXPECT(shut(&state, t, 1, 0, 1) == 1 && is_token(t[0], 4, LIMIT, LIMIT, 1));
    before.at = SIZE_MAX;
    before.ended = 0;
    shut(&before, t, 0, 2, LIMIT);
    fed(&before, BYTES("\xFF"), t, 0, 8, 0);
}

/* NULL stands for memory of no bytes, tokens, errors or marks, read or lent. */
static void nulls(void)
{
    FROM("include/galoxumi.h: a pointer may be NULL where the length after it is 0; docs/RULES.md: a document of no bytes is Eof");
    galoxumi_token one[1];
    EXPECT(answers(galoxumi_check_utf8(NULL, 0), 0, 0));
    EXPECT(answers(galoxumi_start(NULL, 0).answer, 0, 0));
    EXPECT(steps(galoxumi_step(NULL, 0, 0, 0, 1), (galoxumi_token)T(4, 0, 0, 1), (galoxumi_cursor){0, 1, 1}));
    EXPECT(answers(galoxumi_lex(NULL, 0, NULL, 0), 3, 1));
    EXPECT(answers(galoxumi_lex(NULL, 0, one, 1), 0, 1) && is_token(one[0], 4, 0, 0, 1));
    EXPECT(answers(galoxumi_check_span(NULL, 0, 0, 0), 0, 0) && is_part(galoxumi_text(NULL, 0, 0, 0), 0, 0));
    EXPECT(is_position(galoxumi_position(NULL, 0, 0), 0, 0, 1, 1));
    EXPECT(answers(galoxumi_decode(NULL, 0, 3, NULL, 0, NULL, 0).answer, 5, 1));
    EXPECT(answers(galoxumi_decode_in(BYTES("''"), 10, 39, NULL, 0, NULL, 0).answer, 0, 0));
    EXPECT(answers(galoxumi_decode(BYTES("'a'"), 39, NULL, 0, NULL, 0).answer, 4, 1));
    EXPECT(answers(galoxumi_write_value(NULL, 0, NULL, 0), 4, 2));
    EXPECT(breaks_nowhere(galoxumi_first_broken(NULL, 0), 0, 0, 0));
    EXPECT(answers(galoxumi_put_right(NULL, 0, NULL, 0, NULL, 0).answer, 0, 0));
    EXPECT(answers(galoxumi_tick(NULL, 0, NULL, 0, 0, 0), 6, 0) && answers(galoxumi_untick(NULL, 0, NULL, 0, 0, 0), 6, 0));
    EXPECT(answers(galoxumi_is_ticked(NULL, 0, NULL, 0, 0, 0), 6, 0) && answers(galoxumi_ticks(NULL, 0, NULL, 0, 0), 0, 0));
}

/* What the header says to lend is never too little, and its enums have the numbers of the calls. */
static void header(void)
{
    uint8_t out[32];
    galoxumi_token tokens[8];
    galoxumi_error errors[8];
    FROM("include/galoxumi.h: so much that no call finds it too little: dots, an escape of two bytes that gives three, 01");
    EXPECT(answers(galoxumi_lex(BYTES("...."), tokens, GALOXUMI_MOST_TOKENS(4)), 0, 5));
    EXPECT(answers(galoxumi_decode(BYTES("\\u\\u"), 34, out, GALOXUMI_MOST_BYTES(4), errors, GALOXUMI_MOST_ERRORS(4)).answer, 0, 6));
    EXPECT(galoxumi_decode(BYTES("\x01\x01"), 39, out, 4, errors, GALOXUMI_MOST_ERRORS(2)).errors == 4);
    EXPECT(answers(galoxumi_write_value(BYTES("\x01\x01"), out, GALOXUMI_MOST_WRITTEN(2)), 0, 14));
    galoxumi_replaced replaced[4];
    EXPECT(galoxumi_put_right(BYTES("'\x01\x01\x01"), out, GALOXUMI_MOST_MENDED(4), replaced, GALOXUMI_MOST_REPLACED(4)).records == 4);
    FROM("docs/RULES.md, the numbers of the errors and of the refusals");
    EXPECT(galoxumi_decode(BYTES("\"\\q\""), GALOXUMI_BASIC_STRING, out, 8, errors, 8).errors == 1);
    EXPECT(errors[0].number == GALOXUMI_MISSING_ESCAPE);
    EXPECT(answers(galoxumi_decode_in(BYTES("\"\\e\""), GALOXUMI_TOML_11, GALOXUMI_BASIC_STRING, out, 8, errors, 8).answer, 0, 1));
    EXPECT(answers(galoxumi_description(5).answer, GALOXUMI_NO_KIND, 5) && answers(galoxumi_ticks(NULL, 0, NULL, 0, 2), GALOXUMI_NO_REVIEWER, 2));
}

static void long_documents(void)
{
    size_t len = LIMIT;
    FROM("docs/RULES.md, the refusals: the header has the same number");
    EXPECT(GALOXUMI_LIMIT == len);
    struct memory m = {malloc(len + 1), malloc(len + len / 2), malloc((len + 2) * sizeof(galoxumi_error)),
                       malloc((len + 2) * sizeof(galoxumi_token))};
    if (!m.doc || !m.out || !m.errors || !m.tokens) {
        printf("FAILED: no memory for the long documents: they need 1 GB\n");
        broke++;
        return;
    }
    at_the_limit(m, len);
    past_the_limit(m, len + 1);
    free(m.doc);
    free(m.out);
    free(m.errors);
    free(m.tokens);
}

int main(void)
{
    RUN(lexing);
    RUN(lines_of_long_strings);
    RUN(stepping);
    RUN(decoding);
    RUN(decoding_refused);
    RUN(nulls);
    RUN(header);
    RUN(writing);
    RUN(places);
    RUN(pieces);
    RUN(kinds);
    RUN(words_of_errors);
    RUN(editions);
    RUN(faults);
    RUN(longest_text);
    RUN(mending);
    RUN(longest_mended);
    RUN(reviewers);
    RUN(reviewers_refused);
    RUN(values);
    RUN(values_refused);
    RUN(first_broken);
    RUN(figures);
    RUN(figures_refused);
    RUN(parts);
    RUN(parts_refused);
    RUN(long_documents);
    printf("C: %d expectations held\n", held);
    printf("C: %d passed, %d failed\n", passed, failed);
    return failed != 0;
}
