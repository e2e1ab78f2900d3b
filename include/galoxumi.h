/* TOML tokens and strings: the functions of libgaloxumi.a (`make archive`).
 *
 * Every function returns, for all arguments, and reads and writes only what it is lent: that is proved.
 * The caller sees to the rest: a pointer points to as many elements as the length after it says, and may be NULL where
 * that length is 0; lent memory overlaps nothing else that is read or lent.
 *
 * An answer has `refusal`, which is GALOXUMI_ANSWERED, 0, where the call answered, and else says why it did not (`enum
 * galoxumi_refusal` below, with the value that is returned); `value`; and `length`, which is 0 except with refusal 1.
 *
 * With refusal 1 `length` is the length, 1 to 3, of the faulty sequence after the valid prefix: of the bytes that, with
 * what follows them, begin no character; or 0 where the bytes end inside a character, which further bytes could mend.
 * It is what Rust's core::str::Utf8Error gives as error_len, with 0 for none.
 *
 * A refused call has written nothing, and its other results are 0. Where several refusals fit, the
 * order beside the call says which is given.
 */
#ifndef GALOXUMI_TOML_H
#define GALOXUMI_TOML_H

#include <stddef.h>
#include <stdint.h>

#ifdef __cplusplus
extern "C" {
#endif

/* The version of this header, and of the archive that it is installed with. */
#define GALOXUMI_VERSION "1.0.0"
#define GALOXUMI_VERSION_MAJOR 1
#define GALOXUMI_VERSION_MINOR 0
#define GALOXUMI_VERSION_PATCH 0

/* The most bytes that a document, a text to decode or a value to write may have. */
#define GALOXUMI_LIMIT ((size_t)16777216)

/* The most brackets of a value that may be open at once. */
#define GALOXUMI_DEPTH 64

/* How much to lend, by the bytes of what is read, so that no call finds it too little, and none counts first: tokens to
 * galoxumi_lex; output and errors to a decode; output to galoxumi_write_value; output and records to galoxumi_put_right; tokens
 * to galoxumi_parts_feed, and to galoxumi_parts_close. */
#define GALOXUMI_MOST_TOKENS(doc_len) ((doc_len) + 1)
#define GALOXUMI_MOST_BYTES(text_len) ((text_len) + (text_len) / 2)
#define GALOXUMI_MOST_ERRORS(text_len) ((text_len) + 2)
#define GALOXUMI_MOST_WRITTEN(value_len) (6 * (value_len) + 2)
#define GALOXUMI_MOST_MENDED(doc_len) (6 * (doc_len))
#define GALOXUMI_MOST_REPLACED(doc_len) (doc_len)
#define GALOXUMI_MOST_OF_PART(part_len) ((part_len) + 1)
#define GALOXUMI_MOST_AT_CLOSE 2

/* Why a call did not answer. Beside each: when it is given, and the value returned with it. */
enum galoxumi_refusal {
    GALOXUMI_ANSWERED = 0,     /* it answered; tokens, bytes, ticks, 1 or 0: see the call */
    GALOXUMI_NOT_UTF8 = 1,     /* the bytes are not UTF-8; the length of the longest valid prefix */
    /* More than GALOXUMI_LIMIT bytes, read or, in galoxumi_put_right, to be written; GALOXUMI_LIMIT. In galoxumi_tally: more than
     * GALOXUMI_MOST_TALLIED; that number. */
    GALOXUMI_TOO_LONG = 2,
    GALOXUMI_FEW_TOKENS = 3,   /* fewer tokens are lent than the call gives, Eof counted; the tokens needed */
    GALOXUMI_SHORT_OUTPUT = 4, /* the output is shorter than what is to be written; the bytes needed */
    GALOXUMI_FEW_ERRORS = 5,   /* fewer errors are lent than there are; the errors needed */
    /* A place beyond the document; for a cursor also a line past its place plus 1; for a span also a start after the end, or
     * an end at a byte 80 to BF; the document's length. In the calls on marks: a token number not below the number of
     * tokens; in those on values: a run that passes the tokens or starts after its end; the number of tokens. */
    GALOXUMI_OUT_OF_PLACE = 6,
    GALOXUMI_NO_KIND = 7,      /* a number that is no kind that the call knows, or the number of no error; that number */
    GALOXUMI_AFTER_END = 8,    /* a part, or the closing word, after the end; 0 */
    GALOXUMI_NO_EDITION = 9,   /* a number that is no edition of TOML; that number */
    GALOXUMI_TOO_DEEP = 10,    /* more than GALOXUMI_DEPTH brackets are open at once; GALOXUMI_DEPTH */
    GALOXUMI_NO_REVIEWER = 11, /* a number that is no reviewer's: neither 0 nor 1; that number */
    GALOXUMI_FEW_MARKS = 12,   /* the table of marks is shorter than the tokens; the number of tokens */
    GALOXUMI_TOTAL_FULL = 13   /* a total would pass 64 bits; 18446744073709551615 */
};

/* The edition of TOML that a text is read as. */
enum galoxumi_edition {
    GALOXUMI_TOML_10 = 10,
    GALOXUMI_TOML_11 = 11
};

/* Kinds of token. Those of strings, and GALOXUMI_ATOM for an unquoted key, are the kinds of a decode. */
enum galoxumi_kind {
    GALOXUMI_DOT = 46,
    GALOXUMI_EQUALS = 61,
    GALOXUMI_COMMA = 44,
    GALOXUMI_LEFT_SQUARE_BRACKET = 91,
    GALOXUMI_RIGHT_SQUARE_BRACKET = 93,
    GALOXUMI_LEFT_CURLY_BRACKET = 123,
    GALOXUMI_RIGHT_CURLY_BRACKET = 125,
    GALOXUMI_WHITESPACE = 32,
    GALOXUMI_COMMENT = 35,
    GALOXUMI_NEWLINE = 10,
    GALOXUMI_LITERAL_STRING = 39,
    GALOXUMI_BASIC_STRING = 34,
    GALOXUMI_ML_LITERAL_STRING = 1,
    GALOXUMI_ML_BASIC_STRING = 2,
    GALOXUMI_ATOM = 3,
    GALOXUMI_EOF = 4
};

/* Which refusal, 0 for none; the value returned with it; and with refusal 1 the length of the faulty sequence. */
typedef struct {
    size_t refusal;
    size_t value;
    size_t length;
} galoxumi_answer;

/* Where the next token begins, whether Eof was given (0 or 1), and the line of that place, from 1 on. */
typedef struct {
    size_t place;
    size_t ended;
    size_t line;
} galoxumi_cursor;

/* A token, as a call writes it into lent memory. */
typedef struct {
    size_t kind; /* enum galoxumi_kind */
    size_t start;
    size_t end;  /* the place after its last byte */
    size_t line; /* the line of its first byte: 1 plus the LFs before it */
} galoxumi_token;

/* What is wrong with a text that is decoded. */
enum galoxumi_error_number {
    GALOXUMI_LITERAL_MISSING_QUOTE = 1,     /* a quote mark is missing */
    GALOXUMI_LITERAL_INVALID = 2,           /* a byte is not allowed */
    GALOXUMI_ML_LITERAL_MISSING_QUOTE = 3,  /* a quote mark is missing */
    GALOXUMI_LONE_CR = 4,                   /* a CR without LF in a multi-line string */
    GALOXUMI_ML_LITERAL_INVALID = 5,        /* a byte is not allowed */
    GALOXUMI_BASIC_MISSING_QUOTE = 6,       /* a quote mark is missing */
    GALOXUMI_BASIC_INVALID = 7,             /* bytes are not allowed */
    GALOXUMI_MISSING_ESCAPE = 8,            /* the escaped value is missing */
    GALOXUMI_FEW_DIGITS = 9,                /* too few hex digits */
    GALOXUMI_NOT_SCALAR = 10,               /* not a Unicode scalar value */
    GALOXUMI_ML_BASIC_MISSING_QUOTE = 11,   /* a quote mark is missing */
    GALOXUMI_ML_BASIC_INVALID = 12,         /* bytes are not allowed */
    GALOXUMI_MISSING_NEWLINE = 13,          /* a line-ending backslash without its newline */
    GALOXUMI_EMPTY_KEY = 14,                /* a key is empty */
    GALOXUMI_KEY_INVALID = 15               /* a byte is not allowed in a key */
};

/* An error, as a decode writes it into lent memory; its words are galoxumi_error_words's. */
typedef struct {
    size_t number; /* enum galoxumi_error_number */
    size_t start;  /* from the start of the text */
    size_t end;    /* the place after its last byte */
} galoxumi_error;

/* Whether all of doc is UTF-8. Refusals 2, 1; value 0 where it is. */
galoxumi_answer galoxumi_check_utf8(const uint8_t *doc, size_t doc_len);

/* The starting cursor: past a byte order mark, not ended, on line 1. Refusal 2, with a cursor of zeros. */
typedef struct {
    galoxumi_answer answer;
    galoxumi_cursor cursor;
} galoxumi_started;

galoxumi_started galoxumi_start(const uint8_t *doc, size_t doc_len);

/* The token at a cursor, whose numbers the caller may choose freely; `ended` is 0, or anything else for an ended
 * cursor. The token bears `line` as it is given, right or wrong, and the next cursor's line is counted on from it.
 * found is 1 with a token and the next cursor. It is 0 where an ended cursor stands at the document's end; all fields
 * after found are then 0. A byte order mark is not skipped, and UTF-8 is not tested. Refusals 2, 6. */
typedef struct {
    galoxumi_answer answer;
    size_t found;
    galoxumi_token token;
    galoxumi_cursor cursor;
} galoxumi_stepped;

galoxumi_stepped galoxumi_step(const uint8_t *doc, size_t doc_len, size_t place, size_t ended, size_t line);

/* All tokens, Eof last, into the lent ones from the front; those after them keep their contents. value is the count of
 * tokens. Refusals 2, 1, 3. Where more are lent than the document has bytes, they are not counted first, which saves a
 * pass. */
galoxumi_answer galoxumi_lex(const uint8_t *doc, size_t doc_len, galoxumi_token *tokens, size_t tokens_len);

/* Whether start..end lies in the document and neither end is inside a character. Refusals 2, 6. */
galoxumi_answer galoxumi_check_span(const uint8_t *doc, size_t doc_len, size_t start, size_t end);

/* The text of a span, as its start and length in doc; 0 and 0 where galoxumi_check_span refuses it. */
typedef struct {
    size_t start;
    size_t length;
} galoxumi_part;

galoxumi_part galoxumi_text(const uint8_t *doc, size_t doc_len, size_t start, size_t end);

/* Line (1 plus the LFs before the offset) and column (1 plus the characters that begin on that line before the
 * offset: each byte but 80 to BF, and not a byte order mark at byte 0). UTF-8 is not tested. Refusals 2, 6. */
typedef struct {
    galoxumi_answer answer;
    size_t line;
    size_t column;
} galoxumi_positioned;

galoxumi_positioned galoxumi_position(const uint8_t *doc, size_t doc_len, size_t offset);

/* The bytes of a text of a kind (a string's, or GALOXUMI_ATOM for a key) into output from its front, and its errors into
 * the lent ones from the front: opening mark, closing mark, then the body from left to right. The rest keeps its contents.
 * value is the count of bytes, errors the count of errors. Refusals 2, 1, 7, 4, 5. Where the output is one and a half times
 * as long as the text, and two more errors are lent than it has bytes, nothing is counted first, which saves a pass. */
typedef struct {
    galoxumi_answer answer;
    size_t errors;
} galoxumi_decoded;

galoxumi_decoded galoxumi_decode(const uint8_t *text, size_t text_len, size_t kind, uint8_t *output, size_t output_len,
                                 galoxumi_error *errors, size_t errors_len);

/* The same in the edition of TOML that a number names (enum galoxumi_edition); galoxumi_decode reads 10.
 * Edition 11 adds \e (U+001B) and \x with two hex digits (U+0000 to U+00FF) to the basic kinds: error 8 where the
 * escape is neither those nor 1.0's, and 9 for an \x with fewer digits. Refusals 2, 1, 7, 9, 4, 5. */
galoxumi_decoded galoxumi_decode_in(const uint8_t *text, size_t text_len, size_t edition, size_t kind, uint8_t *output,
                                    size_t output_len, galoxumi_error *errors, size_t errors_len);

/* What is still to be read of a text's body: its bytes from at to end, as far as the text has them. dropping is 1 within a
 * line-ending escape, which drops blanks, else 0; as an argument anything but 0 is taken for 1. */
typedef struct {
    size_t at;
    size_t end;
    size_t dropping;
} galoxumi_body;

/* A text opened, to be decoded piece by piece without lent memory: what is wrong with its opening mark and with its closing
 * one (number 0 where nothing is), and the body between them. Neither UTF-8 nor the length is tested: galoxumi_check_utf8
 * does that. Read to the end by galoxumi_piece, what the pieces give is what galoxumi_decode_in writes, and their errors,
 * after those of the marks, are its errors. Refusals 7, 9. */
typedef struct {
    galoxumi_answer answer;
    galoxumi_error opening;
    galoxumi_error closing;
    galoxumi_body body;
} galoxumi_opened;

galoxumi_opened galoxumi_open_text(const uint8_t *text, size_t text_len, size_t edition, size_t kind);

/* What a piece gives: nothing, the bytes of the text that it takes, or a character. */
enum galoxumi_given {
    GALOXUMI_GIVES_NOTHING = 0,
    GALOXUMI_GIVES_BYTES = 1,
    GALOXUMI_GIVES_CHARACTER = 2
};

/* The first piece of a body, which may be made of any numbers, and the body after it: the piece takes the `take` bytes of the
 * text from at on; scalar is the character that it gives, 0 where it gives none; error's number is 0 where there is none.
 * found is 0 where no byte is left, and with it all that follows it. Refusals 7, 9. */
typedef struct {
    galoxumi_answer answer;
    size_t found;
    size_t take;
    size_t given;
    size_t scalar;
    galoxumi_error error;
    galoxumi_body body;
} galoxumi_pieced;

galoxumi_pieced galoxumi_piece(const uint8_t *text, size_t text_len, size_t edition, size_t kind, size_t at, size_t end,
                               size_t dropping);

/* The shortest text that TOML 1.0.0 reads as a literal or basic string with the value, into output from its front; the
 * rest keeps its contents. It is the literal string where there is one: where the value has no apostrophe and, tabs apart,
 * no control byte (00 to 1F and 7F). In the basic string a quotation mark, a backslash, 08, 0A, 0C and 0D are written as a
 * backslash and a letter or mark, the other control bytes but tabs as \u and four digits in capitals; all else stands for
 * itself. value is the count of bytes. The text may be longer than GALOXUMI_LIMIT; it has at most 6 * value_len + 2 bytes,
 * and where so many are lent nothing is counted first, which saves a pass. Refusals 2, 1, 4; with 4 the text's length. */
galoxumi_answer galoxumi_write_value(const uint8_t *value, size_t value_len, uint8_t *output, size_t output_len);

/* The first string token of the document, of TOML 1.0, that decodes with an error, and the first of its errors, as a decode of the
 * token's text gives them: opening mark, closing mark, then the body; the error's places are counted from the token's start.
 * found is 1 with them. It is 0 where no string is broken; all fields after found are then 0. Nothing is lent. The tokens are gone
 * over in turn, and no byte is read beyond the one after the token that decides: what is not UTF-8 after a broken token is not
 * seen. Refusals 2; then 1 at the first token that is not UTF-8, unless a broken one comes before it, with the whole document's
 * value and length. */
typedef struct {
    galoxumi_answer answer;
    size_t found;
    galoxumi_token token;
    galoxumi_error error;
} galoxumi_broken;

galoxumi_broken galoxumi_first_broken(const uint8_t *doc, size_t doc_len);

/* The same in the edition of TOML that a number names (enum galoxumi_edition). Refusals 2, 9, then 1 as above. */
galoxumi_broken galoxumi_first_broken_in(const uint8_t *doc, size_t doc_len, size_t edition);
/* An error of a string that was put right: where the old token stands in the document, and the error as a decode has it. */
typedef struct {
    size_t token_start;
    size_t token_end;
    galoxumi_error error;
} galoxumi_replaced;

/* The document, into output from its front, with each string token that reports an error replaced by a basic string of the
 * bytes that it decodes to: quotation marks and backslashes after a backslash, 00 to 1F and 7F as \u and four digits in capitals,
 * all else as it is; a space goes first where the output's last byte before it is a quotation mark. For each error a record into
 * the lent ones from the front. The rest keeps its contents. value is the count of bytes, records the count of records.
 * The result is UTF-8 and lexed token by token as the document is, each space put in a token more; none of its strings has an
 * error, each replacement decodes to the bytes that the old token gave, and put right again it stays as it is.
 * Refusals 2, 1, then 2 again where the result would have more than GALOXUMI_LIMIT bytes, 4, 5. Where six times as many bytes are
 * lent as the document has, and as many records, and that many bytes do not pass the limit, nothing is counted first, which
 * saves a pass. */
typedef struct {
    galoxumi_answer answer;
    size_t records;
} galoxumi_mended;

galoxumi_mended galoxumi_put_right(const uint8_t *doc, size_t doc_len, uint8_t *output, size_t output_len, galoxumi_replaced *records,
                                   size_t records_len);

/* The same in the edition of TOML that a number names (enum galoxumi_edition); galoxumi_put_right reads 10. Refusals 2, 1, 9, 2,
 * 4, 5. */
galoxumi_mended galoxumi_put_right_in(const uint8_t *doc, size_t doc_len, size_t edition, uint8_t *output, size_t output_len,
                                      galoxumi_replaced *records, size_t records_len);

/* The words for a kind: their length, and the words with zeros after them; all zero where refused. Refusal 7. */
typedef struct {
    galoxumi_answer answer;
    size_t length;
    uint8_t bytes[25];
} galoxumi_described;

galoxumi_described galoxumi_description(size_t kind);

/* The kind by which a token of this kind is decoded: the same for the four string kinds, else 0.
 * Refusal 7. */
typedef struct {
    galoxumi_answer answer;
    size_t encoding;
} galoxumi_encoded;

galoxumi_encoded galoxumi_encoding(size_t kind);

/* What a text of an error is. */
enum galoxumi_said {
    GALOXUMI_NOTHING = 0,    /* there is no such text */
    GALOXUMI_MESSAGE = 1,    /* what is wrong */
    GALOXUMI_LITERAL = 2,    /* a text that is expected at the error's place */
    GALOXUMI_DESCRIPTION = 3 /* words for what is expected there */
};

/* A text of the error that has a number, 1 to 15, in the edition of TOML that a number names, 10 or 11. which is 0 for
 * its message, and 1, 2 .. for the things that it expects, in their order. expected says how many these are, and said
 * what the text is: GALOXUMI_NOTHING where which is more than they are. Then the text's length, and the text with zeros
 * after it. The words are toml_parser's; only error 8 expects more in edition 11 than in 10. All is zero where refused.
 * Refusals 7, 9. */
typedef struct {
    galoxumi_answer answer;
    size_t expected;
    size_t said;
    size_t length;
    uint8_t bytes[43];
} galoxumi_words;

galoxumi_words galoxumi_error_words(size_t error, size_t edition, size_t which);

/* Two reviewers, 0 and 1, tick off the tokens of one document. Beside the tokens lies a lent table of marks, a byte for each
 * token and perhaps more: bit 0 is reviewer 0's, bit 1 is reviewer 1's, and the other six are unused. A token is named by
 * its number among the tokens, from 0 on; what the tokens hold does not matter, only how many there are. What a reviewer is
 * told depends only on the number of tokens, the table's length, and that reviewer's own calls and bits.
 *
 * galoxumi_tick sets the reviewer's bit of a token and galoxumi_untick clears it; every other bit of the table keeps its
 * value. value is 0. galoxumi_is_ticked asks for that bit: value is 1 where it is set, and 0 where it is not. Refusals of
 * all three: 11, 6, 12. */
galoxumi_answer galoxumi_tick(const galoxumi_token *tokens, size_t tokens_len, uint8_t *marks, size_t marks_len, size_t reviewer,
                              size_t token);
galoxumi_answer galoxumi_untick(const galoxumi_token *tokens, size_t tokens_len, uint8_t *marks, size_t marks_len, size_t reviewer,
                                size_t token);
galoxumi_answer galoxumi_is_ticked(const galoxumi_token *tokens, size_t tokens_len, const uint8_t *marks, size_t marks_len,
                                   size_t reviewer, size_t token);

/* How many of the reviewer's bits are set over the tokens, as value; entries after those of the tokens do not count.
 * Refusals 11, 12. */
galoxumi_answer galoxumi_ticks(const galoxumi_token *tokens, size_t tokens_len, const uint8_t *marks, size_t marks_len,
                               size_t reviewer);

/* Whether the tokens from start up to end, which is not included, are one value, by their kinds alone: a string token; a run
 * of GALOXUMI_ATOM and GALOXUMI_DOT tokens, which is not judged; an array; or an inline table, by TOML's rules for nesting,
 * commas, comments and newlines. value is 1 where they are, and 0 where they are not: also where anything stands before or
 * after the value. Each newline token is a newline, and a comment counts only with one after it. A date and a time with a
 * space between are no value here, and errors of strings do not matter. galoxumi_is_value reads TOML 1.0;
 * galoxumi_is_value_in takes an edition: in TOML 1.1 an inline table may hold newlines, comments and a last comma.
 * Refusals 6, 9 (only galoxumi_is_value_in), 10: the last exactly where in some first part of the run the opening brackets
 * pass the closing ones by more than GALOXUMI_DEPTH. */
galoxumi_answer galoxumi_is_value(const galoxumi_token *tokens, size_t tokens_len, size_t start, size_t end);
galoxumi_answer galoxumi_is_value_in(const galoxumi_token *tokens, size_t tokens_len, size_t edition, size_t start, size_t end);
/* The most bytes that a document may have to be tallied. */
#define GALOXUMI_MOST_TALLIED ((size_t)65536)

/* Totals over documents: the tokens of each kind, in the order . = , [ ] { } whitespace, comment, newline, literal, basic,
 * ml-literal and ml-basic string, atom, Eof; the errors of each number, error 1 first, over all string tokens, read as TOML
 * 1.0; and the documents refused with 1 and with 2. */
typedef struct {
    uint64_t tokens[16];
    uint64_t errors[15];
    uint64_t not_utf8;
    uint64_t too_long;
} galoxumi_totals;

typedef struct {
    galoxumi_answer answer;
    galoxumi_totals totals;
} galoxumi_tallied;

/* Adds a document to the totals handed in, which are only read: those afterwards come back. No memory is lent, and the document
 * is walked once after its check. value is 0. Refusals 13, 2, 1: with 2 and 1 the document is counted by that number, and adds
 * nothing else; with 13, given where any total would pass 64 bits, also a count of refused documents, the totals come back as
 * they were. In which order documents are added changes no total, as long as none is refused with 13. */
galoxumi_tallied galoxumi_tally(const uint8_t *doc, size_t doc_len, const galoxumi_totals *totals);

/* A document that comes in parts, cut anywhere. What was handed in so far is a state, which the caller keeps between two calls:
 * a struct of numbers, in which nothing of the parts is kept. It may be copied, stored and handed in again. The fields need not
 * be looked at. A state made by hand is answered too, as what its numbers say: `mode` is what is in progress, 0 to 27; `start` and
 * `first` are the place and the line of the token in progress, `at` and `line` those of the next byte; `left` is how many bytes of
 * the character in progress are still to come, 0 for none, and `low` and `high` are the bounds of the next of them, where a number
 * over 255 counts as 255; `valid` is the place up to which whole characters stand; `ended` is 0 until nothing more is taken. Another
 * number for `mode`, an `ended` that is not 0, or a `line` past `at` plus 1 is a state after the end: refusal 8. */
typedef struct {
    size_t mode;
    size_t start;
    size_t first;
    size_t at;
    size_t line;
    size_t left;
    size_t low;
    size_t high;
    size_t valid;
    size_t ended;
} galoxumi_parts;

/* The state before the first part. */
galoxumi_parts galoxumi_parts_start(void);

/* What a call answers, and the state after it: value is the count of tokens that it gives. */
typedef struct {
    galoxumi_answer answer;
    galoxumi_parts state;
} galoxumi_fed;

/* A part of the document: the tokens that it gives, into the lent ones from the front; those after them keep their contents. Each
 * token is given as soon as no further bytes could change it, and not sooner; places and lines are those of the parts joined. The
 * state handed in is only read.
 *
 * Refusals 8; then 2, where the parts joined pass GALOXUMI_LIMIT; then 1, where no further bytes could make them UTF-8, with the
 * numbers that galoxumi_check_utf8 gives of the parts joined; then 3. After 2 and 1 the state that comes back takes nothing more;
 * after 3 it is as before, and the same part may be handed in again with more tokens lent. One more than the part has bytes always
 * suffices, and where so many are lent nothing is counted first, which saves a pass.
 *
 *     galoxumi_parts state = galoxumi_parts_start();
 *     while ((n = read(0, part, sizeof part)) > 0) {
 *         galoxumi_fed fed = galoxumi_parts_feed(&state, part, n, tokens, GALOXUMI_MOST_OF_PART(sizeof part));
 *         if (fed.answer.refusal != GALOXUMI_ANSWERED)
 *             return 1;
 *         state = fed.state;
 *         use(tokens, fed.answer.value);
 *     }
 */
galoxumi_fed galoxumi_parts_feed(const galoxumi_parts *state, const uint8_t *part, size_t part_len, galoxumi_token *tokens,
                                 size_t tokens_len);

/* The closing word, after the last part: the token in progress, if there is one, and Eof. All the tokens that were given are then
 * those that galoxumi_lex gives of the parts joined, wherever they were cut. The state that comes back takes nothing more. Refusals
 * 8; then 2, which only a state made by hand can get; then 1, where the parts joined end inside a character; then 3, with the state
 * as before. Two tokens always suffice. */
galoxumi_fed galoxumi_parts_close(const galoxumi_parts *state, galoxumi_token *tokens, size_t tokens_len);

#ifdef __cplusplus
}
#endif

#endif
