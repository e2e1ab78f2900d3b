/* Asks the archive for the answers of crates/answers/stdout: each line there is a call, ` => ` and what it gives (tests/README.md has
 * the forms). The program `answers` gives them from the crates; this gives them from the exported functions, compiled and
 * linked as users link them. Reads the lines from standard input, prints each that differs, and the last line is
 * 'answers: N passed, M failed'. A line that is no call (`=> ? ..`) is passed over; calls that this program does not know are
 * counted by a line 'not asked of the archive: N lines of NAME'. */
#define _POSIX_C_SOURCE 200809L
#include "galoxumi.h"

#include <inttypes.h>
#include <stdio.h>
#include <stdlib.h>
#include <string.h>

/* A call: its numbers, its bytes, and where its answer is written. */
struct call {
    size_t n[4];
    uint8_t *doc;
    size_t len;
    FILE *to;
};

static void *lent(size_t count, size_t size)
{
    void *memory = calloc(count + 1, size);
    if (!memory) {
        fprintf(stderr, "no memory\n");
        exit(2);
    }
    return memory;
}

static void put_hex(FILE *to, const uint8_t *bytes, size_t len)
{
    if (len == 0)
        fputc('-', to);
    for (size_t i = 0; i < len; i++)
        fprintf(to, "%02x", bytes[i]);
}

/* `refused NO NUMBER`, with the length of the faulty sequence where NO is 1; whether it is refused. */
static int refused(FILE *to, galoxumi_answer a)
{
    if (a.refusal == GALOXUMI_NOT_UTF8)
        fprintf(to, "refused 1 %zu %zu", a.value, a.length);
    else if (a.refusal != GALOXUMI_ANSWERED)
        fprintf(to, "refused %zu %zu", a.refusal, a.value);
    return a.refusal != GALOXUMI_ANSWERED;
}

/* `NO NUMBER`. */
static void numbers(FILE *to, galoxumi_answer a)
{
    fprintf(to, "%zu %zu", a.refusal, a.value);
}

static void lex_lines(struct call c, int lines)
{
    galoxumi_token *t = lent(GALOXUMI_MOST_TOKENS(c.len), sizeof *t);
    galoxumi_answer a = galoxumi_lex(c.doc, c.len, t, GALOXUMI_MOST_TOKENS(c.len));
    for (size_t i = 0; !refused(c.to, a) && i < a.value; i++) {
        fprintf(c.to, "%s%zu %zu %zu", i == 0 ? "" : "; ", t[i].kind, t[i].start, t[i].end);
        if (lines)
            fprintf(c.to, " %zu", t[i].line);
    }
    free(t);
}

static void lex(struct call c) { lex_lines(c, 0); }
static void lexline(struct call c) { lex_lines(c, 1); }

static void lexcap(struct call c)
{
    galoxumi_token *t = lent(c.n[0], sizeof *t);
    numbers(c.to, galoxumi_lex(c.doc, c.len, t, c.n[0]));
    free(t);
}

static void decoded(struct call c, size_t edition, size_t kind)
{
    size_t bytes = GALOXUMI_MOST_BYTES(c.len), count = GALOXUMI_MOST_ERRORS(c.len);
    uint8_t *out = lent(bytes, 1);
    galoxumi_error *e = lent(count, sizeof *e);
    galoxumi_decoded d = edition == 0 ? galoxumi_decode(c.doc, c.len, kind, out, bytes, e, count)
                                      : galoxumi_decode_in(c.doc, c.len, edition, kind, out, bytes, e, count);
    if (!refused(c.to, d.answer)) {
        put_hex(c.to, out, d.answer.value);
        fputs(d.errors == 0 ? " | -" : " | ", c.to);
        for (size_t i = 0; i < d.errors; i++)
            fprintf(c.to, "%s%zu %zu %zu", i == 0 ? "" : "; ", e[i].number, e[i].start, e[i].end);
    }
    free(out);
    free(e);
}

static void dec(struct call c) { decoded(c, 0, c.n[0]); }
/* An edition of 0 is refused by the call, and here it stands for a call that is given none. */
static void decin(struct call c)
{
    if (c.n[0] != 0)
        decoded(c, c.n[0], c.n[1]);
    else
        refused(c.to, galoxumi_decode_in(c.doc, c.len, 0, c.n[1], NULL, 0, NULL, 0).answer);
}

static void deccap(struct call c)
{
    uint8_t *out = lent(c.n[1], 1);
    galoxumi_error *e = lent(c.n[2], sizeof *e);
    galoxumi_decoded d = galoxumi_decode(c.doc, c.len, c.n[0], out, c.n[1], e, c.n[2]);
    numbers(c.to, d.answer);
    fprintf(c.to, " %zu", d.errors);
    free(out);
    free(e);
}

static void utf8(struct call c) { numbers(c.to, galoxumi_check_utf8(c.doc, c.len)); }

static void fault(struct call c)
{
    galoxumi_answer a = galoxumi_check_utf8(c.doc, c.len);
    numbers(c.to, a);
    fprintf(c.to, " %zu", a.length);
}

static void start(struct call c)
{
    galoxumi_started s = galoxumi_start(c.doc, c.len);
    numbers(c.to, s.answer);
    fprintf(c.to, " %zu %zu", s.cursor.place, s.cursor.ended);
}

static void step_lines(struct call c, size_t line, int lines)
{
    galoxumi_stepped s = galoxumi_step(c.doc, c.len, c.n[0], c.n[1], line);
    numbers(c.to, s.answer);
    if (s.answer.refusal != GALOXUMI_ANSWERED) {
        fputs(" | - | -", c.to);
    } else if (!s.found) {
        fputs(" | end | -", c.to);
    } else if (lines) {
        fprintf(c.to, " | %zu %zu %zu %zu | %zu %zu %zu", s.token.kind, s.token.start, s.token.end, s.token.line, s.cursor.place,
                s.cursor.ended, s.cursor.line);
    } else {
        fprintf(c.to, " | %zu %zu %zu | %zu %zu", s.token.kind, s.token.start, s.token.end, s.cursor.place, s.cursor.ended);
    }
}

static void step(struct call c)
{
    galoxumi_positioned at = galoxumi_position(c.doc, c.len, c.n[0]);
    step_lines(c, at.answer.refusal == GALOXUMI_ANSWERED ? at.line : 1, 0);
}

static void stepline(struct call c) { step_lines(c, c.n[2], 1); }
static void span(struct call c) { numbers(c.to, galoxumi_check_span(c.doc, c.len, c.n[0], c.n[1])); }

static void text(struct call c)
{
    galoxumi_part part = galoxumi_text(c.doc, c.len, c.n[0], c.n[1]);
    put_hex(c.to, c.doc + part.start, part.length);
}

static void pos(struct call c)
{
    galoxumi_positioned at = galoxumi_position(c.doc, c.len, c.n[0]);
    numbers(c.to, at.answer);
    fprintf(c.to, " %zu %zu", at.line, at.column);
}

static void write_value(struct call c)
{
    uint8_t *out = lent(GALOXUMI_MOST_WRITTEN(c.len), 1);
    galoxumi_answer a = galoxumi_write_value(c.doc, c.len, out, GALOXUMI_MOST_WRITTEN(c.len));
    if (!refused(c.to, a))
        put_hex(c.to, out, a.value);
    free(out);
}

static void writecap(struct call c)
{
    uint8_t *out = lent(c.n[0], 1);
    numbers(c.to, galoxumi_write_value(c.doc, c.len, out, c.n[0]));
    free(out);
}

static void mend_in(struct call c, size_t edition)
{
    size_t most = GALOXUMI_MOST_MENDED(c.len);
    uint8_t *out = lent(most, 1);
    galoxumi_replaced *r = lent(GALOXUMI_MOST_REPLACED(c.len), sizeof *r);
    galoxumi_mended m = galoxumi_put_right_in(c.doc, c.len, edition, out, most, r, GALOXUMI_MOST_REPLACED(c.len));
    if (!refused(c.to, m.answer)) {
        put_hex(c.to, out, m.answer.value);
        fputs(m.records == 0 ? " | -" : " | ", c.to);
        for (size_t i = 0; i < m.records; i++)
            fprintf(c.to, "%s%zu %zu %zu %zu %zu", i == 0 ? "" : "; ", r[i].token_start, r[i].token_end, r[i].error.number,
                    r[i].error.start, r[i].error.end);
    }
    free(out);
    free(r);
}

static void mend(struct call c) { mend_in(c, GALOXUMI_TOML_10); }
static void mendin(struct call c) { mend_in(c, c.n[0]); }

static void mendcap(struct call c)
{
    uint8_t *out = lent(c.n[0], 1);
    galoxumi_replaced *r = lent(c.n[1], sizeof *r);
    galoxumi_mended m = galoxumi_put_right(c.doc, c.len, out, c.n[0], r, c.n[1]);
    numbers(c.to, m.answer);
    fprintf(c.to, " %zu", m.records);
    free(out);
    free(r);
}

static void desc(struct call c)
{
    galoxumi_described d = galoxumi_description(c.n[0]);
    numbers(c.to, d.answer);
    fprintf(c.to, " %zu ", d.length);
    put_hex(c.to, d.bytes, sizeof d.bytes);
    fprintf(c.to, " %zu", galoxumi_encoding(c.n[0]).encoding);
}

/* The marks are the call's bytes, and are written. */
static void marked(struct call c, galoxumi_answer (*mark)(const galoxumi_token *, size_t, uint8_t *, size_t, size_t, size_t))
{
    galoxumi_token *t = lent(c.n[2], sizeof *t);
    numbers(c.to, mark(t, c.n[2], c.doc, c.len, c.n[0], c.n[1]));
    fputs(" | ", c.to);
    put_hex(c.to, c.doc, c.len);
    free(t);
}

static void tick(struct call c) { marked(c, galoxumi_tick); }
static void untick(struct call c) { marked(c, galoxumi_untick); }

/* `NO NUMBER ANSWER`: of a call whose value is its own answer. */
static void asked(FILE *to, galoxumi_answer a)
{
    int answered = a.refusal == GALOXUMI_ANSWERED;
    fprintf(to, "%zu %zu %zu", a.refusal, answered ? 0 : a.value, answered ? a.value : 0);
}

static void ticked(struct call c)
{
    galoxumi_token *t = lent(c.n[2], sizeof *t);
    asked(c.to, galoxumi_is_ticked(t, c.n[2], c.doc, c.len, c.n[0], c.n[1]));
    free(t);
}

static void ticks(struct call c)
{
    galoxumi_token *t = lent(c.n[1], sizeof *t);
    asked(c.to, galoxumi_ticks(t, c.n[1], c.doc, c.len, c.n[0]));
    free(t);
}

/* Tokens whose kinds are the bytes of the line. */
static galoxumi_token *of_kinds(struct call c)
{
    galoxumi_token *t = lent(c.len, sizeof *t);
    for (size_t i = 0; i < c.len; i++)
        t[i].kind = c.doc[i];
    return t;
}

static void value(struct call c)
{
    galoxumi_token *t = of_kinds(c);
    asked(c.to, galoxumi_is_value(t, c.len, c.n[0], c.n[1]));
    free(t);
}

static void valuein(struct call c)
{
    galoxumi_token *t = of_kinds(c);
    asked(c.to, galoxumi_is_value_in(t, c.len, c.n[0], c.n[1], c.n[2]));
    free(t);
}

/* `kind start end line | no start end`, or `-` for none. */
static void broke(FILE *to, galoxumi_broken b)
{
    if (refused(to, b.answer))
        return;
    if (b.found)
        fprintf(to, "%zu %zu %zu %zu | %zu %zu %zu", b.token.kind, b.token.start, b.token.end, b.token.line, b.error.number,
                b.error.start, b.error.end);
    else
        fputc('-', to);
}

static void broken(struct call c) { broke(c.to, galoxumi_first_broken(c.doc, c.len)); }
static void brokenin(struct call c) { broke(c.to, galoxumi_first_broken_in(c.doc, c.len, c.n[0])); }

static void put_totals(FILE *to, const uint64_t *n, size_t count)
{
    for (size_t i = 0; i < count; i++)
        fprintf(to, "%s%" PRIu64, i == 0 ? " | " : " ", n[i]);
}

/* The totals are all `each` at first. */
static void tally_on(struct call c, uint64_t each)
{
    uint64_t all[33];
    galoxumi_totals before;
    for (size_t i = 0; i < 33; i++)
        all[i] = each;
    memcpy(&before, all, sizeof before);
    galoxumi_tallied t = galoxumi_tally(c.doc, c.len, &before);
    memcpy(all, &t.totals, sizeof all);
    numbers(c.to, t.answer);
    put_totals(c.to, all, 16);
    put_totals(c.to, all + 16, 15);
    put_totals(c.to, all + 31, 2);
}

static void tally(struct call c)
{
    tally_on(c, 0);
}

static void tallyon(struct call c)
{
    tally_on(c, c.n[0]);
}

static void put_tokens(FILE *to, const galoxumi_token *t, size_t count)
{
    if (count == 0)
        fputc('-', to);
    for (size_t i = 0; i < count; i++)
        fprintf(to, "%s%zu %zu %zu %zu", i == 0 ? "" : "; ", t[i].kind, t[i].start, t[i].end, t[i].line);
}

static size_t least(size_t a, size_t b)
{
    return a < b ? a : b;
}

/* The parts before, between and from two places on, and the closing word, with so many tokens lent to each call. */
static void in_parts(struct call c, size_t room, size_t first, size_t second)
{
    size_t places[4] = {0, least(first, c.len), least(second, c.len), c.len};
    galoxumi_token *t = lent(room, sizeof *t);
    galoxumi_parts state = galoxumi_parts_start();
    if (places[2] < places[1])
        places[2] = places[1];
    for (size_t i = 0; i < 4; i++) {
        galoxumi_fed fed = i < 3 ? galoxumi_parts_feed(&state, c.doc + places[i], places[i + 1] - places[i], t, room)
                                 : galoxumi_parts_close(&state, t, room);
        state = fed.state;
        fputs(i == 0 ? "" : " | ", c.to);
        if (!refused(c.to, fed.answer))
            put_tokens(c.to, t, fed.answer.value);
    }
    free(t);
}

static void parts(struct call c) { in_parts(c, GALOXUMI_MOST_OF_PART(c.len) + 1, c.n[0], c.n[1]); }
static void partscap(struct call c) { in_parts(c, c.n[0], c.n[1], c.n[2]); }

/* Each byte a part, and the closing word, up to a refusal. */
static void bytes(struct call c)
{
    galoxumi_parts state = galoxumi_parts_start();
    const char *joint = "";
    for (size_t n = 0; n <= c.len; n++) {
        galoxumi_token t[2];
        char when[32] = " @end";
        galoxumi_fed fed = n < c.len ? galoxumi_parts_feed(&state, c.doc + n, 1, t, GALOXUMI_MOST_OF_PART(1))
                                     : galoxumi_parts_close(&state, t, GALOXUMI_MOST_AT_CLOSE);
        state = fed.state;
        if (n < c.len)
            snprintf(when, sizeof when, " @%zu", n + 1);
        if (fed.answer.refusal != GALOXUMI_ANSWERED) {
            fputs(joint, c.to);
            refused(c.to, fed.answer);
            fputs(when, c.to);
            return;
        }
        for (size_t i = 0; i < fed.answer.value; i++) {
            fputs(joint, c.to);
            put_tokens(c.to, t + i, 1);
            fputs(when, c.to);
            joint = "; ";
        }
    }
}

/* Each call: its name, how many numbers it has, and whether bytes follow them. */
static struct {
    const char *name;
    int count, bytes;
    void (*answer)(struct call);
} const CALLS[] = {
    {"lex", 0, 1, lex},       {"lexline", 0, 1, lexline},   {"lexcap", 1, 1, lexcap}, {"dec", 1, 1, dec},
    {"decin", 2, 1, decin},   {"deccap", 3, 1, deccap},     {"utf8", 0, 1, utf8},     {"fault", 0, 1, fault},
    {"start", 0, 1, start},   {"step", 2, 1, step},         {"stepline", 3, 1, stepline}, {"span", 2, 1, span},
    {"text", 2, 1, text},     {"pos", 1, 1, pos},           {"write", 0, 1, write_value}, {"writecap", 1, 1, writecap},
    {"desc", 1, 0, desc},     {"tick", 3, 1, tick},         {"untick", 3, 1, untick}, {"ticked", 3, 1, ticked},
    {"ticks", 2, 1, ticks},   {"value", 2, 1, value},       {"valuein", 3, 1, valuein}, {"broken", 0, 1, broken},
    {"brokenin", 1, 1, brokenin}, {"tally", 0, 1, tally},   {"tallyon", 1, 1, tallyon}, {"mend", 0, 1, mend},
    {"mendin", 1, 1, mendin}, {"mendcap", 2, 1, mendcap},   {"parts", 2, 1, parts},   {"partscap", 3, 1, partscap},
    {"bytes", 0, 1, bytes},
};
enum { KNOWN = sizeof CALLS / sizeof *CALLS };

static int digit(char c)
{
    return c <= '9' ? c - '0' : c - 'a' + 10;
}

/* Makes the call of a line, the words of which it cuts apart; the answer is to be freed. */
static char *answer_to(size_t known, char *words)
{
    struct call c = {{0}, NULL, 0, NULL};
    char *answer = NULL;
    size_t size = 0;
    strtok(words, " ");
    for (int i = 0; i < CALLS[known].count; i++)
        c.n[i] = strtoull(strtok(NULL, " "), NULL, 10);
    const char *hex = CALLS[known].bytes ? strtok(NULL, " ") : "-";
    c.len = strcmp(hex, "-") == 0 ? 0 : strlen(hex) / 2;
    c.doc = lent(c.len, 1);
    for (size_t i = 0; i < c.len; i++)
        c.doc[i] = (uint8_t)(digit(hex[2 * i]) << 4 | digit(hex[2 * i + 1]));
    c.to = open_memstream(&answer, &size);
    CALLS[known].answer(c);
    fclose(c.to);
    free(c.doc);
    return answer;
}

/* Calls that are not known: each name, and its lines. */
static struct {
    char name[16];
    int lines;
} others[16];

static void note_other(const char *line, size_t len)
{
    for (size_t i = 0; i < 16; i++) {
        if (others[i].lines == 0)
            snprintf(others[i].name, sizeof others[i].name, "%.*s", (int)len, line);
        if (strlen(others[i].name) == len && strncmp(others[i].name, line, len) == 0) {
            others[i].lines++;
            return;
        }
    }
}

int main(void)
{
    char *line = NULL;
    size_t room = 0;
    ssize_t len;
    int passed = 0, failed = 0;
    while ((len = getline(&line, &room, stdin)) > 0) {
        line[strcspn(line, "\n")] = '\0';
        char *expected = strstr(line, " => ");
        if (!expected || expected[4] == '?')
            continue;
        *expected = '\0';
        expected += 4;
        size_t name = strcspn(line, " "), known = 0;
        while (known < KNOWN && (strlen(CALLS[known].name) != name || strncmp(CALLS[known].name, line, name) != 0))
            known++;
        if (known == KNOWN) {
            note_other(line, name);
            continue;
        }
        char *answer = answer_to(known, line);
        if (strcmp(answer, expected) == 0)
            passed++;
        else if (failed++ < 20)
            printf("FAILED: %s ..: %.200s, and %.200s is expected\n", CALLS[known].name, answer, expected);
        free(answer);
    }
    free(line);
    for (size_t i = 0; i < 16 && others[i].lines > 0; i++)
        printf("not asked of the archive: %d lines of %s\n", others[i].lines, others[i].name);
    printf("answers: %d passed, %d failed\n", passed, failed);
    return failed != 0 || passed == 0;
}
