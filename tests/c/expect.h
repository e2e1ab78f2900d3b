/* Counting what is expected: each expectation follows a FROM that names its source, and a failure
 * prints the source with it. A test is a function of such expectations: it passed where they all hold. */
#ifndef EXPECT_H
#define EXPECT_H

#include "galoxumi.h"

#include <stdio.h>
#include <string.h>

static int held, broke;
static int passed, failed;
static const char *source = "";

static void expect(int ok, const char *what, int line)
{
    if (ok) {
        held++;
        return;
    }
    broke++;
    printf("FAILED at line %d, which %s says: %s\n", line, source, what);
}

static void run(void (*test)(void), const char *name)
{
    int before = broke;
    test();
    if (broke == before) {
        passed++;
        return;
    }
    failed++;
    printf("FAILED: the test %s\n", name);
}

#define RUN(test) run((test), #test)
#define FROM(where) (source = (where))
#define EXPECT(condition) expect((condition), #condition, __LINE__)

/* A string literal as bytes and their number. */
#define BYTES(text) (const uint8_t *)(text), sizeof(text) - 1

/* An error: number, start, end. A token: kind, start, end, line. */
#define R(number, start, end) {number, start, end}
#define T(kind, start, end, line) {kind, start, end, line}

static int answers(galoxumi_answer a, size_t refusal, size_t value)
{
    return a.refusal == refusal && a.value == value;
}

static int is_error(galoxumi_error e, size_t number, size_t start, size_t end)
{
    return e.number == number && e.start == start && e.end == end;
}

static int is_token(galoxumi_token t, size_t kind, size_t start, size_t end, size_t line)
{
    return t.kind == kind && t.start == start && t.end == end && t.line == line;
}

#endif
