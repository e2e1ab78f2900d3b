/* The value of each string of a manifest on standard input, or what is wrong with it, by include/galoxumi.h:
 *     cc example.c -lgaloxumi */
#include <galoxumi.h>
#include <stdio.h>
#include <stdlib.h>

/* What is wrong, in the library's words; the place counts from the start of the string. */
static void complain(const uint8_t *doc, size_t doc_len, galoxumi_token string, galoxumi_error error)
{
    galoxumi_positioned at = galoxumi_position(doc, doc_len, string.start + error.start);
    galoxumi_words words = galoxumi_error_words(error.number, GALOXUMI_TOML_10, 0);
    printf("%zu:%zu: %.*s\n", at.line, at.column, (int)words.length, (const char *)words.bytes);
}

int main(void)
{
    static uint8_t doc[65536], value[GALOXUMI_MOST_BYTES(65536)];
    static galoxumi_token tokens[GALOXUMI_MOST_TOKENS(65536)];
    static galoxumi_error errors[GALOXUMI_MOST_ERRORS(65536)];
    size_t doc_len = fread(doc, 1, sizeof doc, stdin);
    galoxumi_answer lexed = galoxumi_lex(doc, doc_len, tokens, GALOXUMI_MOST_TOKENS(65536));
    if (lexed.refusal != GALOXUMI_ANSWERED) {
        printf("refused %zu %zu\n", lexed.refusal, lexed.value);
        return EXIT_FAILURE;
    }
    int status = EXIT_SUCCESS;
    for (size_t i = 0; i < lexed.value; i++) {
        galoxumi_token t = tokens[i];
        if (galoxumi_encoding(t.kind).encoding == 0)
            continue;
        galoxumi_decoded decoded = galoxumi_decode(doc + t.start, t.end - t.start, t.kind, value, sizeof value, errors,
                                                   GALOXUMI_MOST_ERRORS(65536));
        if (decoded.errors == 0)
            printf("%zu: %.*s\n", t.line, (int)decoded.answer.value, (const char *)value);
        else
            status = EXIT_FAILURE;
        for (size_t k = 0; k < decoded.errors; k++)
            complain(doc, doc_len, t, errors[k]);
    }
    return status;
}
