/* Reads a rule's table text, compiles it at label 1, writes the code's text, and runs the code from v0 = 150 with fuel 13.
 *   gcc -std=c99 -Iinclude examples/c/list_rule.c target/staticlib/libboundary.a -o list_rule
 *   ./list_rule < examples/rule.txt */
#include <stdio.h>
#include "rillgiggle.h"

enum { FRAMES = 1024, TABLE_WORDS = 4 * FRAMES, LINE = 33 };

static uint8_t text[LINE * FRAMES + 1]; /* one byte more, so that text that is too long is seen as such */
static uint32_t table[TABLE_WORDS], code[TABLE_WORDS];

static int refused(const uint32_t answer[RILL_WORDS])
{
    if (answer[RILL_VERDICT] != RILL_REFUSED)
        return 0;
    printf("refused %u at %u\n", (unsigned)answer[RILL_NUMBER], (unsigned)answer[RILL_PLACE]);
    return 1;
}

int main(void)
{
    uint32_t answer[RILL_WORDS];
    int32_t store[RILL_VARIABLES] = { 150 };

    rill_read_text(text, fread(text, 1, sizeof text, stdin), table, TABLE_WORDS, answer);
    if (refused(answer))
        return 1;
    size_t table_words = answer[RILL_AMOUNT];

    rill_compile(table, table_words, 1, code, TABLE_WORDS, answer);
    if (refused(answer))
        return 1;
    size_t code_words = 4 * (size_t)answer[RILL_AMOUNT];
    printf("%u instructions, end label %u\n", (unsigned)answer[RILL_AMOUNT], (unsigned)answer[RILL_LABEL]);

    rill_write_text(code, code_words, text, sizeof text, answer);
    if (refused(answer))
        return 1;
    fwrite(text, 1, answer[RILL_AMOUNT], stdout);

    rill_run_code(table, table_words, code, code_words, 1, store, RILL_VARIABLES, 13, answer);
    if (refused(answer))
        return 1;
    printf("%s at label %u, %u steps: v0 = %d, v1 = %d\n", answer[RILL_VERDICT] == RILL_FINISHED ? "finished" : "out of fuel",
           (unsigned)answer[RILL_LABEL], (unsigned)answer[RILL_AMOUNT], (int)store[0], (int)store[1]);
    return 0;
}
