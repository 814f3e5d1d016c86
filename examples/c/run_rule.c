/* Runs a rule as a planner types it: reads it from standard input, compiles it at label 1, and runs the code with fuel
 * 10,000. Each argument gives a variable its value; the others are 0. Prints where the run stands, its steps, and the
 * variables that were given or are not 0.
 *   gcc -std=c99 -Iinclude examples/c/run_rule.c target/staticlib/libboundary.a -o run_rule
 *   ./run_rule v0=60 v1=300 v2=1 < examples/rules/repeated-hour.txt */
#include <stdio.h>
#include "rillgiggle.h"

enum { TABLE_WORDS = 4096, TEXT_BYTES = 65536, FUEL = 10000 };

static uint8_t text[TEXT_BYTES + 1]; /* one byte more, so that text that is too long is seen as such */
static uint32_t table[TABLE_WORDS], code[TABLE_WORDS];

static int refused(const uint32_t answer[RILL_WORDS])
{
    if (answer[RILL_VERDICT] != RILL_REFUSED)
        return 0;
    printf("refused %u at %u\n", (unsigned)answer[RILL_NUMBER], (unsigned)answer[RILL_PLACE]);
    return 1;
}

int main(int count, char **words)
{
    uint32_t answer[RILL_WORDS];
    int32_t store[RILL_VARIABLES] = { 0 };
    int given[RILL_VARIABLES] = { 0 };
    const char *before = ":";
    int i;

    for (i = 1; i < count; i++) {
        unsigned variable;
        int value;

        if (sscanf(words[i], "v%u=%d", &variable, &value) != 2 || variable >= RILL_VARIABLES) {
            printf("not a variable and its value: %s\n", words[i]);
            return 1;
        }
        store[variable] = value;
        given[variable] = 1;
    }

    size_t bytes = fread(text, 1, sizeof text, stdin);
    if (bytes > TEXT_BYTES) {
        printf("text over %d bytes\n", TEXT_BYTES);
        return 1;
    }
    rill_read_rule(text, bytes, table, TABLE_WORDS, answer);
    if (refused(answer))
        return 1;
    size_t table_words = answer[RILL_AMOUNT];

    rill_compile(table, table_words, 1, code, TABLE_WORDS, answer);
    if (refused(answer))
        return 1;
    size_t code_words = 4 * (size_t)answer[RILL_AMOUNT];

    rill_run_code(table, table_words, code, code_words, 1, store, RILL_VARIABLES, FUEL, answer);
    if (refused(answer))
        return 1;
    printf("%s at label %u, %u steps", answer[RILL_VERDICT] == RILL_FINISHED ? "finished" : "out of fuel",
           (unsigned)answer[RILL_LABEL], (unsigned)answer[RILL_AMOUNT]);
    for (i = 0; i < RILL_VARIABLES; i++)
        if (given[i] || store[i] != 0) {
            printf("%s v%d = %d", before, i, (int)store[i]);
            before = ",";
        }
    printf("\n");
    return 0;
}
