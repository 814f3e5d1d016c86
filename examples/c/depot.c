/* A desk that runs a depot: reads a rule's table text, compiles it at label 1, runs the code for each crew on the roster with fuel 20, all in one
 * call, and prints each crew's line.
 *   gcc -std=c99 -Iinclude examples/c/depot.c target/staticlib/libboundary.a -o depot
 *   ./depot < examples/rule.txt */
#include <stdio.h>
#include "rillgiggle.h"

enum { FRAMES = 1024, TABLE_WORDS = 4 * FRAMES, LINE = 33, CREWS = 5, FUEL = 20 };

static const int32_t minutes[CREWS] = { 150, 0, 240, 241, -30 }; /* each crew's minutes on duty: its v0 */

static uint8_t text[LINE * FRAMES + 1]; /* one byte more, so that text that is too long is seen as such */
static uint32_t table[TABLE_WORDS], code[TABLE_WORDS], told[CREWS * RILL_CREW_WORDS];
static int32_t stores[CREWS * RILL_VARIABLES];

static int refused(const uint32_t answer[RILL_WORDS])
{
    if (answer[RILL_VERDICT] != RILL_REFUSED)
        return 0;
    printf("refused %u at %u\n", (unsigned)answer[RILL_NUMBER], (unsigned)answer[RILL_PLACE]);
    return 1;
}

static void print_crew(int crew)
{
    const uint32_t *words = told + crew * RILL_CREW_WORDS;
    const int32_t *store = stores + crew * RILL_VARIABLES;

    printf("crew %d, %d minutes: %s at label %u, %u steps, v1 = %d\n", crew, (int)minutes[crew],
           words[RILL_CREW_VERDICT] == RILL_CREW_FINISHED ? "finished" : "out of fuel", (unsigned)words[RILL_CREW_LABEL],
           (unsigned)words[RILL_CREW_STEPS], (int)store[1]);
}

int main(void)
{
    uint32_t answer[RILL_WORDS];
    int crew;

    rill_read_text(text, fread(text, 1, sizeof text, stdin), table, TABLE_WORDS, answer);
    if (refused(answer))
        return 1;
    size_t table_words = answer[RILL_AMOUNT];

    rill_compile(table, table_words, 1, code, TABLE_WORDS, answer);
    if (refused(answer))
        return 1;
    size_t code_words = 4 * (size_t)answer[RILL_AMOUNT];

    for (crew = 0; crew < CREWS; crew++)
        stores[crew * RILL_VARIABLES] = minutes[crew];
    rill_run_depot(table, table_words, code, code_words, 1, stores, CREWS * RILL_VARIABLES, FUEL, told, CREWS * RILL_CREW_WORDS,
                   answer);
    if (refused(answer))
        return 1;
    for (crew = 0; crew < CREWS; crew++)
        print_crew(crew);
    return 0;
}
