/* A sign-on's day and time of day, also before midnight: runs the rule "v1 := v0 / 1440; v2 := v0 % 1440", where v0 is a minute counted from
 * midnight and a day has 1,440, for each sign-on on the roster, and prints its line.
 *   gcc -std=c99 -Iinclude examples/c/midnight.c target/staticlib/libboundary.a -o midnight
 *   ./midnight */
#include <stdio.h>
#include "rillgiggle.h"

enum { SIGN_ONS = 5, FUEL = 2 };

static const int32_t minutes[SIGN_ONS] = { 30, -30, -1440, -1441, 1440 };

static const uint32_t table[] = {
    2, 0, 0, 0, 1, 1440, 0, 0, 6, 0, 1, 0, 33, 1, 2, 0, /* nodes 0 to 3: v0, 1440, their quotient, v1 := node 2 */
    2, 0, 0, 0, 1, 1440, 0, 0, 7, 4, 5, 0, 33, 2, 6, 0, /* nodes 4 to 7: v0, 1440, their remainder, v2 := node 6 */
    34, 3, 7, 0,                                        /* node 8: node 3 then node 7 */
};

int main(void)
{
    uint32_t answer[RILL_WORDS];
    int i;

    for (i = 0; i < SIGN_ONS; i++) {
        int32_t store[RILL_VARIABLES] = { minutes[i] }; /* v0; the others are 0 */

        rill_run_source(table, sizeof table / sizeof table[0], store, RILL_VARIABLES, FUEL, answer);
        if (answer[RILL_VERDICT] != RILL_FINISHED)
            return 1;
        printf("minute %d: day %d, %02d:%02d\n", (int)minutes[i], (int)store[1], (int)store[2] / 60, (int)store[2] % 60);
    }
    return 0;
}
