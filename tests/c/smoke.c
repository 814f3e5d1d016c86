/* The eight calls from C: the listing rule of document 01 and its documented answers, other worked runs, each verdict, and what a
 * refusal and a success leave alone. Every answer and every buffer is compared whole. */
#include <stdio.h>
#include <string.h>
#include "rillgiggle.h"

enum { STALE = 0x5a5a5a5a }; /* what a word holds before a call */

static const char listing_text[] =
    "00000001000000000000000000000000\n00000002000000000000000000000000\n00000014000000000000000100000000\n"
    "00000002000000000000000000000000\n000000010000003c0000000000000000\n00000004000000030000000400000000\n"
    "00000021000000000000000500000000\n00000002000000010000000000000000\n00000001000000010000000000000000\n"
    "00000003000000070000000800000000\n00000021000000010000000900000000\n00000022000000060000000a00000000\n"
    "00000024000000020000000b00000000\n";
static const char code_text[] =
    "00000001000000030000000200000005\n00000002000000010000000000000005\n00000003000000010000000100000009\n"
    "00000004000000020000000000000001\n";

/* while 0 < v0 do (v0 := v0 - 60; v1 := v1 + 1) */
static const uint32_t listing[52] = {
    1, 0, 0, 0, 2, 0, 0, 0, 20, 0, 1, 0, 2, 0, 0, 0, 1, 60, 0, 0, 4, 3, 4, 0, 33, 0, 5, 0,
    2, 1, 0, 0, 1, 1, 0, 0, 3, 7, 8, 0, 33, 1, 9, 0, 34, 6, 10, 0, 36, 2, 11, 0 };
static const uint32_t listing_code[16] = { 1, 3, 2, 5, 2, 1, 0, 5, 3, 1, 1, 9, 4, 2, 0, 1 };
static const uint32_t skip[4] = { 32, 0, 0, 0 };

static unsigned passed, failed;
static uint32_t answer[RILL_WORDS];
static uint32_t room[64];
static uint8_t bytes[512];
static int32_t store[33];
static int32_t stores[RILL_CREWS * RILL_VARIABLES + 1];

static void expect(const char *what, int holds)
{
    if (holds) {
        passed++;
    } else {
        failed++;
        printf("FAILED: %s\n", what);
    }
}

static void stale(void)
{
    size_t i;
    for (i = 0; i < RILL_WORDS; i++) answer[i] = STALE;
    for (i = 0; i < 64; i++) room[i] = STALE;
    memset(bytes, 0x5a, sizeof bytes);
}

static void fresh_store(int32_t v0)
{
    memset(store, 0, sizeof store);
    store[0] = v0;
}

static void tells(const char *what, uint32_t verdict, uint32_t number, uint32_t place, uint32_t label, uint32_t amount)
{
    uint32_t all[RILL_WORDS] = { 0 };
    all[RILL_VERDICT] = verdict;
    all[RILL_NUMBER] = number;
    all[RILL_PLACE] = place;
    all[RILL_LABEL] = label;
    all[RILL_AMOUNT] = amount;
    expect(what, memcmp(answer, all, sizeof all) == 0);
}

/* the room holds these words, and behind them what it held */
static void room_holds(const char *what, const uint32_t *words, size_t count)
{
    size_t i;
    int same = 1;
    for (i = 0; i < 64; i++) same &= room[i] == (i < count ? words[i] : (uint32_t)STALE);
    expect(what, same);
}

static void bytes_hold(const char *what, const char *text, size_t count)
{
    size_t i;
    int same = 1;
    for (i = 0; i < sizeof bytes; i++) same &= bytes[i] == (i < count ? (uint8_t)text[i] : 0x5a);
    expect(what, same);
}

/* v0 and v1 as given, all others 0 */
static void store_holds(const char *what, int32_t v0, int32_t v1)
{
    int32_t all[33] = { 0 };
    all[0] = v0;
    all[1] = v1;
    expect(what, memcmp(store, all, sizeof all) == 0);
}

static void checking(void)
{
    const uint32_t twice[8] = { 32, 0, 0, 0, 34, 0, 0, 0 };
    const uint32_t unknown[8] = { 32, 0, 0, 0, 9, 0, 0, 0 };

    stale(); rill_check(listing, 52, answer); tells("check: listing", RILL_DONE, 0, 0, 0, 0);
    stale(); rill_check(skip, 0, answer); tells("check: no words", RILL_REFUSED, 1, 0, 0, 0);
    stale(); rill_check(unknown, 8, answer); tells("check: unknown kind", RILL_REFUSED, 2, 1, 0, 0);
    stale(); rill_check(listing, 40, answer); tells("check: root not a statement", RILL_REFUSED, 7, 9, 0, 0);
    stale(); rill_check(twice, 8, answer); tells("check: a child twice", RILL_REFUSED, 8, 0, 0, 0);
}

static void compiling(void)
{
    stale(); rill_compile(listing, 52, 1, room, 64, answer);
    tells("compile: listing at 1", RILL_DONE, 0, 0, 5, 4);
    room_holds("compile: its code", listing_code, 16);
    stale(); rill_compile(listing, 52, 1, room, 16, answer);
    tells("compile: exact room", RILL_DONE, 0, 0, 5, 4);
    stale(); rill_compile(listing, 52, 1, room, 15, answer);
    tells("compile: room too small", RILL_REFUSED, 12, 0, 0, 0);
    room_holds("compile: refused, room as it was", room, 0);
    stale(); rill_compile(skip, 4, 7, room, 0, answer);
    tells("compile: skip at 7", RILL_DONE, 0, 0, 7, 0);
    stale(); rill_compile(skip, 4, 65535, room, 64, answer);
    tells("compile: skip at 65535", RILL_DONE, 0, 0, 65535, 0);
    stale(); rill_compile(skip, 4, 65536, room, 64, answer);
    tells("compile: start label over", RILL_REFUSED, 11, 0, 0, 0);
    stale(); rill_compile(listing, 52, 65532, room, 64, answer);
    tells("compile: end label over", RILL_REFUSED, 11, 0, 0, 0);
    room_holds("compile: refused 11, room as it was", room, 0);
}

static void running_source(void)
{
    stale(); fresh_store(150); rill_run_source(listing, 52, store, 32, 13, answer);
    tells("source: fuel 13", RILL_FINISHED, 0, 0, 0, 13);
    store_holds("source: its store", -30, 3);
    stale(); fresh_store(150); rill_run_source(listing, 52, store, 32, 12, answer);
    tells("source: fuel 12", RILL_OUT_OF_FUEL, 0, 0, 0, 12);
    store_holds("source: same store", -30, 3);
    stale(); fresh_store(150); rill_run_source(listing, 52, store, 32, 2, answer);
    tells("source: fuel 2", RILL_OUT_OF_FUEL, 0, 0, 0, 2);
    store_holds("source: first assignment only", 90, 0);
    stale(); fresh_store(150); rill_run_source(listing, 52, store, 33, 13, answer);
    tells("source: 33 values", RILL_REFUSED, 10, 0, 0, 0);
    store_holds("source: refused, store as it was", 150, 0);
}

/* v1 := v0 by b, of this kind: a quotient is 6, a remainder 7 */
static void divides(const char *what, uint32_t kind, int32_t a, int32_t b, int32_t result)
{
    const uint32_t table[16] = { 2, 0, 0, 0, 1, (uint32_t)b, 0, 0, kind, 0, 1, 0, 33, 1, 2, 0 };

    stale(); fresh_store(a); rill_run_source(table, 16, store, 32, 1, answer);
    tells(what, RILL_FINISHED, 0, 0, 0, 1);
    store_holds(what, a, result);
}

static void dividing(void)
{
    divides("-30 by 60", 6, -30, 60, -1);
    divides("-30 by 60, remainder", 7, -30, 60, 30);
    divides("30 by -60", 6, 30, -60, -1);
    divides("30 by -60, remainder", 7, 30, -60, -30);
    divides("7 by 0", 6, 7, 0, 0);
    divides("7 by 0, remainder", 7, 7, 0, 7);
}

/* the example in the header */
static void header_example(void)
{
    const uint32_t table[8] = { 1, 7, 0, 0, 33, 1, 0, 0 };

    stale(); fresh_store(0); rill_compile(table, 8, 1, room, 4, answer);
    tells("header: v1 := 7 at 1", RILL_DONE, 0, 0, 2, 1);
    rill_run_code(table, 8, room, 4 * (size_t)answer[RILL_AMOUNT], 1, store, RILL_VARIABLES, 100, answer);
    tells("header: its run", RILL_FINISHED, 0, 0, 2, 1);
    store_holds("header: its store", 0, 7);
}

static void running_code(void)
{
    const uint32_t own_label[4] = { 4, 2, 0, 4 };
    uint32_t falling[16];
    memcpy(falling, listing_code, sizeof falling);
    falling[8] = 2;

    stale(); fresh_store(150); rill_run_code(listing, 52, listing_code, 16, 1, store, 32, 13, answer);
    tells("code: fuel 13", RILL_FINISHED, 0, 0, 5, 13);
    store_holds("code: its store", -30, 3);
    stale(); fresh_store(150); rill_run_code(listing, 52, listing_code, 16, 1, store, 32, 12, answer);
    tells("code: fuel 12", RILL_OUT_OF_FUEL, 0, 0, 1, 12);
    store_holds("code: same store", -30, 3);
    stale(); fresh_store(0); rill_run_code(listing, 52, listing_code, 16, 1, store, 32, 1, answer);
    tells("code: from v0 = 0, fuel 1", RILL_FINISHED, 0, 0, 5, 1);
    stale(); fresh_store(0); rill_run_code(listing, 52, listing_code, 16, 1, store, 32, 0, answer);
    tells("code: from v0 = 0, fuel 0", RILL_OUT_OF_FUEL, 0, 0, 1, 0);
    stale(); fresh_store(0); rill_run_code(skip, 4, own_label, 0, 7, store, 32, 0, answer);
    tells("code: none, at 7", RILL_FINISHED, 0, 0, 7, 0);
    stale(); fresh_store(0); rill_run_code(skip, 4, own_label, 4, 4, store, 32, 9, answer);
    tells("code: 4: goto 4", RILL_OUT_OF_FUEL, 0, 0, 4, 9);
    stale(); fresh_store(150); rill_run_code(listing, 52, falling, 16, 1, store, 32, 13, answer);
    tells("code: a label that does not rise", RILL_REFUSED, 13, 2, 0, 0);
    store_holds("code: refused, store as it was", 150, 0);
    stale(); fresh_store(150); rill_run_code(listing, 52, falling, 16, 65536, store, 32, 13, answer);
    tells("code: start label over", RILL_REFUSED, 11, 0, 0, 0);
    stale(); fresh_store(150); rill_run_code(listing, 52, falling, 16, 65536, store, 31, 13, answer);
    tells("code: 31 values", RILL_REFUSED, 10, 0, 0, 0);
}

/* v0 of each crew as given, all other values 0 */
static void fresh_stores(const int32_t *v0, size_t crews)
{
    size_t i;
    memset(stores, 0, sizeof stores);
    for (i = 0; i < crews; i++) stores[RILL_VARIABLES * i] = v0[i];
}

/* v0 and v1 of each crew as given, all other values 0 */
static void stores_hold(const char *what, const int32_t *v0, const int32_t *v1, size_t crews)
{
    static int32_t all[RILL_CREWS * RILL_VARIABLES + 1];
    size_t i;
    memset(all, 0, sizeof all);
    for (i = 0; i < crews; i++) {
        all[RILL_VARIABLES * i] = v0[i];
        all[RILL_VARIABLES * i + 1] = v1[i];
    }
    expect(what, memcmp(stores, all, sizeof all) == 0);
}

/* crews of 150, 0 and 30 minutes: the first is out of fuel 12, the others finish */
static void running_depots(void)
{
    const int32_t minutes[3] = { 150, 0, 30 }, left[3] = { -30, 0, -30 }, hours[3] = { 3, 0, 1 }, none[3] = { 0 };
    const uint32_t told[9] = { RILL_CREW_OUT_OF_FUEL, 1, 12, RILL_CREW_FINISHED, 5, 1, RILL_CREW_FINISHED, 5, 5 };
    uint32_t falling[16];
    memcpy(falling, listing_code, sizeof falling);
    falling[8] = 2;

    stale(); fresh_stores(minutes, 3); rill_run_depot(listing, 52, listing_code, 16, 1, stores, 96, 12, room, 64, answer);
    tells("depot: three crews", RILL_DONE, 0, 0, 0, 0);
    room_holds("depot: their words", told, 9);
    stores_hold("depot: their stores", left, hours, 3);
    stale(); fresh_stores(minutes, 3); rill_run_depot(listing, 52, listing_code, 16, 1, stores, 96, 12, room, 9, answer);
    tells("depot: exact room", RILL_DONE, 0, 0, 0, 0);
    stale(); fresh_stores(minutes, 3); rill_run_depot(listing, 52, listing_code, 16, 1, stores, 96, 12, room, 8, answer);
    tells("depot: room too small", RILL_REFUSED, 16, 0, 0, 0);
    room_holds("depot: refused, room as it was", room, 0);
    stores_hold("depot: refused, stores as they were", minutes, none, 3);
    stale(); fresh_stores(minutes, 3); rill_run_depot(listing, 52, listing_code, 16, 1, stores, 97, 12, room, 64, answer);
    tells("depot: 97 values", RILL_REFUSED, 10, 0, 0, 0);
    stale(); rill_run_depot(listing, 52, listing_code, 16, 1, stores, 513 * 32, 12, room, 64, answer);
    tells("depot: 513 crews", RILL_REFUSED, 10, 0, 0, 0);
    stale(); rill_run_depot(listing, 52, listing_code, 16, 1, stores, 512 * 32, 12, room, 64, answer);
    tells("depot: 512 crews, room for 21", RILL_REFUSED, 16, 0, 0, 0);
    stale(); rill_run_depot(listing, 52, listing_code, 16, 1, stores, 0, 12, room, 0, answer);
    tells("depot: no crews", RILL_DONE, 0, 0, 0, 0);
    stale(); rill_run_depot(listing, 52, falling, 16, 1, stores, 0, 12, room, 0, answer);
    tells("depot: no crews, a label that does not rise", RILL_REFUSED, 13, 2, 0, 0);
    stale(); rill_run_depot(listing, 52, falling, 16, 65536, stores, 96, 12, room, 8, answer);
    tells("depot: start label over", RILL_REFUSED, 11, 0, 0, 0);
    stale(); rill_run_depot(listing, 40, falling, 16, 65536, stores, 97, 12, room, 8, answer);
    tells("depot: root not a statement", RILL_REFUSED, 7, 9, 0, 0);
}

static void text(void)
{
    char upper[67];
    memcpy(upper, listing_text, 66);
    upper[33 + 7] = 'A';

    stale(); rill_read_text((const uint8_t *)listing_text, 429, room, 64, answer);
    tells("read: listing", RILL_DONE, 0, 0, 0, 52);
    room_holds("read: its words", listing, 52);
    stale(); rill_read_text((const uint8_t *)listing_text, 0, room, 0, answer);
    tells("read: empty text", RILL_DONE, 0, 0, 0, 0);
    stale(); rill_read_text((const uint8_t *)upper, 66, room, 64, answer);
    tells("read: an upper-case digit", RILL_REFUSED, 14, 1, 0, 0);
    room_holds("read: refused, room as it was", room, 0);
    stale(); rill_read_text((const uint8_t *)listing_text, 428, room, 64, answer);
    tells("read: last newline missing", RILL_REFUSED, 14, 12, 0, 0);
    stale(); rill_read_text((const uint8_t *)listing_text, 429, room, 51, answer);
    tells("read: room too small", RILL_REFUSED, 15, 0, 0, 0);

    stale(); rill_write_text(listing_code, 16, bytes, sizeof bytes, answer);
    tells("write: listing's code", RILL_DONE, 0, 0, 0, 132);
    bytes_hold("write: its text", code_text, 132);
    stale(); rill_write_text(listing_code, 0, bytes, 0, answer);
    tells("write: no words", RILL_DONE, 0, 0, 0, 0);
    stale(); rill_write_text(listing_code, 9, bytes, sizeof bytes, answer);
    tells("write: nine words", RILL_REFUSED, 14, 2, 0, 0);
    stale(); rill_write_text(listing_code, 16, bytes, 131, answer);
    tells("write: room too small", RILL_REFUSED, 15, 0, 0, 0);
    bytes_hold("write: refused, room as it was", code_text, 0);
}

static void reads(const char *typed, size_t room_words)
{
    stale(); rill_read_rule((const uint8_t *)typed, strlen(typed), room, room_words, answer);
}

static void stops(const char *typed, uint32_t place)
{
    reads(typed, 64);
    tells(typed, RILL_REFUSED, 17, place, 0, 0);
}

/* v0 := 1+1+..., so many ones, then the end */
static const char *ones(size_t count, const char *end)
{
    static char typed[8192];
    size_t i, at = 6;
    memcpy(typed, "v0 := ", at);
    for (i = 0; i < count; i++) { typed[at++] = '1'; typed[at++] = '+'; }
    strcpy(typed + at - 1, end);
    return typed;
}

/* v0 := ((...1...)), so many levels */
static const char *brackets(size_t levels)
{
    static char typed[1024];
    memcpy(typed, "v0 := ", 6);
    memset(typed + 6, '(', levels);
    typed[6 + levels] = '1';
    memset(typed + 7 + levels, ')', levels);
    typed[7 + 2 * levels] = 0;
    return typed;
}

static void typed_rules(void)
{
    const char *typed_listing = "while 0 < v0 do\n  v0 := v0 - 60;\n  v1 := v1 + 1\nend\n";
    const uint32_t row[20] = { 32, 0, 0, 0, 32, 0, 0, 0, 32, 0, 0, 0, 34, 1, 2, 0, 34, 0, 3, 0 };
    const uint32_t one[8] = { 1, 1, 0, 0, 33, 0, 0, 0 };

    reads(typed_listing, 64);
    tells("rule: listing", RILL_DONE, 0, 0, 0, 52);
    room_holds("rule: its table", listing, 52);
    rill_check(room, 52, answer); tells("rule: its table passes", RILL_DONE, 0, 0, 0, 0);
    reads(typed_listing, 52);
    tells("rule: exact room", RILL_DONE, 0, 0, 0, 52);
    reads(typed_listing, 51);
    tells("rule: room too small", RILL_REFUSED, 15, 0, 0, 0);
    room_holds("rule: refused 15, room as it was", room, 0);
    reads("skip;skip;skip", 64);
    tells("rule: a row", RILL_DONE, 0, 0, 0, 20);
    room_holds("rule: a row groups to the right", row, 20);
    reads(brackets(256), 64);
    tells("rule: 256 brackets", RILL_DONE, 0, 0, 0, 8);
    room_holds("rule: which make no nodes", one, 8);

    stops(brackets(257), 6 + 256);
    room_holds("rule: refused 17, room as it was", room, 0);
    stops("", 0);
    stops("skipx", 4);
    stops("skip\r\n", 4);
    stops("v32 := 1", 2);
    stops("v0 := 2147483648", 15);
    stops("if true then skip end", 19);
    stops("while not not true do skip end", 10);

    reads(ones(255, ""), 64);
    tells("rule: depth 256, room too small", RILL_REFUSED, 15, 0, 0, 0);
    reads(ones(256, ""), 64);
    tells("rule: depth 257, room too small", RILL_REFUSED, 9, 0, 0, 0);
    room_holds("rule: refused 9, room as it was", room, 0);
    reads(ones(513, ""), 64);
    tells("rule: 1,026 nodes, too deep", RILL_REFUSED, 1, 0, 0, 0);
    room_holds("rule: refused 1, room as it was", room, 0);
    reads(ones(513, ";"), 64);
    tells("rule: 1,026 nodes, too deep, not in the grammar", RILL_REFUSED, 17, 6 + 2 * 513, 0, 0);
}

int main(void)
{
    checking();
    compiling();
    running_source();
    dividing();
    running_code();
    running_depots();
    header_example();
    text();
    typed_rules();
    printf("%u passed, %u failed\n", passed, failed);
    return failed != 0;
}
