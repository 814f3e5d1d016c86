// The deepest stack of each call, in bytes: each runs on a painted stack of its own, on the deepest accepted tables and on hostile ones.
// What an empty call needs is taken off. Prints one line a call and table, or typed rule; docs/LIMITS.md has the greatest. Fails where
// a check needs more than CHECK_MOST, or reading a typed rule more than RULE_MOST: older terminals have little stack.
#include "rillgiggle.h"

#include <pthread.h>
#include <stdint.h>
#include <stdio.h>
#include <stdlib.h>
#include <string.h>

enum { STACK = 1 << 20, PAINT = 0xA5, NODES = 1024, CHECK_MOST = 1100, RULE_MOST = 32768 };

static uint32_t table[4 * NODES + 4], code[4 * NODES], words[4 * NODES];
static size_t table_words, code_words;
static uint8_t text[33 * NODES];
static size_t text_bytes;
static char rule[64 * NODES];
static size_t rule_bytes;
static int32_t store[32], stores[2 * 32];
static uint32_t answer[8];

static uint32_t node(uint32_t kind, uint32_t p, uint32_t q, uint32_t r) {
    uint32_t n = (uint32_t)(table_words / 4);
    uint32_t frame[4] = {kind, p, q, r};
    memcpy(table + table_words, frame, sizeof frame);
    table_words += 4;
    return n;
}

enum { NUMBER = 1, SUM = 3, CHOOSE = 8, TRUE = 16, FALSE = 17, LESS = 20, NOT = 21, AND = 22, SKIP = 32, ASSIGN = 33, SEQUENCE = 34, IF = 35, WHILE = 36 };

static uint32_t leaf(uint32_t kind) { return node(kind, 0, 0, 0); }

// A node of a kind over `child`, which is its word p, q or r; what else it names is a leaf. A test leads to the child.
static uint32_t over(uint32_t kind, int word, uint32_t child) {
    uint32_t other;
    switch (kind) {
    case NOT:
        return node(NOT, child, 0, 0);
    case WHILE:
        other = leaf(TRUE);
        return node(WHILE, other, child, 0);
    case IF:
    case CHOOSE: {
        uint32_t test = word == 0 ? child : leaf(word == 1 ? TRUE : FALSE);
        other = leaf(kind == IF ? SKIP : NUMBER);
        uint32_t third = word == 0 ? leaf(kind == IF ? SKIP : NUMBER) : child;
        return word == 2 ? node(kind, test, other, third) : node(kind, test, third, other);
    }
    default: // two words of one class
        other = leaf(kind == SUM || kind == LESS ? NUMBER : kind == AND ? TRUE : SKIP);
        return word == 0 ? node(kind, child, other, 0) : node(kind, other, child, 0);
    }
}

// Nodes of one kind, or of two in turn, one under the other, as a statement of this depth.
static void deep(int depth, uint32_t first, uint32_t second, int word) {
    int boolean = first == NOT || first == AND;
    int statement = first >= SEQUENCE;
    uint32_t n = leaf(boolean ? TRUE : statement ? SKIP : NUMBER);
    int levels = statement ? depth - 1 : depth - 2;
    for (int d = 0; d + (first != second) < levels; d += 1 + (first != second)) {
        n = over(first, word, n);
        if (second != first) n = over(second, word, n);
    }
    if (boolean) {
        uint32_t yes = leaf(SKIP), no = leaf(SKIP);
        node(IF, n, yes, no);
    } else if (!statement) {
        node(ASSIGN, 0, n, 0);
    }
}

// A full table of one node again and again: accepted nowhere.
static void full(uint32_t kind) {
    while (table_words < 4 * NODES) leaf(kind);
}

static void nothing(void) {}
static void check(void) { rill_check(table, table_words, answer); }
static void compile(void) {
    rill_compile(table, table_words, 1, code, sizeof code / sizeof *code, answer);
    code_words = 4 * answer[4];
}
static void run_source(void) { rill_run_source(table, table_words, store, 32, 1000, answer); }
static void run_code(void) { rill_run_code(table, table_words, code, code_words, 1, store, 32, 1000, answer); }
static void run_depot(void) { rill_run_depot(table, table_words, code, code_words, 1, stores, 2 * 32, 1000, words, 6, answer); }
static void write_text(void) {
    rill_write_text(table, table_words, text, sizeof text, answer);
    text_bytes = answer[4];
}
static void read_text(void) { rill_read_text(text, text_bytes, words, sizeof words / sizeof *words, answer); }

static void read_rule(void) { rill_read_rule((const uint8_t *)rule, rule_bytes, words, sizeof words / sizeof *words, answer); }

static void *call(void *f) {
    ((void (*)(void))(uintptr_t)f)();
    return NULL;
}

static size_t depth_of(void (*f)(void)) {
    static uint8_t *stack;
    if (!stack && posix_memalign((void **)&stack, 4096, STACK)) exit(2);
    memset(stack, PAINT, STACK);
    pthread_attr_t attr;
    pthread_t thread;
    pthread_attr_init(&attr);
    if (pthread_attr_setstack(&attr, stack, STACK)) exit(2);
    if (pthread_create(&thread, &attr, call, (void *)(uintptr_t)f)) exit(2);
    pthread_join(thread, NULL);
    size_t i = 0;
    while (i < STACK && stack[i] == PAINT) i++;
    return STACK - i;
}

static int too_deep;

static void measure(const char *name) {
    static const struct {
        const char *name;
        void (*f)(void);
    } calls[] = {{"rill_check", check},         {"rill_compile", compile},       {"rill_run_source", run_source}, {"rill_run_code", run_code},
                 {"rill_run_depot", run_depot}, {"rill_write_text", write_text}, {"rill_read_text", read_text}};
    size_t base = depth_of(nothing);
    for (size_t i = 0; i < sizeof calls / sizeof *calls; i++) {
        size_t deep = depth_of(calls[i].f);
        size_t bytes = deep > base ? deep - base : 0;
        printf("%-16s %-40s %6zu bytes, verdict %u number %u\n", calls[i].name, name, bytes, answer[0], answer[1]);
        too_deep |= calls[i].f == check && bytes > CHECK_MOST;
    }
    table_words = 0;
}

static void type(const char *part, int times) {
    for (int i = 0; i < times; i++) {
        memcpy(rule + rule_bytes, part, strlen(part));
        rule_bytes += strlen(part);
    }
}

// The text of `rule`, which is typed anew after it.
static void measure_rule(const char *name) {
    size_t base = depth_of(nothing);
    size_t deep = depth_of(read_rule);
    size_t bytes = deep > base ? deep - base : 0;
    printf("%-16s %-40s %6zu bytes, verdict %u number %u\n", "rill_read_rule", name, bytes, answer[0], answer[1]);
    too_deep |= bytes > RULE_MOST;
    rule_bytes = 0;
}

// Levels of one kind, as many as there may be and one more; levels of all kinds; long rows and sums; texts out of the grammar.
static void measure_rules(void) {
    static const struct {
        const char *name, *first, *open, *inner, *close, *last;
        int outside; // levels that first opens
    } kinds[] = {{"round brackets", "v0 := ", "(", "1", ")", "", 0},
                 {"sums in round brackets", "v0 := ", "1+(", "1", ")", "", 0},
                 {"products of sums in round brackets", "v0 := ", "1+2*(", "1", ")", "", 0},
                 {"square brackets", "while ", "[", "true", "]", " do skip end", 1},
                 {"nots and ands in square brackets", "while ", "true and not [", "true", "]", " do skip end", 1},
                 {"chooses, by their tests", "v0 := ", "choose(1 = ", "1", ", 2, 3)", "", 0},
                 {"chooses, by their last sides", "v0 := ", "choose(true, 2, ", "1", ")", "", 0},
                 {"ifs, by their first branches", "", "if true then ", "skip", " else skip end", "", 0},
                 {"ifs, by their last branches", "", "if true then skip else ", "skip", " end", "", 0},
                 {"whiles", "", "while true do ", "skip", " end", "", 0},
                 {"rows in whiles", "", "skip; while true do skip; ", "skip", "; skip end; skip", "", 0}};
    char name[64];
    for (size_t i = 0; i < sizeof kinds / sizeof *kinds; i++) {
        for (int levels = 128; levels <= 257; levels += levels == 128 ? 128 : 1) {
            type(kinds[i].first, 1);
            type(kinds[i].open, levels - kinds[i].outside);
            type(kinds[i].inner, 1);
            type(kinds[i].close, levels - kinds[i].outside);
            type(kinds[i].last, 1);
            snprintf(name, sizeof name, "%s, %d levels", kinds[i].name, levels);
            measure_rule(name);
        }
    }
    type("while true do if true then ", 30);
    type("while ", 1);
    type("[", 60);
    type("1 < ", 1);
    type("choose(true, (", 60);
    type("(", 15);
    type("1", 1);
    type(")", 15);
    type("), 2)", 60);
    type("]", 60);
    type(" do skip end", 1);
    type(" else skip end end", 30);
    measure_rule("all kinds, 256 levels");
    type("v1 := v2 + 3; ", 204);
    type("v1 := v2 + 3", 1);
    measure_rule("1,024 nodes in a row");
    type("skip; ", 1024);
    type("skip", 1);
    measure_rule("2,049 nodes in a row");
    type("v0 := 1", 1);
    type(" + 1", 1024);
    measure_rule("2,050 nodes in a sum");
    type("(", 1024);
    measure_rule("nothing of the grammar");
    measure_rule("nothing typed");
}

int main(void) {
    static const struct {
        const char *name;
        uint32_t first, second;
        int word;
    } shapes[] = {{"sums, in p", SUM, SUM, 0},
                  {"sums, in q", SUM, SUM, 1},
                  {"chooses, in q", CHOOSE, CHOOSE, 1},
                  {"chooses, in r", CHOOSE, CHOOSE, 2},
                  {"comparisons and chooses, in p", LESS, CHOOSE, 0},
                  {"nots", NOT, NOT, 0},
                  {"ands, in p", AND, AND, 0},
                  {"ands, in q", AND, AND, 1},
                  {"sequences, in p", SEQUENCE, SEQUENCE, 0},
                  {"sequences, in q", SEQUENCE, SEQUENCE, 1},
                  {"ifs, in q", IF, IF, 1},
                  {"ifs, in r", IF, IF, 2},
                  {"whiles", WHILE, WHILE, 1},
                  {"whiles and ifs, in q", WHILE, IF, 1}};
    for (size_t i = 0; i < sizeof shapes / sizeof *shapes; i++) {
        char name[64];
        for (int depth = 256; depth <= 300; depth += 44) { // the deepest accepted, and one refused 9
            deep(depth, shapes[i].first, shapes[i].second, shapes[i].word);
            snprintf(name, sizeof name, "%s, depth %d", shapes[i].name, depth);
            measure(name);
        }
    }
    full(SKIP);
    measure("1,024 skips");
    full(NUMBER);
    measure("1,024 numbers");
    full(0);
    measure("1,024 nodes of no kind");
    measure_rules();
    return too_deep;
}
