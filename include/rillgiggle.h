/* Rillgiggle: break rules read, checked, run, compiled to jump code, and that code run. Link target/staticlib/libboundary.a
 * (bash tools/build; x86-64 Linux). C99 or later, C++ too.
 *
 * Every call ends, checks its input itself, and writes all eight words of `answer`. A refusal alters nothing else;
 * success alters only the words or bytes that it writes, from the front of `room` on, and a run its stores. No call
 * allocates, keeps a pointer, or uses anything global: calls from several threads need only buffers of their own.
 *
 * A pointer is given with its length in elements (words, values or bytes, as its type says). No pointer may be NULL, also
 * where the length is 0; each must be aligned for its type; and a buffer that is written may not overlap another.
 *
 * A table is four words a node: kind, p, q, r. Code is four words an instruction: label, operation, x, y.
 *
 * Example: the rule "v1 := 7" as a table, compiled at label 1, and its code run.
 *
 *   uint32_t table[8] = { 1, 7, 0, 0,                                            node 0: the number 7
 *                         33, 1, 0, 0 };                                         node 1: v1 := node 0
 *   uint32_t code[4], answer[RILL_WORDS];
 *   int32_t store[RILL_VARIABLES] = { 0 };
 *   rill_compile(table, 8, 1, code, 4, answer);
 *   if (answer[RILL_VERDICT] == RILL_DONE) {
 *       size_t words = 4 * (size_t)answer[RILL_AMOUNT];
 *       rill_run_code(table, 8, code, words, 1, store, RILL_VARIABLES, 100, answer);
 *       (answer is finished at label 2 in 1 step, and store[1] is 7)
 *   }
 */
#ifndef RILLGIGGLE_H
#define RILLGIGGLE_H

#include <stddef.h>
#include <stdint.h>

#ifdef __cplusplus
extern "C" {
#endif

/* The words of an answer. A word that a call says nothing of below is 0. */
enum {
    RILL_VERDICT = 0, /* how the call ended: one of the verdicts below */
    RILL_NUMBER = 1,  /* of a refusal, its number */
    RILL_PLACE = 2,   /* of a refusal, its place */
    RILL_LABEL = 3,   /* of a code run, the label it stands at; of compilation, the end label */
    RILL_AMOUNT = 4,  /* of a run, the steps; of compilation, the instructions; of text, the words read or bytes written; of
                       * a typed rule, the words of its table */
    RILL_WORDS = 8    /* how many there are; words 5 to 7 are 0 */
};

/* The verdicts. */
enum {
    RILL_DONE = 0,        /* check, compilation, depot, text, typed rule: accepted, made, all run, read or written */
    RILL_FINISHED = 1,    /* a run came to its end within the fuel */
    RILL_OUT_OF_FUEL = 2, /* a run spent all its fuel before its end */
    RILL_REFUSED = 3      /* the input is against the rules: number and place say where */
};

/* A store has this many values: the variables v0 to v31. A depot has at most this many stores. */
enum { RILL_VARIABLES = 32, RILL_CREWS = 512 };

/* The words of a crew in the room of a depot. */
enum {
    RILL_CREW_VERDICT = 0, /* one of the two below, which are not numbered as an answer's verdicts are */
    RILL_CREW_LABEL = 1,   /* the label its run stands at */
    RILL_CREW_STEPS = 2,   /* the steps of its run */
    RILL_CREW_WORDS = 3    /* how many there are */
};
enum { RILL_CREW_FINISHED = 0, RILL_CREW_OUT_OF_FUEL = 1 };

/* Refusals, with their places. Every call that takes a table may give 1 to 9; which others, is said at each call.
 * Numbers 2 to 6 go node by node from 0, the lowest number at a node first; otherwise the lowest number wins. For a typed
 * rule the order is 17, 1, 9, 15.
 *    1  table words not a multiple of 4, none, or over 4,096; a typed rule of
 *       over 1,024 nodes                                                         0
 *    2  unknown kind                                                             node
 *    3  an unused word is not 0                                                  node
 *    4  variable over 31                                                         node
 *    5  child not below its parent                                               node (the parent)
 *    6  child of the wrong class                                                 node (the parent)
 *    7  root not a statement                                                     root
 *    8  a node other than the root not a child exactly once                      the lowest such node
 *    9  depth over 256                                                           0
 *   10  store not 32 values; in a depot, stores not a multiple of 32 values, or
 *       over 16,384                                                              0
 *   11  start label over 65,535; in compiling, also end label over 65,535        0
 *   12  room under four words an instruction                                     0
 *   13  code: words not a multiple of 4 or over 4,096 (place 0); else a bad field, a
 *       label that does not rise, or a node of the wrong class                   the first such instruction, from 0
 *   14  text: a line not 32 digits and newline, or a 1,025th line                the first such line, from 0
 *       in writing: words not a multiple of 4, or over 4,096                     the lesser of 1,024 and the whole frames
 *   15  room too small for the words or bytes                                    0
 *   16  depot: room under three words a crew                                     0
 *   17  typed rule: not in the grammar                                           the bytes of its longest beginning that
 *                                                                                also begins a rule of the grammar
 */

/* Checks a table. Done, or refused 1 to 9. Writes nothing but the answer. */
void rill_check(const uint32_t *table, size_t table_words, uint32_t answer[8]);

/* Compiles a table to jump code at the start label, into the front of room: four words an instruction. A table of N nodes
 * has at most N - 1 instructions, so 4 * N words always suffice.
 * Done: LABEL is the end label, AMOUNT the number of instructions. Refused 1 to 9, 11, 12. */
void rill_compile(const uint32_t *table, size_t table_words, uint32_t start, uint32_t *room, size_t room_words,
                  uint32_t answer[8]);

/* Runs the table's rule on the store, within fuel steps: one for each assignment, each test, and each jump that closes a
 * then branch or a loop pass.
 * Finished: AMOUNT is the steps. Out of fuel: AMOUNT is the fuel, and the store has exactly the assignments among those
 * steps. Refused 1 to 10. */
void rill_run_source(const uint32_t *table, size_t table_words, int32_t *store, size_t store_values, uint32_t fuel,
                     uint32_t answer[8]);

/* Runs jump code, compiled or written by hand, over the table whose expressions it names, from the start label on, within
 * fuel steps. A label that no instruction bears is a finish, also the start label.
 * Finished or out of fuel: LABEL is where it stands, AMOUNT the steps. Refused 1 to 11, 13. */
void rill_run_code(const uint32_t *table, size_t table_words, const uint32_t *code, size_t code_words, uint32_t start,
                   int32_t *store, size_t store_values, uint32_t fuel, uint32_t answer[8]);

/* Runs jump code for every crew of a depot, as rill_run_code would one by one: crew i has the 32 values of stores from 32 * i
 * on, and each run begins at the start label with the whole fuel. Table and code are checked once for all. There may be no
 * crews. The three words of crew i stand in room from 3 * i on; what lies behind the last crew's is not touched.
 * Done. Refused 1 to 11, 13, 16. */
void rill_run_depot(const uint32_t *table, size_t table_words, const uint32_t *code, size_t code_words, uint32_t start,
                    int32_t *stores, size_t stores_values, uint32_t fuel, uint32_t *room, size_t room_words,
                    uint32_t answer[8]);

/* Reads text of a table or of code into the front of room: each line is four words of eight lower-case hexadecimal digits,
 * then a newline (byte 10), the last line too. Empty text is no words.
 * Done: AMOUNT is the words read, four a line. Refused 14, 15. */
void rill_read_text(const uint8_t *text, size_t text_bytes, uint32_t *room, size_t room_words, uint32_t answer[8]);

/* Writes words as such text into the front of room: 33 bytes for four words, and no byte 0 at the end.
 * Done: AMOUNT is the bytes written. Refused 14, 15. */
void rill_write_text(const uint32_t *words, size_t words_count, uint8_t *room, size_t room_bytes, uint32_t answer[8]);

/* Reads a rule as planners type it, and writes its table into the front of room: four words a node, children first, left to
 * right. A table has at most 4,096 words, so that many always suffice.
 *
 *   P, a rule:   one or more statements, separated by ";", which group to the right
 *   a statement: skip      v7 := a      if b then P else P end      while b do P end
 *   a:           0 to 2147483647 without leading zeros, v0 to v31, (a), choose(b, a, a); joined by * / % and, less closely,
 *                by + -, all to the left
 *   b:           true, false, a = a, a <= a, a < a, [b], each perhaps with one not before it; joined by and, to the left
 *
 * Blanks (byte 32) and newlines (byte 10) may stand around all of these, and must part two words (runs of letters or digits);
 * no other byte is one. Brackets, chooses, ifs and whiles nest at most 256 deep: a choose is one level with its brackets, and
 * the test of an if or a while is inside it.
 * Done: AMOUNT is the words of the table, and rill_check accepts it. Refused, in this order: 17, 1, 9, 15. A place over
 * 4294967295 is told as 4294967295. */
void rill_read_rule(const uint8_t *text, size_t text_bytes, uint32_t *room, size_t room_words, uint32_t answer[8]);

#ifdef __cplusplus
}
#endif

#endif
