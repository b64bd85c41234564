/* Whether the constants and the calls of a size agree: just inside each limit and just outside it, with buffers that hold more. Prints a line for
 * each; rust/tests/tests/limits_in_c.rs knows what it must be.
 */
#include "size.h"
#include <stddef.h>
#include <stdint.h>
#include <stdio.h>
#include <string.h>

_Static_assert(COLUMN == NODES, "one number a node");
_Static_assert(TABLE == 2 * NODES, "two numbers a node");
_Static_assert(TEXT == 12 * NODES, "twelve bytes a node");
_Static_assert(MESPINDRO_NODES == 8 * MESPINDRO_SMALL_NODES, "the large size is eight times the small one");

/* What is lent beyond the limit, so that a refusal comes of the limit and not of the room. */
enum { MORE = 64 };

static uint8_t text[TEXT + MORE], written[TEXT + MORE];
static uint16_t table[TABLE + 2 * MORE], column[COLUMN + MORE];
static uint16_t other[TABLE + 2 * MORE], other_column[COLUMN + MORE];

static size_t put(size_t at, const char *part) {
    memcpy(text + at, part, strlen(part));
    return at + strlen(part);
}

/* c0 below so many fresh nodes, three nodes more in all; answers the text's length */
static size_t nested(size_t fresh) {
    size_t at = put(0, "(");
    for (size_t i = 0; i < fresh; i++)
        at = put(at, "(1:n");
    at = put(at, "(1:c1:0)");
    for (size_t i = 0; i < fresh; i++)
        at = put(at, ")");
    return put(at, ")");
}

/* one node with a number */
static size_t single(char tag, unsigned number, const char *behind) {
    char digits[12], node[40];
    snprintf(digits, sizeof digits, "%u", number);
    snprintf(node, sizeof node, "((1:%c%zu:%s%s))", tag, strlen(digits), digits, behind);
    return put(0, node);
}

static size_t read(const char *what, size_t length) {
    struct mespindro_count read = CALL(read)(text, length, table, TABLE + 2 * MORE, column, COLUMN + MORE);
    printf("%s: %zu, refusal %u\n", what, read.count, (unsigned)read.refusal);
    return read.count;
}

/* The limit of nodes: a program of as many is read into a table of TABLE numbers with a column of COLUMN, written as the text that it was, and
 * stepped; one more is refused. */
static void nodes(void) {
    size_t length = nested(NODES - 3);
    struct mespindro_count read_full = CALL(read)(text, length, table, TABLE, column, COLUMN);
    printf("read full: %zu, refusal %u\n", read_full.count, (unsigned)read_full.refusal);
    struct mespindro_count wrote = CALL(write)(table, TABLE, column, COLUMN, NODES, written, TEXT);
    int same = wrote.count == length && memcmp(text, written, length) == 0;
    printf("written: %s, refusal %u\n", same ? "the same" : "another", (unsigned)wrote.refusal);
    struct mespindro_move move = CALL(step)(table, TABLE, column, COLUMN, NODES, other, TABLE, other_column, COLUMN);
    printf("step: %zu, rule %u, refusal %u\n", move.nodes, (unsigned)move.rule, (unsigned)move.refusal);
    (void)read("one more", nested(NODES - 2));
}

/* A table of one node more than the limit, made by hand: no call takes it. */
static void table_of_more(void) {
    for (size_t i = 0; i < NODES + 1; i++) {
        table[2 * i] = MESPINDRO_FRESH;
        table[2 * i + 1] = 0;
        column[i] = (uint16_t)(NODES - i);
    }
    table[0] = MESPINDRO_ALTERNATIVE;
    table[2 * NODES - 2] = MESPINDRO_CONSTRUCTOR;
    table[2 * NODES] = MESPINDRO_EMPTY;
    column[0] = NODES + 1;
    column[NODES - 1] = column[NODES] = 1;
    size_t numbers = TABLE + 2 * MORE, entries = COLUMN + MORE, count = NODES + 1;
    unsigned write = CALL(write)(table, numbers, column, entries, count, written, TEXT + MORE).refusal;
    unsigned step = CALL(step)(table, numbers, column, entries, count, other, numbers, other_column, entries).refusal;
    unsigned run = CALL(run)(table, numbers, column, entries, count, other, numbers, other_column, entries, 1).refusal;
    unsigned standing = CALL(standing)(table, numbers, column, entries, count, 0).refusal;
    size_t thread = CALL(thread)(table, numbers, column, entries, count, 0).length;
    printf("table of more: write %u, step %u, run %u, standing %u, thread of %zu\n", write, step, run, standing, thread);
}

/* The text of (a (L 0 (b0 N)) V), where N is b0 below so many fresh nodes and V a structure of NODES / 2 - 3 nodes: its beta makes NODES - 3
 * nodes of it, and the fresh ones. Answers the text's length. */
static size_t doubled(size_t fresh) {
    char bound[20];
    size_t at = put(0, "((1:a(1:L1:0((1:v1:0)");
    for (size_t i = 0; i < fresh; i++)
        at = put(at, "(1:n");
    snprintf(bound, sizeof bound, "(1:v1:%zu)", fresh);
    at = put(at, bound);
    for (size_t i = 0; i < fresh; i++)
        at = put(at, ")");
    at = put(at, "))");
    for (size_t i = 0; i < NODES / 4 - 2; i++)
        at = put(at, "(1:a");
    at = put(at, "(1:c1:1)");
    for (size_t i = 0; i < NODES / 4 - 2; i++)
        at = put(at, "(1:c1:1))");
    return put(at, "))");
}

/* A step's result of so many nodes; and a run's room is the limit, whatever is lent. */
static void result(const char *what, size_t fresh) {
    size_t numbers = TABLE + 2 * MORE, entries = COLUMN + MORE;
    size_t count = CALL(read)(text, doubled(fresh), table, numbers, column, entries).count;
    struct mespindro_move move = CALL(step)(table, numbers, column, entries, count, other, numbers, other_column, entries);
    printf("%s, step: %zu, refusal %u\n", what, move.nodes, (unsigned)move.refusal);
    struct mespindro_stop stop = CALL(run)(table, numbers, column, entries, count, other, numbers, other_column, entries, 9);
    printf("%s, run: %lu steps, reason %u, refusal %u\n", what, (unsigned long)stop.steps, (unsigned)stop.reason, (unsigned)stop.refusal);
}

/* The ranges of numbers: those of free variables, locations and indices go with the limit, those of constructors do not. */
static void numbers(void) {
    (void)read("x last", single('x', NODES - 1, ""));
    (void)read("x beyond", single('x', NODES, ""));
    (void)read("L last", single('L', NODES - 1, "()"));
    (void)read("L beyond", single('L', NODES, "()"));
    (void)read("v last", single('v', NODES - 1, ""));
    (void)read("v beyond", single('v', NODES, ""));
    (void)read("c last", single('c', 65535, ""));
    (void)read("c beyond", single('c', 65536, ""));
}

/* The limit of a text's bytes. */
static void bytes(void) {
    memset(text, 'x', sizeof text);
    (void)read("text full", TEXT);
    (void)read("text beyond", TEXT + 1);
}

/* What only the large calls take: read by both; and what the large read has left, handed to a small call. */
static void both(const char *what, size_t length) {
    static uint16_t large[MESPINDRO_TABLE], large_column[MESPINDRO_COLUMN];
    struct mespindro_count read = mespindro_read(text, length, large, MESPINDRO_TABLE, large_column, MESPINDRO_COLUMN);
    unsigned small = mespindro_small_read(text, length, large, 0, large_column, 0).refusal;
    unsigned standing = mespindro_small_standing(large, MESPINDRO_TABLE, large_column, MESPINDRO_COLUMN, read.count, 0).refusal;
    printf("%s: %zu, small read %u, small standing %u\n", what, read.count, small, standing);
}

int main(void) {
    nodes();
    table_of_more();
    result("full result", 3);
    result("result of more", 4);
    numbers();
    bytes();
    both("2,046 fresh", nested(2046));
    both("4,913 fresh", nested(4913));
    both("4,914 fresh", nested(4914));
    both("x2048", single('x', 2048, ""));
    both("L2048", single('L', 2048, "()"));
    return 0;
}
