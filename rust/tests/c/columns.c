/* Makes each call with a length of its own for every buffer, in memory with margins, and prints what it answers and what it leaves there:
 * rust/tests/tests/columns.rs knows what it must be, the same for both sizes. A run has ten arguments and the place of its answer, more than go
 * in registers. Each length decides something, so that two arguments that change places on the way are seen.
 */
#include "size.h"
#include <stddef.h>
#include <stdint.h>
#include <stdio.h>

_Static_assert(MESPINDRO_WRONG_COLUMN == 14, "the refusal");
_Static_assert(COLUMN == NODES, "one number a node");
_Static_assert(TABLE == 2 * NODES, "two numbers a node");

enum { MARGIN = 8, MOST = 48, MARK = 43356, BEFORE = 7 };

/* A buffer between two margins. */
struct lent {
    const char *name;
    size_t length;
    uint16_t cells[MARGIN + MOST + MARGIN];
};

static struct lent table = {"table", 41, {0}};
static struct lent column = {"column", 22, {0}};
static struct lent other = {"other table", 47, {0}};
static struct lent other_column = {"other column", 25, {0}};

static uint16_t *part(struct lent *lent) { return lent->cells + MARGIN; }

static void lend(struct lent *lent, size_t length) {
    lent->length = length;
    for (size_t i = 0; i < MARGIN + MOST + MARGIN; i++)
        lent->cells[i] = MARK;
    for (size_t i = 0; i < length; i++)
        part(lent)[i] = BEFORE;
}

/* Whether all numbers but the lent ones are as they were. */
static int margins_kept(const struct lent *lent) {
    int kept = 1;
    for (size_t i = 0; i < MARGIN + MOST + MARGIN; i++)
        if (i < MARGIN || i >= MARGIN + lent->length) kept &= lent->cells[i] == MARK;
    return kept;
}

/* The lent numbers; the last ones, where they are equal, once. */
static void show(struct lent *lent) {
    const uint16_t *numbers = part(lent);
    size_t end = lent->length;
    while (end > 1 && numbers[end - 2] == numbers[lent->length - 1])
        end--;
    printf("  %s:", lent->name);
    for (size_t i = 0; i < end; i++)
        printf(" %u", (unsigned)numbers[i]);
    if (end < lent->length) printf(", %zu times", lent->length - end + 1);
    printf(margins_kept(lent) ? "\n" : ", and written outside\n");
}

static void show_all(void) {
    show(&table);
    show(&column);
    show(&other);
    show(&other_column);
}

/* ((u (a (L 2 (b0)) (a (L 0 (b0 c1)) x1)) x2)): 17 nodes, and 19 on the way */
static const char grown[] = "((1:u(1:a(1:L1:2((1:v1:0)))(1:a(1:L1:0((1:v1:0)(1:c1:1)))(1:x1:1)))(1:x1:2)))";
/* (c1 (g c1 c2)): 7 nodes, and 5 after its step */
static const char guarded[] = "((1:c1:1)(1:g(1:c1:1)(1:c1:2)))";

static size_t read(const char *text, size_t length) {
    struct mespindro_count read = CALL(read)((const uint8_t *)text, length, part(&table), table.length, part(&column), column.length);
    printf("read: count %zu, refusal %u\n", read.count, (unsigned)read.refusal);
    return read.count;
}

static void write(size_t count, size_t length) {
    static uint8_t text[100];
    struct mespindro_count wrote = CALL(write)(part(&table), table.length, part(&column), column.length, count, text, length);
    printf("write: count %zu, refusal %u, %.*s\n", wrote.count, (unsigned)wrote.refusal, (int)wrote.count, (const char *)text);
}

static void step(size_t count) {
    struct mespindro_move move = CALL(step)(part(&table), table.length, part(&column), column.length, count, part(&other), other.length,
                                            part(&other_column), other_column.length);
    printf("step: nodes %zu, thread %lu, rule %u, refusal %u\n", move.nodes, (unsigned long)move.thread, (unsigned)move.rule,
           (unsigned)move.refusal);
}

static size_t run(size_t count, uint32_t most) {
    struct mespindro_stop stop = CALL(run)(part(&table), table.length, part(&column), column.length, count, part(&other), other.length,
                                           part(&other_column), other_column.length, most);
    printf("run: nodes %zu, steps %lu, beta %lu, unif %lu, reason %u, refusal %u\n", stop.nodes, (unsigned long)stop.steps,
           (unsigned long)stop.counts.beta, (unsigned long)stop.counts.unif, (unsigned)stop.reason, (unsigned)stop.refusal);
    return stop.nodes;
}

static void threads(size_t count, size_t k) {
    struct mespindro_stand stand = CALL(standing)(part(&table), table.length, part(&column), column.length, count, k);
    struct mespindro_part thread = CALL(thread)(part(&table), table.length, part(&column), column.length, count, k);
    printf("thread %zu: standing %u, refusal %u, start %zu, length %zu\n", k, (unsigned)stand.standing, (unsigned)stand.refusal, thread.start,
           thread.length);
}

/* Lends all four buffers anew, and reads. */
static size_t anew(const char *text, size_t length, size_t lengths[4]) {
    lend(&table, lengths[0]);
    lend(&column, lengths[1]);
    lend(&other, lengths[2]);
    lend(&other_column, lengths[3]);
    return read(text, length);
}

/* A step with one of the lengths too short at a time, and with all of them long enough. */
static void steps(void) {
    size_t enough[4] = {15, 8, 12, 6}, less[4] = {13, 6, 9, 4};
    for (size_t i = 0; i < 4; i++) {
        struct lent *all[4] = {&table, &column, &other, &other_column};
        size_t count = anew(guarded, sizeof guarded - 1, enough);
        all[i]->length = less[i];
        printf("%s of %zu\n", all[i]->name, less[i]);
        step(count);
        all[i]->length = enough[i];
        show_all();
    }
    size_t count = anew(guarded, sizeof guarded - 1, enough);
    write(count, 31);
    threads(count, 0);
    threads(count, 1);
    threads(count, 2);
    step(count);
    show_all();
}

/* A run with room for one node less than it needs, by each of the lengths; and with enough, in two calls. */
static void runs(void) {
    size_t enough[4] = {41, 22, 47, 25}, less[4] = {37, 18, 36, 18};
    for (size_t i = 0; i < 4; i++) {
        size_t lengths[4] = {enough[0], enough[1], enough[2], enough[3]};
        lengths[i] = less[i];
        size_t count = anew(grown, sizeof grown - 1, lengths);
        (void)run(count, 4);
        show_all();
    }
    size_t count = anew(grown, sizeof grown - 1, enough);
    count = run(count, 4);
    show_all();
    (void)run(count, 3);
    show_all();
}

int main(void) {
    steps();
    runs();
    return 0;
}
