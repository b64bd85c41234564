/* Prints every field of what a step and a run answer, accepted and refused, for the program of a text: rust/tests/tests/which_rule.rs knows what
 * it must be. Each field is printed by its name, so that one that arrives in another's place is seen.
 */
#include "size.h"
#include <stddef.h>
#include <stdint.h>
#include <stdio.h>

#define STANDS(type, field, place) _Static_assert(offsetof(struct type, field) == (place), #field)

_Static_assert(sizeof(struct mespindro_move) == 16, "a step's answer");
STANDS(mespindro_move, nodes, 0);
STANDS(mespindro_move, thread, 8);
STANDS(mespindro_move, rule, 12);
STANDS(mespindro_move, refusal, 14);

_Static_assert(sizeof(struct mespindro_counts) == 24, "the counts");
STANDS(mespindro_counts, alloc, 0);
STANDS(mespindro_counts, beta, 4);
STANDS(mespindro_counts, fresh, 8);
STANDS(mespindro_counts, guard, 12);
STANDS(mespindro_counts, unif, 16);
STANDS(mespindro_counts, fail, 20);

_Static_assert(sizeof(struct mespindro_stop) == 40, "a run's answer");
STANDS(mespindro_stop, nodes, 0);
STANDS(mespindro_stop, steps, 8);
STANDS(mespindro_stop, counts, 12);
STANDS(mespindro_stop, reason, 36);
STANDS(mespindro_stop, refusal, 38);

_Static_assert(MESPINDRO_RULE_ALLOC == 1, "alloc");
_Static_assert(MESPINDRO_RULE_BETA == 2, "beta");
_Static_assert(MESPINDRO_RULE_FRESH == 3, "fresh");
_Static_assert(MESPINDRO_RULE_GUARD == 4, "guard");
_Static_assert(MESPINDRO_RULE_UNIF == 5, "unif");
_Static_assert(MESPINDRO_RULE_FAIL == 6, "fail");

static uint8_t text[TEXT + 1];
static uint16_t table[TABLE], column[COLUMN];
static uint16_t work[TABLE], work_column[COLUMN];

static void step(size_t count) {
    struct mespindro_move move = CALL(step)(table, TABLE, column, COLUMN, count, work, TABLE, work_column, COLUMN);
    printf("step: nodes %zu, thread %lu, rule %u, refusal %u\n", move.nodes, (unsigned long)move.thread, (unsigned)move.rule, (unsigned)move.refusal);
}

static size_t run(size_t count) {
    struct mespindro_stop stop = CALL(run)(table, TABLE, column, COLUMN, count, work, TABLE, work_column, COLUMN, 1000);
    printf("run: nodes %zu, steps %lu, alloc %lu, beta %lu, fresh %lu, guard %lu, unif %lu, fail %lu, reason %u, refusal %u\n", stop.nodes,
           (unsigned long)stop.steps, (unsigned long)stop.counts.alloc, (unsigned long)stop.counts.beta, (unsigned long)stop.counts.fresh,
           (unsigned long)stop.counts.guard, (unsigned long)stop.counts.unif, (unsigned long)stop.counts.fail, (unsigned)stop.reason,
           (unsigned)stop.refusal);
    return stop.nodes;
}

/* A single step of the program; a run of it; both of its end; both with a count that is refused. */
int main(int count, char **arguments) {
    FILE *file = count == 2 ? fopen(arguments[1], "rb") : NULL;
    if (!file) {
        fprintf(stderr, "which_rule FILE\n");
        return 2;
    }
    size_t length = fread(text, 1, sizeof text, file);
    fclose(file);
    struct mespindro_count read = CALL(read)(text, length, table, TABLE, column, COLUMN);
    step(read.count);
    size_t nodes = run(read.count);
    step(nodes);
    run(nodes);
    step(0);
    run(0);
    return 0;
}
