/* Places tenants on ports: reads a rule set from a file (rules/leaf-48.csexp is one), runs it, and prints a line for each alternative of its
 * end.
 *
 * tools/install puts the header and the archive where pkg-config finds them:
 *
 *     tools/install "$HOME/mespindro" && export PKG_CONFIG_PATH="$HOME/mespindro/lib/pkgconfig"
 *     cc examples/place.c $(pkg-config --cflags --libs mespindro) -o place && ./place rules/leaf-48.csexp
 *
 * Its exit status is 0 where there is an alternative and every one is a placement. A switch that is to be configured from this output must not go on otherwise.
 */
#include <mespindro.h>
#include <stdint.h>
#include <stdio.h>

/* The numbers of the rule sets in rules/. */
enum { PLACEMENT = 3, PORTS = 5000, TENANTS = 6000, RANGE = 1000 };

/* A placement has seven nodes, the function before its argument. */
enum { PLACEMENT_NODES = 7 };

enum { STEP_LIMIT = 10000 };

/* One byte more than a text may have, so that a file that is too long is seen by the library and not cut. */
static uint8_t text[MESPINDRO_SMALL_TEXT + 1];
/* Beside each table its column, which the calls keep. A leaf's rule set fits the small size; for a larger one take the names without `small`. */
static uint16_t table[MESPINDRO_SMALL_TABLE], column[MESPINDRO_SMALL_COLUMN];
static uint16_t work[MESPINDRO_SMALL_TABLE], work_column[MESPINDRO_SMALL_COLUMN];

/* The names of docs/USING.md, which tells what an operator is to look at. */
static const char *refusal_name(uint16_t refusal) {
    switch (refusal) {
    case MESPINDRO_NO_PROGRAM: return "no program";
    case MESPINDRO_TOO_LONG: return "too long";
    case MESPINDRO_NOT_CANONICAL: return "not canonical";
    case MESPINDRO_OUT_OF_PLACE: return "out of place";
    case MESPINDRO_BAD_NUMBER: return "bad number";
    case MESPINDRO_NO_BINDER: return "no binder";
    case MESPINDRO_TOO_MANY_NODES: return "too many nodes";
    case MESPINDRO_INCOHERENT: return "incoherent";
    case MESPINDRO_NO_ROOM: return "no room";
    case MESPINDRO_NO_THREAD: return "no thread";
    case MESPINDRO_FINISHED: return "finished";
    case MESPINDRO_WRONG_COLUMN: return "wrong column";
    default: return "a refusal that this program does not know";
    }
}

static int refused(const char *call, uint16_t refusal) {
    printf("%s refused, %u: %s\n", call, (unsigned)refusal, refusal_name(refusal));
    return 0;
}

/* A port or a tenant is numbered from its range's base; a small number stands for itself. */
static unsigned plain(uint16_t constructor, unsigned base) {
    return constructor >= base && constructor < base + RANGE ? constructor - base : constructor;
}

/* Is it (a (a (a PLACEMENT tenant) port) vlan)? Prints it then. */
static int print_placement(const uint16_t *nodes, size_t length) {
    static const uint16_t kinds[PLACEMENT_NODES] = {
        MESPINDRO_APPLICATION, MESPINDRO_APPLICATION, MESPINDRO_APPLICATION, MESPINDRO_CONSTRUCTOR,
        MESPINDRO_CONSTRUCTOR, MESPINDRO_CONSTRUCTOR, MESPINDRO_CONSTRUCTOR,
    };
    if (length != 2 * PLACEMENT_NODES) return 0;
    for (size_t i = 0; i < PLACEMENT_NODES; i++)
        if (nodes[2 * i] != kinds[i]) return 0;
    if (nodes[7] != PLACEMENT) return 0;
    printf("tenant %u -> port %u, VLAN %u\n", plain(nodes[9], TENANTS), plain(nodes[11], PORTS), (unsigned)nodes[13]);
    return 1;
}

/* An answer is built of constructors alone: what is left to ask is whether it has a placement's shape. */
static int print_thread(size_t k, uint16_t standing, struct mespindro_part part) {
    switch (standing) {
    case MESPINDRO_ANSWER:
        if (print_placement(table + part.start, part.length)) return 1;
        printf("thread %zu: an answer, but no placement of tenant, port and VLAN\n", k);
        return 0;
    case MESPINDRO_PARTIAL: printf("thread %zu: partial, something in it is undecided or still a rule\n", k); return 0;
    case MESPINDRO_STUCK: printf("thread %zu: stuck, no rule applies\n", k); return 0;
    case MESPINDRO_OPEN: printf("thread %zu: open, there was more to do\n", k); return 0;
    default: printf("thread %zu: a standing that this program does not know\n", k); return 0;
    }
}

/* Prints every thread of the program in the table; true where there is one and all are placements. */
static int print_threads(size_t nodes) {
    int all = 1;
    for (size_t k = 0;; k++) {
        struct mespindro_stand stand = mespindro_small_standing(table, MESPINDRO_SMALL_TABLE, column, MESPINDRO_SMALL_COLUMN, nodes, k);
        if (stand.refusal == MESPINDRO_NO_THREAD) {
            if (k == 0) printf("no alternative is left: the request cannot be met\n");
            return all && k > 0;
        }
        if (stand.refusal != MESPINDRO_ACCEPTED) return refused("standing", stand.refusal);
        struct mespindro_part part = mespindro_small_thread(table, MESPINDRO_SMALL_TABLE, column, MESPINDRO_SMALL_COLUMN, nodes, k);
        if (!print_thread(k, stand.standing, part)) all = 0;
    }
}

/* What a run that did not end has spent its steps on: the rules of the calculus, with how often each was used. */
static void print_counts(struct mespindro_counts counts) {
    printf("  alloc %lu, beta %lu, fresh %lu, guard %lu, unif %lu, fail %lu\n", (unsigned long)counts.alloc, (unsigned long)counts.beta,
           (unsigned long)counts.fresh, (unsigned long)counts.guard, (unsigned long)counts.unif, (unsigned long)counts.fail);
}

static int place(size_t length) {
    struct mespindro_count read = mespindro_small_read(text, length, table, MESPINDRO_SMALL_TABLE, column, MESPINDRO_SMALL_COLUMN);
    if (read.refusal != MESPINDRO_ACCEPTED) return refused("read", read.refusal);
    struct mespindro_stop stop = mespindro_small_run(table, MESPINDRO_SMALL_TABLE, column, MESPINDRO_SMALL_COLUMN, read.count,
                                                     work, MESPINDRO_SMALL_TABLE, work_column, MESPINDRO_SMALL_COLUMN, STEP_LIMIT);
    if (stop.refusal != MESPINDRO_ACCEPTED) return refused("run", stop.refusal);
    if (stop.reason == MESPINDRO_STEPS) printf("stopped after %lu steps: not ended\n", (unsigned long)stop.steps);
    if (stop.reason == MESPINDRO_ROOM) printf("stopped after %lu steps for want of room: not ended\n", (unsigned long)stop.steps);
    if (stop.reason != MESPINDRO_ENDED) print_counts(stop.counts);
    int all = print_threads(stop.nodes);
    return all && stop.reason == MESPINDRO_ENDED;
}

int main(int count, char **arguments) {
    if (count != 2) {
        fprintf(stderr, "place FILE\n");
        return 2;
    }
    FILE *file = fopen(arguments[1], "rb");
    if (!file) {
        perror(arguments[1]);
        return 2;
    }
    size_t length = fread(text, 1, sizeof text, file);
    int failed = ferror(file);
    fclose(file);
    if (failed) {
        fprintf(stderr, "%s: cannot be read\n", arguments[1]);
        return 2;
    }
    return place(length) ? 0 : 1;
}
