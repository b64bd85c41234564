/* How much stack each call takes: the stack below a call is painted, and what the call has touched is looked for. With files of rule sets on
 * those; without any on the deepest inputs, and then, for the small calls, how deep an input may be for a task with a small stack. tools/stack
 * builds it at both sizes and runs it. */
#include "../rust/tests/c/size.h"

int printf(const char *, ...);
int snprintf(char *, size_t, const char *, ...);
int open(const char *, int, ...);
int close(int);
long read(int, void *, size_t);

#define DEEP (6u << 20)
#define PAINT 0xa5
/* the stack of the older leaf's management task */
#define TASK 16384

static uint8_t text[TEXT];
static uint16_t table[TABLE], column[COLUMN];
static uint16_t work[TABLE], work_column[COLUMN];
static size_t length, nodes;

/* The same frame below each time: `paint` fills it, `touched` looks how far from its far end it is unchanged. */
__attribute__((noinline)) static void paint(void) {
    volatile uint8_t below[DEEP];
    for (size_t i = 0; i < DEEP; i++)
        below[i] = PAINT;
}

__attribute__((noinline)) static size_t touched(void) {
    volatile uint8_t below[DEEP];
    size_t i = 0;
    while (i < DEEP && below[i] == PAINT)
        i++;
    return DEEP - i;
}

static void node(uint16_t kind, uint16_t number) {
    table[2 * nodes] = kind;
    table[2 * nodes + 1] = number;
    nodes++;
}

static void begin(void) {
    for (size_t i = 0; i < TABLE; i++)
        table[i] = work[i] = 0;
    for (size_t i = 0; i < COLUMN; i++)
        column[i] = work_column[i] = 0;
    nodes = 0;
    node(1, 0);
}

/* the nodes of the tree that begins at node i; those of its parts are known */
static size_t size_at(size_t i) {
    switch (table[2 * i]) {
    case MESPINDRO_ABSTRACTION:
    case MESPINDRO_ALLOCATED:
    case MESPINDRO_FRESH: return 1 + column[i + 1];
    case MESPINDRO_ALTERNATIVE:
    case MESPINDRO_APPLICATION:
    case MESPINDRO_GUARD:
    case MESPINDRO_UNIFICATION: return 1 + column[i + 1] + column[i + 1 + column[i + 1]];
    default: return 1;
    }
}

/* the end of the list of threads, and the column: from the last node back, since parts stand behind their node */
static void end(void) {
    node(0, 0);
    for (size_t i = nodes; i-- > 0;)
        column[i] = (uint16_t)size_at(i);
}

static void chars(const char *s) {
    while (*s)
        text[length++] = (uint8_t)*s++;
}

/* levels times `head`, the middle, levels times `tail` */
static void nested_text(size_t levels, const char *head, const char *middle, const char *tail) {
    length = 0;
    chars("(");
    for (size_t i = 0; i < levels; i++)
        chars(head);
    chars(middle);
    for (size_t i = 0; i < levels; i++)
        chars(tail);
    chars(")");
}

/* the input's name, in which the count stands */
static char input[80];

static void named(const char *format, size_t count) { (void)snprintf(input, sizeof input, format, (unsigned long)count); }

static void told(const char *call, unsigned refusal, const char *how) {
    printf("%-14s %-66s refusal %2u %8lu bytes%s\n", call, input, refusal, (unsigned long)touched(), how);
}

/* how a run stopped, by its reason's code */
static const char *const stopped[] = {"", ", ended", ", stopped by steps", ", stopped by room"};

static void reading(void) {
    paint();
    unsigned r = CALL(read)(text, length, work, TABLE, work_column, COLUMN).refusal;
    told(CALLED("read"), r, "");
}

static void on_table(uint32_t most) {
    static uint8_t out[TEXT];
    unsigned r;
    paint();
    r = CALL(write)(table, TABLE, column, COLUMN, nodes, out, TEXT).refusal;
    told(CALLED("write"), r, "");
    paint();
    r = CALL(standing)(table, TABLE, column, COLUMN, nodes, 0).refusal;
    told(CALLED("standing"), r, "");
    paint();
    /* the part is empty exactly where the standing call refuses */
    size_t part = CALL(thread)(table, TABLE, column, COLUMN, nodes, 0).length;
    told(CALLED("thread"), part ? 0 : r, "");
    paint();
    r = CALL(step)(table, TABLE, column, COLUMN, nodes, work, TABLE, work_column, COLUMN).refusal;
    told(CALLED("step"), r, "");
    paint();
    struct mespindro_stop stop = CALL(run)(table, TABLE, column, COLUMN, nodes, work, TABLE, work_column, COLUMN, most);
    told(CALLED("run"), stop.refusal, stopped[stop.reason]);
}

/* a rule set, whose file is read in one piece */
static void rule_set(const char *file) {
    int from = open(file, 0);
    long got = from < 0 ? -1 : read(from, text, TEXT);
    if (got < 0) {
        printf("%s: not read\n", file);
        return;
    }
    (void)close(from);
    length = (size_t)got;
    (void)snprintf(input, sizeof input, "%s", file);
    reading();
    begin();
    nodes = CALL(read)(text, length, table, TABLE, column, COLUMN).count;
    on_table(10000);
}

/* a left spine: the head applied to so many constructors */
static void spine(int applications, uint16_t kind, uint16_t number) {
    for (int i = 0; i < applications; i++)
        node(7, 0);
    node(kind, number);
    for (int i = 0; i < applications; i++)
        node(4, 1);
}

/* x0 = c1 */
static void goal(void) {
    node(10, 0);
    node(3, 0);
    node(4, 1);
}

static void spine_beside_goal(int levels) {
    begin();
    node(7, 0);
    spine(levels, 3, 0);
    goal();
    end();
}

static void spine_in_closure(int levels) {
    begin();
    node(7, 0);
    node(7, 0);
    node(4, 9);
    node(6, 0);
    node(1, 0);
    spine(levels, 3, 0);
    node(0, 0);
    goal();
    end();
}

static void spine_in_body(int levels) {
    begin();
    node(7, 0);
    node(6, 0);
    node(1, 0);
    spine(levels, 2, 0);
    node(0, 0);
    node(4, 1);
    end();
}

static void spine_below_fresh(int levels) {
    begin();
    node(8, 0);
    spine(levels, 2, 0);
    end();
}

/* below a fresh node: fresh nodes, each applied to a constructor */
static void fresh_nodes_applied(int levels) {
    begin();
    node(8, 0);
    for (int i = 0; i < levels; i++) {
        node(7, 0);
        node(8, 0);
    }
    node(2, 0);
    for (int i = 0; i < levels; i++)
        node(4, 1);
    end();
}

static void nested_bodies(int levels) {
    begin();
    node(7, 0);
    for (int i = 0; i < levels; i++) {
        node(5, 0);
        node(1, 0);
    }
    node(2, 0);
    for (int i = 0; i < levels; i++)
        node(0, 0);
    node(4, 1);
    end();
}

/* x1 = c8 x0, x2 = c8 x1, ..: each value is looked at through the one before */
static void chain(int levels) {
    node(10, 0);
    for (int i = 0; i < levels; i++)
        node(7, 0);
    node(4, 9);
    for (int i = levels; i > 0; i--)
        node(3, (uint16_t)i);
    for (int i = 0; i < levels; i++)
        node(7, 0);
    node(4, 9);
    for (int i = levels; i > 0; i--) {
        node(7, 0);
        node(4, 8);
        node(3, (uint16_t)(i - 1));
    }
}

/* such a goal alone; and with the last variable behind it */
static void counted_chain(int levels) {
    begin();
    chain(levels);
    end();
}

static void bound_chain(int levels) {
    begin();
    node(9, 0);
    chain(levels);
    node(3, (uint16_t)levels);
    end();
}

/* y0 is the variable of this number: no x has it */
#define Y (NODES / 8)

/* x1 = c8 x0, x2 = c8 x1, .., the same for y, and at last x = y: each pair is met through the one before */
static void meeting_chains(int levels) {
    begin();
    node(10, 0);
    for (int i = 0; i < 2 * levels + 1; i++)
        node(7, 0);
    node(4, 9);
    for (int i = 1; i <= levels; i++) {
        node(3, (uint16_t)i);
        node(3, (uint16_t)(Y + i));
    }
    node(3, (uint16_t)levels);
    for (int i = 0; i < 2 * levels + 1; i++)
        node(7, 0);
    node(4, 9);
    for (int i = 1; i <= levels; i++) {
        node(7, 0);
        node(4, 8);
        node(3, (uint16_t)(i - 1));
        node(7, 0);
        node(4, 8);
        node(3, (uint16_t)(Y + i - 1));
    }
    node(3, (uint16_t)(Y + levels));
    end();
}

/* an input that costs stack by its depth, and the most levels that a table holds */
struct family {
    const char *name;
    void (*build)(int levels);
    int most;
};

static const struct family families[] = {
    {"a left spine of %lu applications beside a goal", spine_beside_goal, NODES / 2 - 4},
    {"a left spine of %lu applications in a closure beside a goal", spine_in_closure, NODES / 2 - 7},
    {"a left spine of %lu applications that a value is put into", spine_in_body, NODES / 2 - 4},
    {"a left spine of %lu applications below a fresh node", spine_below_fresh, NODES / 2 - 3},
    {"%lu fresh nodes, one in the other, each applied, below a fresh node", fresh_nodes_applied, (NODES - 4) / 3},
    {"%lu nested bodies applied to a constructor", nested_bodies, (NODES - 6) / 3},
    {"%lu variables of a goal, each bound to a structure with the next", counted_chain, NODES / 7 - 2},
    {"the same of %lu, with the last one behind the goal", bound_chain, NODES / 7 - 2},
    {"two chains of %lu variables that meet at their ends", meeting_chains, (NODES - 10) / 12},
};
#define FAMILIES (sizeof families / sizeof families[0])

static size_t of_run(const struct family *family, int levels) {
    family->build(levels);
    paint();
    (void)CALL(run)(table, TABLE, column, COLUMN, nodes, work, TABLE, work_column, COLUMN, 10);
    return touched();
}

/* all calls on the deepest one, and what a level costs a run: the difference to half as many */
static void deepest(const struct family *family) {
    int half = family->most / 2;
    named(family->name, (size_t)family->most);
    family->build(family->most);
    on_table(10);
    size_t less = of_run(family, half), bytes = of_run(family, family->most);
    printf("%-14s %-66s %.1f bytes a level\n", CALLED("run"), input, (double)(bytes - less) / (family->most - half));
}

#ifdef SMALL
/* the most levels with which a run stays within the task's stack, and what one more takes */
static void fitting(const struct family *family) {
    size_t bytes = 0, next = 0, count = 0;
    int levels = 0;
    while (levels < family->most) {
        next = of_run(family, levels + 1);
        count = nodes;
        if (next >= TASK)
            break;
        bytes = next;
        levels++;
    }
    named(family->name, (size_t)levels);
    printf("%-14s %-66s fits a stack of %d bytes: %lu", CALLED("run"), input, TASK, (unsigned long)bytes);
    if (levels < family->most)
        printf("; one more, %lu nodes: %lu", (unsigned long)count, (unsigned long)next);
    printf("\n");
}
#endif

static void texts(void) {
    nested_text(0, "", "", "");
    named("()", 0);
    reading();
    nested_text((TEXT - 10) / 5, "(1:n", "(1:c1:0)", ")");
    named("%lu nested fresh nodes, the longest text", (TEXT - 10) / 5);
    reading();
    nested_text((TEXT - 10) / 7, "(1:l(", "(1:c1:0)", "))");
    named("%lu nested abstractions, the longest text", (TEXT - 10) / 7);
    reading();
    nested_text(NODES - 3, "(1:n", "(1:c1:0)", ")");
    named("%lu nested fresh nodes", NODES - 3);
    reading();
}

/* threads without a goal that cost nothing by their depth */
static void flat_threads(void) {
    begin();
    node(4, 1);
    end();
    named("one constructor", 0);
    on_table(10);

    begin();
    for (int i = 0; i < NODES - 3; i++)
        node(8, 0);
    node(4, 1);
    end();
    named("%lu nested fresh nodes", NODES - 3);
    on_table(10);

    begin();
    spine(NODES / 2 - 2, 4, 1);
    end();
    named("a structure of %lu applications, nested on the left", NODES / 2 - 2);
    on_table(10);

    begin();
    for (int i = 0; i < NODES / 2 - 2; i++) {
        node(9, 0);
        node(4, 1);
    }
    node(4, 1);
    end();
    named("%lu guards, nested on the right", NODES / 2 - 2);
    on_table(NODES);

    begin();
    for (int i = 0; i < NODES / 2 - 3; i++)
        node(7, 0);
    node(4, 9);
    for (int i = NODES / 2 - 4; i > 0; i--)
        node(3, (uint16_t)(i - 1));
    node(8, 0);
    node(2, 0);
    end();
    named("%lu variables beside a fresh node", NODES / 2 - 4);
    on_table(10);
}

/* goals that cost nothing by their depth */
static void flat_goals(void) {
    begin();
    node(10, 0);
    for (int v = 0; v < 2; v++)
        spine(NODES / 4 - 2, 4, 1);
    end();
    named("two structures of %lu applications, nested on the left", NODES / 4 - 2);
    on_table(10);

    begin();
    node(10, 0);
    for (int v = 0; v < 2; v++) {
        for (int i = 0; i < NODES / 4 - 2; i++) {
            node(7, 0);
            node(4, 1);
        }
        node(4, 1);
    }
    end();
    named("two structures of %lu applications, nested on the right", NODES / 4 - 2);
    on_table(10);

    begin();
    node(9, 0);
    node(10, 0);
    node(3, 0);
    for (int i = 0; i < NODES / 2 - 4; i++) {
        node(7, 0);
        node(4, 1);
    }
    node(4, 1);
    node(3, 0);
    end();
    named("a value of %lu applications, nested on the right, bound", NODES / 2 - 4);
    on_table(10);

    begin();
    node(9, 0);
    node(10, 0);
    node(3, 0);
    node(6, 0);
    node(1, 0);
    for (int i = 0; i < NODES - 10; i++)
        node(8, 0);
    node(4, 1);
    node(0, 0);
    node(3, 0);
    end();
    named("a closure of %lu nested fresh nodes, bound", NODES - 10);
    on_table(10);
}

int main(int files, char **file) {
    nested_text(0, "", "", "");
    /* once before, so that what a first call loads does not count */
    (void)CALL(read)(text, length, work, TABLE, work_column, COLUMN);
    for (int i = 1; i < files; i++)
        rule_set(file[i]);
    if (files > 1)
        return 0;
    texts();
    flat_threads();
    flat_goals();
    for (size_t i = 0; i < FAMILIES; i++)
        deepest(&families[i]);
#ifdef SMALL
    for (size_t i = 0; i < FAMILIES; i++)
        fitting(&families[i]);
#endif
    return 0;
}
