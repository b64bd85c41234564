/* Mespindro: the evaluator of placement rules, as C sees it. To link it, either install it and ask pkg-config,
 *
 *     tools/install PREFIX
 *     cc place.c $(PKG_CONFIG_PATH=PREFIX/lib/pkgconfig pkg-config --cflags --libs mespindro)
 *
 * or link one of the archives that tools/archive makes: target/staticlib/libmespindro.a, x86-64 Linux code for the switch, or
 * target/native/libmespindro.a, for the machine at hand. Both have C's usual calling convention, and need memcpy and memset and nothing else.
 *
 * A rule set is exchanged as a text, Rivest's canonical S-expressions; README.md has one. In memory a program is a table: two 16-bit numbers
 * a node, kind and number, in preorder. Beside each table stands its column: one 16-bit number a node, how many nodes the subtree has that
 * begins there, itself included. That of an alternative is its term and all that stands behind it in its list, so the first entry is the node
 * count; the end of a list has 1. For ((g c1 c2) c3), 7 nodes:
 *
 *     table    1 0   9 0   4 1   4 2   1 0   4 3   0 0
 *     column     7     3     1     1     3     1     1
 *
 * A read, a step and a run write the column with the table, and every call that is handed a program checks it: keep the two together. Neither
 * leaves the process: write a text, send it, read it again.
 *
 * Nothing is allocated and nothing is kept between two calls; there is no static data. Calls may be made from several threads of execution at
 * once, if no buffer that one of them writes is in use by another; a table that is only read may be shared, with its column.
 *
 * Every call is there at two sizes, with the same arguments, answers and refusals. The plain names are the large ones; those with `small` are
 * for a task with little stack, since a call's own arrays grow with its size:
 *
 *                                               mespindro_read, ..   mespindro_small_read, ..
 *     nodes of a program, and of a run's room   16,384               2,048
 *     bytes of a text                           196,608              24,576
 *     free variables, locations and indices     0 to 16,383          0 to 2,047
 *     constructors                              0 to 65,535          0 to 65,535
 *     kilobytes of stack (x86-64): read         296                  38
 *       write, standing, thread                 34                   5
 *       step, run, and more by nesting          100                  14
 *
 * What is right at the small size is right at the large one: a text that the small read accepts is read as the same table, and a table that the
 * small calls take is written as the same text. Its run is the same at both sizes in the same lent tables and columns, if one of these holds
 * at most 2,048 nodes; in larger ones the large run goes on where the small one stops by room. A single step differs only where its result has
 * over 2,048 nodes: the small one is refused with 7. A text that only the large read accepts is refused by the small one with 2, 5 or 7, and a
 * table that only the large calls take with 1: never is it taken for another program. One table may be handed to calls of both sizes.
 *
 * A caller that was compiled with the header of the one size of 2,048 nodes lends tables of 4,096 numbers, and sees the same runs of what it
 * read before; but the stack of its calls has grown. Where there is none to spare it is to call the small ones instead.
 *
 * What the caller owes, otherwise anything may happen: every pointer is valid for its length, and not NULL even where the length is 0; a
 * uint16_t pointer is aligned to 2; no buffer has more than PTRDIFF_MAX bytes; the buffers of one call do not overlap (a step's output is not
 * its table, and no column is another's or a part of a table); there is enough stack (docs/LIMITS.md). A length counts elements: bytes of a
 * text, numbers of a table or of a column. `const` buffers are read, the others written. Lengths above MESPINDRO_TABLE and MESPINDRO_COLUMN and
 * odd lengths are allowed, at both sizes, and so is a column that is shorter or longer than its table holds.
 *
 * No call asks how much stack there is. Each writes to every page (4,096 bytes) of its arrays from the top down before it uses them, and no
 * other frame is as long as a page: where the stack ends in a guard page a call that has too little faults there and has written nothing
 * beyond it. Where there is no such page, as in a task of a small system, it writes over what lies below the stack. This is seen in the machine
 * code of both archives and tried, not proved.
 *
 * Every call then ends, whatever bytes, numbers, counts and limits it is given. It gives its result, with `refusal` 0, or it is refused: then
 * `refusal` is the first number of the call's list that applies, every other field is 0, and no buffer has changed, no column either. Each
 * call's list stands with it, in the order of its tests: a read gives the lowest that applies; a call on a table too, but for 14, which goes
 * before all but 1. This is proved (docs/PROMISES.md says where); not proved are the compiler's back end and what the caller owes.
 *
 * A whole program, which runs `((u c1 c2) (g c1 c2))`: the first alternative fails, the second one ends as c2. It prints "4 2".
 *
 *     #include <mespindro.h>
 *     #include <stdio.h>
 *
 *     static const char text[] = "((1:u(1:c1:1)(1:c1:2))(1:g(1:c1:1)(1:c1:2)))";
 *     static uint16_t table[MESPINDRO_TABLE], column[MESPINDRO_COLUMN];
 *     static uint16_t work[MESPINDRO_TABLE], work_column[MESPINDRO_COLUMN];
 *
 *     int main(void) {
 *         struct mespindro_count read = mespindro_read((const uint8_t *)text, sizeof text - 1, table, MESPINDRO_TABLE, column, MESPINDRO_COLUMN);
 *         if (read.refusal != MESPINDRO_ACCEPTED) return 1;
 *         struct mespindro_stop stop = mespindro_run(table, MESPINDRO_TABLE, column, MESPINDRO_COLUMN, read.count,
 *                                                    work, MESPINDRO_TABLE, work_column, MESPINDRO_COLUMN, 10000);
 *         if (stop.refusal != MESPINDRO_ACCEPTED || stop.reason != MESPINDRO_ENDED) return 1;
 *         for (size_t k = 0;; k++) {
 *             struct mespindro_stand stand = mespindro_standing(table, MESPINDRO_TABLE, column, MESPINDRO_COLUMN, stop.nodes, k);
 *             if (stand.refusal == MESPINDRO_NO_THREAD) return 0;
 *             if (stand.refusal != MESPINDRO_ACCEPTED || stand.standing != MESPINDRO_ANSWER) return 1;
 *             struct mespindro_part part = mespindro_thread(table, MESPINDRO_TABLE, column, MESPINDRO_COLUMN, stop.nodes, k);
 *             for (size_t i = part.start; i < part.start + part.length; i += 2)
 *                 printf("%u %u\n", (unsigned)table[i], (unsigned)table[i + 1]);
 *         }
 *     }
 */
#ifndef MESPINDRO_H
#define MESPINDRO_H

#include <stddef.h>
#include <stdint.h>

#ifdef __cplusplus
extern "C" {
#endif

/* The most nodes of a program, the most bytes of its text, and the numbers of a table and of a column that hold every program. */
#define MESPINDRO_NODES 16384
#define MESPINDRO_TEXT 196608
#define MESPINDRO_TABLE 32768
#define MESPINDRO_COLUMN 16384

/* The same for the small calls. */
#define MESPINDRO_SMALL_NODES 2048
#define MESPINDRO_SMALL_TEXT 24576
#define MESPINDRO_SMALL_TABLE 4096
#define MESPINDRO_SMALL_COLUMN 2048

/* Kinds: the first number of a node. The second one is 0 but where it is said; "below the limit" is 0 to 16,383, and 0 to 2,047 for the small
 * calls. The parts follow in the table. */
enum {
    MESPINDRO_EMPTY = 0,        /* the end of a list of alternatives */
    MESPINDRO_ALTERNATIVE = 1,  /* parts: a term, the rest of the list */
    MESPINDRO_BOUND = 2,        /* number: the binders (kinds 5, 6, 8) between it and its own, below the limit */
    MESPINDRO_FREE = 3,         /* number: the variable, below the limit */
    MESPINDRO_CONSTRUCTOR = 4,  /* number: the constructor, 0 to 65,535; 0 is ok */
    MESPINDRO_ABSTRACTION = 5,  /* part: a list of alternatives */
    MESPINDRO_ALLOCATED = 6,    /* number: the location, below the limit; part: a list of alternatives */
    MESPINDRO_APPLICATION = 7,  /* parts: two terms */
    MESPINDRO_FRESH = 8,        /* part: a term */
    MESPINDRO_GUARD = 9,        /* parts: two terms */
    MESPINDRO_UNIFICATION = 10  /* parts: two terms */
};

/* Refusals. The program on standard input has one more, 15, a closure in an operator's text; no call gives it. */
enum {
    MESPINDRO_ACCEPTED = 0,
    MESPINDRO_NO_PROGRAM = 1,      /* the table does not hold one program of `count` nodes within the limits of the call */
    MESPINDRO_TOO_LONG = 2,        /* the text is longer than 196,608 bytes, for a small call 24,576 */
    MESPINDRO_NOT_CANONICAL = 3,   /* the text is not exactly one canonical S-expression: a trailing newline is enough */
    MESPINDRO_OUT_OF_PLACE = 4,    /* a list or an atom stands where none may: unknown tag, wrong number of members */
    MESPINDRO_BAD_NUMBER = 5,      /* a number is not a plain decimal or is out of its range */
    MESPINDRO_NO_BINDER = 6,       /* a bound variable has no binder */
    MESPINDRO_TOO_MANY_NODES = 7,  /* the program read, or a single step's result, has over 16,384 nodes, for a small call 2,048 */
    MESPINDRO_INCOHERENT = 8,      /* one location with two bodies in a thread, or a body that reaches a binder around it */
    MESPINDRO_NO_ROOM = 9,         /* the result does not fit the output or its column; a run's program not the work table or its column */
    MESPINDRO_NO_THREAD = 10,      /* there is no thread of that number */
    MESPINDRO_FINISHED = 11,       /* a single step is asked for and every thread is finished */
    MESPINDRO_WRONG_COLUMN = 14    /* the column of the program handed in is wrong or too short; asked directly after 1 */
};

/* The six rules of a step; 0 where it was refused. */
enum {
    MESPINDRO_RULE_ALLOC = 1, /* an abstraction has got its location */
    MESPINDRO_RULE_BETA = 2,  /* an allocated abstraction was applied to a value; where its body is empty the thread is dropped */
    MESPINDRO_RULE_FRESH = 3, /* a fresh variable has got its number */
    MESPINDRO_RULE_GUARD = 4, /* a guard whose left part is a value has become its right part */
    MESPINDRO_RULE_UNIF = 5,  /* two values were made equal */
    MESPINDRO_RULE_FAIL = 6   /* two values cannot be made equal: the thread is dropped */
};

/* Why a run stopped; 0 where it was refused. */
enum {
    MESPINDRO_ENDED = 1, /* every thread is finished */
    MESPINDRO_STEPS = 2, /* the step limit is used */
    MESPINDRO_ROOM = 3   /* the next program would not fit; the last that did stands in the table */
};

/* How a thread stands; 0 where the call was refused. */
enum {
    MESPINDRO_ANSWER = 1, /* built of constructors alone (kinds 4 and 7): compare it with the shape you expect, and use it */
    MESPINDRO_STUCK = 2,  /* no rule applies, and it is no value */
    MESPINDRO_OPEN = 3,   /* there is a step to make */
    MESPINDRO_PARTIAL = 4 /* a value that holds a free variable (kind 3) or an allocated abstraction (kind 6): not to be used */
};

/* How many nodes or bytes the call has put at the front of its output; what stood behind them, there and in the column, is left as it was. */
struct mespindro_count {
    size_t count;
    uint16_t refusal;
};

/* A step that was made. */
struct mespindro_move {
    size_t nodes;     /* at the front of the output and of its column; what stood behind them is left as it was */
    uint32_t thread;  /* the one that was worked on: its number from 0 in the program before the step */
    uint16_t rule;
    uint16_t refusal;
};

/* How many of a run's steps each rule made. */
struct mespindro_counts {
    uint32_t alloc;
    uint32_t beta;
    uint32_t fresh;
    uint32_t guard;
    uint32_t unif;
    uint32_t fail;
};

struct mespindro_stop {
    size_t nodes;                    /* of the program that the table holds now */
    uint32_t steps;                  /* taken */
    struct mespindro_counts counts;  /* their sum is `steps` */
    uint16_t reason;
    uint16_t refusal;
};

struct mespindro_stand {
    uint16_t standing;
    uint16_t refusal;
};

/* A part of the table: its first number, and how many numbers. The entries of its nodes in the column are those from start / 2 up to, not with,
 * (start + length) / 2; the first of them is length / 2. */
struct mespindro_part {
    size_t start;
    size_t length;
};

/* Reads a text into a table and its column. Refuses 2 to 9; 9 where the output or the column is too short. */
struct mespindro_count mespindro_read(const uint8_t *text, size_t text_length, uint16_t *out, size_t out_length, uint16_t *column,
                                      size_t column_length);

/* Writes the text of the program in a table. A node takes at most 12 bytes: 196,608 hold every text. Refuses 1, 14, 6, 8, 9. */
struct mespindro_count mespindro_write(const uint16_t *table, size_t table_length, const uint16_t *column, size_t column_length, size_t count,
                                       uint8_t *out, size_t out_length);

/* One step: the program after it with its column, by which rule, in which thread. Refuses 1, 14, 6, 7, 8, 9, 11; 9 where the output or its
 * column is too short. The stack of a step and of a run grows with nesting, to some 1.5 megabytes on the deepest programs of 16,384 nodes that
 * were tried, and to some 190 kilobytes with the small calls on those of 2,048; shorter tables bound it. docs/LIMITS.md says which of the
 * small calls fit a stack of 16 KiB, on which programs. */
struct mespindro_move mespindro_step(const uint16_t *table, size_t table_length, const uint16_t *column, size_t column_length, size_t count,
                                     uint16_t *out, size_t out_length, uint16_t *out_column, size_t out_column_length);

/* Runs the program in a table for at most `most` steps. Its room is the least of table_length / 2, column_length, work_length / 2,
 * work_column_length and 16,384 nodes, of a small run 2,048. Accepted, the table holds the end program and then zeros to its very end, its
 * column that program's entries and then zeros to its very end, and the work table and its column zeros only. A run that stopped by steps or
 * by room goes on when it is called again with `nodes` as the count (after room: in larger tables and columns); `steps` and `counts` are of
 * the one call. It cannot be interrupted: choose `most` so that a call is short enough. Refuses 1, 14, 6, 8, 9; 9 where the work table or its
 * column is too short for the program, while the table's own column is too short by 14. */
struct mespindro_stop mespindro_run(uint16_t *table, size_t table_length, uint16_t *column, size_t column_length, size_t count, uint16_t *work,
                                    size_t work_length, uint16_t *work_column, size_t work_column_length, uint32_t most);

/* How thread k stands, counted from 0. Refuses 1, 14, 6, 8, 10. */
struct mespindro_stand mespindro_standing(const uint16_t *table, size_t table_length, const uint16_t *column, size_t column_length, size_t count,
                                          size_t k);

/* Where the nodes of thread k stand in the table, without its alternative node. Length 0, and start 0, exactly where mespindro_standing
 * refuses; that call tells the number. */
struct mespindro_part mespindro_thread(const uint16_t *table, size_t table_length, const uint16_t *column, size_t column_length, size_t count,
                                       size_t k);

/* The same six at the small size: 2,048 nodes. */
struct mespindro_count mespindro_small_read(const uint8_t *text, size_t text_length, uint16_t *out, size_t out_length, uint16_t *column,
                                            size_t column_length);
struct mespindro_count mespindro_small_write(const uint16_t *table, size_t table_length, const uint16_t *column, size_t column_length,
                                             size_t count, uint8_t *out, size_t out_length);
struct mespindro_move mespindro_small_step(const uint16_t *table, size_t table_length, const uint16_t *column, size_t column_length,
                                           size_t count, uint16_t *out, size_t out_length, uint16_t *out_column, size_t out_column_length);
struct mespindro_stop mespindro_small_run(uint16_t *table, size_t table_length, uint16_t *column, size_t column_length, size_t count,
                                          uint16_t *work, size_t work_length, uint16_t *work_column, size_t work_column_length, uint32_t most);
struct mespindro_stand mespindro_small_standing(const uint16_t *table, size_t table_length, const uint16_t *column, size_t column_length,
                                                size_t count, size_t k);
struct mespindro_part mespindro_small_thread(const uint16_t *table, size_t table_length, const uint16_t *column, size_t column_length,
                                             size_t count, size_t k);

#ifdef __cplusplus
}
#endif

#endif
