/* Makes each call on a stack that is too short for it, with one guard page below and marked memory below that, and then on one that is long
 * enough. Prints for each whether it faulted, where, and whether the marked memory has changed; rust/tests/tests/stack.rs knows what it must be.
 */
#define _GNU_SOURCE
#include "size.h"
#include <setjmp.h>
#include <signal.h>
#include <stdint.h>
#include <stdio.h>
#include <string.h>
#include <sys/mman.h>
#include <ucontext.h>
#include <unistd.h>

/* SHORT is less than the arrays of any call, ENOUGH more than what any takes on the empty program. */
enum { MARKED = 1 << 20, SHORT = 4096, ENOUGH = 1 << 20, MARK = 0xa5 };

static uint16_t table[2] = {0, 0}, column[1] = {1}, other[2], other_column[1];
static uint8_t text[2] = {'(', ')'};

static void read_it(void) { (void)CALL(read)(text, 2, other, 2, other_column, 1); }
static void write_it(void) { (void)CALL(write)(table, 2, column, 1, 1, text, 2); }
static void step_it(void) { (void)CALL(step)(table, 2, column, 1, 1, other, 2, other_column, 1); }
static void run_it(void) { (void)CALL(run)(table, 2, column, 1, 1, other, 2, other_column, 1, 1); }
static void stand_it(void) { (void)CALL(standing)(table, 2, column, 1, 1, 0); }
static void thread_it(void) { (void)CALL(thread)(table, 2, column, 1, 1, 0); }

static uint8_t *marked;
static size_t page;
static sigjmp_buf back;
static uint8_t *faulted;

static void fault(int number, siginfo_t *told, void *context) {
    (void)number;
    (void)context;
    faulted = told->si_addr;
    siglongjmp(back, 1);
}

static int changed(void) {
    for (size_t i = 0; i < MARKED; i++)
        if (marked[i] != MARK) return 1;
    return 0;
}

/* Marked memory, a guard page, and then a stack of so many bytes, on which the call is made. */
static void on_stack(const char *name, void (*call)(void), size_t length) {
    static ucontext_t here, there;
    size_t all = MARKED + page + length;
    marked = mmap(NULL, all, PROT_READ | PROT_WRITE, MAP_PRIVATE | MAP_ANONYMOUS, -1, 0);
    memset(marked, MARK, MARKED);
    mprotect(marked + MARKED, page, PROT_NONE);
    faulted = NULL;
    if (sigsetjmp(back, 1) == 0) {
        getcontext(&there);
        there.uc_stack.ss_sp = marked + MARKED + page;
        there.uc_stack.ss_size = length;
        there.uc_link = &here;
        makecontext(&there, call, 0);
        swapcontext(&here, &there);
    }
    int in_guard = faulted >= marked + MARKED && faulted < marked + MARKED + page;
    printf("%s: %s, %s\n", name, !faulted ? "answers" : in_guard ? "faults in the guard page" : "faults elsewhere",
           changed() ? "and has written below" : "nothing is written below");
    munmap(marked, all);
}

int main(void) {
    static uint8_t handlers_stack[1 << 16];
    static const struct {
        const char *name;
        void (*call)(void);
    } calls[] = {{"read", read_it}, {"write", write_it}, {"step", step_it}, {"run", run_it}, {"standing", stand_it}, {"thread", thread_it}};
    stack_t stack;
    memset(&stack, 0, sizeof stack);
    stack.ss_sp = handlers_stack;
    stack.ss_size = sizeof handlers_stack;
    struct sigaction action;
    memset(&action, 0, sizeof action);
    action.sa_sigaction = fault;
    action.sa_flags = SA_SIGINFO | SA_ONSTACK;
    if (sigaltstack(&stack, NULL) || sigaction(SIGSEGV, &action, NULL)) return 2;
    page = (size_t)sysconf(_SC_PAGESIZE);
    for (size_t i = 0; i < sizeof calls / sizeof calls[0]; i++) {
        on_stack(calls[i].name, calls[i].call, SHORT);
        on_stack(calls[i].name, calls[i].call, ENOUGH);
    }
    return 0;
}
