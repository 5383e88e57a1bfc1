/*
 * How much stack each call takes: every call but the whole script is made once on a stack of its own of 96 KiB, with a page below it that may not be touched, on full
 * tables; Gap, and the calls that write the gap table, over one yard of as many steps as it may have. It checks that none takes more than README says, and that Ring check takes no more than Mark but for what it is handed; it prints how many bytes each
 * used. The last line is `N passed, M failed`.
 */
#define _GNU_SOURCE
#include "dates.h"

#include <stdio.h>
#include <string.h>
#include <sys/mman.h>
#include <ucontext.h>

enum { STACK = 98304, MOST = 46000, MOST_COMMAND = 81920, GUARD = 65536, HANDED = 80, PAINT = 0xA5, LAST = DATES_STEPS - 1, YARD_LAST = DATES_YARD_STEPS - 1 };

static dates_tables t;
static dates_tables script;
static dates_tables yard;
static ucontext_t caller, callee;
static uint32_t number, value, other;
static int64_t limit;
static size_t used_text, used_out;
static const uint8_t assertion[] = "(assert (and (<= (- a b) 1) (not (<= (- b a) (- 5)))))";

static void do_open(void) { number = dates_t_open(&t, DATES_STEPS); }
static void do_watch(void) { number = dates_t_watch(&t, 1, 2, 3); }
static void do_mark(void) { number = dates_t_mark(&t); }
static void do_back(void) { number = dates_t_back(&t); }
/* The first rule of the chain, under all the others: all steps move. */
static void do_withdraw(void) { number = dates_t_withdraw(&t, 0); }
static void do_add(void) { number = dates_t_add(&t, LAST, 0, 0, &value); }
static void do_move(void) { number = dates_t_add(&t, 0, 1, -2, &value); }
static void do_trial(void) { number = dates_t_trial(&t, LAST, 0, 0, &value); }
static void do_consequences(void) { number = dates_t_consequences(&t, &value, &other); }
/* The ring of all steps, which Add has left. It is one, so that all of it is read. */
static void do_ring_check(void)
{
    number = dates_t_ring_check(&t, t.ring, DATES_STEPS, LAST, 0, 0, &value);
    if (value != 1) number = UINT32_MAX;
}
static void do_last_day(void) { number = dates_t_last_day(&t, &value); }
/* The chain's first and last steps: the limit is the sum of all its rules. */
static void do_gap(void)
{
    number = dates_t_gap(&yard, 0, YARD_LAST, &value, &limit);
    if (value != 1 || limit != -YARD_LAST) number = UINT32_MAX;
}
static void do_yard_open(void) { number = dates_t_open(&yard, DATES_YARD_STEPS); }
static void do_yard_add(void) { number = dates_t_add(&yard, 0, 1, -2, &value); }
static void do_yard_conflict(void) { number = dates_t_add(&yard, YARD_LAST, 0, 0, &value); }
static void do_yard_withdraw(void) { number = dates_t_withdraw(&yard, 0); }
static void do_yard_back(void) { number = dates_t_back(&yard); }
static void do_start(void) { number = dates_t_start(&script); }
static void do_pop(void) { number = dates_t_command(&script, (const uint8_t *)"(pop 1)", 7, &used_text, &used_out); }
static void do_command(void) { number = dates_t_command(&script, assertion, sizeof assertion - 1, &used_text, &used_out); }

/* The bytes of stack that a call uses, the switch to its stack included. */
static size_t used(uint8_t *stack, void (*call)(void))
{
    size_t i = 0;
    memset(stack, PAINT, STACK);
    getcontext(&callee);
    callee.uc_stack.ss_sp = stack;
    callee.uc_stack.ss_size = STACK;
    callee.uc_link = &caller;
    makecontext(&callee, call, 0);
    swapcontext(&caller, &callee);
    while (i < STACK && stack[i] == PAINT) i++;
    return STACK - i;
}

static void command(const char *text) { dates_t_command(&script, (const uint8_t *)text, strlen(text), &used_text, &used_out); }

/* All steps in a chain and 4,094 rules, 1,023 watched rules over all steps, 63 marks: nearly full, so that nothing is FULL. */
static void fill(void)
{
    uint32_t i;
    dates_t_open(&t, DATES_STEPS);
    for (i = 0; i < LAST; i++) dates_t_add(&t, i, i + 1, -1, &value);
    for (i = LAST; i < DATES_RULES - 2; i++) dates_t_add(&t, i % DATES_STEPS, i * 7 % DATES_STEPS, DATES_STEPS, &value);
    for (i = 0; i < DATES_WATCHED - 1; i++) dates_t_watch(&t, i % DATES_STEPS, (i + 5) % DATES_STEPS, 0);
    for (i = 0; i < DATES_MARKS - 1; i++) dates_t_mark(&t);
    dates_t_open(&yard, DATES_YARD_STEPS);
    for (i = 0; i < YARD_LAST; i++) dates_t_add(&yard, i, i + 1, -1, &value);
    dates_t_mark(&yard);
    for (i = YARD_LAST; i < DATES_RULES - 2; i++) dates_t_add(&yard, i % DATES_YARD_STEPS, i * 7 % DATES_YARD_STEPS, DATES_YARD_STEPS, &value);
    dates_t_start(&script);
    command("(set-logic QF_IDL)");
    command("(declare-fun a () Int)");
    command("(declare-fun b () Int)");
    command("(push 1)");
}

int main(void)
{
    static const struct { const char *name; void (*call)(void); uint32_t gives; } calls[] = {
        { "Add, conflict", do_add, DATES_CONFLICT }, { "Ring check", do_ring_check, DATES_DONE }, { "Trial", do_trial, DATES_CONFLICT },
        { "Watch", do_watch, DATES_DONE },           { "Mark", do_mark, DATES_DONE },             { "Add, steps move", do_move, DATES_DONE },
        { "Consequences", do_consequences, DATES_DONE }, { "Back", do_back, DATES_DONE },         { "command, assert", do_command, DATES_DONE },
        { "Withdraw", do_withdraw, DATES_DONE },     { "Last day", do_last_day, DATES_DONE },     { "command, pop", do_pop, DATES_DONE },
        { "start", do_start, DATES_DONE },           { "Open", do_open, DATES_DONE },             { "Gap", do_gap, DATES_DONE },
        { "Add in one yard, conflict", do_yard_conflict, DATES_CONFLICT },                        { "Add in one yard, steps move", do_yard_add, DATES_DONE },
        { "Withdraw in one yard", do_yard_withdraw, DATES_DONE },                                 { "Back in one yard", do_yard_back, DATES_DONE },
        { "Open of one yard", do_yard_open, DATES_DONE },
    };
    int passed = 0, failed = 0;
    size_t i, ring_check = 0, mark = 0;
    uint8_t *memory = (uint8_t *)mmap(NULL, GUARD + STACK, PROT_READ | PROT_WRITE, MAP_PRIVATE | MAP_ANONYMOUS, -1, 0);
    if (memory == MAP_FAILED || mprotect(memory, GUARD, PROT_NONE) != 0) {
        printf("no stack can be made\n0 passed, 1 failed\n");
        return 1;
    }
    fill();
    for (i = 0; i < sizeof calls / sizeof calls[0]; i++) {
        size_t bytes, most;
        most = calls[i].call == do_command || calls[i].call == do_pop ? MOST_COMMAND : MOST;
        bytes = used(memory + GUARD, calls[i].call);
        printf("%s: %lu bytes of stack\n", calls[i].name, (unsigned long)bytes);
        if (calls[i].call == do_ring_check) ring_check = bytes;
        if (calls[i].call == do_mark) mark = bytes;
        if (bytes <= most && number == calls[i].gives) {
            passed++;
        } else {
            failed++;
            printf("FAILED: %s gave %u, or took more than %lu bytes\n", calls[i].name, (unsigned)number, (unsigned long)most);
        }
    }
    if (mark > 0 && ring_check <= mark + HANDED) {
        passed++;
    } else {
        failed++;
        printf("FAILED: Ring check takes more than %d bytes more than Mark\n", HANDED);
    }
    printf("%d passed, %d failed\n", passed, failed);
    return failed > 0;
}
