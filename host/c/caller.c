/*
 * A caller of the library over include/dates.h, valid as C99 and as C++: worked cases, shortest reasons, withdrawals, the gap table, the refusals of short tables, and a script
 * command by command and as a whole.
 * It checks all that it gets; the last line is `N passed, M failed`.
 */
#include "dates.h"

#include <stdio.h>
#include <string.h>

/* The layout that the library was built for. A size below 0 stops the compiler. */
#define LAYOUT(name, holds) typedef char layout_##name[(holds) ? 1 : -1]
LAYOUT(counts, sizeof(dates_counts) == 20);
LAYOUT(counts_steps, offsetof(dates_counts, steps) == 0);
LAYOUT(counts_rules, offsetof(dates_counts, rules) == 4);
LAYOUT(counts_marks, offsetof(dates_counts, marks) == 8);
LAYOUT(counts_watched, offsetof(dates_counts, watched) == 12);
LAYOUT(counts_last, offsetof(dates_counts, last) == 16);
LAYOUT(record, sizeof(dates_record) == 16);
LAYOUT(record_names, offsetof(dates_record, names) == 0);
LAYOUT(record_logic, offsetof(dates_record, logic) == 4);
LAYOUT(record_broken, offsetof(dates_record, broken) == 8);
LAYOUT(record_sat, offsetof(dates_record, sat) == 12);
LAYOUT(lengths, sizeof(size_t) == 8);
LAYOUT(gaps, sizeof(int64_t[DATES_YARD_STEPS][DATES_YARD_STEPS]) == 2048);
LAYOUT(no_limit, DATES_NO_LIMIT == INT64_MAX);
LAYOUT(tables_gaps, offsetof(dates_tables, gaps) == 0);
LAYOUT(tables_counts, offsetof(dates_tables, counts) == 2048);
LAYOUT(tables, sizeof(dates_tables) == 117800);

static int passed = 0;
static int failed = 0;

static void count(int good, const char *what)
{
    if (good) {
        passed++;
    } else {
        failed++;
        printf("FAILED: %s\n", what);
    }
}

static dates_tables t;

/* Whether the days of four steps are these. */
static int days_are(uint32_t a, uint32_t b, uint32_t c, uint32_t d)
{
    return t.counts.steps == 4 && t.days[0] == a && t.days[1] == b && t.days[2] == c && t.days[3] == d;
}

/* Whether the last day is this one, by the call and in the record. */
static int last_is(uint32_t wanted)
{
    uint32_t day = wanted + 1;
    return dates_t_last_day(&t, &day) == DATES_DONE && day == wanted && t.counts.last == wanted;
}

/* Fresh tables of four steps with the rules of case 3. */
static void case_3(void)
{
    uint32_t moved;
    dates_t_open(&t, 4);
    dates_t_add(&t, 0, 1, -2, &moved);
    dates_t_add(&t, 1, 2, -3, &moved);
}

static void worked_cases(void)
{
    uint32_t value = 9;
    uint32_t verdict = 9;
    uint32_t held = 9;
    uint32_t excluded = 9;

    count(dates_t_open(&t, 4) == DATES_DONE && days_are(0, 0, 0, 0), "case 1: no rule");
    count(dates_t_add(&t, 0, 1, -2, &value) == DATES_DONE && value == 1 && days_are(0, 2, 0, 0), "case 2: 0,1,-2");
    count(dates_t_add(&t, 1, 2, -3, &value) == DATES_DONE && value == 1 && days_are(0, 2, 5, 0), "case 3: then 1,2,-3");
    count(t.counts.rules == 2 && t.xs[1] == 1 && t.ys[1] == 2 && t.cs[1] == -3, "case 3: the rules held");

    count(dates_t_trial(&t, 2, 0, 5, &value) == DATES_DONE && value == 0 && t.tried[2] == 5, "case 4, by Trial");
    count(dates_t_trial(&t, 2, 3, -1, &value) == DATES_DONE && value == 1 && t.tried[3] == 6 && t.days[3] == 0, "Trial writes no table");
    count(dates_t_trial(&t, 2, 0, 4, &value) == DATES_CONFLICT && value == 3, "case 5, by Trial");
    memset(t.ring, 0, sizeof t.ring);
    count(dates_t_add(&t, 2, 0, 4, &value) == DATES_CONFLICT && value == 3, "case 5: 2,0,4 is a conflict");
    count(t.ring[0] == 2 && t.ring[1] == 0 && t.ring[2] == 1 && t.ring[3] == 0, "case 5: the ring is 2 0 1");
    count(t.cs[0] + t.cs[1] + 4 == -1 && t.counts.rules == 2 && days_are(0, 2, 5, 0), "case 5: the sum is -1, and nothing else changed");
    count(dates_t_ring_check(&t, t.ring, 3, 2, 0, 4, &verdict) == DATES_DONE && verdict == 1, "case 5: Ring check says yes");
    count(dates_t_ring_check(&t, t.ring, 2, 2, 0, 4, &verdict) == DATES_DONE && verdict == 0, "Ring check says no to a part of it");

    dates_t_open(&t, 4);
    dates_t_add(&t, 0, 1, -2, &value);
    count(dates_t_mark(&t) == DATES_DONE && t.counts.marks == 1 && t.levels[0] == 1 && t.levels[1] == 0, "case 9: Mark");
    count(dates_t_add(&t, 1, 2, -3, &value) == DATES_DONE && days_are(0, 2, 5, 0), "case 9: 1,2,-3");
    count(dates_t_back(&t) == DATES_DONE && days_are(0, 2, 0, 0) && t.counts.rules == 1 && t.counts.marks == 0 && last_is(2), "case 9: Back");
    count(dates_t_back(&t) == DATES_NOMARK, "Back with no mark open");

    case_3();
    count(dates_t_watch(&t, 0, 2, -5) == DATES_DONE && dates_t_watch(&t, 0, 2, -6) == DATES_DONE && dates_t_watch(&t, 2, 0, 4) == DATES_DONE, "case 10: three rules watched");
    count(dates_t_watch(&t, 2, 0, 5) == DATES_DONE && dates_t_watch(&t, 3, 3, 0) == DATES_DONE && dates_t_watch(&t, 3, 3, -1) == DATES_DONE, "case 10: three more");
    count(t.counts.watched == 6 && t.wxs[2] == 2 && t.wys[2] == 0 && t.wcs[2] == 4, "case 10: the watched rules");
    count(dates_t_consequences(&t, &held, &excluded) == DATES_DONE && held == 2 && excluded == 2, "case 10: Consequences");
    count(t.always[0] == 0 && t.always[1] == 4 && t.never[0] == 2 && t.never[1] == 5, "case 10: 0 4 and 2 5");
}

/* Whether so many places of the list for rings have these numbers, and the next one has what was there. */
static int ring_is(uint32_t length, const uint32_t *wanted, uint32_t wanted_length)
{
    return length == wanted_length && memcmp(t.ring, wanted, length * sizeof wanted[0]) == 0 && t.ring[length] == 9;
}

/* Fills the list for rings with 9. */
static void fill_ring(void)
{
    uint32_t i;
    for (i = 0; i < DATES_STEPS; i++)
        t.ring[i] = 9;
}

/* The rule that is refused over rules held, and its ring, by Trial and by Add. A rule of the step 9 ends the rules held. */
typedef struct refused_rule {
    int32_t held[5][3];
    int32_t rule[3];
    uint32_t length;
    uint32_t ring[3];
} refused_rule;

static void reasons(void)
{
    static const refused_rule cases[] = {
        {{{0, 1, -1}, {1, 2, -1}, {2, 3, -1}, {0, 3, -3}, {9, 9, 9}}, {3, 0, 2}, 2, {4, 3, 0}},
        {{{0, 1, -2}, {0, 1, -2}, {9, 9, 9}, {9, 9, 9}, {9, 9, 9}}, {1, 0, 1}, 2, {2, 0, 0}},
        {{{0, 1, -5}, {0, 1, -9}, {9, 9, 9}, {9, 9, 9}, {9, 9, 9}}, {1, 0, 4}, 2, {2, 0, 0}},
        {{{0, 1, -1}, {0, 2, -1}, {2, 1, -1}, {9, 9, 9}, {9, 9, 9}}, {1, 0, 1}, 3, {3, 1, 2}},
        {{{0, 1, 0}, {0, 2, -3}, {1, 3, 0}, {2, 3, 0}, {9, 9, 9}}, {3, 0, 2}, 3, {4, 1, 3}},
    };
    static uint32_t longest[DATES_STEPS];
    const uint32_t longer[4] = {4, 0, 1, 2};
    uint32_t value = 9;
    uint32_t i, k;

    for (i = 0; i < sizeof cases / sizeof cases[0]; i++) {
        const refused_rule *the = &cases[i];
        const uint32_t x = (uint32_t)the->rule[0];
        const uint32_t y = (uint32_t)the->rule[1];
        dates_t_open(&t, 4);
        for (k = 0; the->held[k][0] != 9; k++)
            dates_t_add(&t, (uint32_t)the->held[k][0], (uint32_t)the->held[k][1], the->held[k][2], &value);
        fill_ring();
        count(t.counts.rules == k && dates_t_trial(&t, x, y, the->rule[2], &value) == DATES_CONFLICT && ring_is(value, the->ring, the->length), "the shortest reason, by Trial");
        fill_ring();
        count(dates_t_add(&t, x, y, the->rule[2], &value) == DATES_CONFLICT && ring_is(value, the->ring, the->length), "the shortest reason, by Add");
        if (i == 0)
            count(dates_t_ring_check(&t, longer, 4, x, y, the->rule[2], &value) == DATES_DONE && value == 1, "Ring check says yes to a longer ring");
    }

    /* A ring over all steps fills the list. */
    dates_t_open(&t, DATES_STEPS);
    longest[0] = DATES_STEPS - 1;
    for (i = 0; i + 1 < DATES_STEPS; i++) {
        dates_t_add(&t, i, i + 1, -1, &value);
        longest[i + 1] = i;
    }
    count(dates_t_add(&t, DATES_STEPS - 1, 0, 0, &value) == DATES_CONFLICT && value == DATES_STEPS && memcmp(t.ring, longest, sizeof longest) == 0, "a ring over all steps");
}

/* Whether the first places have these levels, and as many rules are held as the record says. */
static int levels_are(uint8_t a, uint8_t b, uint8_t c, uint8_t d)
{
    uint32_t i;
    uint32_t held = 0;
    for (i = 0; i < DATES_RULES; i++)
        held += t.levels[i] != 0;
    return t.levels[0] == a && t.levels[1] == b && t.levels[2] == c && t.levels[3] == d && t.counts.rules == held;
}

/* Rules are withdrawn by their numbers, and the next rule takes the lowest free one. */
static void withdrawals(void)
{
    uint32_t value = 9;
    uint32_t i;

    case_3();
    count(dates_t_add(&t, 2, 3, -1, &value) == DATES_DONE && days_are(0, 2, 5, 6), "three rules, before one is withdrawn");
    count(dates_t_withdraw(&t, 1) == DATES_DONE && days_are(0, 2, 0, 1) && levels_are(1, 0, 1, 0) && last_is(2), "Withdraw 1");
    count(dates_t_trial(&t, 1, 0, 1, &value) == DATES_CONFLICT && value == 2 && t.ring[0] == 1 && t.ring[1] == 0, "the ring has the free number, 1 0");
    count(dates_t_ring_check(&t, t.ring, 2, 1, 0, 1, &value) == DATES_DONE && value == 1, "Ring check says yes to it");
    count(dates_t_add(&t, 3, 0, 5, &value) == DATES_DONE && t.xs[1] == 3 && t.cs[1] == 5 && levels_are(1, 1, 1, 0), "3,0,5 takes number 1");
    count(dates_t_trial(&t, 1, 0, 1, &value) == DATES_CONFLICT && value == 2 && t.ring[0] == 3 && t.ring[1] == 0, "then the ring is 3 0");
    count(dates_t_withdraw(&t, 3) == DATES_ABSENT && dates_t_withdraw(&t, DATES_RULES - 1) == DATES_ABSENT, "Withdraw where no rule is held");
    count(dates_t_withdraw(&t, DATES_RULES) == DATES_ABSENT && dates_t_withdraw(&t, 65536u) == DATES_ABSENT && dates_t_withdraw(&t, 4294967295u) == DATES_ABSENT, "Withdraw past the places");
    count(levels_are(1, 1, 1, 0) && days_are(0, 2, 0, 1), "and nothing is changed by these");

    dates_t_open(&t, 4);
    dates_t_add(&t, 0, 1, -2, &value);
    dates_t_mark(&t);
    dates_t_add(&t, 1, 2, -3, &value);
    count(dates_t_withdraw(&t, 0) == DATES_DONE && days_are(0, 0, 3, 0) && levels_are(0, 2, 0, 0), "Withdraw of a rule from before the mark");
    count(dates_t_add(&t, 0, 3, -4, &value) == DATES_DONE && levels_are(2, 2, 0, 0) && days_are(0, 0, 3, 4), "its number goes to a rule of the newest level");
    count(dates_t_back(&t) == DATES_DONE && levels_are(0, 0, 0, 0) && days_are(0, 0, 0, 0) && last_is(0), "Back drops both and does not bring the first one");

    /* Levels that are not right. */
    case_3();
    t.levels[1] = 2;
    count(dates_t_withdraw(&t, 0) == DATES_DAMAGED && dates_t_mark(&t) == DATES_DAMAGED, "a level deeper than the marks open");
    t.levels[1] = 0;
    count(dates_t_withdraw(&t, 0) == DATES_DAMAGED && t.levels[0] == 1, "a rule less than the record says");
    t.levels[1] = t.levels[DATES_RULES - 1] = 1;
    count(dates_t_withdraw(&t, DATES_RULES) == DATES_DAMAGED, "a rule more than the record says");
    t.levels[DATES_RULES - 1] = 0;
    count(dates_t_withdraw(&t, 0) == DATES_DONE && days_are(0, 0, 3, 0), "and right again");

    /* Every place. */
    dates_t_open(&t, 4);
    for (i = 0; i < DATES_RULES; i++)
        dates_t_add(&t, 0, 1, -2, &value);
    count(dates_t_add(&t, 0, 1, -2, &value) == DATES_FULL && dates_t_withdraw(&t, DATES_RULES) == DATES_ABSENT, "every place is taken");
    count(dates_t_withdraw(&t, 1234) == DATES_DONE && t.counts.rules == DATES_RULES - 1 && days_are(0, 2, 0, 0), "one of them is free");
    count(dates_t_add(&t, 1, 0, 1, &value) == DATES_CONFLICT && value == 2 && t.ring[0] == 1234 && t.ring[1] == 0, "a refused rule would have had it");
    count(dates_t_add(&t, 1, 0, 7, &value) == DATES_DONE && t.cs[1234] == 7 && dates_t_add(&t, 0, 1, -2, &value) == DATES_FULL, "the next one has it");
}

/* The last day through the cases, over what leaves it as it is, and with a wrong one in the record. */
static void last_days(void)
{
    uint32_t value = 9;

    dates_t_open(&t, 4);
    count(last_is(0), "the last day of case 1");
    dates_t_add(&t, 0, 1, -2, &value);
    count(last_is(2), "the last day of case 2");
    dates_t_add(&t, 1, 2, -3, &value);
    count(last_is(5), "the last day of case 3");
    dates_t_add(&t, 2, 0, 4, &value);
    count(last_is(5), "the last day of case 5, which is a conflict");
    dates_t_trial(&t, 3, 0, -4, &value);
    count(t.tried[2] == 9 && last_is(5), "the last day after a Trial that would move it");
    dates_t_mark(&t);
    dates_t_add(&t, 3, 0, -4, &value);
    count(last_is(9), "the last day with that rule");
    dates_t_back(&t);
    count(last_is(5), "the last day after Back");
    t.counts.last = 4;
    count(dates_t_last_day(&t, &value) == DATES_DAMAGED && value == 0 && dates_t_mark(&t) == DATES_DAMAGED, "a last day that is one too small");
    t.counts.last = 6;
    count(dates_t_last_day(&t, &value) == DATES_DAMAGED && dates_t_mark(&t) == DATES_DAMAGED && t.counts.last == 6, "a last day that is one too large");
    t.counts.last = 5;
    count(last_is(5), "and is right again");

    dates_t_open(&t, 4);
    dates_t_add(&t, 2, 0, -7, &value);
    count(last_is(7), "the last day of case 7");
    t.counts.last = 8;
    count(dates_t_open(&t, 4) == DATES_DONE && last_is(0), "Open sets it whatever it was");
}

/* No limit. */
#define N DATES_NO_LIMIT

/* Whether the gap table has these cells for four steps, and Gap says the same of each pair. */
static int gaps_are(const int64_t wanted[4][4])
{
    uint32_t x, y;
    for (x = 0; x < 4; x++) {
        for (y = 0; y < 4; y++) {
            uint32_t limited = 9;
            int64_t limit = 9;
            if (t.gaps[x][y] != wanted[x][y] || dates_t_gap(&t, x, y, &limited, &limit) != DATES_DONE)
                return 0;
            if (limited != (wanted[x][y] != N) || limit != (limited ? wanted[x][y] : 0))
                return 0;
        }
    }
    return 1;
}

/* Whether Gap refuses the pair with that number, and gives 0 and 0. */
static int gap_refused(uint32_t x, uint32_t y, uint32_t number)
{
    uint32_t limited = 9;
    int64_t limit = 9;
    return dates_t_gap(&t, x, y, &limited, &limit) == number && limited == 0 && limit == 0;
}

/* The gap table through the cases, its bound, and cells that are not the limit, or not kept. */
static void gap_tables(void)
{
    static const int64_t apart[4][4] = {{0, N, N, N}, {N, 0, N, N}, {N, N, 0, N}, {N, N, N, 0}};
    static const int64_t two[4][4] = {{0, -2, -5, N}, {N, 0, -3, N}, {N, N, 0, N}, {N, N, N, 0}};
    static const int64_t three[4][4] = {{0, -2, -5, N}, {6, 0, -3, N}, {9, 7, 0, N}, {N, N, N, 0}};
    static const int64_t without[4][4] = {{0, N, N, N}, {6, 0, -3, N}, {9, N, 0, N}, {N, N, N, 0}};
    uint32_t value = 9;
    uint32_t x, y;
    int good;

    for (x = 0; x < DATES_YARD_STEPS; x++)
        for (y = 0; y < DATES_YARD_STEPS; y++)
            t.gaps[x][y] = 77;
    dates_t_open(&t, 4);
    count(gaps_are(apart), "the gap table that Open makes");
    dates_t_add(&t, 0, 1, -2, &value);
    dates_t_add(&t, 1, 2, -3, &value);
    count(gaps_are(two), "the gap table of two rules");
    dates_t_mark(&t);
    count(dates_t_add(&t, 2, 0, 9, &value) == DATES_DONE && gaps_are(three), "the gap table with 2,0,9");
    count(dates_t_add(&t, 2, 0, 4, &value) == DATES_CONFLICT && dates_t_trial(&t, 2, 0, 5, &value) == DATES_DONE && gaps_are(three), "a conflict and a Trial leave it");
    count(dates_t_withdraw(&t, 0) == DATES_DONE && gaps_are(without), "the gap table after Withdraw 0");
    count(dates_t_add(&t, 0, 1, -2, &value) == DATES_DONE && gaps_are(three), "and with the same rule again");
    count(dates_t_back(&t) == DATES_DONE && t.gaps[0][1] == N && t.gaps[1][2] == -3 && t.gaps[2][0] == N, "Back drops the one, and the other with it");
    good = 1;
    for (x = 0; x < DATES_YARD_STEPS; x++)
        for (y = 0; y < DATES_YARD_STEPS; y++)
            good &= (x < 4 && y < 4) || t.gaps[x][y] == 77;
    count(good, "no cell past the steps is written");

    case_3();
    count(gap_refused(4, 0, DATES_STEP) && gap_refused(0, 4, DATES_STEP) && gap_refused(65536u, 0, DATES_STEP) && gap_refused(0, 4294967295u, DATES_STEP), "Gap with a step not below the count");
    t.gaps[2][1] = 7;
    count(gap_refused(0, 1, DATES_DAMAGED) && gap_refused(4, 0, DATES_DAMAGED) && dates_t_mark(&t) == DATES_DAMAGED && dates_t_back(&t) == DATES_DAMAGED, "a cell with a limit that there is not");
    count(dates_t_withdraw(&t, 0) == DATES_DAMAGED && dates_t_add(&t, 3, 3, 0, &value) == DATES_DAMAGED && t.gaps[2][1] == 7 && t.counts.rules == 2, "and nothing is changed");
    t.gaps[2][1] = N;
    t.gaps[0][2] = -4;
    count(gap_refused(0, 2, DATES_DAMAGED) && dates_t_last_day(&t, &value) == DATES_DAMAGED && dates_t_watch(&t, 0, 1, 0) == DATES_DAMAGED, "a cell that is one too large");
    t.gaps[0][2] = -5;
    t.gaps[3][3] = -1;
    count(gap_refused(0, 2, DATES_DAMAGED) && dates_t_mark(&t) == DATES_DAMAGED, "a step that is not 0 days from itself");
    t.gaps[3][3] = 0;
    t.gaps[4][4] = -1;
    count(gaps_are(two) && dates_t_mark(&t) == DATES_DONE && t.gaps[4][4] == -1, "and right again, whatever stands past the steps");

    dates_t_open(&t, DATES_YARD_STEPS);
    count(dates_t_add(&t, 15, 0, -7, &value) == DATES_DONE && t.gaps[15][0] == -7 && t.gaps[0][15] == N && gap_refused(15, 16, DATES_STEP), "as many steps as one yard has");
    dates_t_open(&t, DATES_YARD_STEPS + 1);
    t.gaps[0][1] = 77;
    count(dates_t_add(&t, 0, 1, -2, &value) == DATES_DONE && gap_refused(0, 1, DATES_YARD) && gap_refused(99, 0, DATES_YARD) && t.gaps[0][1] == 77, "a step more is DATES_YARD");
}

static void refusals(void)
{
    uint32_t value = 9;
    uint32_t last;

    case_3();
    count(dates_t_open(&t, 0) == DATES_STEP && dates_t_open(&t, DATES_STEPS + 1) == DATES_STEP && days_are(0, 2, 5, 0), "Open with no step, and with one too many");
    count(dates_t_add(&t, 4, 0, 0, &value) == DATES_STEP && value == 0, "a step number not below the count");
    /* Numbers that would be the steps 0, 1 and 65,535, were they cut to 16 bits. */
    for (last = 0; last < 3; last++) {
        const uint32_t large = last == 0 ? 65536u : last == 1 ? 65537u : 4294967295u;
        count(dates_t_watch(&t, large, 0, 0) == DATES_STEP && dates_t_watch(&t, 0, large, 0) == DATES_STEP && t.counts.watched == 0, "Watch with a step over 65,535");
        count(dates_t_add(&t, large, 0, 0, &value) == DATES_STEP && dates_t_add(&t, 0, large, 0, &value) == DATES_STEP && t.counts.rules == 2, "Add with a step over 65,535");
        count(dates_t_trial(&t, large, 0, 0, &value) == DATES_STEP && dates_t_trial(&t, 0, large, 0, &value) == DATES_STEP, "Trial with a step over 65,535");
        count(dates_t_ring_check(&t, t.ring, 3, large, 0, 4, &value) == DATES_STEP && dates_t_ring_check(&t, t.ring, 3, 2, large, 4, &value) == DATES_STEP, "Ring check with a step over 65,535");
    }
    value = 9;
    count(dates_t_add(&t, 0, 1, DATES_LARGEST + 1, &value) == DATES_AMOUNT && value == 0, "an amount over its bound");
    count(dates_t_add(&t, 0, 1, -DATES_LARGEST - 1, &value) == DATES_AMOUNT, "an amount under its bound");
    t.days[3] = 1;
    count(dates_t_mark(&t) == DATES_DAMAGED && t.counts.marks == 0, "days that are not the earliest plan");
    t.days[3] = 0;
    count(dates_t_mark(&t) == DATES_DONE, "and are it again");

    /* A chain over all steps: the latest day there is. */
    dates_t_open(&t, DATES_STEPS);
    for (last = 0; last + 1 < DATES_STEPS; last++)
        dates_t_add(&t, last, last + 1, -DATES_LARGEST, &value);
    count(value == 1 && t.days[DATES_STEPS - 1] == DATES_LATEST && last_is(DATES_LATEST), "case 13: the last day of a chain");
}

/* The gap table for a call that only reads it. */
#define GAPS dates_t_gaps(&t)

enum short_call { OPEN, WITHDRAW, LAST_DAY, GAP };

/* The call with one table a place short; which is 0 to 7 in the order in which they are lent, 8 for none. Open has seven steps, Withdraw the number 1, Gap the pair 0, 2. */
static uint32_t with_short(int which, enum short_call call, uint32_t *day, int64_t *limit)
{
    size_t len[8] = {DATES_RULES, DATES_RULES, DATES_RULES, DATES_STEPS, DATES_RULES, DATES_WATCHED, DATES_WATCHED, DATES_WATCHED};
    if (which < 8)
        len[which]--;
#define LENT_SHORT t.xs, len[0], t.ys, len[1], t.cs, len[2], t.days, len[3], t.levels, len[4], t.wxs, len[5], t.wys, len[6], t.wcs, len[7]
    switch (call) {
    case GAP:
        return dates_gap(&t.counts, LENT_SHORT, GAPS, 0, 2, day, limit);
    case LAST_DAY:
        return dates_last_day(&t.counts, LENT_SHORT, GAPS, day);
    case WITHDRAW:
        return dates_withdraw(&t.counts, LENT_SHORT, t.gaps, 1);
    default:
        return dates_open(&t.counts, LENT_SHORT, t.gaps, 7);
    }
#undef LENT_SHORT
}

static void short_tables(void)
{
    int which;
    uint32_t day;
    int64_t limit;

    case_3();
    for (which = 0; which < 8; which++) {
        day = 9;
        limit = 9;
        count(with_short(which, GAP, &day, &limit) == DATES_SHORT && day == 0 && limit == 0, "Gap with a table one place short");
        day = 9;
        count(with_short(which, LAST_DAY, &day, &limit) == DATES_SHORT && day == 0, "Last day with a table one place short");
        count(with_short(which, WITHDRAW, &day, &limit) == DATES_SHORT && t.counts.rules == 2 && t.levels[1] == 1, "Withdraw with a table one place short");
        count(with_short(which, OPEN, &day, &limit) == DATES_SHORT && days_are(0, 2, 5, 0), "Open with a table one place short");
    }
    count(with_short(8, GAP, &day, &limit) == DATES_DONE && day == 1 && limit == -5, "Gap with every table at its bound");
    count(with_short(8, LAST_DAY, &day, &limit) == DATES_DONE && day == 5, "Last day with every table at its bound");
    count(with_short(8, WITHDRAW, &day, &limit) == DATES_DONE && days_are(0, 2, 0, 0), "Withdraw with every table at its bound");
    count(with_short(8, OPEN, &day, &limit) == DATES_DONE && t.counts.steps == 7, "Open with every table at its bound");
}

/* How many steps there could be in version 1.0.0. */
enum { BEFORE = 256 };

#define LENT(days_len) \
    t.xs, DATES_RULES, t.ys, DATES_RULES, t.cs, DATES_RULES, t.days, days_len, t.levels, DATES_RULES, t.wxs, DATES_WATCHED, t.wys, DATES_WATCHED, t.wcs, DATES_WATCHED

/* As many levels as there were marks in version 3.1.0. */
#define LENT_MARKS \
    t.xs, DATES_RULES, t.ys, DATES_RULES, t.cs, DATES_RULES, t.days, DATES_STEPS, t.levels, DATES_MARKS, t.wxs, DATES_WATCHED, t.wys, DATES_WATCHED, t.wcs, DATES_WATCHED

/* Tables and lists as they were kept then are DATES_SHORT, whatever the step count; so many steps in tables of today are sound. */
static void kept_before(void)
{
    const uint8_t *leave = (const uint8_t *)"(exit)";
    uint32_t value = 9;
    size_t read = 9;
    size_t written = 9;

    case_3();
    count(dates_open(&t.counts, LENT(BEFORE), t.gaps, 4) == DATES_SHORT && t.counts.rules == 2, "Open with the days of before");
    count(dates_mark(&t.counts, LENT(BEFORE), GAPS) == DATES_SHORT && t.counts.marks == 0, "Mark with the days of before");
    count(dates_open(&t.counts, LENT_MARKS, t.gaps, 4) == DATES_SHORT && t.counts.rules == 2, "Open with the room that the marks had");
    count(dates_mark(&t.counts, LENT_MARKS, GAPS) == DATES_SHORT && t.counts.marks == 0, "Mark with the room that the marks had");
    count(dates_withdraw(&t.counts, LENT_MARKS, t.gaps, 0) == DATES_SHORT && t.counts.rules == 2, "Withdraw with the room that the marks had");
    count(dates_add(&t.counts, LENT(DATES_STEPS), t.gaps, t.ring, BEFORE, 2, 0, 5, &value) == DATES_SHORT && value == 0 && t.counts.rules == 2, "Add with the list of before");
    count(dates_trial(&t.counts, LENT(DATES_STEPS), GAPS, t.tried, BEFORE, t.ring, DATES_STEPS, 2, 0, 5, &value) == DATES_SHORT, "Trial with the list of days of before");
    count(dates_trial(&t.counts, LENT(DATES_STEPS), GAPS, t.tried, DATES_STEPS, t.ring, BEFORE, 2, 0, 5, &value) == DATES_SHORT, "Trial with the list for rings of before");
    count(dates_start(&t.counts, &t.record, LENT(DATES_STEPS), t.names, BEFORE * DATES_NAME_BYTES, t.lens, DATES_STEPS) == DATES_SHORT, "Start with the names of before");
    count(dates_start(&t.counts, &t.record, LENT(DATES_STEPS), t.names, sizeof t.names, t.lens, BEFORE) == DATES_SHORT && t.counts.rules == 2, "Start with the lengths of before");

    dates_t_start(&t);
    count(dates_command(leave, 6, &t.counts, &t.record, LENT(DATES_STEPS), t.names, BEFORE * DATES_NAME_BYTES, t.lens, DATES_STEPS, t.out, DATES_ROOM, &read, &written) == DATES_SHORT && read == 0, "a command with the names of before");
    count(dates_command(leave, 6, &t.counts, &t.record, LENT(DATES_STEPS), t.names, sizeof t.names, t.lens, BEFORE, t.out, DATES_ROOM, &read, &written) == DATES_SHORT, "a command with the lengths of before");
    count(dates_t_command(&t, leave, 6, &read, &written) == DATES_DONE && read == 6, "a command with all that it needs");
    count(dates_t_open(&t, BEFORE) == DATES_DONE && dates_t_add(&t, 0, BEFORE - 1, -2, &value) == DATES_DONE && value == 1 && t.days[BEFORE - 1] == 2, "as many steps as before");
    count(dates_t_add(&t, BEFORE, 0, 0, &value) == DATES_STEP && dates_t_mark(&t) == DATES_DONE && dates_t_back(&t) == DATES_DONE, "and no more");
    count(dates_t_command(&t, leave, 6, &read, &written) == DATES_DAMAGED && read == 0, "a script has all steps");
}

static const char script[] =
    "(set-logic QF_IDL)\n"
    "(declare-fun cut () Int)\n"
    "(declare-fun dry () Int)\n"
    "(assert (<= (- cut dry) (- 2))) ; drying takes two days\n"
    "(check-sat)\n"
    "(get-value (cut dry))\n"
    "(push 1)\n"
    "(assert (<= (- dry cut) 1))\n"
    "(check-sat)\n"
    "(pop 1)\n"
    "(check-sat)\n";

static const char answers[] = "sat\n((cut 0) (dry 2))\nunsat\nsat\n";

static void scripts(void)
{
    static uint8_t out[8 * sizeof script + 2 * DATES_ROOM];
    const uint8_t *text = (const uint8_t *)script;
    const size_t len = sizeof script - 1;
    size_t at;
    size_t read = 0;
    size_t written = 0;
    size_t printed = 0;
    int commands = 0;

    count(dates_t_start(&t) == DATES_DONE && t.counts.steps == DATES_STEPS && t.record.names == 0 && last_is(0), "the start of a script");
    for (at = dates_skip(text, len); at < len; at += dates_skip(text + at, len - at)) {
        if (dates_t_command(&t, text + at, len - at, &read, &written) != DATES_DONE)
            break;
        memcpy(out + printed, t.out, written);
        printed += written;
        at += read;
        commands++;
    }
    count(commands == 11 && at == len, "eleven commands, one at a time");
    count(printed == sizeof answers - 1 && memcmp(out, answers, printed) == 0, "what they print");
    count(t.record.names == 2 && t.lens[1] == 3 && memcmp(t.names + DATES_NAME_BYTES, "dry", 3) == 0 && t.days[1] == 2 && last_is(2), "the record and the days after them");
    count(dates_t_command(&t, text, len, &read, &written) == DATES_MODE && read == 0 && written == 0, "a second set-logic");

    memset(out, 0, sizeof out);
    count(dates_run_script(text, len, out, sizeof out, &written) == DATES_DONE, "the whole script");
    count(written == sizeof answers - 1 && memcmp(out, answers, written) == 0, "what it prints");
    count(dates_run_script(text + 1, len - 1, out, sizeof out, &written) == DATES_SYNTAX && written == 12 && memcmp(out, "(error \"8\")\n", 12) == 0, "a script that is refused");
    count(dates_run_script(text, len, out, DATES_ROOM - 1, &written) == DATES_SHORT && written == 0, "a script with little room");
}

int main(void)
{
    worked_cases();
    reasons();
    withdrawals();
    last_days();
    gap_tables();
    refusals();
    short_tables();
    kept_before();
    scripts();
    printf("%d passed, %d failed\n", passed, failed);
    return failed > 0;
}
