#ifndef DATES_H
#define DATES_H
#define DATES_VERSION "5.0.0"

/*
 * The date engine's calls, for C (C99 and later) and C++ (C++11 and later). The library is libdates where it is installed (./install), in the
 * tree target/staticlib/libexports.a (tools/build library), for x86-64 System V.
 *
 * A rule is three numbers: first step x, second step y, amount c. It says day(x) - day(y) <= c. "Drying (1) at least two days after cutting (0)" is the rule 0, 1, -2.
 * An arrangement gives every step a whole number so that every rule held holds; a plan is one with no day below 0; the earliest plan is the plan in which no
 * step is later than in any other. A ring is a list of rules where each rule's second step is the next rule's first step, the last one's second step is the first
 * one's first step, and no step is a first step twice; it is negative when its amounts add up below 0. The steps of a rule are handed over as uint32_t, so that
 * none is cut short on the way: a step that is not below the step count is DATES_STEP, however large.
 *
 * The caller lends all tables to every call. `dates_tables` below holds one set of them, and the dates_t_ helpers lend it, so that each call is one line:
 *
 *     static dates_tables t;
 *     uint32_t value;
 *     dates_t_open(&t, 4);
 *     if (dates_t_add(&t, 0, 1, -2, &value) == DATES_CONFLICT) { .. t.ring[0 .. value - 1] .. }
 *
 * What every call takes for granted: no pointer is null, each is aligned and leads to as many elements as the length after it says (that of the gap table, which has
 * no length, to all its cells), what a call may write overlaps nothing else that is lent to it, and no other thread touches any of it during the call. Beyond that there is no
 * condition: any lengths, counts and cells may be lent, and every call returns. Nothing is kept after the call.
 */

#include <stddef.h>
#include <stdint.h>

#ifdef __cplusplus
extern "C" {
#endif

/* The bounds. */
#define DATES_STEPS 1024        /* there are 1 to so many steps, numbered from 0; a list lent for days or for a ring has at least so many places */
#define DATES_RULES 4096        /* at most so many rules are held; the number of a rule is its place, from 0, and a new rule takes the lowest free place */
#define DATES_LARGEST 1000000   /* the largest amount; the smallest is -DATES_LARGEST */
#define DATES_MARKS 64          /* at most so many marks are open */
#define DATES_WATCHED 1024      /* at most so many rules are watched, numbered from 0 */
#define DATES_LATEST 1023000000 /* no day of an earliest plan is later */
#define DATES_TEXT 65536        /* a script has at most so many bytes, where it is run as a whole */
#define DATES_NAME_BYTES 32     /* a name has at most so many bytes, and so many places in the table of names */
#define DATES_DEPTH 16          /* terms are at most so deep, the asserted term itself being depth 1 */
#define DATES_YARD_STEPS 16     /* one yard has at most so many steps: with no more the gap table is kept, which has so many rows and columns */
#define DATES_NO_LIMIT 9223372036854775807 /* what a cell of the gap table has where there is no limit: INT64_MAX */
#define DATES_ASKED 256         /* one get-value has at most so many names */
#define DATES_ROOM 16384        /* at least so many bytes are lent for a command's answer */

/* The numbers given back. The comment at each call says which it can give, in the order in which they are judged: the first that applies is given. A refusal (any
 * number but DATES_DONE) gives values 0 and changes nothing else that is lent; DATES_CONFLICT alone writes its ring and gives its length. */
#define DATES_DONE 0      /* the call was carried out */
#define DATES_SHORT 1     /* a lent table or list has too few places */
#define DATES_DAMAGED 2   /* the tables are not sound */
#define DATES_STEP 3      /* Open with a count outside 1 to DATES_STEPS; a step number not below the count */
#define DATES_AMOUNT 4    /* an amount outside -DATES_LARGEST to DATES_LARGEST */
#define DATES_FULL 5      /* no place for one more rule, mark, watched rule or declared name */
#define DATES_CONFLICT 6  /* with the new rule no arrangement exists */
#define DATES_NOMARK 7    /* Back with no mark open */
#define DATES_SYNTAX 8    /* script text outside its form */
#define DATES_MODE 9      /* a command at a place where it may not stand */
#define DATES_NAME 10     /* a name unknown, or declared while it stands */
#define DATES_SIZE 11     /* script over DATES_TEXT bytes, name over DATES_NAME_BYTES, terms over DATES_DEPTH deep, over DATES_ASKED names in one get-value */
#define DATES_ABSENT 12   /* Withdraw of a number under which no rule is held */
#define DATES_YARD 15     /* Gap where there are more steps than one yard has */

/* How many of each thing the tables hold, and the last day of the plan. Each call brings it up to date. */
typedef struct dates_counts {
    uint32_t steps;    /* steps, numbered from 0 */
    uint32_t rules;    /* rules held; the number of the next one is the lowest free place, which levels tells */
    uint32_t marks;    /* marks open */
    uint32_t watched;  /* watched rules */
    uint32_t last;     /* the last day: the largest day of all steps; any other value makes the tables DATES_DAMAGED */
} dates_counts;

/* The script's record. */
typedef struct dates_record {
    uint32_t names;   /* names declared; name number k is step k */
    uint32_t logic;   /* 1 where set-logic has come, else 0 */
    uint32_t broken;  /* the contradictory level, counted from 1: the marks that were open when the conflict came, and 1; 0 where there is none */
    uint32_t sat;     /* 1 where the last check-sat printed sat and only get-value and unsupported commands came since, else 0 */
} dates_record;

/*
 * The tables, the same for every call, but for the gap table, which calls for scripts are not lent. Each length counts elements and must be at least the bound, else the call
 * is DATES_SHORT; room beyond is never touched.
 *
 *     counts              how many of each thing the tables hold, and the last day of the plan
 *     xs, xs_len          the first steps of the rules held, each at the place of its number, for at least DATES_RULES
 *     ys, ys_len          their second steps, for at least DATES_RULES
 *     cs, cs_len          their amounts, for at least DATES_RULES
 *     days, days_len      the day of each step, for at least DATES_STEPS
 *     levels, levels_len  0 for a free place, k + 1 for a rule that was added while k marks were open, for at least DATES_RULES
 *     wxs, wxs_len        the first steps of the watched rules, for at least DATES_WATCHED
 *     wys, wys_len        their second steps, for at least DATES_WATCHED
 *     wcs, wcs_len        their amounts, for at least DATES_WATCHED
 *     gaps                the gap table: DATES_YARD_STEPS rows of as many cells, one pointer without a length, so that it is never too short
 *
 * A rule is held under a number below DATES_RULES where levels is not 0 at that place, and keeps the number until it is withdrawn or goes with its level. The next rule gets
 * the lowest free place; that is also the number that a refused rule would have had, DATES_RULES where no place is free.
 *
 * They are sound when the counts are within bounds, every rule held or watched is within bounds, no rule held is of a level with more marks than are open, counts->rules
 * is the number of rules held, the days equal their earliest plan, counts->last is the largest of these, and, for a call that is lent it, the gap table is right.
 * dates_open and dates_start make them so, and every call leaves sound tables sound. Free places of xs, ys and cs, and cells past the counts of the other tables, may hold
 * anything, and a call leaves there what it finds. What a call may write is a pointer without const.
 *
 * The gap table has in row x and column y the limit of that pair: the least c such that day(x) - day(y) <= c in every arrangement of the rules held, DATES_NO_LIMIT where
 * there is none. The limit of x, x is 0. It is kept with at most DATES_YARD_STEPS steps, in the cells whose row and column are below the step count, and is right when each of
 * these has what is said here. No other cell is read or written, and with more steps none is. Open makes it; Add, Back and Withdraw bring it up to date where they are
 * carried out; every other call, and every refusal, leaves it. C before C23 does not take a table of int64_t for one of const int64_t by itself: a call that only reads the
 * gap table is handed (const int64_t (*)[DATES_YARD_STEPS])gaps there, or dates_t_gaps(&t).
 */

/*
 * Open: sets that many steps, no rules, marks or watched rules, day 0 for every step, and 0 for the last day. What the tables held before does not matter.
 *     steps   how many steps there are to be
 * Writes counts, the days of these steps, 0 into the first DATES_RULES places of levels, and the gap table: 0 for x, x, and DATES_NO_LIMIT for every other pair of these steps.
 *     DATES_SHORT   a table has too few places
 *     DATES_STEP    steps is not 1 to DATES_STEPS
 */
uint32_t dates_open(
    dates_counts *counts,
    const uint16_t *xs, size_t xs_len, const uint16_t *ys, size_t ys_len, const int32_t *cs, size_t cs_len,
    uint32_t *days, size_t days_len, uint8_t *levels, size_t levels_len,
    const uint16_t *wxs, size_t wxs_len, const uint16_t *wys, size_t wys_len, const int32_t *wcs, size_t wcs_len,
    int64_t gaps[DATES_YARD_STEPS][DATES_YARD_STEPS], uint32_t steps);

/*
 * Watch: puts one rule at the end of the watched list.
 *     x, y, c   the rule: its first step, its second step, its amount
 * Writes counts, and the new rule's place in wxs, wys and wcs.
 *     DATES_SHORT     a table has too few places
 *     DATES_DAMAGED   the tables are not sound
 *     DATES_STEP      x or y is not below the step count
 *     DATES_AMOUNT    c is outside its bound
 *     DATES_FULL      DATES_WATCHED rules are watched
 */
uint32_t dates_watch(
    dates_counts *counts,
    const uint16_t *xs, size_t xs_len, const uint16_t *ys, size_t ys_len, const int32_t *cs, size_t cs_len,
    const uint32_t *days, size_t days_len, const uint8_t *levels, size_t levels_len,
    uint16_t *wxs, size_t wxs_len, uint16_t *wys, size_t wys_len, int32_t *wcs, size_t wcs_len,
    const int64_t gaps[DATES_YARD_STEPS][DATES_YARD_STEPS], uint32_t x, uint32_t y, int32_t c);

/*
 * Mark: one more mark is open. The rules added from now on are of its level.
 * Writes counts.
 *     DATES_SHORT     a table has too few places
 *     DATES_DAMAGED   the tables are not sound
 *     DATES_FULL      DATES_MARKS marks are open
 */
uint32_t dates_mark(
    dates_counts *counts,
    const uint16_t *xs, size_t xs_len, const uint16_t *ys, size_t ys_len, const int32_t *cs, size_t cs_len,
    const uint32_t *days, size_t days_len, const uint8_t *levels, size_t levels_len,
    const uint16_t *wxs, size_t wxs_len, const uint16_t *wys, size_t wys_len, const int32_t *wcs, size_t wcs_len,
    const int64_t gaps[DATES_YARD_STEPS][DATES_YARD_STEPS]);

/*
 * Back: drops the newest mark and every rule added after it, and brings the days to the earliest plan of the rules left, which are those held at the mark and not
 * withdrawn since. The watched list stays.
 * Writes counts, the days of all steps, the gap table, and 0 into levels at the places of the rules that go, which are free then.
 *     DATES_SHORT     a table has too few places
 *     DATES_DAMAGED   the tables are not sound
 *     DATES_NOMARK    no mark is open
 */
uint32_t dates_back(
    dates_counts *counts,
    const uint16_t *xs, size_t xs_len, const uint16_t *ys, size_t ys_len, const int32_t *cs, size_t cs_len,
    uint32_t *days, size_t days_len, uint8_t *levels, size_t levels_len,
    const uint16_t *wxs, size_t wxs_len, const uint16_t *wys, size_t wys_len, const int32_t *wcs, size_t wcs_len,
    int64_t gaps[DATES_YARD_STEPS][DATES_YARD_STEPS]);

/*
 * Withdraw: takes one rule away, whenever it was added, and brings the days to the earliest plan of the rest. The other rules keep their numbers, and the place is free for
 * the next rule. Marks and the watched list stay; Back does not bring the rule back.
 *     number   the rule's number
 * Writes counts, the days of all steps, the gap table, and 0 into levels at that place.
 *     DATES_SHORT     a table has too few places
 *     DATES_DAMAGED   the tables are not sound
 *     DATES_ABSENT    no rule is held under the number; so it is for DATES_RULES and every number above
 */
uint32_t dates_withdraw(
    dates_counts *counts,
    const uint16_t *xs, size_t xs_len, const uint16_t *ys, size_t ys_len, const int32_t *cs, size_t cs_len,
    uint32_t *days, size_t days_len, uint8_t *levels, size_t levels_len,
    const uint16_t *wxs, size_t wxs_len, const uint16_t *wys, size_t wys_len, const int32_t *wcs, size_t wcs_len,
    int64_t gaps[DATES_YARD_STEPS][DATES_YARD_STEPS], uint32_t number);

/*
 * Add: holds one more rule, under the lowest free number, and brings the days to the earliest plan.
 *     list, list_len   gets the ring on DATES_CONFLICT; at least DATES_STEPS places, and places past the ring's length keep what they had
 *     x, y, c          the rule: its first step, its second step, its amount
 *     value            gets how many steps have a day different from before; on DATES_CONFLICT the ring's length; on any other refusal 0
 * The ring is a negative one: first the refused rule, under the number it would have had (the lowest free place), then rules held. Of all such rings it has the fewest rules,
 * and of those with as few it is the one whose list of numbers is smallest at the first difference. So the same tables and the same rule always give the same ring.
 * Writes counts, the new rule's place in xs, ys, cs and levels, the days of all steps, the gap table, and value; on DATES_CONFLICT list and value alone.
 *     DATES_SHORT      a table or the list has too few places
 *     DATES_DAMAGED    the tables are not sound
 *     DATES_STEP       x or y is not below the step count
 *     DATES_AMOUNT     c is outside its bound
 *     DATES_FULL       DATES_RULES rules are held
 *     DATES_CONFLICT   no arrangement keeps the rule along with those held
 */
uint32_t dates_add(
    dates_counts *counts,
    uint16_t *xs, size_t xs_len, uint16_t *ys, size_t ys_len, int32_t *cs, size_t cs_len,
    uint32_t *days, size_t days_len, uint8_t *levels, size_t levels_len,
    const uint16_t *wxs, size_t wxs_len, const uint16_t *wys, size_t wys_len, const int32_t *wcs, size_t wcs_len,
    int64_t gaps[DATES_YARD_STEPS][DATES_YARD_STEPS], uint32_t *list, size_t list_len, uint32_t x, uint32_t y, int32_t c, uint32_t *value);

/*
 * Trial: answers as Add would and writes to no table.
 *     one, one_len   gets the days of all steps if the rule fits, else is not written; at least DATES_STEPS places
 *     two, two_len   gets the ring on DATES_CONFLICT, the one that Add would give, else is not written; at least DATES_STEPS places
 *     x, y, c        the rule: its first step, its second step, its amount
 *     value          gets how many steps would move; on DATES_CONFLICT the ring's length; on any other refusal 0
 * Writes one or two, and value.
 *     DATES_SHORT      a table or one of the lists has too few places
 *     DATES_DAMAGED    the tables are not sound
 *     DATES_STEP       x or y is not below the step count
 *     DATES_AMOUNT     c is outside its bound
 *     DATES_FULL       DATES_RULES rules are held
 *     DATES_CONFLICT   no arrangement keeps the rule along with those held
 */
uint32_t dates_trial(
    const dates_counts *counts,
    const uint16_t *xs, size_t xs_len, const uint16_t *ys, size_t ys_len, const int32_t *cs, size_t cs_len,
    const uint32_t *days, size_t days_len, const uint8_t *levels, size_t levels_len,
    const uint16_t *wxs, size_t wxs_len, const uint16_t *wys, size_t wys_len, const int32_t *wcs, size_t wcs_len,
    const int64_t gaps[DATES_YARD_STEPS][DATES_YARD_STEPS], uint32_t *one, size_t one_len, uint32_t *two, size_t two_len, uint32_t x, uint32_t y, int32_t c, uint32_t *value);

/*
 * Consequences: which watched rules follow from the rules held, and which contradict them.
 *     one, one_len   gets the numbers of the watched rules that hold in every arrangement, rising; at least as many places as counts->watched
 *     two, two_len   gets those that hold in none, rising; at least as many places as counts->watched
 *     held           gets how many are in one; on a refusal 0
 *     excluded       gets how many are in two; on a refusal 0
 * Writes one, two, held and excluded.
 *     DATES_SHORT     a table or one of the lists has too few places
 *     DATES_DAMAGED   the tables are not sound
 */
uint32_t dates_consequences(
    const dates_counts *counts,
    const uint16_t *xs, size_t xs_len, const uint16_t *ys, size_t ys_len, const int32_t *cs, size_t cs_len,
    const uint32_t *days, size_t days_len, const uint8_t *levels, size_t levels_len,
    const uint16_t *wxs, size_t wxs_len, const uint16_t *wys, size_t wys_len, const int32_t *wcs, size_t wcs_len,
    const int64_t gaps[DATES_YARD_STEPS][DATES_YARD_STEPS], uint32_t *one, size_t one_len, uint32_t *two, size_t two_len, uint32_t *held, uint32_t *excluded);

/*
 * Ring check: whether a list is a negative ring that starts with the rule under its would-be number (the lowest free place, DATES_RULES where there is none) and goes on over
 * rules held. It need not be the one that Add gives.
 *     list, list_len   any list of any numbers
 *     x, y, c          the rule: its first step, its second step, its amount
 *     verdict          gets 1 where the list is such a ring, else 0; on a refusal 0
 * Writes verdict.
 *     DATES_SHORT     a table has too few places
 *     DATES_DAMAGED   the tables are not sound
 *     DATES_STEP      x or y is not below the step count
 *     DATES_AMOUNT    c is outside its bound
 */
uint32_t dates_ring_check(
    const dates_counts *counts,
    const uint16_t *xs, size_t xs_len, const uint16_t *ys, size_t ys_len, const int32_t *cs, size_t cs_len,
    const uint32_t *days, size_t days_len, const uint8_t *levels, size_t levels_len,
    const uint16_t *wxs, size_t wxs_len, const uint16_t *wys, size_t wys_len, const int32_t *wcs, size_t wcs_len,
    const int64_t gaps[DATES_YARD_STEPS][DATES_YARD_STEPS], const uint32_t *list, size_t list_len, uint32_t x, uint32_t y, int32_t c, uint32_t *verdict);

/*
 * Last day: the largest day of the plan, over all steps of the tables, those of a script that have no name too.
 *     day   gets the largest day, which is counts->last where the tables are sound; on a refusal 0
 * Writes day.
 *     DATES_SHORT     a table has too few places
 *     DATES_DAMAGED   the tables are not sound
 */
uint32_t dates_last_day(
    const dates_counts *counts,
    const uint16_t *xs, size_t xs_len, const uint16_t *ys, size_t ys_len, const int32_t *cs, size_t cs_len,
    const uint32_t *days, size_t days_len, const uint8_t *levels, size_t levels_len,
    const uint16_t *wxs, size_t wxs_len, const uint16_t *wys, size_t wys_len, const int32_t *wcs, size_t wcs_len,
    const int64_t gaps[DATES_YARD_STEPS][DATES_YARD_STEPS], uint32_t *day);

/*
 * Gap: the limit of a pair of steps of one yard: the least c such that day(x) - day(y) <= c in every arrangement of the rules held.
 *     x, y      the pair: the two steps
 *     limited   gets 1 where there is a limit, else 0; on a refusal 0
 *     limit     gets the limit, 0 where there is none; on a refusal 0
 * Writes limited and limit. The numbers below do not rise: DATES_YARD, which is 15, is judged before DATES_STEP, which is 3.
 *     DATES_SHORT     a table has too few places
 *     DATES_DAMAGED   the tables are not sound
 *     DATES_YARD      there are more than DATES_YARD_STEPS steps
 *     DATES_STEP      x or y is not below the step count
 */
uint32_t dates_gap(
    const dates_counts *counts,
    const uint16_t *xs, size_t xs_len, const uint16_t *ys, size_t ys_len, const int32_t *cs, size_t cs_len,
    const uint32_t *days, size_t days_len, const uint8_t *levels, size_t levels_len,
    const uint16_t *wxs, size_t wxs_len, const uint16_t *wys, size_t wys_len, const int32_t *wcs, size_t wcs_len,
    const int64_t gaps[DATES_YARD_STEPS][DATES_YARD_STEPS], uint32_t x, uint32_t y, uint32_t *limited, int64_t *limit);

/*
 * Start: opens the tables with DATES_STEPS steps and empties the script's record. What they held before does not matter.
 *     record             the script's record
 *     names, names_len   the declared names, DATES_NAME_BYTES bytes for each; at least DATES_STEPS * DATES_NAME_BYTES
 *     lens, lens_len     how many bytes each name has; at least DATES_STEPS places
 * Writes counts, record, the days of all steps, and 0 into the first DATES_RULES places of levels.
 *     DATES_SHORT   a table has too few places
 */
uint32_t dates_start(
    dates_counts *counts, dates_record *record,
    const uint16_t *xs, size_t xs_len, const uint16_t *ys, size_t ys_len, const int32_t *cs, size_t cs_len,
    uint32_t *days, size_t days_len, uint8_t *levels, size_t levels_len,
    const uint16_t *wxs, size_t wxs_len, const uint16_t *wys, size_t wys_len, const int32_t *wcs, size_t wcs_len,
    const uint8_t *names, size_t names_len, const uint8_t *lens, size_t lens_len);

/*
 * Command: carries out the one script command that the text begins with, from its opening bracket on.
 *     text, text_len     the text; what follows the command's closing bracket is not looked at
 *     record             the script's record; it is sound with tables of DATES_STEPS steps, at most as many names, all different and in form, a contradictory level
 *                        no deeper than the marks open, and with one no sat; logic and sat are 0 or 1
 *     names, names_len   the declared names, DATES_NAME_BYTES bytes for each; at least DATES_STEPS * DATES_NAME_BYTES
 *     lens, lens_len     how many bytes each name has; at least DATES_STEPS places
 *     out, out_len       gets what the command prints, each line ended by a line feed; at least DATES_ROOM bytes
 *     read               gets how many bytes of the text the command has; on a refusal 0
 *     written            gets how many bytes it printed; on a refusal 0
 * A conflict at assert is DATES_DONE and marks the level as contradictory, until it is popped; Withdraw knows nothing of the record, so the level stays so whatever is
 * withdrawn. A refusal prints nothing here, and whether to go on after one, or after exit, is the caller's choice. Writes all but the text and the watched rules.
 *     DATES_SHORT     a table or out has too few places
 *     DATES_DAMAGED   the tables or the record are not sound
 * and then, in the order in which the command is judged (docs/SCRIPTS.md), one of
 *     DATES_SYNTAX    the text does not begin with a command in form
 *     DATES_SIZE      a name, a term's depth or a get-value is over its size
 *     DATES_MODE      the command may not stand here
 *     DATES_NAME      a name is unknown, or declared while it stands
 *     DATES_AMOUNT    the amount of a rule of the term is outside its bound
 *     DATES_FULL      no place for the term's rules, the marks of a push, or one more name
 *     DATES_NOMARK    pop of more levels than are open
 */
uint32_t dates_command(
    const uint8_t *text, size_t text_len, dates_counts *counts, dates_record *record,
    uint16_t *xs, size_t xs_len, uint16_t *ys, size_t ys_len, int32_t *cs, size_t cs_len,
    uint32_t *days, size_t days_len, uint8_t *levels, size_t levels_len,
    const uint16_t *wxs, size_t wxs_len, const uint16_t *wys, size_t wys_len, const int32_t *wcs, size_t wcs_len,
    uint8_t *names, size_t names_len, uint8_t *lens, size_t lens_len, uint8_t *out, size_t out_len, size_t *read, size_t *written);

/*
 * A whole script, over tables of its own on the stack: its commands one after the other, up to its end, exit or a refusal, which prints (error "N").
 *     script, script_len   the text
 *     out, out_len         gets all that the script prints; each command needs DATES_ROOM bytes after what is printed so far. 8 * script_len + 2 * DATES_ROOM are always enough
 *     written              gets how many bytes were printed, those of the error too
 * Writes out and written. Gives the number of the refusal that ended the script, DATES_DONE where there was none:
 *     DATES_SHORT   a command finds fewer than DATES_ROOM bytes left, or a script that is too long fewer in all; nothing more is printed, not even the error
 *     DATES_SIZE    the script has more than DATES_TEXT bytes, which is tested before its first command
 * and then at each command one of the numbers from DATES_SYNTAX on that stand at dates_command.
 */
uint32_t dates_run_script(const uint8_t *script, size_t script_len, uint8_t *out, size_t out_len, size_t *written);

/*
 * One set of all that is lent, each table at its bound. It is large (some 118,000 bytes): make it static or take it from the heap. It needs no setting up but
 * dates_t_open or dates_t_start. The gap table stands first, where its cells are aligned without places left out before them.
 */
typedef struct dates_tables {
    int64_t gaps[DATES_YARD_STEPS][DATES_YARD_STEPS];
    dates_counts counts;
    dates_record record;
    uint16_t xs[DATES_RULES];
    uint16_t ys[DATES_RULES];
    int32_t cs[DATES_RULES];
    uint32_t days[DATES_STEPS];
    uint8_t levels[DATES_RULES];
    uint16_t wxs[DATES_WATCHED];
    uint16_t wys[DATES_WATCHED];
    int32_t wcs[DATES_WATCHED];
    uint8_t names[DATES_STEPS * DATES_NAME_BYTES];
    uint8_t lens[DATES_STEPS];
    uint32_t ring[DATES_STEPS];        /* the ring of the newest conflict, at Add or Trial */
    uint32_t tried[DATES_STEPS];       /* the days of the newest Trial that fits */
    uint32_t always[DATES_WATCHED];    /* the newest Consequences: the watched rules that hold in every arrangement */
    uint32_t never[DATES_WATCHED];     /* the newest Consequences: those that hold in none */
    uint8_t out[DATES_ROOM];           /* what the newest command printed */
} dates_tables;

#define DATES_LENT_(t) \
    (t)->xs, DATES_RULES, (t)->ys, DATES_RULES, (t)->cs, DATES_RULES, (t)->days, DATES_STEPS, (t)->levels, DATES_RULES, \
    (t)->wxs, DATES_WATCHED, (t)->wys, DATES_WATCHED, (t)->wcs, DATES_WATCHED
#define DATES_READ_(t) DATES_LENT_(t), dates_t_gaps(t)
#define DATES_NAMES_(t) (t)->names, DATES_STEPS * DATES_NAME_BYTES, (t)->lens, DATES_STEPS

/* The gap table for a call that only reads it, which C before C23 takes from tables that are const alone. */
static inline const int64_t (*dates_t_gaps(const dates_tables *t))[DATES_YARD_STEPS]
{
    return t->gaps;
}

/* Open with so many steps: dates_open. */
static inline uint32_t dates_t_open(dates_tables *t, uint32_t steps)
{
    return dates_open(&t->counts, DATES_LENT_(t), t->gaps, steps);
}

/* Watch the rule x, y, c: dates_watch. */
static inline uint32_t dates_t_watch(dates_tables *t, uint32_t x, uint32_t y, int32_t c)
{
    return dates_watch(&t->counts, DATES_READ_(t), x, y, c);
}

/* Mark: dates_mark. */
static inline uint32_t dates_t_mark(dates_tables *t)
{
    return dates_mark(&t->counts, DATES_READ_(t));
}

/* Back: dates_back. */
static inline uint32_t dates_t_back(dates_tables *t)
{
    return dates_back(&t->counts, DATES_LENT_(t), t->gaps);
}

/* Withdraw the rule held under a number: dates_withdraw. */
static inline uint32_t dates_t_withdraw(dates_tables *t, uint32_t number)
{
    return dates_withdraw(&t->counts, DATES_LENT_(t), t->gaps, number);
}

/* Add the rule x, y, c: dates_add. The value is how many steps moved; on DATES_CONFLICT the ring is in t->ring, and the value is its length. */
static inline uint32_t dates_t_add(dates_tables *t, uint32_t x, uint32_t y, int32_t c, uint32_t *value)
{
    return dates_add(&t->counts, DATES_LENT_(t), t->gaps, t->ring, DATES_STEPS, x, y, c, value);
}

/* Try the rule x, y, c: dates_trial. The days are in t->tried; on DATES_CONFLICT the ring is in t->ring, and the value is its length. */
static inline uint32_t dates_t_trial(dates_tables *t, uint32_t x, uint32_t y, int32_t c, uint32_t *value)
{
    return dates_trial(&t->counts, DATES_READ_(t), t->tried, DATES_STEPS, t->ring, DATES_STEPS, x, y, c, value);
}

/* Consequences: dates_consequences. The numbers are in t->always, as many as held says, and in t->never, as many as excluded says. */
static inline uint32_t dates_t_consequences(dates_tables *t, uint32_t *held, uint32_t *excluded)
{
    return dates_consequences(&t->counts, DATES_READ_(t), t->always, DATES_WATCHED, t->never, DATES_WATCHED, held, excluded);
}

/* Whether the list is a ring for the rule x, y, c: dates_ring_check. The list may be t->ring. */
static inline uint32_t dates_t_ring_check(const dates_tables *t, const uint32_t *list, size_t list_len, uint32_t x, uint32_t y, int32_t c, uint32_t *verdict)
{
    return dates_ring_check(&t->counts, DATES_READ_(t), list, list_len, x, y, c, verdict);
}

/* The last day of the plan: dates_last_day. */
static inline uint32_t dates_t_last_day(const dates_tables *t, uint32_t *day)
{
    return dates_last_day(&t->counts, DATES_READ_(t), day);
}

/* The limit of the pair x, y: dates_gap. limited is 0 where there is none. */
static inline uint32_t dates_t_gap(const dates_tables *t, uint32_t x, uint32_t y, uint32_t *limited, int64_t *limit)
{
    return dates_gap(&t->counts, DATES_READ_(t), x, y, limited, limit);
}

/* Start a script: dates_start. */
static inline uint32_t dates_t_start(dates_tables *t)
{
    return dates_start(&t->counts, &t->record, DATES_LENT_(t), DATES_NAMES_(t));
}

/* Carry out the command that the text begins with: dates_command. What it prints is in t->out, as many bytes as written says. */
static inline uint32_t dates_t_command(dates_tables *t, const uint8_t *text, size_t text_len, size_t *read, size_t *written)
{
    return dates_command(text, text_len, &t->counts, &t->record, DATES_LENT_(t), DATES_NAMES_(t), t->out, DATES_ROOM, read, written);
}

#undef DATES_LENT_
#undef DATES_READ_
#undef DATES_NAMES_

/* How many bytes of white space and comments the text begins with. What is handed to dates_command begins past them, at an opening bracket. */
static inline size_t dates_skip(const uint8_t *text, size_t text_len)
{
    size_t at = 0;
    int comment = 0;
    for (; at < text_len; at++) {
        uint8_t byte = text[at];
        if (comment)
            comment = byte != '\n' && byte != '\r';
        else if (byte == ';')
            comment = 1;
        else if (byte != ' ' && byte != '\t' && byte != '\n' && byte != '\r')
            break;
    }
    return at;
}

#ifdef __cplusplus
}
#endif

#endif
