#include "families.h"

#include <stdbool.h>
#include <stddef.h>
#include <stdio.h>
#include <string.h>

/* ---- words for the format ---------------------------------------------------------------------- */

#define LEAST "0100"
#define GREATEST "0101"
#define AND "12"
#define OR "13"
#define FOR_ALL_16 "1410"
#define EQUAL "16"
#define UNEQUAL "18"
#define NOT_LESS "19"
#define NUMBER(v) "20" #v
#define V(i) "210" #i
#define UP(term) "2210" term NUMBER(01)
#define DOWN(term) "2310" term NUMBER(01)
#define LINE "\n"

/* Three parameters of 16, 16 and 2 values, counted as one number from 0 to 511 with parameter 0 as
   its lowest part. Each of these is "the instance one further (one back)", by cases on the carry. */
#define OF_512 "03101002"
#define X3(a, b, c) "1a0003" a b c
#define NEXT_3                                                                                     \
    OR AND UNEQUAL V(0) NUMBER(0f) X3(UP(V(0)), V(1), V(2))                                        \
    AND EQUAL V(0) NUMBER(0f)                                                                      \
    OR AND UNEQUAL V(1) NUMBER(0f) X3(NUMBER(00), UP(V(1)), V(2))                                  \
    AND EQUAL V(1) NUMBER(0f) X3(NUMBER(00), NUMBER(00), NUMBER(01))
#define BACK_3                                                                                     \
    OR AND UNEQUAL V(0) NUMBER(00) X3(DOWN(V(0)), V(1), V(2))                                      \
    AND EQUAL V(0) NUMBER(00)                                                                      \
    OR AND UNEQUAL V(1) NUMBER(00) X3(NUMBER(0f), DOWN(V(1)), V(2))                                \
    AND EQUAL V(1) NUMBER(00) X3(NUMBER(0f), NUMBER(0f), NUMBER(00))
#define IS_FIRST_3 AND EQUAL V(0) NUMBER(00) AND EQUAL V(1) NUMBER(00) EQUAL V(2) NUMBER(00)
#define IS_LAST_3 AND EQUAL V(0) NUMBER(0f) AND EQUAL V(1) NUMBER(0f) EQUAL V(2) NUMBER(01)
#define NOT_LAST_BUT_ONE_3 OR UNEQUAL V(0) NUMBER(0e) OR UNEQUAL V(1) NUMBER(0f) UNEQUAL V(2) NUMBER(01)

/* A part for right sides of OF_512: the first two parameters count from 0 to 255, the third is 0 or 1. Where
   `true_here` it is true; else it rests on the next number and, besides, on the same number with the other
   third parameter or on number 255 with the third parameter `third`. So it is joined by both `and` and `or`,
   and solving has to evaluate it from its body. All 512 are reached from the first, and with number 255 all
   are true; with number 255 and a third parameter of 0, those with 0. */
#define IS_255 AND EQUAL V(0) NUMBER(0f) EQUAL V(1) NUMBER(0f)
#define PART(true_here, third)                                                                     \
    OR true_here AND                                                                               \
    OR AND UNEQUAL V(0) NUMBER(0f) X3(UP(V(0)), V(1), V(2))                                        \
    AND EQUAL V(0) NUMBER(0f) X3(NUMBER(00), UP(V(1)), V(2))                                       \
    OR X3(V(0), V(1), "2202" V(2) NUMBER(01)) X3(NUMBER(0f), NUMBER(0f), third)

/* Four quantifiers around a place of such a right side, with the variables 3 to 6; not all of these are n. */
#define FOR_ALL_FOUR FOR_ALL_16 FOR_ALL_16 FOR_ALL_16 FOR_ALL_16
#define NOT_ALL(n) OR UNEQUAL V(3) n OR UNEQUAL V(4) n OR UNEQUAL V(5) n UNEQUAL V(6) n

/* `and` and `or` by turns around what comes then, each with the instance of an equation with no parameter. */
#define CHANGES_4 AND "1a0100" OR "1a0100" AND "1a0100" OR "1a0100"
#define CHANGES_20 CHANGES_4 CHANGES_4 CHANGES_4 CHANGES_4 CHANGES_4

/* Two parameters of 16 values, counted in the same way from 0 to 255. */
#define OF_256 "021010"
#define I2(e, a, b) "1a0" #e "02" a b
#define NEXT_2(e)                                                                                  \
    OR AND UNEQUAL V(0) NUMBER(0f) I2(e, UP(V(0)), V(1))                                           \
    AND EQUAL V(0) NUMBER(0f) I2(e, NUMBER(00), UP(V(1)))
#define IS_LAST_2 AND EQUAL V(0) NUMBER(0f) EQUAL V(1) NUMBER(0f)

/* ---- texts that are made ------------------------------------------------------------------------ */

enum { LONGEST = 32768, FIRST_LINE = 600 };

static char made[FIRST_LINE + LONGEST + 1];

static void add(const char *bytes)
{
    strcat(made, bytes);
}

static void add_times(unsigned n, const char *bytes)
{
    for (; n > 0; n--)
        add(bytes);
}

/* ---- rings of counters --------------------------------------------------------------------------- */

/* One parameter that counts from 0 to 15, or two that go through 64 pairs. There the first goes round from 0
   to 15, and the second goes on by the remainder of the first by 15: in one round that is 105, one more than a
   multiple of 4, so all pairs come, and before (0, 0) comes again (15, 0). A pair counts as the number of its
   turn. */
struct counter {
    const char *ranges, *first, *is_last, *is_not_last, *here, *next;
};

static const struct counter of_16 = {
    "0110", "00", EQUAL V(0) NUMBER(0f), UNEQUAL V(0) NUMBER(0f), "01" V(0), "01" UP(V(0))};

static const struct counter of_64 = {
    "021004", "0000",
    AND EQUAL V(0) NUMBER(0f) EQUAL V(1) NUMBER(00), OR UNEQUAL V(0) NUMBER(0f) UNEQUAL V(1) NUMBER(00),
    "02" V(0) V(1), "02" UP(V(0)) "2204" V(1) "220f" V(0) NUMBER(00)};

static void add_instance(unsigned equation, const char *arguments)
{
    char head[2 + 2 * sizeof equation + 1];
    sprintf(head, "1a%02x", equation);
    add(head);
    add(arguments);
}

/* Equations with alternating signs, the first is greatest. Each instance rests on the next number of its own
   equation and on the same number of the next equation, the last on the first again: on both in a greatest
   equation, on one of them in a least one. The last number of a greatest equation is false, that of a least
   one true. So in each equation one number after the other changes its value, down from the last one, and
   nested fixed points begin the later equations anew for each of them. All numbers of all equations are
   reached from the first number of the second equation, which is true. */
static void make_rings(unsigned equations, const struct counter *c)
{
    made[0] = 0;
    for (unsigned e = 0; e < equations; e++) {
        bool least = e % 2 == 1;
        add(least ? LEAST : GREATEST);
        add(c->ranges);
        add(least ? OR : AND);
        add(least ? c->is_last : c->is_not_last);
        add(least ? OR : AND);
        add_instance(e, c->next);
        add_instance((e + 1) % equations, c->here);
        add(LINE);
    }
    add("0201");
    add(c->first);
    add(LINE);
}

static void make_two_rings(void)
{
    make_rings(2, &of_16);
}

static void make_four_rings(void)
{
    make_rings(4, &of_16);
}

static void make_six_rings(void)
{
    make_rings(6, &of_16);
}

static void make_eight_rings(void)
{
    make_rings(8, &of_16);
}

static void make_full_alternating(void)
{
    make_rings(8, &of_64);
}

/* ---- processes ----------------------------------------------------------------------------------- */

/* A step of this action that may always be done, though its condition takes a while to read: `and` n times
   before true, then a test. It has 2 n + 14 bytes; a box over it and an instance, 2 n + 15. */
static void add_long_step(unsigned action, unsigned n)
{
    char byte[3];
    sprintf(byte, "%02x", action);
    add("0700");
    add_times(n, "1211");
    add("1621002100");
    add(byte);
    add("221021002000" LINE);
}

/* Notes, and then this line in two parts, so that the text is as long as it may be. */
static void fill_up(const char *first, const char *last)
{
    size_t line = strlen(first) + strlen(last), left;
    while ((left = LONGEST - strlen(made) - line) > 513) {
        add("03");
        add_times(253, "00");
        add(LINE);
    }
    add(left % 2 == 0 ? "03" LINE "03" : "03"); /* two notes more, or one, so that whole bytes are left */
    left = LONGEST - strlen(made) - line - strlen(LINE);
    add_times((unsigned)left / 2, "00");
    add(LINE);
    add(first);
    add(last);
}

/* One parameter, and sixteen steps whose frames are as long as they may be; eight fixed points, each of them
   a box over a step of its own and, but for the last, the next one. With 115 `and` in the first seven and 118
   in the eighth all equations have 255 bytes; with 119 the last would have 257. */
static void make_eight(const char *last)
{
    made[0] = 0;
    add("09011000" LINE);
    for (unsigned i = 0; i < 16; i++)
        add_long_step(i, i < 7 ? 115 : i == 7 ? 118 : i == 8 ? 119 : 121);
    fill_up("08" "32123036003400" "33123036013401" "32123036023402" "33123036033403" "32123036043404"
            "33123036053405" "32123036063406", last);
}

static void make_full(void)
{
    make_eight("333036073407" LINE);
}

static void make_late(void)
{
    make_eight("333036083407" LINE);
}

static void make_broken(void)
{
    make_eight("333036073408" LINE);
}

/* A step of four parameters that keeps them but changes their places, in as many boxes as there is room for:
   each variable of the instance inside goes back through all of them. */
static void make_chains(void)
{
    made[0] = 0;
    add("0904" "10101010" "00010203" LINE "07001100" "2101210221032100" LINE "0832");
    add_times(119, "3011");
    add("3400" LINE);
}

/* A test of the last parameter in each of 41 boxes: it goes back through all of them, past a long term for
   the first parameter that nothing takes; and fifteen long steps of another action that have to be passed
   over. */
static void make_passing(void)
{
    made[0] = 0;
    add("0902" "1010" "0001" LINE);
    for (unsigned i = 0; i < 15; i++) {
        add("0700");
        add_times(124, "1211");
        add("110121002101" LINE);
    }
    add("0700" "1621012101" "00");
    add_times(61, "22102000");
    add("2000" "2101" LINE "0833");
    add_times(41, "303600");
    add("11" LINE);
}

/* A step that doubles: inside 124 boxes the instance's argument has 2^124 variables. */
static void make_doubling(void)
{
    made[0] = 0;
    add("0901" "1001" LINE "07001100" "2210" "2100" "2100" LINE "0832");
    add_times(124, "3011");
    add("3400" LINE);
}

/* Sixteen steps in 124 boxes: 16^124 instances. */
static void make_branching(void)
{
    made[0] = 0;
    add("0900" LINE);
    add_times(16, "07001100" LINE);
    add("0832");
    add_times(124, "3011");
    add("3400" LINE);
}

static void make_board(void)
{
    strcpy(made, "09040204020301030102" LINE
                 "07001218210120001316210020001621022000002100200321022103" LINE
                 "0700121821012000121621002001162102200101210023042101200121022103" LINE
                 "070012182101200018210320000221002304210120012102230321032001" LINE
                 "0700162101200003220221002001200321022103" LINE
                 "0832123111113035003400" LINE);
}

/* ---- right sides to replace ----------------------------------------------------------------------- */

static void add_notes(unsigned long_ones, unsigned short_ones)
{
    for (; long_ones > 0; long_ones--) {
        add("03");
        add_times(255, "00");
        add(LINE);
    }
    add_times(short_ones, "03" LINE);
}

/* A right side that has, with its head, the 256 bytes that a frame may have: `and` around this instance. */
static void add_longest_side(const char *instance)
{
    add_times(125, "1211");
    add(instance);
}

/* The last right side is to become this one. Eight equations whose frames are as long as they may be, each the next
   one, leave 28,659 of the 32,768 characters: 55 notes of 256 bytes and 148 of one byte, or 9,553 of one byte, some
   after each equation and the rest after the start. */
static void make_replaced(const char *instance, bool long_notes)
{
    made[0] = 0;
    add("007");
    add_longest_side(instance);
    add(LINE);
    for (unsigned e = 0; e < 8; e++) {
        char next[] = "1a0000";
        next[3] = (char)('0' + (e + 1) % 8);
        add(e % 2 == 0 ? GREATEST : LEAST);
        add("00");
        add_longest_side(next);
        add(LINE);
        add_notes(long_notes ? 6 : 0, long_notes ? 18 : 1061);
    }
    add("0200" LINE);
    add_notes(long_notes ? 7 : 0, long_notes ? 4 : 1065);
}

static void make_longest(void)
{
    make_replaced("1a0300", true);
}

static void make_many_lines(void)
{
    make_replaced("1a0300", false);
}

static void make_misfit(void)
{
    make_replaced("1a0800", true);
}

/* ---- the families -------------------------------------------------------------------------------- */

const struct family families[] = {
    {MODEL, "chain-along", "a chain of 512 in one least equation, truth goes in the order of finding", 512,
     /* The last is true; the first rests on it; every other rests on the one before it and names the
        one after it, so that it is found. Found: first, last, second, third and so on. */
     LEAST OF_512 OR IS_LAST_3
     OR AND IS_FIRST_3 OR X3(NUMBER(0f), NUMBER(0f), NUMBER(01)) X3(NUMBER(01), NUMBER(00), NUMBER(00))
     AND OR UNEQUAL V(0) NUMBER(00) OR UNEQUAL V(1) NUMBER(00) UNEQUAL V(2) NUMBER(00)
     OR BACK_3 AND NOT_LAST_BUT_ONE_3 NEXT_3 LINE
     "0200000000" LINE, NULL},
    {MODEL, "chain-against", "the same, truth goes against the order of finding", 512,
     /* The last is true, every other rests on the next. */
     LEAST OF_512 OR IS_LAST_3 NEXT_3 LINE
     "0200000000" LINE, NULL},
    {MODEL, "chain-mixed", "the same, each right side is an `and` of an instance and an `or`", 512,
     /* The last is true, every other rests on the next, and on the next or the first. */
     LEAST OF_512 OR IS_LAST_3 AND NEXT_3 OR NEXT_3 X3(NUMBER(00), NUMBER(00), NUMBER(00)) LINE
     "0200000000" LINE, NULL},
    {MODEL, "alternating", "a greatest and a least equation of 256 each, which call on each other", 512,
     /* A ring of 256 places. X, greatest: from here the last place is passed again and again. Y, least:
        the last place is passed at some time, and X holds after it. */
     GREATEST OF_256 AND I2(1, V(0), V(1)) NEXT_2(0) LINE
     LEAST OF_256 OR AND IS_LAST_2 I2(0, NUMBER(00), NUMBER(00))
     AND OR UNEQUAL V(0) NUMBER(0f) UNEQUAL V(1) NUMBER(0f) NEXT_2(1) LINE
     "02000000" LINE, NULL},
    {MODEL, "two-rings", "two alternating equations, each a counter of 16 that rests on the other", 32,
     made, make_two_rings},
    {MODEL, "four-rings", "four of them, each rests on the next, the last on the first", 64,
     made, make_four_rings},
    {MODEL, "six-rings", "six of them", 96, made, make_six_rings},
    {MODEL, "eight-rings", "eight of them", 128, made, make_eight_rings},
    {MODEL, "full-alternating", "eight of them, each a counter of 64", 512, made, make_full_alternating},
    {MODEL, "four-nested", "a body with four nested 14 10, 512 reached", 512,
     /* The start rests on the 511 instances of the other equation that are not the first of it; these
        are true, but the first candidate for them has none. */
     LEAST OF_512 "11" LINE
     LEAST "00" FOR_ALL_16 FOR_ALL_16 FOR_ALL_16 FOR_ALL_16
     OR AND EQUAL V(0) NUMBER(00) AND EQUAL V(1) NUMBER(00) EQUAL "2202" V(2) V(3) NUMBER(00)
     X3(V(0), V(1), "2202" V(2) V(3)) LINE
     "0201" LINE, NULL},
    {MODEL, "part-alone", "a part of tests and instances, joined by `and` and `or`, in 512 right sides", 512,
     LEAST OF_512 PART(IS_255, V(2)) LINE
     "0200000000" LINE, NULL},
    {LONG, "nested-none", "the same part in four nested 14 10 that it does not use", 512,
     LEAST OF_512 FOR_ALL_FOUR PART(IS_255, V(2)) LINE
     "0200000000" LINE, NULL},
    {LONG, "nested-one", "the same, the part uses the innermost", 512,
     LEAST OF_512 FOR_ALL_FOUR PART(IS_255, "2202" V(2) V(6)) LINE
     "0200000000" LINE, NULL},
    {LONG, "nested-outer", "the same, the part uses the outermost", 512,
     LEAST OF_512 FOR_ALL_FOUR PART(IS_255, "2202" V(2) V(3)) LINE
     "0200000000" LINE, NULL},
    {LONG, "nested-all", "the same, the part uses all four: 65,536 cases in each of 512 right sides", 512,
     LEAST OF_512 FOR_ALL_FOUR PART(IS_255, "2202" V(2) "2202" V(3) "2202" V(4) "2202" V(5) V(6)) LINE
     "0200000000" LINE, NULL},
    {MODEL, "decided-early", "four nested 14 10 that the first case decides, or the part", 512,
     LEAST OF_512 OR FOR_ALL_FOUR NOT_ALL(NUMBER(00)) PART(IS_255, V(2)) LINE
     "0200000000" LINE, NULL},
    {LONG, "decided-late", "the same, the last case decides", 512,
     LEAST OF_512 OR FOR_ALL_FOUR NOT_ALL(NUMBER(0f)) PART(IS_255, V(2)) LINE
     "0200000000" LINE, NULL},
    {LONG, "value-early", "the same, a false instance decides, and that in the first case", 512,
     LEAST OF_512 OR FOR_ALL_FOUR OR NOT_ALL(NUMBER(00)) X3(NUMBER(0f), NUMBER(0f), NUMBER(01))
     PART(AND EQUAL V(2) NUMBER(00) IS_255, V(2)) LINE
     "0200000000" LINE, NULL},
    {LONG, "value-late", "the same, in the last case", 512,
     LEAST OF_512 OR FOR_ALL_FOUR OR NOT_ALL(NUMBER(0f)) X3(NUMBER(0f), NUMBER(0f), NUMBER(01))
     PART(AND EQUAL V(2) NUMBER(00) IS_255, V(2)) LINE
     "0200000000" LINE, NULL},
    {MODEL, "decided-join", "a join that its first operand decides, the second is long, and the part", 512,
     /* The test is true for every number, so nothing of the long operand is left. */
     LEAST OF_512 AND OR NOT_LESS NUMBER(0f) V(0) OR NEXT_3 BACK_3 PART(IS_255, V(2)) LINE
     "0200000000" LINE, NULL},
    {MODEL, "changes-20", "`and` and `or` by turns, 20 deep, in 256 right sides", 257,
     /* The instance of the other equation is true; the last is true, every other rests on the next. */
     LEAST OF_256 OR IS_LAST_2 CHANGES_20 NEXT_2(0) LINE
     GREATEST "00" "11" LINE
     "02000000" LINE, NULL},
    {MODEL, "changes-40", "the same, 40 deep", 257,
     LEAST OF_256 OR IS_LAST_2 CHANGES_20 CHANGES_20 NEXT_2(0) LINE
     GREATEST "00" "11" LINE
     "02000000" LINE, NULL},
    {TRANSLATED, "translated", "the model that models/alternating-bit.process gives", 64,
     "09040604040404000002" LINE
     "0700192100200401230621002004210121022103" LINE
     "07010412172100200213162104200316210422042100200102220621002002210421022103" LINE
     "070012182101200016210123042103200104210020002102230421032002" LINE
     "070012182101200018210123042103200103210020002102230420032103" LINE
     "07010412172103200213162104200316210422042103200105210021012104230420032103" LINE
     "070012182102200016210223042100200106230620072100210120002103" LINE
     "070012182102200018210223042100200107230621002002210120002103" LINE
     "083312333011340030360132133111340231360411" LINE, NULL},
    {MODEL, "counter", "the sample counter, models/listing.hex without its notes", 4,
     "010001041317210020011a0001220421002001" LINE
     "020001" LINE, NULL},
    {PROCESS, "full", "the longest text: 16 steps of up to 256 bytes, notes, 8 equations of 255 bytes", 0,
     made, make_full},
    {PROCESS, "chains", "119 boxes, each of 4 variables goes back through all", 0, made, make_chains},
    {PROCESS, "passing", "41 boxes with a test in each, past long terms and other steps", 0,
     made, make_passing},
    {PROCESS, "late", "as `full`, but the last equation has 257 bytes", 15, made, make_late},
    {PROCESS, "broken", "as `full`, but the last byte of the formula is wrong", 14, made, make_broken},
    {PROCESS, "doubling", "124 boxes, terms that double in each", 15, made, make_doubling},
    {PROCESS, "branching", "124 boxes, 16 steps in each", 15, made, make_branching},
    {PROCESS, "board", "models/board.process without its notes", 0, made, make_board},
    {REPLACED, "longest", "the longest text: 8 equations of 256 bytes, notes; a right side as long", 0,
     made, make_longest},
    {REPLACED, "many-lines", "the same with 9,553 notes of one byte", 0, made, make_many_lines},
    {REPLACED, "misfit", "as `longest`, but the right side names no equation at its end", 7, made, make_misfit},
    {REPLACED, "counter-side", "the sample counter, another right side", 0,
     "00017" V(0) NUMBER(02) LINE
     "010001041317210020011a0001220421002001" LINE
     "020001" LINE, NULL},
};

const unsigned families_count = sizeof families / sizeof families[0];

const char *family_text(const struct family *f)
{
    if (f->make != NULL)
        f->make();
    return f->text;
}

const struct family *family_named(const char *name)
{
    for (unsigned i = 0; i < families_count; i++)
        if (strcmp(families[i].name, name) == 0)
            return &families[i];
    return NULL;
}
