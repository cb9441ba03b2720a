/* A plain translator. It is written to be read beside the rules and takes them word for word: a right
   side is a row of bytes, and the step of a summand is made in it by putting bytes in place of bytes.
   Below it, the meaning of a formula: sets of states, by going through all of them. */
#include "translate.h"

#include <stdbool.h>
#include <string.h>

enum { LONGEST = 32768, FRAME = 256, LINES = LONGEST / 3 + 1, SUMMANDS = 16, EQUATIONS = 8, QUANTIFIERS = 4 };

/* ---- lines: every one is made bytes first ---------------------------------------------------------- */

struct frame {
    unsigned length;
    uint8_t byte[FRAME];
};

static struct frame frames[LINES];
static unsigned lines;

static int worth(uint8_t character)
{
    int letter = character | 32; /* a capital and its small letter differ in this bit */
    if (letter >= 'a' && letter <= 'f')
        return letter - 'a' + 10;
    return character >= '0' && character <= '9' ? character - '0' : -1;
}

/* A refusal's number for this line, 0 for none. */
static unsigned read_line(const uint8_t *digits, size_t length, bool ended, struct frame *frame)
{
    for (size_t i = 0; i < length; i++)
        if (worth(digits[i]) < 0)
            return 2;
    if (length == 0 || length % 2 == 1 || length > 2 * FRAME || !ended)
        return 3;
    frame->length = (unsigned)(length / 2);
    for (size_t i = 0; i < length / 2; i++)
        frame->byte[i] = (uint8_t)(16 * worth(digits[2 * i]) + worth(digits[2 * i + 1]));
    return 0;
}

/* ---- the process and the formula ----------------------------------------------------------------------- */

/* A row of bytes; `over` where it would have been longer than a frame. */
struct row {
    unsigned length;
    bool over;
    uint8_t byte[FRAME];
};

struct summand {
    unsigned own, range[4], action;
    struct row condition, next[4];
};

struct formula {
    unsigned code;
    unsigned which, action;  /* of a box or diamond: 11 any, 36 that action, 35 any other */
    unsigned number;         /* of a fixed point, or of the one that a variable stands for */
    struct formula *part[2];
};

static unsigned k, range[4], initial[4], summands, points;
static struct summand summand[SUMMANDS];
static struct formula nodes[FRAME], *formula; /* formula: NULL until the 08 was read */
static unsigned nodes_used;

/* ---- reading the frames ---------------------------------------------------------------------------------- */

struct cursor {
    const struct frame *frame;
    unsigned at;
    bool bad;
};

static unsigned next_within(struct cursor *c, unsigned low, unsigned high)
{
    unsigned byte = 0;
    if (c->at < c->frame->length)
        byte = c->frame->byte[c->at++];
    else
        c->bad = true;
    c->bad = c->bad || byte < low || byte > high;
    return byte;
}

/* 09, parameter count, ranges, initial values below them */
static bool read_parameters(const struct frame *frame)
{
    struct cursor c = {frame, 1, false};
    k = next_within(&c, 0, 4);
    for (unsigned i = 0; i < k && !c.bad; i++)
        range[i] = next_within(&c, 1, 16);
    for (unsigned i = 0; i < k && !c.bad; i++)
        initial[i] = next_within(&c, 0, range[i] - 1);
    return !c.bad && c.at == frame->length;
}

/* Goes over one term and gives its range. `ranges` are those of the variables in reach. */
static unsigned read_term(struct cursor *c, const unsigned *ranges, unsigned variables)
{
    unsigned code = next_within(c, 0x20, 0x23), number;
    if (c->bad)
        return 0;
    if (code == 0x20) /* a number has the range one above it */
        return next_within(c, 0, 15) + 1;
    if (code == 0x21) {
        number = next_within(c, 0, 255);
        c->bad = c->bad || number >= variables;
        return c->bad ? 0 : ranges[number];
    }
    number = next_within(c, 1, 16);
    for (unsigned i = 0; i < 2 && !c->bad; i++)
        read_term(c, ranges, variables);
    return number;
}

/* Goes over one formula of 01 without instances and quantifiers. */
static void read_condition(struct cursor *c, const unsigned *ranges, unsigned variables)
{
    unsigned code = next_within(c, 0x10, 0x19);
    c->bad = c->bad || code == 0x14 || code == 0x15;
    for (unsigned i = 0; i < 2 && !c->bad && (code == 0x12 || code == 0x13); i++)
        read_condition(c, ranges, variables);
    for (unsigned i = 0; i < 2 && !c->bad && code >= 0x16; i++)
        read_term(c, ranges, variables);
}

static void keep(struct row *row, const struct cursor *c, unsigned from)
{
    row->over = false;
    row->length = c->at - from;
    memcpy(row->byte, c->frame->byte + from, row->length);
}

/* 07, count of own variables, their ranges, condition, action, a term for each parameter that fits it */
static bool read_summand(const struct frame *frame, struct summand *s)
{
    struct cursor c = {frame, 1, false};
    unsigned ranges[8], from;
    memcpy(ranges, range, sizeof range);
    s->own = next_within(&c, 0, 4);
    for (unsigned i = 0; i < s->own && !c.bad; i++)
        ranges[k + i] = s->range[i] = next_within(&c, 1, 16);
    from = c.at;
    if (!c.bad)
        read_condition(&c, ranges, k + s->own);
    keep(&s->condition, &c, from);
    s->action = next_within(&c, 0, 15);
    for (unsigned i = 0; i < k && !c.bad; i++) {
        from = c.at;
        if (read_term(&c, ranges, k + s->own) > range[i])
            c.bad = true;
        keep(&s->next[i], &c, from);
    }
    return !c.bad && c.at == frame->length;
}

/* A part of the 08. around[n]: fixed point n is around this place. */
static struct formula *read_formula(struct cursor *c, bool *around)
{
    struct formula *f = &nodes[nodes_used++];
    memset(f, 0, sizeof *f);
    f->code = next_within(c, 0x10, 0x34);
    if (c->bad)
        return f;
    switch (f->code) {
    case 0x10: /* false */
    case 0x11: /* true */
        break;
    case 0x12: /* and */
    case 0x13: /* or */
        for (unsigned i = 0; i < 2 && !c->bad; i++)
            f->part[i] = read_formula(c, around);
        break;
    case 0x30: /* box */
    case 0x31: /* diamond */
        f->which = next_within(c, 0x11, 0x36);
        c->bad = c->bad || (f->which != 0x11 && f->which < 0x35);
        if (f->which != 0x11)
            f->action = next_within(c, 0, 15);
        if (!c->bad)
            f->part[0] = read_formula(c, around);
        break;
    case 0x32: /* least fixed point */
    case 0x33: /* greatest fixed point */
        f->number = points++;
        around[f->number] = true;
        f->part[0] = read_formula(c, around);
        around[f->number] = false;
        break;
    case 0x34: /* the variable of a fixed point */
        f->number = next_within(c, 0, 255);
        c->bad = c->bad || !around[f->number];
        break;
    default:
        c->bad = true;
    }
    return f;
}

static bool read_whole_formula(const struct frame *frame)
{
    struct cursor c = {frame, 1, false};
    bool around[FRAME] = {false};
    formula = read_formula(&c, around);
    return !c.bad && c.at == frame->length;
}

/* Where a frame of this kind may not stand: false, as where the frame itself is wrong. */
static bool read_frame(const struct frame *frame, bool *begun)
{
    switch (frame->byte[0]) {
    case 3:
        return true;
    case 9:
        if (*begun)
            return false;
        *begun = true;
        return read_parameters(frame);
    case 7:
        return *begun && formula == NULL && summands < SUMMANDS && read_summand(frame, &summand[summands++]);
    case 8:
        return *begun && formula == NULL && read_whole_formula(frame);
    default:
        return false;
    }
}

static uint64_t refusal(unsigned number, unsigned line)
{
    return (UINT64_C(1) << 63) + ((uint64_t)number << 32) + line;
}

/* 0, or the refusal 1, 2, 3 or 14. */
static uint64_t read_text(const uint8_t *text, size_t length)
{
    size_t at = 0, end;
    bool begun = false;
    lines = summands = points = nodes_used = 0;
    formula = NULL;
    if (length > LONGEST)
        return refusal(1, 0);
    for (; at < length; at = end + 1) {
        unsigned number;
        for (end = at; end < length && text[end] != '\n'; end++)
            ;
        number = read_line(text + at, end - at, end < length, &frames[lines++]);
        if (number != 0)
            return refusal(number, lines);
    }
    for (unsigned i = 0; i < lines; i++)
        if (!read_frame(&frames[i], &begun))
            return refusal(14, i + 1);
    return formula == NULL ? refusal(14, lines + 1) : 0;
}

/* Whether the box or diamond speaks of steps of this action. */
static bool matches(const struct formula *f, unsigned action)
{
    return f->which == 0x11 || (action == f->action) == (f->which == 0x36);
}

/* ---- translating ------------------------------------------------------------------------------------------

   Formulas and terms are written code first, and every code is followed by a known number of bytes that
   are no codes, so a row can be gone through code by code from its beginning to its end. */

static void put(struct row *row, unsigned byte)
{
    if (row->length == FRAME)
        row->over = true;
    else
        row->byte[row->length++] = (uint8_t)byte;
}

static void put_row(struct row *row, const struct row *more)
{
    for (unsigned i = 0; i < more->length; i++)
        put(row, more->byte[i]);
    row->over = row->over || more->over;
}

/* How many bytes a code takes with those behind it that are no codes. */
static unsigned taken(unsigned code)
{
    if (code == 0x1a)
        return 3; /* equation, number of arguments */
    return code == 0x14 || code == 0x15 || code >= 0x20 ? 2 : 1;
}

/* The negation goes down to the tests: each code of a condition becomes its opposite. */
static void put_negated(struct row *row, const struct row *condition)
{
    static const uint8_t opposite[] = {0x11, 0x10, 0x13, 0x12, 0x15, 0x14, 0x18, 0x19, 0x16, 0x17};
    for (unsigned at = 0, n; at < condition->length; at += n) {
        unsigned code = condition->byte[at];
        n = taken(code);
        put(row, code < 0x20 ? opposite[code - 0x10] : code);
        for (unsigned i = 1; i < n; i++)
            put(row, condition->byte[at + i]);
    }
}

/* What is said of a state, said of the state after the summand's step: its terms stand in for the
   parameters. The summand's own variables take the numbers from k on, so those that are quantified
   inside move up by as many. */
static void put_after(struct row *row, const struct row *inside, const struct summand *s)
{
    for (unsigned at = 0, n; at < inside->length; at += n) {
        unsigned code = inside->byte[at];
        n = taken(code);
        if (code == 0x21 && inside->byte[at + 1] < k) {
            put_row(row, &s->next[inside->byte[at + 1]]);
        } else if (code == 0x21) {
            put(row, code);
            put(row, inside->byte[at + 1] + s->own);
        } else {
            for (unsigned i = 0; i < n; i++)
                put(row, inside->byte[at + i]);
        }
    }
}

static unsigned first_equation; /* 1 where a greatest fixed point is put around the formula, else 0 */

static struct row right_side(const struct formula *f);

/* Box: for all values of the summand's variables, the condition negated or f after the step.
   Diamond: for some values, the condition and f after the step. */
static struct row after_summand(const struct formula *f, const struct row *inside, const struct summand *s)
{
    struct row row = {0};
    for (unsigned i = 0; i < s->own; i++) {
        put(&row, f->code == 0x30 ? 0x14 : 0x15);
        put(&row, s->range[i]);
    }
    if (f->code == 0x30) {
        put(&row, 0x13);
        put_negated(&row, &s->condition);
    } else {
        put(&row, 0x12);
        put_row(&row, &s->condition);
    }
    put_after(&row, inside, s);
    return row;
}

/* The matching summands in file order, nested to the right; none gives true for box, false for diamond. */
static struct row after_steps(const struct formula *f)
{
    struct row row = {0}, inside, one;
    unsigned left = 0;
    for (unsigned i = 0; i < summands; i++)
        left += matches(f, summand[i].action);
    if (left == 0) {
        put(&row, f->code == 0x30 ? 0x11 : 0x10);
        return row;
    }
    inside = right_side(f->part[0]);
    row.over = inside.over; /* a step makes nothing shorter */
    for (unsigned i = 0; i < summands && !row.over; i++) {
        if (!matches(f, summand[i].action))
            continue;
        if (left-- > 1)
            put(&row, f->code == 0x30 ? 0x12 : 0x13);
        one = after_summand(f, &inside, &summand[i]);
        put_row(&row, &one);
    }
    return row;
}

/* What stands for f in the equation that it is in, said of the state in the parameters. */
static struct row right_side(const struct formula *f)
{
    struct row row = {0}, part;
    if (f->code == 0x30 || f->code == 0x31)
        return after_steps(f);
    if (f->code >= 0x32) { /* the equation of that fixed point, for the same state */
        put(&row, 0x1a);
        put(&row, first_equation + f->number);
        put(&row, k);
        for (unsigned i = 0; i < k; i++) {
            put(&row, 0x21);
            put(&row, i);
        }
        return row;
    }
    put(&row, f->code);
    for (unsigned i = 0; i < 2 && f->part[i] != NULL && !row.over; i++) {
        part = right_side(f->part[i]);
        put_row(&row, &part);
    }
    return row;
}

/* Whether some place has five quantifiers around it. A quantifier's body ends where as many formulas
   have been gone through as were still to come when it began. */
static bool fifth_quantifier(const struct row *row, unsigned from)
{
    unsigned wanted = 1, ends[FRAME], around = 0; /* ends[i]: what `wanted` is behind quantifier i */
    for (unsigned at = from; at < row->length; at += taken(row->byte[at])) {
        unsigned code = row->byte[at];
        if (code >= 0x20)
            continue; /* a term */
        if (code == 0x14 || code == 0x15)
            ends[around++] = wanted - 1;
        else if (code == 0x12 || code == 0x13)
            wanted++;
        else
            wanted--;
        while (around > 0 && wanted == ends[around - 1])
            around--;
        if (around > QUANTIFIERS)
            return true;
    }
    return false;
}

static struct row equations[EQUATIONS];
static unsigned count;

/* 01, sign, parameter count, ranges, right side. False where it breaks a limit. */
static bool add_equation(unsigned sign, const struct formula *f)
{
    struct row *row, side;
    if (count == EQUATIONS)
        return false;
    row = &equations[count++];
    memset(row, 0, sizeof *row);
    put(row, 1);
    put(row, sign);
    put(row, k);
    for (unsigned i = 0; i < k; i++)
        put(row, range[i]);
    side = right_side(f);
    put_row(row, &side);
    return !row->over && !fifth_quantifier(row, 3 + k);
}

/* The fixed points become equations in the order in which they stand. */
static bool add_equations(const struct formula *f)
{
    if ((f->code == 0x32 || f->code == 0x33) && !add_equation(f->code - 0x32, f->part[0]))
        return false;
    for (unsigned i = 0; i < 2 && f->part[i] != NULL; i++)
        if (!add_equations(f->part[i]))
            return false;
    return true;
}

static size_t put_line(uint8_t *out, const struct row *row)
{
    for (unsigned i = 0; i < row->length; i++) {
        out[2 * i] = (uint8_t)"0123456789abcdef"[row->byte[i] / 16];
        out[2 * i + 1] = (uint8_t)"0123456789abcdef"[row->byte[i] % 16];
    }
    out[2 * row->length] = '\n';
    return 2 * row->length + 1;
}

uint64_t plain_translate(const uint8_t *text, size_t n, uint8_t *out, size_t m)
{
    static uint8_t whole[TRANSLATE_MOST];
    struct row start = {0};
    size_t length = 0;
    uint64_t refused = read_text(text, n);
    if (refused != 0)
        return refused;
    count = 0;
    first_equation = formula->code != 0x32 && formula->code != 0x33;
    if ((first_equation && !add_equation(1, formula)) || !add_equations(formula))
        return refusal(15, 0);
    for (unsigned e = 0; e < count; e++)
        length += put_line(whole + length, &equations[e]);
    put(&start, 2);
    put(&start, 0);
    for (unsigned i = 0; i < k; i++)
        put(&start, initial[i]);
    length += put_line(whole + length, &start);
    if (m < length)
        return refusal(10, 0);
    memcpy(out, whole, length);
    return length;
}

/* ---- the meaning: sets of states -------------------------------------------------------------------------- */

enum { STATES = 65536, STEPS = 200000, WORK = 40000000 };

static unsigned states, steps;
static struct { uint32_t from, to, action; } step[STEPS];
static unsigned long work;

static unsigned term_value(const struct row *row, unsigned *at, const unsigned *values)
{
    unsigned code = row->byte[*at], number = row->byte[*at + 1], a, b;
    *at += 2;
    if (code == 0x20)
        return number;
    if (code == 0x21)
        return values[number];
    a = term_value(row, at, values);
    b = term_value(row, at, values);
    if (code == 0x22)
        return (a + b) % number;
    return (a % number + number - b % number) % number;
}

static bool condition_value(const struct row *row, unsigned *at, const unsigned *values)
{
    unsigned code = row->byte[(*at)++], a, b;
    if (code <= 0x11)
        return code == 0x11;
    if (code <= 0x13) {
        a = condition_value(row, at, values);
        b = condition_value(row, at, values);
        return code == 0x12 ? a && b : a || b;
    }
    a = term_value(row, at, values);
    b = term_value(row, at, values);
    if (code == 0x16 || code == 0x18)
        return (a == b) == (code == 0x16);
    return (a < b) == (code == 0x17);
}

static unsigned state_of(const unsigned *values)
{
    unsigned state = 0;
    for (unsigned i = 0; i < k; i++)
        state = state * range[i] + values[i];
    return state;
}

/* All steps that the summand has: from every state, with all values of its variables. */
static bool add_steps(const struct summand *s)
{
    unsigned ranges[8], values[8] = {0}, after[4], variables = k + s->own, i;
    memcpy(ranges, range, sizeof range);
    memcpy(ranges + k, s->range, sizeof s->range);
    for (;;) {
        if (++work > WORK / 8 || steps == STEPS)
            return false;
        i = 0;
        if (condition_value(&s->condition, &i, values)) {
            for (unsigned p = 0; p < k; p++) {
                i = 0;
                after[p] = term_value(&s->next[p], &i, values);
            }
            step[steps].from = state_of(values);
            step[steps].to = state_of(after);
            step[steps++].action = s->action;
        }
        for (i = variables; i > 0 && ++values[i - 1] == ranges[i - 1]; i--)
            values[i - 1] = 0;
        if (i == 0)
            return true;
    }
}

static bool *candidate[FRAME]; /* by fixed point: the set that its variable stands for */
static bool sets[FRAME + 2][STATES];
static unsigned sets_used;

/* Puts into `set` the states that satisfy f; gives up where it takes too long. */
static void satisfying(const struct formula *f, bool *set)
{
    bool *other;
    if ((work += states) > WORK)
        return;
    other = sets[sets_used++];
    switch (f->code) {
    case 0x10:
    case 0x11:
        memset(set, f->code == 0x11, states);
        break;
    case 0x12:
    case 0x13:
        satisfying(f->part[0], set);
        satisfying(f->part[1], other);
        for (unsigned s = 0; s < states; s++)
            set[s] = f->code == 0x12 ? set[s] && other[s] : set[s] || other[s];
        break;
    case 0x30: /* no matching step leads out of the set inside; diamond: some matching step leads into it */
    case 0x31:
        satisfying(f->part[0], other);
        memset(set, f->code == 0x30, states);
        work += steps;
        for (unsigned i = 0; i < steps; i++) {
            if (matches(f, step[i].action) && other[step[i].to] == (f->code == 0x31))
                set[step[i].from] = f->code == 0x31;
        }
        break;
    case 0x32: /* from the empty set upwards, or from all states downwards, until nothing changes */
    case 0x33:
        memset(set, f->code == 0x33, states);
        candidate[f->number] = set;
        for (;;) {
            satisfying(f->part[0], other);
            if (work > WORK || memcmp(set, other, states) == 0)
                break;
            memcpy(set, other, states);
        }
        break;
    case 0x34:
        memcpy(set, candidate[f->number], states);
        break;
    }
    sets_used--;
}

int plain_satisfies(const uint8_t *text, size_t n)
{
    bool *set;
    if (read_text(text, n) != 0)
        return -1;
    states = 1;
    for (unsigned i = 0; i < k; i++)
        states *= range[i];
    steps = sets_used = 0;
    work = 0;
    for (unsigned i = 0; i < summands; i++)
        if (!add_steps(&summand[i]))
            return -1;
    set = sets[sets_used++];
    satisfying(formula, set);
    return work > WORK ? -1 : set[state_of(initial)];
}
