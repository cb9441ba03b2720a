/* A plain checker of models, written to be read beside the rules of the format: a tree for each right
   side, arrays that are indexed by an instance's word, and a graph of which instance rests on which, stored
   while they are found. It solves by rounds over what may have changed; the nested fixed points, computed
   as they are defined, stand beside that as a second way, and the definition itself as a third. */
#include "reference.h"

#include <limits.h>
#include <string.h>

enum { LONGEST = 32768, EQUATIONS = 8, ROOM = 512, WORDS = EQUATIONS << 16, CELLS = ROOM / 64 };
enum { BUDGET = 1 << 17 }; /* of evaluations, for all rounds together */

/* A formula or a term as it was read. `number` is the byte that follows the code: a range, a
   number, a variable or an equation. */
struct node {
    unsigned code, number, parts;
    struct node *part[4];
};

/* `place` and `length`: where the right side stands in the text, counted in characters from 0, and its bytes. */
struct equation {
    unsigned sign, k, range[4], line;
    unsigned long size;
    size_t place, length;
    struct node *body;
};

static struct equation equations[EQUATIONS];
static unsigned count;

static bool started;
static unsigned start_line, start_length;
static uint8_t start[256]; /* the start's bytes after 02 */

static struct node nodes[EQUATIONS * 256];
static unsigned nodes_used;

unsigned reference_number, reference_line, reference_reached;
unsigned long reference_steps, reference_evaluations;
bool reference_spent;

/* ---- reading: formulas ------------------------------------------------------------------- */

struct cursor {
    const uint8_t *bytes;
    unsigned length, at;
    bool bad;
};

static unsigned next_byte(struct cursor *c)
{
    if (c->at == c->length) {
        c->bad = true;
        return 0;
    }
    return c->bytes[c->at++];
}

static unsigned next_within(struct cursor *c, unsigned low, unsigned high)
{
    unsigned byte = next_byte(c);
    c->bad = c->bad || byte < low || byte > high;
    return byte;
}

static struct node *new_node(unsigned code)
{
    struct node *n = &nodes[nodes_used++];
    memset(n, 0, sizeof *n);
    n->code = code;
    return n;
}

static struct node *read_term(struct cursor *c, unsigned variables)
{
    struct node *n = new_node(next_byte(c));
    if (c->bad)
        return n;
    switch (n->code) {
    case 0x20: /* a number */
        n->number = next_within(c, 0, 15);
        break;
    case 0x21: /* a variable */
        n->number = next_byte(c);
        c->bad = c->bad || n->number >= variables;
        break;
    case 0x22: /* the remainder of a sum */
    case 0x23: /* a difference that goes round */
        n->number = next_within(c, 1, 16);
        for (; n->parts < 2 && !c->bad; n->parts++)
            n->part[n->parts] = read_term(c, variables);
        break;
    default:
        c->bad = true;
    }
    return n;
}

static struct node *read_formula(struct cursor *c, unsigned variables, unsigned quantifiers)
{
    struct node *n = new_node(next_byte(c));
    unsigned arguments;
    if (c->bad)
        return n;
    switch (n->code) {
    case 0x10: /* false */
    case 0x11: /* true */
        break;
    case 0x12: /* and */
    case 0x13: /* or */
        for (; n->parts < 2 && !c->bad; n->parts++)
            n->part[n->parts] = read_formula(c, variables, quantifiers);
        break;
    case 0x14: /* for all */
    case 0x15: /* for some */
        n->number = next_within(c, 1, 16);
        c->bad = c->bad || quantifiers == 4;
        if (!c->bad)
            n->part[n->parts++] = read_formula(c, variables + 1, quantifiers + 1);
        break;
    case 0x16: /* equal */
    case 0x17: /* less */
    case 0x18: /* not equal */
    case 0x19: /* not less */
        for (; n->parts < 2 && !c->bad; n->parts++)
            n->part[n->parts] = read_term(c, variables);
        break;
    case 0x1a: /* an instance */
        n->number = next_byte(c);
        arguments = next_within(c, 0, 4);
        for (; n->parts < arguments && !c->bad; n->parts++)
            n->part[n->parts] = read_term(c, variables);
        break;
    default:
        c->bad = true;
    }
    return n;
}

/* ---- reading: lines (each function gives a refusal's number, 0 for none) ------------------- */

static int worth(uint8_t character)
{
    if (character >= '0' && character <= '9')
        return character - '0';
    if (character >= 'a' && character <= 'f')
        return character - 'a' + 10;
    if (character >= 'A' && character <= 'F')
        return character - 'A' + 10;
    return -1;
}

static unsigned read_equation(const uint8_t *frame, unsigned length, unsigned line, size_t at)
{
    struct equation *e = &equations[count];
    struct cursor c = {frame, length, 1, false};
    if (started || count == EQUATIONS)
        return 4;
    e->line = line;
    e->sign = next_within(&c, 0, 1);
    e->k = next_within(&c, 0, 4);
    for (unsigned i = 0; i < e->k && !c.bad; i++)
        e->range[i] = next_within(&c, 1, 16);
    if (c.bad)
        return 5;
    e->place = at + 2 * c.at;
    e->length = length - c.at;
    e->body = read_formula(&c, e->k, 0);
    if (c.bad || c.at != length)
        return 6;
    count++;
    return 0;
}

static unsigned read_start(const uint8_t *frame, unsigned length, unsigned line)
{
    if (started || count == 0)
        return 4;
    if (length < 2)
        return 5;
    started = true;
    start_line = line;
    start_length = length - 1;
    memcpy(start, frame + 1, start_length);
    return 0;
}

/* The line has this number, and its digits are text[at .. end). */
static unsigned read_line(const uint8_t *text, size_t at, size_t end, bool ended, unsigned line)
{
    const uint8_t *digits = text + at;
    size_t length = end - at;
    uint8_t frame[256];
    for (size_t i = 0; i < length; i++)
        if (worth(digits[i]) < 0)
            return 2;
    if (length == 0 || length % 2 == 1 || length > 512 || !ended)
        return 3;
    for (size_t i = 0; i < length / 2; i++)
        frame[i] = (uint8_t)(16 * worth(digits[2 * i]) + worth(digits[2 * i + 1]));
    if (frame[0] == 1)
        return read_equation(frame, (unsigned)(length / 2), line, at);
    if (frame[0] == 2)
        return read_start(frame, (unsigned)(length / 2), line);
    return frame[0] == 3 ? 0 : 4;
}

/* ---- reading: instances and the start ------------------------------------------------------ */

static unsigned range_of(const struct node *term, const unsigned *ranges)
{
    if (term->code == 0x20)
        return term->number + 1;
    return term->code == 0x21 ? ranges[term->number] : term->number;
}

/* Whether every instance in the formula names an equation and fits it. `ranges` are those of the
   variables in reach, `variables` of them. */
static bool fits(const struct node *f, unsigned *ranges, unsigned variables)
{
    if (f->code == 0x1a) {
        if (f->number >= count || f->parts != equations[f->number].k)
            return false;
        for (unsigned i = 0; i < f->parts; i++)
            if (range_of(f->part[i], ranges) > equations[f->number].range[i])
                return false;
        return true;
    }
    if (f->code == 0x12 || f->code == 0x13)
        return fits(f->part[0], ranges, variables) && fits(f->part[1], ranges, variables);
    if (f->code == 0x14 || f->code == 0x15) {
        ranges[variables] = f->number;
        return fits(f->part[0], ranges, variables + 1);
    }
    return true;
}

/* How many formulas and terms stand there once the quantifiers are written out. */
static unsigned long size_of(const struct node *n)
{
    unsigned long size = 0;
    for (unsigned i = 0; i < n->parts; i++)
        size += size_of(n->part[i]);
    return 1 + (n->code == 0x14 || n->code == 0x15 ? n->number * size : size);
}

static bool start_fits(void)
{
    if (start[0] >= count || start_length - 1 != equations[start[0]].k)
        return false;
    for (unsigned i = 0; i + 1 < start_length; i++)
        if (start[i + 1] >= equations[start[0]].range[i])
            return false;
    return true;
}

static bool refuse(unsigned number, unsigned line)
{
    reference_number = number;
    reference_line = line;
    return false;
}

static bool read_text(const uint8_t *text, size_t length)
{
    unsigned line = 0, number, ranges[8];
    size_t at = 0, end;
    count = nodes_used = 0;
    started = false;
    if (length > LONGEST)
        return refuse(1, 0);
    for (; at < length; at = end + 1) {
        line++;
        for (end = at; end < length && text[end] != '\n'; end++)
            ;
        number = read_line(text, at, end, end < length, line);
        if (number != 0)
            return refuse(number, line);
    }
    if (!started)
        return refuse(4, line + 1);
    for (unsigned e = 0; e < count; e++) {
        memcpy(ranges, equations[e].range, sizeof equations[e].range);
        if (!fits(equations[e].body, ranges, equations[e].k))
            return refuse(7, equations[e].line);
        equations[e].size = size_of(equations[e].body);
    }
    if (!start_fits())
        return refuse(8, start_line);
    refuse(0, 0);
    return true;
}

/* ---- instances, tests, terms --------------------------------------------------------------- */

static uint32_t word_of(unsigned equation, const unsigned *arguments, unsigned k)
{
    uint32_t word = equation << 16;
    for (unsigned i = 0; i < k; i++)
        word |= arguments[i] << (12 - 4 * i);
    return word;
}

static unsigned argument_of(uint32_t word, unsigned i)
{
    return word >> (12 - 4 * i) & 15;
}

static unsigned term_value(const struct node *term, const unsigned *values)
{
    unsigned a, b;
    if (term->code == 0x20)
        return term->number;
    if (term->code == 0x21)
        return values[term->number];
    a = term_value(term->part[0], values);
    b = term_value(term->part[1], values);
    if (term->code == 0x22)
        return (a + b) % term->number;
    while (a < b) /* goes round: whole ranges more, until there is enough to take b away */
        a += term->number;
    return (a - b) % term->number;
}

static bool test_value(const struct node *f, const unsigned *values)
{
    unsigned a = term_value(f->part[0], values), b = term_value(f->part[1], values);
    if (f->code == 0x16 || f->code == 0x18)
        return (a == b) == (f->code == 0x16);
    return (a < b) == (f->code == 0x17);
}

static uint32_t instance_of(const struct node *f, const unsigned *values)
{
    unsigned arguments[4];
    for (unsigned i = 0; i < f->parts; i++)
        arguments[i] = term_value(f->part[i], values);
    return word_of(f->number, arguments, f->parts);
}

/* ---- finding: what is left of a right side after simplifying -------------------------------- */

/* A value, one instance, a plain `and` of instances, a plain `or` of instances, or more than that. */
enum shape { FALSE, TRUE, ONE, ALL, SOME, MIXED };

static uint32_t left[WORDS]; /* the instances left so far, each once, in order of reading */
static bool is_left[WORDS];
static unsigned lefts;

static void leave(uint32_t word)
{
    if (!is_left[word]) {
        is_left[word] = true;
        left[lefts++] = word;
    }
}

static void strike_back_to(unsigned length)
{
    while (lefts > length)
        is_left[left[--lefts]] = false;
}

/* The shape of a join (`own`: ALL or SOME) with one part more, which does not decide it. */
static enum shape with_part(enum shape so_far, enum shape part, enum shape own, enum shape neutral)
{
    if (part == neutral)
        return so_far;
    if (so_far == neutral)
        return part;
    return (so_far == ONE || so_far == own) && (part == ONE || part == own) ? own : MIXED;
}

static enum shape simplify(const struct node *f, unsigned *values, unsigned variables)
{
    enum shape own, neutral, deciding, all, part;
    unsigned before = lefts, times = 2;
    switch (f->code) {
    case 0x10:
        return FALSE;
    case 0x11:
        return TRUE;
    case 0x1a:
        leave(instance_of(f, values));
        return ONE;
    }
    if (f->code >= 0x16)
        return test_value(f, values) ? TRUE : FALSE;
    own = f->code % 2 == 0 ? ALL : SOME; /* 12 and 14 are `and`, 13 and 15 are `or` */
    neutral = own == ALL ? TRUE : FALSE;
    deciding = own == ALL ? FALSE : TRUE;
    if (f->code == 0x14 || f->code == 0x15)
        times = f->number;
    all = neutral;
    for (unsigned i = 0; i < times; i++) {
        if (f->code == 0x12 || f->code == 0x13) {
            part = simplify(f->part[i], values, variables);
        } else {
            values[variables] = i;
            part = simplify(f->part[0], values, variables + 1);
        }
        if (part == deciding) {
            strike_back_to(before);
            return deciding;
        }
        all = with_part(all, part, own, neutral);
    }
    return all;
}

/* ---- finding: the reached instances, numbered, and which of them rests on which --------------- */

/* A set of reached instances has a bit for each number. `reads` are the instances left in the right side,
   `readers` those in whose right sides this one is left. The shape is ALL, SOME or MIXED: a value is a plain
   join of nothing. */
struct place {
    uint64_t reads[CELLS], readers[CELLS];
    enum shape shape;
};

static unsigned room;              /* how many may be reached, at most ROOM */
static uint32_t reached[ROOM + 1]; /* where there are more, the next one stands behind them */
static struct place places[ROOM];
static uint16_t number_after[WORDS]; /* by word: one more than the instance's number, 0 where it has none */
static uint64_t of_sign[2][CELLS], within[EQUATIONS][CELLS]; /* the instances of a sign, and of an equation */

static uint64_t bit_of(unsigned j)
{
    return (uint64_t)1 << j % 64;
}

static bool reach(uint32_t word)
{
    unsigned j = reference_reached, e = word >> 16;
    if (number_after[word] != 0)
        return true;
    reached[j] = word;
    if (j == room)
        return refuse(9, 0);
    reference_reached++;
    number_after[word] = (uint16_t)(j + 1);
    memset(&places[j], 0, sizeof places[j]);
    within[e][j / 64] |= bit_of(j);
    of_sign[equations[e].sign][j / 64] |= bit_of(j);
    return true;
}

/* Instance j is looked at: what is left in its right side is reached, and rested on. */
static bool look_at(unsigned j)
{
    const struct equation *e = &equations[reached[j] >> 16];
    unsigned values[8], k;
    enum shape shape;
    for (unsigned i = 0; i < e->k; i++)
        values[i] = argument_of(reached[j], i);
    strike_back_to(0);
    reference_steps += e->size;
    shape = simplify(e->body, values, e->k);
    places[j].shape = shape == FALSE ? SOME : shape == TRUE || shape == ONE ? ALL : shape;
    for (unsigned i = 0; i < lefts; i++) {
        if (!reach(left[i]))
            return false;
        k = number_after[left[i]] - 1;
        places[j].reads[k / 64] |= bit_of(k);
        places[k].readers[j / 64] |= bit_of(j);
    }
    return true;
}

static bool find(unsigned most)
{
    unsigned arguments[4];
    room = most;
    memset(of_sign, 0, sizeof of_sign);
    memset(within, 0, sizeof within);
    for (unsigned i = 0; i + 1 < start_length; i++)
        arguments[i] = start[i + 1];
    if (!reach(word_of(start[0], arguments, start_length - 1)))
        return false;
    for (unsigned j = 0; j < reference_reached; j++)
        if (!look_at(j))
            return false;
    return true;
}

/* ---- the value of a right side --------------------------------------------------------------- */

static bool truth[WORDS]; /* by word */

static void forget(void)
{
    while (reference_reached > 0) {
        uint32_t word = reached[--reference_reached];
        number_after[word] = 0;
        truth[word] = false;
    }
}

static bool formula_value(const struct node *f, unsigned *values, unsigned variables)
{
    switch (f->code) {
    case 0x10:
        return false;
    case 0x11:
        return true;
    case 0x12:
        return formula_value(f->part[0], values, variables) && formula_value(f->part[1], values, variables);
    case 0x13:
        return formula_value(f->part[0], values, variables) || formula_value(f->part[1], values, variables);
    case 0x14:
    case 0x15:
        for (unsigned i = 0; i < f->number; i++) {
            values[variables] = i;
            if (formula_value(f->part[0], values, variables + 1) == (f->code == 0x15))
                return f->code == 0x15;
        }
        return f->code == 0x14;
    case 0x1a:
        return truth[instance_of(f, values)];
    default:
        return test_value(f, values);
    }
}

static bool right_side(uint32_t word)
{
    const struct equation *e = &equations[word >> 16];
    unsigned values[8];
    for (unsigned i = 0; i < e->k; i++)
        values[i] = argument_of(word, i);
    reference_steps += e->size;
    return formula_value(e->body, values, e->k);
}

/* ---- solving the reached instances by rounds ------------------------------------------------- */

static uint64_t is_true[CELLS], dirty[CELLS]; /* dirty: its right side may have another value */
static unsigned cells;                        /* how many cells of a set are in use */

static bool first_value(unsigned e)
{
    return equations[e].sign == 1;
}

/* With this `^` turns a cell of the true instances into one of those that do not have this value. */
static uint64_t against(bool value)
{
    return value ? ~(uint64_t)0 : 0;
}

/* Instance j gets this other value; of those that rest on it, a right side can only follow, because more true
   instances never make one false. */
static void flip(unsigned j, bool value)
{
    const uint64_t *readers = places[j].readers, mask = against(value);
    truth[reached[j]] = value;
    is_true[j / 64] ^= bit_of(j);
    for (unsigned i = 0; i < cells; i++)
        dirty[i] |= readers[i] & (is_true[i] ^ mask);
}

/* A plain right side is judged by the set that it reads, any other from its tree. */
static bool value_of(unsigned j)
{
    const struct place *p = &places[j];
    bool all = p->shape == ALL;
    uint64_t mask = against(all);
    reference_evaluations++;
    if (p->shape == MIXED)
        return right_side(reached[j]);
    reference_steps++;
    for (unsigned i = 0; i < cells; i++)
        if ((p->reads[i] & (is_true[i] ^ mask)) != 0) /* one that decides */
            return !all;
    return all;
}

/* The highest number that is in both sets, -1 where there is none. */
static int highest(const uint64_t *a, const uint64_t *b)
{
    for (unsigned i = cells; i-- > 0;)
        if ((a[i] & b[i]) != 0)
            return (int)(64 * i + 63 - (unsigned)__builtin_clzll(a[i] & b[i]));
    return -1;
}

/* Evaluates what is dirty in this equation until nothing is, or the budget is spent; whether any flipped. */
static bool go_through(unsigned e)
{
    bool flipped = false, value;
    int j;
    while (reference_evaluations < BUDGET && (j = highest(dirty, within[e])) >= 0) {
        dirty[j / 64] &= ~bit_of((unsigned)j);
        value = value_of((unsigned)j);
        if (value != truth[reached[j]] && value != first_value(e)) {
            flip((unsigned)j, value);
            flipped = true;
        }
    }
    return flipped;
}

/* Later equations of the other sign begin again; those of the same sign keep what they have. */
static void set_back_after(unsigned e)
{
    bool first = !first_value(e);
    for (unsigned m = e + 1; m < count; m++)
        for (unsigned i = 0; i < cells && first_value(m) == first; i++) {
            uint64_t moved = within[m][i] & (is_true[i] ^ against(first));
            dirty[i] |= moved;
            for (; moved != 0; moved &= moved - 1)
                flip(64 * i + (unsigned)__builtin_ctzll(moved), first);
        }
}

static int last_dirty_equation(void)
{
    int e = (int)count - 1;
    while (e >= 0 && highest(dirty, within[e]) < 0)
        e--;
    return e;
}

/* Rounds until nothing is dirty. False: the budget was spent before. */
static bool solve_by_rounds(void)
{
    int e;
    cells = (reference_reached + 63) / 64;
    memcpy(is_true, of_sign[1], sizeof is_true);
    for (unsigned i = 0; i < CELLS; i++)
        dirty[i] = of_sign[0][i] | of_sign[1][i];
    for (unsigned j = 0; j < reference_reached; j++)
        truth[reached[j]] = first_value(reached[j] >> 16);
    while ((e = last_dirty_equation()) >= 0) {
        if (reference_evaluations == BUDGET)
            return false;
        if (go_through((unsigned)e))
            set_back_after((unsigned)e);
    }
    return true;
}

/* ---- solving them as nested fixed points, equation by equation ---------------------------------- */

static unsigned long enough; /* steps after which the work is left */

/* The later equations are solved anew for every candidate of this one. */
static void solve_from(unsigned e)
{
    bool image[ROOM], changed = true;
    if (e == count)
        return;
    for (unsigned j = 0; j < reference_reached; j++)
        if (reached[j] >> 16 == e)
            truth[reached[j]] = equations[e].sign;
    while (changed && reference_steps <= enough) {
        solve_from(e + 1);
        for (unsigned j = 0; j < reference_reached; j++)
            if (reached[j] >> 16 == e)
                image[j] = right_side(reached[j]);
        changed = false;
        for (unsigned j = 0; j < reference_reached; j++)
            if (reached[j] >> 16 == e && truth[reached[j]] != image[j]) {
                truth[reached[j]] = image[j];
                changed = true;
            }
    }
}

static void solve(void)
{
    reference_spent = !solve_by_rounds();
    if (reference_spent) {
        enough = ULONG_MAX;
        solve_from(0);
    }
}

int reference_nested_agrees(unsigned long most_steps)
{
    bool solved[ROOM], same = true, ended;
    unsigned long steps = reference_steps;
    if (reference_number != 0)
        return -1;
    for (unsigned j = 0; j < reference_reached; j++)
        solved[j] = truth[reached[j]];
    enough = reference_steps + most_steps;
    solve_from(0);
    ended = reference_steps <= enough;
    for (unsigned j = 0; j < reference_reached; j++) {
        same = same && truth[reached[j]] == solved[j];
        truth[reached[j]] = solved[j];
    }
    reference_steps = steps;
    return ended ? same : -1;
}

/* ---- the definition itself: all arguments in range, every candidate set --------------------- */

static uint32_t of_equation[EQUATIONS][16]; /* the words of an equation's instances */
static unsigned how_many[EQUATIONS];

static void give(unsigned e, unsigned set)
{
    for (unsigned i = 0; i < how_many[e]; i++)
        truth[of_equation[e][i]] = set >> i & 1;
}

static void define_from(unsigned e)
{
    unsigned sets, best, image;
    if (e == count || reference_steps > enough)
        return;
    sets = 1u << how_many[e];
    best = equations[e].sign == 0 ? sets - 1 : 0;
    for (unsigned set = 0; set < sets; set++) {
        give(e, set);
        define_from(e + 1);
        image = 0;
        for (unsigned i = 0; i < how_many[e]; i++)
            image |= (unsigned)right_side(of_equation[e][i]) << i;
        if (equations[e].sign == 0 && (image & ~set) == 0) /* contains its image: meet them all */
            best &= set;
        if (equations[e].sign == 1 && (set & ~image) == 0) /* lies in its image: join them all */
            best |= set;
    }
    give(e, best);
    define_from(e + 1);
}

int reference_agrees(void)
{
    bool solved[ROOM], same = true;
    unsigned total = 0;
    if (reference_number != 0)
        return -1;
    for (unsigned e = 0; e < count; e++) {
        unsigned many = 1, a[4];
        for (unsigned i = 0; i < equations[e].k; i++)
            many *= equations[e].range[i];
        how_many[e] = many;
        if ((total += many) > 12)
            return -1;
        for (unsigned n = 0; n < many; n++) {
            unsigned rest = n;
            for (unsigned i = 0; i < equations[e].k; i++) {
                a[i] = rest % equations[e].range[i];
                rest /= equations[e].range[i];
            }
            of_equation[e][n] = word_of(e, a, equations[e].k);
        }
    }
    for (unsigned j = 0; j < reference_reached; j++)
        solved[j] = truth[reached[j]];
    enough = reference_steps + 300000;
    define_from(0);
    for (unsigned j = 0; j < reference_reached; j++)
        same = same && truth[reached[j]] == solved[j];
    for (unsigned e = 0; e < count; e++)
        give(e, 0);
    for (unsigned j = 0; j < reference_reached; j++)
        truth[reached[j]] = solved[j];
    return reference_steps > enough ? -1 : same;
}

/* ---- reading alone, and finding alone -------------------------------------------------------- */

void reference_read(const uint8_t *text, size_t length)
{
    forget();
    read_text(text, length);
}

bool reference_side(size_t equation, size_t *place, size_t *length)
{
    if (reference_number != 0 || equation >= count)
        return false;
    *place = equations[equation].place;
    *length = equations[equation].length;
    return true;
}

void reference_find(const uint8_t *text, size_t length, unsigned most)
{
    forget();
    reference_steps = 0;
    if (read_text(text, length))
        find(most);
}

uint32_t reference_word(unsigned j)
{
    return reached[j];
}

/* ---- printing ------------------------------------------------------------------------------ */

static size_t print_frame(uint8_t *out, const unsigned *bytes, unsigned length)
{
    for (unsigned i = 0; i < length; i++) {
        out[2 * i] = (uint8_t)"0123456789abcdef"[bytes[i] / 16];
        out[2 * i + 1] = (uint8_t)"0123456789abcdef"[bytes[i] % 16];
    }
    out[2 * length] = '\n';
    return 2 * length + 1;
}

size_t reference_print(const uint8_t *text, size_t length, uint8_t *out)
{
    unsigned bytes[8], n, trues = 0;
    size_t written = 0;
    forget();
    reference_steps = reference_evaluations = 0;
    reference_spent = false;
    if (!read_text(text, length) || !find(ROOM)) {
        n = reference_number;
        return print_frame(out, (unsigned[]){6, n, reference_line / 256, reference_line % 256}, 4);
    }
    solve();
    for (unsigned j = 0; j < reference_reached; j++) {
        n = 0;
        bytes[n++] = 4;
        bytes[n++] = reached[j] >> 16;
        for (unsigned i = 0; i < equations[reached[j] >> 16].k; i++)
            bytes[n++] = argument_of(reached[j], i);
        bytes[n++] = truth[reached[j]];
        trues += truth[reached[j]];
        written += print_frame(out + written, bytes, n);
    }
    n = reference_reached;
    return written + print_frame(out + written, (unsigned[]){5, truth[reached[0]], n / 256, n % 256,
                                                             trues / 256, trues % 256}, 6);
}
