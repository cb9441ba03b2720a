#define _DEFAULT_SOURCE
#include "texts.h"

#include <stdio.h>
#include <stdlib.h>
#include <string.h>
#include <sys/mman.h>

static uint64_t state;

void texts_seed(uint64_t seed)
{
    state = seed * 0x9e3779b97f4a7c15u + 1;
}

unsigned texts_below(unsigned n)
{
    state ^= state >> 12;
    state ^= state << 25;
    state ^= state >> 27;
    return (unsigned)(state * 0x2545f4914f6cdd1du >> 33) % n;
}

static bool chance(unsigned percent)
{
    return texts_below(100) < percent;
}

static unsigned between(unsigned low, unsigned high)
{
    return low + texts_below(high - low + 1);
}

/* ---- the frame that is being made --------------------------------------------------------- */

static uint8_t frame[1024];
static unsigned frame_length;

static void put(unsigned byte)
{
    if (frame_length < sizeof frame)
        frame[frame_length++] = (uint8_t)byte;
}

/* ---- a model's plan: the heads of its equations --------------------------------------------- */

static unsigned count, sign[8], k[8], range[8][4];

static void plan(unsigned equations, unsigned parameters[2], unsigned ranges[2])
{
    count = equations;
    for (unsigned e = 0; e < count; e++) {
        sign[e] = texts_below(2);
        k[e] = between(parameters[0], parameters[1]);
        for (unsigned i = 0; i < k[e]; i++)
            range[e][i] = between(ranges[0], ranges[1]);
    }
}

/* Many equations with alternating signs, so that nested fixed points have much to do. */
static void plan_alternating(void)
{
    unsigned first = texts_below(2), most = between(2, 10);
    count = between(4, 8);
    for (unsigned e = 0; e < count; e++) {
        sign[e] = (first + e) % 2;
        k[e] = 1;
        range[e][0] = most;
    }
}

static void put_head(unsigned e)
{
    frame_length = 0;
    put(1);
    put(sign[e]);
    put(k[e]);
    for (unsigned i = 0; i < k[e]; i++)
        put(range[e][i]);
}

/* ---- terms and formulas, by chance ----------------------------------------------------------- */

static bool slipping; /* a text in which a byte may be just outside its limits */

static unsigned slip(unsigned right, unsigned wrong)
{
    return slipping && chance(3) ? wrong : right;
}

static unsigned scope[8], variables, quantifiers; /* the ranges of the variables in reach */

/* A term whose range is at most `most`. */
static void put_term(unsigned most, unsigned depth)
{
    unsigned fitting[8], fits = 0;
    for (unsigned i = 0; i < variables; i++)
        if (scope[i] <= most)
            fitting[fits++] = i;
    if (depth > 0 && chance(40)) {
        put(0x22 + chance(35));
        put(slip(slip(chance(70) ? most : between(1, most), 17), 0));
        put_term(16, depth - 1);
        put_term(16, depth - 1);
    } else if (fits > 0 && chance(75)) {
        put(0x21);
        put(slip(fitting[texts_below(fits)], variables));
    } else {
        put(0x20);
        put(slip(texts_below(most), 16));
    }
}

static void put_instance(void)
{
    unsigned e = texts_below(count);
    put(0x1a);
    put(e);
    put(k[e]);
    for (unsigned i = 0; i < k[e]; i++)
        put_term(range[e][i], 2);
}

static void put_quantifier(unsigned most)
{
    put(0x14 + texts_below(2));
    scope[variables] = between(1, most);
    put(scope[variables++]);
    quantifiers++;
}

static void put_formula(unsigned depth)
{
    unsigned kind = texts_below(100);
    if (depth == 0 || kind < 12) {
        if (chance(75))
            put_instance();
        else
            put(0x10 + texts_below(2));
    } else if (kind < 35) { /* a test that guards */
        put(0x12 + texts_below(2));
        put(0x16 + texts_below(4));
        put_term(16, 1);
        put_term(16, 1);
        put_formula(depth - 1);
    } else if (kind < 52 && quantifiers < 4) {
        put_quantifier(chance(80) ? 3 : 16);
        put_formula(depth - 1);
        variables--;
        quantifiers--;
    } else {
        put(0x12 + texts_below(2));
        put_formula(depth - 1);
        put_formula(depth - 1);
    }
}

static void body_by_chance(unsigned e)
{
    variables = k[e];
    quantifiers = 0;
    memcpy(scope, range[e], sizeof range[e]);
    while (quantifiers < 4 && chance(quantifiers == 0 ? 5 : 60))
        put_quantifier(2);
    if (quantifiers == 4 && chance(50)) {
        put(0x14); /* a fifth, which is one too many */
        put(1);
    }
    put_formula(between(1, 5));
}

/* ---- a body with an own formula for each value of its first parameter ------------------------- */

static void put_fixed_instance(void)
{
    unsigned e = texts_below(count);
    put(0x1a);
    put(e);
    put(k[e]);
    for (unsigned i = 0; i < k[e]; i++) {
        put(0x20);
        put(texts_below(range[e][i]));
    }
}

static void body_by_cases(unsigned e)
{
    for (unsigned v = 0; v < (k[e] == 0 ? 1 : range[e][0]); v++) {
        if (k[e] > 0) { /* or, and, the parameter is v */
            static const uint8_t when[] = {0x13, 0x12, 0x16, 0x21, 0x00, 0x20};
            for (unsigned i = 0; i < sizeof when; i++)
                put(when[i]);
            put(v);
        }
        for (unsigned parts = between(1, 3); parts > 1; parts--) {
            put(0x12 + texts_below(2));
            put_fixed_instance();
        }
        put_fixed_instance();
    }
    if (k[e] > 0)
        put(0x10);
}

/* ---- a body that walks: instances with shifted arguments, some behind a test -------------------- */

static void put_shifted_instance(unsigned me)
{
    unsigned e = chance(60) ? me : texts_below(count);
    put(0x1a);
    put(e);
    put(k[e]);
    for (unsigned i = 0; i < k[e]; i++) {
        if (variables > i && scope[i] <= range[e][i] && chance(40)) {
            put(0x21);
            put(i);
        } else {
            put(0x22 + chance(20));
            put(range[e][i]);
            put_term(16, 0);
            put_term(16, 0);
        }
    }
}

static void body_that_walks(unsigned e)
{
    variables = k[e];
    quantifiers = 0;
    memcpy(scope, range[e], sizeof range[e]);
    if (chance(25))
        put_quantifier(4);
    for (unsigned parts = between(1, 4); parts > 1; parts--) {
        put(0x12 + texts_below(2));
        if (chance(40)) { /* `and` with the test, or `or` */
            put(0x12 + texts_below(2));
            put(0x16 + texts_below(4));
            put_term(16, 0);
            put_term(16, 0);
        }
        put_shifted_instance(e);
    }
    put_shifted_instance(e);
}

/* ---- lines ------------------------------------------------------------------------------------ */

static size_t add_line(uint8_t *text, size_t length)
{
    for (unsigned i = 0; i < frame_length; i++) {
        text[length++] = (uint8_t)"0123456789abcdef"[frame[i] / 16];
        text[length++] = (uint8_t)"0123456789abcdef"[frame[i] % 16];
    }
    text[length++] = '\n';
    return length;
}

static size_t add_note(uint8_t *text, size_t length)
{
    unsigned bytes = chance(5) ? 255 : texts_below(12);
    frame_length = 0;
    put(3);
    for (unsigned i = 0; i < bytes; i++)
        put(texts_below(256));
    return add_line(text, length);
}

static size_t model(uint8_t *text)
{
    static void (*const bodies[])(unsigned) = {body_by_chance, body_by_cases, body_that_walks};
    static unsigned parameters[][2] = {{0, 1}, {0, 1}, {0, 3}, {1, 3}, {2, 2}, {2, 4}, {0, 4}};
    static unsigned ranges[][2] = {{1, 3}, {1, 9}, {1, 5}, {2, 6}, {6, 16}, {5, 16}, {1, 16}};
    size_t length = 0;
    unsigned kind = texts_below(3), size = texts_below(9) % 7, e;
    plan(between(1, size < 3 ? 6 : 4) + 2 * chance(10), parameters[size], ranges[size]);
    if (kind == 1 && chance(25))
        plan_alternating();
    for (e = 0; e < count; e++) {
        if (chance(15))
            length = add_note(text, length);
        put_head(e);
        bodies[kind](e);
        while (frame_length > 256) {
            put_head(e);
            body_by_chance(e);
        }
        length = add_line(text, length);
    }
    if (chance(15))
        length = add_note(text, length);
    e = texts_below(count);
    frame_length = 0;
    put(2);
    put(e);
    for (unsigned i = 0; i < k[e]; i++)
        put(texts_below(range[e][i]));
    length = add_line(text, length);
    while (chance(10))
        length = add_note(text, length);
    return length;
}

/* ---- the case of letters ----------------------------------------------------------------------- */

static void make_capital(uint8_t *character)
{
    if (*character >= 'a' && *character <= 'f')
        *character = (uint8_t)(*character - 'a' + 'A');
}

/* All letters of the text stay small, or are made capital, or those of some lines, or each by chance. */
static size_t in_a_case(uint8_t *text, size_t length)
{
    enum { CAPITAL, BY_LINE, BY_LETTER, SMALL };
    unsigned kind = texts_below(2 * SMALL);
    bool capital = kind == CAPITAL;
    for (size_t i = 0; kind < SMALL && i < length; i++) {
        if (kind == BY_LETTER || (kind == BY_LINE && (i == 0 || text[i - 1] == '\n')))
            capital = chance(50);
        if (capital)
            make_capital(&text[i]);
    }
    return length;
}

void texts_small(uint8_t *text, size_t length)
{
    for (size_t i = 0; i < length; i++)
        if (text[i] >= 'A' && text[i] <= 'F')
            text[i] = (uint8_t)(text[i] - 'A' + 'a');
}

void texts_capital(uint8_t *text, size_t length)
{
    for (size_t i = 0; i < length; i++)
        make_capital(&text[i]);
}

bool texts_has_capital(const uint8_t *text, size_t length)
{
    for (size_t i = 0; i < length; i++)
        if (text[i] >= 'A' && text[i] <= 'F')
            return true;
    return false;
}

bool texts_has_mixed_byte(const uint8_t *text, size_t length)
{
    bool low = false; /* whether the digit is the second of its byte */
    for (size_t i = 0; i < length; i++) {
        if (low && ((texts_has_capital(&text[i], 1) && text[i - 1] >= 'a' && text[i - 1] <= 'f') ||
                    (texts_has_capital(&text[i - 1], 1) && text[i] >= 'a' && text[i] <= 'f')))
            return true;
        low = text[i] != '\n' && !low;
    }
    return false;
}

/* ---- damage ------------------------------------------------------------------------------------ */

static size_t cut(uint8_t *text, size_t length, size_t from, size_t bytes)
{
    memmove(text + from, text + from + bytes, length - from - bytes);
    return length - bytes;
}

static size_t widen(uint8_t *text, size_t length, size_t at, size_t bytes)
{
    memmove(text + at + bytes, text + at, length - at);
    return length + bytes;
}

static size_t damage(uint8_t *text, size_t length)
{
    size_t at, from, end;
    if (length == 0)
        return 0;
    at = texts_below((unsigned)length);
    for (from = at; from > 0 && text[from - 1] != '\n'; from--)
        ;
    for (end = at; end < length && text[end] != '\n'; end++)
        ;
    end += end < length;
    switch (texts_below(12)) {
    case 0: /* any byte for a byte */
        text[at] = (uint8_t)texts_below(256);
        return length;
    case 1: /* a small number where one stood */
        at -= (at - from) % 2;
        if (at + 1 < length && text[at + 1] != '\n') {
            text[at] = '0';
            text[at + 1] = (uint8_t)"0123456789abcdef"[texts_below(16)];
        }
        return length;
    case 2: /* a character just beside the digits */
        text[at] = (uint8_t)"/:@G`g"[texts_below(6)];
        return length;
    case 3: /* a character is dropped */
        return cut(text, length, at, 1);
    case 4: /* two digits are dropped */
        return at + 1 < length ? cut(text, length, at - (at - from) % 2, 2) : length;
    case 5: /* a character is added */
        length = widen(text, length, at, 1);
        text[at] = (uint8_t)"0123456789abcdef\n\r G"[texts_below(20)];
        return length;
    case 6: /* two digits are added */
        at -= (at - from) % 2;
        length = widen(text, length, at, 2);
        text[at] = (uint8_t)"012"[texts_below(3)];
        text[at + 1] = (uint8_t)"0123456789abcdef"[texts_below(16)];
        return length;
    case 7: /* a line is dropped */
        return cut(text, length, from, end - from);
    case 8: /* a line is doubled */
        if (length + (end - from) > 40000)
            return length;
        length = widen(text, length, end, end - from);
        memcpy(text + end, text + from, end - from);
        return length;
    case 9: /* no 0a at the end, or more than one */
        if (chance(50))
            return length - 1;
        text[length] = '\n';
        return length + 1;
    default: /* a digit for a digit */
        if (text[at] != '\n')
            text[at] = (uint8_t)"0123456789abcdef"[texts_below(16)];
        return length;
    }
}

/* ---- other texts --------------------------------------------------------------------------------- */

static size_t noise(uint8_t *text, const char *characters, unsigned kinds, unsigned most)
{
    size_t length = texts_below(most + 1);
    for (size_t i = 0; i < length; i++)
        text[i] = (uint8_t)(characters == NULL ? texts_below(256) : (unsigned)characters[texts_below(kinds)]);
    return length;
}

/* The text filled up with notes to about the longest that there may be. */
static size_t filled(uint8_t *text, size_t length)
{
    size_t aim = 32768 + texts_below(3) - 1;
    if (chance(20))
        aim = 32768 + texts_below(7000);
    while (length + 513 < aim) {
        memset(text + length, '3', 512);
        text[length] = '0';
        text[length + 512] = '\n';
        length += 513;
    }
    while (length < aim) {
        text[length] = length % 2 ? '0' : '3';
        length++;
    }
    text[length - 1] = '\n';
    return length;
}

static size_t any_text(uint8_t *text)
{
    unsigned kind = texts_below(1000);
    size_t length;
    if (kind < 6)
        return filled(text, model(text));
    if (kind < 12)
        return noise(text, "0123456789abcdef0123\n", 21, 40);
    if (kind < 18)
        return noise(text, "010203000111\n", 13, 400);
    if (kind < 24)
        return noise(text, NULL, 0, kind < 20 ? 40000 : 60);
    if (kind < 26)
        return 0;
    length = model(text);
    if (kind < 500)
        return length;
    for (unsigned times = between(1, 3); times > 0; times--)
        length = damage(text, length);
    return length;
}

size_t texts_next(uint8_t *text)
{
    return in_a_case(text, any_text(text));
}

/* ---- models in long texts --------------------------------------------------------------------------- */

/* A note of so many bytes where a line begins, or at the end. */
static size_t insert_note(uint8_t *text, size_t length, unsigned bytes)
{
    size_t at = texts_below((unsigned)length + 1);
    while (at > 0 && at < length && text[at - 1] != '\n')
        at++;
    frame_length = 0;
    put(3);
    while (frame_length < bytes)
        put(texts_below(256));
    length = widen(text, length, at, 2 * bytes + 1);
    add_line(text, at);
    return length;
}

size_t texts_next_long(uint8_t *text, size_t aim)
{
    size_t length = model(text);
    while (length < aim) {
        unsigned bytes = chance(10) ? 1 : between(1, 256);
        size_t with = length + 2 * bytes + 1;
        if (with == aim || with + 5 <= aim || with + 3 == aim) /* the rest must be filled by notes too */
            length = insert_note(text, length, bytes);
    }
    return in_a_case(text, length);
}

/* ---- right sides --------------------------------------------------------------------------------------- */

/* Joins around a constant, which change nothing; what is left over of an even number is one byte too many. */
static void put_joins(size_t bytes)
{
    for (; bytes > 2; bytes -= 2) {
        unsigned some = texts_below(2);
        put(0x12 + some);
        put(0x11 - some);
    }
    while (bytes-- > 0)
        put(0x10 + texts_below(2));
}

/* An instance, in the right side of equation `me`, that names no equation, has the wrong number of arguments, or one
   of too large a range. */
static void put_misfit(unsigned me)
{
    unsigned kind = texts_below(3), e = texts_below(count), arguments = k[e], large = texts_below(4);
    variables = k[me];
    memcpy(scope, range[me], sizeof range[me]);
    if (kind == 0)
        e = chance(80) ? count : between(count, 255);
    else if (kind == 1 || k[e] == 0)
        arguments = (k[e] + between(1, 4)) % 5;
    else
        large %= k[e];
    put(0x1a);
    put(e);
    put(arguments);
    for (unsigned i = 0; i < arguments; i++) {
        bool over = kind == 2 && i == large && range[e][i] < 16;
        if (over && chance(50)) {
            put(0x22);
            put(between(range[e][i] + 1, 16));
            put_term(16, 0);
            put_term(16, 0);
        } else {
            put(0x20);
            put(over ? range[e][i] : 0);
        }
    }
}

static void put_side_by_chance(unsigned e)
{
    static void (*const bodies[])(unsigned) = {body_by_chance, body_by_cases, body_that_walks};
    unsigned kind = texts_below(3);
    do {
        frame_length = 0;
        bodies[kind](e);
    } while (frame_length > 250 && chance(80));
}

/* One byte changed, dropped, added, or all from there on. */
static void damage_side(void)
{
    unsigned at = texts_below(frame_length), kind = texts_below(5);
    if (kind < 2)
        frame[at] = (uint8_t)(chance(70) ? texts_below(0x26) : texts_below(256));
    else if (kind == 2)
        frame_length = (unsigned)cut(frame, frame_length, at, 1);
    else if (kind == 3)
        frame_length = at;
    else if (frame_length < sizeof frame) {
        frame_length = (unsigned)widen(frame, frame_length, at, 1);
        frame[at] = (uint8_t)texts_below(0x26);
    }
}

size_t texts_next_side(size_t equation, uint8_t *side)
{
    unsigned kind = texts_below(100), e;
    if (count == 0)
        plan(1, (unsigned[]){0, 1}, (unsigned[]){1, 3});
    e = equation < count ? (unsigned)equation : texts_below(count);
    slipping = kind >= 50 && kind < 60;
    put_side_by_chance(e);
    slipping = false;
    if (kind >= 60 && kind < 75) {
        damage_side();
    } else if (kind >= 75 && kind < 90) { /* joined with an instance that does not fit */
        frame_length = (unsigned)widen(frame, frame_length > 200 ? 0 : frame_length, 0, 1);
        frame[0] = (uint8_t)(0x12 + texts_below(2));
        if (frame_length == 1)
            put_joins(1);
        put_misfit(e);
    } else if (kind >= 90 && kind < 95) {
        frame_length = 0;
        for (unsigned bytes = texts_below(chance(70) ? 12 : 300); bytes > 0; bytes--)
            put(texts_below(256));
    } else if (kind >= 95) {
        frame_length = 0;
    }
    memcpy(side, frame, frame_length);
    return frame_length;
}

size_t texts_side_of(size_t bytes, uint8_t *side)
{
    frame_length = 0;
    put_joins(bytes);
    memcpy(side, frame, frame_length);
    return frame_length;
}

/* ---- processes with a formula -------------------------------------------------------------------- */

static unsigned parameters, ranges[4], summands, actions; /* of the process that is being made */

static size_t add_parameters(uint8_t *text, size_t length)
{
    frame_length = 0;
    put(9);
    put(parameters);
    for (unsigned i = 0; i < parameters; i++)
        put(slip(slip(ranges[i], 17), 0));
    for (unsigned i = 0; i < parameters; i++)
        put(slip(texts_below(ranges[i]), ranges[i]));
    return add_line(text, length);
}

static void put_condition(unsigned depth)
{
    unsigned kind = texts_below(100);
    if (kind < 35) {
        put(slip(0x10 + chance(90), 0x1a));
    } else if (depth > 0 && kind < 55) {
        put(0x12 + chance(60));
        put_condition(depth - 1);
        put_condition(depth - 1);
    } else {
        put(0x16 + texts_below(4));
        put_term(16, chance(20));
        put_term(16, chance(20));
    }
}

/* A summand with this number of own variables; `plain`: its condition is true and it changes one parameter. */
static size_t add_summand(uint8_t *text, size_t length, unsigned own, bool plain)
{
    unsigned changed = texts_below(4);
    frame_length = 0;
    put(7);
    put(own);
    memcpy(scope, ranges, sizeof ranges);
    for (variables = parameters; variables < parameters + own; variables++)
        put(slip(slip(scope[variables] = between(1, chance(90) ? 3 : 16), 17), 0));
    if (plain)
        put(0x11);
    else
        put_condition(2);
    put(slip(texts_below(actions), 16));
    for (unsigned i = 0; i < parameters; i++) {
        if (i != changed && chance(plain ? 100 : 60)) {
            put(0x21);
            put(i);
        } else if (chance(60)) { /* further on from where it is */
            put(0x22 + chance(20));
            put(ranges[i]);
            put(0x21);
            put(i);
            put_term(16, 0);
        } else {
            put_term(ranges[i], chance(60));
        }
    }
    return add_line(text, length);
}

static unsigned points, around[64], arounds; /* fixed points so far, and those around the place */

static void put_actions(void)
{
    unsigned kind = texts_below(10);
    put(slip(slip(kind < 5 ? 0x11 : kind < 8 ? 0x36 : 0x35, 0x34), 0x37));
    if (kind >= 5)
        put(slip(texts_below(actions + chance(10)), 16));
}

static void put_step(void)
{
    put(0x30 + texts_below(2));
    put_actions();
}

/* The fixed point whose body comes next; mostly its variable stands behind a step in it. */
static void put_fixed_point(void)
{
    put(0x32 + texts_below(2));
    around[arounds++] = points++;
    if (chance(70)) {
        put(0x12 + texts_below(2));
        put_step();
        put(0x34);
        put(points - 1);
    }
}

static void put_modal(unsigned depth, unsigned most_points)
{
    unsigned kind = texts_below(100);
    if (depth == 0 || kind < 2) {
        if (slipping && points > 0 && chance(20)) { /* a fixed point that may be over, or still to come */
            put(0x34);
            put(texts_below(points + 1));
        } else if (arounds > 0 && chance(85)) {
            put(0x34);
            put(around[texts_below(arounds)]);
        } else {
            put(slip(0x10 + texts_below(2), 0x14));
        }
    } else if (kind < 30) {
        put(0x12 + texts_below(2));
        put_modal(depth - 1, most_points);
        put_modal(depth - 1, most_points);
    } else if (kind < 70 || points >= most_points) {
        put_step();
        put_modal(depth - 1, most_points);
    } else {
        put_fixed_point();
        put_modal(depth - 1, most_points);
        arounds--;
    }
}

static size_t add_modal(uint8_t *text, size_t length, unsigned depth, unsigned most_points)
{
    do {
        frame_length = points = arounds = 0;
        put(8);
        if (chance(75))
            put_fixed_point();
        put_modal(depth, most_points);
    } while (frame_length > 256);
    return add_line(text, length);
}

static void plan_process(unsigned most_parameters, unsigned most_range)
{
    parameters = between(chance(85), most_parameters);
    for (unsigned i = 0; i < parameters; i++)
        ranges[i] = between(1 + chance(85), most_range);
    actions = between(1, 4);
}

static size_t process_by_chance(uint8_t *text)
{
    bool large = chance(15);
    size_t length = 0;
    plan_process(large ? 4 : 3, chance(85) ? 4 : 16);
    summands = large ? texts_below(18) : between(1, 4) - chance(5);
    if (chance(15))
        length = add_note(text, length);
    length = add_parameters(text, length);
    for (unsigned i = 0; i < summands; i++) {
        length = add_summand(text, length, chance(60) ? 0 : texts_below(chance(90) ? 3 : 5), false);
        if (chance(5))
            length = add_note(text, length);
    }
    length = add_modal(text, length, between(1, large ? 6 : 4), large ? 12 : 6);
    if (slip(0, 1))
        length = add_summand(text, length, 0, true);
    while (chance(10))
        length = add_note(text, length);
    return length;
}

/* Boxes in boxes over one summand that changes little, around a chain of `and` whose length brings the frame of
   the equation near its 256 bytes; or so many of them that quantifiers run out. */
static size_t process_near_a_limit(uint8_t *text)
{
    unsigned own = chance(50) ? 0 : between(1, 4), boxes = own == 0 ? between(1, 6) : 4 / own + chance(50);
    size_t length;
    plan_process(4, 4);
    actions = 1;
    length = add_parameters(text, 0);
    length = add_summand(text, length, own, true);
    frame_length = 0;
    put(8);
    if (chance(70))
        put(0x32 + texts_below(2));
    for (unsigned i = 0; i < boxes; i++) {
        put(0x30 + texts_below(2));
        put(0x11);
    }
    if (own == 0) { /* a box adds the join and the constant: 3 + parameters + 2 * boxes + 2 * joins + 1 bytes */
        unsigned joins = (252 - parameters - 2 * boxes) / 2 + texts_below(4) - 1;
        for (unsigned i = 0; i < joins; i++) {
            put(0x12 + texts_below(2));
            put(0x10 + texts_below(2));
        }
    }
    put(0x10 + texts_below(2));
    return add_line(text, length);
}

/* Nearly as many fixed points as there may be equations, or one too many. */
static size_t process_of_many_points(uint8_t *text)
{
    unsigned wanted = between(6, 9);
    size_t length;
    plan_process(2, 3);
    length = add_parameters(text, 0);
    length = add_summand(text, length, texts_below(2), chance(50));
    frame_length = 0;
    put(8);
    if (chance(50))
        put_step();
    for (unsigned i = 0; i < wanted; i++) {
        put(0x32 + texts_below(2));
        if (i + 1 < wanted && chance(30)) {
            put(0x12 + texts_below(2));
            put(0x34);
            put(texts_below(i + 1));
        }
        if (chance(30))
            put_step();
    }
    put(0x34);
    put(texts_below(wanted));
    return add_line(text, length);
}

/* Sixteen summands, or one too many. */
static size_t process_of_many_summands(uint8_t *text)
{
    size_t length;
    plan_process(1, 3);
    actions = 15;
    length = add_parameters(text, 0);
    for (unsigned i = between(15, 17); i > 0; i--)
        length = add_summand(text, length, chance(10), true);
    return add_modal(text, length, between(1, 3), 3);
}

static size_t process(uint8_t *text)
{
    unsigned kind = texts_below(100);
    slipping = chance(25);
    if (kind < 82)
        return process_by_chance(text);
    if (kind < 91)
        return process_near_a_limit(text);
    return kind < 96 ? process_of_many_points(text) : process_of_many_summands(text);
}

static size_t any_process(uint8_t *text)
{
    unsigned kind = texts_below(1000);
    size_t length;
    if (kind < 40)
        return filled(text, process(text));
    if (kind < 46)
        return noise(text, "0123456789abcdef0123\n", 21, 40);
    if (kind < 52)
        return noise(text, "0307080900111\n", 14, 400);
    if (kind < 56)
        return noise(text, NULL, 0, kind < 54 ? 40000 : 60);
    if (kind < 58)
        return 0;
    length = process(text);
    if (kind < 560)
        return length;
    for (unsigned times = between(1, 3); times > 0; times--)
        length = damage(text, length);
    return length;
}

size_t texts_next_process(uint8_t *text)
{
    return in_a_case(text, any_process(text));
}

/* ---- where texts are put ----------------------------------------------------------------------------- */

uint8_t *texts_fenced_end(void)
{
    enum { FENCE = 64 * 1024 };
    uint8_t *area = mmap(NULL, AREA_MOST + FENCE, PROT_READ | PROT_WRITE, MAP_PRIVATE | MAP_ANONYMOUS, -1, 0);
    if (area == MAP_FAILED || mprotect(area + AREA_MOST, FENCE, PROT_NONE) != 0) {
        perror("memory");
        exit(2);
    }
    return area + AREA_MOST;
}

uint8_t *texts_of_file(const char *name, size_t *length)
{
    FILE *file = fopen(name, "rb");
    size_t most = 1 << 24;
    uint8_t *bytes = malloc(most);
    if (file == NULL || bytes == NULL || (*length = fread(bytes, 1, most, file)) == most) {
        perror(name);
        exit(2);
    }
    fclose(file);
    return bytes;
}
