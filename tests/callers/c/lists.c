#include "lists.h"

#include "texts.h"

#include <string.h>

const char *const list_names[LIST_KINDS] = {
    "cut by one", "by more", "a word dropped", "a word repeated behind", "a 0 behind", "any word behind",
    "the next behind", "a word twice", "two exchanged", "a bit", "another equation", "filled to 512", "to 513",
    "by 65536 longer", "empty", "of another model", "random",
};

uint32_t list_bits;

void lists_copy(struct list *to, const struct list *from)
{
    to->count = from->count;
    memcpy(to->word, from->word, from->count * sizeof *from->word);
}

void lists_add(struct list *to, uint32_t word)
{
    to->word[to->count++] = word;
}

bool lists_same(const struct list *a, const struct list *b)
{
    return a->count == b->count && memcmp(a->word, b->word, a->count * sizeof *a->word) == 0;
}

/* ---- lists of other models ------------------------------------------------------------------------------ */

enum { KEPT = 64 };

static struct {
    size_t count;
    uint32_t word[LIST_ROOM];
} kept[KEPT];
static unsigned keeps; /* so far; the last KEPT of them are there */

void lists_keep(const struct list *l)
{
    unsigned at = keeps++ % KEPT;
    kept[at].count = l->count;
    memcpy(kept[at].word, l->word, l->count * sizeof *l->word);
}

static bool take_kept(unsigned at, struct list *to)
{
    to->count = kept[at].count;
    memcpy(to->word, kept[at].word, to->count * sizeof *to->word);
    return true;
}

bool lists_kept(struct list *to)
{
    return keeps > 0 && take_kept(texts_below(keeps < KEPT ? keeps : KEPT), to);
}

/* Mostly one of the same length, where there is one that is not the same. */
static bool take_another(const struct list *right, struct list *to)
{
    unsigned there = keeps < KEPT ? keeps : KEPT, from = texts_below(KEPT);
    for (unsigned i = 0; i < there && texts_below(64) > 0; i++) {
        unsigned at = (from + i) % there;
        if (kept[at].count == right->count && take_kept(at, to) && !lists_same(right, to))
            return true;
    }
    return lists_kept(to);
}

/* ---- one damage ----------------------------------------------------------------------------------------- */

/* The first place of so many, the last, or any. */
static size_t a_place(size_t many)
{
    unsigned kind = texts_below(4);
    return kind == 0 ? 0 : kind == 1 ? many - 1 : texts_below((unsigned)many);
}

static uint32_t any_word(void)
{
    static const unsigned widths[] = {4, 12, 16, 17, 19, 31};
    return texts_below(1u << widths[texts_below(6)]) << texts_below(2);
}

static void drop(struct list *l, size_t at)
{
    l->count--;
    memmove(l->word + at, l->word + at + 1, (l->count - at) * sizeof *l->word);
}

static void double_word(struct list *l)
{
    size_t at = a_place(l->count), to = at + 1 + texts_below((unsigned)(l->count - at));
    uint32_t word = l->word[at];
    memmove(l->word + to + 1, l->word + to, (l->count - to) * sizeof *l->word);
    l->word[to] = word;
    l->count++;
}

/* Two that stand side by side, or any two. */
static void exchange(struct list *l)
{
    size_t at = a_place(l->count - 1), with = at + 1;
    uint32_t word = l->word[at];
    if (texts_below(2) == 0)
        with += texts_below((unsigned)(l->count - with));
    l->word[at] = l->word[with];
    l->word[with] = word;
}

static void change_bit(struct list *l)
{
    uint32_t bit = (uint32_t)1 << texts_below(32);
    l->word[a_place(l->count)] ^= bit;
    list_bits |= bit;
}

static void change_equation(struct list *l)
{
    uint32_t *word = &l->word[a_place(l->count)];
    uint32_t from = *word >> 16, to = texts_below(4) > 0 ? texts_below(8) : texts_below(65536);
    if (to == from)
        to ^= 1;
    *word = to << 16 | (*word & 0xffff);
}

/* By zeros, by the list again and again, or by any words. */
static void fill(struct list *l, size_t count)
{
    size_t from = l->count;
    unsigned kind = texts_below(3);
    while (l->count < count)
        lists_add(l, kind == 0 || from == 0 ? 0 : kind == 1 ? l->word[l->count - from] : any_word());
}

static void make_random(struct list *l)
{
    size_t count = texts_below(3) == 0 ? l->count : texts_below(3) == 0 ? texts_below(600) : texts_below(8);
    for (l->count = 0; l->count < count;)
        lists_add(l, any_word());
}

size_t lists_least(enum list_kind kind)
{
    return kind == LIST_CUT_BY_MORE || kind == LIST_DROPPED || kind == LIST_EXCHANGED ? 2 : 1;
}

bool lists_damage(enum list_kind kind, const struct list *right, struct list *to)
{
    uint32_t last;
    lists_copy(to, right);
    if (to->count < lists_least(kind))
        return false;
    last = to->word[to->count - 1];
    switch (kind) {
    case LIST_CUT_BY_ONE:
        to->count--;
        break;
    case LIST_CUT_BY_MORE:
        to->count = texts_below((unsigned)to->count - 1);
        break;
    case LIST_DROPPED:
        drop(to, a_place(to->count - 1));
        break;
    case LIST_REPEATED:
        lists_add(to, to->word[a_place(to->count)]);
        break;
    case LIST_ZERO:
        lists_add(to, 0);
        break;
    case LIST_STRANGE:
        lists_add(to, any_word());
        break;
    case LIST_NEXT:
        lists_add(to, last + ((uint32_t)1 << 4 * texts_below(5)));
        break;
    case LIST_TWICE:
        double_word(to);
        break;
    case LIST_EXCHANGED:
        exchange(to);
        break;
    case LIST_BIT:
        change_bit(to);
        break;
    case LIST_EQUATION:
        change_equation(to);
        break;
    case LIST_TO_512:
        fill(to, LIST_ROOM);
        break;
    case LIST_TO_513:
        fill(to, LIST_ROOM + 1);
        break;
    case LIST_WRAPPED:
        fill(to, to->count + LIST_WRAP);
        break;
    case LIST_EMPTY:
        to->count = 0;
        break;
    case LIST_OTHERS:
        if (!take_another(right, to))
            return false;
        break;
    default:
        make_random(to);
    }
    return !lists_same(right, to);
}
