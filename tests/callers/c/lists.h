/* Lists of instances' words to lend: the right list of a model, and what comes of it by one damage of each kind. */
#ifndef LISTS_H
#define LISTS_H

#include <stdbool.h>
#include <stddef.h>
#include <stdint.h>

/* LIST_WRAP words more are none for who drops the high bits of a length. */
enum { LIST_ROOM = 512, LIST_WRAP = 65536, LIST_MOST = LIST_WRAP + 2 * LIST_ROOM };

struct list {
    size_t count;
    uint32_t word[LIST_MOST];
};

/* Words are left out, added at the end, or changed, or it is another list altogether. */
enum list_kind {
    LIST_CUT_BY_ONE,
    LIST_CUT_BY_MORE,
    LIST_DROPPED,  /* one word, not the last */
    LIST_REPEATED, /* longer by a word that it has */
    LIST_ZERO,     /* by 0 */
    LIST_STRANGE,  /* by any word */
    LIST_NEXT,     /* by the last word with one more in its equation or in an argument */
    LIST_TWICE,    /* one word stands twice in it, the first time where it should */
    LIST_EXCHANGED,
    LIST_BIT,      /* one bit of one word is changed */
    LIST_EQUATION, /* one word has another equation */
    LIST_TO_512,   /* filled up to so many words */
    LIST_TO_513,
    LIST_WRAPPED, /* longer by LIST_WRAP */
    LIST_EMPTY,
    LIST_OTHERS, /* the right list of another model */
    LIST_RANDOM,
    LIST_KINDS
};

extern const char *const list_names[LIST_KINDS];
extern uint32_t list_bits; /* those that LIST_BIT has changed so far */

/* How many words a list must have that can be damaged so. */
size_t lists_least(enum list_kind kind);

/* Writes the right list with a damage of this kind into `to`; false where it can have none of it, because it is too
   short or too long. What comes out is never the right list. */
bool lists_damage(enum list_kind kind, const struct list *right, struct list *to);

/* Keeps a right list, of at most LIST_ROOM words, to be lent with other models. */
void lists_keep(const struct list *l);

/* One of those kept, if there is one. */
bool lists_kept(struct list *to);

void lists_copy(struct list *to, const struct list *from);
void lists_add(struct list *to, uint32_t word);
bool lists_same(const struct list *a, const struct list *b);

#endif
