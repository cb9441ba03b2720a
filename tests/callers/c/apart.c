/* Calls the archive's finding and its solving, apart from each other, from C with thousands of texts, tables and
   lists, and compares the word that comes back, every word of the table and every byte of the buffer with plain ones
   that share no code with it. Lists are lent that are right, that are damaged in one way each, and that are of other
   models. And one after the other: what solving writes on what finding leaves is what checking writes, and a text
   with capital digits has the list and the answer of the same text in small letters. The first difference ends the
   run with status 1.

       apart [HOW MANY [SEED]]          texts made from the seed
       apart samples TEXTS ANSWERS      the texts of a file: crates/samples/README.md tells its form; those that are
                                        checked there are found in and solved, and those that are found in or
                                        solved there, with their tables and lists

   Text, table, list and buffer end where memory may not be touched, and the list often stands where it may only be
   read, so that a read or a write past any of them, or a write to the list, ends the run at once. */
#define _DEFAULT_SOURCE
#include "devashtor.h"

#include "../../reference/apart.h"
#include "../../reference/reference.h"
#include "lists.h"
#include "samples.h"
#include "texts.h"
#include "words.h"

#include <stdbool.h>
#include <stdio.h>
#include <stdlib.h>
#include <string.h>
#include <sys/mman.h>

enum { FRONT = 64, BUFFER_MOST = 20000, TABLE_MOST = LIST_MOST, MOST_STEPS = 200000 };
enum { VERDICT = 0, OVER = 9, TEXT_LONGEST = 32768 };

struct text {
    uint8_t *bytes;
    size_t length;
};

static const uint8_t not_its_list[] = "060b0000\n";

static uint8_t *text_end, *out_end;
static uint32_t *table_end, *list_end;
static unsigned long finds, solves, checks, locked_lists, open_lists;

static void fail(const char *what, const struct text *t)
{
    printf("apart.c: %s for this text of %zu bytes:\n", what, t->length);
    fwrite(t->bytes, 1, t->length, stdout);
    exit(1);
}

static void fail_with(const struct list *l, const char *what, const struct text *t)
{
    printf("apart.c: with this list of %zu words:", l->count);
    for (size_t i = 0; i < l->count && i < LIST_ROOM + 8; i++)
        printf(" %08x", (unsigned)l->word[i]);
    printf("\n");
    fail(what, t);
}

/* ---- one call of both ------------------------------------------------------------------------------------ */

static const uint8_t *lend(const struct text *t)
{
    memcpy(text_end - t->length, t->bytes, t->length);
    return text_end - t->length;
}

static void must_keep(const struct text *t)
{
    if (memcmp(text_end - t->length, t->bytes, t->length) != 0)
        fail("the text was changed", t);
}

/* A table of so many words; FRONT words before it and `behind` words after it are watched too. Both tables are filled
   alike before, so all of them must be alike afterwards. */
static uint64_t call_find(const struct text *t, size_t words, size_t behind)
{
    static uint32_t plain[FRONT + TABLE_MOST + FRONT];
    size_t all = FRONT + words + behind;
    uint32_t *whole = table_end - all;
    uint64_t word, due;
    words_fill((uint8_t *)plain, (uint8_t *)whole, all * sizeof *plain);
    word = devashtor_find(lend(t), t->length, whole + FRONT, words);
    due = plain_find(t->bytes, t->length, plain + FRONT, words);
    finds++;
    if (!words_same("apart.c", word, due))
        fail("another word", t);
    must_keep(t);
    if (memcmp(whole, plain, all * sizeof *plain) != 0) {
        printf("apart.c: in a table of %zu words\n", words);
        fail("another word in the table, or one touched that should not be,", t);
    }
    return word;
}

static void protect_list(int how)
{
    if (mprotect((uint8_t *)list_end - AREA_MOST, AREA_MOST, how) != 0) {
        perror("apart.c: memory");
        exit(2);
    }
}

/* The list in memory that may only be read, half of the times. */
static size_t solve_it(const struct text *t, const struct list *l, uint8_t *out, size_t buffer)
{
    uint32_t *lent = list_end - l->count;
    bool locked = texts_below(2) == 0;
    size_t written;
    memcpy(lent, l->word, l->count * sizeof *lent);
    if (locked)
        protect_list(PROT_READ);
    written = devashtor_solve(lend(t), t->length, lent, l->count, out, buffer);
    if (locked)
        protect_list(PROT_READ | PROT_WRITE);
    if (memcmp(lent, l->word, l->count * sizeof *lent) != 0)
        fail_with(l, "the list was changed", t);
    *(locked ? &locked_lists : &open_lists) += 1;
    return written;
}

/* Both buffers are filled alike before, with FRONT bytes more in front, so all of them must be alike afterwards. */
static size_t call_solve(const struct text *t, const struct list *l, size_t buffer)
{
    static uint8_t plain[FRONT + BUFFER_MOST];
    uint8_t *out = out_end - buffer;
    size_t written, due;
    words_fill(plain, out - FRONT, FRONT + buffer);
    written = solve_it(t, l, out, buffer);
    due = plain_solve(t->bytes, t->length, l->word, l->count, plain + FRONT, buffer);
    solves++;
    must_keep(t);
    if (written != due) {
        printf("apart.c: %zu bytes for %zu in a buffer of %zu\n", written, due, buffer);
        fail_with(l, "another number of bytes", t);
    }
    if (memcmp(out - FRONT, plain, FRONT + buffer) != 0) {
        printf("apart.c: got\n%.*s", (int)written, (const char *)out);
        fail_with(l, "other bytes, or a byte touched outside the answer,", t);
    }
    return written;
}

/* ---- what is due, said without the plain ones ------------------------------------------------------------ */

static unsigned long short_buffers;

static size_t next_buffer(void)
{
    static const size_t buffers[] = {DEVASHTOR_ROOM, DEVASHTOR_ROOM + 1, 8192, BUFFER_MOST};
    return texts_below(8) == 0 ? DEVASHTOR_ROOM + texts_below(9000) : buffers[texts_below(4)];
}

/* With a buffer that is too short nothing is written. */
static void must_write_nothing(const struct text *t, const struct list *l)
{
    static const size_t buffers[] = {DEVASHTOR_ROOM - 1, 0, 1, 9, 13, 4096};
    if (call_solve(t, l, buffers[texts_below(sizeof buffers / sizeof *buffers)]) != 0)
        fail_with(l, "an answer in a short buffer", t);
    short_buffers++;
}

/* The text with this list gives these bytes. */
static void must_write(const struct text *t, const struct list *l, const uint8_t *due, size_t length)
{
    size_t buffer = next_buffer();
    if (call_solve(t, l, buffer) != length || memcmp(out_end - buffer, due, length) != 0)
        fail_with(l, "another answer than is due", t);
    if (texts_below(8) == 0)
        must_write_nothing(t, l);
}

static void must_refuse_list(const struct text *t, const struct list *l)
{
    must_write(t, l, not_its_list, strlen((const char *)not_its_list));
}

static unsigned hex(const uint8_t *digits)
{
    return (unsigned)strtoul((const char[]){(char)digits[0], (char)digits[1], 0}, NULL, 16);
}

/* The list in a printed answer: in a line 04 stand the equation, its arguments, and the value. */
static void list_printed(const uint8_t *answer, struct list *l)
{
    for (l->count = 0; hex(answer) == 4; answer++) {
        uint32_t word = hex(answer + 2) << 16;
        unsigned shift = 12;
        for (answer += 4; answer[2] != '\n'; answer += 2, shift -= 4)
            word |= hex(answer) << shift;
        lists_add(l, word);
        answer += 2;
    }
}

/* ---- one after the other --------------------------------------------------------------------------------- */

static unsigned long solved_after, refused_after, over_after, small_after;

static void must_find_in_small(const struct text *t, uint64_t word, const uint32_t *table)
{
    static uint8_t letters[TEXT_MOST];
    static uint32_t again[LIST_ROOM];
    struct text small = {letters, t->length};
    size_t kept = DEVASHTOR_REFUSED(word) ? DEVASHTOR_NUMBER(word) == OVER ? LIST_ROOM : 0 : word;
    memcpy(letters, t->bytes, t->length);
    texts_small(letters, t->length);
    memset(again, 0xff, sizeof again);
    if (devashtor_find(lend(&small), t->length, again, LIST_ROOM) != word ||
        memcmp(again, table, kept * sizeof *again) != 0)
        fail("another list in small letters", t);
    finds++;
    small_after++;
}

/* What checking writes is what solving writes on the list found, or the line of finding's refusal. Where the text has
   capitals, the same list is found in small letters, and that text is the one that is solved. */
static void try_after_each_other(const struct text *t)
{
    static uint8_t checked[DEVASHTOR_ROOM], got[DEVASHTOR_ROOM];
    uint32_t *table = table_end - LIST_ROOM;
    size_t length = devashtor_check(lend(t), t->length, checked, sizeof checked), written;
    uint64_t word = devashtor_find(text_end - t->length, t->length, table, LIST_ROOM);
    finds++;
    checks++;
    if (texts_has_capital(t->bytes, t->length))
        must_find_in_small(t, word, table);
    if (DEVASHTOR_REFUSED(word)) {
        written = words_shown(word, NULL, got);
        *(DEVASHTOR_NUMBER(word) == OVER ? &over_after : &refused_after) += 1;
    } else {
        written = devashtor_solve(text_end - t->length, t->length, table, word, got, sizeof got);
        solves++;
        solved_after++;
    }
    if (written != length || memcmp(got, checked, length) != 0) {
        printf("apart.c: checked\n%.*sfound and solved\n%.*s", (int)length, checked, (int)written, got);
        fail("another answer by finding and solving than by checking", t);
    }
}

/* ---- texts with known answers ---------------------------------------------------------------------------- */

/* Finding, then solving on what it leaves, gives the answer. Where there are too many instances the list kept is not
   the whole one; where the text is refused before, the empty one is lent. */
static void try_sample(const struct sample *s)
{
    static uint8_t copy[TEXT_MOST], shown[REFERENCE_MOST];
    static struct list l;
    struct text t = {copy, s->length};
    const uint8_t *due = s->answer;
    size_t length = s->answer_length;
    uint64_t word;
    memcpy(copy, s->text, s->length);
    word = call_find(&t, LIST_ROOM, 0);
    l.count = DEVASHTOR_REFUSED(word) ? 0 : word;
    if (DEVASHTOR_REFUSED(word) && (words_shown(word, NULL, shown) != length || memcmp(shown, due, length) != 0))
        fail("another refusal than the answer has", &t);
    if (DEVASHTOR_REFUSED(word) && DEVASHTOR_NUMBER(word) == OVER) {
        l.count = LIST_ROOM;
        due = not_its_list;
        length = strlen((const char *)not_its_list);
    }
    memcpy(l.word, table_end - LIST_ROOM, l.count * sizeof *l.word);
    if (call_solve(&t, &l, DEVASHTOR_ROOM) != length || memcmp(out_end - DEVASHTOR_ROOM, due, length) != 0)
        fail_with(&l, "another answer than is due by the samples", &t);
    try_after_each_other(&t);
}

/* What is printed for the word and the table: a line of digits for each. Of whom they are says `whose`. */
static void must_show(const struct sample *s, const struct text *t, uint64_t word, const uint32_t *table,
                      const char *whose)
{
    static char shown[17 + 9 * SAMPLE_WORDS + 1];
    size_t length = (size_t)sprintf(shown, "%016llx\n", (unsigned long long)word);
    for (size_t i = 0; i < s->words; i++)
        length += (size_t)sprintf(shown + length, "%08x\n", (unsigned)table[i]);
    if (length == s->answer_length && memcmp(shown, s->answer, length) == 0)
        return;
    printf("apart.c: in a table of %zu words %s finds\n%s", s->words, whose, shown);
    fail("another list than is due by the samples", t);
}

enum { GIVEN, REFUSED, NOT_HELD, OUTCOMES }; /* a list or a verdict; by 1 to 8; by 9 or 11 */

static unsigned long found_samples[OUTCOMES], solved_samples[OUTCOMES];

/* A sample that is to be found, in a table of ones. */
static void try_found(const struct sample *s)
{
    static uint8_t copy[TEXT_MOST];
    static uint32_t plain[SAMPLE_WORDS];
    struct text t = {copy, s->length};
    uint32_t *table = table_end - s->words;
    uint64_t word;
    memcpy(copy, s->text, s->length);
    memset(table, 0xff, s->words * sizeof *table);
    memset(plain, 0xff, sizeof plain);
    word = devashtor_find(lend(&t), t.length, table, s->words);
    must_show(s, &t, word, table, "the archive");
    must_show(s, &t, plain_find(t.bytes, t.length, plain, s->words), plain, "the plain one");
    call_find(&t, s->words, FRONT);
    found_samples[!DEVASHTOR_REFUSED(word) ? GIVEN : DEVASHTOR_NUMBER(word) == OVER ? NOT_HELD : REFUSED]++;
}

/* A sample whose list is to be solved. */
static void try_solved(const struct sample *s)
{
    static uint8_t copy[TEXT_MOST];
    static struct list l;
    struct text t = {copy, s->length};
    const uint8_t *out = out_end - DEVASHTOR_ROOM;
    size_t refusal = strlen((const char *)not_its_list);
    memcpy(copy, s->text, s->length);
    memcpy(l.word, s->list, s->words * sizeof *l.word);
    l.count = s->words;
    if (call_solve(&t, &l, DEVASHTOR_ROOM) != s->answer_length || memcmp(out, s->answer, s->answer_length) != 0)
        fail_with(&l, "another answer than is due by the samples", &t);
    solved_samples[hex(out) != 6 ? GIVEN : memcmp(out, not_its_list, refusal) == 0 ? NOT_HELD : REFUSED]++;
}

static size_t all_samples(enum sample_kind kind, const char *texts_name, const char *answers_name,
                          void (*try)(const struct sample *))
{
    const struct sample *s;
    size_t samples = 0;
    samples_open(texts_name, answers_name);
    for (; (s = samples_next(kind)) != NULL; samples++)
        try(s);
    return samples;
}

/* Those that are checked, found and solved: translate.c and replace.c have the others. */
static int known_samples(const char *texts_name, const char *answers_name)
{
    size_t checked = all_samples(SAMPLE_CHECKED, texts_name, answers_name, try_sample);
    size_t found = all_samples(SAMPLE_FOUND, texts_name, answers_name, try_found);
    size_t solved = all_samples(SAMPLE_SOLVED, texts_name, answers_name, try_solved);
    bool weak = solved_after == 0 || refused_after == 0 || over_after == 0;
    for (unsigned how = 0; how < OUTCOMES; how++)
        weak |= found_samples[how] == 0 || solved_samples[how] == 0;
    printf("apart.c: %zu samples checked, no difference: solved %lu, refused %lu, over 512 %lu", checked, solved_after,
           refused_after, over_after);
    printf("; %zu found in: found %lu, refused %lu, no room %lu", found, found_samples[GIVEN], found_samples[REFUSED],
           found_samples[NOT_HELD]);
    printf("; %zu solved: its list %lu, refused %lu, another list %lu\n", solved, solved_samples[GIVEN],
           solved_samples[REFUSED], solved_samples[NOT_HELD]);
    if (!weak)
        return 0;
    printf("apart.c: a kind of answer is missing, so these samples are too weak\n");
    return 1;
}

/* ---- texts by chance -------------------------------------------------------------------------------------- */

static uint8_t bytes[TEXT_MOST], expected[REFERENCE_MOST];
static size_t expected_length;
static struct text text = {bytes, 0};
static unsigned number;    /* that it is refused by */
static struct list right;  /* its list; of more than 512 instances the first 512, of a text that is not read none */
static uint32_t next_word; /* the one after those 512 */

/* Equation 1 asks for instances of equation 0: for all of 0 to 2, 0 to 15 and 0 to 15, but for the last ones of them;
   the second and the third argument may be moved on. Itself counted there are so many, which is from 497 to 528. */
static size_t put_model_of(unsigned many, uint8_t *to)
{
    /* 2, and the end of 1 15; or 2, but for the begin of 2 0 */
    const char *below = "13162100200212162100200112162101200f19210220", *above = "12162100200213182101200019210220";
    unsigned signs = texts_below(4), moved = texts_below(16), moved_too = texts_below(16);
    return (size_t)sprintf((char *)to,
                           "010%u030310101a0003210021012102\n"
                           "010%u0014031410141013%s%02x1a000321002210210120%02x2210210220%02x\n"
                           "0201\n",
                           signs % 2, signs / 2, many < 513 ? below : above, (many - 497) % 16, moved, moved_too);
}

/* By chance; some reach about 512 instances. */
static void put_text(void)
{
    if (texts_below(20) > 0) {
        text.length = texts_next(bytes);
        return;
    }
    text.length = put_model_of(texts_below(2) == 0 ? 511 + texts_below(3) : 497 + texts_below(32), bytes);
    if (texts_below(2) == 0)
        texts_capital(bytes, text.length);
}

static void next_text(void)
{
    do { /* what takes the plain checker too long is left out */
        put_text();
        expected_length = reference_print(bytes, text.length, expected);
    } while (reference_steps > MOST_STEPS);
    number = reference_number;
    right.count = 0;
    if (number == VERDICT)
        list_printed(expected, &right);
    for (unsigned j = 0; number == OVER && j < LIST_ROOM; j++)
        lists_add(&right, reference_word(j));
    next_word = reference_word(reference_reached);
}

/* ---- tables of each length --------------------------------------------------------------------------------- */

enum room {
    ROOM_0,
    ROOM_1,
    ROOM_LESS, /* than the list by one */
    ROOM_JUST,
    ROOM_MORE,
    ROOM_511,
    ROOM_512,
    ROOM_513,
    ROOM_ANY,
    ROOM_LARGE,
    ROOM_WRAPPED, /* by LIST_WRAP longer than one that has no room */
    ROOMS
};

static const char *const room_names[ROOMS] = {"0", "1", "one less", "just", "one more", "511", "512", "513", "any",
                                              "large", "65536 and less"};

static unsigned long by_room[ROOMS][3]; /* how often found, over, refused before */

static size_t words_of(enum room r)
{
    size_t n = right.count, less = n > 0 ? n - 1 : 0;
    const size_t words[ROOMS] = {0, 1, less, n, n + 1, 511, 512, 513, texts_below(520), 514 + texts_below(3000),
                                 LIST_WRAP + less};
    return words[r];
}

static void try_room(enum room r)
{
    size_t words = words_of(r), room = words < LIST_ROOM ? words : LIST_ROOM, kept = 0;
    size_t behind = texts_below(2) == 0 ? 0 : 1 + texts_below(FRONT);
    uint64_t word = call_find(&text, words, behind);
    if (!DEVASHTOR_REFUSED(word))
        kept = right.count;
    else if (DEVASHTOR_NUMBER(word) == OVER)
        kept = room;
    if ((!DEVASHTOR_REFUSED(word) && word != kept) || kept > room || kept > right.count ||
        memcmp(table_end - behind - words, right.word, kept * sizeof *right.word) != 0)
        fail_with(&right, "another list found", &text);
    by_room[r][!DEVASHTOR_REFUSED(word) ? 0 : DEVASHTOR_NUMBER(word) == OVER ? 1 : 2]++;
}

static void try_rooms(void)
{
    try_room(ROOM_JUST);
    for (unsigned times = 3; times > 0; times--)
        try_room(texts_below(ROOM_WRAPPED));
    if (texts_below(number == OVER ? 4 : 32) == 0)
        try_room(ROOM_WRAPPED);
}

/* ---- lists of each kind ------------------------------------------------------------------------------------- */

enum { SIZES = 3 }; /* one word, two, more */

static unsigned long damaged[LIST_KINDS][SIZES]; /* by the length of the right list */
static unsigned long rights[SIZES], full_and_one, first_of_more;

static unsigned size_of(const struct list *l)
{
    return l->count < SIZES ? (unsigned)l->count - 1 : SIZES - 1;
}

static void try_damaged(enum list_kind kind)
{
    static struct list l;
    if (!lists_damage(kind, &right, &l))
        return;
    must_refuse_list(&text, &l);
    damaged[kind][size_of(&right)] += number == VERDICT;
    full_and_one += number == VERDICT && right.count == LIST_ROOM && l.count == LIST_ROOM + 1;
}

static void try_right(void)
{
    static struct list l;
    if (number == VERDICT) {
        must_write(&text, &right, expected, expected_length);
        rights[size_of(&right)]++;
        lists_keep(&right);
        return;
    }
    must_refuse_list(&text, &right);
    lists_copy(&l, &right);
    lists_add(&l, next_word);
    must_refuse_list(&text, &l);
    first_of_more++;
}

/* Where the line of the start begins in a text that is read. */
static size_t start_of(const uint8_t *model, size_t length)
{
    size_t at = 0;
    while (model[at + 1] != '2')
        at = (size_t)((const uint8_t *)memchr(model + at, '\n', length - at) - model) + 1;
    return at;
}

/* The text with another start: the instance in this line of an answer, which stands between 04 and the value. */
static size_t put_started_at(const uint8_t *line, uint8_t *to)
{
    size_t start = start_of(bytes, text.length), digits = strcspn((const char *)line, "\n") - 4;
    size_t rest = start + strcspn((const char *)bytes + start, "\n");
    memcpy(to, bytes, start);
    memcpy(to + start, "02", 2);
    memcpy(to + start + 2, line + 2, digits);
    memcpy(to + start + 2 + digits, bytes + rest, text.length - rest);
    return start + 2 + digits + text.length - rest;
}

static unsigned long other_starts;

/* The list of the same equations from another instance that is reached, and the other way round. */
static void try_other_start(void)
{
    static uint8_t other[TEXT_MOST], answer[REFERENCE_MOST];
    static struct list l;
    const uint8_t *line = expected;
    struct text t = {other, 0};
    for (size_t times = 1 + texts_below((unsigned)right.count - 1); times > 0; times--)
        line += strcspn((const char *)line, "\n") + 1;
    t.length = put_started_at(line, other);
    if (t.length > TEXT_LONGEST) /* its line may be longer */
        return;
    reference_print(other, t.length, answer);
    if (reference_number != VERDICT)
        fail("no list from another start", &t);
    list_printed(answer, &l);
    must_refuse_list(&text, &l);
    must_refuse_list(&t, &right);
    other_starts++;
}

static void try_lists(void)
{
    if (number == VERDICT && right.count > 1 && texts_below(2) == 0)
        try_other_start();
    for (unsigned times = 4; times > 0; times--) {
        enum list_kind kind = texts_below(LIST_KINDS);
        if (kind != LIST_WRAPPED || texts_below(4) == 0)
            try_damaged(kind);
    }
    try_right();
}

/* ---- texts that are refused before the list is looked at ------------------------------------------------------ */

enum look { ITS_LIST, ANOTHERS, NO_WORDS, TOO_MANY, LOOKS };

static const char *const look_names[LOOKS] = {"its list before it was spoiled", "another's", "no words", "513 words"};
static unsigned long refused_with[LOOKS][OVER];

/* Its line is written with this list as with any. */
static void try_refused(const struct text *t, const struct list *l, enum look look)
{
    static uint8_t line[REFERENCE_MOST];
    size_t length = reference_print(t->bytes, t->length, line);
    unsigned by = reference_number;
    if (by == VERDICT || by == OVER)
        fail("a text that is not refused, though spoiled,", t);
    must_write(t, l, line, length);
    refused_with[look][by]++;
}

/* With the list `its`, which is the right one of the text before it was spoiled, or another model's. */
static void try_looks(const struct text *t, const struct list *its, enum look look)
{
    static struct list l;
    try_refused(t, its, look);
    l.count = 0;
    try_refused(t, &l, NO_WORDS);
    if (lists_damage(LIST_TO_513, its, &l))
        try_refused(t, &l, TOO_MANY);
}

/* The model with a line more, or one more value in its start, so that it is refused, mostly by this number. */
static size_t spoil(unsigned by, uint8_t *to)
{
    static const char *const before[OVER] = {[5] = "0102\n", [6] = "0100001b\n", [7] = "0100001a0800\n"};
    static const char *const behind[OVER] = {"", "03\n", "0g\n", "\n", "0200\n", "", "", "", ""};
    size_t length = before[by] == NULL ? 0 : strlen(before[by]), start;
    memcpy(to, before[by] == NULL ? "" : before[by], length);
    memcpy(to + length, bytes, text.length);
    length += text.length;
    do { /* by 1: until it is too long */
        memcpy(to + length, behind[by], strlen(behind[by]));
        length += strlen(behind[by]);
    } while (by == 1 && length <= TEXT_LONGEST);
    if (by == 8) {
        start = start_of(to, length);
        memmove(to + start + 6, to + start + 4, length - start - 4);
        memcpy(to + start + 4, "00", 2);
        length += 2;
    }
    return length;
}

static void try_spoiled(void)
{
    static uint8_t spoiled[TEXT_MOST];
    struct text t = {spoiled, spoil(1 + texts_below(8), spoiled)};
    try_looks(&t, &right, ITS_LIST);
    if (!DEVASHTOR_REFUSED(call_find(&t, LIST_ROOM, 0)))
        fail("a list found, though spoiled,", &t);
    try_after_each_other(&t);
}

static void try_lists_unread(void)
{
    static struct list l;
    if (lists_kept(&l))
        try_looks(&text, &l, ANOTHERS);
}

/* ---- the run ------------------------------------------------------------------------------------------------ */

static unsigned long wanted;

/* Whether there are fewer of a kind than one in so many texts. */
static bool rare(unsigned long many, unsigned long in)
{
    return many == 0 || many * in < wanted;
}

static bool summary_of_finding(void)
{
    bool weak = false;
    printf("; tables (found, over, refused before)");
    for (unsigned r = 0; r < ROOMS; r++) {
        printf("%s %s: %lu %lu %lu", r > 0 ? "," : "", room_names[r], by_room[r][0], by_room[r][1], by_room[r][2]);
        for (unsigned how = 0; how < 3; how++)
            weak |= rare(by_room[r][how], 4000) && !(how == 0 && (r == ROOM_0 || r == ROOM_LESS));
    }
    return weak;
}

static bool summary_of_lists(void)
{
    bool weak = list_bits != 0xffffffff || rare(full_and_one, 1000) || rare(first_of_more, 200) ||
                rare(other_starts, 20);
    printf("; right lists of 1, 2, more words:");
    for (unsigned size = 0; size < SIZES; size++) {
        printf(" %lu", rights[size]);
        weak |= rare(rights[size], 100);
    }
    printf("; other lists, where the right one has 1, 2, more:");
    for (unsigned kind = 0; kind < LIST_KINDS; kind++) {
        printf("%s %s", kind > 0 ? "," : "", list_names[kind]);
        for (unsigned size = 0; size < SIZES; size++) {
            printf(" %lu", damaged[kind][size]);
            weak |= rare(damaged[kind][size], 4000) && size + 1 >= lists_least(kind);
        }
    }
    printf("; from another start %lu; 512 and one more %lu; of more than 512 the first 512, and 513, %lu",
           other_starts, full_and_one, first_of_more);
    return weak;
}

static bool summary_of_refused(void)
{
    bool weak = false;
    printf("; texts refused by 1 to 8");
    for (unsigned look = 0; look < LOOKS; look++) {
        printf(" with %s:", look_names[look]);
        for (unsigned by = 1; by < OVER; by++) {
            printf(" %lu", refused_with[look][by]);
            weak |= rare(refused_with[look][by], 4000);
        }
    }
    return weak;
}

static int summary(void)
{
    bool weak = rare(locked_lists, 1) || rare(open_lists, 1) || rare(short_buffers, 4) || rare(solved_after, 4) ||
                rare(refused_after, 4) || rare(over_after, 200) || rare(small_after, 4);
    printf("apart.c: %lu texts, %lu finds, %lu solves, %lu checks, no difference", wanted, finds, solves, checks);
    weak |= summary_of_finding();
    weak |= summary_of_lists();
    weak |= summary_of_refused();
    printf("; lists that may only be read %lu, others %lu; short buffers %lu", locked_lists, open_lists,
           short_buffers);
    printf("; one after the other: solved %lu, refused %lu, over %lu, in both cases %lu\n", solved_after,
           refused_after, over_after, small_after);
    if (wanted >= 4000 && weak) {
        printf("apart.c: a kind of table, of list or of text is missing or rare, so this run is too weak\n");
        return 1;
    }
    return 0;
}

int main(int arguments, char **argument)
{
    text_end = texts_fenced_end();
    out_end = texts_fenced_end();
    table_end = (uint32_t *)texts_fenced_end();
    list_end = (uint32_t *)texts_fenced_end();
    texts_seed(arguments == 3 ? strtoul(argument[2], NULL, 10) : 1);
    if (arguments == 4 && strcmp(argument[1], "samples") == 0)
        return known_samples(argument[2], argument[3]);
    wanted = arguments > 1 ? strtoul(argument[1], NULL, 10) : 10000;
    for (unsigned long n = 0; n < wanted; n++) {
        next_text();
        try_rooms();
        if (number == VERDICT || number == OVER)
            try_lists();
        else
            try_lists_unread();
        if (number == VERDICT && n % 4 == 0)
            try_spoiled();
        try_after_each_other(&text);
    }
    return summary();
}
