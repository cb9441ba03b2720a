/* Calls the archive's replacing of a right side from C with thousands of texts, equations and right sides, and
   compares the word that comes back and every byte of the buffer with a plain writer that shares no code with it.
   Where a text comes out, it is also looked at by itself: every line but one is the old one, it is not refused, the
   old right side gives the old text back, with that right side in small letters, and what was replaced before
   does not matter, nor does the case of the digits. The first difference ends the run with status 1.

       replace [HOW MANY [SEED]]          each byte value at some places, and texts made from the seed
       replace samples TEXTS ANSWERS      the texts of a file, in the form of crates/samples/README.md; an answer is
                                          the resulting text, or the line of the refusal

   Text, right side and buffer end where memory may not be touched, so that a read or a write past any of them ends
   the run at once. */
#include "devashtor.h"

#include "../../reference/reference.h"
#include "../../reference/replace.h"
#include "places.h"
#include "samples.h"
#include "texts.h"
#include "words.h"

#include <stdbool.h>
#include <stdio.h>
#include <stdlib.h>
#include <string.h>

enum { FRONT = 64, PLENTY = REPLACE_MOST + 4000, NEARLY_FULL = 32000, LONGEST_SIDE = 40000, MOST_STEPS = 200000 };

/* What is to be replaced: the right side of this equation of the text. */
struct task {
    const uint8_t *text;
    size_t length, equation;
    const uint8_t *side;
    size_t side_length;
};

static uint8_t *text_end, *side_end, *out_end;
static unsigned long calls;

static void fail(const char *what, const struct task *t)
{
    printf("replace.c: %s for equation %zu, a right side of %zu bytes:\n", what, t->equation, t->side_length);
    for (size_t i = 0; i < t->side_length; i++)
        printf("%02x", t->side[i]);
    printf("\nand this text of %zu bytes:\n", t->length);
    fwrite(t->text, 1, t->length, stdout);
    exit(1);
}

/* One call of both with a buffer of this length. Both buffers are filled alike before, with FRONT bytes more in
   front, so all of them must be alike afterwards. */
static uint64_t call(const struct task *t, size_t buffer)
{
    static uint8_t plain[FRONT + PLENTY];
    uint8_t *from = text_end - t->length, *side = side_end - t->side_length, *out = out_end - buffer;
    uint64_t word, due;
    memcpy(from, t->text, t->length);
    memcpy(side, t->side, t->side_length);
    words_fill(plain, out - FRONT, FRONT + buffer);
    word = devashtor_replace(from, t->length, t->equation, side, t->side_length, out, buffer);
    due = plain_replace(t->text, t->length, t->equation, t->side, t->side_length, plain + FRONT, buffer);
    calls++;
    if (!words_same("replace.c", word, due))
        fail("another word", t);
    if (memcmp(from, t->text, t->length) != 0)
        fail("the text was changed", t);
    if (memcmp(side, t->side, t->side_length) != 0)
        fail("the right side was changed", t);
    if (memcmp(out - FRONT, plain, FRONT + buffer) != 0)
        fail(DEVASHTOR_REFUSED(word) ? "a byte was touched, though refused," : "other bytes", t);
    return word;
}

/* ---- texts with known answers --------------------------------------------------------------------------- */

/* Those in which a right side is replaced: caller.c and translate.c have the others. */
static int known_samples(const char *texts_name, const char *answers_name)
{
    static uint8_t answer[REPLACE_MOST];
    const struct sample *s;
    size_t number = 0;
    samples_open(texts_name, answers_name);
    for (; (s = samples_next(SAMPLE_REPLACED)) != NULL; number++) {
        struct task t = {s->text, s->length, s->equation, s->side, s->side_length};
        size_t length = words_shown(call(&t, REPLACE_MOST), out_end - REPLACE_MOST, answer);
        if (length != s->answer_length || memcmp(answer, s->answer, length) != 0) {
            printf("replace.c: another answer than that of %s:\n%.*s", answers_name, (int)length, (const char *)answer);
            fail("it is given", &t);
        }
    }
    printf("replace.c: %zu samples, no difference\n", number);
    return number > 0 ? 0 : 1;
}

/* ---- each byte value as a character -------------------------------------------------------------------- */

/* Where the byte is put, the equation, and the digits of its new right side. */
static const struct {
    struct place at;
    size_t equation;
    const char *side;
} places[] = {
    {{"03?5\n0100001A0000\n0200\n", 1, ANY_DIGIT, "03!5\n0100001a0000\n0200\n", NULL, "06030002\n"},
     0, "1a0000"},
    {{"0100001A0000\n0200\n035?\n", 3, ANY_DIGIT, "0100001a0000\n0200\n035!\n", NULL, "06030003\n"},
     0, "1a0000"},
    {{"03?5\n01000011\n0200\n", 1, ANY_DIGIT, "06130000\n", NULL, "06030002\n"}, 1, "11"},
    /* in its head */
    {{"0100?011\n0200\n", 1, 1 << 0, "0100!01a0000\n0200\n", "06050001\n", "06050001\n"}, 0, "1a0000"},
    {{"0100010?11\n020000\n", 1, 0xfffe, "0100010!1a00012000\n020000\n", "06050001\n", "06030001\n"},
     0, "1a00012000"},
    /* in the old right side */
    {{"010000?1\n0200\n", 1, 1 << 1, "0100001a0000\n0200\n", "06060001\n", "06060001\n"}, 0, "1a0000"},
    {{"0100001?0000\n0200\n", 1, 1 << 10, "0100001a0000\n0200\n", "06060001\n", "06030001\n"}, 0, "1a0000"},
    /* in another equation, in the start */
    {{"01000011\n010000?1\n0200\n", 2, 1 << 1, "0100001a0000\n010000!1\n0200\n", "06060002\n", "06060002\n"},
     0, "1a0000"},
    {{"0100001?0000\n01000011\n0200\n", 1, 1 << 10, "0100001!0000\n0100001a0000\n0200\n", "06060001\n",
      "06030001\n"}, 1, "1a0000"},
    {{"0100011011\n02000?\n", 2, ANY_DIGIT, "010001101a00012000\n02000!\n", NULL, "06030002\n"},
     0, "1a00012000"},
};

static size_t bytes_of(const char *digits, uint8_t *bytes)
{
    size_t n = 0;
    for (; digits[2 * n] != 0; n++)
        bytes[n] = (uint8_t)strtoul((const char[]){digits[2 * n], digits[2 * n + 1], 0}, NULL, 16);
    return n;
}

static void try_places(void)
{
    uint8_t its_text[PLACES_MOST], its_side[PLACES_MOST], due[PLACES_MOST];
    static uint8_t answer[REPLACE_MOST];
    for (unsigned i = 0; i < sizeof places / sizeof *places; i++)
        for (unsigned byte = 0; byte < BYTE_VALUES; byte++) {
            struct task t = {its_text, 0, places[i].equation, its_side, bytes_of(places[i].side, its_side)};
            size_t answer_length, length = places_due(&places[i].at, byte, due);
            t.length = places_text(&places[i].at, byte, its_text);
            answer_length = words_shown(call(&t, PLENTY), out_end - PLENTY, answer);
            if (answer_length != length || memcmp(answer, due, length) != 0)
                fail("another answer than by the rule of the digits", &t);
        }
}

/* ---- the old right side -------------------------------------------------------------------------------- */

static uint8_t old_side[256];
static size_t old_place, old_length, head_length; /* of the equation asked for, in a text that is read */

/* Finds them, and the old right side's bytes; false where the text is refused or has no such equation. */
static bool look_at(const struct task *t)
{
    size_t from;
    reference_read(t->text, t->length);
    if (!reference_side(t->equation, &old_place, &old_length))
        return false;
    for (from = old_place; from > 0 && t->text[from - 1] != '\n'; from--)
        ;
    head_length = (old_place - from) / 2;
    for (size_t i = 0; i < old_length; i++) {
        char digits[] = {(char)t->text[old_place + 2 * i], (char)t->text[old_place + 2 * i + 1], 0};
        old_side[i] = (uint8_t)strtoul(digits, NULL, 16);
    }
    return true;
}

/* ---- what a resulting text is, said without the plain writer ---------------------------------------------- */

static unsigned long notes_between, notes_after, shortest_notes, longest_notes; /* texts that have them */

static size_t line_end(const uint8_t *text, size_t at)
{
    while (text[at] != '\n')
        at++;
    return at + 1;
}

/* Goes through the lines of both texts; those of the equation must have the same head, and the new one the side,
   in small letters, after it; all others must be the same. */
static void must_keep_lines(const struct task *t, const uint8_t *result, size_t result_length)
{
    size_t at = 0, new_at = 0, equations = 0, head;
    bool between = false, after = false, shortest = false, longest = false, waiting = false, started = false;
    while (at < t->length && new_at < result_length) {
        size_t end = line_end(t->text, at), new_end = line_end(result, new_at);
        const uint8_t *old = t->text + at, *new = result + new_at;
        if (old[1] == '1' && equations++ == t->equation) {
            head = 6 + 2 * (size_t)(old[5] - '0');
            if (new_end - new_at != head + 2 * t->side_length + 1 || memcmp(old, new, head) != 0)
                fail("another head, or another length of the line,", t);
            for (size_t i = 0; i < t->side_length; i++) {
                char digits[3];
                sprintf(digits, "%02x", t->side[i]);
                if (memcmp(new + head + 2 * i, digits, 2) != 0)
                    fail("other digits of the right side", t);
            }
        } else if (new_end - new_at != end - at || memcmp(old, new, end - at) != 0) {
            fail("another line is not what it was", t);
        }
        if (old[1] == '3') {
            shortest = shortest || end - at == 3;
            longest = longest || end - at == 513;
            after = after || started;
            waiting = equations > 0 && !started;
        }
        between = between || (waiting && old[1] == '1');
        started = started || old[1] == '2';
        at = end;
        new_at = new_end;
    }
    if (at != t->length || new_at != result_length)
        fail("another number of lines", t);
    notes_between += between;
    notes_after += after;
    shortest_notes += shortest;
    longest_notes += longest;
}

/* The resulting text is read, and the archive's checker says so too. */
static void must_be_read(const struct task *t, const uint8_t *result, size_t length, bool checked)
{
    static uint8_t printed[REFERENCE_MOST], answer[DEVASHTOR_ROOM];
    size_t due;
    reference_read(result, length);
    if (reference_number != 0)
        fail("a text that is refused", t);
    if (!checked)
        return;
    due = reference_print(result, length, printed);
    if (reference_steps <= MOST_STEPS &&
        (devashtor_check(result, length, answer, sizeof answer) != due || memcmp(answer, printed, due) != 0))
        fail("a text that has another answer", t);
}

/* The old right side, put into `from` (the old text, or the one that came of it), gives the old text with
   that right side in small letters. */
static void must_come_back(const struct task *t, const uint8_t *from, size_t length, size_t buffer)
{
    static uint8_t due[REPLACE_MOST];
    struct task back = {from, length, t->equation, old_side, old_length};
    memcpy(due, t->text, t->length);
    texts_small(due + old_place, 2 * old_length);
    if (call(&back, buffer) != t->length || memcmp(out_end - buffer, due, t->length) != 0)
        fail("the old right side does not give the old text, with that right side in small letters,", t);
}

static unsigned long capitals_around, capitals_within; /* texts that the old right side was put into */

/* The same of the text with capitals everywhere but in the right side, which comes out just as it was; and of
   the text with capitals nowhere else, which comes out in small letters. */
static void must_come_back_in_cases(const struct task *t)
{
    static uint8_t around[REPLACE_MOST], within[REPLACE_MOST];
    struct task by = {around, t->length, t->equation, t->side, t->side_length};
    size_t digits = 2 * old_length;
    memcpy(around, t->text, t->length);
    texts_capital(around, t->length);
    texts_small(around + old_place, digits);
    must_come_back(&by, around, t->length, t->length);
    memcpy(within, t->text, t->length);
    texts_small(within, t->length);
    texts_capital(within + old_place, digits);
    by.text = within;
    must_come_back(&by, within, t->length, t->length);
    capitals_around += texts_has_capital(around, t->length);
    capitals_within += texts_has_capital(within, t->length);
}

/* The text in small letters gives the same word, and the same text in small letters. */
static void must_be_same_small(const struct task *t, uint64_t word, const uint8_t *result)
{
    static uint8_t small[TEXT_MOST], due[REPLACE_MOST];
    struct task same = {small, t->length, t->equation, t->side, t->side_length};
    memcpy(small, t->text, t->length);
    texts_small(small, t->length);
    if (call(&same, PLENTY) != word)
        fail("another word in small letters", t);
    if (DEVASHTOR_REFUSED(word))
        return;
    memcpy(due, result, word);
    texts_small(due, word);
    if (memcmp(out_end - PLENTY, due, word) != 0)
        fail("another text in small letters", t);
}

/* Another right side put into the resulting text, and into the old one: the same, refused or not. */
static void must_forget(const struct task *t, const uint8_t *result, size_t length)
{
    static uint8_t side[SIDE_MOST], answer[REPLACE_MOST], again[REPLACE_MOST];
    size_t side_length = texts_next_side(t->equation, side), answer_length, again_length;
    struct task once = {t->text, t->length, t->equation, side, side_length};
    struct task twice = {result, length, t->equation, side, side_length};
    answer_length = words_shown(call(&once, PLENTY), out_end - PLENTY, answer);
    again_length = words_shown(call(&twice, PLENTY), out_end - PLENTY, again);
    if (again_length != answer_length || memcmp(answer, again, answer_length) != 0)
        fail("replacing twice is not replacing once by the second", &twice);
}

/* ---- texts by chance -------------------------------------------------------------------------------------- */

enum { NUMBERS = 20 };

static unsigned long of_old[NUMBERS], of_result[NUMBERS]; /* refusals; 0 of the second: accepted */
static unsigned long frames_full, frames_over, texts_full, texts_over, capitals;

static uint8_t text[TEXT_MOST], side[LONGEST_SIDE];

static size_t equations_of(const struct task *t)
{
    size_t count = 0, place, length;
    reference_read(t->text, t->length);
    while (reference_side(count, &place, &length))
        count++;
    return count;
}

/* Mostly one that is there; otherwise the first that isn't, or one that is there only for who drops its high bits. */
static size_t next_equation(const struct task *t)
{
    size_t count = equations_of(t), there = texts_below((unsigned)(count > 0 ? count : 3));
    const size_t others[] = {count, 8, 255, 256 + there, 65536 + there, ((size_t)1 << 32) + there,
                             ((size_t)1 << 63) + there, SIZE_MAX, SIZE_MAX - 1, 9 + texts_below(1000)};
    return texts_below(100) < 90 ? there : others[texts_below(sizeof others / sizeof *others)];
}

/* One whose frame, or the whole text, comes out near its greatest length; mostly a formula, so of odd length. */
static size_t side_near_a_limit(const struct task *t)
{
    size_t bytes = 254 + texts_below(5) - head_length;
    if (t->length > NEARLY_FULL && texts_below(4) > 0)
        bytes = (REPLACE_MOST + texts_below(6) - 2 - (t->length - 2 * old_length)) / 2;
    if (bytes % 2 == 0 && texts_below(4) > 0)
        bytes++;
    return texts_side_of(bytes < SIDE_MOST ? bytes : SIDE_MOST, side);
}

static size_t side_of_another(const struct task *t)
{
    struct task other = {t->text, t->length, texts_below(8), NULL, 0};
    if (!look_at(&other))
        return texts_next_side(t->equation, side);
    memcpy(side, old_side, old_length);
    return old_length;
}

static size_t next_side(const struct task *t)
{
    unsigned kind = texts_below(100);
    bool there = look_at(t);
    if (there && kind < 6) {
        memcpy(side, old_side, old_length);
        return old_length;
    }
    if (there && (kind < 18 || (t->length > NEARLY_FULL && kind < 75)))
        return side_near_a_limit(t);
    if (kind < 26)
        return side_of_another(t);
    if (kind > 98) {
        size_t length = texts_below(LONGEST_SIDE);
        for (size_t i = 0; i < length; i++)
            side[i] = (uint8_t)texts_below(256);
        return length;
    }
    return texts_next_side(t->equation, side);
}

static void count_answer(const struct task *t, uint64_t word)
{
    unsigned number = DEVASHTOR_NUMBER(word) % NUMBERS, old;
    size_t frame, result;
    reference_read(t->text, t->length);
    old = reference_number;
    *(old != 0 ? &of_old[old] : &of_result[number]) += 1;
    if (!look_at(t))
        return;
    frame = head_length + t->side_length;
    result = t->length - 2 * old_length + 2 * t->side_length;
    frames_full += number == 0 && frame == 256;
    frames_over += number == 3 && frame == 257 && t->side_length % 2 == 1;
    texts_full += number == 0 && result == REPLACE_MOST;
    texts_over += number == 1 && result <= REPLACE_MOST + 2;
    capitals += number == 0 && texts_has_capital(t->text, t->length);
}

static void try_task(const struct task *t, bool checked)
{
    static uint8_t result[REPLACE_MOST];
    uint64_t word = call(t, PLENTY);
    count_answer(t, word);
    if (!DEVASHTOR_REFUSED(word))
        words_shown(word, out_end - PLENTY, result);
    if (texts_has_capital(t->text, t->length))
        must_be_same_small(t, word, result);
    if (DEVASHTOR_REFUSED(word)) {
        call(t, texts_below(3) == 0 ? texts_below(100) : 0);
        return;
    }
    call(t, word);
    call(t, texts_below((unsigned)word));
    of_result[10] += DEVASHTOR_NUMBER(call(t, word - 1)) == 10;
    of_result[10] += DEVASHTOR_NUMBER(call(t, 0)) == 10;
    must_keep_lines(t, result, word);
    must_be_read(t, result, word, checked);
    look_at(t);
    must_come_back(t, t->text, t->length, PLENTY);
    must_come_back(t, result, word, t->length);
    must_come_back_in_cases(t);
    must_forget(t, result, word);
}

/* Another last byte of the start: its equation, or an argument. */
static void spoil_start(size_t length)
{
    for (size_t at = 0, end; at + 4 <= length && memchr(text + at, '\n', length - at) != NULL; at = end) {
        end = line_end(text, at);
        if (memcmp(text + at, "02", 2) == 0 && end - at > 4) {
            char digits[3];
            sprintf(digits, "%02x", texts_below(18));
            memcpy(text + end - 3, digits, 2);
        }
    }
}

static size_t next_text(void)
{
    unsigned kind = texts_below(100);
    size_t length;
    if (kind < 1)
        return texts_next_long(text, REPLACE_MOST + texts_below(20));
    if (kind < 5)
        return texts_next_long(text, REPLACE_MOST - texts_below(10) / 9 - 2 * texts_below(150));
    length = texts_next(text);
    if (kind < 15)
        spoil_start(length);
    return length;
}

/* Prints how many refusals of each number there were; whether one of them is missing or rare. */
static bool rare(const char *of, const unsigned long *refusals, const unsigned *numbers, unsigned long wanted)
{
    bool weak = false;
    printf("; %s", of);
    for (; *numbers != 0; numbers++) {
        printf(" %u:%lu", *numbers, refusals[*numbers]);
        weak = weak || refusals[*numbers] * 200 < wanted;
    }
    return weak;
}

static int summary(unsigned long wanted)
{
    static const unsigned by_old[] = {1, 2, 3, 4, 5, 6, 7, 8, 0}, by_result[] = {19, 1, 3, 6, 7, 10, 0};
    const unsigned long must_occur[] = {notes_between, notes_after, shortest_notes, longest_notes,
                                        frames_full, frames_over, texts_full, texts_over,
                                        capitals, capitals_around, capitals_within};
    bool weak = of_result[0] * 5 < wanted;
    printf("replace.c: %lu texts, %lu calls, no difference: %lu accepted", wanted, calls, of_result[0]);
    weak |= rare("refused the old text by", of_old, by_old, wanted);
    weak |= rare("then by", of_result, by_result, wanted);
    printf("; accepted with notes between equations %lu, after the start %lu, of 1 byte %lu, of 256 %lu", notes_between,
           notes_after, shortest_notes, longest_notes);
    printf("; frames of 256 bytes %lu, refused 257 %lu; texts of 32768 %lu, refused just over %lu",
           frames_full, frames_over, texts_full, texts_over);
    printf("; accepted with capitals %lu, put around the old right side %lu, within it %lu\n", capitals,
           capitals_around, capitals_within);
    for (unsigned i = 0; i < sizeof must_occur / sizeof *must_occur; i++)
        weak |= must_occur[i] * 1000 < wanted;
    if (wanted >= 4000 && weak) {
        printf("replace.c: a kind of answer or of text is missing or rare, so this run is too weak\n");
        return 1;
    }
    return 0;
}

int main(int arguments, char **argument)
{
    unsigned long wanted = arguments > 1 ? strtoul(argument[1], NULL, 10) : 10000;
    text_end = texts_fenced_end();
    side_end = texts_fenced_end();
    out_end = texts_fenced_end();
    if (arguments == 4 && strcmp(argument[1], "samples") == 0)
        return known_samples(argument[2], argument[3]);
    texts_seed(arguments > 2 ? strtoul(argument[2], NULL, 10) : 1);
    try_places();
    for (unsigned long n = 0; n < wanted; n++) {
        struct task t = {text, next_text(), 0, side, 0};
        t.equation = next_equation(&t);
        t.side_length = next_side(&t);
        try_task(&t, n % 8 == 0);
    }
    return summary(wanted);
}
