/* Calls the checker's archive from C, as an image builder does, with thousands of texts, and
   compares every byte with a plain checker that shares no code with it; a text with capital digits
   must have the answer of the same text in small letters. The first difference ends the run with status 1.

       caller [HOW MANY [SEED]]          each byte value at some places, and texts made from the seed
       caller samples TEXTS ANSWERS      the texts of a file: crates/samples/README.md tells its form

   Text and buffer both end where memory may not be touched, so that a read or a write past
   either ends the run at once. */
#include "devashtor.h"

#include "../../reference/reference.h"
#include "places.h"
#include "samples.h"
#include "texts.h"

#include <stdio.h>
#include <stdlib.h>
#include <string.h>

enum { MOST_STEPS = 200000 };

static uint8_t *text_end, *out_end;
static uint8_t expected[REFERENCE_MOST];
static size_t expected_length;
static unsigned long calls;

static uint8_t pattern(size_t i, unsigned salt)
{
    return (uint8_t)(i * 7 + (i >> 8) + salt);
}

static void fail(const char *what, const uint8_t *text, size_t length)
{
    printf("caller.c: %s for this text of %zu bytes:\n", what, length);
    fwrite(text, 1, length, stdout);
    printf("\nexpected:\n");
    fwrite(expected, 1, expected_length, stdout);
    exit(1);
}

/* One call with a buffer of this length; 64 bytes in front of the buffer are watched too. */
static void call(const uint8_t *text, size_t length, size_t buffer)
{
    unsigned salt = texts_below(256);
    uint8_t *from = text_end - length, *out = out_end - buffer;
    size_t written, due = buffer < DEVASHTOR_ROOM ? 0 : expected_length;
    memcpy(from, text, length);
    for (size_t i = 0; i < buffer + 64; i++)
        out[i - 64] = pattern(i, salt);
    written = devashtor_check(from, length, out, buffer);
    calls++;
    if (memcmp(from, text, length) != 0)
        fail("the text was changed", text, length);
    if (written != due) {
        printf("caller.c: %zu bytes for %zu in a buffer of %zu\n", written, due, buffer);
        fail("another number of bytes", text, length);
    }
    if (memcmp(out, expected, due) != 0) {
        printf("caller.c: got\n%.*s", (int)due, (const char *)out);
        fail("other bytes", text, length);
    }
    for (size_t i = 0; i < buffer + 64; i++)
        if ((i < 64 || i >= 64 + due) && out[i - 64] != pattern(i, salt))
            fail("a byte outside the answer was touched", text, length);
}

/* ---- texts with known answers --------------------------------------------------------------- */

/* Those that are checked: translate.c and replace.c have the others. */
static int known_samples(const char *texts_name, const char *answers_name)
{
    static uint8_t printed[REFERENCE_MOST];
    const struct sample *s;
    size_t number = 0;
    samples_open(texts_name, answers_name);
    for (; (s = samples_next(SAMPLE_CHECKED)) != NULL; number++) {
        expected_length = s->answer_length;
        if (expected_length > sizeof expected)
            fail("an answer that is too long", s->text, s->length);
        memcpy(expected, s->answer, expected_length);
        if (reference_print(s->text, s->length, printed) != expected_length ||
            memcmp(printed, expected, expected_length) != 0)
            fail("the plain checker prints something else", s->text, s->length);
        if (reference_nested_agrees(MOST_STEPS) == 0)
            fail("the plain checker's rounds and nested fixed points differ", s->text, s->length);
        call(s->text, s->length, DEVASHTOR_ROOM);
    }
    printf("caller.c: %zu samples, no difference\n", number);
    return number > 0 ? 0 : 1;
}

/* ---- each byte value as a character ----------------------------------------------------------- */

static const struct place places[] = {
    {"0100001a0000\n03?5\n0200\n", 2, ANY_DIGIT, "040000\n050000010000\n", NULL, "06030003\n"},
    {"0100001a0000\n035?\n0200\n", 2, ANY_DIGIT, "040000\n050000010000\n", NULL, "06030002\n"},
    {"0100001a0000\n?3\n0200\n", 2, 1 << 0, "040000\n050000010000\n", "06040002\n", "06030002\n"},
    {"0100011011\n02000?\n", 2, ANY_DIGIT, "04000?01\n050100010001\n", NULL, "06030002\n"}, /* an argument */
    {"010000?1\n0200\n", 1, 1 << 1, "040001\n050100010001\n", "06060001\n", "06060001\n"}, /* true */
    /* an instance */
    {"0100001?0000\n0200\n", 1, 1 << 10, "040000\n050000010000\n", "06060001\n", "06030001\n"},
    {"0100001a?000\n0200\n", 1, 1 << 0, "040000\n050000010000\n", "06070001\n", "06060001\n"},
    {"01000011\n020?", 2, ANY_DIGIT, "06030002\n", NULL, "06030002\n"},
};

static void try_places(void)
{
    uint8_t text[PLACES_MOST], printed[REFERENCE_MOST];
    for (unsigned i = 0; i < sizeof places / sizeof *places; i++)
        for (unsigned byte = 0; byte < BYTE_VALUES; byte++) {
            size_t length = places_text(&places[i], byte, text);
            expected_length = places_due(&places[i], byte, expected);
            if (reference_print(text, length, printed) != expected_length ||
                memcmp(printed, expected, expected_length) != 0)
                fail("the plain checker prints something else", text, length);
            call(text, length, DEVASHTOR_ROOM);
        }
}

/* ---- texts by chance -------------------------------------------------------------------------- */

static unsigned long refusals[10], holds, fails, nested, defined, reached, full, capitals, mixed;

/* The plain checker's other ways of solving give what it printed. */
static void must_agree(const uint8_t *text, size_t length, bool by_definition)
{
    int same = reference_nested_agrees(MOST_STEPS);
    if (same == 0)
        fail("the plain checker's rounds and nested fixed points differ", text, length);
    nested += same == 1;
    same = by_definition ? reference_agrees() : -1;
    if (same == 0)
        fail("the plain checker does not agree with the definition", text, length);
    defined += same == 1;
}

static void count_answer(const uint8_t *text, size_t length)
{
    refusals[reference_number]++;
    if (reference_number != 0)
        return;
    reached += reference_reached;
    full += reference_reached > 256;
    *(expected[expected_length - 10] == '1' ? &holds : &fails) += 1;
    capitals += texts_has_capital(text, length);
    mixed += texts_has_mixed_byte(text, length);
}

/* The same text in small letters has the same answer. */
static void call_small(const uint8_t *text, size_t length)
{
    static uint8_t small[TEXT_MOST];
    memcpy(small, text, length);
    texts_small(small, length);
    call(small, length, DEVASHTOR_ROOM);
}

static int summary(unsigned long wanted)
{
    bool weak = capitals * 10 < wanted || mixed * 500 < wanted;
    printf("caller.c: %lu texts, %lu calls, no difference: %lu hold, %lu fail, refused", wanted, calls, holds, fails);
    for (unsigned number = 1; number <= 9; number++) {
        printf(" %u:%lu", number, refusals[number]);
        weak = weak || refusals[number] == 0;
    }
    printf("; %lu instances, %lu models over 256; solved by nested fixed points too %lu, by the definition %lu",
           reached, full, nested, defined);
    printf("; not refused with capitals %lu, with both cases in a byte %lu\n", capitals, mixed);
    if (weak && wanted >= 4000) {
        printf("caller.c: a kind of answer or of text is missing or rare, so this run is too weak\n");
        return 1;
    }
    return 0;
}

int main(int arguments, char **argument)
{
    static const size_t buffers[] = {DEVASHTOR_ROOM, DEVASHTOR_ROOM + 1, 8192, 20000};
    static const size_t short_buffers[] = {DEVASHTOR_ROOM - 1, 0, 1, 13, 4096};
    static uint8_t text[TEXT_MOST];
    unsigned long wanted = arguments > 1 ? strtoul(argument[1], NULL, 10) : 10000;
    size_t length;
    text_end = texts_fenced_end();
    out_end = texts_fenced_end();
    if (arguments == 4 && strcmp(argument[1], "samples") == 0)
        return known_samples(argument[2], argument[3]);
    texts_seed(arguments > 2 ? strtoul(argument[2], NULL, 10) : 1);
    try_places();
    for (unsigned long n = 0; n < wanted; n++) {
        do { /* what takes the plain checker too long is left out */
            length = texts_next(text);
            expected_length = reference_print(text, length, expected);
        } while (reference_steps > MOST_STEPS);
        must_agree(text, length, n % 4 == 0);
        count_answer(text, length);
        call(text, length, n % 8 == 7 ? DEVASHTOR_ROOM + texts_below(9000) : buffers[n % 4]);
        if (texts_has_capital(text, length))
            call_small(text, length);
        if (n % 5 == 0)
            call(text, length, short_buffers[n / 5 % 5]);
    }
    return summary(wanted);
}
