/* Calls the archive's translation from C with thousands of processes and formulas, and compares the word that
   comes back and every byte of the buffer with a plain translator that shares no code with it. Where a model
   comes out, it is checked, and its verdict compared with the formula's own meaning over the process's states.
   A text with capital digits must give what the same text gives in small letters. The first difference ends
   the run with status 1.

       translate [HOW MANY [SEED]]          each byte value at some places, and texts made from the seed
       translate samples TEXTS ANSWERS      the texts of a file, in the form of crates/samples/README.md; an answer
                                            is the model's text, or the line of the refusal
       translate models NAME.process ..     each must give NAME.model, and that, checked, NAME.answer

   Text and buffer both end where memory may not be touched, so that a read or a write past either ends the run
   at once. */
#include "devashtor.h"

#include "../../reference/reference.h"
#include "../../reference/translate.h"
#include "places.h"
#include "samples.h"
#include "texts.h"
#include "words.h"

#include <stdio.h>
#include <stdlib.h>
#include <string.h>

enum { FRONT = 64, PLENTY = 9000, MOST_STEPS = 200000 };

static uint8_t *text_end, *out_end;
static unsigned long calls;

static void fail(const char *what, const uint8_t *text, size_t length)
{
    printf("translate.c: %s for this text of %zu bytes:\n", what, length);
    fwrite(text, 1, length, stdout);
    exit(1);
}

/* One call of both with a buffer of this length. Both buffers are filled alike before, with FRONT bytes more in
   front, so all of them must be alike afterwards. */
static uint64_t call(const uint8_t *text, size_t length, size_t buffer)
{
    static uint8_t plain[FRONT + PLENTY];
    uint8_t *from = text_end - length, *out = out_end - buffer;
    uint64_t word, due;
    memcpy(from, text, length);
    words_fill(plain, out - FRONT, FRONT + buffer);
    word = devashtor_translate(from, length, out, buffer);
    due = plain_translate(text, length, plain + FRONT, buffer);
    calls++;
    if (!words_same("translate.c", word, due))
        fail("another word", text, length);
    if (memcmp(from, text, length) != 0)
        fail("the text was changed", text, length);
    if (memcmp(out - FRONT, plain, FRONT + buffer) != 0)
        fail(DEVASHTOR_REFUSED(word) ? "a byte was touched, though refused," : "other bytes", text, length);
    return word;
}

/* ---- texts with known answers --------------------------------------------------------------------------- */

static uint8_t answer[PLENTY];
static const char *trying;

/* The answer, of this length, must be that of the file, or of the rule. */
static void must_be(const uint8_t *right, size_t right_length, size_t length)
{
    if (length != right_length || memcmp(answer, right, length) != 0) {
        printf("translate.c: another answer than that of %s:\n%.*s", trying, (int)length, (const char *)answer);
        printf("for this one:\n%.*s", (int)right_length, (const char *)right);
        exit(1);
    }
}

/* Those that are translated: caller.c and replace.c have the others. */
static int known_samples(const char *texts_name, const char *answers_name)
{
    const struct sample *s;
    size_t number = 0;
    trying = answers_name;
    samples_open(texts_name, answers_name);
    for (; (s = samples_next(SAMPLE_TRANSLATED)) != NULL; number++) {
        uint64_t word = call(s->text, s->length, TRANSLATE_MOST);
        must_be(s->answer, s->answer_length, words_shown(word, out_end - TRANSLATE_MOST, answer));
    }
    printf("translate.c: %zu samples, no difference\n", number);
    return number > 0 ? 0 : 1;
}

static uint8_t *file_beside(const char *process, const char *ending, size_t *length)
{
    char name[4096];
    const char *dot = strrchr(process, '.');
    snprintf(name, sizeof name, "%.*s%s", (int)(dot == NULL ? 0 : dot - process), process, ending);
    return texts_of_file(name, length);
}

static int known_models(char **names)
{
    unsigned number = 0;
    for (; names[number] != NULL; number++) {
        size_t length, model_length, answer_length;
        uint8_t *text = texts_of_file(names[number], &length);
        uint8_t *model = file_beside(names[number], ".model", &model_length);
        uint8_t *right = file_beside(names[number], ".answer", &answer_length);
        trying = names[number];
        must_be(model, model_length, words_shown(call(text, length, TRANSLATE_MOST), out_end - TRANSLATE_MOST, answer));
        must_be(right, answer_length, devashtor_check(model, model_length, answer, DEVASHTOR_ROOM));
        free(text);
        free(model);
        free(right);
    }
    printf("translate.c: %u processes, no difference\n", number);
    return number > 0 ? 0 : 1;
}

/* ---- each byte value as a character -------------------------------------------------------------------- */

static const struct place places[] = {
    {"03?5\n0900\n0811\n", 1, ANY_DIGIT, "01010011\n0200\n", NULL, "06030002\n"},
    {"0900\n035?\n0811\n", 2, ANY_DIGIT, "01010011\n0200\n", NULL, "06030002\n"},
    {"0901?000\n0811\n", 1, 1 << 1, "0101011011\n020000\n", "060e0001\n", "06030002\n"}, /* a range */
    {"0901100?\n0811\n", 1, ANY_DIGIT, "0101011011\n02000?\n", NULL, "06030001\n"}, /* an initial value */
    {"0900\n0700?100\n0811\n", 2, 1 << 1, "01010011\n0200\n", "060e0002\n", "06030003\n"},
    {"0900\n0700110?\n0830360a11\n", 2, 1 << 10, "010100131011\n0200\n", "01010011\n0200\n", "06030002\n"},
    {"0900\n0700110a\n0830360?11\n", 3, 1 << 10, "010100131011\n0200\n", "01010011\n0200\n", "06030003\n"},
    {"0900\n08?1\n", 2, 1 << 1, "01010011\n0200\n", "060e0002\n", "06030003\n"},
};

static void try_places(void)
{
    uint8_t text[PLACES_MOST], due[PLACES_MOST];
    trying = "the rule of the digits";
    for (unsigned i = 0; i < sizeof places / sizeof *places; i++)
        for (unsigned byte = 0; byte < BYTE_VALUES; byte++) {
            size_t length = places_text(&places[i], byte, text);
            size_t due_length = places_due(&places[i], byte, due);
            uint64_t word = call(text, length, TRANSLATE_MOST);
            must_be(due, due_length, words_shown(word, out_end - TRANSLATE_MOST, answer));
        }
}

/* ---- texts by chance -------------------------------------------------------------------------------------- */

static unsigned long refusals[16], holds, fails, unknown, too_many, capitals;

/* The model that came out: what the archive prints for it is what the plain checker prints, and its verdict is
   what the formula means. */
static void check_model(const uint8_t *text, size_t length, const uint8_t *model, size_t model_length)
{
    static uint8_t printed[REFERENCE_MOST];
    size_t due = reference_print(model, model_length, printed);
    int meant = plain_satisfies(text, length);
    if (reference_number != 0 && reference_number != 9)
        fail("a model that is refused", text, length);
    if (reference_nested_agrees(MOST_STEPS) == 0)
        fail("the plain checker's rounds and nested fixed points differ", model, model_length);
    if (reference_steps <= MOST_STEPS && (devashtor_check(model, model_length, answer, DEVASHTOR_ROOM) != due ||
                                          memcmp(answer, printed, due) != 0))
        fail("the model has another answer", text, length);
    if (reference_number == 9)
        too_many++;
    else if (meant < 0)
        unknown++;
    else if ((printed[due - 10] == '1') != meant)
        fail("another verdict than the formula means", text, length);
    else
        *(meant ? &holds : &fails) += 1;
}

/* The same text in small letters gives the same word and the same bytes. */
static void must_be_same_small(const uint8_t *text, size_t length, uint64_t word, const uint8_t *model)
{
    static uint8_t small[TEXT_MOST];
    memcpy(small, text, length);
    texts_small(small, length);
    if (call(small, length, TRANSLATE_MOST) != word)
        fail("another word in small letters", text, length);
    if (!DEVASHTOR_REFUSED(word) && memcmp(out_end - TRANSLATE_MOST, model, word) != 0)
        fail("another model in small letters", text, length);
}

static void try_text(const uint8_t *text, size_t length)
{
    static uint8_t model[TRANSLATE_MOST];
    size_t buffer = TRANSLATE_MOST + texts_below(PLENTY - TRANSLATE_MOST);
    uint64_t word = call(text, length, buffer);
    refusals[DEVASHTOR_NUMBER(word) & 15]++; /* counts what is accepted as 0 */
    if (!DEVASHTOR_REFUSED(word))
        words_shown(word, out_end - buffer, model);
    if (texts_has_capital(text, length))
        must_be_same_small(text, length, word, model);
    if (DEVASHTOR_REFUSED(word)) {
        call(text, length, texts_below(3) == 0 ? texts_below(100) : 0);
        return;
    }
    capitals += texts_has_capital(text, length);
    call(text, length, word);
    call(text, length, texts_below((unsigned)word));
    refusals[10] += DEVASHTOR_NUMBER(call(text, length, word - 1)) == 10;
    refusals[10] += DEVASHTOR_NUMBER(call(text, length, 0)) == 10;
    check_model(text, length, model, word);
}

int main(int arguments, char **argument)
{
    static const unsigned kinds[] = {1, 2, 3, 14, 15, 10};
    static uint8_t text[TEXT_MOST];
    unsigned long wanted = arguments > 1 ? strtoul(argument[1], NULL, 10) : 10000;
    int weak = 0;
    text_end = texts_fenced_end();
    out_end = texts_fenced_end();
    if (arguments == 4 && strcmp(argument[1], "samples") == 0)
        return known_samples(argument[2], argument[3]);
    if (arguments > 2 && strcmp(argument[1], "models") == 0)
        return known_models(argument + 2);
    texts_seed(arguments > 2 ? strtoul(argument[2], NULL, 10) : 1);
    try_places();
    for (unsigned long n = 0; n < wanted; n++)
        try_text(text, texts_next_process(text));
    printf("translate.c: %lu texts, %lu calls, no difference: %lu accepted, refused", wanted, calls, refusals[0]);
    for (unsigned i = 0; i < sizeof kinds / sizeof *kinds; i++) {
        printf(" %u:%lu", kinds[i], refusals[kinds[i]]);
        weak = weak || refusals[kinds[i]] * 100 < wanted;
    }
    weak = weak || capitals * 20 < wanted;
    printf("; %lu hold, %lu fail, %lu have over 512 instances, %lu not compared", holds, fails, too_many, unknown);
    printf("; %lu accepted with capitals\n", capitals);
    if (wanted >= 1000 && (weak || refusals[0] * 3 < wanted || holds * 10 < refusals[0] || fails * 10 < refusals[0])) {
        printf("translate.c: a kind of answer is missing or rare, so this run is too weak\n");
        return 1;
    }
    return 0;
}
