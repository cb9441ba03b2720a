#include "samples.h"

#include "texts.h"

#include <stdio.h>
#include <stdlib.h>

enum { HEAD = 8, EQUATION = 3, COUNT = 4, WORD = 8 }; /* digits */

static uint8_t *texts, *answers;
static size_t texts_length, answers_length, at, from;

void samples_open(const char *texts_name, const char *answers_name)
{
    free(texts);
    free(answers);
    texts = texts_of_file(texts_name, &texts_length);
    answers = texts_of_file(answers_name, &answers_length);
    at = from = 0;
}

static void must(int fine)
{
    if (!fine) {
        printf("samples.c: the samples are not in their form: at byte %zu of the texts, %zu of the answers\n", at, from);
        exit(1);
    }
}

/* The number that the next digits are worth. */
static size_t number(unsigned digits, unsigned base)
{
    char word[HEAD + 1] = {0};
    char *end;
    size_t worth;
    must(at + digits <= texts_length);
    for (unsigned i = 0; i < digits; i++)
        word[i] = (char)texts[at + i];
    worth = strtoul(word, &end, (int)base);
    must(end == word + digits);
    at += digits;
    return worth;
}

static void end_of_line(void)
{
    must(at < texts_length && texts[at] == '\n');
    at++;
}

/* What stands between the head and the text. */
static void next_side(struct sample *s)
{
    s->equation = number(EQUATION, 10);
    for (size_t i = 0; i < s->side_length; i++)
        s->side[i] = (uint8_t)number(2, 16);
    end_of_line();
}

static void next_words(struct sample *s)
{
    s->words = number(COUNT, 16);
    must(s->words <= SAMPLE_WORDS);
    end_of_line();
    for (size_t i = 0; s->kind == SAMPLE_SOLVED && i < s->words; i++) {
        s->list[i] = (uint32_t)number(WORD, 16);
        end_of_line();
    }
}

static void next_text(struct sample *s)
{
    size_t head = number(HEAD, 16);
    end_of_line();
    s->kind = (unsigned)(head >> 24);
    s->length = head & 0xffff;
    s->side_length = head >> 16 & 0xff;
    must(s->kind == SAMPLE_REPLACED || (s->kind <= SAMPLE_SOLVED && s->side_length == 0));
    if (s->kind == SAMPLE_REPLACED)
        next_side(s);
    if (s->kind == SAMPLE_FOUND || s->kind == SAMPLE_SOLVED)
        next_words(s);
    must(at + s->length <= texts_length);
    s->text = texts + at;
    at += s->length;
}

/* An answer is followed by an empty line. */
static void next_answer(struct sample *s)
{
    size_t end = from;
    while (end + 1 < answers_length && (answers[end] != '\n' || answers[end + 1] != '\n'))
        end++;
    must(end + 1 < answers_length);
    s->answer = answers + from;
    s->answer_length = end + 1 - from;
    from = end + 2;
}

const struct sample *samples_next(enum sample_kind kind)
{
    static struct sample s;
    while (at < texts_length) {
        next_text(&s);
        next_answer(&s);
        if (s.kind == (unsigned)kind)
            return &s;
    }
    must(from == answers_length);
    return NULL;
}
