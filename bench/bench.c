/* How long a whole check takes, a translation, and the replacing of a right side, beside a plain checker, a plain
   translator and a plain writer in the same run; and how long finding and solving take beside the whole check.

       bench                          a line for each family of models: the instances reached, how many right
                                      sides the plain checker evaluates, the time of both, and their ratio
       bench long                     the same for the families of models that take many seconds
       bench translate                the same for the families of processes, with the number of the refusal
       bench replace                  the same for the families in which a right side is replaced
       bench apart                    for each family of models the time of a check, of finding and of solving what
                                      was found, and the ratios of the last two to the first
       bench FAMILY                   the line of one family
       bench FAMILY archive [TIMES]   one run by the archive (or `plain`; or of a model `find`, `solve`), or as many
                                      as said, to count its instructions */
#define _POSIX_C_SOURCE 200809L
#include "devashtor.h"

#include "../tests/reference/reference.h"
#include "../tests/reference/replace.h"
#include "../tests/reference/translate.h"
#include "families.h"

#include <stdbool.h>
#include <stdio.h>
#include <stdlib.h>
#include <string.h>
#include <time.h>

/* ---- one run by each ---------------------------------------------------------------------------- */

static uint8_t by_archive[DEVASHTOR_TEXT], by_plain[DEVASHTOR_TEXT];
static size_t equation, side_length; /* what is replaced, and by what */
static uint8_t side[256];

__attribute__((noinline)) static uint64_t check_by_archive(const uint8_t *text, size_t length)
{
    return devashtor_check(text, length, by_archive, sizeof by_archive);
}

__attribute__((noinline)) static uint64_t check_by_plain(const uint8_t *text, size_t length)
{
    return reference_print(text, length, by_plain);
}

__attribute__((noinline)) static uint64_t translate_by_archive(const uint8_t *text, size_t length)
{
    return devashtor_translate(text, length, by_archive, sizeof by_archive);
}

__attribute__((noinline)) static uint64_t translate_by_plain(const uint8_t *text, size_t length)
{
    return plain_translate(text, length, by_plain, sizeof by_plain);
}

__attribute__((noinline)) static uint64_t replace_by_archive(const uint8_t *text, size_t length)
{
    return devashtor_replace(text, length, equation, side, side_length, by_archive, sizeof by_archive);
}

__attribute__((noinline)) static uint64_t replace_by_plain(const uint8_t *text, size_t length)
{
    return plain_replace(text, length, equation, side, side_length, by_plain, sizeof by_plain);
}

static uint32_t list[DEVASHTOR_LIST];
static size_t words; /* how many were found */

__attribute__((noinline)) static uint64_t list_by_find(const uint8_t *text, size_t length)
{
    return devashtor_find(text, length, list, DEVASHTOR_LIST);
}

__attribute__((noinline)) static uint64_t lines_by_solve(const uint8_t *text, size_t length)
{
    return devashtor_solve(text, length, list, words, by_archive, sizeof by_archive);
}

typedef uint64_t (*way)(const uint8_t *, size_t);

static way which(const struct family *f, bool plain)
{
    if (f->kind == REPLACED)
        return plain ? replace_by_plain : replace_by_archive;
    if (f->kind == PROCESS)
        return plain ? translate_by_plain : translate_by_archive;
    return plain ? check_by_plain : check_by_archive;
}

/* ---- what is run -------------------------------------------------------------------------------- */

static const uint8_t *text;
static size_t length;

/* Takes the first line, with the equation and its new right side, off the text. */
static void take_first_line(void)
{
    size_t line = (size_t)((const uint8_t *)strchr((const char *)text, '\n') - text) + 1;
    equation = strtoul((const char[]){(char)text[0], (char)text[1], (char)text[2], 0}, NULL, 10);
    side_length = 0;
    for (size_t at = 3; at + 1 < line; at += 2)
        side[side_length++] = (uint8_t)strtoul((const char[]){(char)text[at], (char)text[at + 1], 0}, NULL, 16);
    text += line;
    length -= line;
}

/* Makes the text that is to be checked or translated, or in which a right side is to be replaced. */
static void prepare(const struct family *f)
{
    static uint8_t model[DEVASHTOR_TRANSLATED];
    text = (const uint8_t *)family_text(f);
    length = strlen((const char *)text);
    if (f->kind == TRANSLATED) {
        uint64_t given = devashtor_translate(text, length, model, sizeof model);
        text = model;
        length = DEVASHTOR_REFUSED(given) ? 0 : given;
    }
    if (f->kind == REPLACED)
        take_first_line();
}

static double seconds(void)
{
    struct timespec now;
    clock_gettime(CLOCK_MONOTONIC, &now);
    return (double)now.tv_sec + 1e-9 * (double)now.tv_nsec;
}

/* The shortest time of some runs: at least 3, at most 1,000, for about half a second; of one, where it takes
   a second or longer. What it gives is put into `given`. */
static double time_of(way one, uint64_t *given)
{
    double begin = seconds(), best = 1e9;
    for (unsigned n = 0; n == 0 || (n < 3 && best < 1) || (n < 1000 && seconds() - begin < 0.5); n++) {
        double from = seconds(), taken;
        *given = one(text, length);
        taken = seconds() - from;
        best = taken < best ? taken : best;
    }
    return best;
}

static bool is_checked(const struct family *f)
{
    return f->kind == MODEL || f->kind == TRANSLATED || f->kind == LONG;
}

/* Whether the family is what it should be, by what the plain program gave for it. */
static bool right(const struct family *f, uint64_t given)
{
    if (is_checked(f))
        return reference_number == 0 && reference_reached == f->due && by_plain[given - 10] == '1';
    return (DEVASHTOR_REFUSED(given) ? DEVASHTOR_NUMBER(given) : 0) == f->due;
}

static bool measure(const struct family *f)
{
    uint64_t given, answered;
    double archive, plain;
    char evaluations[24] = "";
    prepare(f);
    plain = time_of(which(f, true), &given);
    if (!right(f, given)) {
        printf("%s: this text is not what it should be\n", f->name);
        return false;
    }
    archive = time_of(which(f, false), &answered);
    if (answered != given || memcmp(by_archive, by_plain, sizeof by_plain) != 0) {
        printf("%s: the archive answers otherwise\n", f->name);
        return false;
    }
    if (is_checked(f))
        snprintf(evaluations, sizeof evaluations, "%lu%s", reference_evaluations, reference_spent ? "+" : "");
    printf("%-16s %8u %8s %14.6f %14.6f %8.2f   %s\n", f->name, f->due, evaluations, 1e3 * archive,
           1e3 * plain, archive / plain, f->what);
    fflush(stdout);
    return true;
}

static bool measure_apart(const struct family *f)
{
    uint64_t given, found, answered;
    double check, find, solve;
    prepare(f);
    check = time_of(check_by_archive, &given);
    memcpy(by_plain, by_archive, sizeof by_plain);
    find = time_of(list_by_find, &found);
    words = (size_t)found;
    memset(by_archive, 0, given);
    solve = time_of(lines_by_solve, &answered);
    if (found != f->due || answered != given || memcmp(by_archive, by_plain, sizeof by_plain) != 0) {
        printf("%s: finding and solving answer otherwise\n", f->name);
        return false;
    }
    printf("%-16s %8u %14.6f %14.6f %14.6f %8.2f %8.2f\n", f->name, f->due, 1e3 * check, 1e3 * find, 1e3 * solve,
           find / check, solve / check);
    fflush(stdout);
    return true;
}

/* All families of this kind; with the models those whose model comes from a translation. */
static bool measure_all(enum kind kind, bool (*one)(const struct family *))
{
    for (unsigned i = 0; i < families_count; i++)
        if ((families[i].kind == TRANSLATED ? MODEL : families[i].kind) == kind && !one(&families[i]))
            return false;
    return true;
}

static bool run_one(const struct family *f, const char *by, unsigned long times)
{
    way one = strcmp(by, "find") == 0 ? list_by_find : lines_by_solve;
    uint64_t given = 0;
    if (strcmp(by, "archive") == 0 || strcmp(by, "plain") == 0)
        one = which(f, strcmp(by, "plain") == 0);
    prepare(f);
    if (one == lines_by_solve)
        words = (size_t)devashtor_find(text, length, list, DEVASHTOR_LIST);
    for (; times > 0; times--)
        given = one(text, length);
    return given != 0;
}

int main(int arguments, char **argument)
{
    const struct family *f = arguments > 1 ? family_named(argument[1]) : NULL;
    unsigned long times = arguments > 3 ? strtoul(argument[3], NULL, 10) : 1;
    bool done;
    if (arguments == 1)
        done = measure_all(MODEL, measure);
    else if (arguments == 2 && strcmp(argument[1], "long") == 0)
        done = measure_all(LONG, measure);
    else if (arguments == 2 && strcmp(argument[1], "translate") == 0)
        done = measure_all(PROCESS, measure);
    else if (arguments == 2 && strcmp(argument[1], "replace") == 0)
        done = measure_all(REPLACED, measure);
    else if (arguments == 2 && strcmp(argument[1], "apart") == 0)
        done = measure_all(MODEL, measure_apart);
    else if (f == NULL)
        return 2;
    else if (arguments == 2)
        done = measure(f);
    else
        done = run_one(f, argument[2], times);
    return done ? 0 : 1;
}
