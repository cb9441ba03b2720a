/* Compares the plain checker's ways of solving with one another: by rounds, by nested fixed points and, where
   a model is small enough, by the definition. No archive is needed. The first difference ends the run with
   status 1.

       rounds [HOW MANY [SEED]]     the benchmark's models, then texts made from the seed
       rounds spent NAME ..         models in these files for which the rounds have to be given up */
#include "../../bench/families.h"
#include "../callers/c/texts.h"
#include "reference.h"
#include "translate.h"

#include <stdio.h>
#include <stdlib.h>
#include <string.h>

enum { MOST_STEPS = 2000000, MOST_FOR_A_FAMILY = 50000000, MOST_EVALUATIONS_OF_A_CHAIN = 1100 };

static unsigned long nested, too_long, defined;

static void fail(const char *what, const uint8_t *text, size_t length)
{
    printf("rounds.c: %s for this text of %zu bytes:\n", what, length);
    fwrite(text, 1, length, stdout);
    exit(1);
}

/* Solves in both ways, unless nested fixed points take more steps than this; whether the model holds. */
static bool solve(const uint8_t *text, size_t length, unsigned long most_steps)
{
    static uint8_t printed[REFERENCE_MOST];
    size_t written = reference_print(text, length, printed);
    int same = reference_nested_agrees(most_steps);
    if (same == 0)
        fail("rounds and nested fixed points differ", text, length);
    nested += same == 1;
    too_long += reference_number == 0 && same < 0;
    return reference_number == 0 && printed[written - 10] == '1';
}

/* ---- the benchmark's models ------------------------------------------------------------------------ */

static void try_family(const struct family *f)
{
    static uint8_t model[TRANSLATE_MOST];
    const uint8_t *text = (const uint8_t *)family_text(f);
    size_t length = strlen((const char *)text);
    if (f->kind == TRANSLATED) {
        length = plain_translate(text, length, model, sizeof model);
        text = model;
    }
    if (!solve(text, length, MOST_FOR_A_FAMILY))
        fail("another verdict than is due", text, length);
    if (reference_reached != f->due)
        fail("another number of instances than is due", text, length);
    if (reference_spent)
        fail("the rounds were given up", text, length);
    if ((strcmp(f->name, "chain-along") == 0 || strcmp(f->name, "chain-against") == 0) &&
        reference_evaluations > MOST_EVALUATIONS_OF_A_CHAIN)
        fail("too many evaluations", text, length);
    printf("%s %lu", f->name, reference_evaluations);
}

static void try_families(void)
{
    const char *before = "rounds.c: evaluations: ";
    for (unsigned i = 0; i < families_count; i++)
        if (families[i].kind == MODEL || families[i].kind == TRANSLATED) {
            printf("%s", before);
            try_family(&families[i]);
            before = ", ";
        }
    printf("; nested fixed points take too long for %lu of them\n", too_long);
}

/* ---- texts by chance, and models that take too many evaluations ------------------------------------- */

static int try_by_chance(unsigned long wanted)
{
    static uint8_t text[TEXT_MOST];
    unsigned long most = 0;
    nested = too_long = 0;
    for (unsigned long n = 0; n < wanted; n++) {
        size_t length = texts_next(text);
        int same;
        solve(text, length, MOST_STEPS);
        same = n % 4 == 0 ? reference_agrees() : -1;
        if (same == 0)
            fail("rounds and the definition differ", text, length);
        defined += same == 1;
        most = reference_evaluations > most ? reference_evaluations : most;
    }
    printf("rounds.c: %lu texts, no difference: %lu solved by nested fixed points too (%lu take too long), ",
           wanted, nested, too_long);
    printf("%lu by the definition; at most %lu evaluations\n", defined, most);
    if (wanted >= 4000 && (nested < wanted / 4 || too_long > wanted / 20 || defined < wanted / 40)) {
        printf("rounds.c: too few texts were solved in two ways, so this run is too weak\n");
        return 1;
    }
    return 0;
}

static void try_spent(const char *name)
{
    size_t length;
    uint8_t *text = texts_of_file(name, &length);
    solve(text, length, MOST_FOR_A_FAMILY);
    if (reference_number != 0 || !reference_spent)
        fail("the rounds were not given up", text, length);
    free(text);
}

int main(int arguments, char **argument)
{
    if (arguments > 2 && strcmp(argument[1], "spent") == 0) {
        for (int i = 2; i < arguments; i++)
            try_spent(argument[i]);
        printf("rounds.c: %d models, rounds given up\n", arguments - 2);
        return 0;
    }
    try_families();
    texts_seed(arguments > 2 ? strtoul(argument[2], NULL, 10) : 1);
    return try_by_chance(arguments > 1 ? strtoul(argument[1], NULL, 10) : 10000);
}
