/* The texts of a file in the form of crates/samples/README.md, with their answers. */
#ifndef SAMPLES_H
#define SAMPLES_H

#include <stddef.h>
#include <stdint.h>

enum sample_kind { SAMPLE_CHECKED, SAMPLE_TRANSLATED, SAMPLE_REPLACED, SAMPLE_FOUND, SAMPLE_SOLVED };

enum { SAMPLE_WORDS = 514 }; /* no more are lent, and no list has more */

/* `equation` and `side`: what is to be replaced by what, in a text of that kind. `words`: how many a table has that is
   lent to find in, or the list that is to be solved, and `list` are that list's. */
struct sample {
    unsigned kind;
    const uint8_t *text, *answer;
    size_t length, answer_length;
    size_t equation, side_length;
    uint8_t side[255];
    size_t words;
    uint32_t list[SAMPLE_WORDS];
};

/* Both files, from their beginning; the run ends where one is not there. */
void samples_open(const char *texts_name, const char *answers_name);

/* The next text of this kind, NULL where there is none left. The run ends with status 1 where the files do not
   have this form, or do not end together. */
const struct sample *samples_next(enum sample_kind kind);

#endif
