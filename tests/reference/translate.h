/* A plain translator from process and formula to a model, to compare the proved one with, and the
   formula's own meaning over the process. Neither shares code with the proved program. */
#ifndef TRANSLATE_H
#define TRANSLATE_H

#include <stddef.h>
#include <stdint.h>

enum { TRANSLATE_MOST = 8 * 513 + 13 }; /* no translated text has more bytes */

/* Writes the model of the process and the formula in text[0 .. n) into out[0 .. m) and gives the
   number of bytes; or gives 2^63 + number * 2^32 + line of a refusal, and writes nothing. */
uint64_t plain_translate(const uint8_t *text, size_t n, uint8_t *out, size_t m);

/* Whether the start state satisfies the formula: sets of states of the finite process, and no
   equation. 1: it does, 0: it doesn't, -1: the text is refused by 1, 2, 3 or 14, or finding out
   takes too many steps. */
int plain_satisfies(const uint8_t *text, size_t n);

#endif
