/* A plain writer that replaces one right side of a model, to compare the proved one with. It shares no code with
   it; it reads by the plain checker. */
#ifndef REPLACE_H
#define REPLACE_H

#include <stddef.h>
#include <stdint.h>

enum { REPLACE_MOST = 32768 }; /* no resulting text has more bytes */

/* Writes the text, with the right side of this equation replaced by the bytes side[0 .. k), into out[0 .. m) and
   gives the number of bytes; or gives 2^63 + number * 2^32 + line of a refusal, and writes nothing. */
uint64_t plain_replace(const uint8_t *text, size_t n, size_t equation, const uint8_t *side, size_t k, uint8_t *out,
                       size_t m);

#endif
