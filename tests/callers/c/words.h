/* What callers of functions share that write a text into a buffer and give a word. */
#ifndef WORDS_H
#define WORDS_H

#include <stdbool.h>
#include <stddef.h>
#include <stdint.h>

/* Fills two buffers of n bytes alike, so that a byte touched in one of them shows. */
void words_fill(uint8_t *one, uint8_t *other, size_t n);

/* Whether the archive's word is the plain one's; where it is not, prints both behind the name of the caller. */
bool words_same(const char *caller, uint64_t word, uint64_t due);

/* Puts what was written into `out`, or the line of the refusal, and gives its length. */
size_t words_shown(uint64_t word, const uint8_t *out, uint8_t *into);

#endif
