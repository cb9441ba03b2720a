/* Finding and solving apart from each other, plainly, to compare the proved ones with. They share no code with
   them; they find and solve by the plain checker. */
#ifndef APART_H
#define APART_H

#include <stddef.h>
#include <stdint.h>

enum { APART_LIST = 512 }; /* no list has more words */

/* Writes the words of the reached instances into table[0 .. words), as many as there is room for, and gives their
   number; or gives 2^63 + number * 2^32 + line of a refusal: by 1 to 8 nothing is written, by 9 those found first. */
uint64_t plain_find(const uint8_t *text, size_t n, uint32_t *table, size_t words);

/* Writes what the checking program prints for this text into out[0 .. m), if list[0 .. words) is just the list of its
   reached instances, otherwise the line of refusal 11, and gives the number of bytes; 0 where m is under 7,693, and
   then writes nothing. */
size_t plain_solve(const uint8_t *text, size_t n, const uint32_t *list, size_t words, uint8_t *out, size_t m);

#endif
