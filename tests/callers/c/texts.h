/* Texts to try a checker on, made from a seed: valid models, damaged ones, and no models at all; and so for
   processes with a formula. Right sides to put into models. And where they are put. */
#ifndef TEXTS_H
#define TEXTS_H

#include <stdbool.h>
#include <stddef.h>
#include <stdint.h>

enum { TEXT_MOST = 70000 };

void texts_seed(uint64_t seed);
unsigned texts_below(unsigned n); /* a number from 0 to n - 1 */

/* Writes the next text into `text`, which has room for TEXT_MOST bytes, and gives its length. Its letters are
   small, capital, or of both cases. */
size_t texts_next(uint8_t *text);

/* A model in a text of just this length, which is at least 20,000: its notes, of 1 to 256 bytes, stand anywhere. */
size_t texts_next_long(uint8_t *text, size_t aim);

/* Writes the bytes of a right side for this equation of the last model made (of any, where it has no such) and gives
   their number: a formula by chance, one with faults, one that breaks rule 7, any bytes, or none. `side` has room for
   SIDE_MOST bytes. */
enum { SIDE_MOST = 1024 };
size_t texts_next_side(size_t equation, uint8_t *side);

/* The same of so many bytes: a formula where the number is odd (every formula has an odd number), otherwise one with
   a byte too many. */
size_t texts_side_of(size_t bytes, uint8_t *side);

/* The same for a process with a formula. */
size_t texts_next_process(uint8_t *text);

/* The digits among these characters made small or capital; whether one of them is capital, and whether a byte
   has one of each case. */
void texts_small(uint8_t *text, size_t length);
void texts_capital(uint8_t *text, size_t length);
bool texts_has_capital(const uint8_t *text, size_t length);
bool texts_has_mixed_byte(const uint8_t *text, size_t length);

/* The end of AREA_MOST bytes of memory, with forbidden memory behind it: what ends there cannot be read or
   written past its end. */
enum { AREA_MOST = 320 * 1024 };
uint8_t *texts_fenced_end(void);

/* The bytes of a file, which are to be freed; ends the run where there is none. */
uint8_t *texts_of_file(const char *name, size_t *length);

#endif
