/* A plain checker of models, to compare the proved one with. It shares no code with it. */
#ifndef REFERENCE_H
#define REFERENCE_H

#include <stdbool.h>
#include <stddef.h>
#include <stdint.h>

enum { REFERENCE_MOST = 7693 }; /* no answer has more bytes */

/* Writes what the checking program prints for this text and gives the number of bytes.
   `out` must have room for REFERENCE_MOST bytes. */
size_t reference_print(const uint8_t *text, size_t length, uint8_t *out);

/* Reads the text and does no more: the refusal is then one of 1 to 8, or none. */
void reference_read(const uint8_t *text, size_t length);

/* Where the right side of this equation stands in the last text read: the place of its first digit, counted
   from 0, and its length in bytes. False: the text was refused, or there is no such equation. */
bool reference_side(size_t equation, size_t *place, size_t *length);

/* Reads the text and finds its reached instances, as many as there is room for, which is at most 512; it does not
   solve. The refusal is then one of 1 to 8, or 9 where there are more, or none. */
void reference_find(const uint8_t *text, size_t length, unsigned room);

/* The word of reached instance j of the last text printed or found in: equation * 65536 + its first argument * 4096
   + its second * 256 + its third * 16 + its fourth. Where that text was refused by 9, number reference_reached is the
   first one that there was no room for. */
uint32_t reference_word(unsigned j);

/* The refusal's number and line for the last text printed, read or found in (0 and 0: none), how many
   instances were reached, and how many formulas and terms were met while it was found and solved,
   each right side counted as a whole with its quantifiers written out; where a right side is judged by
   the set of what it reads, as one. */
extern unsigned reference_number, reference_line, reference_reached;
extern unsigned long reference_steps;

/* How many right sides the rounds evaluated for the last text printed, and whether they were given up
   because these were too many, so that it was solved by nested fixed points. */
extern unsigned long reference_evaluations;
extern bool reference_spent;

/* Solves the last text printed again, by nested fixed points, with at most so many steps.
   1: the same values; 0: other values; -1: refused, or more steps than that. */
int reference_nested_agrees(unsigned long most_steps);

/* Solves the last text printed again, by the definition itself: over all arguments in range,
   every candidate set tried. 1: the same values; 0: other values; -1: too large for that. */
int reference_agrees(void);

#endif
