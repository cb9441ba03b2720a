/* The checker for C. Link target/staticlib/libchecker.a. docs/USING.md tells how to use it. */
#ifndef DEVASHTOR_H
#define DEVASHTOR_H

#include <stddef.h>
#include <stdint.h>

#ifdef __cplusplus
extern "C" {
#endif

/* The least length that `out` must have: no answer has more bytes. */
#define DEVASHTOR_ROOM 7693

/* The stack that a check takes at most, or finding, solving or the replacing of a right side, whatever the text,
   with what a thread's own start takes: a thread that calls devashtor_check, devashtor_find, devashtor_solve or
   devashtor_replace needs no more than this. */
#define DEVASHTOR_STACK 147456

/* The same for a thread that calls devashtor_translate. */
#define DEVASHTOR_TRANSLATE_STACK 131072

/* Checks the model in text[0 .. text_length) and writes into `out` what the checking program
   prints for that text, a refusal's line included. Gives the number of bytes written; the bytes
   of `out` after them stay as they were. Where out_length is under DEVASHTOR_ROOM it gives 0 and
   `out` stays untouched. Any bytes are a text. `text` and `out` must not overlap, and neither
   may be null, also where its length is 0. */
size_t devashtor_check(const uint8_t *text, size_t text_length, uint8_t *out, size_t out_length);

/* Functions that give a uint64_t give the length of what they have written, or how many they have found, or the
   word of a refusal. These tell which it is, and of a refusal its number and its line. */
#define DEVASHTOR_REFUSED(r) ((int)((uint64_t)(r) >> 63))
#define DEVASHTOR_NUMBER(r) ((unsigned)((uint64_t)(r) >> 32 & 0x7fffffff))
#define DEVASHTOR_LINE(r) ((unsigned)((uint64_t)(r) & 0xffffffff))

/* No list has more words: of a model that reaches more instances the rest is not found. */
#define DEVASHTOR_LIST 512

/* The word of an instance: equation * 65536 + its first argument * 4096 + its second * 256 + its third * 16 + its
   fourth, absent ones 0. */
#define DEVASHTOR_EQUATION(word) ((unsigned)((uint32_t)(word) >> 16))
#define DEVASHTOR_ARGUMENT(word, i) ((unsigned)((uint32_t)(word) >> (12 - 4 * (i)) & 15))

/* Finds the reached instances of the model in text[0 .. text_length), writes their words into `table`, in the order
   of finding, the start first, and gives their number; the words of `table` after them stay as they were. It does
   not solve: what is true of them devashtor_solve tells.
   On a refusal it gives 2^63 + number * 2^32 + line: what the text is refused by, 1 to 8, and `table` stays
   untouched; or 9, line 0, where more instances are reached than `table` has words, or than DEVASHTOR_LIST: then it
   holds those found first, as many as there is room. Any bytes are a text. `text` and `table` must not overlap, and
   neither may be null, also where its length is 0. */
uint64_t devashtor_find(const uint8_t *text, size_t text_length, uint32_t *table, size_t words);

/* Solves the list that devashtor_find has found: writes into `out` what devashtor_check writes for that text, if
   list[0 .. words) is just the list of its reached instances. The list is not trusted: where it is any other, of
   another length or in another order, the line of refusal 11, line 0, is written, after 1 to 8; never that of 9.
   `list` is not written. Everything else is as with devashtor_check. `out` must not overlap `text` or `list`, and
   none of them may be null, also where its length is 0. */
size_t devashtor_solve(const uint8_t *text, size_t text_length, const uint32_t *list, size_t words, uint8_t *out,
                       size_t out_length);

/* No translated text has more bytes, so a buffer of this length is never refused as too short. */
#define DEVASHTOR_TRANSLATED 4117

/* Translates the process and the formula in text[0 .. text_length) (docs/PROCESSES.md) into a model, writes its
   text into `out` and gives the number of bytes written; the bytes of `out` after them stay as they were. The
   model holds exactly when the process's start state satisfies the formula: devashtor_check tells.
   On a refusal it gives 2^63 + number * 2^32 + line and `out` stays untouched; a buffer that is shorter than the
   model's text is refusal 10. Any bytes are a text. `text` and `out` must not overlap, and neither may be null,
   also where its length is 0. */
uint64_t devashtor_translate(const uint8_t *text, size_t text_length, uint8_t *out, size_t out_length);

/* No text with a right side replaced has more bytes, so a buffer of this length is never refused as too short. */
#define DEVASHTOR_TEXT 32768

/* Writes the model in text[0 .. text_length) into `out` with the right side of one equation replaced, and gives the
   number of bytes written; the bytes of `out` after them stay as they were. Equations number from 0;
   side[0 .. side_length) are the bytes of the new right side themselves (the formula), not their digits. They are
   written in small letters; every other character stays, capitals and notes included.
   On a refusal it gives 2^63 + number * 2^32 + line and `out` stays untouched: first what the old text is refused by,
   1 to 8; then 19, line 0, where it has no such equation; then what the new text is refused by, 1 to 8; last 10,
   line 0, where `out` is shorter than the new text. Any bytes are a text and a right side, any number an equation's.
   `out` must not overlap `text` or `side`, and none of them may be null, also where its length is 0. */
uint64_t devashtor_replace(const uint8_t *text, size_t text_length, size_t equation, const uint8_t *side,
                           size_t side_length, uint8_t *out, size_t out_length);

#ifdef __cplusplus
}
#endif

#endif
