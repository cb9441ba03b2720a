/* Texts in which one character is each byte value in turn, and what is due for it by the rule of the digits
   alone: the 22 digits are 0-9, a-f and A-F, 0a ends the line, any other value is refused by 2 in its line. */
#ifndef PLACES_H
#define PLACES_H

#include <stddef.h>
#include <stdint.h>

enum { BYTE_VALUES = 256, PLACES_MOST = 200, ANY_DIGIT = 0xffff };

/* In `text` a `?` stands where the byte is put. `right` is due for the digits that are right there, bit w of
   `worths` for those worth w: in it `?` stands for the digit in small letters, `!` for the character as it was.
   `wrong` is due for the other digits, and `ended` for 0a. */
struct place {
    const char *text;
    unsigned line, worths;
    const char *right, *wrong, *ended;
};

/* The text, and what is due for it; both write at most PLACES_MOST bytes and give their number. */
size_t places_text(const struct place *p, unsigned byte, uint8_t *text);
size_t places_due(const struct place *p, unsigned byte, uint8_t *due);

#endif
