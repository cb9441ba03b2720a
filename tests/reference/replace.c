#include "replace.h"

#include "reference.h"

#include <stdio.h>
#include <stdlib.h>
#include <string.h>

static uint64_t refused(unsigned number, unsigned line)
{
    return ((uint64_t)1 << 63) + ((uint64_t)number << 32) + line;
}

/* The text up to the right side, the new one in small letters, and the text from where the old one ends; to be
   freed. */
static uint8_t *text_with(const uint8_t *text, size_t n, size_t place, size_t end, const uint8_t *side, size_t k)
{
    uint8_t *whole = malloc(n - (end - place) + 2 * k);
    if (whole == NULL) {
        perror("replace.c");
        exit(2);
    }
    memcpy(whole, text, place);
    for (size_t i = 0; i < k; i++) {
        whole[place + 2 * i] = (uint8_t)"0123456789abcdef"[side[i] / 16];
        whole[place + 2 * i + 1] = (uint8_t)"0123456789abcdef"[side[i] % 16];
    }
    memcpy(whole + place + 2 * k, text + end, n - end);
    return whole;
}

uint64_t plain_replace(const uint8_t *text, size_t n, size_t equation, const uint8_t *side, size_t k, uint8_t *out,
                       size_t m)
{
    size_t place, old, length;
    uint8_t *whole;
    uint64_t word;
    reference_read(text, n);
    if (reference_number != 0)
        return refused(reference_number, reference_line);
    if (!reference_side(equation, &place, &old))
        return refused(19, 0);
    whole = text_with(text, n, place, place + 2 * old, side, k);
    word = length = n - 2 * old + 2 * k;
    reference_read(whole, length);
    if (reference_number != 0)
        word = refused(reference_number, reference_line);
    else if (m < length)
        word = refused(10, 0);
    else
        memcpy(out, whole, length);
    free(whole);
    return word;
}
