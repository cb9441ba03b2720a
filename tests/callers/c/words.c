#include "words.h"

#include "devashtor.h"
#include "texts.h"

#include <stdio.h>
#include <string.h>

void words_fill(uint8_t *one, uint8_t *other, size_t n)
{
    uint8_t salt = (uint8_t)texts_below(256);
    for (size_t i = 0; i < n; i++)
        one[i] = other[i] = (uint8_t)(i * 7 + (i >> 8) + salt);
}

static void print_word(const char *caller, const char *whose, uint64_t word)
{
    if (DEVASHTOR_REFUSED(word))
        printf("%s: %s refuses by %u, line %u\n", caller, whose, DEVASHTOR_NUMBER(word), DEVASHTOR_LINE(word));
    else
        printf("%s: %s gives %llu\n", caller, whose, (unsigned long long)word);
}

bool words_same(const char *caller, uint64_t word, uint64_t due)
{
    if (word == due)
        return true;
    print_word(caller, "the archive", word);
    print_word(caller, "the plain one", due);
    return false;
}

size_t words_shown(uint64_t word, const uint8_t *out, uint8_t *into)
{
    if (DEVASHTOR_REFUSED(word))
        return (size_t)sprintf((char *)into, "06%02x%04x\n", DEVASHTOR_NUMBER(word), DEVASHTOR_LINE(word));
    memcpy(into, out, word);
    return word;
}
