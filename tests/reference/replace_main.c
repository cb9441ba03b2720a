/* The plain writer as a program: plain-replace E SIDE, a model on standard input; on standard output the model with
   the right side of equation E replaced, or the line of the refusal. Where these are not two words, one of decimal
   digits and one of hexadecimal digits, two a byte, it prints nothing. */
#include "replace.h"

#include <stdbool.h>
#include <stdio.h>
#include <stdlib.h>
#include <string.h>

static bool made_of(const char *word, const char *characters)
{
    return strspn(word, characters) == strlen(word);
}

/* A number that is greater than any is none of an equation, like the greatest. */
static size_t number_of(const char *digits)
{
    size_t number = 0;
    for (; *digits != 0; digits++) {
        size_t digit = (size_t)(*digits - '0');
        number = number > (SIZE_MAX - digit) / 10 ? SIZE_MAX : 10 * number + digit;
    }
    return number;
}

static void bytes_of(const char *digits, uint8_t *bytes)
{
    for (; *digits != 0; digits += 2) {
        char two[] = {digits[0], digits[1], 0};
        *bytes++ = (uint8_t)strtoul(two, NULL, 16);
    }
}

int main(int arguments, char **argument)
{
    static uint8_t text[40000], out[REPLACE_MOST];
    size_t length = fread(text, 1, sizeof text, stdin), digits;
    uint8_t *side;
    uint64_t word;
    if (arguments != 3 || *argument[1] == 0 || !made_of(argument[1], "0123456789") ||
        !made_of(argument[2], "0123456789abcdefABCDEF") || (digits = strlen(argument[2])) % 2 == 1)
        return 0;
    side = malloc(digits / 2 + 1);
    if (side == NULL) {
        perror("plain-replace");
        return 2;
    }
    bytes_of(argument[2], side);
    word = plain_replace(text, length, number_of(argument[1]), side, digits / 2, out, sizeof out);
    if (word >> 63)
        printf("06%02x%04x\n", (unsigned)(word >> 32 & 0xff), (unsigned)(word & 0xffff));
    else
        fwrite(out, 1, word, stdout);
    return 0;
}
