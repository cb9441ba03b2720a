/* The plain translator as a program: a process and a formula on standard input, the model on standard output,
   or the line of the refusal. With the word `meaning`: `holds`, `fails` or `unknown`, found without equations. */
#include "translate.h"

#include <stdio.h>
#include <string.h>

int main(int arguments, char **argument)
{
    static uint8_t text[40000], out[TRANSLATE_MOST];
    size_t length = fread(text, 1, sizeof text, stdin);
    uint64_t word;
    if (arguments > 1 && strcmp(argument[1], "meaning") == 0) {
        int value = plain_satisfies(text, length);
        puts(value < 0 ? "unknown" : value ? "holds" : "fails");
        return 0;
    }
    word = plain_translate(text, length, out, sizeof out);
    if (word >> 63)
        printf("06%02x%04x\n", (unsigned)(word >> 32 & 0xff), (unsigned)(word & 0xffff));
    else
        fwrite(out, 1, word, stdout);
    return 0;
}
