/* The plain checker as a program: a text on standard input, the printed lines on standard output. Status 1:
   nested fixed points, where they do not take too long, give other values. */
#include "reference.h"

#include <stdio.h>

int main(void)
{
    static uint8_t text[40000], out[REFERENCE_MOST];
    size_t length = fread(text, 1, sizeof text, stdin);
    fwrite(out, 1, reference_print(text, length, out), stdout);
    if (reference_nested_agrees(10000000) == 0) {
        fprintf(stderr, "the plain checker: rounds and nested fixed points differ\n");
        return 1;
    }
    return 0;
}
