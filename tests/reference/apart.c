#include "apart.h"

#include "reference.h"

#include <string.h>

uint64_t plain_find(const uint8_t *text, size_t n, uint32_t *table, size_t words)
{
    reference_find(text, n, words < APART_LIST ? (unsigned)words : APART_LIST);
    for (unsigned j = 0; j < reference_reached; j++)
        table[j] = reference_word(j);
    if (reference_number != 0)
        return ((uint64_t)1 << 63) + ((uint64_t)reference_number << 32) + reference_line;
    return reference_reached;
}

/* Whether this is the whole list of the last text found in, which has one. */
static bool is_its_list(const uint32_t *list, size_t words)
{
    if (reference_number != 0 || words != reference_reached)
        return false;
    for (unsigned j = 0; j < words; j++)
        if (list[j] != reference_word(j))
            return false;
    return true;
}

size_t plain_solve(const uint8_t *text, size_t n, const uint32_t *list, size_t words, uint8_t *out, size_t m)
{
    static const char another[] = "060b0000\n";
    bool is_read;
    if (m < REFERENCE_MOST)
        return 0;
    reference_find(text, n, APART_LIST);
    is_read = reference_number == 0 || reference_number == 9;
    if (is_read && !is_its_list(list, words)) {
        memcpy(out, another, strlen(another));
        return strlen(another);
    }
    return reference_print(text, n, out);
}
