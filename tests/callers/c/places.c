#include "places.h"

#include <stdio.h>

static const char small[] = "0123456789abcdef", capital[] = "0123456789ABCDEF";

/* 16 for what is no digit. */
static unsigned worth(unsigned byte)
{
    unsigned w = 0;
    while (w < 16 && byte != (unsigned)small[w] && byte != (unsigned)capital[w])
        w++;
    return w;
}

size_t places_text(const struct place *p, unsigned byte, uint8_t *text)
{
    size_t n = 0;
    for (; p->text[n] != 0; n++)
        text[n] = (uint8_t)(p->text[n] == '?' ? byte : (unsigned)p->text[n]);
    return n;
}

size_t places_due(const struct place *p, unsigned byte, uint8_t *due)
{
    unsigned w = worth(byte);
    const char *from = p->right;
    size_t n = 0;
    if (byte == '\n')
        from = p->ended;
    else if (w == 16)
        return (size_t)sprintf((char *)due, "0602%04x\n", p->line);
    else if ((p->worths >> w & 1) == 0)
        from = p->wrong;
    for (; from[n] != 0; n++)
        due[n] = (uint8_t)(from[n] == '?' ? (unsigned)small[w] : from[n] == '!' ? byte : (unsigned)from[n]);
    return n;
}
