/* The texts that the benchmark measures. */
#ifndef FAMILIES_H
#define FAMILIES_H

/* A model is checked, a process translated; of a translated one the model is checked that it gives. A long
   one is a model that takes many seconds. Of a replaced one the first line is none of the text: three digits
   for an equation, then the digits of its new right side. */
enum kind { MODEL, TRANSLATED, LONG, PROCESS, REPLACED };

/* `due`: how many instances are reached; for a process or a replaced one, the number of its refusal. */
struct family {
    enum kind kind;
    const char *name, *what;
    unsigned due;
    const char *text;
    void (*make)(void); /* makes the text, where it is not there yet */
};

extern const struct family families[];
extern const unsigned families_count;

/* The family's text, until the next one is asked for. */
const char *family_text(const struct family *f);

/* The family of this name, NULL where there is none. */
const struct family *family_named(const char *name);

#endif
