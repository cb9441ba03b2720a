/* Checks and translates the texts that take the most stack, finds their lists and solves them apart, and replaces
   right sides in them, in a thread that has just DEVASHTOR_STACK bytes of it, or DEVASHTOR_TRANSLATE_STACK, and says
   how much was used: bodies, conditions, terms and formulas as deep as a frame of 256 bytes allows, that are read and
   that are refused. What each must answer is known from how it is made: the constants around its one instance, or
   around its one constant, change nothing, and a translation keeps them; a body stands in the old text, or is the new
   right side, or both. The list is the one in the answer. The first wrong answer, or more stack than stated, ends
   it. */
#define _DEFAULT_SOURCE
#include "devashtor.h"

#include <pthread.h>
#include <stdio.h>
#include <stdlib.h>
#include <string.h>
#include <sys/mman.h>

enum { MOST = 253, PAINT = 0xa7 }; /* a body's bytes: the frame's less 01, sign and count of parameters */

static const char fails[] = "040000\n050000010000\n", holds[] = "040001\n050100010001\n", refused[] = "06060001\n";

static char text[40000], body[600];
static uint8_t answer[DEVASHTOR_TEXT], side[300];
static uint32_t list[DEVASHTOR_LIST], table[DEVASHTOR_LIST]; /* what is lent to be solved, and what is found */
static size_t length, written, equation, side_length, list_length;

/* What a thread does, the stack that it has for it, and the most that was used so far. */
struct job {
    void *(*work)(void *);
    size_t stack, most;
};

static void *check(void *nothing)
{
    written = devashtor_check((const uint8_t *)text, length, answer, sizeof answer);
    return nothing;
}

static void *solve(void *nothing)
{
    written = devashtor_solve((const uint8_t *)text, length, list, list_length, answer, sizeof answer);
    return nothing;
}

static uint64_t word;

static void *find(void *nothing)
{
    word = devashtor_find((const uint8_t *)text, length, table, DEVASHTOR_LIST);
    return nothing;
}

static void *translate(void *nothing)
{
    word = devashtor_translate((const uint8_t *)text, length, answer, sizeof answer);
    return nothing;
}

static void *replace(void *nothing)
{
    word = devashtor_replace((const uint8_t *)text, length, equation, side, side_length, answer, sizeof answer);
    return nothing;
}

static struct job checking = {check, DEVASHTOR_STACK, 0}, finding = {find, DEVASHTOR_STACK, 0},
                  solving = {solve, DEVASHTOR_STACK, 0}, replacing = {replace, DEVASHTOR_STACK, 0},
                  translating = {translate, DEVASHTOR_TRANSLATE_STACK, 0};

static void trouble(const char *what)
{
    perror(what);
    exit(2);
}

/* One word in a line, in hexadecimal. */
static size_t put_words(const uint32_t *words, size_t count, char *into)
{
    size_t n = 0;
    for (size_t i = 0; i < count; i++)
        n += (size_t)sprintf(into + n, "%08x\n", (unsigned)words[i]);
    return n;
}

/* What a word tells, as the lines that are compared: the text written, the list found, or the refusal. */
static void show_word(const struct job *job)
{
    if (DEVASHTOR_REFUSED(word))
        written = (size_t)sprintf((char *)answer, "06%02x%04x\n", DEVASHTOR_NUMBER(word), DEVASHTOR_LINE(word));
    else if (job == &finding && word <= DEVASHTOR_LIST)
        written = put_words(table, (size_t)word, (char *)answer);
    else
        written = (size_t)word;
}

/* The text in a thread with exactly so much stack, with memory below it that may not be touched. */
static void run(struct job *job, const char *name, const char *expected)
{
    static uint8_t *area;
    size_t fence = 64 * 1024, stack = job->stack, used = stack;
    pthread_attr_t attributes;
    pthread_t thread;
    if (area == NULL) {
        area = mmap(NULL, fence + DEVASHTOR_STACK, PROT_READ | PROT_WRITE, MAP_PRIVATE | MAP_ANONYMOUS, -1, 0);
        if (area == MAP_FAILED || mprotect(area, fence, PROT_NONE) != 0)
            trouble("memory");
    }
    memset(area + fence, PAINT, stack);
    memset(answer, 0, sizeof answer);
    memset(table, 0xff, sizeof table);
    if (pthread_attr_init(&attributes) != 0 || pthread_attr_setstack(&attributes, area + fence, stack) != 0 ||
        pthread_create(&thread, &attributes, job->work, NULL) != 0 || pthread_join(thread, NULL) != 0)
        trouble("thread");
    while (used > 0 && area[fence + stack - used] == PAINT)
        used--;
    if (used > job->most)
        job->most = used;
    if (job != &checking && job != &solving)
        show_word(job);
    if (written != strlen(expected) || memcmp(answer, expected, written) != 0) {
        printf("stack.c: a wrong answer for %s:\n%.*s", name, (int)written, answer);
        exit(1);
    }
    printf("stack.c: %6zu bytes, %s\n", used, name);
}

/* ---- models ----------------------------------------------------------------------------------------- */

/* One equation with this body, least, and the start. */
static void put_model(const char *its_body)
{
    length = (size_t)sprintf(text, "010000%s\n0200\n", its_body);
}

static unsigned byte_of(const char *digits)
{
    return (unsigned)strtoul((const char[]){digits[0], digits[1], 0}, NULL, 16);
}

/* The bytes of these digits are the new right side of this equation. */
static void put_side(size_t of, const char *digits)
{
    equation = of;
    for (side_length = 0; *digits != 0; digits += 2)
        side[side_length++] = (uint8_t)byte_of(digits);
}

/* The model with the old body, and the new one for it: the model with the new one comes out, or a refusal. */
static void replaced(const char *name, const char *how, const char *old, const char *new, const char *refusal)
{
    char whole[300], expected[700];
    put_model(old);
    put_side(0, new);
    sprintf(whole, "%s, %s", name, how);
    sprintf(expected, "010000%s\n0200\n", new);
    run(&replacing, whole, refusal != NULL ? refusal : expected);
}

/* The list that stands in an answer: in a line 04 the equation, its arguments, and the value. None in a refusal. */
static void put_list(const char *expected)
{
    list_length = 0;
    for (const char *line = expected; strncmp(line, "04", 2) == 0; line = strchr(line, '\n') + 1) {
        unsigned shift = 16;
        uint32_t its_word = byte_of(line + 2) << shift;
        for (const char *argument = line + 4; argument[2] != '\n'; argument += 2)
            its_word |= byte_of(argument) << (shift -= 4);
        list[list_length++] = its_word;
    }
}

/* The text is checked; its list is found; and the list is solved. */
static void checked(const char *name, const char *expected)
{
    static char found[9 * DEVASHTOR_LIST + 1];
    char whole[300];
    run(&checking, name, expected);
    put_list(expected);
    put_words(list, list_length, found);
    sprintf(whole, "%s, found", name);
    run(&finding, whole, list_length == 0 ? expected : found);
    sprintf(whole, "%s, solved", name);
    run(&solving, whole, expected);
}

static void model(const char *name, const char *expected)
{
    const char *refusal = strcmp(expected, refused) == 0 ? refused : NULL;
    put_model(body);
    checked(name, expected);
    replaced(name, "replaced", body, "11", refusal);
    replaced(name, "as the new right side", "11", body, refusal);
    replaced(name, "replaced by itself", body, body, refusal);
}

static void add(const char *bytes)
{
    strcat(body, bytes);
}

static int spare; /* bytes that a body is to leave free */

static int left(const char *leaf) /* how many bytes a body still has room for, with this leaf in it */
{
    return MOST - spare - (int)(strlen(body) + strlen(leaf)) / 2;
}

/* Joins as deep as there is room, around the leaf: `and` and, where they change, `or` in turn; the other
   operand is the constant that each drops, after the inner join (first) or before it. */
static void joins(const char *leaf, int change, int first)
{
    int n = left(leaf) / 2;
    for (int i = 0; i < n; i++) {
        add(change && i % 2 ? "13" : "12");
        if (!first)
            add(change && i % 2 ? "10" : "11");
    }
    add(leaf);
    for (int i = n - 1; first && i >= 0; i--)
        add(change && i % 2 ? "10" : "11");
}

static void deep(const char *name, const char *around, const char *leaf, const char *expected)
{
    for (int form = 0; form < 4; form++) {
        char whole[200];
        strcpy(body, around);
        joins(leaf, form % 2, form / 2);
        sprintf(whole, "%s, joins that %s, %s operands", name, form % 2 ? "change" : "stay", form / 2 ? "first" : "last");
        model(whole, expected);
    }
}

static void terms(const char *name, const char *before, const char *after, int first, const char *expected)
{
    int n;
    strcpy(body, before);
    n = (left(after) - 2) / 4;
    for (int i = 0; i < n; i++)
        add(first ? "2210" : "22102000");
    add("2000");
    for (int i = 0; first && i < n; i++)
        add("2000");
    add(after);
    model(name, expected);
}

/* The lines of a file. */
static size_t load(const char *path, char *into, size_t most)
{
    FILE *file = fopen(path, "r");
    size_t got;
    if (file == NULL)
        trouble(path);
    got = fread(into, 1, most - 1, file);
    into[got] = 0;
    fclose(file);
    return got;
}

/* Eight equations in a circle, each the next in joins that change; the first one is least. */
static void eight(void)
{
    length = 0;
    for (int e = 0; e < 8; e++) {
        char next[8];
        sprintf(next, "1a0%d00", (e + 1) % 8);
        body[0] = 0;
        joins(next, 1, 1);
        length += (size_t)sprintf(text + length, "010%d00%s\n", e % 2, body);
    }
    length += (size_t)sprintf(text + length, "0200\n");
    checked("eight equations", "040000\n040100\n040200\n040300\n040400\n040500\n040600\n040700\n050000080000\n");
}

/* Their last body put in place of itself; then the same in the longest text, which 9,553 notes fill up. */
static void eight_replaced(void)
{
    put_side(7, body);
    run(&replacing, "eight equations, the last replaced by itself", text);
    while (length < DEVASHTOR_TEXT)
        length += (size_t)sprintf(text + length, "03\n");
    run(&replacing, "eight equations in the longest text, the last replaced by itself", text);
}

/* The model that spends the budget of the rounds, so that it is solved equation within equation, with joins as
   deep as there is room around each right side: they drop the constants, so the answer is the same. Its equations
   have one parameter. */
static void spent(void)
{
    static char lines[4000], expected[4000];
    load("tests/reference/spent.hex", lines, sizeof lines);
    load("tests/reference/spent.answer", expected, sizeof expected);
    length = 0;
    for (char *line = strtok(lines, "\n"); line != NULL; line = strtok(NULL, "\n")) {
        int head = strncmp(line, "01", 2) == 0 ? 8 : (int)strlen(line);
        body[0] = 0;
        spare = 1;
        if (head == 8)
            joins(line + head, 0, 0);
        length += (size_t)sprintf(text + length, "%.*s%s\n", head, line, body);
    }
    spare = 0;
    checked("eight equations, the budget spent", expected);
}

/* ---- processes and formulas ------------------------------------------------------------------------ */

/* A text that has the body in it, and a model that must come out and has the body in it too. */
static void process(const char *name, const char *before, const char *after, const char *model_before, const char *model_after)
{
    char expected[1200];
    length = (size_t)sprintf(text, "%s%s%s", before, body, after);
    sprintf(expected, "%s%s%s", model_before, body, model_after);
    run(&translating, name, expected);
}

static void refused_process(const char *name, const char *before, const char *after, const char *expected)
{
    length = (size_t)sprintf(text, "%s%s%s", before, body, after);
    run(&translating, name, expected);
}

static void times(int n, const char *bytes)
{
    for (body[0] = 0; n > 0; n--)
        add(bytes);
}

static void deep_joins(int form)
{
    body[0] = 0;
    spare = 0;
    joins("11", form % 2, form / 2);
    process("a formula of joins", "0900\n0833", "\n", "010100", "\n0200\n");
    length = (size_t)sprintf(text, "0900\n0700%s00\n0811\n", body);
    run(&translating, "a condition of joins, not used", "01010011\n0200\n");
    body[0] = 0;
    spare = 2;
    joins("11", form % 2, form / 2);
    process("a condition of joins, in a diamond", "0900\n0700", "00\n0833311111\n", "01010012", "11\n0200\n");
    spare = 0;
}

static void processes(void)
{
    char expected[700];
    for (int form = 0; form < 4; form++)
        deep_joins(form);
    times(61, "2210");
    for (int i = 0; i < 62; i++)
        add("2000");
    process("a term, in a box", "09011000\n07001100", "\n083330113400\n", "0101011013101a0001", "\n020000\n");
    times(61, "22102000");
    add("2000");
    process("a term, last operands, in a box", "09011000\n07001100", "\n083330113400\n", "0101011013101a0001", "\n020000\n");

    times(119, "3011");
    length = (size_t)sprintf(text, "09041010101000010203\n070011002101210221032100\n0832%s3400\n", body);
    times(119, "1310"); /* what each box over a step that may always be done becomes */
    sprintf(expected, "01000410101010%s1a00042103210021012102\n020000010203\n", body); /* 119 places further, of four */
    run(&translating, "119 boxes, variables that go back through all", expected);

    times(123, "3011");
    length = (size_t)sprintf(text, "09011001\n070011002100\n0832%s3400\n", body);
    times(123, "1310");
    sprintf(expected, "01000110%s1a00012100\n020001\n", body);
    run(&translating, "123 boxes, a variable that goes back through all", expected);

    times(124, "3011");
    refused_process("124 boxes, terms that double", "09011001\n07001100221021002100\n0832", "3400\n", "060f0000\n");
    refused_process("124 boxes, no formula in them", "0900\n07001100\n0832", "\n", "060e0003\n");
    times(126, "1211");
    refused_process("joins without end", "0900\n0833", "\n", "060e0002\n");
    times(253, "33");
    refused_process("253 fixed points", "0900\n08", "3400\n", "060f0000\n");
    refused_process("fixed points without end", "0900\n08", "\n", "060e0002\n");
    times(253, "12");
    refused_process("a condition without end", "0900\n0700", "\n0811\n", "060e0002\n");
    times(126, "2210");
    refused_process("a term without end", "09011000\n07001100", "\n0811\n", "060e0002\n");
}

int main(void)
{
    deep("no quantifier, an instance", "", "1a0000", fails);
    deep("no quantifier, true", "", "11", holds);
    deep("no quantifier, instances joined by both", "", "13121a00001a00001a0000", fails);
    deep("two quantifiers around, an instance", "14101410", "1a0000", fails);
    deep("four quantifiers around, true", "1510151015101510", "11", holds);
    deep("four quantifiers inside, an instance", "", "15021502150215021a0000", fails);
    deep("four quantifiers inside, true", "", "141014101410141011", holds);
    deep("four quantifiers inside, instances joined by both", "", "150215021502150213121a00001a00001a0000", fails);
    strcpy(body, "1410141014101410");
    joins("1a0000", 0, 1);
    model("four quantifiers around, an instance", fails);
    terms("terms in terms, first", "16", "2000", 1, holds);
    terms("terms in terms, last", "16", "2000", 0, holds);
    terms("terms in terms under quantifiers", "141015101410151016", "2000", 1, holds);

    body[0] = 0;
    for (int i = 0; i < MOST; i++)
        add("12");
    model("`and` without end", refused);
    body[0] = 0;
    for (int i = 0; i < MOST; i++)
        add(i % 2 ? "13" : "12");
    model("joins that change, without end", refused);
    strcpy(body, "16");
    for (int i = 0; i < MOST / 2; i++)
        add("2210");
    model("terms without end", refused);

    eight();
    eight_replaced();
    spent();
    processes();
    printf("stack.c: at most %zu of %d bytes to check, %zu of them to find, %zu to solve, %zu to replace",
           checking.most, DEVASHTOR_STACK, finding.most, solving.most, replacing.most);
    printf(", %zu of %d to translate\n", translating.most, DEVASHTOR_TRANSLATE_STACK);
    return 0;
}
