/*
 * ends_check PAGE HEADER DEFINITIONS
 *
 * Holds the numbers of the help page (PAGE, docs/ENDS.md), of the C header
 * (HEADER, include/vraduceni.h), of the host's words (words.h) and of the
 * definitions (DEFINITIONS, Ends.antt) to one another, in both directions and
 * with their names. Then runs every hex block of the page through the library
 * and compares. Writes each difference; exit 0 when there is none, else 1.
 *
 * What is read:
 *   page         headings "## N name", the name in small letters
 *   header       lines "VRADUCENI_END_NAME = N" and "VRADUCENI_REFUSAL_NAME = N"
 *   definitions  lines "end_number Name = N", "stop_number Name = N" and
 *                "refusal_number Name = N", the name perhaps with arguments in
 *                parentheses
 * A name is compared as small words: AssignTag, ASSIGN_TAG, "assign tag".
 *
 * Lines of a hex block, "#" beginning a remark:
 *   recipe: BYTES          given again, it goes on
 *   policy: two-tag, house or BYTES
 *   memory: BYTES
 *   room: N                bytes lent for records (320 if not given)
 *   report: N              bytes lent for the report (12 if not given)
 *   budget: N              (10000 if not given)
 *   house-policy: N        instead of all these: ask for the house policy in N bytes
 *   gives: END PLACE STEPS RECORDS
 */
#include <ctype.h>
#include <stdarg.h>
#include <stdio.h>
#include <stdlib.h>
#include <string.h>

#include "vraduceni.h"
#include "words.h"

static unsigned failures;

static void fault(const char *format, ...)
{
    va_list more;
    failures++;
    fputs("ends_check: ", stdout);
    va_start(more, format);
    vprintf(format, more);
    va_end(more);
    putchar('\n');
}

static void give_up(const char *what, const char *which)
{
    printf("ends_check: %s %s\n", what, which);
    exit(1);
}

/* ---- lines of a file */

struct lines {
    const char *name;
    char *text;
    char *next;
    unsigned number;
};

static void open_lines(struct lines *l, const char *name)
{
    FILE *f = fopen(name, "rb");
    size_t length = 0, room = 1 << 16, got;
    char *text = malloc(room);
    if (f == NULL || text == NULL) {
        give_up("cannot read", name);
    }
    while ((got = fread(text + length, 1, room - length - 1, f)) > 0) {
        length += got;
        if (room - length < 2) {
            room *= 2;
            text = realloc(text, room);
            if (text == NULL) {
                give_up("no memory for", name);
            }
        }
    }
    if (ferror(f)) {
        give_up("cannot read", name);
    }
    fclose(f);
    text[length] = '\0';
    l->name = name;
    l->text = text;
    l->next = text;
    l->number = 0;
}

/* The next line without its end, or NULL. */
static char *next_line(struct lines *l)
{
    char *line = l->next, *end;
    if (*line == '\0') {
        return NULL;
    }
    end = line + strcspn(line, "\n");
    l->next = *end == '\0' ? end : end + 1;
    *end = '\0';
    while (end > line && isspace((unsigned char)end[-1])) {
        *--end = '\0';
    }
    l->number++;
    return line;
}

static char *skip_blanks(char *at)
{
    while (*at == ' ' || *at == '\t') {
        at++;
    }
    return at;
}

/* What follows the beginning in the line, or NULL. */
static char *after(char *line, const char *beginning)
{
    size_t length = strlen(beginning);
    return strncmp(line, beginning, length) == 0 ? line + length : NULL;
}

/* A decimal number of at most nine digits; moves *at behind it. */
static int read_number(char **at, unsigned long *n)
{
    unsigned digits = 0;
    char *p = *at;
    *n = 0;
    while (isdigit((unsigned char)*p) && digits < 9) {
        *n = 10 * *n + (unsigned long)(*p - '0');
        p++;
        digits++;
    }
    if (digits == 0 || isdigit((unsigned char)*p)) {
        return 0;
    }
    *at = p;
    return 1;
}

/* ---- lists of numbers with names */

enum { ANY, END, REFUSAL };     /* what a number is said to be */

struct entry {
    unsigned long number;
    int what;
    char name[48];
    unsigned examples;
};

struct list {
    const char *source;
    struct entry entries[128];
    size_t count;
};

static struct entry *find(struct list *l, unsigned long number)
{
    size_t i;
    for (i = 0; i < l->count; i++) {
        if (l->entries[i].number == number) {
            return &l->entries[i];
        }
    }
    return NULL;
}

/* The name as small words. AssignTag and ASSIGN_TAG become "assign tag". */
static void small_words(char *out, size_t room, const char *from, size_t length)
{
    size_t i, n = 0;
    for (i = 0; i < length && n + 2 < room; i++) {
        int c = (unsigned char)from[i];
        if (c == '_') {
            c = ' ';
        }
        if (isupper(c) && i > 0 && islower((unsigned char)from[i - 1])) {
            out[n++] = ' ';
        }
        out[n++] = (char)tolower(c);
    }
    out[n] = '\0';
}

static void add(struct list *l, unsigned line, unsigned long number, int what,
                const char *name, size_t length)
{
    struct entry *e;
    if (find(l, number) != NULL) {
        fault("%s:%u: number %lu stands twice", l->source, line, number);
        return;
    }
    if (l->count == sizeof l->entries / sizeof l->entries[0]) {
        give_up("too many numbers in", l->source);
    }
    if (l->count > 0 && what == ANY && l->entries[l->count - 1].number > number) {
        fault("%s:%u: number %lu is not in rising order", l->source, line, number);
    }
    e = &l->entries[l->count++];
    e->number = number;
    e->what = what;
    e->examples = 0;
    small_words(e->name, sizeof e->name, name, length);
}

static void read_header(struct list *l, const char *path)
{
    static const char *const beginnings[] = { "VRADUCENI_END_", "VRADUCENI_REFUSAL_" };
    struct lines file;
    char *line;
    l->source = path;
    open_lines(&file, path);
    while ((line = next_line(&file)) != NULL) {
        int k;
        for (k = 0; k < 2; k++) {
            unsigned long number;
            size_t length;
            char *at, *name = after(skip_blanks(line), beginnings[k]);
            if (name == NULL) {
                continue;
            }
            length = strspn(name, "ABCDEFGHIJKLMNOPQRSTUVWXYZ_");
            at = skip_blanks(name + length);
            if (length == 0 || *at != '=') {
                fault("%s:%u: not understood", path, file.number);
                continue;
            }
            at = skip_blanks(at + 1);
            if (!read_number(&at, &number)) {
                fault("%s:%u: no number", path, file.number);
                continue;
            }
            add(l, file.number, number, k == 0 ? END : REFUSAL, name, length);
        }
    }
    free(file.text);
}

static void read_definitions(struct list *l, const char *path)
{
    static const char *const beginnings[] = { "end_number ", "stop_number ", "refusal_number " };
    struct lines file;
    char *line;
    l->source = path;
    open_lines(&file, path);
    while ((line = next_line(&file)) != NULL) {
        int k;
        for (k = 0; k < 3; k++) {
            unsigned long number;
            size_t length;
            char *equals, *name = after(line, beginnings[k]);
            if (name == NULL) {
                continue;
            }
            name = skip_blanks(name);
            if (*name == '(') {
                name++;
            }
            length = strcspn(name, " )=");
            equals = strchr(name, '=');
            if (length == 0 || equals == NULL) {
                fault("%s:%u: not understood", path, file.number);
                continue;
            }
            equals = skip_blanks(equals + 1);
            /* "end_number (Stopped h s) = stop_number h" sends on to another list */
            if (after(equals, "stop_number ") != NULL || after(equals, "refusal_number ") != NULL) {
                continue;
            }
            if (!read_number(&equals, &number)) {
                fault("%s:%u: no number", path, file.number);
                continue;
            }
            add(l, file.number, number, k == 2 ? REFUSAL : END, name, length);
        }
    }
    free(file.text);
}

/* Each number of one stands in the other, under the same name. */
static void compare(struct list *one, struct list *other)
{
    size_t i;
    for (i = 0; i < one->count; i++) {
        struct entry *e = &one->entries[i], *f = find(other, e->number);
        if (f == NULL) {
            fault("number %lu (%s) of %s is missing in %s", e->number, e->name, one->source, other->source);
        } else if (strcmp(e->name, f->name) != 0) {
            fault("number %lu is \"%s\" in %s and \"%s\" in %s", e->number, e->name, one->source,
                  f->name, other->source);
        } else if (e->what != ANY && f->what != ANY && e->what != f->what) {
            fault("number %lu is an end in one of %s, %s and a refusal in the other", e->number,
                  one->source, other->source);
        }
    }
    for (i = 0; i < other->count; i++) {
        struct entry *f = &other->entries[i];
        if (find(one, f->number) == NULL) {
            fault("number %lu (%s) of %s is missing in %s", f->number, f->name, other->source, one->source);
        }
    }
}

/* words.h is compiled with the header, so it has values and no names. */
static void compare_words(struct list *l)
{
    size_t i, k;
    for (i = 0; i < l->count; i++) {
        const char *words = words_of((uint32_t)l->entries[i].number);
        if (words == NULL || *words == '\0') {
            fault("number %lu has no words in words.h", l->entries[i].number);
        }
    }
    for (i = 0; i < NUMBER_WORDS_COUNT; i++) {
        if (find(l, number_words[i].number) == NULL) {
            fault("number %lu of words.h is missing in %s", (unsigned long)number_words[i].number, l->source);
        }
        for (k = 0; k < i; k++) {
            if (number_words[k].number == number_words[i].number
                || strcmp(number_words[k].words, number_words[i].words) == 0) {
                fault("words.h has number %lu or its words twice", (unsigned long)number_words[i].number);
            }
        }
    }
}

/* ---- examples */

enum { GUARD = 16, GUARD_BYTE = 0xA5, OLD_BYTE = 0xC3 };

struct bytes {
    uint8_t *at;
    size_t length, room;
};

static void grow(struct bytes *b, size_t length)
{
    if (length > b->room) {
        uint8_t *at = realloc(b->at, length + 64);
        if (at == NULL) {
            give_up("no memory for", "an example");
        }
        b->at = at;
        b->room = length + 64;
    }
}

static void append(struct bytes *b, uint8_t byte)
{
    grow(b, b->length + 1);
    b->at[b->length++] = byte;
}

static void fill(struct bytes *b, size_t length)
{
    for (b->length = 0; b->length < length; ) {
        append(b, OLD_BYTE);
    }
}

/* The bytes with a guard behind them; an empty one is lent as NULL. */
static uint8_t *lend(struct bytes *b)
{
    grow(b, b->length + GUARD);
    memset(b->at + b->length, GUARD_BYTE, GUARD);
    return b->length == 0 ? NULL : b->at;
}

static int guarded(const struct bytes *b)
{
    size_t i;
    for (i = 0; i < GUARD; i++) {
        if (b->at[b->length + i] != GUARD_BYTE) {
            return 0;
        }
    }
    return 1;
}

static int all_old(const struct bytes *b, size_t from)
{
    size_t i;
    for (i = from; i < b->length; i++) {
        if (b->at[i] != OLD_BYTE) {
            return 0;
        }
    }
    return 1;
}

static int same(const struct bytes *a, const struct bytes *b)
{
    return a->length == b->length && (a->length == 0 || memcmp(a->at, b->at, a->length) == 0);
}

static int read_hex(struct bytes *b, char *at)
{
    static const char digits[] = "0123456789abcdef";
    for (at = skip_blanks(at); *at != '\0'; at = skip_blanks(at)) {
        const char *high, *low;
        if (!isxdigit((unsigned char)at[0]) || !isxdigit((unsigned char)at[1])
            || (at[2] != ' ' && at[2] != '\0')) {
            return 0;
        }
        high = strchr(digits, tolower((unsigned char)at[0]));
        low = strchr(digits, tolower((unsigned char)at[1]));
        append(b, (uint8_t)(16 * (high - digits) + (low - digits)));
        at += 2;
    }
    return 1;
}

static const uint8_t two_tag[] = {
    0x52, 0x4A, 0x50, 0x01, 0x00, 0x00, 0x02, 0x02, 0x00, 0x01, 0x01, 0x01, 0x00, 0x01
};

static int read_policy(struct bytes *b, const char *word, char *at)
{
    size_t i;
    b->length = 0;
    if (strcmp(word, "two-tag") == 0) {
        for (i = 0; i < sizeof two_tag; i++) {
            append(b, two_tag[i]);
        }
        return 1;
    }
    if (strcmp(word, "house") == 0) {
        fill(b, VRADUCENI_HOUSE_POLICY_LENGTH);
        return vraduceni_house_policy(b->at, b->length) == VRADUCENI_END_DONE;
    }
    return read_hex(b, at);
}

static unsigned long get(const uint8_t *at, unsigned count)
{
    return count == 0 ? 0 : at[0] + 256 * get(at + 1, count - 1);
}

struct example {
    unsigned line;
    struct bytes recipe, policy, memory;
    unsigned long room, report, budget, house;
    unsigned long gives[4];
    int has_recipe, has_policy, asks_house, has_gives, broken;
};

static void begin_example(struct example *x, unsigned line)
{
    memset(x, 0, sizeof *x);
    x->line = line;
    x->room = 320;
    x->report = VRADUCENI_REPORT_LENGTH;
    x->budget = VRADUCENI_HOUSE_BUDGET;
}

static int read_last_number(char *at, unsigned long *n)
{
    at = skip_blanks(at);
    return read_number(&at, n) && *skip_blanks(at) == '\0';
}

static void read_example_line(struct example *x, const char *page, unsigned number, char *line)
{
    char *at;
    int ok = 1, k;
    line[strcspn(line, "#")] = '\0';
    at = line + strlen(line);
    while (at > line && isspace((unsigned char)at[-1])) {
        *--at = '\0';
    }
    if (*line == '\0') {
        return;
    }
    if ((at = after(line, "recipe:")) != NULL) {
        x->has_recipe = 1;
        ok = read_hex(&x->recipe, at);
    } else if ((at = after(line, "policy:")) != NULL) {
        ok = !x->has_policy && read_policy(&x->policy, skip_blanks(at), at);
        x->has_policy = 1;
    } else if ((at = after(line, "memory:")) != NULL) {
        ok = read_hex(&x->memory, at);
    } else if ((at = after(line, "room:")) != NULL) {
        ok = read_last_number(at, &x->room) && x->room <= 65536;
    } else if ((at = after(line, "report:")) != NULL) {
        ok = read_last_number(at, &x->report) && x->report <= 65536;
    } else if ((at = after(line, "budget:")) != NULL) {
        ok = read_last_number(at, &x->budget);
    } else if ((at = after(line, "house-policy:")) != NULL) {
        x->asks_house = 1;
        ok = read_last_number(at, &x->house) && x->house <= 65536;
    } else if ((at = after(line, "gives:")) != NULL) {
        ok = !x->has_gives;
        x->has_gives = 1;
        for (k = 0; k < 4; k++) {
            at = skip_blanks(at);
            ok = ok && read_number(&at, &x->gives[k]);
        }
        ok = ok && *skip_blanks(at) == '\0';
    } else {
        ok = 0;
    }
    if (!ok) {
        fault("%s:%u: not understood: %s", page, number, line);
        x->broken = 1;
    }
}

/* The house policy alone: the number, and what stays of the buffer. */
static void run_house(struct example *x, const char *page)
{
    struct bytes out = { NULL, 0, 0 };
    unsigned long number;
    fill(&out, x->house);
    number = vraduceni_house_policy(lend(&out), out.length);
    if (number != x->gives[0] || x->gives[1] + x->gives[2] + x->gives[3] != 0) {
        fault("%s:%u: the house policy in %lu bytes gives %lu 0 0 0", page, x->line, x->house, number);
    }
    if (!guarded(&out)
        || !all_old(&out, number == VRADUCENI_END_DONE ? VRADUCENI_HOUSE_POLICY_LENGTH : 0)) {
        fault("%s:%u: bytes beyond the house policy were changed", page, x->line);
    }
    free(out.at);
}

static void run_judge(struct example *x, const char *page)
{
    struct bytes recipe = { NULL, 0, 0 }, policy = recipe, memory = recipe;
    struct bytes records = recipe, report = recipe;
    unsigned long number, told[4] = { 0, 0, 0, 0 };
    size_t i;
    for (i = 0; i < x->recipe.length; i++) {
        append(&recipe, x->recipe.at[i]);
    }
    for (i = 0; i < x->policy.length; i++) {
        append(&policy, x->policy.at[i]);
    }
    for (i = 0; i < x->memory.length; i++) {
        append(&memory, x->memory.at[i]);
    }
    fill(&records, x->room);
    fill(&report, x->report);
    number = vraduceni_judge(lend(&recipe), recipe.length, lend(&policy), policy.length,
                             lend(&memory), memory.length, lend(&records), records.length,
                             lend(&report), report.length, (uint32_t)x->budget);
    told[0] = number;
    if (number != VRADUCENI_REFUSAL_REPORT_ROOM && report.length >= VRADUCENI_REPORT_LENGTH) {
        told[0] = get(report.at + VRADUCENI_REPORT_END, 2);
        told[1] = get(report.at + VRADUCENI_REPORT_PLACE, 2);
        told[2] = get(report.at + VRADUCENI_REPORT_STEPS, 4);
        told[3] = get(report.at + VRADUCENI_REPORT_RECORDS, 4);
    }
    if (told[0] != number) {
        fault("%s:%u: %lu is returned and %lu reported", page, x->line, number, told[0]);
    }
    if (memcmp(told, x->gives, sizeof told) != 0) {
        fault("%s:%u: the page says %lu %lu %lu %lu, the library %lu %lu %lu %lu", page, x->line,
              x->gives[0], x->gives[1], x->gives[2], x->gives[3], told[0], told[1], told[2], told[3]);
    }
    if (!same(&recipe, &x->recipe) || !same(&policy, &x->policy)) {
        fault("%s:%u: the recipe or the policy was changed", page, x->line);
    }
    if (number >= VRADUCENI_REFUSAL_RECIPE_LENGTH && !same(&memory, &x->memory)) {
        fault("%s:%u: a refusal changed the memory", page, x->line);
    }
    if (told[3] > records.length / VRADUCENI_RECORD_LENGTH
        || !all_old(&records, VRADUCENI_RECORD_LENGTH * told[3])) {
        fault("%s:%u: bytes after the records were changed", page, x->line);
    }
    if (!all_old(&report, number == VRADUCENI_REFUSAL_REPORT_ROOM ? 0 : VRADUCENI_REPORT_LENGTH)) {
        fault("%s:%u: bytes after the report were changed", page, x->line);
    }
    if (!guarded(&recipe) || !guarded(&policy) || !guarded(&memory) || !guarded(&records)
        || !guarded(&report)) {
        fault("%s:%u: bytes beyond a buffer were changed", page, x->line);
    }
    free(recipe.at);
    free(policy.at);
    free(memory.at);
    free(records.at);
    free(report.at);
}

/* Runs the example; section is the number's entry it stands under, or NULL. */
static void end_example(struct example *x, const char *page, struct entry *section)
{
    if (!x->has_gives || (x->asks_house ? x->has_recipe || x->has_policy : !x->has_policy)) {
        fault("%s:%u: the example lacks a line, or has one too many", page, x->line);
    } else if (!x->broken) {
        if (x->asks_house) {
            run_house(x, page);
        } else {
            run_judge(x, page);
        }
        if (section != NULL && x->gives[0] != section->number) {
            fault("%s:%u: an example of %lu stands under %lu", page, x->line, x->gives[0], section->number);
        }
    }
    if (section != NULL) {
        section->examples++;
    }
    free(x->recipe.at);
    free(x->policy.at);
    free(x->memory.at);
}

/* ---- the page */

static unsigned read_page(struct list *l, const char *path)
{
    struct lines file;
    struct entry *section = NULL;
    struct example x;
    unsigned examples = 0;
    int fence = 0;              /* 0 outside, 1 in a hex block, 2 in another */
    char *line;
    l->source = path;
    open_lines(&file, path);
    while ((line = next_line(&file)) != NULL) {
        char *at;
        if (fence == 0 && strcmp(line, "```hex") == 0) {
            fence = 1;
            begin_example(&x, file.number);
        } else if (fence == 0 && after(line, "```") != NULL) {
            fence = 2;
        } else if (fence != 0 && strcmp(line, "```") == 0) {
            if (fence == 1) {
                end_example(&x, path, section);
                examples++;
            }
            fence = 0;
        } else if (fence == 1) {
            read_example_line(&x, path, file.number, line);
        } else if (fence == 0 && (at = after(line, "## ")) != NULL) {
            unsigned long number;
            section = NULL;
            if (read_number(&at, &number)) {
                at = skip_blanks(at);
                add(l, file.number, number, ANY, at, strlen(at));
                section = find(l, number);
            }
        }
    }
    if (fence != 0) {
        fault("%s: a block is not closed", path);
        if (fence == 1) {
            end_example(&x, path, section);
        }
    }
    free(file.text);
    return examples;
}

/* Every number is provoked, but for 8: fewer than S frames are ever held. */
static void want_examples(const struct list *page)
{
    size_t i;
    for (i = 0; i < page->count; i++) {
        const struct entry *e = &page->entries[i];
        if (e->examples == 0 && e->number != VRADUCENI_END_FRAMES) {
            fault("%s: number %lu (%s) has no example", page->source, e->number, e->name);
        }
    }
}

int main(int argc, char **argv)
{
    static struct list page, header, definitions;
    unsigned examples;
    if (argc != 4) {
        give_up("use: ends_check", "PAGE HEADER DEFINITIONS");
    }
    read_definitions(&definitions, argv[3]);
    read_header(&header, argv[2]);
    examples = read_page(&page, argv[1]);
    if (definitions.count == 0) {
        fault("%s: no numbers", argv[3]);
    }
    compare(&definitions, &header);
    compare(&definitions, &page);
    compare(&header, &page);
    compare_words(&definitions);
    want_examples(&page);
    printf("ends_check: %lu numbers, %u examples, %u differences\n", (unsigned long)definitions.count,
           examples, failures);
    return failures == 0 ? 0 : 1;
}
