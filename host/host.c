/*
 * A small host. It asks for the house policy, builds two recipes and runs
 * them: the lesson (docs/LESSON.md) and a judging recipe over four cameras,
 * once with fresh cameras and once with a stale one.
 */
#include <stdio.h>
#include <stdlib.h>
#include <string.h>

#include "vraduceni.h"
#include "words.h"

/* ---- building a recipe table */

enum { CONSTANT = 1, VARIABLE = 2, BINARY = 5 };                /* expressions */
enum { ADD = 0, LESS = 5, EQUAL = 7 };                          /* operators */
enum { SKIP = 0, ASSIGN = 1, THEN = 3, IF = 4, EMIT = 6 };      /* statements */

struct recipe {
    uint8_t bytes[256];
    size_t length;
    unsigned expressions, statements;
};

static void put16(uint8_t *at, uint32_t n)
{
    at[0] = (uint8_t)(n & 255);
    at[1] = (uint8_t)(n >> 8 & 255);
}

static void put32(uint8_t *at, uint32_t n)
{
    put16(at, n & 65535);
    put16(at + 2, n >> 16);
}

static uint32_t get16(const uint8_t *at)
{
    return at[0] + 256u * at[1];
}

static uint32_t get32(const uint8_t *at)
{
    return get16(at) + 65536u * get16(at + 2);
}

/* The value as a signed number, without leaning on the compiler's casts. */
static long signed32(uint32_t n)
{
    return n < 2147483648u ? (long)n : -(long)(4294967295u - n) - 1;
}

static void begin_recipe(struct recipe *r, unsigned variables)
{
    memset(r, 0, sizeof *r);
    r->length = 16;
    memcpy(r->bytes, "RJR", 3);
    put16(r->bytes + 3, 1);
    put16(r->bytes + 10, variables);
}

/* The next record's eight bytes. */
static uint8_t *more(struct recipe *r)
{
    if (sizeof r->bytes - r->length < 8) {
        fputs("the recipe is longer than this host's table\n", stderr);
        exit(1);
    }
    r->length += 8;
    return r->bytes + r->length - 8;
}

/* All expressions first, then the statements. Each gives its own number. */
static unsigned expression(struct recipe *r, int kind, int op, unsigned a, uint32_t b)
{
    uint8_t *at = more(r);
    at[0] = (uint8_t)kind;
    at[1] = (uint8_t)op;
    put16(at + 2, a);
    put32(at + 4, b);
    put16(r->bytes + 6, r->expressions + 1);
    return r->expressions++;
}

static unsigned statement(struct recipe *r, int kind, int port, unsigned a, unsigned b, unsigned c)
{
    uint8_t *at = more(r);
    at[0] = (uint8_t)kind;
    at[1] = (uint8_t)port;
    put16(at + 2, a);
    put16(at + 4, b);
    put16(at + 6, c);
    put16(r->bytes + 8, r->statements + 1);
    return r->statements++;
}

static void put_place(uint8_t *memory, unsigned place, uint32_t value, uint8_t tag)
{
    put32(memory + VRADUCENI_PLACE_LENGTH * place, value);
    memory[VRADUCENI_PLACE_LENGTH * place + 4] = tag;
}

/* ---- the two recipes */

/* Variable 0 is h, variable 1 is x: if h then x := 1 else skip. */
static void lesson_recipe(struct recipe *r)
{
    unsigned h, one, nothing, mark;
    begin_recipe(r, 2);
    h = expression(r, VARIABLE, 0, 0, 0);
    one = expression(r, CONSTANT, 0, 0, 1);
    nothing = statement(r, SKIP, 0, 0, 0, 0);
    mark = statement(r, ASSIGN, 0, 1, one, 0);
    statement(r, IF, 0, h, mark, nothing);
}

/*
 * Variables 0 to 3 are the readings of cameras 0 to 3. The alarm is how many
 * of them are over the limit; the verdict is 1 (good) when none is, else 0.
 */
static void judging_recipe(struct recipe *r, uint32_t limit)
{
    unsigned most, over, k, zero, one, good, say_good, say_bad, alarm, verdict;
    begin_recipe(r, 4);
    most = expression(r, CONSTANT, 0, 0, limit);
    over = expression(r, CONSTANT, 0, 0, 0);
    zero = over;
    for (k = 0; k < 4; k++) {
        unsigned reading = expression(r, VARIABLE, 0, k, 0);
        unsigned high = expression(r, BINARY, LESS, most, reading);
        over = expression(r, BINARY, ADD, over, high);
    }
    one = expression(r, CONSTANT, 0, 0, 1);
    good = expression(r, BINARY, EQUAL, over, zero);
    alarm = statement(r, EMIT, VRADUCENI_PORT_ALARM, over, 0, 0);
    say_good = statement(r, EMIT, VRADUCENI_PORT_VERDICT, one, 0, 0);
    say_bad = statement(r, EMIT, VRADUCENI_PORT_VERDICT, zero, 0, 0);
    verdict = statement(r, IF, 0, good, say_good, say_bad);
    statement(r, THEN, 0, alarm, verdict, 0);
}

/* ---- running and telling */

static void tell_port(const char *name, int port, const uint8_t *records, uint32_t count)
{
    uint32_t i;
    int told = 0;
    printf("  %s:", name);
    for (i = 0; i < count; i++) {
        const uint8_t *at = records + VRADUCENI_RECORD_LENGTH * i;
        if (at[0] == port) {
            printf(" %ld", signed32(get32(at + 1)));
            told = 1;
        }
    }
    fputs(told ? "\n" : " none\n", stdout);
}

static int run(const char *title, const struct recipe *r, const uint8_t *policy,
               uint8_t *memory, size_t memory_length, int ports)
{
    uint8_t records[16 * VRADUCENI_RECORD_LENGTH];
    uint8_t report[VRADUCENI_REPORT_LENGTH];
    uint32_t number, end, place, steps, count;
    const char *words;

    number = vraduceni_judge(r->bytes, r->length, policy, VRADUCENI_HOUSE_POLICY_LENGTH,
                             memory, memory_length, records, sizeof records,
                             report, sizeof report, 0);
    end = get16(report + VRADUCENI_REPORT_END);
    place = get16(report + VRADUCENI_REPORT_PLACE);
    steps = get32(report + VRADUCENI_REPORT_STEPS);
    count = get32(report + VRADUCENI_REPORT_RECORDS);
    words = words_of(number);
    if (number != end || words == NULL || count > 16) {
        printf("%s\n  the report does not fit the number %lu\n", title, (unsigned long)number);
        return 1;
    }
    printf("%s\n", title);
    if (ports) {
        tell_port("verdict", VRADUCENI_PORT_VERDICT, records, count);
        tell_port("alarm", VRADUCENI_PORT_ALARM, records, count);
    }
    printf("  end %lu: %s (place %lu, steps %lu, records %lu)\n", (unsigned long)end, words,
           (unsigned long)place, (unsigned long)steps, (unsigned long)count);
    return 0;
}

static int run_lesson(const char *title, const uint8_t *policy, uint32_t h, uint8_t x_tag)
{
    struct recipe r;
    uint8_t memory[2 * VRADUCENI_PLACE_LENGTH];
    int bad;
    lesson_recipe(&r);
    put_place(memory, 0, h, 1);         /* camera 0 is stale: bit 2^0 */
    put_place(memory, 1, 0, x_tag);
    bad = run(title, &r, policy, memory, sizeof memory, 0);
    printf("  x: value %ld, tag %u\n", signed32(get32(memory + VRADUCENI_PLACE_LENGTH)),
           (unsigned)memory[VRADUCENI_PLACE_LENGTH + 4]);
    return bad;
}

/* stale: the set of stale cameras, bit 2^k for camera k. */
static int run_judging(const char *title, const uint8_t *policy, const uint32_t *readings,
                       unsigned stale)
{
    struct recipe r;
    uint8_t memory[4 * VRADUCENI_PLACE_LENGTH];
    unsigned k;
    judging_recipe(&r, 30);
    for (k = 0; k < 4; k++) {
        put_place(memory, k, readings[k], (uint8_t)(stale & (1u << k)));
    }
    return run(title, &r, policy, memory, sizeof memory, 1);
}

int main(void)
{
    static const uint32_t fine[4] = { 12, 30, 25, 7 };
    static const uint32_t high[4] = { 12, 31, 25, 40 };
    uint8_t policy[VRADUCENI_HOUSE_POLICY_LENGTH];
    uint32_t number = vraduceni_house_policy(policy, sizeof policy);
    const char *words = words_of(number);
    int bad = 0;

    printf("house policy\n  number %lu: %s\n", (unsigned long)number, words ? words : "?");
    if (number != VRADUCENI_END_DONE) {
        return 1;
    }
    bad |= run_lesson("lesson, h stale and 1, x clean", policy, 1, 0);
    bad |= run_lesson("lesson, h stale and 0, x clean", policy, 0, 0);
    bad |= run_lesson("lesson, h stale and 1, x marked beforehand", policy, 1, 1);
    bad |= run_judging("judging, all cameras fresh, no reading over the limit", policy, fine, 0);
    bad |= run_judging("judging, all cameras fresh, two readings over the limit", policy, high, 0);
    bad |= run_judging("judging, camera 2 stale", policy, fine, 1u << 2);
    return bad;
}
