#include <stdio.h>
#include <string.h>

#include "assemble.h"
#include "examples.h"

/* What came back from a call. */
struct seen {
    uint32_t number, end, place, steps, records;
    uint8_t memory[MEMORY_MAX], room[64];
};

static const char *machine;
static judge_fn *judge_of;
static int wrong;

static struct seen call(const struct call *c)
{
    struct seen s;
    uint8_t report[12];

    memset(&s, 0, sizeof s);
    memset(s.room, 0xEE, sizeof s.room);
    memset(report, 0, sizeof report);
    memcpy(s.memory, c->memory, c->memory_len < sizeof s.memory ? c->memory_len : sizeof s.memory);
    s.number = judge_of(c->recipe, c->recipe_len, c->policy, c->policy_len, s.memory,
                        c->memory_len, s.room, c->room, report, sizeof report, c->budget);
    s.end = get_half(report);
    s.place = get_half(report + 2);
    s.steps = get_word(report + 4);
    s.records = get_word(report + 8);
    return s;
}

static void expect(const char *example, int holds)
{
    if (!holds) {
        printf("%s: example %s fails\n", machine, example);
        wrong = 1;
    }
}

static int is(const struct seen *s, uint32_t end, uint32_t place, uint32_t steps, uint32_t records)
{
    return s->number == end && s->end == end && s->place == place && s->steps == steps &&
           s->records == records;
}

static int place_is(const struct seen *s, uint32_t place, int32_t value, uint32_t tag)
{
    return get_word(s->memory + 5 * place) == (uint32_t)value && s->memory[5 * place + 4] == tag;
}

/* Starts a recipe with the two-tag policy of the paper. */
static void start(struct call *c, struct recipe *r, uint32_t variables, uint32_t cells)
{
    memset(c, 0, sizeof *c);
    memset(r, 0, sizeof *r);
    r->V = variables;
    r->M = cells;
    memcpy(c->policy, "RJP\1\0\0\2\2\0\1\1\1\0\1", 14);
    c->policy_len = 14;
    c->memory_len = 5 * (variables + cells);
    c->budget = 100;
}

static struct seen countdown(int32_t from, uint32_t tag, uint32_t budget)
{
    static const uint8_t whole[] = {
        0x52, 0x4A, 0x52, 1, 0, 0, 3, 0, 2, 0, 1, 0, 0, 0, 0, 0,
        2, 0, 0, 0, 0, 0, 0, 0, 1, 0, 0, 0, 1, 0, 0, 0, 5, 1, 0, 0, 1, 0, 0, 0,
        1, 0, 0, 0, 2, 0, 0, 0, 5, 0, 0, 0, 0, 0, 0, 0,
    };
    static struct call c;
    static struct recipe r;

    start(&c, &r, 1, 0);
    memcpy(c.recipe, whole, sizeof whole);
    c.recipe_len = sizeof whole;
    c.budget = budget;
    put_place(&c, 0, from, tag);
    return call(&c);
}

/* if h then x := 1 else skip; h is variable 0 with tag 1, x variable 1 */
static struct seen branch(int32_t h, uint32_t tag_of_x)
{
    static struct call c;
    static struct recipe r;
    uint32_t test;

    start(&c, &r, 2, 0);
    test = variable(&r, 0);
    skip(&r);
    assign(&r, 1, constant(&r, 1));
    when(&r, test, 1, 0);
    c.recipe_len = assemble(&r, c.recipe);
    put_place(&c, 0, h, 1);
    put_place(&c, 1, 0, tag_of_x);
    return call(&c);
}

static struct seen emitted(uint32_t port, uint32_t tag, size_t room)
{
    static struct call c;
    static struct recipe r;

    start(&c, &r, 1, 0);
    emit(&r, port, variable(&r, 0));
    c.recipe_len = assemble(&r, c.recipe);
    c.room = room;
    put_place(&c, 0, 7, tag);
    return call(&c);
}

static int works_out(uint32_t op, int32_t left, int32_t right, int32_t value)
{
    static struct call c;
    static struct recipe r;
    struct seen s;
    uint32_t a;

    start(&c, &r, 1, 0);
    a = constant(&r, left);
    assign(&r, 0, binary(&r, op, a, constant(&r, right)));
    c.recipe_len = assemble(&r, c.recipe);
    s = call(&c);
    return is(&s, 0, 0, 1, 0) && place_is(&s, 0, value, 0);
}

static struct seen negated(uint32_t times)
{
    static struct call c;
    static struct recipe r;
    uint32_t e;

    start(&c, &r, 1, 0);
    e = constant(&r, 5);
    for (uint32_t i = 0; i < times; i++)
        e = unary(&r, NEGATE, e);
    assign(&r, 0, e);
    c.recipe_len = assemble(&r, c.recipe);
    return call(&c);
}

static struct seen doubled(uint32_t times)
{
    static struct call c;
    static struct recipe r;
    uint32_t e;

    start(&c, &r, 1, 0);
    e = constant(&r, 1);
    for (uint32_t i = 0; i < times; i++)
        e = binary(&r, ADD, e, e);
    assign(&r, 0, e);
    c.recipe_len = assemble(&r, c.recipe);
    return call(&c);
}

static struct seen indexed(int32_t index, uint32_t cells)
{
    static struct call c;
    static struct recipe r;

    start(&c, &r, 1, cells);
    assign(&r, 0, cell(&r, constant(&r, index)));
    c.recipe_len = assemble(&r, c.recipe);
    return call(&c);
}

static struct seen skips(uint32_t count)
{
    static struct call c;
    static struct recipe r;

    start(&c, &r, 0, 0);
    while (r.S < count && r.S < MOST_STATEMENTS)
        skip(&r);
    c.recipe_len = assemble(&r, c.recipe);
    if (count > MOST_STATEMENTS) {
        put_half(c.recipe + 8, count);
        c.recipe_len += 8 * (count - MOST_STATEMENTS);
    }
    return call(&c);
}

int examples_fail(const char *name, judge_fn *judge)
{
    static const uint8_t seven[] = { 1, 7, 0, 0, 0, 0xEE };
    struct seen s;

    machine = name;
    judge_of = judge;
    wrong = 0;

    s = countdown(2, 0, 5);
    expect("P1", is(&s, 0, 0, 5, 0) && place_is(&s, 0, 0, 0));
    s = countdown(2, 0, 4);
    expect("P2", is(&s, 1, 0, 4, 0) && place_is(&s, 0, 0, 0));
    s = countdown(0, 0, 5);
    expect("P3", is(&s, 0, 0, 1, 0));
    s = countdown(2, 1, 5);
    expect("P4", is(&s, 0, 0, 5, 0) && place_is(&s, 0, 0, 1));
    s = branch(1, 0);
    expect("P5", is(&s, 2, 1, 2, 0) && place_is(&s, 1, 0, 0));
    s = branch(0, 0);
    expect("P6", is(&s, 0, 0, 3, 0) && place_is(&s, 1, 0, 0));
    s = branch(1, 1);
    expect("P7", is(&s, 0, 0, 3, 0) && place_is(&s, 1, 1, 1));
    s = emitted(0, 1, 5);
    expect("P8", is(&s, 4, 0, 1, 0));
    s = emitted(1, 0, 5);
    expect("P9", is(&s, 0, 0, 1, 1) && memcmp(s.room, seven, sizeof seven) == 0);
    s = emitted(1, 0, 4);
    expect("P10", is(&s, 7, 0, 1, 0) && s.room[0] == 0xEE);
    expect("P11", works_out(ADD, INT32_MAX, 1, INT32_MIN));
    expect("P12", works_out(DIV, -7, 2, -3) && works_out(REM, -7, 2, -1));
    expect("P13", works_out(MUL, 65536, 65536, 0));

    s = negated(255);
    expect("255 negations", is(&s, 0, 0, 1, 0) && place_is(&s, 0, -5, 0));
    s = negated(256);
    expect("256 negations", is(&s, 21, 256, 0, 0));
    s = doubled(7);
    expect("spread 255", is(&s, 0, 0, 1, 0) && place_is(&s, 0, 128, 0));
    s = doubled(8);
    expect("spread 511", is(&s, 21, 8, 0, 0));
    s = indexed(9, 10);
    expect("index M-1", is(&s, 0, 0, 1, 0));
    s = indexed(10, 10);
    expect("index M", is(&s, 5, 0, 1, 0));
    s = indexed(-1, 10);
    expect("index -1", is(&s, 5, 0, 1, 0));
    s = skips(512);
    expect("S = 512", is(&s, 0, 0, 1, 0));
    s = skips(513);
    expect("S = 513", is(&s, 19, 0, 0, 0));
    expect("lowest by -1",
           works_out(DIV, INT32_MIN, -1, INT32_MIN) && works_out(REM, INT32_MIN, -1, 0));
    s = countdown(2, 0, 0);
    expect("budget 0", is(&s, 0, 0, 5, 0));
    return wrong;
}
