#include <string.h>

#include "recipes.h"

static void start(struct call *c, struct recipe *r, uint32_t variables, uint32_t cells)
{
    memset(c, 0, sizeof *c);
    r->E = r->S = 0;
    r->V = variables;
    r->M = cells;
    c->memory_len = 5 * (variables + cells);
    c->policy_len = house_policy(c->policy);
    c->budget = UINT32_MAX;
}

static void finish(struct call *c, const struct recipe *r)
{
    c->recipe_len = assemble(r, c->recipe);
}

static uint32_t add(struct recipe *r, uint32_t a, uint32_t b) { return binary(r, ADD, a, b); }

/* v := v + by, as a statement */
static uint32_t step_by(struct recipe *r, uint32_t v, int32_t by)
{
    return assign(r, v, add(r, variable(r, v), constant(r, by)));
}

/* ---- countdown: while v0 { v0 := v0 + -1 }, with the paper's two-tag policy */

static void countdown(struct call *c, uint32_t scale)
{
    static struct recipe r;

    start(c, &r, 1, 0);
    repeat(&r, variable(&r, 0), step_by(&r, 0, -1));
    finish(c, &r);
    memcpy(c->policy, "RJP\1\0\0\2\2\0\1\1\1\0\1", 14);
    c->policy_len = 14;
    put_place(c, 0, (int32_t)(4999 * scale), 0);
}

/* ---- nested loops with arithmetic
 *
 *     while 0 < v0 {
 *         v1 := 12
 *         while v1 { v2 := (v2 * 31 + v0 * v1) % 1009; v3 := v3 + (v2 < 500); v1 := v1 + -1 }
 *         v0 := v0 - 1
 *     }
 */
static void nested(struct call *c, uint32_t scale)
{
    static struct recipe r;
    uint32_t v0, v1, v2, inner;

    start(c, &r, 4, 0);
    v0 = variable(&r, 0);
    v1 = variable(&r, 1);
    v2 = variable(&r, 2);
    inner = repeat(&r, v1, LIST(&r,
        assign(&r, 2, binary(&r, REM,
            add(&r, binary(&r, MUL, v2, constant(&r, 31)), binary(&r, MUL, v0, v1)),
            constant(&r, 1009))),
        assign(&r, 3, add(&r, variable(&r, 3), binary(&r, LESS, v2, constant(&r, 500)))),
        step_by(&r, 1, -1)));
    repeat(&r, binary(&r, LESS, constant(&r, 0), v0), LIST(&r,
        assign(&r, 1, constant(&r, 12)),
        inner,
        assign(&r, 0, binary(&r, SUB, v0, constant(&r, 1)))));
    finish(c, &r);
    put_place(c, 0, (int32_t)(96 * scale), 0);
}

/* ---- cells: a sieve, then running sums of its marks
 *
 *     while v0 {
 *         v1 := 0; while v1 < M { c[v1] := 0; v1 := v1 + 1 }
 *         v1 := 2
 *         while v1 < M {
 *             if !c[v1] { v2 := v1 + v1; while v2 < M { c[v2] := 1; v2 := v2 + v1 } }
 *             v1 := v1 + 1
 *         }
 *         v1 := 1; while v1 < M { c[v1] := c[v1 - 1] + c[v1]; v1 := v1 + 1 }
 *         v3 := v3 + c[M - 1]
 *         v0 := v0 - 1
 *     }
 */
enum { SIEVE = 370 };

static void cells(struct call *c, uint32_t scale)
{
    static struct recipe r;
    uint32_t v1, v2, at_v1, inside, clear, sieve, sums;

    start(c, &r, 4, SIEVE);
    v1 = variable(&r, 1);
    v2 = variable(&r, 2);
    at_v1 = cell(&r, v1);
    inside = binary(&r, LESS, v1, constant(&r, SIEVE));
    clear = LIST(&r,
        assign(&r, 1, constant(&r, 0)),
        repeat(&r, inside, LIST(&r, store(&r, v1, constant(&r, 0)), step_by(&r, 1, 1))));
    sieve = LIST(&r,
        assign(&r, 1, constant(&r, 2)),
        repeat(&r, inside, LIST(&r,
            when(&r, unary(&r, NOT, at_v1),
                LIST(&r,
                    assign(&r, 2, add(&r, v1, v1)),
                    repeat(&r, binary(&r, LESS, v2, constant(&r, SIEVE)), LIST(&r,
                        store(&r, v2, constant(&r, 1)),
                        assign(&r, 2, add(&r, v2, v1))))),
                skip(&r)),
            step_by(&r, 1, 1))));
    sums = LIST(&r,
        assign(&r, 1, constant(&r, 1)),
        repeat(&r, inside, LIST(&r,
            store(&r, v1, add(&r, cell(&r, binary(&r, SUB, v1, constant(&r, 1))), at_v1)),
            step_by(&r, 1, 1))));
    repeat(&r, variable(&r, 0), LIST(&r, clear, sieve, sums,
        assign(&r, 3, add(&r, variable(&r, 3), cell(&r, constant(&r, SIEVE - 1)))),
        step_by(&r, 0, -1)));
    finish(c, &r);
    put_place(c, 0, (int32_t)scale, 0);
}

/* ---- deep branches on tagged values
 *
 * Four readings v1 to v4, tagged 1, 2, 4 and 8, turn like four hands of a
 * clock with 5, 7, 9 and 11 marks; five nested tests choose which of the
 * counters v5 to v9 grows. Each counter's tag holds the tags of the tests
 * above it, else its write would be refused.
 */
static void branches(struct call *c, uint32_t scale)
{
    static struct recipe r;
    static const int32_t marks[4] = { 5, 7, 9, 11 };
    static const uint32_t tags[10] = { 0, 1, 2, 4, 8, 1, 3, 7, 15, 15 };
    uint32_t turn[4], low[4], tree, body;

    start(c, &r, 10, 0);
    for (uint32_t k = 0; k < 4; k++) {
        uint32_t v = variable(&r, 1 + k);
        uint32_t next = add(&r, v, constant(&r, 1));
        turn[k] = assign(&r, 1 + k, binary(&r, REM, next, constant(&r, marks[k])));
        low[k] = binary(&r, LESS, v, constant(&r, marks[k] / 2 + 1));
    }
    tree = when(&r, binary(&r, SAME, variable(&r, 9), constant(&r, -1)), skip(&r),
                step_by(&r, 8, 1));
    tree = when(&r, low[3], tree, step_by(&r, 9, 1));
    tree = when(&r, low[2], tree, step_by(&r, 7, 1));
    tree = when(&r, low[1], tree, step_by(&r, 6, 1));
    tree = when(&r, low[0], tree, step_by(&r, 5, 1));
    body = LIST(&r, turn[0], turn[1], turn[2], turn[3], tree, step_by(&r, 0, -1));
    repeat(&r, variable(&r, 0), body);
    finish(c, &r);
    put_place(c, 0, (int32_t)(465 * scale), 0);
    for (uint32_t v = 1; v < 10; v++)
        put_place(c, v, 0, tags[v]);
}

/* ---- emission: while v0 { emit v0 on 0; emit v0 * 2 on 1; v0 := v0 + -1 } */

static void emission(struct call *c, uint32_t scale)
{
    static struct recipe r;
    uint32_t v0;

    start(c, &r, 2, 0);
    v0 = variable(&r, 0);
    repeat(&r, v0, LIST(&r,
        emit(&r, 0, v0),
        emit(&r, 1, binary(&r, MUL, v0, constant(&r, 2))),
        step_by(&r, 0, -1)));
    finish(c, &r);
    put_place(c, 0, (int32_t)(1249 * scale), 0);
    c->room = 5 * 2 * 1249 * (size_t)scale;
}

/* ---- judging: four cameras of 16 readings each, a threshold each
 *
 *     while v0 {
 *         v1 := v0 % 16
 *         v2 := v3 - v3                        (no alarm, with all tags)
 *         if c[64] < c[v1]      { v2 := v2 + 1 }
 *         if c[65] < c[16 + v1] { v2 := v2 + 1 }
 *         if c[66] < c[32 + v1] { v2 := v2 + 1 }
 *         if c[67] < c[48 + v1] { v2 := v2 + 1 }
 *         v4 := v4 + 1
 *         emit v4 on the verdict's port
 *         if 2 <= v2 { emit v2 on the alarm's port }
 *         v0 := v0 - 1
 *     }
 */
static void judging(struct call *c, uint32_t scale)
{
    static struct recipe r;
    uint32_t v1, v2, v3, nothing, s[9], body;

    start(c, &r, 5, 68);
    v1 = variable(&r, 1);
    v2 = variable(&r, 2);
    v3 = variable(&r, 3);
    nothing = skip(&r);
    s[0] = assign(&r, 1, binary(&r, REM, variable(&r, 0), constant(&r, 16)));
    s[1] = assign(&r, 2, binary(&r, SUB, v3, v3));
    for (int32_t k = 0; k < 4; k++) {
        uint32_t reading = cell(&r, k == 0 ? v1 : add(&r, constant(&r, 16 * k), v1));
        uint32_t threshold = cell(&r, constant(&r, 64 + k));
        s[2 + k] = when(&r, binary(&r, LESS, threshold, reading), step_by(&r, 2, 1), nothing);
    }
    s[6] = step_by(&r, 4, 1);
    s[7] = emit(&r, 0, variable(&r, 4));
    s[8] = when(&r, binary(&r, MOST, constant(&r, 2), v2), emit(&r, 1, v2), nothing);
    body = then(&r, s[8], step_by(&r, 0, -1));
    for (uint32_t k = 8; k-- > 0;)
        body = then(&r, s[k], body);
    repeat(&r, variable(&r, 0), body);
    finish(c, &r);
    put_place(c, 0, (int32_t)(256 * scale), 0);
    put_place(c, 3, 0, 15);
    put_place(c, 2, 0, 15);
    for (uint32_t k = 0; k < 4; k++) {
        for (uint32_t i = 0; i < 16; i++)
            put_place(c, 5 + 16 * k + i, (int32_t)((i * (3 + 2 * k) + k) % 16), 1u << k);
        put_place(c, 5 + 64 + k, 11, 0);
    }
    c->room = 5 * 2 * 256 * (size_t)scale;
}

const struct timed timed_runs[] = {
    { "countdown", "one loop, one addition", countdown, 0 },
    { "nested", "nested loops, arithmetic", nested, 3 },
    { "cells", "sieve and sums over cells", cells, 3 },
    { "branches", "nested ifs on high tags", branches, 8 },
    { "emission", "two records a turn", emission, 0 },
    { "judging", "four cameras, house policy", judging, 4 },
};
const uint32_t timed_run_count = sizeof timed_runs / sizeof timed_runs[0];

/* ---- inputs for the checks alone */

/* One skip and nothing else, with a policy of 16 tags. */
static void smallest(struct call *c)
{
    static struct recipe r;

    start(c, &r, 0, 0);
    skip(&r);
    finish(c, &r);
}

static void typical(struct call *c) { judging(c, 1); }

void deepest(struct call *c, uint32_t more)
{
    static struct recipe r;
    uint32_t e;

    start(c, &r, 1, 0);
    e = constant(&r, 1);
    while (r.E < 255)
        e = unary(&r, NEGATE, e);
    for (uint32_t k = 0; k < more; k++)
        unary(&r, NEGATE, e);
    assign(&r, 0, r.E - 1);
    finish(c, &r);
}

/* 1,024 expressions, 769 of them each over a chain of 255: a spread that is
 * worked out anew for each expression visits a quarter of a million. */
static void deep_spread(struct call *c) { deepest(c, 769); }

/* The same with broad trees: full binary trees of spread 255 under unary
 * operators, so that the recursion branches. */
static void broad_spread(struct call *c)
{
    static struct recipe r;
    uint32_t e;

    start(c, &r, 1, 0);
    e = constant(&r, 1);
    for (uint32_t k = 0; k < 7; k++)
        e = add(&r, e, e);
    while (r.E < MOST_EXPRESSIONS)
        unary(&r, ABSOLUTE, e);
    assign(&r, 0, r.E - 1);
    finish(c, &r);
}

static void statements_of(struct recipe *r, uint32_t count)
{
    uint32_t v = variable(r, 0), test = binary(r, LESS, v, constant(r, 3));
    uint32_t change = add(r, v, constant(r, 1));

    skip(r);
    while (r->S + 6 < count) {
        uint32_t s = r->S;
        assign(r, 0, change);
        store(r, v, change);
        emit(r, 1, v);
        when(r, test, s - 1, s);
        then(r, s + 3, s + 1);
        repeat(r, test, s + 4);
    }
    while (r->S < count)
        then(r, r->S - 1, 0);
}

static void many_statements(struct call *c)
{
    static struct recipe r;

    start(c, &r, 1, 8);
    statements_of(&r, MOST_STATEMENTS);
    finish(c, &r);
}

/* All tables full. */
static void largest(struct call *c)
{
    static struct recipe r;
    uint32_t e;

    start(c, &r, MOST_VARIABLES, MOST_CELLS);
    statements_of(&r, MOST_STATEMENTS);
    e = r.E - 1;
    while (r.E + 3 < MOST_EXPRESSIONS) {
        variable(&r, r.E % MOST_VARIABLES);
        cell(&r, r.E - 1);
        binary(&r, r.E % 9, r.E - 1, e);
    }
    while (r.E < MOST_EXPRESSIONS)
        constant(&r, 7);
    finish(c, &r);
    for (uint32_t i = 0; i < MOST_VARIABLES + MOST_CELLS; i++)
        put_place(c, i, (int32_t)i, i % MOST_TAGS);
}

const struct timed_check timed_checks[] = {
    { "one skip, 16 tags", smallest },
    { "typical, judging", typical },
    { "512 statements", many_statements },
    { "all tables full", largest },
    { "spread, 769 over a chain", deep_spread },
    { "spread, 1,016 over a tree", broad_spread },
};
const uint32_t timed_check_count = sizeof timed_checks / sizeof timed_checks[0];
