/* The recipe machine as the paper tells it, with no thought of speed: bytes
 * are read where they lie, value and spread recurse over operand numbers, the
 * policy's laws are three nested loops, frames are kind, statement and tag.
 *
 * It is the yardstick of right answers for the fast machines (fuzz.c), and in
 * the speed table it shows what a first straight version costs.
 */
#include "machines.h"

static uint32_t half_at(const uint8_t *b) { return b[0] + 256u * b[1]; }
static uint32_t word_at(const uint8_t *b) { return half_at(b) + 65536u * half_at(b + 2); }

static void put_word(uint8_t *b, uint32_t w)
{
    b[0] = w % 256;
    b[1] = w / 256 % 256;
    b[2] = w / 65536 % 256;
    b[3] = w / 16777216;
}

/* The inputs with their counts, once the header is known to be good. */
struct tables {
    const uint8_t *expressions, *statements, *joins, *clearances;
    uint8_t *memory, *records;
    uint32_t E, S, V, M, tags, ports;
    size_t room;
};

struct result { uint32_t end, place, steps, records; };

static struct result refused(uint32_t number, uint32_t place)
{
    return (struct result){ number, place, 0, 0 };
}

/* ---- the checks, in the paper's order */

static int expression_malformed(const struct tables *t, uint32_t e)
{
    const uint8_t *x = t->expressions + 8 * e;
    uint32_t op = x[1], a = half_at(x + 2), b = word_at(x + 4);

    switch (x[0]) {
    case 1: return op != 0 || a != 0;
    case 2: return op != 0 || a >= t->V || b != 0;
    case 3: return op != 0 || a >= e || b != 0;
    case 4: return op > 2 || a >= e || b != 0;
    case 5: return op > 8 || a >= e || b >= e;
    default: return 1;
    }
}

static uint32_t spread(const struct tables *t, uint32_t e)
{
    const uint8_t *x = t->expressions + 8 * e;

    if (x[0] <= 2)
        return 1;
    if (x[0] <= 4)
        return 1 + spread(t, half_at(x + 2));
    return 1 + spread(t, half_at(x + 2)) + spread(t, word_at(x + 4));
}

static int statement_malformed(const struct tables *t, uint32_t s)
{
    const uint8_t *x = t->statements + 8 * s;
    uint32_t port = x[1], a = half_at(x + 2), b = half_at(x + 4), c = half_at(x + 6);

    switch (x[0]) {
    case 0: return port != 0 || a != 0 || b != 0 || c != 0;
    case 1: return port != 0 || a >= t->V || b >= t->E || c != 0;
    case 2: return port != 0 || a >= t->E || b >= t->E || c != 0;
    case 3: return port != 0 || a >= s || b >= s || c != 0;
    case 4: return port != 0 || a >= t->E || b >= s || c >= s;
    case 5: return port != 0 || a >= t->E || b >= s || c != 0;
    case 6: return a >= t->E || b != 0 || c != 0;
    default: return 1;
    }
}

static uint32_t join(const struct tables *t, uint32_t a, uint32_t b)
{
    return t->joins[t->tags * a + b];
}

static int under(const struct tables *t, uint32_t a, uint32_t b) { return join(t, a, b) == b; }

static int law_broken(const struct tables *t)
{
    for (uint32_t a = 0; a < t->tags; a++) {
        if (join(t, a, a) != a || join(t, 0, a) != a)
            return 1;
        for (uint32_t b = 0; b < t->tags; b++) {
            if (join(t, a, b) != join(t, b, a))
                return 1;
            for (uint32_t c = 0; c < t->tags; c++)
                if (join(t, join(t, a, b), c) != join(t, a, join(t, b, c)))
                    return 1;
        }
    }
    return 0;
}

/* ---- evaluation */

struct answer { uint32_t fault, value, tag; };

static struct answer fails(uint32_t number) { return (struct answer){ number, 0, 0 }; }
static struct answer gives(uint32_t value, uint32_t tag)
{
    return (struct answer){ 0, value, tag };
}

/* Wide arithmetic, then cut to 32 bits: no case of its own for any wrap. */
static struct answer apply(uint32_t op, uint32_t x, uint32_t y, uint32_t tag)
{
    int64_t l = (int32_t)x, r = (int32_t)y;

    switch (op) {
    case 0: return gives((uint32_t)(l + r), tag);
    case 1: return gives((uint32_t)(l - r), tag);
    case 2: return gives((uint32_t)(l * r), tag);
    case 3: return r == 0 ? fails(6) : gives((uint32_t)(l / r), tag);
    case 4: return r == 0 ? fails(6) : gives((uint32_t)(l % r), tag);
    case 5: return gives(l < r, tag);
    case 6: return gives(l <= r, tag);
    case 7: return gives(l == r, tag);
    default: return gives(l != r, tag);
    }
}

static struct answer place_at(const struct tables *t, uint32_t place)
{
    return gives(word_at(t->memory + 5 * place), t->memory[5 * place + 4]);
}

static struct answer eval(const struct tables *t, uint32_t e)
{
    const uint8_t *n = t->expressions + 8 * e;
    struct answer x, y;

    if (n[0] == 1)
        return gives(word_at(n + 4), 0);
    if (n[0] == 2)
        return place_at(t, half_at(n + 2));
    x = eval(t, half_at(n + 2));
    if (x.fault)
        return x;
    if (n[0] == 3) {
        if (x.value >= t->M)
            return fails(5);
        y = place_at(t, t->V + x.value);
        return gives(y.value, join(t, y.tag, x.tag));
    }
    if (n[0] == 4) {
        if (n[1] == 1)
            return gives(x.value == 0, x.tag);
        if (n[1] == 2 && x.value < 0x80000000u)
            return x;
        return gives(0u - x.value, x.tag);
    }
    y = eval(t, word_at(n + 4));
    if (y.fault)
        return y;
    return apply(n[1], x.value, y.value, join(t, x.tag, y.tag));
}

/* ---- the run */

enum kind { NEXT, JOIN, LOOP };
struct frame { enum kind kind; uint32_t statement, tag; };

struct state {
    struct frame stack[MOST_STATEMENTS];
    uint32_t held, tag, records;
    int waits;   /* a statement is to begin */
    uint32_t at; /* which one */
};

static uint32_t push(const struct tables *t, struct state *z, struct frame f)
{
    if (z->held >= t->S)
        return 8;
    z->stack[z->held++] = f;
    return 0;
}

static void begin(struct state *z, uint32_t s)
{
    z->waits = 1;
    z->at = s;
}

static void write_place(const struct tables *t, uint32_t place, uint32_t value, uint32_t tag)
{
    put_word(t->memory + 5 * place, value);
    t->memory[5 * place + 4] = tag;
}

/* Each of these is one step; the answer is 0 or the number of the end. */

static uint32_t begin_statement(const struct tables *t, struct state *z)
{
    uint32_t s = z->at;
    const uint8_t *n = t->statements + 8 * s;
    uint32_t a = half_at(n + 2), b = half_at(n + 4), c = half_at(n + 6), end, g, old;
    struct answer x, i;

    z->waits = 0;
    switch (n[0]) {
    case 1:
        x = eval(t, b);
        if (x.fault)
            return x.fault;
        if (!under(t, z->tag, place_at(t, a).tag))
            return 2;
        write_place(t, a, x.value, join(t, z->tag, x.tag));
        return 0;
    case 2:
        i = eval(t, a);
        if (i.fault)
            return i.fault;
        x = eval(t, b);
        if (x.fault)
            return x.fault;
        if (i.value >= t->M)
            return 5;
        g = join(t, z->tag, i.tag);
        old = place_at(t, t->V + i.value).tag;
        if (!under(t, g, old))
            return 3;
        write_place(t, t->V + i.value, x.value, join(t, g, x.tag));
        return 0;
    case 3:
        end = push(t, z, (struct frame){ NEXT, b, 0 });
        if (end)
            return end;
        begin(z, a);
        return 0;
    case 4:
        x = eval(t, a);
        if (x.fault)
            return x.fault;
        end = push(t, z, (struct frame){ JOIN, 0, z->tag });
        if (end)
            return end;
        z->tag = join(t, z->tag, x.tag);
        begin(z, x.value != 0 ? b : c);
        return 0;
    case 5:
        x = eval(t, a);
        if (x.fault)
            return x.fault;
        if (x.value == 0)
            return 0;
        end = push(t, z, (struct frame){ LOOP, s, z->tag });
        if (end)
            return end;
        z->tag = join(t, z->tag, x.tag);
        begin(z, b);
        return 0;
    case 6:
        x = eval(t, a);
        if (x.fault)
            return x.fault;
        if (!under(t, join(t, z->tag, x.tag), t->clearances[n[1]]))
            return 4;
        if (t->room - 5 * (size_t)z->records < 5)
            return 7;
        t->records[5 * (size_t)z->records] = n[1];
        put_word(t->records + 5 * (size_t)z->records + 1, x.value);
        z->records++;
        return 0;
    default:
        return 0;
    }
}

static uint32_t take_frame(const struct tables *t, struct state *z)
{
    struct frame f = z->stack[z->held - 1];
    const uint8_t *n = t->statements + 8 * f.statement;
    struct answer x;

    switch (f.kind) {
    case NEXT:
        z->held--;
        begin(z, f.statement);
        return 0;
    case JOIN:
        z->held--;
        z->tag = f.tag;
        return 0;
    default:
        x = eval(t, half_at(n + 2));
        if (x.fault)
            return x.fault;
        if (x.value == 0) {
            z->held--;
            z->tag = f.tag;
            return 0;
        }
        z->tag = join(t, z->tag, x.tag);
        begin(z, half_at(n + 4));
        return 0;
    }
}

static struct result run(const struct tables *t, uint32_t budget)
{
    struct state z = { .waits = 1, .at = t->S - 1 };
    uint32_t steps = 0;

    while (steps < budget) {
        uint32_t place = z.waits ? z.at : z.stack[z.held - 1].statement;
        uint32_t end = z.waits ? begin_statement(t, &z) : take_frame(t, &z);

        steps++;
        if (end)
            return (struct result){ end, place, steps, z.records };
        if (!z.waits && z.held == 0)
            return (struct result){ 0, 0, steps, z.records };
    }
    return (struct result){ 1, 0, steps, z.records };
}

static struct result judge(const uint8_t *recipe, size_t recipe_len,
                           const uint8_t *policy, size_t policy_len,
                           uint8_t *memory, size_t memory_len,
                           uint8_t *records, size_t records_len, uint32_t budget)
{
    struct tables t;

    if (recipe_len < 16)
        return refused(16, 0);
    if (recipe[0] != 'R' || recipe[1] != 'J' || recipe[2] != 'R')
        return refused(17, 0);
    if (half_at(recipe + 3) != 1)
        return refused(18, 0);
    t.E = half_at(recipe + 6);
    t.S = half_at(recipe + 8);
    t.V = half_at(recipe + 10);
    t.M = half_at(recipe + 12);
    if (recipe[5] != 0 || half_at(recipe + 14) != 0 || t.E > 1024 || t.S < 1 || t.S > 512 ||
        t.V > 64 || t.M > 1024)
        return refused(19, 0);
    if (recipe_len != 16 + 8 * (size_t)t.E + 8 * (size_t)t.S)
        return refused(16, 0);
    t.expressions = recipe + 16;
    t.statements = t.expressions + 8 * t.E;
    for (uint32_t e = 0; e < t.E; e++) {
        if (expression_malformed(&t, e))
            return refused(20, e);
        if (spread(&t, e) > 256)
            return refused(21, e);
    }
    for (uint32_t s = 0; s < t.S; s++)
        if (statement_malformed(&t, s))
            return refused(22, s);

    if (policy_len < 8 || policy[0] != 'R' || policy[1] != 'J' || policy[2] != 'P' ||
        half_at(policy + 3) != 1 || policy[5] != 0)
        return refused(23, 0);
    t.tags = policy[6];
    t.ports = policy[7];
    if (t.tags < 1 || t.tags > 16 || t.ports > 16 || policy_len != 8 + t.tags * t.tags + t.ports)
        return refused(23, 0);
    for (uint32_t i = 8; i < policy_len; i++)
        if (policy[i] >= t.tags)
            return refused(24, i);
    t.joins = policy + 8;
    t.clearances = t.joins + t.tags * t.tags;
    if (law_broken(&t))
        return refused(25, 0);
    for (uint32_t s = 0; s < t.S; s++)
        if (t.statements[8 * s] == 6 && t.statements[8 * s + 1] >= t.ports)
            return refused(26, s);

    if (memory_len != 5 * (size_t)(t.V + t.M))
        return refused(27, 0);
    for (uint32_t i = 0; i < t.V + t.M; i++)
        if (memory[5 * i + 4] >= t.tags)
            return refused(28, i);
    t.memory = memory;
    t.records = records;
    t.room = records_len;
    return run(&t, budget);
}

uint32_t literal_judge(const uint8_t *recipe, size_t recipe_len, const uint8_t *policy,
                       size_t policy_len, uint8_t *memory, size_t memory_len, uint8_t *records,
                       size_t records_len, uint8_t *report, size_t report_len, uint32_t budget)
{
    struct result r;

    if (report_len < 12)
        return 30;
    r = judge(recipe, recipe_len, policy, policy_len, memory, memory_len, records, records_len,
              budget == 0 ? HOUSE_BUDGET : budget);
    put_word(report, r.end + 65536 * r.place);
    put_word(report + 4, r.steps);
    put_word(report + 8, r.records);
    return r.end;
}
