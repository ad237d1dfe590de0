/* Compares the machines with each other on random inputs, sound and damaged:
 *
 *     fuzz [cases [seed]]
 *
 * The number returned, the report, the memory and the whole record room must
 * be the same, byte for byte, with literal.c as the yardstick. Each buffer is
 * allocated with its exact length, so that a build with the address sanitizer
 * also sees a read or write outside it. Exit 1 at the first difference.
 */
#include <stdio.h>
#include <stdlib.h>
#include <string.h>

#include "assemble.h"

/* ---- random numbers */

static uint64_t state;

static uint32_t any(void)
{
    state ^= state << 13;
    state ^= state >> 7;
    state ^= state << 17;
    return (uint32_t)((state * 0x2545F4914F6CDD1Du) >> 32);
}

static uint32_t below(uint32_t n) { return (uint32_t)((uint64_t)any() * n >> 32); }
static int chance(uint32_t percent) { return below(100) < percent; }

/* ---- policies */

/* Sets closed under union, the empty one first, the others in random order:
 * a lawful policy of any form, its tags not numbered upwards. */
static uint32_t random_sets(uint32_t sets[MOST_TAGS])
{
    uint32_t n = 1, tries = below(8);

    sets[0] = 0;
    while (tries-- > 0) {
        uint32_t now[64], count = n, fresh = 1 + below(63);

        memcpy(now, sets, n * sizeof sets[0]);
        for (uint32_t i = 0; i < n; i++) {
            uint32_t joined = sets[i] | fresh, k = 0;
            while (k < count && now[k] != joined)
                k++;
            if (k == count)
                now[count++] = joined;
        }
        if (count > MOST_TAGS)
            continue;
        n = count;
        memcpy(sets, now, n * sizeof sets[0]);
    }
    if (chance(60))
        for (uint32_t i = n; i-- > 2;) {
            uint32_t k = 1 + below(i), t = sets[i];
            sets[i] = sets[k];
            sets[k] = t;
        }
    return n;
}

static void random_policy(struct call *c)
{
    uint32_t sets[MOST_TAGS], n, ports;

    if (chance(15)) {
        c->policy_len = house_policy(c->policy);
        return;
    }
    n = random_sets(sets);
    ports = chance(5) ? below(17) : 2 + below(3);
    memcpy(c->policy, "RJP\1\0\0", 6);
    c->policy[6] = (uint8_t)n;
    c->policy[7] = (uint8_t)ports;
    for (uint32_t a = 0; a < n; a++)
        for (uint32_t b = 0; b < n; b++) {
            uint32_t k = 0;
            while (sets[k] != (sets[a] | sets[b]))
                k++;
            c->policy[8 + n * a + b] = (uint8_t)k;
        }
    for (uint32_t p = 0; p < ports; p++)
        c->policy[8 + n * n + p] = (uint8_t)below(n);
    c->policy_len = 8 + n * n + ports;
}

/* ---- recipes */

static int32_t random_value(void)
{
    static const int32_t corners[] = { 0, 1, -1, 2, -2, 3, 7, 255, 65536, -7,
                                       INT32_MAX, INT32_MIN, INT32_MIN + 1 };

    if (chance(50))
        return (int32_t)below(6);
    if (chance(80))
        return corners[below(sizeof corners / sizeof corners[0])];
    return (int32_t)any();
}

/* A lower number, mostly a near one, so that much of the table is reached. */
static uint32_t lower(uint32_t n)
{
    uint32_t near = n < 4 ? n : 4;

    return chance(75) ? n - 1 - below(near) : below(n);
}

static void random_expressions(struct recipe *r, uint32_t count)
{
    uint32_t spread[MOST_EXPRESSIONS];
    uint32_t deep = chance(10);               /* unary chains */
    uint32_t most = chance(97) ? 256 : 65536; /* some go beyond the limit */

    while (r->E < count) {
        uint32_t e = r->E, pick = most > 256 && chance(70) ? 99 : below(100), a, b;

        if (e > 0 && (pick >= 45 || (deep && pick >= 3))) {
            a = (deep || most > 256) && chance(95) ? e - 1 : lower(e);
            b = most > 256 ? a : lower(e);
            if (pick < 60 && spread[a] < most) {
                /* an index by chance is mostly out of range */
                if (r->M > 0 && e + 1 < count && chance(70)) {
                    a = constant(r, (int32_t)below(r->M));
                    spread[a] = 1;
                }
                spread[r->E] = 1 + spread[a];
                cell(r, a);
                continue;
            }
            if ((pick < 72 || (deep && pick < 97)) && spread[a] < most) {
                spread[e] = 1 + spread[a];
                unary(r, deep && chance(90) ? NEGATE : below(3), a);
                continue;
            }
            if (spread[a] + spread[b] < most) {
                spread[e] = 1 + spread[a] + spread[b];
                binary(r, chance(30) ? ADD : below(9), a, b);
                continue;
            }
        }
        spread[e] = 1;
        if (pick % 2 == 0 && r->V > 0)
            variable(r, below(r->V));
        else
            constant(r, random_value());
    }
}

static void random_statements(struct recipe *r, uint32_t count, uint32_t ports)
{
    while (r->S < count) {
        uint32_t s = r->S, pick = below(100);

        if (s > 0 && pick < 30)
            then(r, lower(s), lower(s));
        else if (s > 0 && r->E > 0 && pick < 45)
            when(r, lower(r->E), lower(s), lower(s));
        else if (s > 0 && r->E > 0 && pick < 54)
            repeat(r, lower(r->E), lower(s));
        else if (r->V > 0 && r->E > 0 && pick < 76)
            assign(r, below(r->V), lower(r->E));
        else if (r->E > 0 && pick < 88)
            store(r, r->M > 0 && r->E < MOST_EXPRESSIONS && chance(70)
                         ? constant(r, (int32_t)below(r->M)) : lower(r->E), lower(r->E));
        else if (r->E > 0 && pick < 96)
            emit(r, ports > 0 ? below(ports) : below(2), lower(r->E));
        else
            skip(r);
    }
}

/* A loop that ends: random loops seldom do. */
static void count_down(struct recipe *r, uint32_t v)
{
    uint32_t x, down, body = r->S - 1;

    if (r->E + 3 > MOST_EXPRESSIONS || r->S + 3 > MOST_STATEMENTS)
        return;
    x = variable(r, v);
    down = binary(r, ADD, x, constant(r, -1));
    repeat(r, x, then(r, body, assign(r, v, down)));
}

static void random_memory(struct call *c, uint32_t places, uint32_t tags)
{
    uint32_t manner = below(4), one = below(tags);

    for (uint32_t i = 0; i < places; i++)
        put_place(c, i, random_value(),
                  manner == 0   ? 0
                  : manner == 1 ? one
                  : manner == 2 ? below(tags)
                  : chance(50)  ? one
                                : 0);
    c->memory_len = 5 * places;
}

static void random_call(struct call *c)
{
    static struct recipe r;
    uint32_t large = below(1000) < 4, loops = chance(35) ? 1 + below(2) : 0;

    random_policy(c);
    r.E = r.S = 0;
    r.V = large ? below(65) : below(7);
    r.M = large ? below(1025) : chance(20) ? 0 : below(9);
    random_expressions(&r, large ? below(1025) : chance(3) ? below(300) : below(30));
    random_statements(&r, 1 + (large ? below(512) : below(24)), c->policy[7]);
    while (loops-- > 0 && r.V > 0)
        count_down(&r, below(r.V));
    c->recipe_len = assemble(&r, c->recipe);
    random_memory(c, r.V + r.M, c->policy[6]);
    c->room = chance(70) ? 5 * below(12) + below(5) : below(2000);
    c->budget = chance(3)    ? 0
                : chance(30) ? 1 + below(12)
                : chance(99) ? 1 + below(400)
                             : below(30000);
}

/* ---- damage */

static void hurt_byte(uint8_t *b, size_t from, size_t to)
{
    size_t i = from + below((uint32_t)(to - from));

    if (chance(40))
        b[i] ^= (uint8_t)(1u << below(8));
    else
        b[i] = (uint8_t)(chance(50) ? below(18) : any());
}

static void hurt_length(size_t *len, size_t max)
{
    size_t by = 1 + below(9);

    if (chance(10))
        *len = below((uint32_t)*len + 1);
    else if (chance(50))
        *len = *len < by ? 0 : *len - by;
    else
        *len = *len + by > max ? max : *len + by;
}

/* Another join for a pair, both ways round, so that not only the commutative
 * law is broken; or the tags 0 and k exchanged, which breaks no law but that
 * of tag 0. */
static void hurt_joins(struct call *c)
{
    uint8_t old[MOST_TAGS * MOST_TAGS], *joins = c->policy + 8;
    uint32_t n = c->policy[6], a, b;

    if (n < 2 || n > MOST_TAGS)
        return;
    a = below(n);
    b = below(n);
    if (chance(75)) {
        joins[n * a + b] = joins[n * b + a] = (uint8_t)below(n);
        return;
    }
    memcpy(old, joins, n * n);
    for (uint32_t i = 0; i < n; i++)
        for (uint32_t k = 0; k < n; k++) {
            uint32_t x = i == 0 ? a : i == a ? 0 : i, y = k == 0 ? a : k == a ? 0 : k;
            uint8_t j = old[n * x + y];
            joins[n * i + k] = j == 0 ? (uint8_t)a : j == a ? 0 : j;
        }
}

static void damage(struct call *c)
{
    uint32_t pick = below(100);

    if (c->recipe_len < 24 || c->policy_len < 9)
        return; /* hurt enough */
    if (pick < 10) {
        hurt_byte(c->recipe, 0, 16);
    } else if (pick < 55) {
        /* a byte of some record: the kind, operator and port bytes oftener */
        size_t i = 8 * (size_t)(2 + below((uint32_t)(c->recipe_len / 8 - 2)));
        hurt_byte(c->recipe, i, i + (chance(50) ? 2 : 8));
    } else if (pick < 60) {
        hurt_length(&c->recipe_len, sizeof c->recipe);
    } else if (pick < 66) {
        hurt_byte(c->policy, 0, 8);
    } else if (pick < 72) {
        hurt_joins(c);
    } else if (pick < 80) {
        size_t n = c->policy[6], i = 8 + below((uint32_t)(c->policy_len - 8));
        c->policy[i] = (uint8_t)(chance(80) ? below((uint32_t)n) : below((uint32_t)n + 3));
    } else if (pick < 84) {
        hurt_length(&c->policy_len, sizeof c->policy);
    } else if (pick < 88) {
        hurt_length(&c->memory_len, sizeof c->memory);
    } else if (c->memory_len >= 5) {
        size_t i = below((uint32_t)(c->memory_len / 5));
        c->memory[5 * i + 4] = (uint8_t)(chance(50) ? c->policy[6] : any());
    }
}

/* ---- the comparison */

struct outcome {
    uint32_t number;
    uint8_t *memory, *records, *report;
};

static uint8_t *copy_of(const uint8_t *b, size_t len)
{
    uint8_t *to = len == 0 ? NULL : malloc(len);

    if (len > 0) {
        if (to == NULL)
            exit(2);
        memcpy(to, b, len);
    }
    return to;
}

static struct outcome tried(judge_fn *judge, const struct call *c, const uint8_t *room,
                            const uint8_t *report, size_t report_len)
{
    struct outcome o;
    uint8_t *recipe = copy_of(c->recipe, c->recipe_len);
    uint8_t *policy = copy_of(c->policy, c->policy_len);

    o.memory = copy_of(c->memory, c->memory_len);
    o.records = copy_of(room, c->room);
    o.report = copy_of(report, report_len);
    o.number = judge(recipe, c->recipe_len, policy, c->policy_len, o.memory, c->memory_len,
                     o.records, c->room, o.report, report_len, c->budget);
    free(recipe);
    free(policy);
    return o;
}

static void let_go(struct outcome *o)
{
    free(o->memory);
    free(o->records);
    free(o->report);
}

static int same(const uint8_t *a, const uint8_t *b, size_t len)
{
    return len == 0 || memcmp(a, b, len) == 0;
}

static void print_bytes(const char *name, const uint8_t *b, size_t len)
{
    printf("%s (%zu):", name, len);
    for (size_t i = 0; i < len; i++)
        printf(" %02x", b[i]);
    printf("\n");
}

static void print_case(const struct call *c)
{
    printf("budget %u, room %zu\n", c->budget, c->room);
    print_bytes("recipe", c->recipe, c->recipe_len);
    print_bytes("policy", c->policy, c->policy_len);
    print_bytes("memory", c->memory, c->memory_len);
}

static uint8_t room[2048], report[32];
static uint64_t ends[32], steps;

/* All machines on one input; 1 and a print where they differ. */
static int compared(const struct call *c, size_t report_len, const char *what, uint64_t k)
{
    const struct named *literal = &machines[machine_count - 1];
    struct outcome good = tried(literal->judge, c, room, report, report_len);
    int wrong = 0;

    ends[good.number < 32 ? good.number : 31]++;
    if (good.number < 16)
        steps += get_word(good.report + 4);
    for (uint32_t i = 0; i + 1 < machine_count && !wrong; i++) {
        struct outcome o = tried(machines[i].judge, c, room, report, report_len);

        if (o.number != good.number || !same(o.report, good.report, report_len) ||
            !same(o.memory, good.memory, c->memory_len) ||
            !same(o.records, good.records, c->room)) {
            printf("fuzz: %s %llu: %s differs from %s\n", what, (unsigned long long)k,
                   machines[i].name, literal->name);
            print_case(c);
            printf("%s: %u\n", literal->name, good.number);
            print_bytes("report", good.report, report_len);
            print_bytes("memory", good.memory, c->memory_len);
            printf("%s: %u\n", machines[i].name, o.number);
            print_bytes("report", o.report, report_len);
            print_bytes("memory", o.memory, c->memory_len);
            wrong = 1;
        }
        let_go(&o);
    }
    let_go(&good);
    return wrong;
}

/* Every table of joins of up to 3 tags, and of 4 and 5 tags every one that is
 * commutative and has join(t,t) = t and join(0,t) = t: chance finds few tables
 * of which only the associative law is in doubt. */
static int small_policies(void)
{
    static struct call c;
    static struct recipe r;
    uint64_t k = 0;

    skip(&r);
    c.recipe_len = assemble(&r, c.recipe);
    c.budget = 1;
    memcpy(c.policy, "RJP\1\0\0", 6);
    for (uint32_t n = 1; n <= 5; n++) {
        uint8_t *joins = c.policy + 8, *free_entry[16], *mirror[16];
        uint32_t entries = 0, i = 0;

        c.policy[6] = (uint8_t)n;
        c.policy_len = 8 + n * n;
        for (uint32_t a = 0; a < n; a++)
            for (uint32_t b = 0; b < n; b++) {
                joins[n * a + b] = n <= 3 ? 0 : (uint8_t)(a > b ? a : b);
                if (n <= 3 || (0 < a && a < b)) {
                    mirror[entries] = n <= 3 ? &joins[n * a + b] : &joins[n * b + a];
                    free_entry[entries] = &joins[n * a + b];
                    *free_entry[entries] = *mirror[entries] = 0;
                    entries++;
                }
            }
        /* counting upwards in base n, a digit for each free entry */
        do {
            if (compared(&c, 12, "small policy", k++))
                return 1;
            for (i = 0; i < entries; i++) {
                *mirror[i] = *free_entry[i] = (uint8_t)((*free_entry[i] + 1u) % n);
                if (*free_entry[i] != 0)
                    break;
            }
        } while (i < entries);
    }
    return 0;
}

int main(int argc, char **argv)
{
    static struct call c;
    uint64_t cases = argc > 1 ? strtoull(argv[1], NULL, 0) : 1000000;

    state = argc > 2 ? strtoull(argv[2], NULL, 0) : 1;
    state = state * 0x9E3779B97F4A7C15u + 1;
    for (size_t i = 0; i < sizeof room; i++)
        room[i] = (uint8_t)any();
    for (size_t i = 0; i < sizeof report; i++)
        report[i] = (uint8_t)any();

    if (small_policies())
        return 1;
    for (uint64_t k = 0; k < cases; k++) {
        size_t report_len = chance(98) ? 12 + below(5) : below(12);

        random_call(&c);
        if (chance(40))
            damage(&c);
        if (chance(4))
            damage(&c);
        if (compared(&c, report_len, "case", k))
            return 1;
    }

    printf("fuzz: %llu cases and all small policies, %u machines alike, %llu steps; ends",
           (unsigned long long)cases, machine_count, (unsigned long long)steps);
    for (uint32_t i = 0; i < 32; i++)
        if (ends[i] > 0)
            printf(" %u:%llu", i, (unsigned long long)ends[i]);
    printf("\n");
    return 0;
}
