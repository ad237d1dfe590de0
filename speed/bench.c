/* Times the machines side by side, in one process, on the same bytes.
 *
 *     bench --check            compare the answers only, a second or so
 *     bench [--lua FILE]       compare the answers, then print the tables;
 *                              FILE has the lines of lua/time.lua
 *     bench --names            the recipes' names, for scripts
 *     bench --check-names      the checked inputs: number, colon, name
 *     bench --one MACHINE NAME one call of one machine, for instruction
 *                              counts; prints the steps. NAME is a recipe's
 *                              name or a checked input's number
 *
 * Exit 1 if any answer differs, 2 for bad usage. Times decide nothing.
 *
 * Each time is the best of many rounds, and in each round all machines take
 * their turn, so that a slow spell of the computer hits them alike.
 */
#include <math.h>
#include <stdio.h>
#include <stdlib.h>
#include <string.h>
#include <time.h>

#include "examples.h"
#include "recipes.h"

enum { PLAIN = 0 };

/* The long runs are this many times the short ones: 400,000 steps. */
enum { LONG = 40 };

/* ---- one call */

struct buffers {
    uint8_t memory[MEMORY_MAX + SLACK], report[16], *records;
    size_t room;
};

static struct buffers buffers_for(size_t room)
{
    struct buffers b = { .records = malloc(room + 16), .room = room };

    if (b.records == NULL)
        exit(2);
    memset(b.records, 0xA5, room + 16);
    memset(b.report, 0x5A, sizeof b.report);
    return b;
}

static uint32_t judged(uint32_t machine, const struct call *c, struct buffers *b)
{
    memcpy(b->memory, c->memory, c->memory_len);
    return machines[machine].judge(c->recipe, c->recipe_len, c->policy, c->policy_len,
                                   b->memory, c->memory_len, b->records, c->room,
                                   b->report, 12, c->budget);
}

static uint32_t steps_in(const struct buffers *b) { return get_word(b->report + 4); }

/* ---- the answers */

/* All machines on one input, each into fresh buffers: 0 if all agree. The
 * bytes beyond the buffers' ends are looked at too. */
static int differs(const char *name, const struct call *c)
{
    struct buffers good = buffers_for(c->room);
    uint32_t number = judged(machine_count - 1, c, &good);
    int wrong = 0;

    for (uint32_t i = 0; i < machine_count; i++) {
        struct buffers b = buffers_for(c->room);
        uint32_t got = judged(i, c, &b);

        if (got != number || memcmp(b.report, good.report, sizeof b.report) != 0 ||
            memcmp(b.memory, good.memory, c->memory_len) != 0 ||
            memcmp(b.records, good.records, c->room + 16) != 0) {
            printf("bench: %s, budget %u: %s answers %u (place %u, steps %u, records %u), "
                   "literal %u (place %u, steps %u, records %u)\n",
                   name, c->budget, machines[i].name, got, get_half(b.report + 2), steps_in(&b),
                   get_word(b.report + 8), number, get_half(good.report + 2), steps_in(&good),
                   get_word(good.report + 8));
            wrong = 1;
        }
        free(b.records);
    }
    free(good.records);
    return wrong;
}

static int check_run(const struct timed *t)
{
    static const uint32_t budgets[] = { 0, 1, 2, 57, 4096, 9000, UINT32_MAX };
    static struct call c;
    struct buffers b;
    uint32_t end;
    int wrong = 0;

    for (uint32_t scale = 1; scale <= LONG; scale += LONG - 1) {
        t->call(&c, scale);
        for (uint32_t i = 0; i < sizeof budgets / sizeof budgets[0]; i++) {
            c.budget = budgets[i];
            wrong |= differs(t->name, &c);
        }
    }
    /* The recipe does what it is there for: it runs to its end, and with its
     * default budget too. */
    t->call(&c, 1);
    c.budget = 0;
    b = buffers_for(c.room);
    end = judged(PLAIN, &c, &b);
    if (end != 0 || steps_in(&b) < 9000) {
        printf("bench: %s ends with %u after %u steps\n", t->name, end, steps_in(&b));
        wrong = 1;
    }
    free(b.records);
    return wrong;
}

static int check_all(void)
{
    static struct call c;
    int wrong = 0;

    for (uint32_t i = 0; i < machine_count; i++)
        wrong |= examples_fail(machines[i].name, machines[i].judge);
    for (uint32_t i = 0; i < timed_run_count; i++)
        wrong |= check_run(&timed_runs[i]);
    for (uint32_t i = 0; i < timed_check_count; i++) {
        timed_checks[i].call(&c);
        for (c.budget = 0; c.budget < 3; c.budget++)
            wrong |= differs(timed_checks[i].name, &c);
    }
    printf(wrong ? "bench: answers differ\n" : "bench: all answers alike\n");
    return wrong;
}

/* ---- the times */

/* Processor time, not the wall's: others may use the computer meanwhile, and
 * Lua's clock counts the same way. */
static double now(void)
{
    struct timespec t;

    clock_gettime(CLOCK_PROCESS_CPUTIME_ID, &t);
    return 1e9 * (double)t.tv_sec + (double)t.tv_nsec;
}

static double sample(uint32_t machine, const struct call *c, struct buffers *b, uint32_t times)
{
    double from = now();

    for (uint32_t i = 0; i < times; i++)
        judged(machine, c, b);
    return (now() - from) / times;
}

/* Nanoseconds a call, for each machine: what `best` held, or less. */
static void better(const struct call *c, uint32_t rounds, double best[MOST_MACHINES])
{
    struct buffers b = buffers_for(c->room);
    double once = sample(PLAIN, c, &b, 3);
    uint32_t times = once > 250e3 ? 1 : (uint32_t)(250e3 / once);

    for (uint32_t round = 0; round < rounds; round++)
        for (uint32_t i = 0; i < machine_count; i++) {
            /* a machine that is far slower gets fewer calls, not more time */
            uint32_t fewer = best[i] == INFINITY || best[i] < 8 * once ? times : 1 + times / 8;
            double t = sample(i, c, &b, fewer);
            if (t < best[i])
                best[i] = t;
        }
    free(b.records);
}

static void from_nothing(double best[MOST_MACHINES])
{
    for (uint32_t i = 0; i < MOST_MACHINES; i++)
        best[i] = INFINITY;
}

/* Lua's nanoseconds for a run at scale 1, or 0 where they are not known. */
static double lua_time(const char *file, const char *name, long *result)
{
    FILE *f = file != NULL ? fopen(file, "r") : NULL;
    char line[64];
    double ns, found = 0;
    long value;

    if (f == NULL)
        return 0;
    while (fscanf(f, "%63s %lf %ld", line, &ns, &value) == 3)
        if (strcmp(line, name) == 0) {
            found = ns;
            *result = value;
        }
    fclose(f);
    return found;
}

/* The columns of ratios: the machines but plain, then Lua. */
enum { RATIOS = MOST_MACHINES };

static void print_heads(const char *first)
{
    printf("%-11s %9s %9s |", "recipe", "steps", first);
    for (uint32_t i = 1; i < machine_count; i++)
        printf(" %9s", machines[i].name);
    printf(" %9s\n", "lua");
}

static void print_row(const char *name, uint32_t steps, double ns, const double ratio[RATIOS])
{
    printf("%-11s %9u %9.2f |", name, steps, ns);
    for (uint32_t i = 0; i < machine_count; i++)
        if (ratio[i] > 0)
            printf(" %9.2f", ratio[i]);
        else
            printf(" %9s", "-");
    printf("\n");
}

/* Geometric means down the columns, and the largest ratio of each. */
static void print_means(const double *ns, double ratio[][RATIOS], uint32_t rows)
{
    double mean[RATIOS], worst[RATIOS], plain = 0;

    for (uint32_t r = 0; r < rows; r++)
        plain += log(ns[r]) / rows;
    for (uint32_t i = 0; i < machine_count; i++) {
        double sum = 0;
        worst[i] = 0;
        for (uint32_t r = 0; r < rows; r++) {
            sum += log(ratio[r][i] > 0 ? ratio[r][i] : 1);
            worst[i] = ratio[r][i] > worst[i] ? ratio[r][i] : worst[i];
        }
        mean[i] = worst[i] > 0 ? exp(sum / rows) : 0;
    }
    printf("%-11s %9s %9.2f |", "geo. mean", "", exp(plain));
    for (uint32_t i = 0; i < machine_count; i++)
        if (mean[i] > 0)
            printf(" %9.2f", mean[i]);
        else
            printf(" %9s", "-");
    printf("\n%-11s %9s %9s |", "worst", "", "");
    for (uint32_t i = 0; i < machine_count; i++)
        if (worst[i] > 0)
            printf(" %9.2f", worst[i]);
        else
            printf(" %9s", "-");
    printf("\n");
}

enum { MOST_ROWS = 16, PASSES = 12 };

static int time_runs(const char *lua_file)
{
    static struct call c;
    double whole[MOST_ROWS][MOST_MACHINES], far[MOST_ROWS][MOST_MACHINES], ratio[MOST_ROWS][RATIOS];
    double ns[MOST_ROWS] = { 0 }, lua[MOST_ROWS];
    uint32_t steps[MOST_ROWS], far_steps[MOST_ROWS], rows = timed_run_count;
    int wrong = 0;

    for (uint32_t r = 0; r < rows; r++) {
        const struct timed *t = &timed_runs[r];
        struct buffers b;
        long result = 0, expected;

        from_nothing(whole[r]);
        from_nothing(far[r]);
        t->call(&c, LONG);
        b = buffers_for(c.room);
        judged(PLAIN, &c, &b);
        far_steps[r] = steps_in(&b);
        t->call(&c, 1);
        judged(PLAIN, &c, &b);
        steps[r] = steps_in(&b);
        expected = (int32_t)get_word(b.memory + 5 * t->result);
        free(b.records);
        lua[r] = lua_time(lua_file, t->name, &result);
        if (lua[r] > 0 && result != expected) {
            printf("bench: %s: Lua's result is %ld, the machines' %ld\n", t->name, result,
                   expected);
            wrong = 1;
        }
    }
    /* Pass after pass over all recipes, so that no slow spell has one of them
     * to itself. */
    for (uint32_t pass = 0; pass < PASSES; pass++)
        for (uint32_t r = 0; r < rows; r++) {
            timed_runs[r].call(&c, LONG);
            better(&c, 5, far[r]);
            timed_runs[r].call(&c, 1);
            better(&c, 12, whole[r]);
        }

    printf("\nWhole calls, checks included; ns a step of plain C, then times its time\n\n");
    print_heads("plain ns");
    for (uint32_t r = 0; r < rows; r++) {
        ns[r] = whole[r][PLAIN] / steps[r];
        for (uint32_t i = 1; i < machine_count; i++)
            ratio[r][i - 1] = whole[r][i] / whole[r][PLAIN];
        ratio[r][machine_count - 1] = lua[r] / whole[r][PLAIN];
        print_row(timed_runs[r].name, steps[r], ns[r], ratio[r]);
    }
    print_means(ns, ratio, rows);

    printf("\nThe run alone: what each further step of a run %d times as long costs\n\n", LONG);
    print_heads("plain ns");
    for (uint32_t r = 0; r < rows; r++) {
        double more = (double)far_steps[r] - steps[r], plain = far[r][PLAIN] - whole[r][PLAIN];

        ns[r] = plain / more;
        for (uint32_t i = 1; i < machine_count; i++)
            ratio[r][i - 1] = (far[r][i] - whole[r][i]) / plain;
        ratio[r][machine_count - 1] = lua[r] / steps[r] / ns[r];
        print_row(timed_runs[r].name, far_steps[r], ns[r], ratio[r]);
    }
    print_means(ns, ratio, rows);

    printf("\nns a step, the run alone\n\n%-11s", "recipe");
    for (uint32_t i = 0; i < machine_count; i++)
        printf(" %9s", machines[i].name);
    printf(" %9s\n", "lua");
    for (uint32_t r = 0; r < rows; r++) {
        printf("%-11s", timed_runs[r].name);
        for (uint32_t i = 0; i < machine_count; i++)
            printf(" %9.2f", (far[r][i] - whole[r][i]) / ((double)far_steps[r] - steps[r]));
        if (lua[r] > 0)
            printf(" %9.2f\n", lua[r] / steps[r]);
        else
            printf(" %9s\n", "-");
    }
    return wrong;
}

static void time_checks(void)
{
    static struct call c;
    double best[MOST_ROWS][MOST_MACHINES];

    for (uint32_t pass = 0; pass < PASSES; pass++)
        for (uint32_t r = 0; r < timed_check_count; r++) {
            if (pass == 0)
                from_nothing(best[r]);
            timed_checks[r].call(&c);
            c.budget = 1;
            better(&c, 6, best[r]);
        }
    printf("\nThe checks alone (budget 1), microseconds a call\n\n%-27s", "input");
    for (uint32_t i = 0; i < machine_count; i++)
        printf(" %9s", machines[i].name);
    printf("\n");
    for (uint32_t r = 0; r < timed_check_count; r++) {
        printf("%-27s", timed_checks[r].name);
        for (uint32_t i = 0; i < machine_count; i++)
            printf(" %9.2f", best[r][i] / 1000);
        printf("\n");
    }
}

/* ---- one call, for instruction counts */

static int one(const char *machine, const char *name)
{
    static struct call c;
    uint32_t m = 0, r = 0;
    struct buffers b;

    while (m < machine_count && strcmp(machines[m].name, machine) != 0)
        m++;
    if (name[0] >= '0' && name[0] <= '9') {
        r = (uint32_t)atoi(name);
        if (m == machine_count || r >= timed_check_count)
            return 2;
        timed_checks[r].call(&c);
        c.budget = 1;
    } else {
        while (r < timed_run_count && strcmp(timed_runs[r].name, name) != 0)
            r++;
        if (m == machine_count || r == timed_run_count)
            return 2;
        timed_runs[r].call(&c, 1);
    }
    b = buffers_for(c.room);
    judged(m, &c, &b);
    printf("%u\n", steps_in(&b));
    free(b.records);
    return 0;
}

int main(int argc, char **argv)
{
    const char *lua_file = NULL;

    if (argc == 4 && strcmp(argv[1], "--one") == 0)
        return one(argv[2], argv[3]);
    if (argc == 2 && strcmp(argv[1], "--names") == 0) {
        for (uint32_t r = 0; r < timed_run_count; r++)
            printf("%s\n", timed_runs[r].name);
        return 0;
    }
    if (argc == 2 && strcmp(argv[1], "--check-names") == 0) {
        for (uint32_t r = 0; r < timed_check_count; r++)
            printf("%u:%s\n", r, timed_checks[r].name);
        return 0;
    }
    if (argc == 2 && strcmp(argv[1], "--check") == 0)
        return check_all();
    if (argc == 3 && strcmp(argv[1], "--lua") == 0)
        lua_file = argv[2];
    else if (argc != 1) {
        fprintf(stderr, "usage: bench [--check | --lua FILE | --names | --check-names | "
                        "--one MACHINE NAME]\n");
        return 2;
    }
    if (check_all() != 0)
        return 1;
    if (time_runs(lua_file) != 0)
        return 1;
    time_checks();
    return 0;
}
