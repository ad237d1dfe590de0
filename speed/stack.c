/* How much C stack one call takes, in bytes, for the inputs that go deepest.
 *
 * The call runs on a thread whose stack is painted beforehand; what is no
 * longer paint has been used. A thread that calls nothing of the kind gives
 * the floor, which is taken off. A machine may skip over bytes that it
 * reserves and does not write, so the figure is what was touched: the lowest
 * byte written counts.
 */
#include <pthread.h>
#include <stdio.h>
#include <stdlib.h>
#include <string.h>

#include "recipes.h"

enum { STACK = 4 << 20, PAINT = 0xC5 };

struct job {
    judge_fn *judge;
    const struct call *call;
    uint8_t memory[MEMORY_MAX], *records, report[12];
    uint32_t end;
};

static void *work(void *arg)
{
    struct job *j = arg;
    const struct call *c = j->call;

    j->end = j->judge(c->recipe, c->recipe_len, c->policy, c->policy_len, j->memory, c->memory_len,
                      j->records, c->room, j->report, sizeof j->report, c->budget);
    return NULL;
}

static uint32_t nothing(const uint8_t *recipe, size_t recipe_len, const uint8_t *policy,
                        size_t policy_len, uint8_t *memory, size_t memory_len, uint8_t *records,
                        size_t records_len, uint8_t *report, size_t report_len, uint32_t budget)
{
    (void)recipe; (void)recipe_len; (void)policy; (void)policy_len; (void)memory;
    (void)memory_len; (void)records; (void)records_len; (void)report; (void)report_len;
    return budget;
}

/* Bytes of stack that the thread wrote to, from the stack's end down. */
static size_t used(judge_fn *judge, const struct call *c, uint32_t *end)
{
    static struct job j;
    uint8_t *stack = aligned_alloc(4096, STACK);
    pthread_attr_t attr;
    pthread_t thread;
    size_t low = 0;

    j.judge = judge;
    j.call = c;
    j.records = malloc(c->room + 1);
    if (stack == NULL || j.records == NULL)
        exit(2);
    memcpy(j.memory, c->memory, c->memory_len < sizeof j.memory ? c->memory_len : sizeof j.memory);
    memset(stack, PAINT, STACK);
    if (pthread_attr_init(&attr) != 0 || pthread_attr_setstack(&attr, stack, STACK) != 0 ||
        pthread_create(&thread, &attr, work, &j) != 0 || pthread_join(thread, NULL) != 0) {
        fprintf(stderr, "stack: no thread\n");
        exit(2);
    }
    pthread_attr_destroy(&attr);
    while (low < STACK && stack[low] == PAINT)
        low++;
    *end = j.end;
    free(j.records);
    free(stack);
    return STACK - low;
}

/* ---- the inputs */

static void deepest_run(struct call *c) { deepest(c, 1); }

/* The same recipe, refused after its checks: the memory is one byte short. */
static void deepest_check(struct call *c)
{
    deepest(c, 1);
    c->memory_len--;
}

/* c[c[...c[0]...]] to the greatest spread. */
static void deepest_index(struct call *c)
{
    static struct recipe r;
    uint32_t e;

    deepest(c, 1);
    memset(&r, 0, sizeof r);
    r.V = 1;
    r.M = 1;
    e = constant(&r, 0);
    while (r.E < MOST_SPREAD)
        e = cell(&r, e);
    assign(&r, 0, e);
    c->recipe_len = assemble(&r, c->recipe);
    memset(c->memory, 0, 10);
    c->memory_len = 10;
}

/* Binary operators: 127 deep on the left, or on the right. */
static void deepest_sum(struct call *c, int on_the_right)
{
    static struct recipe r;
    uint32_t leaf, e;

    deepest(c, 1);
    memset(&r, 0, sizeof r);
    r.V = 1;
    e = leaf = variable(&r, 0);
    while (r.E < MOST_SPREAD / 2)
        e = on_the_right ? binary(&r, ADD, leaf, e) : binary(&r, ADD, e, leaf);
    assign(&r, 0, e);
    c->recipe_len = assemble(&r, c->recipe);
}

static void left_sum(struct call *c) { deepest_sum(c, 0); }
static void right_sum(struct call *c) { deepest_sum(c, 1); }

/* The most frames that can be held: S - 1, each statement inside the next. */
static void most_frames(struct call *c)
{
    static struct recipe r;

    deepest(c, 1);
    memset(&r, 0, sizeof r);
    r.V = 1;
    constant(&r, 1);
    skip(&r);
    while (r.S < MOST_STATEMENTS)
        when(&r, 0, r.S - 1, 0);
    c->recipe_len = assemble(&r, c->recipe);
}

/* Many steps: a machine whose steps are calls must not grow with them. */
static void long_run(struct call *c) { timed_runs[timed_run_count - 1].call(c, 1); }

static const struct timed_check inputs[] = {
    { "deepest run: unary operators", deepest_run },
    { "deepest run: indexes", deepest_index },
    { "deepest run: sums to the left", left_sum },
    { "deepest run: sums to the right", right_sum },
    { "deepest check, refused", deepest_check },
    { "most frames held", most_frames },
    { "10,000 steps", long_run },
};

int main(void)
{
    static struct call c;
    int wrong = 0;

    printf("Bytes of stack that one call writes to\n\n%-31s", "input");
    for (uint32_t i = 0; i < machine_count; i++)
        printf(" %9s", machines[i].name);
    printf("   end\n");
    for (uint32_t k = 0; k < sizeof inputs / sizeof inputs[0]; k++) {
        uint32_t end = 0, first = 0;
        size_t floor;

        inputs[k].call(&c);
        floor = used(nothing, &c, &end);
        printf("%-31s", inputs[k].name);
        for (uint32_t i = 0; i < machine_count; i++) {
            printf(" %9zu", used(machines[i].judge, &c, &end) - floor);
            if (i == 0)
                first = end;
            wrong |= end != first;
        }
        printf(" %5u\n", first);
    }
    if (wrong)
        printf("stack: the ends differ\n");
    return wrong;
}
