/* The recipes that are timed, and the inputs on which the checks are timed. */
#ifndef RECIPES_H
#define RECIPES_H

#include "assemble.h"

/* One recipe that is run: `call` builds its inputs. The work grows with
 * `scale`; at 1 the run takes about 10,000 steps, and ends. After the run the
 * place `result` holds a number that the Lua script of the same name prints. */
struct timed {
    const char *name, *what;
    void (*call)(struct call *c, uint32_t scale);
    uint32_t result;
};
extern const struct timed timed_runs[];
extern const uint32_t timed_run_count;

/* One input whose checks are timed: the budget is 1. */
struct timed_check {
    const char *name;
    void (*call)(struct call *c);
};
extern const struct timed_check timed_checks[];
extern const uint32_t timed_check_count;

/* The deepest evaluation and spread: 255 unary operators over a constant, and
 * `more` expressions over that, each with the greatest spread. The last
 * statement assigns the last of them. */
void deepest(struct call *c, uint32_t more);

#endif
