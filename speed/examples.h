/* The paper's worked examples, with the answers that it gives. */
#ifndef EXAMPLES_H
#define EXAMPLES_H

#include "machines.h"

/* Prints a line for each wrong answer; 0 if there is none. */
int examples_fail(const char *name, judge_fn *judge);

#endif
