/* The recipe machines that are compared, all behind the C host's entry.
 *
 * Each call checks recipe, policy and memory, runs the recipe, writes end and
 * place (16 bits each), steps and records (32 bits each) into the first 12
 * bytes of the report, and returns the end or refusal number. Budget 0 means
 * 10,000. The buffers must not overlap; an empty one may be NULL.
 */
#ifndef MACHINES_H
#define MACHINES_H

#include <stddef.h>
#include <stdint.h>

typedef uint32_t judge_fn(const uint8_t *recipe, size_t recipe_len,
                          const uint8_t *policy, size_t policy_len,
                          uint8_t *memory, size_t memory_len,
                          uint8_t *records, size_t records_len,
                          uint8_t *report, size_t report_len,
                          uint32_t budget);

judge_fn vraduceni_judge; /* the library under comparison */
judge_fn plain_judge;     /* plain.c: C, written for speed: one loop, one switch */
judge_fn threaded_judge;  /* threaded.c: C, as fast as an interpreter gets */
judge_fn literal_judge;   /* literal.c: C, the paper's text step by step */
judge_fn rust_judge;      /* rust/: safe Rust, written to be fast */
judge_fn second_judge;    /* second/: the second machine, ordinary safe Rust */

/* All of them, plain first and literal last. */
enum { MOST_MACHINES = 6 };
struct named { const char *name; judge_fn *judge; };
extern const struct named machines[];
extern const uint32_t machine_count;

enum {
    MOST_EXPRESSIONS = 1024,
    MOST_STATEMENTS = 512,
    MOST_VARIABLES = 64,
    MOST_CELLS = 1024,
    MOST_TAGS = 16,
    MOST_PORTS = 16,
    MOST_SPREAD = 256,
    HOUSE_BUDGET = 10000,
    HOUSE_POLICY_LEN = 266
};

#endif
