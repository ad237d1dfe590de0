/*
 * Vraduceni, the recipe machine: the C host's entries.
 *
 * C99, and C++ as well. Link with libvraduceni.a; beyond it only the C
 * library is needed. The rules are those of the scope paper (document 01);
 * docs/ENDS.md says of every number what happened and what to do next.
 *
 * For both entries:
 *   - A buffer is a pointer and the number of bytes that it lends. NULL is
 *     allowed where the length is 0.
 *   - The buffers of one call must not overlap one another. What happens with
 *     overlapping buffers is not promised. (Two empty ones do not overlap.)
 *   - Numbers of more than one byte are little-endian, signed ones in two's
 *     complement. No buffer needs any alignment.
 *   - No state is kept between calls, nothing is allocated and no file is
 *     touched. Several threads may call at once, each with its own memory,
 *     records and report (or out). Recipe and policy are only read, so
 *     threads may share those.
 */
#ifndef VRADUCENI_H
#define VRADUCENI_H

#include <stddef.h>
#include <stdint.h>

#ifdef __cplusplus
extern "C" {
#endif

/*
 * Every number that the entries return. An END comes from a run, a REFUSAL
 * from a check before it: a refused recipe has taken no step, its memory and
 * its record room are as they were.
 *
 * "place" is the report's second field: the statement carried out for ends 2
 * to 8, as noted for some refusals, and 0 where nothing is said.
 */
enum vraduceni_number {
    VRADUCENI_END_DONE = 0,                 /* done */
    VRADUCENI_END_BUDGET = 1,               /* budget used, not done; steps = budget */
    VRADUCENI_END_ASSIGN_TAG = 2,           /* tag check of assign */
    VRADUCENI_END_STORE_TAG = 3,            /* tag check of store */
    VRADUCENI_END_EMIT_TAG = 4,             /* tag check of emit */
    VRADUCENI_END_INDEX = 5,                /* index below 0 or not below M */
    VRADUCENI_END_DIVISOR = 6,              /* zero divisor */
    VRADUCENI_END_ROOM = 7,                 /* fewer than 5 bytes left for a record */
    VRADUCENI_END_FRAMES = 8,               /* a frame to push with S frames held */

    VRADUCENI_REFUSAL_RECIPE_LENGTH = 16,   /* recipe under 16 bytes, or not its exact length */
    VRADUCENI_REFUSAL_RECIPE_MARK = 17,     /* recipe mark */
    VRADUCENI_REFUSAL_RECIPE_VERSION = 18,  /* recipe version */
    VRADUCENI_REFUSAL_RECIPE_HEADER = 19,   /* recipe's zero bytes or counts */
    VRADUCENI_REFUSAL_BAD_EXPRESSION = 20,  /* expression malformed; place: its number */
    VRADUCENI_REFUSAL_WIDE_EXPRESSION = 21, /* spread over 256; place: the expression's number */
    VRADUCENI_REFUSAL_BAD_STATEMENT = 22,   /* statement malformed; place: its number */
    VRADUCENI_REFUSAL_POLICY_HEADER = 23,   /* policy header or length */
    VRADUCENI_REFUSAL_POLICY_ENTRY = 24,    /* policy entry not below n; place: its byte offset */
    VRADUCENI_REFUSAL_POLICY_LAW = 25,      /* a law of the policy broken */
    VRADUCENI_REFUSAL_BAD_PORT = 26,        /* an emit's port not below p; place: the statement's number */
    VRADUCENI_REFUSAL_MEMORY_LENGTH = 27,   /* memory not 5(V+M) bytes */
    VRADUCENI_REFUSAL_MEMORY_TAG = 28,      /* a tag not below n; place: the lowest such place's number */
    VRADUCENI_REFUSAL_HOUSE_ROOM = 29,      /* house policy wanted in under 266 bytes */
    VRADUCENI_REFUSAL_REPORT_ROOM = 30      /* C host's report buffer under 12 bytes */
};

/* Lengths in bytes. */
#define VRADUCENI_HOUSE_POLICY_LENGTH 266   /* the house policy */
#define VRADUCENI_REPORT_LENGTH 12          /* what is written of a report */
#define VRADUCENI_RECORD_LENGTH 5           /* a record: port byte, signed 32-bit value */
#define VRADUCENI_PLACE_LENGTH 5            /* a place of the memory: signed 32-bit value, tag byte */
#define VRADUCENI_LONGEST_RECIPE 12304      /* 16 + 8*1024 expressions + 8*512 statements */
#define VRADUCENI_LONGEST_POLICY 280        /* 8 + 16*16 joins + 16 clearances */
#define VRADUCENI_LONGEST_MEMORY 5440       /* 5*(64 variables + 1024 cells) */

/* The steps that budget 0 stands for. */
#define VRADUCENI_HOUSE_BUDGET 10000

/* Ports of the house policy. Its tags are sets of the four cameras 0 to 3:
 * camera k has the bit 2^k, tag 0 is the empty set. */
#define VRADUCENI_PORT_VERDICT 0            /* clearance 0 */
#define VRADUCENI_PORT_ALARM 1              /* clearance 15 */

/* Where the fields of a report begin. */
#define VRADUCENI_REPORT_END 0              /* 16 bits: the number that is returned */
#define VRADUCENI_REPORT_PLACE 2            /* 16 bits */
#define VRADUCENI_REPORT_STEPS 4            /* 32 bits: steps taken, 0 for a refusal */
#define VRADUCENI_REPORT_RECORDS 8          /* 32 bits: records written, 0 for a refusal */

/*
 * Checks recipe, policy and memory, then runs the recipe.
 *
 *   recipe   the recipe table; only read
 *   policy   the policy; only read
 *   memory   V variables, then M cells, 5 bytes each; the run changes it in
 *            place, and an early end leaves what earlier steps wrote
 *   records  room for what the recipe emits, 5 bytes a record from the front;
 *            the bytes after the last record keep their old content
 *   report   the first 12 bytes are written, the rest stays
 *   budget   the most steps the run may take; 0 means 10,000
 *
 * Returns the number, which is also the report's first field. The report is
 * written for every number except 30, refusals included; 30 writes nothing at
 * all. 29 is never returned here.
 */
uint32_t vraduceni_judge(const uint8_t *recipe, size_t recipe_len,
                         const uint8_t *policy, size_t policy_len,
                         uint8_t *memory, size_t memory_len,
                         uint8_t *records, size_t records_len,
                         uint8_t *report, size_t report_len,
                         uint32_t budget);

/*
 * Writes the house policy into the first 266 bytes of out; the rest stays.
 * Returns 0, or 29 with nothing written when out_len is under 266.
 */
uint32_t vraduceni_house_policy(uint8_t *out, size_t out_len);

#ifdef __cplusplus
}
#endif

#endif
