/* Words for every number of vraduceni.h. ends_check holds this table to the
 * header, to the help page and to the definitions. */
#ifndef VRADUCENI_WORDS_H
#define VRADUCENI_WORDS_H

#include <stddef.h>

#include "vraduceni.h"

struct number_words {
    uint32_t number;
    const char *words;
};

static const struct number_words number_words[] = {
    { VRADUCENI_END_DONE, "done" },
    { VRADUCENI_END_BUDGET, "budget used, not done" },
    { VRADUCENI_END_ASSIGN_TAG, "a marked branch would write a variable that lacks the mark" },
    { VRADUCENI_END_STORE_TAG, "a marked branch or index would write a cell that lacks the mark" },
    { VRADUCENI_END_EMIT_TAG, "a marked branch or value would reach a port not cleared for the mark" },
    { VRADUCENI_END_INDEX, "cell index out of range" },
    { VRADUCENI_END_DIVISOR, "division by zero" },
    { VRADUCENI_END_ROOM, "no room left for a record" },
    { VRADUCENI_END_FRAMES, "no frame left" },
    { VRADUCENI_REFUSAL_RECIPE_LENGTH, "recipe refused: its length" },
    { VRADUCENI_REFUSAL_RECIPE_MARK, "recipe refused: its mark" },
    { VRADUCENI_REFUSAL_RECIPE_VERSION, "recipe refused: its version" },
    { VRADUCENI_REFUSAL_RECIPE_HEADER, "recipe refused: zero bytes or counts of its header" },
    { VRADUCENI_REFUSAL_BAD_EXPRESSION, "recipe refused: malformed expression" },
    { VRADUCENI_REFUSAL_WIDE_EXPRESSION, "recipe refused: expression with a spread over 256" },
    { VRADUCENI_REFUSAL_BAD_STATEMENT, "recipe refused: malformed statement" },
    { VRADUCENI_REFUSAL_POLICY_HEADER, "policy refused: its header or length" },
    { VRADUCENI_REFUSAL_POLICY_ENTRY, "policy refused: entry that is no tag" },
    { VRADUCENI_REFUSAL_POLICY_LAW, "policy refused: a law of the join is broken" },
    { VRADUCENI_REFUSAL_BAD_PORT, "recipe refused: emit on a port that the policy lacks" },
    { VRADUCENI_REFUSAL_MEMORY_LENGTH, "memory refused: its length" },
    { VRADUCENI_REFUSAL_MEMORY_TAG, "memory refused: tag that the policy lacks" },
    { VRADUCENI_REFUSAL_HOUSE_ROOM, "too little room for the house policy" },
    { VRADUCENI_REFUSAL_REPORT_ROOM, "too little room for the report" }
};

#define NUMBER_WORDS_COUNT (sizeof number_words / sizeof number_words[0])

/* NULL for a number that has no words. */
static inline const char *words_of(uint32_t number)
{
    size_t i;
    for (i = 0; i < NUMBER_WORDS_COUNT; i++) {
        if (number_words[i].number == number) {
            return number_words[i].words;
        }
    }
    return NULL;
}

#endif
