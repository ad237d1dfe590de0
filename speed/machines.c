#include "machines.h"

const struct named machines[] = {
    { "plain", plain_judge },
    { "vraduceni", vraduceni_judge },
#ifndef NO_RUST
    { "second", second_judge },
    { "rust", rust_judge },
#endif
    { "threaded", threaded_judge },
    { "literal", literal_judge },
};
const uint32_t machine_count = sizeof machines / sizeof machines[0];
