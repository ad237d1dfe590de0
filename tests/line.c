/*
 * line [FOLDER]: the line of the thin program, by way of the C host's entry.
 * Reads recipe.bin, policy.bin and memory.bin of the folder (default: the one
 * it is run in), runs them with budget 10,000 and 320 bytes of record room,
 * and prints end, place, steps and records. A missing file counts as empty; of
 * a too long one, one byte over the longest accepted length is handed on, and
 * the machine refuses it for its length.
 */
#include <stdio.h>
#include <stdlib.h>

#include "vraduceni.h"

static size_t get_file(const char *folder, const char *name, uint8_t *at, size_t room)
{
    char path[4096];
    size_t length = 0;
    FILE *f;
    int n = snprintf(path, sizeof path, "%s/%s", folder, name);
    if (n < 0 || (size_t)n >= sizeof path) {
        fputs("line: the folder's name is too long\n", stderr);
        exit(1);
    }
    f = fopen(path, "rb");
    if (f != NULL) {
        length = fread(at, 1, room, f);
        fclose(f);
    }
    return length;
}

static unsigned long get(const uint8_t *at, unsigned count)
{
    return count == 0 ? 0 : at[0] + 256 * get(at + 1, count - 1);
}

int main(int argc, char **argv)
{
    static uint8_t recipe[VRADUCENI_LONGEST_RECIPE + 1], policy[VRADUCENI_LONGEST_POLICY + 1];
    static uint8_t memory[VRADUCENI_LONGEST_MEMORY + 1], records[320];
    uint8_t report[VRADUCENI_REPORT_LENGTH];
    const char *folder = argc > 1 ? argv[1] : ".";
    size_t recipe_length = get_file(folder, "recipe.bin", recipe, sizeof recipe);
    size_t policy_length = get_file(folder, "policy.bin", policy, sizeof policy);
    size_t memory_length = get_file(folder, "memory.bin", memory, sizeof memory);

    vraduceni_judge(recipe, recipe_length, policy, policy_length, memory, memory_length,
                    records, sizeof records, report, sizeof report, 10000);
    printf("%lu %lu %lu %lu\n", get(report + VRADUCENI_REPORT_END, 2),
           get(report + VRADUCENI_REPORT_PLACE, 2), get(report + VRADUCENI_REPORT_STEPS, 4),
           get(report + VRADUCENI_REPORT_RECORDS, 4));
    return 0;
}
