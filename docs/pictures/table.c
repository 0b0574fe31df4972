/* Grows a small tree with the engine and prints its count and root, then its table, one row to a line, for draw.py. */
#include "../../include/vundreli.h"
#include <stdio.h>

enum { CAPACITY = 16 };

static uint16_t fields[12 * CAPACITY], ancestors[122 * CAPACITY], tally[NCA_TALLY_LEN], scratch[NCA_GROWTH_SCRATCH_LEN];
static uint64_t numbers[2 * CAPACITY];
static int32_t levels[CAPACITY];

#define PARTS fields, 12 * CAPACITY, numbers, 2 * CAPACITY, levels, CAPACITY, ancestors, 122 * CAPACITY, tally, NCA_TALLY_LEN

/* Parents in order of arrival; ROOT stands for a new root. */
#define ROOT 65535
static const uint16_t parents[] = {0, 1, 2, 3, 1, 2, 6, 0, ROOT, 9, 3, 4};

int main(void) {
    uint16_t out[4], root;
    if (nca_table_set_up(PARTS, out, 1) != 0) return 1;
    if (nca_table_add_first(PARTS, scratch, NCA_GROWTH_SCRATCH_LEN, out[0], out, 4) != 0) return 1;
    root = out[1];
    for (unsigned i = 0; i < sizeof parents / sizeof parents[0]; i++) {
        uint16_t refusal = parents[i] == ROOT ? nca_table_add_root(PARTS, scratch, NCA_GROWTH_SCRATCH_LEN, out[0], root, 0, 0, out, 4)
                                              : nca_table_add_leaf(PARTS, scratch, NCA_GROWTH_SCRATCH_LEN, out[0], parents[i], (uint16_t)(i + 2), 0, out, 4);
        if (refusal != 0) return 1;
        if (parents[i] == ROOT) root = out[1];
    }
    printf("%u %u\n", (unsigned)out[0], (unsigned)root);
    for (unsigned x = 0; x < out[0]; x++) {
        for (unsigned k = 0; k < 10; k++) printf("%u ", (unsigned)fields[12 * x + k]);
        printf("%llu %llu %d\n", (unsigned long long)numbers[2 * x], (unsigned long long)numbers[2 * x + 1], (int)levels[x]);
    }
    return 0;
}
