/* Thins a line of five points and prints the indices kept: 0, 3 and 4. */
#include "pylonfrith.h"

#include <inttypes.h>
#include <stdio.h>

enum { COUNT = 5 };

int main(void) {
    const double x[COUNT] = {5, 3, 6, 7, 10}, y[COUNT] = {2, 8, 20, 25, 10};
    uint32_t kept[COUNT] = {0};
    double floats[COUNT * PF_SCRATCH_FLOATS_PER_POINT] = {0};
    uint32_t words[COUNT * PF_SCRATCH_WORDS_PER_POINT] = {0};

    uint64_t answer = pf_simplify_vw_idx(x, COUNT, y, COUNT, 30.0, kept, COUNT,
                                         floats, sizeof floats / sizeof *floats,
                                         words, sizeof words / sizeof *words);
    if (!pf_is_accepted(answer)) {
        fprintf(stderr, "refused, reason %" PRIu32 "\n", pf_status(answer));
        return 1;
    }
    for (uint32_t at = 0; at < pf_value(answer); at++) {
        printf("%" PRIu32 "\n", kept[at]);
    }
    return 0;
}
