/* Tallies two blocks of samples and joins them. Build, after tests/staticlib:
 *     gcc -std=c11 -Wall -Wextra -Werror -Iinclude examples/blocks.c target/staticlib/libmonitor.a -o target/blocks && target/blocks */
#include <inttypes.h>
#include <stdio.h>

#include "rde.h"

/* The k-th number of a tally. */
static uint64_t number(const uint8_t *tally, int k)
{
    uint64_t n = 0;
    for (int i = 7; i >= 0; i--)
        n = 256 * n + tally[8 * k + i];
    return n;
}

/* The same where it is U or extended U, which may be below zero. */
static int64_t signed_number(const uint8_t *tally, int k)
{
    return (int64_t)number(tally, k);
}

int main(void)
{
    /* two samples at 50.0 and 100.1 km/h and 293.1 K, and one at 130.0 km/h and 304.1 K, which is extended: 100 m up, 100.0 kg/h, 20 ppm */
    const uint8_t first[32] = {0, 0, 244, 1, 100, 0, 115, 11, 232, 3, 20, [16] = 1, 0, 233, 3, 100, 0, 115, 11, 232, 3, 20};
    const uint8_t second[16] = {0, 0, 20, 5, 100, 0, 225, 11, 232, 3, 20};
    uint8_t a[RDE_TALLY_LEN], b[RDE_TALLY_LEN], both[RDE_TALLY_LEN];
    if (rde_tally(first, sizeof first, a, sizeof a).refusal != RDE_OK ||
        rde_tally(second, sizeof second, b, sizeof b).refusal != RDE_OK ||
        rde_join(a, sizeof a, b, sizeof b, both, sizeof both).refusal != RDE_OK)
        return 1;
    printf("samples: urban %" PRIu64 ", rural %" PRIu64 ", motorway %" PRIu64 "\n", number(both, 0), number(both, 1), number(both, 2));
    printf("motorway distance: %" PRIu64 " units of 1/36000 km\n", number(both, 5));
    printf("channel 6: %" PRId64 ", of it %" PRId64 " in extended conditions\n", signed_number(both, 12), signed_number(both, 13));
    return 0;
}
