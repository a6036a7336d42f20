/* The tally of 7,200 samples by the core and by a plain C loop, in one run. */
#include <stdlib.h>
#include <string.h>

#include "measure.h"
#include "plain.h"

#define SAMPLES 7200

static uint8_t block[16 * SAMPLES];
static uint8_t core_out[RDE_TALLY_LEN], plain_out[RDE_TALLY_LEN];

static void core(void)
{
    if (rde_tally(block, sizeof block, core_out, sizeof core_out).refusal != 0)
        exit(1);
}

static void plain(void)
{
    if (plain_tally(block, sizeof block, plain_out, sizeof plain_out) != 0)
        exit(1);
}

int main(void)
{
    srand(1);
    for (int i = 0; i < SAMPLES; i++) {
        /* a tenth of NOx is below zero; temperature and altitude go through every edge of the extended conditions, one at a time */
        unsigned v = (unsigned)rand() % 1500, f = (unsigned)rand() % 3000, x = (unsigned)rand() % 300;
        unsigned t = 2650 + (unsigned)i / 16, a = (unsigned)i / 2 % 1400;
        uint8_t *p = block + 16 * i;
        x = x < 30 ? -x : x;
        p[0] = (uint8_t)i, p[1] = (uint8_t)(i / 256);
        p[2] = (uint8_t)v, p[3] = (uint8_t)(v / 256);
        p[4] = (uint8_t)a, p[5] = (uint8_t)(a / 256);
        p[6] = (uint8_t)t, p[7] = (uint8_t)(t / 256);
        p[8] = (uint8_t)f, p[9] = (uint8_t)(f / 256);
        p[10] = (uint8_t)x, p[11] = (uint8_t)(x / 256);
        p[12] = (uint8_t)rand();
    }
    compare("tally of 7,200 samples, a sample", core, plain, 200, SAMPLES);
    if (memcmp(core_out, plain_out, sizeof core_out) != 0) {
        printf("the tallies differ\n");
        return 1;
    }
    return 0;
}
