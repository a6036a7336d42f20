#include <stdio.h>
#include "rde.h"

static uint8_t area[RDE_AREA_LEN];

int main(void)
{
    /* second 0, 170.0 km/h, 100 m, 293.1 K, no flow, no NOx, no CO2 */
    const uint8_t sample[RDE_RECORD_LEN] = {0, 0, 0xa4, 0x06, 100, 0, 0x73, 0x0b};
    rde_clear(area, sizeof area);
    rde_answer a = rde_sample(area, sizeof area, sample, sizeof sample);
    rde_verdict_answer v = rde_verdict(area, sizeof area);
    printf("refusal %u, broken %08x, word %u\n", (unsigned)a.refusal, (unsigned)v.broken, (unsigned)v.word);
    return 0;
}
