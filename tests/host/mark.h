/* Finds the mark of the area's format without naming its place: the bytes, not 0, that clear leaves alike in an area of zeros and in
 * one of bytes 255. The mark of the format before has a last byte that is one less. */
#ifndef MARK_H
#define MARK_H

#include <string.h>

#include "rde.h"

typedef rde_answer clear_call(uint8_t *area, size_t area_len);

/* Puts the mark into an area, its last byte less by so much. */
static inline void put_mark(clear_call *clear, uint8_t *area, uint8_t less)
{
    static uint8_t zeros[RDE_AREA_LEN], full[RDE_AREA_LEN];
    uint32_t last = 0;
    memset(zeros, 0, sizeof zeros);
    memset(full, 255, sizeof full);
    clear(zeros, sizeof zeros);
    clear(full, sizeof full);
    for (uint32_t i = 0; i < RDE_AREA_LEN; i++)
        if (zeros[i] == full[i] && zeros[i] != 0) {
            area[i] = zeros[i];
            last = i;
        }
    area[last] -= less;
}

#endif
