/* Two tallies to join, by chance. */
#ifndef TALLIES_H
#define TALLIES_H

#include "../host/chance.h"

#define TALLY_ROOM (2 * RDE_TALLY_LEN)

enum { AT_U = 12 }; /* which of a tally's numbers U is */

typedef struct {
    uint8_t a[TALLY_ROOM], b[TALLY_ROOM];
    size_t a_len, b_len, out_len;
    int same; /* b is a */
} join_case;

/* The length of a tally or of an output. */
static inline size_t draw_tally_length(void)
{
    static const size_t lengths[] = {0, 1, 8, 104, 111, 113, 120, TALLY_ROOM};
    return once_in(24) ? ONE_OF(lengths) : RDE_TALLY_LEN;
}

static inline uint64_t get_number(const uint8_t *tally, uint32_t place)
{
    uint64_t x = 0;
    for (uint32_t i = 8; i-- > 0;)
        x = x << 8 | tally[8 * place + i];
    return x;
}

/* N of one class becomes less than nothing, and that of another more by as much: the three together wrap to what they were. */
static inline void wrap_counts(uint8_t *tally)
{
    uint32_t c = below(3), other = (c + 1 + below(2)) % 3;
    uint64_t more = get_number(tally, c) + 1 + below(3);
    put_le(tally + 8 * c, 8, get_number(tally, c) - more);
    put_le(tally + 8 * other, 8, get_number(tally, other) + more);
}

/* Now and then of another length, or one tally with itself. */
static inline void draw_join_case(join_case *j)
{
    memset(j, 0, sizeof *j);
    j->a_len = draw_tally_length();
    j->b_len = draw_tally_length();
    j->out_len = draw_tally_length();
    random_tally(j->a);
    random_tally(j->b);
    if (once_in(40))
        wrap_counts(j->a);
    j->same = once_in(8);
    if (j->same) {
        memcpy(j->b, j->a, sizeof j->b);
        j->b_len = j->a_len;
    }
}

#endif
