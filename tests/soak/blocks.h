/* Blocks of samples by chance, for tallies, and reference records with them for the CO2 windows. */
#ifndef BLOCKS_H
#define BLOCKS_H

#include "../host/chance.h"

#define MOST_RECORDS (RDE_MAX_SAMPLES + 1)
#define SHARED 4 /* bytes that a reference record shares with the block's end, where it does: its M is the last sample's CO2 */

typedef struct {
    uint8_t block[16 * MOST_RECORDS + 15], reference[2 * RDE_RECORD_LEN];
    size_t block_len, reference_len;
    int shares;
} co2_case;

/* Mostly a few samples, now and then some thousands, and both sides of the most. */
static inline uint32_t draw_count(void)
{
    if (once_in(40))
        return once_in(4) ? RDE_MAX_SAMPLES - 1 + below(3) : 1000 + below(6000);
    return below(once_in(8) ? 600 : 40);
}

/* By a level curve of 144 g/km a window is normal at 3 to 5 mg of CO2 for each unit of distance. */
static inline values level_values(int32_t speed, int32_t times)
{
    static const int32_t others[] = {0, 2, 3, 3, 4, 5, 5, 6};
    values v = wide_values();
    v.speed = once_in(16) ? between(0, 1300) : speed;
    v.co2 = (times != 0 ? times : ONE_OF(others)) * v.speed + (once_in(4) ? between(0, 2) - 1 : 0);
    v.co2 = v.co2 < 0 ? 0 : v.co2;
    return v;
}

/* Half of the blocks have equal speeds, often at a point of the curve, and CO2 near the ends of what is normal; the others have the
 * values of a list of calls. A quarter of all have no NOx above zero. */
static inline void draw_samples(uint8_t *block, uint32_t count)
{
    static const int32_t speeds[] = {1, 189, 190, 565, 566, 567, 923, 924}, times[] = {0, 3, 5};
    int level = once_in(2), drifts = once_in(4);
    int32_t speed = once_in(3) ? between(0, 1300) : ONE_OF(speeds), each = ONE_OF(times);
    trip t = trip_start(count, 0);
    for (uint32_t i = 0; i < count; i++) {
        t.before = level ? level_values(speed, each) : next_values(&t);
        if (drifts)
            t.before.nox = between(-50, 0);
        sample_record(block + 16 * i, below(65536), &t.before);
    }
}

static inline uint32_t co2_of(const uint8_t *block, uint32_t sample)
{
    const uint8_t *p = block + 16 * sample + 12;
    return p[0] | (uint32_t)p[1] << 8 | (uint32_t)p[2] << 16 | (uint32_t)p[3] << 24;
}

/* M: mostly what some of the samples sum to, or one mg beside. */
static inline uint32_t draw_mass(const uint8_t *block, uint32_t count)
{
    static const uint32_t odd[] = {1, 2, 1000, 100000, 0x80000001, 0xffffffff};
    uint32_t sum = 0, first, last;
    if (count == 0 || once_in(8))
        return ONE_OF(odd);
    first = below(count);
    last = first + below(once_in(3) ? count : 5);
    for (uint32_t i = first; i <= last && i < count; i++)
        sum += co2_of(block, i);
    if (once_in(2))
        sum = once_in(2) || sum == 0 ? sum + 1 : sum - 1;
    return sum > 0 ? sum : 1;
}

/* Level at 144 g/km or nearly, at 144 at one point, steep with zeros at speeds of 18.9 and 92.4 km/h, or any. */
static inline void draw_curve(uint8_t *reference)
{
    static const int32_t steep[][3] = {{1, 377, 1}, {1, 358, 1}, {1, 1000, 1}, {1000, 1, 1000}, {1000, 1000, 1}};
    uint32_t kind = below(5), which = below(5), place = below(3);
    for (uint32_t k = 0; k < 3; k++) {
        int32_t any = between(1, 1000), near = between(143, 145);
        int32_t c = kind == 0 ? 144 : kind == 1 ? near : kind == 2 ? (k == place ? 144 : any) : kind == 3 ? steep[which][k] : any;
        put_le(reference + 4 + 2 * k, 2, (uint32_t)c);
    }
}

static inline void spoil_reference(co2_case *c)
{
    static const size_t lengths[] = {0, 1, 15, 17, 32};
    static const uint32_t bad[] = {0, 1001, 65535};
    switch (below(4)) {
    case 0: c->reference_len = ONE_OF(lengths); break;
    case 1: c->reference[10 + below(6)] = (uint8_t)between(1, 255); break;
    case 2: put_le(c->reference, 4, 0); break;
    default: put_le(c->reference + 4 + 2 * below(3), 2, ONE_OF(bad)); break;
    }
}

static inline void spoil_block(co2_case *c, uint32_t count)
{
    if (count > 0 && !once_in(3))
        spoil_sample(c->block + 16 * (once_in(3) ? count - 1 : below(count)));
    else
        c->block_len += count > 0 && once_in(3) ? (size_t)-1 : 1 + below(15);
}

static inline void draw_co2_case(co2_case *c)
{
    uint32_t count = draw_count();
    memset(c, 0, sizeof *c);
    c->block_len = 16 * (size_t)count;
    c->reference_len = RDE_RECORD_LEN;
    draw_samples(c->block, count);
    put_le(c->reference, 4, draw_mass(c->block, count));
    draw_curve(c->reference);
    if (once_in(8))
        spoil_block(c, count);
    if (once_in(12))
        spoil_reference(c);
    c->shares = once_in(8) && c->block_len >= SHARED && c->reference_len >= SHARED;
    if (c->shares)
        memcpy(c->reference, c->block + c->block_len - SHARED, SHARED);
}

#endif
