/* Numbers, records, tallies and calls by chance; the same seed gives the same ones. */
#ifndef CHANCE_H
#define CHANCE_H

#include <stdint.h>
#include <string.h>

#include "lent.h"

static uint64_t chance_state = 1;

/* splitmix64 */
static inline uint64_t draw(void)
{
    uint64_t z = chance_state += 0x9e3779b97f4a7c15u;
    z = (z ^ z >> 30) * 0xbf58476d1ce4e5b9u;
    z = (z ^ z >> 27) * 0x94d049bb133111ebu;
    return z ^ z >> 31;
}

static inline uint32_t below(uint32_t n)
{
    return (uint32_t)(draw() >> 32) % n;
}

static inline int32_t between(int32_t low, int32_t high)
{
    return low + (int32_t)below((uint32_t)(high - low) + 1);
}

/* One time in n. */
static inline int once_in(uint32_t n)
{
    return below(n) == 0;
}

static inline void random_bytes(uint8_t *p, size_t len)
{
    for (size_t i = 0; i < len; i += 8) {
        uint64_t z = draw();
        memcpy(p + i, &z, len - i < 8 ? len - i : 8);
    }
}

/* --- Records --- */

static inline void put_le(uint8_t *p, size_t width, uint64_t x)
{
    for (size_t i = 0; i < width; i++)
        p[i] = (uint8_t)(x >> 8 * i);
}

typedef struct {
    int32_t speed, altitude, temperature, flow, nox, co2;
} values;

/* How a list's values are drawn. */
enum { TINY, EQUAL, NEAR_EDGES, WIDE, DRIVE, CLIMBS, BANDS, DRIFTS, STYLES };

static inline values tiny_values(void)
{
    return (values){between(0, 3), between(-2, 2), between(2931, 2933), between(0, 3), between(-3, 3), between(0, 3)};
}

static inline values wide_values(void)
{
    return (values){between(0, 3000), between(-500, 5000), between(2000, 3500), between(0, 20000), between(-50, 5000),
                    between(0, 100000)};
}

#define ONE_OF(numbers) (numbers)[below(sizeof(numbers) / sizeof *(numbers))]

/* Both sides of each edge of the extended conditions; those of rules 13 and 14 are among them. */
static const int32_t band_temperatures[] = {2659, 2660, 2729, 2730, 3030, 3031, 3080, 3081}, band_altitudes[] = {700, 701, 1300, 1301};

/* NOx at the ends of its range and beside zero. */
static const int32_t edge_nox[] = {-50, -49, -2, -1, 0, 1, 2, 4999, 5000};

static inline int32_t near_edge(int32_t low, int32_t high)
{
    return once_in(2) ? low + between(0, 1) : high - between(0, 1);
}

static inline values edge_values(void)
{
    static const int32_t speeds[] = {0, 9, 10, 600, 601, 900, 901, 1000, 1001, 1450, 1451, 1600, 1601, 3000};
    values v = {near_edge(0, 3000), near_edge(-500, 5000), near_edge(2000, 3500), near_edge(0, 20000), ONE_OF(edge_nox),
                near_edge(0, 100000)};
    if (once_in(2))
        v.speed = ONE_OF(speeds);
    if (once_in(2))
        v.altitude = ONE_OF(band_altitudes);
    if (once_in(2))
        v.temperature = ONE_OF(band_temperatures);
    return v;
}

/* At an edge of a band or in none, NOx about its limits: at this speed and flow 50 is kept and 51 exceeded, 80 and 81 where a sample is
 * extended. */
static inline values band_values(void)
{
    static const int32_t amounts[] = {30, 50, 51, 65, 80, 81};
    return (values){once_in(6) ? 0 : 500, once_in(2) ? ONE_OF(band_altitudes) : 100, once_in(2) ? ONE_OF(band_temperatures) : 2931, 500,
                    ONE_OF(amounts), 0};
}

/* NOx of an analyser whose zero drifts, extended or not, over little or no distance: the weighted sum of U is on both sides of 0 and of
 * its limit. */
static inline values drift_values(void)
{
    static const int32_t flows[] = {0, 1, 1, 2, 7, 500, 20000};
    return (values){between(0, 3), once_in(3) ? ONE_OF(band_altitudes) : 100, once_in(3) ? ONE_OF(band_temperatures) : 2931,
                    ONE_OF(flows), once_in(4) ? ONE_OF(edge_nox) : between(-9, 9), 0};
}

/* A step from the values before, as on a road. */
static inline values drive_values(const values *before)
{
    values v = {before->speed + between(-14, 15), before->altitude + between(-1, 1), 2931, between(0, 3000), between(-20, 130),
                between(0, 5000)};
    if (once_in(200))
        v.speed = between(0, 1300);
    v.speed = v.speed < 0 ? 0 : v.speed > 3000 ? 3000 : v.speed;
    v.altitude = v.altitude < -500 ? -500 : v.altitude > 5000 ? 5000 : v.altitude;
    return v;
}

/* What the next call is drawn from: how far the trip is, by the answers so far. */
typedef struct {
    uint32_t samples, windows, limit; /* limit: samples after which no more are drawn */
    uint32_t faults;                  /* one record in so many is bad; 0: none */
    int style;
    int32_t middle, rise;             /* of style CLIMBS */
    values before;
} trip;

static inline trip trip_start(uint32_t limit, uint32_t faults)
{
    static const int32_t middles[] = {300, 746, 1100}, rises[] = {80, 42, 32};
    uint32_t c = below(3);
    trip t = {0, 0, limit, faults, (int)below(STYLES), middles[c], rises[c] * between(60, 110) / 100, {0, 100, 2931, 0, 0, 0}};
    return t;
}

/* Climbs about a middle speed, again and again: V x A is about the limits of rules 18 to 20, and altitudes are on both sides of the
 * limit of rule 21. */
static inline values climb_values(const trip *t)
{
    static const int32_t altitudes[] = {-60, 40, 41};
    values v = t->before;
    int32_t low = t->middle - 2 * t->rise, high = t->middle + t->rise;
    v.speed = v.speed >= low && v.speed <= high ? v.speed + t->rise + between(-1, 1) : low + between(0, t->rise);
    v.altitude = altitudes[below(3)];
    v.flow = between(0, 3000);
    v.nox = between(-20, 80);
    return v;
}

static inline values next_values(const trip *t)
{
    if (t->style == EQUAL && !once_in(4))
        return t->before;
    if (t->style == TINY || t->style == EQUAL)
        return tiny_values();
    if (t->style == NEAR_EDGES)
        return edge_values();
    if (t->style == CLIMBS)
        return climb_values(t);
    if (t->style == BANDS)
        return band_values();
    if (t->style == DRIFTS)
        return drift_values();
    return t->style == DRIVE ? drive_values(&t->before) : wide_values();
}

static inline void sample_record(uint8_t *p, uint32_t second, const values *v)
{
    put_le(p, 2, second);
    put_le(p + 2, 2, (uint32_t)v->speed);
    put_le(p + 4, 2, (uint32_t)v->altitude);
    put_le(p + 6, 2, (uint32_t)v->temperature);
    put_le(p + 8, 2, (uint32_t)v->flow);
    put_le(p + 10, 2, (uint32_t)v->nox);
    put_le(p + 12, 4, (uint32_t)v->co2);
}

/* One field of a sample record just outside its range, or NOx at an end of what its two bytes mean. */
static inline void spoil_sample(uint8_t *p)
{
    static const uint32_t bad_nox[] = {(uint32_t)-51, 5001, 0x7fff, 0x8000};
    switch (below(8)) {
    case 0: put_le(p + 2, 2, 3001); break;
    case 1: put_le(p + 4, 2, (uint32_t)-501); break;
    case 2: put_le(p + 4, 2, 5001); break;
    case 3: put_le(p + 6, 2, 1999); break;
    case 4: put_le(p + 6, 2, 3501); break;
    case 5: put_le(p + 8, 2, 20001); break;
    case 6: put_le(p + 10, 2, ONE_OF(bad_nox)); break;
    default: put_le(p + 12, 4, once_in(2) ? 100001 : 0xffffffff); break;
    }
}

/* The ends of NOx below zero, those of channel 6, what is beside them, and zero. */
static const int32_t bounds_below[] = {-1000001, -1000000, -999999, -20000, -100, -51, -50, -49, -9, -2, -1, 0, 1};

/* Bounds of a window's condition: often all values, now and then none, otherwise some. */
static inline void random_bounds(uint8_t *p)
{
    static const int32_t tops[] = {3, 3000, 5000, 3500, 20000, 100000, 100000000};
    int32_t low = INT32_MIN, high = INT32_MAX, top = tops[below(7)];
    switch (below(5)) {
    case 0: low = between(-5, top), high = between(low, top); break;
    case 1: low = high = between(-3, 3); break;
    case 2: low = once_in(3) ? 100000001 : -1000000; break;
    case 3: low = ONE_OF(bounds_below), high = low + (once_in(4) ? 0 : between(0, 1000002)); break;
    default: break;
    }
    put_le(p, 4, (uint32_t)low);
    put_le(p + 4, 4, (uint32_t)high);
}

static inline void window_record(uint8_t *p)
{
    static const uint32_t widths[] = {1, 2, 3, 5, 17, 100, 599, 600};
    static const uint8_t signed_channels[] = {1, 4, 6}; /* those that go below zero */
    memset(p, 0, RDE_RECORD_LEN);
    p[0] = (uint8_t)below(6);
    p[1] = (uint8_t)below(7);
    if (once_in(3))
        p[1] = ONE_OF(signed_channels);
    if (once_in(6))
        p[0] = 4, p[1] = ONE_OF(signed_channels);
    p[2] = once_in(3) ? ONE_OF(signed_channels) : (uint8_t)below(7);
    put_le(p + 4, 2, once_in(4) ? 1 + below(600) : widths[below(8)]);
    random_bounds(p + 8);
}

/* One field of a window record against its layout. */
static inline void spoil_window(uint8_t *p)
{
    switch (below(8)) {
    case 0: p[0] = (uint8_t)between(6, 255); break;
    case 1: p[1] = (uint8_t)between(7, 255); break;
    case 2: p[2] = (uint8_t)between(7, 255); break;
    case 3: p[3] = (uint8_t)between(1, 255); break;
    case 4: put_le(p + 4, 2, 0); break;
    case 5: put_le(p + 4, 2, (uint32_t)between(601, 65535)); break;
    case 6: put_le(p + 6, 2, (uint32_t)between(1, 65535)); break;
    default: put_le(p + 8, 4, 1), put_le(p + 12, 4, 0); break;
    }
}

/* --- Tallies --- */

static inline uint64_t up_to(uint64_t most)
{
    return most < UINT32_MAX ? below((uint32_t)most + 1) : draw() % (most + 1);
}

/* A number of a tally, from 0 on: mostly within its bound, often at it, now and then one above it. */
static inline uint64_t counted_number(uint64_t most)
{
    return once_in(40) ? most + 1 : once_in(2) ? up_to(most) : most;
}

/* U or extended U of n samples: at a bound or beside it, about zero, between the bounds, or a pattern of eight bytes. */
static inline int64_t nox_number(int64_t n)
{
    static const int64_t odd[] = {INT64_MIN, INT64_MIN + 1, INT64_MAX, INT64_C(0xffffffff), -INT64_C(0x100000000)};
    int64_t low = -1000000 * n, high = 100000000 * n;
    switch (below(8)) {
    case 0: return low;
    case 1: return high;
    case 2: return once_in(4) ? low - 1 : low + (n > 0);
    case 3: return once_in(4) ? high + 1 : high - (n > 0);
    case 4: return once_in(6) ? ONE_OF(odd) : 0;
    case 5: return n > 0 ? between(-3, 3) : 0;
    case 6: return low + (int64_t)up_to((uint64_t)-low);
    default: return low + (int64_t)up_to((uint64_t)(high - low));
    }
}

/* A tally of some samples, now and then ill-formed; extended U and U are drawn apart, so each may be the greater. */
static inline void random_tally(uint8_t *p)
{
    static const uint32_t tops[] = {600, 900, 3000}, counts[] = {0, 1, 2, 1200, 2400, 2401};
    uint64_t n = 0;
    for (size_t c = 0; c < 3; c++) {
        uint64_t samples = ONE_OF(counts);
        n += samples;
        put_le(p + 8 * c, 8, samples);
        put_le(p + 24 + 8 * c, 8, counted_number(tops[c] * samples));
    }
    for (size_t k = 6; k < 12; k++)
        put_le(p + 8 * k, 8, counted_number(n));
    put_le(p + 96, 8, (uint64_t)nox_number((int64_t)n));
    put_le(p + 104, 8, (uint64_t)nox_number((int64_t)n));
}

/* --- Calls --- */

static inline int faulty(const trip *t)
{
    return t->faults != 0 && once_in(t->faults);
}

static inline size_t random_length(const trip *t)
{
    static const size_t lengths[] = {0, 1, 8, 15, 17, 32, 48, MAX_RECORD};
    return faulty(t) ? lengths[below(8)] : RDE_RECORD_LEN;
}

static inline void draw_declare(const trip *t, call *c)
{
    random_bytes(c->record, MAX_RECORD);
    window_record(c->record);
    if (faulty(t))
        spoil_window(c->record);
    c->record_len = random_length(t);
}

static inline void draw_sample(trip *t, call *c)
{
    values v = next_values(t);
    uint32_t second = t->samples;
    t->before = v;
    if (faulty(t))
        second = once_in(2) ? second + 1 : below(65536);
    random_bytes(c->record, MAX_RECORD);
    sample_record(c->record, second, &v);
    if (faulty(t))
        spoil_sample(c->record);
    c->record_len = random_length(t);
}

static inline void draw_read(const trip *t, call *c)
{
    static const uint32_t odd[] = {15, 16, 17, 255, 256, 65536, 0x80000000, 0xffffffff};
    c->window = t->windows > 0 ? below(t->windows) : 0;
    if (faulty(t))
        c->window = once_in(2) ? t->windows : odd[below(8)];
}

static inline int draw_kind(const trip *t)
{
    uint32_t k = below(100);
    if (t->samples == 0 && k < 50)
        return DECLARE;
    if (k < 70 && t->samples < t->limit)
        return SAMPLE;
    if (k < 92)
        return READ;
    if (k < 95)
        return DECLARE;
    return k < 98 ? VERDICT : !once_in(8) ? VERDICT : once_in(2) ? CLOSE : CLEAR;
}

/* A call of this kind. */
static inline call draw_call(trip *t, int kind)
{
    call c;
    memset(&c, 0, sizeof c);
    c.kind = kind;
    if (kind == DECLARE)
        draw_declare(t, &c);
    if (kind == SAMPLE)
        draw_sample(t, &c);
    if (kind == READ)
        draw_read(t, &c);
    return c;
}

/* How far the trip is after an answered call. */
static inline void trip_step(trip *t, const call *c, const answer *a)
{
    if (a->refusal != 0)
        return;
    if (c->kind == CLEAR)
        t->samples = t->windows = 0;
    t->windows += c->kind == DECLARE;
    t->samples += c->kind == SAMPLE;
}

#endif
