/* The core and plain C side by side: the same calls, the same drive, the same windows. */
#ifndef SIDES_H
#define SIDES_H

#include <stdio.h>
#include <stdlib.h>
#include <string.h>

#include "plain.h"
#include "rde.h"

#define MAX_DRIVE 7200

typedef struct {
    rde_answer (*clear)(uint8_t *, size_t);
    rde_answer (*declare)(uint8_t *, size_t, const uint8_t *, size_t);
    rde_answer (*sample)(uint8_t *, size_t, const uint8_t *, size_t);
    rde_answer (*read)(const uint8_t *, size_t, uint32_t);
    rde_verdict_answer (*verdict)(const uint8_t *, size_t);
    uint8_t area[RDE_AREA_LEN];
    int64_t seen; /* what the calls answered, added up, so that no call is left out and both sides can be compared */
} side;

static side core = {.clear = rde_clear, .declare = rde_declare, .sample = rde_sample, .read = rde_read, .verdict = rde_verdict};
static side plain = {.clear = plain_clear, .declare = plain_declare, .sample = plain_sample, .read = plain_read, .verdict = plain_verdict};

static uint8_t drive[16 * MAX_DRIVE];
static uint8_t windows[16 * RDE_MAX_WINDOWS];
static uint32_t window_count;

static inline void take(side *s, rde_answer a)
{
    if (a.refusal != 0) {
        printf("refused %u\n", a.refusal);
        exit(1);
    }
    s->seen += a.value;
}

static inline void take_verdict(side *s, rde_verdict_answer v)
{
    if (v.refusal != 0) {
        printf("refused %u\n", v.refusal);
        exit(1);
    }
    s->seen += v.broken + v.exceeded + v.word;
}

/* A fresh area with the windows declared. */
static inline void begin(side *s)
{
    take(s, s->clear(s->area, RDE_AREA_LEN));
    for (uint32_t w = 0; w < window_count; w++)
        take(s, s->declare(s->area, RDE_AREA_LEN, windows + 16 * w, 16));
}

static inline void samples_of_drive(side *s, uint32_t samples)
{
    for (uint32_t i = 0; i < samples; i++)
        take(s, s->sample(s->area, RDE_AREA_LEN, drive + 16 * i, 16));
}

/* Both sides must have answered the same. */
static inline void check_same(const char *name)
{
    if (core.seen != plain.seen) {
        printf("%s: the answers differ\n", name);
        exit(1);
    }
}

static inline void put_u16(uint8_t *p, uint32_t x)
{
    p[0] = (uint8_t)x;
    p[1] = (uint8_t)(x >> 8);
}

/* count windows of one width; function 6 stands for the six functions in turn. Channels in turn; every sample with a speed up
 * to 1200 qualifies. */
static inline void set_windows(uint32_t count, uint32_t function, uint32_t width)
{
    window_count = count;
    memset(windows, 0, sizeof windows);
    for (uint32_t w = 0; w < count; w++) {
        uint8_t *p = windows + 16 * w;
        p[0] = (uint8_t)(function < 6 ? function : w % 6);
        p[1] = (uint8_t)(w % 7);
        put_u16(p + 4, width);
        put_u16(p + 12, 1200);
    }
}

/* The speed to reach, by the share of the drive that is done: town with stops, country road, motorway. */
static inline int target_speed(int done)
{
    if (done < 55)
        return rand() % 4 == 0 ? 0 : 200 + rand() % 350;
    return done < 78 ? 650 + rand() % 230 : 1000 + rand() % 280;
}

/* NOx by chance, and by how much faster the car gets. A reading of less than 8 ppm stands as far below zero, as where the analyser's zero
 * drifts. */
static inline int nox_reading(int change)
{
    int nox = rand() % 50 + (change > 0 ? 4 * change : 0);
    return nox < 8 ? -nox : nox;
}

/* A drive whose speed goes towards a target by at most 12 tenths of km/h a second, with some unrest, and whose road falls by a metre
 * a minute: its first half hour keeps rule 21, the whole breaks it. It is above 700 m at first and at 303.0 K or more in the last half hour:
 * the whole is not exceeded, but would be if extended samples weighed in full. */
static inline void make_drive(void)
{
    int speed = 0, target = 0, altitude = 760;
    srand(1);
    for (int i = 0; i < MAX_DRIVE; i++) {
        uint8_t *p = drive + 16 * i;
        int change;
        if (rand() % 25 == 0)
            target = target_speed(100 * i / MAX_DRIVE);
        change = target > speed + 12 ? 12 : target < speed - 18 ? -18 : target - speed;
        speed += change;
        if (target > 0 && speed > 6)
            speed += rand() % 7 - 3;
        altitude += rand() % 3 - 1 - (i % 60 == 59);
        put_u16(p, (uint32_t)i);
        put_u16(p + 2, (uint32_t)speed);
        put_u16(p + 4, (uint32_t)altitude);
        put_u16(p + 6, (i < 5400 ? 2900u : 3030u) + (uint32_t)rand() % 40);
        put_u16(p + 8, 100u + (uint32_t)speed + (uint32_t)(change > 0 ? 40 * change : 0));
        put_u16(p + 10, (uint32_t)nox_reading(change));
        put_u16(p + 12, 500u + 3u * (uint32_t)speed + (uint32_t)(rand() % 300));
    }
}

#endif
