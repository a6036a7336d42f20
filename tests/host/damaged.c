/* Areas that no list of calls leaves: never cleared (random bytes, all 0, all 255); what a list of calls left with the mark of the
 * format before, with 1 to 40 bytes changed, with a stretch of random bytes, with flow and NOx of its records or with U and extended U of
 * its tally changed, or joined from two such areas. On each, every call is made with good and bad records: each ends without a fault, a
 * refusal changes no byte, 11 and 1 are given exactly when due (lent.h); one that was never cleared, or has the mark of the format before,
 * is refused with 255, and so is the verdict where U or extended U is beyond its bounds. Then clear makes the area fresh: a short list
 * answers as document 01 says.
 *     damaged COUNT [SEED]
 * An area passes or fails as a whole. Prints the refusals by number; the last line is 'N passed, M failed'. */
#include "chance.h"
#include "lent.h"
#include "mark.h"

#define SHOWN 10
#define ROUNDS 4         /* each kind of call is made so often on an area */
#define ROOM (1 << 17)

static long refusals[256], others, accepted;

static void count(const answer *a)
{
    if (a->refusal == 0)
        accepted++;
    else if (a->refusal < 256)
        refusals[a->refusal]++;
    else
        others++;
}

/* --- Damage --- */

/* A fresh area, then calls by chance. */
static trip make_real(lent *l)
{
    trip t = trip_start(once_in(8) ? 1400 : 40, once_in(2) ? 0 : 20);
    uint32_t calls = once_in(8) ? 2000 : 1 + below(80), windows = below(17);
    call c = {.kind = CLEAR};
    answer a = lent_call(l, &c);
    for (uint32_t k = 0; k < windows + calls; k++) {
        int kind = k < windows ? DECLARE : draw_kind(&t);
        c = draw_call(&t, kind == CLEAR || kind == CLOSE ? SAMPLE : kind);
        a = lent_call(l, &c);
        trip_step(&t, &c, &a);
    }
    return t;
}

static uint8_t other_byte(uint8_t b)
{
    switch (below(5)) {
    case 0: return (uint8_t)(b + 1);
    case 1: return (uint8_t)(b - 1);
    case 2: return (uint8_t)(b ^ 1u << below(8));
    case 3: return b == 0 ? 255 : 0;
    default: return (uint8_t)(b + 1 + below(255));
    }
}

/* Changes 1 to 40 bytes: half of them among the bytes in which the area differs from a cleared one of zeros. */
static void change_bytes(uint8_t *area)
{
    static uint8_t cleared[RDE_AREA_LEN];
    static uint32_t written[RDE_AREA_LEN];
    uint32_t found = 0;
    memset(cleared, 0, sizeof cleared);
    rde_clear(cleared, sizeof cleared);
    for (uint32_t i = 0; i < RDE_AREA_LEN; i++)
        if (area[i] != cleared[i])
            written[found++] = i;
    for (uint32_t k = 1 + below(40); k > 0; k--) {
        uint32_t i = found > 0 && once_in(2) ? written[below(found)] : once_in(3) ? below(256) : below(RDE_AREA_LEN);
        area[i] = other_byte(area[i]);
    }
}

static void change_stretch(uint8_t *area)
{
    uint32_t from = below(RDE_AREA_LEN), len = 1 + below(RDE_AREA_LEN - from);
    random_bytes(area + from, len);
}

/* From some byte on, what another list of calls left. */
static void change_joined(lent *l, trip *t)
{
    static uint8_t first[RDE_AREA_LEN];
    uint32_t from = below(once_in(2) ? 256 : RDE_AREA_LEN);
    memcpy(first, l->area, RDE_AREA_LEN);
    *t = make_real(l);
    memcpy(l->area, first, from);
}

/* --- Damage to readings and sums of NOx --- */

#define MOST_DRIFTING 40

static struct {
    uint32_t count; /* of the samples that make_drifting gave */
    uint8_t block[MOST_DRIFTING * RDE_RECORD_LEN];
    int beyond;     /* the area's U or extended U is beyond its bounds */
} drifting;

/* Of twelve windows one: each function on NOx and on channel 6, under a condition on either, which mostly holds of every sample. */
static call drifting_window(uint32_t number)
{
    static const uint8_t widths[] = {1, 2, 3, 5, 17};
    call c = {.kind = DECLARE, .record_len = RDE_RECORD_LEN};
    c.record[0] = (uint8_t)(number / 2);
    c.record[1] = number % 2 == 0 ? 4 : 6;
    c.record[2] = once_in(2) ? 4 : 6;
    c.record[4] = ONE_OF(widths);
    if (once_in(4)) {
        random_bounds(c.record + 8);
    } else {
        put_le(c.record + 8, 4, (uint32_t)INT32_MIN);
        put_le(c.record + 12, 4, INT32_MAX);
    }
    return c;
}

/* A fresh area with twelve such windows and samples whose NOx is about zero. */
static trip make_drifting(lent *l)
{
    trip t = trip_start(MOST_DRIFTING, 0);
    call c = {.kind = CLEAR};
    answer a = lent_call(l, &c);
    t.style = DRIFTS;
    for (uint32_t k = 0; k < 12; k++) {
        c = drifting_window(k);
        a = lent_call(l, &c);
        trip_step(&t, &c, &a);
    }
    drifting.count = 1 + below(MOST_DRIFTING);
    for (uint32_t k = 0; k < drifting.count; k++) {
        c = draw_call(&t, SAMPLE);
        a = lent_call(l, &c);
        trip_step(&t, &c, &a);
        memcpy(drifting.block + RDE_RECORD_LEN * k, c.record, RDE_RECORD_LEN);
    }
    return t;
}

/* Where the area holds these bytes; so no place in it is named here. */
static uint8_t *place_of(lent *l, const uint8_t *bytes, size_t len)
{
    uint8_t *at = memmem(l->area, RDE_AREA_LEN, bytes, len);
    if (at == NULL)
        lent_wrong(l, "a record or the tally of the samples is not found in the area");
    return at;
}

/* Flow and NOx of some of the records, up to the ends of what two bytes mean: their product is then the least and the greatest. */
static void change_readings(lent *l)
{
    static const uint32_t flows[] = {0, 1, 20000, 0x7fff, 0x8000, 65535, 65535, 65535};
    static const uint32_t amounts[] = {0, 1, 5000, 0x7fff, 0x7fff, 0x8000, 0x8000, 65485, 65535};
    for (uint32_t k = 0; k < drifting.count; k++) {
        uint8_t *at = once_in(2) ? place_of(l, drifting.block + RDE_RECORD_LEN * k, RDE_RECORD_LEN) : NULL;
        if (at != NULL) {
            put_le(at + 8, 2, ONE_OF(flows));
            put_le(at + 10, 2, ONE_OF(amounts));
        }
    }
}

/* Makes a U or an extended U of n samples, in turn, one at a bound or just beyond it, or a pattern of eight bytes. */
static void change_sum(uint8_t *at, int64_t n)
{
    static uint32_t turn;
    const int64_t low = -1000000 * n, high = 100000000 * n;
    const int64_t sums[] = {low, low - 1, high, high + 1, -1, 0, INT64_MIN, INT64_MAX, INT64_C(1) << 47, -(INT64_C(1) << 47)};
    int64_t sum = sums[turn++ % (sizeof sums / sizeof *sums)];
    put_le(at, 8, (uint64_t)sum);
    drifting.beyond = drifting.beyond || sum < low || sum > high;
}

/* U, extended U or both of the area's tally. */
static void change_sums(lent *l)
{
    uint8_t tally[RDE_TALLY_LEN], *at;
    uint32_t which = 1 + below(3);
    rde_tally(drifting.block, RDE_RECORD_LEN * drifting.count, tally, sizeof tally);
    at = place_of(l, tally, sizeof tally);
    if (at != NULL && which & 1)
        change_sum(at + RDE_TALLY_LEN - 16, drifting.count);
    if (at != NULL && which & 2)
        change_sum(at + RDE_TALLY_LEN - 8, drifting.count);
}

static trip change_drifting(lent *l)
{
    trip t = make_drifting(l);
    uint32_t which = 1 + below(3);
    if (which & 1)
        change_readings(l);
    if (which & 2)
        change_sums(l);
    return t;
}

/* Puts damage into the area; gives where a list would go on. */
static trip damage(lent *l)
{
    trip t;
    uint32_t kind = below(14);
    drifting.beyond = 0;
    if (kind > 9) {
        t = change_drifting(l);
    } else if (kind == 0) {
        t = trip_start(40, 4);
        random_bytes(l->area, RDE_AREA_LEN);
        if (once_in(2))
            put_mark(rde_clear, l->area, 0);
    } else {
        t = make_real(l);
        if (kind == 1)
            change_stretch(l->area);
        else if (kind == 2)
            change_joined(l, &t);
        else
            change_bytes(l->area);
    }
    lent_settle(l);
    return t;
}

/* --- Calls on it --- */

static answer make_plain(lent *l, int kind, uint32_t window)
{
    call c = {.kind = kind, .window = window};
    answer a = lent_call(l, &c);
    count(&a);
    return a;
}

/* The verdict and every reading. */
static void judge_and_read(lent *l)
{
    make_plain(l, VERDICT, 0);
    for (uint32_t w = 0; w <= RDE_MAX_WINDOWS; w++)
        make_plain(l, READ, w);
}

/* Some more samples of a drifting trip, by which most of its windows leave the damaged ones; a verdict and every reading after each, and
 * mostly before the first one too. */
static void go_on(lent *l, trip *t)
{
    if (!once_in(4))
        judge_and_read(l);
    for (uint32_t k = 0; k < 6; k++) {
        call c = draw_call(t, SAMPLE);
        answer a = lent_call(l, &c);
        count(&a);
        trip_step(t, &c, &a);
        judge_and_read(l);
    }
}

/* Every kind of call but clear, with good and bad records, and with other lengths of the area. */
static void make_calls(lent *l, trip t)
{
    for (int k = 0; k < ROUNDS * KINDS; k++) {
        int kind = k % KINDS == CLEAR ? SAMPLE : k % KINDS == CLOSE && k < (ROUNDS - 1) * KINDS ? READ : k % KINDS;
        call c;
        answer a;
        t.faults = once_in(3) ? 2 : 0;
        c = draw_call(&t, kind);
        a = lent_call(l, &c);
        count(&a);
        trip_step(&t, &c, &a);
        if (once_in(8))
            lent_other_lengths(l, &c, below(4));
    }
    judge_and_read(l);
}

/* --- Stated answers --- */

static void expect(lent *l, const call *c, answer stated)
{
    answer given = lent_call(l, c);
    if (!same_answer(&given, &stated))
        lent_wrong(l, "a call does not answer as stated");
}

/* Every call but clear on an area without the mark: 255 alone, or 1 for a record of another length. */
static void unmarked(lent *l)
{
    for (int kind = CLEAR + 1; kind < KINDS; kind++) {
        call c = {.kind = kind, .record_len = RDE_RECORD_LEN};
        expect(l, &c, refusal_alone(RDE_DAMAGED));
        c.record_len = below(RDE_RECORD_LEN);
        expect(l, &c, refusal_alone(takes_record(&c) ? RDE_RECORD_LENGTH : RDE_DAMAGED));
        lent_other_length(l, &c, RDE_AREA_LEN - 1);
    }
}

/* --- A short list --- */

static void expect_plain(lent *l, int kind, answer stated)
{
    call c = {.kind = kind};
    expect(l, &c, stated);
}

static void expect_sample(lent *l, uint32_t second, int32_t speed, answer stated)
{
    call c = {.kind = SAMPLE, .record_len = RDE_RECORD_LEN};
    values v = {speed, 100, 2931, 0, 0, 0};
    sample_record(c.record, second, &v);
    expect(l, &c, stated);
}

static answer number(int64_t value)
{
    return (answer){0, value, 0, 0, 0};
}

static answer verdict(uint32_t broken, uint32_t exceeded, uint32_t word)
{
    return (answer){0, 0, broken, exceeded, word};
}

/* Clear, then document 01's cases (b) and (d), and its order of refusals on a closed trip. */
static void short_list(lent *l)
{
    static const int64_t speeds[] = {5, 3, 3, 7}, moves[] = {1, 2, 4, 7};
    call largest = {.kind = DECLARE, .record = {3, 0, 0, 0, 3}, .record_len = RDE_RECORD_LEN};
    put_le(largest.record + 12, 4, 3000);
    expect_plain(l, CLEAR, number(0));
    expect_plain(l, VERDICT, verdict(0x000384e1, 0, 0));
    expect_plain(l, READ, refusal_alone(RDE_NO_WINDOW));
    expect(l, &largest, number(0));
    expect_plain(l, READ, refusal_alone(RDE_NONE_QUALIFIES));
    for (uint32_t k = 0; k < 4; k++)
        expect_sample(l, k, (int32_t)speeds[k], number(moves[k]));
    expect_plain(l, READ, number(7));
    expect(l, &largest, refusal_alone(RDE_STARTED));
    expect_plain(l, CLOSE, number(0));
    expect_plain(l, CLOSE, refusal_alone(RDE_CLOSED));
    expect_sample(l, 9, 3001, refusal_alone(RDE_CLOSED));
    expect_plain(l, CLEAR, number(0));
    expect_sample(l, 0, 1700, number(0));
    expect_plain(l, VERDICT, verdict(0x00038cfd, 0, 0));
}

static void run_area(lent *l, long k)
{
    static uint8_t bytes[ROOM];
    trip t;
    snprintf(run.place, sizeof run.place, "area %ld", k);
    must_end();
    random_bytes(bytes, l->memory.room);
    lent_start(l, k % 2, bytes);
    if (k % 4 > 1) {
        memset(l->area, k % 4 == 2 ? 0 : 255, RDE_AREA_LEN);
        lent_settle(l);
    }
    unmarked(l);
    make_real(l);
    put_mark(rde_clear, l->area, 1);
    lent_settle(l);
    unmarked(l);
    t = damage(l);
    if (drifting.beyond)
        expect_plain(l, VERDICT, refusal_alone(RDE_DAMAGED));
    if (t.style == DRIFTS)
        go_on(l, &t);
    make_calls(l, t);
    short_list(l);
    if (l->wrong == NULL) {
        run.passed++;
        return;
    }
    if (run.failed++ < SHOWN)
        printf("area %ld: %s\n", k, l->wrong);
}

int main(int argc, char **argv)
{
    long areas = argc > 1 ? strtol(argv[1], NULL, 10) : 1000;
    lent l = lent_new();
    chance_state = argc > 2 ? strtoull(argv[2], NULL, 10) : 1;
    catch_faults();
    for (long k = 0; k < areas; k++)
        run_area(&l, k);
    printf("accepted %ld", accepted);
    for (int k = 1; k < 256; k++)
        if (refusals[k] != 0)
            printf(", refused %d: %ld", k, refusals[k]);
    printf("%s\n", others != 0 ? ", other numbers too" : "");
    return finish();
}
