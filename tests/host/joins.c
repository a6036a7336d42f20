/* Compares rde_join with a reckoning here on tallies by chance, whose numbers are about the bounds of a well-formed one:
 *     joins COUNT [SEED]
 * Every buffer stands against an unreadable page. The output is filled before the call; at a refusal it must be as it was.
 * The last line is 'N passed, M failed'. */
#include <stdio.h>
#include <stdlib.h>
#include <string.h>

#include "chance.h"
#include "guard.h"
#include "lent.h"

#define SHOWN 10
#define FILL 0xa5

enum { NUMBERS = RDE_TALLY_LEN / 8, AT_U = NUMBERS - 2 };

typedef struct {
    uint64_t number[NUMBERS];
} numbers;

static struct {
    guarded first, second, out;
} memory;

static numbers numbers_of(const uint8_t *tally)
{
    numbers t;
    memcpy(&t, tally, sizeof t);
    return t;
}

static uint64_t samples_of(const numbers *t)
{
    return t->number[0] + t->number[1] + t->number[2];
}

/* chance.h draws N so small that nothing wraps. */
static int is_well_formed(const numbers *t)
{
    static const uint64_t tops[] = {600, 900, 3000};
    uint64_t n = samples_of(t);
    int well = n <= RDE_MAX_SAMPLES;
    for (int c = 0; c < 3; c++)
        well = well && t->number[3 + c] <= tops[c] * t->number[c];
    for (int k = 6; k < AT_U; k++)
        well = well && t->number[k] <= n;
    for (int k = AT_U; k < NUMBERS; k++)
        well = well && (int64_t)t->number[k] >= -1000000 * (int64_t)n && (int64_t)t->number[k] <= 100000000 * (int64_t)n;
    return well;
}

/* The refusal that is due, or 0. */
static uint32_t refusal_of(const numbers *a, const numbers *b)
{
    if (!is_well_formed(a) || !is_well_formed(b))
        return RDE_TALLY;
    return samples_of(a) + samples_of(b) > RDE_MAX_SAMPLES ? RDE_JOINED : RDE_OK;
}

/* Does the output hold the sums? In two's complement signed numbers are added as others are. */
static int is_sum(const numbers *a, const numbers *b, const uint8_t *out)
{
    numbers sum = numbers_of(out);
    for (int k = 0; k < NUMBERS; k++)
        if (sum.number[k] != a->number[k] + b->number[k])
            return 0;
    return 1;
}

static int is_filled(const uint8_t *out)
{
    for (size_t i = 0; i < RDE_TALLY_LEN; i++)
        if (out[i] != FILL)
            return 0;
    return 1;
}

static long refusals[2]; /* 12 and 13 */

/* What is wrong with a join of two tallies by chance, or NULL. */
static const char *test(int low)
{
    uint8_t *a = guarded_place(memory.first, RDE_TALLY_LEN, low), *b = guarded_place(memory.second, RDE_TALLY_LEN, low);
    uint8_t *out = guarded_place(memory.out, RDE_TALLY_LEN, low);
    numbers first, second;
    rde_answer answer;
    uint32_t refusal;
    random_tally(a);
    random_tally(b);
    first = numbers_of(a);
    second = numbers_of(b);
    refusal = refusal_of(&first, &second);
    if (refusal != 0)
        refusals[refusal - RDE_TALLY]++;
    memset(out, FILL, RDE_TALLY_LEN);
    answer = rde_join(a, RDE_TALLY_LEN, b, RDE_TALLY_LEN, out, RDE_TALLY_LEN);
    if (memcmp(a, &first, sizeof first) != 0 || memcmp(b, &second, sizeof second) != 0)
        return "a tally is changed";
    if (answer.refusal != refusal || answer.value != 0)
        return "another answer is due";
    return (refusal != 0 ? is_filled(out) : is_sum(&first, &second, out)) ? NULL : "the output differs";
}

int main(int argc, char **argv)
{
    long joins = argc > 1 ? strtol(argv[1], NULL, 10) : 3000;
    memory.first = guarded_new(RDE_TALLY_LEN);
    memory.second = guarded_new(RDE_TALLY_LEN);
    memory.out = guarded_new(RDE_TALLY_LEN);
    chance_state = argc > 2 ? strtoull(argv[2], NULL, 10) : 1;
    catch_faults();
    for (long k = 0; k < joins; k++) {
        const char *wrong;
        snprintf(run.place, sizeof run.place, "join %ld", k);
        must_end();
        wrong = test(k % 2 != 0);
        if (wrong == NULL)
            run.passed++;
        else if (run.failed++ < SHOWN)
            printf("join %ld: %s\n", k, wrong);
    }
    printf("refused 12: %ld, refused 13: %ld\n", refusals[0], refusals[1]);
    return finish();
}
