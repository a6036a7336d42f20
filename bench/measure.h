/* Times in one run, as ratios: the best of alternating rounds of two functions over the same input. */
#ifndef MEASURE_H
#define MEASURE_H

#include <stdint.h>
#include <stdio.h>
#include <time.h>

static double seconds(void)
{
    struct timespec t;
    clock_gettime(CLOCK_MONOTONIC, &t);
    return (double)t.tv_sec + 1e-9 * (double)t.tv_nsec;
}

/* Prints nanoseconds a unit for both, and the ratio. Each function does its whole work once. */
static void compare(const char *name, void (*core)(void), void (*plain)(void), int rounds, double units)
{
    double best_core = 1e30, best_plain = 1e30;
    for (int i = 0; i < rounds; i++) {
        double t0 = seconds(), t1, t2;
        core();
        t1 = seconds();
        plain();
        t2 = seconds();
        if (t1 - t0 < best_core)
            best_core = t1 - t0;
        if (t2 - t1 < best_plain)
            best_plain = t2 - t1;
    }
    printf("%-44s core %10.2f ns   plain C %10.2f ns   ratio %.2f\n", name, 1e9 * best_core / units, 1e9 * best_plain / units,
           best_core / best_plain);
}

#endif
