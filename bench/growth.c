/* How the cost of a sample grows with the width and the number of windows, and that of a verdict with the samples: nanoseconds by
 * the core, and in brackets the ratio to plain C. */
#include "measure.h"
#include "sides.h"

#define ROUNDS 5
#define VERDICTS 50

static const uint32_t widths[] = {1, 10, 60, 600}, counts[] = {0, 1, 4, 16}, lengths[] = {900, 1800, 3600, 7200};

static double drive_time(side *s)
{
    double t;
    begin(s);
    t = seconds();
    samples_of_drive(s, MAX_DRIVE);
    return (seconds() - t) / MAX_DRIVE;
}

static double verdict_time(side *s)
{
    double t = seconds();
    for (int i = 0; i < VERDICTS; i++)
        take_verdict(s, s->verdict(s->area, RDE_AREA_LEN));
    return (seconds() - t) / VERDICTS;
}

/* The best of alternating rounds, printed. */
static void cell(double (*time)(side *))
{
    double best_core = 1e30, best_plain = 1e30;
    for (int i = 0; i < ROUNDS; i++) {
        double a = time(&core), b = time(&plain);
        best_core = a < best_core ? a : best_core;
        best_plain = b < best_plain ? b : best_plain;
    }
    check_same("growth");
    printf(" %10.1f (%4.2f)", 1e9 * best_core, best_core / best_plain);
}

static void heading(const char *name, const char *columns, const uint32_t *numbers)
{
    printf("%s\n%-10s", name, columns);
    for (int i = 0; i < 4; i++)
        printf(" %10u       ", numbers[i]);
    printf("\n");
}

static void width_table(const char *name, uint32_t function)
{
    heading(name, "windows:", counts);
    for (int i = 0; i < 4; i++) {
        printf("width %-4u", widths[i]);
        for (int k = 0; k < 4; k++) {
            set_windows(counts[k], function, widths[i]);
            cell(drive_time);
        }
        printf("\n");
    }
}

static void verdict_table(void)
{
    heading("ns a verdict", "samples:", lengths);
    printf("%-10s", "");
    set_windows(0, 0, 1);
    for (int i = 0; i < 4; i++) {
        begin(&core);
        begin(&plain);
        samples_of_drive(&core, lengths[i]);
        samples_of_drive(&plain, lengths[i]);
        cell(verdict_time);
    }
    printf("\n");
}

int main(void)
{
    (void)compare; /* measure.h's own line is not used here */
    make_drive();
    width_table("ns a sample, sum", 1);
    width_table("ns a sample, largest", 3);
    width_table("ns a sample, percentile", 5);
    width_table("ns a sample, the six functions in turn", 6);
    verdict_table();
    return 0;
}
