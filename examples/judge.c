/* Judges a recorded drive: reads sample records from a file, shows the readings of three windows every ten minutes, and ends with
 * the verdict in words. At a refused record or a file that it cannot read it stops with a message and exit status 1. Build and run,
 * after tests/staticlib:
 *     gcc -std=c11 -Wall -Wextra -Werror -Iinclude examples/judge.c target/staticlib/libmonitor.a -o target/judge
 *     target/judge examples/drives/clean.drive */
#include <errno.h>
#include <inttypes.h>
#include <stdio.h>
#include <string.h>

#include "rde.h"

static uint8_t area[RDE_AREA_LEN];

/* function, channel, condition channel, 0, width (u16), 0 (u16), low (i32), high (i32) */
static const uint8_t windows[3][RDE_RECORD_LEN] = {
    {4, 0, 0, 0, 0x58, 0x02, 0, 0, 0x00, 0, 0, 0, 0xb8, 0x0b, 0, 0}, /* mean speed of ten minutes, to the nearest */
    {3, 1, 0, 0, 0x58, 0x02, 0, 0, 0x00, 0, 0, 0, 0xb8, 0x0b, 0, 0}, /* highest altitude of ten minutes */
    {5, 4, 0, 0, 0x3c, 0x00, 0, 0, 0x0a, 0, 0, 0, 0xb8, 0x0b, 0, 0}, /* 95th percentile of NOx in a minute, while moving */
};

static const char *const rules[RDE_RULES] = RDE_RULE_NAMES;

static void show_readings(long second)
{
    static const char *const names[3] = {"mean speed, tenths of km/h", "highest altitude, m", "NOx P95, ppm"};
    printf("second %ld:", second);
    for (uint32_t w = 0; w < 3; w++) {
        rde_answer a = rde_read(area, sizeof area, w);
        if (a.refusal == RDE_OK)
            printf("  %s %" PRId64, names[w], a.value);
        else
            printf("  %s none", names[w]);
    }
    printf("\n");
}

static int show_verdict(void)
{
    rde_verdict_answer v = rde_verdict(area, sizeof area);
    if (v.refusal != RDE_OK) {
        fprintf(stderr, "judge: no verdict: refusal %" PRIu32 "\n", v.refusal);
        return 1;
    }
    for (uint32_t k = 0; k < RDE_RULES; k++)
        if (v.broken >> k & 1)
            printf("rule %" PRIu32 " broken: %s\n", k, rules[k]);
    printf("NOx limit %s\n", v.exceeded ? "exceeded" : "kept");
    if (v.word == RDE_CLEAN)
        printf("verdict: valid and clean\n");
    else if (v.word == RDE_EXCEEDED)
        printf("verdict: valid, emissions exceeded\n");
    else
        printf("verdict: not valid, rule %" PRIu32 "\n", v.word);
    return 0;
}

/* A fresh trip with the three windows. */
static int start(void)
{
    rde_answer a = rde_clear(area, sizeof area);
    for (int w = 0; w < 3 && a.refusal == RDE_OK; w++)
        a = rde_declare(area, sizeof area, windows[w], RDE_RECORD_LEN);
    if (a.refusal != RDE_OK)
        fprintf(stderr, "judge: no trip with these windows: refusal %" PRIu32 "\n", a.refusal);
    return a.refusal == RDE_OK;
}

int main(int argc, char **argv)
{
    uint8_t record[RDE_RECORD_LEN];
    long second = 0;
    if (argc != 2) {
        fprintf(stderr, "usage: judge FILE\n");
        return 2;
    }
    FILE *drive = fopen(argv[1], "rb");
    if (drive == NULL) {
        fprintf(stderr, "judge: cannot open %s: %s\n", argv[1], strerror(errno));
        return 1;
    }
    if (!start())
        return 1;
    /* a last piece that is no whole record is refused too */
    for (size_t got; (got = fread(record, 1, sizeof record, drive)) > 0;) {
        rde_answer a = rde_sample(area, sizeof area, record, got);
        if (a.refusal != RDE_OK) {
            fprintf(stderr, "judge: sample %ld refused: %" PRIu32 "\n", second, a.refusal);
            return 1;
        }
        second++;
        if (second % 600 == 0)
            show_readings(second);
    }
    if (ferror(drive)) {
        fprintf(stderr, "judge: cannot read %s: %s\n", argv[1], strerror(errno));
        return 1;
    }
    fclose(drive);
    rde_close(area, sizeof area);
    return show_verdict();
}
