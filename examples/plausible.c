/* Says whether the CO2 of a recorded drive is plausible for a car: reads sample records from a file, makes the reference record of four
 * decimal numbers (MASS is M in mg; C1, C2 and C3 are the curve in g/km at 19.0, 56.6 and 92.3 km/h) and counts the drive's CO2 windows.
 * At a refusal, a number that does not fit its field or a file that it cannot read it stops with a message and exit status 1. Build and
 * run, after tests/staticlib:
 *     gcc -std=c11 -Wall -Wextra -Werror -Iinclude examples/plausible.c target/staticlib/libmonitor.a -o target/plausible
 *     target/plausible examples/drives/plausible.drive 1300000 200 150 175
 * By these numbers windows last 3 to 15 minutes. */
#include <errno.h>
#include <inttypes.h>
#include <stdio.h>
#include <string.h>

#include "rde.h"

static uint8_t block[RDE_RECORD_LEN * RDE_MAX_SAMPLES + 1]; /* one byte more tells that a file is too long */
static uint8_t reference[RDE_RECORD_LEN];

/* Reads the drive; its length in bytes, or -1 with a message. */
static long read_drive(const char *name)
{
    FILE *drive = fopen(name, "rb");
    if (drive == NULL) {
        fprintf(stderr, "plausible: cannot open %s: %s\n", name, strerror(errno));
        return -1;
    }
    size_t len = fread(block, 1, sizeof block, drive);
    int failed = ferror(drive), why = errno;
    fclose(drive);
    if (failed) {
        fprintf(stderr, "plausible: cannot read %s: %s\n", name, strerror(why));
        return -1;
    }
    if (len == sizeof block) {
        fprintf(stderr, "plausible: %s is longer than %d records\n", name, RDE_MAX_SAMPLES);
        return -1;
    }
    return (long)len;
}

/* Puts a decimal number into a field of the reference record, little-endian; 0 with a message if it is none, or does not fit. */
static int put_number(size_t at, size_t width, const char *name, const char *text)
{
    uint64_t most = width == 4 ? UINT32_MAX : UINT16_MAX, number = 0;
    const char *p = text;
    for (; *p >= '0' && *p <= '9' && number <= most; p++)
        number = 10 * number + (uint64_t)(*p - '0');
    if (p == text || *p != 0 || number > most) {
        fprintf(stderr, "plausible: %s is no number from 0 to %" PRIu64 ": %s\n", name, most, text);
        return 0;
    }
    for (size_t i = 0; i < width; i++)
        reference[at + i] = (uint8_t)(number >> 8 * i);
    return 1;
}

static const char *refusal_words(uint32_t refusal)
{
    switch (refusal) {
    case RDE_REFERENCE:
        return "M is 0, or a number of the curve is not from 1 to 1000";
    case RDE_RECORD_LENGTH:
        return "the drive ends within a record";
    case RDE_RANGE:
        return "a record has a value outside its range";
    default:
        return "a fault of this program";
    }
}

static int show_windows(size_t len)
{
    rde_co2_answer a = rde_co2(block, len, reference, sizeof reference);
    if (a.refusal != RDE_OK) {
        fprintf(stderr, "plausible: refused %" PRIu32 ": %s\n", a.refusal, refusal_words(a.refusal));
        return 1;
    }
    printf("windows complete %" PRIu32 "\n", a.complete);
    printf("normal %" PRIu32 "\n", a.normal);
    printf("%s\n", a.pass ? "plausible" : "not plausible");
    return 0;
}

int main(int argc, char **argv)
{
    if (argc != 6) {
        fprintf(stderr, "usage: plausible DRIVE MASS C1 C2 C3\n");
        return 2;
    }
    if (!put_number(0, 4, "MASS", argv[2]) || !put_number(4, 2, "C1", argv[3]) || !put_number(6, 2, "C2", argv[4]) ||
        !put_number(8, 2, "C3", argv[5]))
        return 1;
    long len = read_drive(argv[1]);
    return len < 0 ? 1 : show_windows((size_t)len);
}
