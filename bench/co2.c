/* The CO2 windows of a drive of 7,200 samples by the core and by plain C, in one run. */
#include "measure.h"
#include "sides.h"

#define ROUNDS 200

static uint8_t reference[RDE_RECORD_LEN];
static rde_co2_answer core_answer, plain_answer;

static void core_windows(void)
{
    core_answer = rde_co2(drive, sizeof drive, reference, sizeof reference);
}

static void plain_windows(void)
{
    plain_answer = plain_co2(drive, sizeof drive, reference, sizeof reference);
}

/* A curve by which some windows of the drive are normal and some are not. */
static void set_reference(uint32_t mass)
{
    put_u16(reference, mass);
    put_u16(reference + 2, mass >> 16);
    put_u16(reference + 4, 180);
    put_u16(reference + 6, 110);
    put_u16(reference + 8, 100);
}

static void compare_windows(const char *name, uint32_t mass)
{
    set_reference(mass);
    compare(name, core_windows, plain_windows, ROUNDS, MAX_DRIVE);
    if (core_answer.refusal != 0 || memcmp(&core_answer, &plain_answer, sizeof core_answer) != 0) {
        printf("%s: refused, or the answers differ\n", name);
        exit(1);
    }
    printf("    complete %u, normal %u\n", core_answer.complete, core_answer.normal);
}

int main(void)
{
    make_drive();
    compare_windows("CO2, windows of some hundreds, a sample", 700000);
    compare_windows("CO2, each its own window, a sample", 500); /* no sample has less */
    compare_windows("CO2, no window complete, a sample", UINT32_MAX);
    return 0;
}
