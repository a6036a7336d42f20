/* Samples, readings, verdicts and clears by the core and by plain C, in one run. */
#include "measure.h"
#include "sides.h"

#define ROUNDS 15
#define READINGS 100000
#define VERDICTS 100
#define CLEARS 2000

static uint32_t read_window;

static void whole_drive(side *s)
{
    begin(s);
    samples_of_drive(s, MAX_DRIVE);
}

static void readings(side *s)
{
    for (int i = 0; i < READINGS; i++)
        take(s, s->read(s->area, RDE_AREA_LEN, read_window));
}

static void verdicts(side *s)
{
    for (int i = 0; i < VERDICTS; i++)
        take_verdict(s, s->verdict(s->area, RDE_AREA_LEN));
}

static void clears(side *s)
{
    for (int i = 0; i < CLEARS; i++)
        take(s, s->clear(s->area, RDE_AREA_LEN));
}

static void core_drive(void) { whole_drive(&core); }
static void plain_drive(void) { whole_drive(&plain); }
static void core_readings(void) { readings(&core); }
static void plain_readings(void) { readings(&plain); }
static void core_verdicts(void) { verdicts(&core); }
static void plain_verdicts(void) { verdicts(&plain); }
static void core_clears(void) { clears(&core); }
static void plain_clears(void) { clears(&plain); }

static void compare_drives(const char *name, uint32_t count, uint32_t function)
{
    set_windows(count, function, 600);
    compare(name, core_drive, plain_drive, ROUNDS, MAX_DRIVE);
    check_same(name);
}

/* Sixteen windows, the functions in turn, at the end of the drive. */
static void compare_readings(void)
{
    static const char *const names[] = {"a reading: count",   "a reading: sum",     "a reading: smallest",
                                        "a reading: largest", "a reading: average", "a reading: percentile"};
    for (read_window = 0; read_window < 6; read_window++) {
        compare(names[read_window], core_readings, plain_readings, ROUNDS, READINGS);
        check_same(names[read_window]);
    }
}

int main(void)
{
    make_drive();
    compare_drives("a sample, no windows", 0, 0);
    compare_drives("a sample, 16 windows of 600, largest", 16, 3);
    compare_drives("a sample, 16 windows of 600, percentile", 16, 5);
    compare_drives("a sample, 16 windows of 600, in turn", 16, 6);
    compare_readings();
    compare("a verdict on 7,200 samples", core_verdicts, plain_verdicts, ROUNDS, VERDICTS);
    check_same("verdict");
    compare("a clear", core_clears, plain_clears, ROUNDS, CLEARS);
    check_same("clear");
    return 0;
}
