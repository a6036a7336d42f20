/* Measures how deep each call goes into the stack: it runs on a stack of its own that is painted before, and the lowest byte that is
 * changed tells. Counted from the caller's stack pointer, so the return address and the red zone are in it. Each call is made in many
 * states; the deepest counts. Prints a line for each: its name and the bytes. */
#define _XOPEN_SOURCE 700
#include <stdint.h>
#include <stdio.h>
#include <string.h>
#include <ucontext.h>

#include "rde.h"

#define STACK_LEN 65536

static _Alignas(16) uint8_t stack[STACK_LEN];
static ucontext_t caller, callee;
static uintptr_t pointer; /* the stack pointer where the call is made */

static uint8_t area[RDE_AREA_LEN], record[RDE_RECORD_LEN], block[100 * RDE_RECORD_LEN], tally[RDE_TALLY_LEN], other[RDE_TALLY_LEN];
static uint8_t samples[(RDE_MAX_SAMPLES + 1) * RDE_RECORD_LEN], reference[RDE_RECORD_LEN];
static size_t area_len, record_len, block_len, reference_len;
static uint32_t window;
static volatile uint64_t sink;

/* A job reads the stack pointer and makes its call; arguments and results go by registers. */
#define JOB(name, call)                                  \
    static void name(void)                               \
    {                                                    \
        __asm__ volatile("mov %%rsp, %0" : "=m"(pointer)); \
        sink += (call).refusal;                          \
    }
static void do_area_len(void)
{
    __asm__ volatile("mov %%rsp, %0" : "=m"(pointer));
    sink += rde_area_len();
}
JOB(do_clear, rde_clear(area, area_len))
JOB(do_declare, rde_declare(area, area_len, record, record_len))
JOB(do_sample, rde_sample(area, area_len, record, record_len))
JOB(do_close, rde_close(area, area_len))
JOB(do_read, rde_read(area, area_len, window))
JOB(do_verdict, rde_verdict(area, area_len))
JOB(do_tally, rde_tally(block, block_len, tally, sizeof tally))
JOB(do_join, rde_join(tally, sizeof tally, tally, sizeof tally, other, sizeof other))
JOB(do_co2, rde_co2(samples, block_len, reference, reference_len))

enum { AREA_LEN, CLEAR, DECLARE, SAMPLE, CLOSE, READ, VERDICT, TALLY, JOIN, CO2, CALLS };
static const struct {
    const char *name;
    void (*job)(void);
} calls[CALLS] = {{"rde_area_len", do_area_len}, {"rde_clear", do_clear}, {"rde_declare", do_declare},
                  {"rde_sample", do_sample},     {"rde_close", do_close}, {"rde_read", do_read},
                  {"rde_verdict", do_verdict},   {"rde_tally", do_tally}, {"rde_join", do_join},
                  {"rde_co2", do_co2}};
static size_t deepest[CALLS];

/* Makes a call on the painted stack. */
static void make(int call)
{
    static uint8_t paint = 0xa5;
    paint ^= 0xff; /* a byte that happens to be written with the paint is seen the next time */
    memset(stack, paint, sizeof stack);
    getcontext(&callee);
    callee.uc_stack.ss_sp = stack;
    callee.uc_stack.ss_size = sizeof stack;
    callee.uc_link = &caller;
    makecontext(&callee, calls[call].job, 0);
    swapcontext(&caller, &callee);
    size_t at = 0;
    while (at < sizeof stack && stack[at] == paint)
        at++;
    size_t used = pointer - (uintptr_t)(stack + at);
    if (used > deepest[call])
        deepest[call] = used;
}

static void put(uint8_t *at, uint32_t value, int n)
{
    for (; n > 0; n--, value >>= 8)
        *at++ = (uint8_t)value;
}

/* A sample record: speeds and values go up and down, so that lists and stores change in every way; NOx is below 0 in the first seconds,
 * then mostly above. */
static void set_sample(uint8_t *r, uint32_t second)
{
    static uint32_t x = 12345;
    x = x * 1103515245u + 12345u;
    put(r, second, 2);
    put(r + 2, x >> 16 & 2047, 2);
    put(r + 4, x >> 12 & 1023, 2);
    put(r + 6, 2700 + (x >> 20 & 255), 2);
    put(r + 8, x >> 17 & 8191, 2);
    put(r + 10, (second < 250 ? x >> 19 & 31 : x >> 19 & 4095) - 50, 2);
    put(r + 12, x >> 15 & 65535, 4);
}

static void set_window(uint32_t k)
{
    memset(record, 0, sizeof record);
    record[0] = (uint8_t)(k % 6);
    record[1] = (uint8_t)(k % 7);
    record[2] = (uint8_t)((k + 3) % 7);
    put(record + 4, 1 + 40 * k, 2);
    put(record + 8, (uint32_t)-1000000, 4);
    put(record + 12, 3000, 4);
}

/* The sample with NOx below its range. */
static void make_out_of_range(void)
{
    uint8_t high = record[11];
    record[11] = 0x80;
    make(SAMPLE);
    record[11] = high;
}

/* A drive of n samples with so many windows, every call made on the way, refused ones too. */
static void drive(uint32_t windows, uint32_t n)
{
    area_len = sizeof area;
    record_len = sizeof record;
    make(CLEAR);
    for (uint32_t k = 0; k <= windows; k++) {
        set_window(k);
        make(DECLARE);
    }
    for (uint32_t second = 0; second < n; second++) {
        set_sample(record, second);
        if (second % 97 == 1)
            make_out_of_range();
        make(SAMPLE);
        if (second % 97 == 0) {
            make(SAMPLE); /* out of turn */
            make(VERDICT);
            for (window = 0; window <= windows; window++)
                make(READ);
        }
    }
    make(CLOSE);
    make(CLOSE);
    make(SAMPLE);
    make(VERDICT);
    area_len--;
    for (int call = 0; call < TALLY; call++)
        make(call);
}

/* The tally of a block that begins at this second, joined with itself. */
static void block_from(uint32_t second)
{
    for (uint32_t i = 0; i < sizeof block / RDE_RECORD_LEN; i++)
        set_sample(block + RDE_RECORD_LEN * i, second + i);
    block_len = sizeof block;
    make(TALLY);
    make(JOIN);
}

static void blocks(void)
{
    block_from(0);   /* U is below 0 */
    block_from(250); /* above 0 */
    put(tally + RDE_TALLY_LEN - 4, 0x7fffffff, 4);
    make(JOIN); /* ill-formed in its last number, which is too great */
    put(tally + RDE_TALLY_LEN - 4, 0x80000000, 4);
    make(JOIN); /* too small */
    put(block + 2, 3001, 2);
    make(TALLY); /* out of range */
    block_len--;
    make(TALLY); /* no whole records */
    memset(tally, 0xff, sizeof tally);
    make(JOIN); /* ill-formed */
}

static void set_reference(uint32_t mass, uint32_t c1, uint32_t c2, uint32_t c3)
{
    put(reference, mass, 4);
    put(reference + 4, c1, 2);
    put(reference + 6, c2, 2);
    put(reference + 8, c3, 2);
}

/* More samples than a block may have, partly slow or at a standstill, most of them at 900 g/km. */
static void set_samples(void)
{
    for (uint32_t i = 0; i <= RDE_MAX_SAMPLES; i++) {
        uint8_t *r = samples + RDE_RECORD_LEN * i;
        set_sample(r, i);
        if (i % 50 < 20)
            put(r + 2, i % 5 * 100, 2);
        if (i % 4 != 0)
            put(r + 12, 25 * (r[2] + 256u * r[3]), 4);
    }
}

/* Windows of one sample, of some and of most, and none complete; curves that make few, some or most of them normal, or fall below 0. */
static void windows(void)
{
    static const uint32_t masses[] = {1, 60000, 300000, 60000000, UINT32_MAX};
    static const size_t lens[] = {0, RDE_RECORD_LEN, 40 * RDE_RECORD_LEN, RDE_MAX_SAMPLES * RDE_RECORD_LEN};
    set_samples();
    reference_len = sizeof reference;
    for (uint32_t k = 0; k < 5 * 4 * 8; k++) {
        set_reference(masses[k % 5], k / 20 & 1 ? 1000 : 1, k / 20 & 2 ? 1000 : 1, k / 20 & 4 ? 1000 : 1);
        block_len = lens[k / 5 % 4];
        make(CO2);
    }
}

static void refused_windows(void)
{
    block_len = sizeof samples;
    make(CO2); /* a sample too many */
    block_len--;
    make(CO2); /* no whole records */
    block_len = RDE_MAX_SAMPLES * RDE_RECORD_LEN;
    put(samples + block_len - 4, 100001, 4);
    make(CO2); /* the last sample out of range */
    reference_len--;
    make(CO2); /* a reference record of another length */
    reference_len++;
    set_reference(0, 1, 1, 1);
    make(CO2); /* an M of 0 */
    set_reference(1, 1, 1, 1001);
    make(CO2); /* a c3 out of range */
    set_reference(1, 1, 1, 1);
    reference[RDE_RECORD_LEN - 1] = 1;
    make(CO2); /* a last byte that is not 0 */
}

int main(void)
{
    drive(0, 200);
    drive(16, 1500);
    memset(area, 0xff, sizeof area); /* damaged */
    for (int call = DECLARE; call < TALLY; call++)
        make(call);
    blocks();
    windows();
    refused_windows();
    for (int call = 0; call < CALLS; call++)
        printf("%s %zu\n", calls[call].name, deepest[call]);
    return 0;
}
