/* A lent area between unreadable pages, and calls on it that check what each call must keep, whatever the area holds:
 * at a refusal every other field is 0; a refusal, a reading and a verdict change no byte; no call changes a byte beside the area
 * or in its record; 11 is given exactly where the area has another length, 1 exactly where it has not and the record has. */
#ifndef LENT_H
#define LENT_H

#include <signal.h>
#include <stdint.h>
#include <stdio.h>
#include <stdlib.h>
#include <string.h>
#include <sys/time.h>
#include <unistd.h>

#include "guard.h"
#include "rde.h"

enum { CLEAR, DECLARE, SAMPLE, CLOSE, READ, VERDICT, KINDS };

_Static_assert(sizeof((const char *const[])RDE_RULE_NAMES) / sizeof(char *) == RDE_RULES, "a name for each rule");

static const char *const kind_names[KINDS] = {"clear", "declare", "sample", "close", "read", "verdict"};

#define MAX_RECORD 64

typedef struct {
    int kind;
    uint8_t record[MAX_RECORD]; /* of declare and sample */
    size_t record_len;
    uint32_t window;            /* of read */
} call;

/* The answer to any call: what its kind does not have is 0. */
typedef struct {
    uint32_t refusal;
    int64_t value;
    uint32_t broken, exceeded, word;
} answer;

typedef struct {
    guarded memory, record;
    int low;           /* which pages the area and its records stand against */
    uint8_t *area;
    uint8_t *copy;     /* what the area's memory must hold, bytes beside the area included */
    const char *wrong; /* the first thing that a call did not keep, or NULL */
} lent;

/* --- Figures and faults --- */

#ifndef MOST_SECONDS
#define MOST_SECONDS 60 /* of processor time: more than any list of calls, area, tally or block takes */
#endif

/* What follows must end within MOST_SECONDS; other work on the machine does not count. */
static inline void must_end(void)
{
    const struct itimerval most = {.it_value = {.tv_sec = MOST_SECONDS}};
    setitimer(ITIMER_PROF, &most, NULL);
}

static struct {
    long passed, failed;
    char place[200]; /* what is being done, told at a fault */
} run;

static inline int finish(void)
{
    printf("%ld passed, %ld failed\n", run.passed, run.failed);
    return run.failed != 0 || run.passed == 0;
}

/* A fault, or a call that does not end, is the run's last failure. */
static inline void on_signal(int number)
{
    run.failed++;
    printf("%s: %s\n", run.place, number == SIGPROF ? "does not end" : "fault");
    finish();
    fflush(stdout);
    _exit(1);
}

static inline void catch_faults(void)
{
    static const int numbers[] = {SIGSEGV, SIGBUS, SIGFPE, SIGILL, SIGABRT, SIGTRAP, SIGPROF};
    for (size_t i = 0; i < sizeof numbers / sizeof *numbers; i++)
        signal(numbers[i], on_signal);
}

/* --- The area --- */

static inline lent lent_new(void)
{
    lent l = {guarded_new(RDE_AREA_LEN + 1), guarded_new(MAX_RECORD), 0, NULL, NULL, NULL};
    l.copy = malloc(l.memory.room);
    if (l.copy == NULL) {
        perror("a copy of the area");
        exit(2);
    }
    return l;
}

static inline void lent_wrong(lent *l, const char *what)
{
    if (l->wrong == NULL)
        l->wrong = what;
}

/* Takes the area's bytes, just written by the test or by an accepted call, as what it must hold from now on. */
static inline void lent_settle(lent *l)
{
    memcpy(l->copy + (l->area - l->memory.start), l->area, RDE_AREA_LEN);
}

static inline void lent_check(lent *l, const char *what)
{
    if (memcmp(l->copy, l->memory.start, l->memory.room) != 0)
        lent_wrong(l, what);
}

/* Puts the area against one of its pages, with these bytes in and beside it (memory.room of them). */
static inline void lent_start(lent *l, int low, const uint8_t *bytes)
{
    l->low = low;
    l->area = guarded_place(l->memory, RDE_AREA_LEN, low);
    l->wrong = NULL;
    memcpy(l->memory.start, bytes, l->memory.room);
    memcpy(l->copy, bytes, l->memory.room);
}

/* --- Calls --- */

static inline answer of_number(rde_answer a)
{
    return (answer){a.refusal, a.value, 0, 0, 0};
}

/* The library's answer. */
static inline answer ask(const call *c, const uint8_t *record, uint8_t *area, size_t area_len)
{
    rde_verdict_answer v;
    switch (c->kind) {
    case CLEAR:
        return of_number(rde_clear(area, area_len));
    case DECLARE:
        return of_number(rde_declare(area, area_len, record, c->record_len));
    case SAMPLE:
        return of_number(rde_sample(area, area_len, record, c->record_len));
    case CLOSE:
        return of_number(rde_close(area, area_len));
    case READ:
        return of_number(rde_read(area, area_len, c->window));
    default:
        v = rde_verdict(area, area_len);
        return (answer){v.refusal, 0, v.broken, v.exceeded, v.word};
    }
}

static inline int takes_record(const call *c)
{
    return c->kind == DECLARE || c->kind == SAMPLE;
}

static inline int same_answer(const answer *a, const answer *b)
{
    return a->refusal == b->refusal && a->value == b->value && a->broken == b->broken && a->exceeded == b->exceeded &&
           a->word == b->word;
}

static inline answer refusal_alone(uint32_t number)
{
    return (answer){number, 0, 0, 0, 0};
}

static inline int is_refusal_alone(const answer *a)
{
    answer alone = refusal_alone(a->refusal);
    return same_answer(a, &alone);
}

/* Is it one of the calls that change the area? No other changes a byte of it. */
static inline int writes(const call *c)
{
    return c->kind == CLEAR || c->kind == DECLARE || c->kind == SAMPLE || c->kind == CLOSE;
}

/* One call on the area, checked. */
static inline answer lent_call(lent *l, const call *c)
{
    uint8_t *record = guarded_place(l->record, c->record_len, l->low);
    answer a;
    memcpy(record, c->record, c->record_len);
    a = ask(c, record, l->area, RDE_AREA_LEN);
    if (memcmp(record, c->record, c->record_len) != 0)
        lent_wrong(l, "the record is changed");
    if (a.refusal != 0 && !is_refusal_alone(&a))
        lent_wrong(l, "a refusal with another field");
    if (takes_record(c) && c->record_len != RDE_RECORD_LEN && a.refusal != RDE_RECORD_LENGTH)
        lent_wrong(l, "a record of another length is not refused with 1");
    if (a.refusal == RDE_LENGTH)
        lent_wrong(l, "an area of the right length is refused with 11");
    if (a.refusal == RDE_RECORD_LENGTH && (!takes_record(c) || c->record_len == RDE_RECORD_LEN))
        lent_wrong(l, "1 is given without a record of another length");
    if (c->kind == CLEAR && a.refusal != 0)
        lent_wrong(l, "clear is refused");
    if (a.refusal == 0 && writes(c))
        lent_settle(l);
    lent_check(l, a.refusal != 0 ? "a refusal changes a byte" : "a byte is changed that should not be");
    return a;
}

/* The same call lent an area of another length, over the same bytes: 11, and nothing changes. */
static inline void lent_other_length(lent *l, const call *c, size_t area_len)
{
    uint8_t *record = guarded_place(l->record, c->record_len, l->low);
    answer a, stated = refusal_alone(RDE_LENGTH);
    memcpy(record, c->record, c->record_len);
    a = ask(c, record, guarded_place(l->memory, area_len, l->low), area_len);
    if (!same_answer(&a, &stated))
        lent_wrong(l, "an area of another length does not answer 11 alone");
    lent_check(l, "an area of another length is changed");
}

/* All calls, this one's record lent, with one of four other lengths. */
static inline void lent_other_lengths(lent *l, const call *c, unsigned which)
{
    static const size_t lengths[] = {0, 15, RDE_AREA_LEN - 1, RDE_AREA_LEN + 1};
    call other = *c;
    for (other.kind = 0; other.kind < KINDS; other.kind++)
        lent_other_length(l, &other, lengths[which % 4]);
}

#endif
