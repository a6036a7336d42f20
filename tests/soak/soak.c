/* A longer run, outside the gate: lists of calls by chance through the library and through bench/plain.c, every answer compared,
 * and every fourth time a list that goes on after bytes of the area were changed (only what lent.h checks is then asked, and that
 * clear makes the area fresh). After each list the CO2 windows and the tally of a block and the join of two tallies, by both.
 *     soak COUNT [SEED]
 * COUNT is the number of lists; the same seed gives the same ones. Figures at the end; the last line is 'N passed, M failed', one for
 * each list, one for each block and one for each join. */
#include "../../bench/plain.h"
#include "../host/lent.h"
#include "blocks.h"
#include "tallies.h"

#define SHOWN 10

static struct {
    long calls, other_lengths, refusals[KINDS][256], damaged, damaged_calls, damaged_refusals[256], full, sampled, nox_below, read_below, exceeded;
    long blocks, records, co2_refusals[256], shared, complete, normal, with_complete, with_normal, passed;
    long tally_refusals[256], tallied_below, join_refusals[256], joined_below;
} figures;

typedef struct {
    lent lent;
    uint8_t plain[PLAIN_AREA_LEN];
    trip trip;
    long list, calls;
    char wrong[200];
} pair;

/* The answer by plain C. */
static answer reckon(pair *s, const call *c)
{
    rde_verdict_answer v;
    switch (c->kind) {
    case CLEAR:
        return of_number(plain_clear(s->plain, sizeof s->plain));
    case DECLARE:
        return of_number(plain_declare(s->plain, sizeof s->plain, c->record, c->record_len));
    case SAMPLE:
        return of_number(plain_sample(s->plain, sizeof s->plain, c->record, c->record_len));
    case CLOSE:
        return of_number(plain_close(s->plain, sizeof s->plain));
    case READ:
        return of_number(plain_read(s->plain, sizeof s->plain, c->window));
    default:
        v = plain_verdict(s->plain, sizeof s->plain);
        return (answer){v.refusal, 0, v.broken, v.exceeded, v.word};
    }
}

static void differ(pair *s, const call *c, const answer *a, const answer *b)
{
    if (s->wrong[0] == 0)
        snprintf(s->wrong, sizeof s->wrong, "%s: refusal %u and %u, value %lld and %lld, verdict %08x %u %u and %08x %u %u",
                 kind_names[c->kind], a->refusal, b->refusal, (long long)a->value, (long long)b->value, a->broken, a->exceeded,
                 a->word, b->broken, b->exceeded, b->word);
}

static void at_call(pair *s)
{
    s->calls++;
    snprintf(run.place, sizeof run.place, "list %ld, call %ld", s->list, s->calls);
}

static void count_call(const call *c, const answer *a)
{
    figures.calls++;
    figures.refusals[c->kind][a->refusal & 255]++;
    figures.sampled += c->kind == SAMPLE && a->refusal == 0;
    figures.nox_below += c->kind == SAMPLE && a->refusal == 0 && c->record[11] >= 128;
    figures.read_below += c->kind == READ && a->value < 0;
    figures.exceeded += a->exceeded == 1;
}

/* One call of a list: both answers must be the same. */
static void make(pair *s, int kind)
{
    call c = draw_call(&s->trip, kind);
    answer a, b;
    at_call(s);
    if (once_in(16)) {
        lent_other_lengths(&s->lent, &c, below(4));
        figures.other_lengths += KINDS;
    }
    a = lent_call(&s->lent, &c);
    b = reckon(s, &c);
    if (!same_answer(&a, &b))
        differ(s, &c, &a, &b);
    trip_step(&s->trip, &c, &b);
    count_call(&c, &a);
}

static void start(pair *s, int low)
{
    static uint8_t bytes[1 << 17];
    must_end();
    s->calls = 0;
    s->wrong[0] = 0;
    random_bytes(bytes, s->lent.memory.room);
    random_bytes(s->plain, sizeof s->plain);
    lent_start(&s->lent, low, bytes);
    make(s, CLEAR);
}

/* Is a verdict due, since rules 0 and 1 tell such numbers of samples apart? */
static int at_length_rule(uint32_t samples)
{
    return (samples >= 5399 && samples <= 5401) || samples >= 7199;
}

/* A short list, a long one, or a full trip and a little more. */
static void make_list(pair *s, int size)
{
    static const uint32_t limits[] = {60, 2000, 7210};
    uint32_t calls = size == 0 ? 1 + below(150) : size == 1 ? 1000 + below(2000) : 12000, windows = below(18);
    s->trip = trip_start(limits[size], once_in(2) ? 0 : size == 0 ? 8 : 60);
    for (uint32_t k = 0; k < windows; k++)
        make(s, DECLARE);
    for (uint32_t k = 0; k < calls && s->wrong[0] == 0 && s->lent.wrong == NULL; k++) {
        int kind = draw_kind(&s->trip);
        if (size == 2 && (kind == CLEAR || kind == CLOSE || kind == DECLARE || (kind == READ && !once_in(4))))
            kind = SAMPLE;
        make(s, kind);
        if (s->trip.style == CLIMBS || s->trip.style == BANDS || s->trip.style == DRIFTS || at_length_rule(s->trip.samples))
            make(s, VERDICT);
        if (size > 0 && once_in(300))
            s->trip.style = (int)below(STYLES);
    }
    figures.full += s->trip.samples == RDE_MAX_SAMPLES;
    if (once_in(2))
        make(s, CLOSE);
    make(s, VERDICT);
    for (uint32_t w = 0; w <= RDE_MAX_WINDOWS; w++)
        make(s, READ);
}

/* Changes bytes of the area, goes on with calls, and clears. */
static void make_damage(pair *s)
{
    uint32_t bytes = 1 + below(once_in(4) ? 4000 : 40), from = below(RDE_AREA_LEN), near = once_in(2);
    for (uint32_t k = 0; k < bytes; k++)
        s->lent.area[near ? (from + below(64)) % RDE_AREA_LEN : below(once_in(2) ? 256 : RDE_AREA_LEN)] = (uint8_t)draw();
    lent_settle(&s->lent);
    figures.damaged++;
    s->trip.faults = once_in(2) ? 3 : 0;
    for (uint32_t k = 0; k < 60; k++) {
        int kind = draw_kind(&s->trip);
        call c = draw_call(&s->trip, kind == CLEAR ? CLOSE : kind);
        answer a;
        at_call(s);
        a = lent_call(&s->lent, &c);
        trip_step(&s->trip, &c, &a);
        figures.damaged_calls++;
        figures.damaged_refusals[a.refusal & 255]++;
    }
    s->trip.samples = s->trip.windows = 0;
    make(s, CLEAR);
    make_list(s, 0);
}

static void run_list(pair *s, long list)
{
    s->list = list;
    start(s, list % 2);
    make_list(s, list % 400 == 399 ? 2 : list % 40 == 39 ? 1 : 0);
    if (list % 4 == 3)
        make_damage(s);
    if (s->wrong[0] == 0 && s->lent.wrong == NULL) {
        run.passed++;
        return;
    }
    if (run.failed++ < SHOWN)
        printf("list %ld, call %ld: %s\n", list, s->calls, s->wrong[0] != 0 ? s->wrong : s->lent.wrong);
}

/* --- Tallies and joins --- */

#define FILL 0xa5 /* what an output holds before the call */

typedef struct {
    guarded block, a, b, out;
    join_case given;
    rde_answer core;
    uint32_t plain;
    uint8_t plain_out[TALLY_ROOM];
} tallies;

/* The library's output, of so many bytes against an unreadable page; that of plain C is filled too. */
static uint8_t *filled_out(tallies *t, size_t len, int low)
{
    uint8_t *out = guarded_place(t->out, len, low);
    memset(out, FILL, len);
    memset(t->plain_out, FILL, sizeof t->plain_out);
    return out;
}

/* Lends bytes against an unreadable page. */
static uint8_t *lend(guarded g, const uint8_t *bytes, size_t len, int low)
{
    uint8_t *place = guarded_place(g, len, low);
    memcpy(place, bytes, len);
    return place;
}

/* What is not the same by both, or NULL; a refusal leaves both outputs filled. */
static const char *compare_outputs(const tallies *t, const uint8_t *out, size_t len)
{
    if (t->core.refusal != t->plain)
        return "the refusals differ";
    if (t->core.value != 0)
        return "the value is not 0";
    return memcmp(out, t->plain_out, len) != 0 ? "the outputs differ" : NULL;
}

/* Counts an answer, and a tally whose U is below zero. */
static void count_tally(const tallies *t, long *refusals, long *below_zero)
{
    refusals[t->core.refusal & 255]++;
    *below_zero += t->plain == RDE_OK && (int64_t)get_number(t->plain_out, AT_U) < 0;
}

/* The tally of a block, by both; what is wrong, or NULL. */
static const char *ask_tally(tallies *t, const uint8_t *bytes, size_t len, int low)
{
    size_t out_len = draw_tally_length();
    uint8_t *out = filled_out(t, out_len, low), *block = lend(t->block, bytes, len, low);
    t->core = rde_tally(block, len, out, out_len);
    t->plain = plain_tally(bytes, len, t->plain_out, out_len);
    count_tally(t, figures.tally_refusals, &figures.tallied_below);
    return memcmp(block, bytes, len) != 0 ? "the block is changed" : compare_outputs(t, out, out_len);
}

/* The join of the two tallies drawn, by both; what is wrong, or NULL. */
static const char *ask_join(tallies *t, int low)
{
    const join_case *j = &t->given;
    uint8_t *out = filled_out(t, j->out_len, low), *a = lend(t->a, j->a, j->a_len, low), *b = j->same ? a : lend(t->b, j->b, j->b_len, low);
    t->core = rde_join(a, j->a_len, b, j->b_len, out, j->out_len);
    t->plain = plain_join(j->a, j->a_len, j->b, j->b_len, t->plain_out, j->out_len);
    count_tally(t, figures.join_refusals, &figures.joined_below);
    if (memcmp(a, j->a, j->a_len) != 0 || memcmp(b, j->b, j->b_len) != 0)
        return "a tally is changed";
    return compare_outputs(t, out, j->out_len);
}

static void run_join(tallies *t, long number)
{
    const char *wrong;
    must_end();
    snprintf(run.place, sizeof run.place, "join %ld", number);
    draw_join_case(&t->given);
    wrong = ask_join(t, number % 2);
    if (wrong == NULL) {
        run.passed++;
        return;
    }
    if (run.failed++ < SHOWN)
        printf("join %ld: %s: refusal %u and %u\n", number, wrong, t->core.refusal, t->plain);
}

/* --- CO2 windows --- */

typedef struct {
    guarded block, reference;
    co2_case given;
    rde_co2_answer core, plain;
} windows;

static void count_windows(const windows *w)
{
    figures.blocks++;
    figures.records += (long)(w->given.block_len / RDE_RECORD_LEN);
    figures.co2_refusals[w->core.refusal & 255]++;
    figures.shared += w->given.shares;
    figures.complete += w->core.complete;
    figures.normal += w->core.normal;
    figures.with_complete += w->core.complete != 0;
    figures.with_normal += w->core.normal != 0;
    figures.passed += w->core.pass == 1;
}

/* The answers to the block and the reference record lent against unreadable pages, by both; what changes a byte, or NULL. */
static const char *ask_windows(windows *w, int low)
{
    const co2_case *c = &w->given;
    size_t more = c->shares ? c->reference_len - SHARED : 0;
    uint8_t *block = guarded_place(w->block, c->block_len + more, low);
    uint8_t *reference = c->shares ? block + c->block_len - SHARED : guarded_place(w->reference, c->reference_len, low);
    memcpy(block, c->block, c->block_len);
    memcpy(reference, c->reference, c->reference_len);
    w->core = rde_co2(block, c->block_len, reference, c->reference_len);
    w->plain = plain_co2(c->block, c->block_len, c->reference, c->reference_len);
    if (memcmp(block, c->block, c->block_len) != 0)
        return "the block is changed";
    return memcmp(reference, c->reference, c->reference_len) != 0 ? "the reference record is changed" : NULL;
}

static int same_windows(const windows *w)
{
    return w->core.refusal == w->plain.refusal && w->core.complete == w->plain.complete && w->core.normal == w->plain.normal &&
           w->core.pass == w->plain.pass;
}

/* A block's windows and its tally. */
static void run_block(windows *w, tallies *t, long number)
{
    const char *wrong, *wrong_tally;
    must_end();
    snprintf(run.place, sizeof run.place, "block %ld", number);
    draw_co2_case(&w->given);
    wrong = ask_windows(w, number % 2);
    count_windows(w);
    wrong_tally = ask_tally(t, w->given.block, w->given.block_len, number % 2);
    if (wrong == NULL && wrong_tally == NULL && same_windows(w)) {
        run.passed++;
        return;
    }
    if (run.failed++ >= SHOWN)
        return;
    if (wrong_tally != NULL)
        printf("block %ld: its tally: %s: refusal %u and %u\n", number, wrong_tally, t->core.refusal, t->plain);
    else
        printf("block %ld: %s: refusal %u and %u, complete %u and %u, normal %u and %u, pass %u and %u\n", number,
               wrong != NULL ? wrong : "differs", w->core.refusal, w->plain.refusal, w->core.complete, w->plain.complete,
               w->core.normal, w->plain.normal, w->core.pass, w->plain.pass);
}

/* --- Figures --- */

static void print_refusals(const long *counts)
{
    for (int k = 1; k < 256; k++)
        if (counts[k] != 0)
            printf(", refused %d: %ld", k, counts[k]);
    printf("\n");
}

static void print_figures(long lists)
{
    printf("lists %ld, calls %ld, samples accepted %ld, full trips %ld, calls with an area of another length %ld\n", lists,
           figures.calls, figures.sampled, figures.full, figures.other_lengths);
    printf("samples with NOx below zero %ld, readings below zero %ld, verdicts exceeded %ld\n", figures.nox_below, figures.read_below,
           figures.exceeded);
    for (int kind = 0; kind < KINDS; kind++) {
        printf("%-8s accepted %ld", kind_names[kind], figures.refusals[kind][0]);
        print_refusals(figures.refusals[kind]);
    }
    printf("damaged areas %ld, calls on them %ld, accepted %ld", figures.damaged, figures.damaged_calls, figures.damaged_refusals[0]);
    print_refusals(figures.damaged_refusals);
    printf("blocks %ld, records %ld, sharing bytes with the reference %ld\n", figures.blocks, figures.records, figures.shared);
    printf("co2      accepted %ld", figures.co2_refusals[0]);
    print_refusals(figures.co2_refusals);
    printf("windows complete %ld, normal %ld; blocks with complete ones %ld, with normal ones %ld, passed %ld\n", figures.complete,
           figures.normal, figures.with_complete, figures.with_normal, figures.passed);
    printf("tally    accepted %ld, with U below zero %ld", figures.tally_refusals[0], figures.tallied_below);
    print_refusals(figures.tally_refusals);
    printf("join     accepted %ld, with U below zero %ld", figures.join_refusals[0], figures.joined_below);
    print_refusals(figures.join_refusals);
    printf("faults 0\n"); /* a fault ends the run before */
}

int main(int argc, char **argv)
{
    static pair s;
    static windows w;
    static tallies t;
    long lists = argc > 1 ? strtol(argv[1], NULL, 10) : 4000;
    s.lent = lent_new();
    w.block = guarded_new(sizeof w.given.block + sizeof w.given.reference);
    w.reference = guarded_new(sizeof w.given.reference);
    t.block = guarded_new(sizeof w.given.block);
    t.a = guarded_new(TALLY_ROOM);
    t.b = guarded_new(TALLY_ROOM);
    t.out = guarded_new(TALLY_ROOM);
    chance_state = argc > 2 ? strtoull(argv[2], NULL, 10) : 1;
    catch_faults();
    for (long k = 0; k < lists; k++) {
        run_list(&s, k);
        run_block(&w, &t, k);
        run_join(&t, k);
    }
    print_figures(lists);
    return finish();
}
