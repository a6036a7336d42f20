/* Runs the lists of calls that tests/reckoning/generate.py prints through the library and compares every answer:
 *     list NAME
 *     declare HEX -> number 0
 *     sample - -> refused 1
 *     read 0 -> number -4
 *     verdict -> verdict 000384e1 0 0
 *     end
 * Each list starts from an area of random bytes and a clear, and stands against an unreadable page (lent.h says what is checked
 * at every call). Now and then the calls are also lent an area of another length. A list passes or fails as a whole.
 * The last line is 'N passed, M failed'. */
#include "chance.h"
#include "lent.h"
#include "lines.h"

#define SHOWN 10 /* failures told in full */

typedef struct {
    lent lent;
    char name[100];
    long number; /* of the call, from 1 */
    int failed;
} list;

static void fail(list *l, const char *what)
{
    if (!l->failed && run.failed < SHOWN)
        printf("list %s, call %ld: %s\n", l->name, l->number, what);
    l->failed = 1;
}

static int kind_of(const char *word)
{
    for (int kind = 0; kind < KINDS; kind++)
        if (strcmp(word, kind_names[kind]) == 0)
            return kind;
    return -1;
}

/* A line's call; 0 if it states none. */
static int parse_call(char **at, call *c)
{
    char *word = next_word(at);
    memset(c, 0, sizeof *c);
    c->kind = word == NULL ? -1 : kind_of(word);
    if (c->kind < 0)
        return 0;
    if (c->kind != READ && !takes_record(c))
        return 1;
    word = next_word(at);
    if (word == NULL || (takes_record(c) && hex_length(word) > MAX_RECORD))
        return 0;
    if (c->kind == READ)
        c->window = (uint32_t)strtoul(word, NULL, 10);
    else
        c->record_len = hex_bytes(word, c->record);
    return 1;
}

/* The answer that follows; 0 if there is none. */
static int parse_answer(char **at, answer *a)
{
    char *arrow = next_word(at), *kind = next_word(at), *first = next_word(at);
    memset(a, 0, sizeof *a);
    if (arrow == NULL || kind == NULL || first == NULL || strcmp(arrow, "->") != 0)
        return 0;
    if (strcmp(kind, "number") == 0) {
        a->value = strtoll(first, NULL, 10);
        return 1;
    }
    if (strcmp(kind, "refused") == 0) {
        a->refusal = (uint32_t)strtoul(first, NULL, 10);
        return a->refusal != 0;
    }
    a->broken = (uint32_t)strtoul(first, NULL, 16);
    return strcmp(kind, "verdict") == 0 && sscanf(*at, "%u %u", &a->exceeded, &a->word) == 2;
}

static void answer_text(char *out, size_t room, const answer *a, int kind)
{
    if (a->refusal != 0)
        snprintf(out, room, "refused %u", a->refusal);
    else if (kind == VERDICT)
        snprintf(out, room, "verdict %08x %u %u", a->broken, a->exceeded, a->word);
    else
        snprintf(out, room, "number %lld", (long long)a->value);
}

static void compare_answers(list *l, const call *c, const answer *stated, const answer *given)
{
    char is[64], should[64], what[200];
    if (same_answer(stated, given))
        return;
    answer_text(is, sizeof is, given, c->kind);
    answer_text(should, sizeof should, stated, c->kind);
    snprintf(what, sizeof what, "%s answers %s, stated is %s", kind_names[c->kind], is, should);
    fail(l, what);
}

static void run_line(list *l, char *line)
{
    call c;
    answer stated, given;
    l->number++;
    snprintf(run.place, sizeof run.place, "list %s, call %ld", l->name, l->number);
    if (!parse_call(&line, &c) || !parse_answer(&line, &stated)) {
        fail(l, "the line cannot be read");
        return;
    }
    if (once_in(4))
        lent_other_lengths(&l->lent, &c, below(4));
    given = lent_call(&l->lent, &c);
    if (l->lent.wrong != NULL)
        fail(l, l->lent.wrong);
    compare_answers(l, &c, &stated, &given);
}

static void start_list(list *l, const char *name)
{
    static uint8_t bytes[1 << 17];
    const call clear = {.kind = CLEAR};
    const answer stated = {0};
    answer given;
    snprintf(l->name, sizeof l->name, "%s", name == NULL ? "" : name);
    l->number = 0;
    l->failed = 0;
    snprintf(run.place, sizeof run.place, "list %s, clear", l->name);
    must_end();
    random_bytes(bytes, l->lent.memory.room);
    lent_start(&l->lent, (run.passed + run.failed) % 2, bytes);
    given = lent_call(&l->lent, &clear);
    compare_answers(l, &clear, &stated, &given);
    if (l->lent.wrong != NULL)
        fail(l, l->lent.wrong);
}

static void end_list(list *l)
{
    if (l->failed)
        run.failed++;
    else
        run.passed++;
}

int main(void)
{
    static char line[1 << 20];
    list l = {.lent = lent_new()};
    int inside = 0;
    catch_faults();
    if (rde_area_len() != RDE_AREA_LEN) {
        printf("rde_area_len() is %zu, RDE_AREA_LEN %d\n", rde_area_len(), RDE_AREA_LEN);
        run.failed++;
    }
    while (fgets(line, sizeof line, stdin) != NULL) {
        char *rest = line + 4;
        if (strncmp(line, "list", 4) == 0) {
            if (inside)
                end_list(&l);
            start_list(&l, next_word(&rest));
            inside = 1;
        } else if (strncmp(line, "end", 3) == 0 && inside) {
            end_list(&l);
            inside = 0;
        } else if (inside && !l.failed) {
            run_line(&l, line);
        }
    }
    if (inside) {
        fail(&l, "the list has no end");
        end_list(&l);
    }
    return finish();
}
